"""First parts of requests and files: each is answered as its own layout says."""

import json
import os
import re
import subprocess
import tomllib

from kit.case import case, fault_in
from kit.shop import answer, request_of

STEEL = '{"do":"material","kerf":3,"kind":"bar","material":"STEEL","min_long":20,"min_short":1,"number":1,"terminal":1}'
LENGTH = re.compile(r"[0-9]{1,6}(\.[0-9])?")
CODE = re.compile(r"[A-Z0-9-]{1,16}")


@case(
    "every prefix of a get",
    "A GET that ends early is answered 400, or nothing where no byte came; the whole one gets its reply.",
)
def gets(trial):
    shop = trial.shop()
    request = request_of('{"ask":"totals","material":"STEEL"}')
    for end in range(len(request)):
        trial.equal(shop.exchange(request[:end]), answer(400) if end else b"", request[:end])
    trial.equal(shop.exchange(request), answer(404, '{"name":"NoMaterial","refused":20}'), request)


def is_entry(value):
    """Whether this value of a list of materials is a table of a shop file's keys, each of its form."""
    keys = ["code", "kerf", "kind", "min_long", "min_short"]
    if not isinstance(value, dict) or sorted(value) != keys or not all(isinstance(it, str) for it in value.values()):
        return False
    lengths = [value[it] for it in ("kerf", "min_long", "min_short")]
    is_named = CODE.fullmatch(value["code"]) and value["kind"] in ("bar", "sheet")
    return bool(is_named) and all(LENGTH.fullmatch(it) for it in lengths)


def fault_of_shop(text):
    """The fault of a shop file, or `store` where it is read."""
    try:
        document = tomllib.loads(text)
    except tomllib.TOMLDecodeError:
        return "shop text"
    entries = document.get("material", [])
    if set(document) - {"material"} or not isinstance(entries, list) or len(entries) > 1000:
        return "shop text"
    bad = [number for number, it in enumerate(entries, 1) if not is_entry(it)]
    return f"shop entry {bad[0]}" if bad else "store"


@case(
    "prefixes of a shop file",
    "Each first part of a shop file is read, has its first bad entry reported, or is `fault shop text`.",
)
def shop_files(trial):
    text = '[[material]]\ncode = "STEEL"\nkind = "bar"\nkerf = "0.3"\nmin_long = "2.0"\nmin_short = "0.1"\n'
    text += text.replace("STEEL", "GLASS").replace("bar", "sheet")
    for end in trial.places(len(text) + 1, 3):
        trial.write("shop.toml", text[:end])
        # (a folder is no store, which is reported where the shop file is read)
        ran = trial.run("serve", "--port", "1", "--store", ".", "--shop", "shop.toml")
        trial.ended(ran, 1, err=f"fault {fault_of_shop(text[:end])}\n", sent=text[:end])


@case("a thousand entries of a shop file", "1000 good entries are read, and 1001 are `fault shop text`.")
def thousand(trial):
    entry = "{code='A',kind='bar',kerf='0',min_long='1',min_short='1'}"
    for count, fault in ((1000, "store"), (1001, "shop text")):
        trial.write("shop.toml", "material=[" + ",".join([entry] * count) + "]")
        ran = trial.run("serve", "--port", "1", "--store", ".", "--shop", "shop.toml")
        trial.ended(ran, 1, err=f"fault {fault}\n", sent=f"{count} entries")


def is_record(line):
    """Whether a line of an order file without quotes is a record of seven fields, each of its form."""
    number = re.compile(r"[0-9]{1,10}")
    forms = [number, CODE, LENGTH, LENGTH, re.compile("yes|no"), number, number]
    fields = line.split(",")
    return len(fields) == len(forms) and all(form.fullmatch(field) for form, field in zip(forms, fields))


@case(
    "prefixes of an order file",
    "Each first part of an order file is imported, refused 80 for its text, or refused 41 where it is the header " "alone.",
)
def order_files(trial):
    header = "line,material,length,width,turn,count,worth"
    text = f"{header}\n1,STEEL,3.0,0.1,no,3,30\n7,STEEL,12,0.1,no,10,444\n"
    lines, wanted, first = [STEEL], ['{"material":"STEEL","ok":"material"}'], 1
    for end in range(len(text) + 1):
        value = {"do": "import", "form": "csv", "number": end + 2, "order": f"P-{end}", "terminal": 1, "text": text[:end]}
        lines.append(json.dumps(value))
        head, *records = text[:end].removesuffix("\n").split("\n")
        if head != header or not all(is_record(it) for it in records):
            wanted.append('{"name":"BadText","refused":80}')
        elif not records:
            wanted.append('{"name":"BadLine","refused":41}')
        else:
            wanted.append(f'{{"act":0,"count":{len(records)},"first":{first},"ok":"import","order":"P-{end}"}}')
            first += len(records)
    replies = trial.replay(lines).out.decode().split("\n")
    for line, reply, want in zip(lines, replies, wanted):
        trial.equal(reply, want, line)
    trial.equal(len(replies), len(wanted) + 1)


@case(
    "a reader that is gone",
    "Where nobody reads standard output any more, `replay` and help end with status 1 and `fault write`.",
)
def gone(trial):
    for words in (("replay",), ("--help",)):
        reader, writer = os.pipe()
        os.close(reader)
        ran = subprocess.run([trial.program, *words], input=b"\n", stdout=writer, stderr=subprocess.PIPE)
        os.close(writer)
        trial.equal((ran.returncode, fault_in(ran.stderr)), (1, b"fault write\n"), words)


@case(
    "words that are no text",
    "A job, a material and a port whose bytes aren't UTF-8 are mistakes in the words; a material of 16 characters is "
    "asked for.",
)
def no_text(trial):
    serve = ("serve", "--store", "a.db", "--shop", "a.toml", "--port", b"\xff")
    for words in (("ticket", "--store", "a.db", b"\xff"), ("yield", "--store", "a.db", b"\xff"), serve):
        ran = trial.run(*words)
        trial.equal((ran.status, ran.out, ran.err[:7]), (2, b"", b"error: "), words)
    trial.ended(trial.run("yield", "--store", "a.db", "ABCDEFGHIJKLMNOP"), 1, err="refused 20 NoMaterial\n")
