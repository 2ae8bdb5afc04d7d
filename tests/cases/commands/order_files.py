"""Order files that the program reads by itself, and its version."""

import glob
import json
import re
import subprocess

from kit.case import SECONDS, TOP, case, fault_in
from kit.commands import mistaken
from kit.order_files import HEADER, JUDGED, MESSAGE, NO_ROW, OF_FIELD, ROW, SHOP
from kit.shop import VERSION, version_told

def rows(count):
    """So many rows, whose lines rise from 1."""
    return "".join(ROW.replace("1", str(it), 1) for it in range(1, count + 1))


# The sentences of the formats.
LONG = "the text is too long; write at most 65536 bytes"
SEMICOLONS = "the first line has semicolons; write commas between fields and a point before a tenth"
FIRST = "the first line is another; write line,material,length,width,turn,count,worth"
FIELDS = "the row has not seven fields; write seven with a comma between each two, and a point before a tenth"
MANY = "the row is one too many; write at most 200 below the first line"


def refused(trial, text, row, field, sentence, *words):
    """An order file's fault, with the three options and without them."""
    path = trial.write("orders.csv", text)
    for options in ((), MESSAGE):
        ran = trial.run("orders", path, *words, *options)
        trial.ended(ran, 1, err=f"fault order row {row} field {field}: {sentence}\n", sent=text)


@case(
    "lines of order files",
    "The number of an order file's lines is reported, of 200 too, with a byte order mark and quotes, and of one at all its limits.",
)
def lines(trial):
    for text, count in (
        (HEADER + ROW, 1),
        ("\ufeff" + HEADER.replace("\n", "\r\n") + '\r\n"1","STEEL","3.0","0.1","no","3","30"\r\n', 1),
        (HEADER + rows(200), 200),
        ((HEADER + ROW).ljust(65536, "\n"), 1),
        (HEADER + "4294967295,A,020000.0,6000,yes,1000000,1000000000\n", 1),
        (HEADER + "1,A,0.1,0.1,yes,1,1\n4294967295,B,0.1,0.1,no,1,1\n", 2),
    ):
        trial.ended(trial.run("orders", trial.write("orders.csv", text)), 0, f"{count} lines\n", sent=text)


@case(
    "messages of order files",
    "With the three options the message is one line, its keys in byte order, which the shop takes as it is, and the order is there.",
)
def messages(trial):
    text = "\ufeff" + HEADER + '2,STEEL,3.0,0.1,no,3,30\n"3",STEEL,2.0,0.1,no,1,20\n'
    ran = trial.run("orders", trial.write("orders.csv", text), *MESSAGE)
    wanted = {"do": "import", "form": "csv", "number": 7, "order": "A-1", "terminal": 4, "text": text}
    trial.equal((ran.status, ran.err, json.loads(ran.out)), (0, b"", wanted))
    line = ran.out.decode()
    at = [line.index(f'"{key}":') for key in wanted]
    trial.equal((at, line.count("\n"), line[-2:]), (sorted(at), 1, "}\n"), line)
    shop = trial.shop(shop_file=trial.write("shop.toml", STEEL))
    output = b'{"act":0,"count":2,"first":1,"ok":"import","order":"A-1"}'
    trial.equal(shop.reply(line), output, line)
    trial.equal(trial.replay([MATERIAL, line.strip()]).out.split(b"\n")[1], output, line)


STEEL = '[[material]]\ncode = "STEEL"\nkind = "bar"\nkerf = "0.3"\nmin_long = "2.0"\nmin_short = "0.1"\n'

MATERIAL = '{"do":"material","kerf":3,"kind":"bar","material":"STEEL","min_long":20,"min_short":1,"number":1,"terminal":1}'


@case("faults of order files", "Each field has a sentence of its own, at its row and place, and the first bad one is reported.")
def faults(trial):
    bad = [
        ("", "x", "-1", "1.0", "12345678901", "4294967296", " 1"),
        ("", "steel", "ABCDEFGHIJKLMNOPQ", "A B", "\u00c4"),
        ("", "1250,5 ", "1.25", "1234567", ".5", "-1", "3."),
        ("", "0,1x", "1.25", "1234567", ".5", "x"),
        ("", "Yes", "true", "nein", "1"),
        ("", "1.0", "4294967296", "x"),
        ("", "3e1", "-5", "12345678901"),
    ]
    for field, values in enumerate(bad):
        for value in values:
            fields = ROW.strip().split(",")
            fields[field] = f'"{value}"'
            row = ",".join(fields)
            refused(trial, f"{HEADER}{row}\n", 1, field, OF_FIELD[field])
            refused(trial, f"{HEADER}{ROW}\n{ROW}{row}\n", 3, field, OF_FIELD[field])
    refused(trial, HEADER + "x,steel,1,1,no,1,1\n", 1, 0, OF_FIELD[0])
    refused(trial, HEADER + ROW + ROW.replace("30", "x") + "x" + ROW, 2, 6, OF_FIELD[6])


@case(
    "faults of an order file's shape",
    "Another header, semicolons, a row of another length, a 201st row, a text too long and one without a row have "
    "sentences of their own.",
)
def shapes(trial):
    refused(trial, "", 0, 7, FIRST)
    refused(trial, "\n\n", 0, 7, FIRST)
    refused(trial, "line,material\n" + ROW, 0, 7, FIRST)
    refused(trial, ROW, 0, 0, FIRST)
    refused(trial, HEADER.replace("width", "breite"), 0, 3, FIRST)
    refused(trial, HEADER.replace("line", "Line"), 0, 0, FIRST)
    refused(trial, (HEADER + ROW).replace(",", ";"), 0, 7, SEMICOLONS)
    refused(trial, "\ufeff" + (HEADER + ROW).replace(",", ";").replace(".", ","), 0, 7, SEMICOLONS)
    refused(trial, "a;b\r\n", 0, 7, SEMICOLONS)
    refused(trial, "a;b,c\n", 0, 7, FIRST)
    refused(trial, "a\nb;c\n", 0, 7, FIRST)
    refused(trial, HEADER + ROW.replace(",", ";"), 1, 7, FIELDS)
    refused(trial, HEADER + "1,STEEL,3,0,0,1,no,3,30\n", 1, 7, FIELDS)
    refused(trial, HEADER + ROW + "1,STEEL\n", 2, 7, FIELDS)
    refused(trial, HEADER + ROW * 201, 201, 7, MANY)
    refused(trial, HEADER + ROW * 200 + "x\n", 201, 7, MANY)
    refused(trial, (HEADER + ROW).ljust(65537, "\n"), 0, 7, LONG)
    refused(trial, (HEADER + ROW).replace(",", ";").ljust(65537, "\n"), 0, 7, LONG)


@case(
    "judgements of order files",
    "Without a store and a shop file an order file is judged: it has a line; its line numbers rise and none is 0; lengths, widths, "
    "counts and worths are in their ranges. Of any material a width may be a sheet's, and a piece may turn.",
)
def judged(trial):
    for text in (HEADER, HEADER.strip(), HEADER + "\n\r\n"):
        refused(trial, text, 1, 7, NO_ROW)
    for field, values in (
        (0, ("0", "0000000000")),
        (2, ("0", "0.0", "000000", "20000.1", "999999.9")),
        (3, ("0", "0.0", "6000.1", "999999")),
        (5, ("0", "1000001", "4294967295")),
        (6, ("0", "1000000001", "4294967295")),
    ):
        for value in values:
            bad = ROW.strip().split(",")
            bad[field] = value
            refused(trial, f"{HEADER}{','.join(bad)}\n", 1, field, JUDGED[field])
            if field:
                bad[0] = "7"
                refused(trial, f"{HEADER}{ROW}\n{','.join(bad)}\n", 2, field, JUDGED[field])
    for numbers, row in (("11", 2), ("21", 2), ("10", 2), ("122", 3), ("131", 3), ("0", 1)):
        text = "".join(ROW.replace("1", it, 1) for it in numbers)
        refused(trial, HEADER + text, row, 0, JUDGED[0])
    for text in ("1,A,0.1,6000.0,no,1,1\n", "1,A,20000.0,0.1,yes,1,1\n"):
        trial.ended(trial.run("orders", trial.write("orders.csv", HEADER + text)), 0, "1 lines\n", sent=text)


@case(
    "the first bad field of an order file",
    "Of several bad fields the first of the first bad row is reported; what can't be read stands before what is judged, in whichever row.",
)
def first_bad(trial):
    refused(trial, HEADER + "0,A,0,0,no,0,0\n", 1, 0, JUDGED[0])
    refused(trial, HEADER + "1,A,0,0,no,0,0\n", 1, 2, JUDGED[2])
    refused(trial, HEADER + "1,A,1,0,no,0,0\n", 1, 3, JUDGED[3])
    refused(trial, HEADER + "1,A,1,1,no,0,0\n", 1, 5, JUDGED[5])
    refused(trial, HEADER + "1,A,1,1,no,1,0\n1,A,1,1,no,1,1\n", 1, 6, JUDGED[6])
    refused(trial, HEADER + "1,A,1,1,no,0,0\n2,A,1,1,no,1,1\n2,a,1,1,no,1,1\n", 3, 1, OF_FIELD[1])
    refused(trial, HEADER + "0,A,1,1,no,0,0\n" + ROW * 200, 201, 7, MANY)


@case(
    "judgements of order files by a shop file",
    "With a shop file a line's material is one of it, and a bar's pieces are 0.1 wide and don't turn; what is judged without it is "
    "judged too, line by line.",
)
def judged_by_shop(trial):
    by = ("--shop", trial.write("shop.toml", SHOP))

    def good(text, count):
        path = trial.write("orders.csv", HEADER + text)
        trial.ended(trial.run("orders", path, *by), 0, f"{count} lines\n", sent=text)

    def bad(text, row, field):
        refused(trial, HEADER + text, row, field, JUDGED[field], *by)

    good("1,STEEL,20000.0,0.1,no,1,1\n2,GLASS,20000.0,6000.0,yes,1,1\n3,GLASS,0.1,0.1,no,1,1\n", 3)
    refused(trial, HEADER, 1, 7, NO_ROW, *by)
    bad("1,IRON,1.0,0.1,no,1,1\n", 1, 1)
    bad("1,STEEL,1.0,0.1,no,1,1\n2,STEE,1.0,0.1,no,1,1\n", 2, 1)
    for width in ("0.0", "0.2", "1.0", "6000.0", "6000.1"):
        bad(f"1,STEEL,1.0,{width},no,1,1\n", 1, 3)
    bad("1,STEEL,1.0,0.1,yes,1,1\n", 1, 4)
    bad("1,GLASS,1.0,6000.1,yes,1,1\n", 1, 3)
    bad("1,STEEL,0.0,0.2,yes,0,0\n", 1, 2)
    bad("1,STEEL,1.0,0.2,yes,0,0\n", 1, 3)
    bad("1,STEEL,1.0,0.1,yes,0,0\n", 1, 4)
    bad("1,STEEL,1.0,0.1,no,0,0\n", 1, 5)
    bad("1,STEEL,1.0,0.1,no,1,0\n", 1, 6)
    bad("0,IRON,0.0,0.2,yes,0,0\n", 1, 0)
    bad("1,IRON,0.0,0.2,yes,0,0\n", 1, 1)
    # without the shop file the second row's length is the first bad field, with it the first row's material
    text = "1,IRON,1.0,0.1,no,1,1\n2,STEEL,0.0,0.1,no,1,1\n"
    refused(trial, HEADER + text, 2, 2, JUDGED[2])
    bad(text, 1, 1)
    ran = trial.run("orders", trial.write("orders.csv", HEADER + ROW), *by, *MESSAGE)
    trial.equal((ran.status, json.loads(ran.out)["text"]), (0, HEADER + ROW))
    trial.write("shop.toml", "")
    bad(ROW, 1, 1)


@case(
    "faults of a shop file beside an order file",
    "A shop file that can't be read, is no TOML or has a bad entry is reported behind a field that can't be read and before one that is "
    "judged; the second line names it.",
)
def shop_faults(trial):
    trial.write("shop.toml", SHOP)
    trial.write("bad.toml", SHOP.replace('"bar"', '"rod"'))
    trial.write("none.toml", "x = 1\n")
    good, judged, unread = HEADER + ROW, HEADER + ROW.replace(",3,", ",0,"), HEADER + "x" + ROW
    for shop, line, why in (
        ("no.toml", "fault file", "no.toml: there is no such file"),
        (".", "fault file", ".: it is a folder; name a file"),
        ("none.toml", "fault shop text", "none.toml, line 1: write [[material]] above each material, and no key named x"),
        ("bad.toml", "fault shop entry 1", 'bad.toml, line 4: the kind is "bar" or "sheet"'),
    ):
        for text in (good, judged):
            trial.write("orders.csv", text)
            for options in ((), MESSAGE):
                ran = trial.run("orders", "orders.csv", "--shop", shop, *options)
                trial.ended(ran, 1, err=f"{line}\n", why=why, sent=f"{shop} {text}")
        refused(trial, unread, 1, 0, OF_FIELD[0], "--shop", shop)
        ran = trial.run("orders", "no.csv", "--shop", shop)
        trial.ended(ran, 1, err="fault file\n", why="no.csv: there is no such file", sent=shop)


@case("order files that can't be read", "A file that isn't there and a folder are `fault file`, and a full output is `fault write`.")
def unread(trial):
    for name in ("no.csv", "."):
        for options in ((), MESSAGE):
            trial.ended(trial.run("orders", name, *options), 1, err="fault file\n", sent=name)
    path = trial.write("orders.csv", HEADER + ROW)
    for options in ((), MESSAGE):
        with open("/dev/full", "wb") as full:
            ran = subprocess.run([trial.program, "orders", path, *options], stdout=full, stderr=subprocess.PIPE, timeout=SECONDS)
        trial.equal((ran.returncode, fault_in(ran.stderr)), (1, b"fault write\n"))


@case(
    "words of an order's message",
    "The three options come together or not at all, with a code, a terminal of 1 to 4294967295 and a number of 0 to "
    "4294967295; all else ends with status 2 and a text that names it.",
)
def words(trial):
    path = trial.write("orders.csv", HEADER + ROW)
    order, terminal, number = MESSAGE[:2], MESSAGE[2:4], MESSAGE[4:]
    lacking = [(order, "--terminal <N>"), (terminal, "--order <CODE>"), (number, "--order <CODE>")]
    lacking += [(order + terminal, "--number <N>"), (order + number, "--terminal <N>"), (terminal + number, "--order <CODE>")]
    mistakes = [(it, f"'{lacks}' is missing: --order, --terminal and --number stand together") for it, lacks in lacking]
    mistakes += [(("--order", it) + terminal + number, f"'{it}' for '--order <CODE>': a code is 1 to 16") for it in ("a-1", "")]
    mistakes += [(("--order", "a-1"), "'a-1' for '--order <CODE>'")]
    mistakes += [(MESSAGE + order, "'--order <CODE>'"), (order + ("--terminal", "-1") + number, "'-1'")]
    mistakes += [(order + ("--terminal", it) + number, f"'{it}' for '--terminal <N>'") for it in ("0", "4294967296", "x")]
    mistakes += [(order + terminal + ("--number", "-1"), "'-1'")]
    mistakes += [(order + terminal + ("--number", it), f"'{it}' for '--number <N>'") for it in ("4294967296", "x", "")]
    for options, named in mistakes:
        mistaken(trial, ("orders", path, *options), named)
    mistaken(trial, ("orders",), "<FILE>")
    for terminal, number in (("1", "0"), ("4294967295", "4294967295")):
        ran = trial.run("orders", path, *order, "--terminal", terminal, "--number", number)
        value = json.loads(ran.out)
        trial.equal((ran.status, value["terminal"], value["number"]), (0, int(terminal), int(number)))


@case(
    "the version",
    "`--version` and `-V` print `cutshop` and the version on one line, with status 0: the one that the documents report of it, and "
    "` (unproved)` behind it where the program was built without proofs.",
)
def version(trial):
    output = set()
    for path in glob.glob(f"{TOP}/*.md") + glob.glob(f"{TOP}/docs/*.md"):
        with open(path, encoding="utf-8") as file:
            output |= set(re.findall(r"\b(?:cutshop|[Vv]ersion) (\d+\.\d+\.\d+)\b", file.read()))
    trial.equal(output, {VERSION}, "the documents")
    for word in ("--version", "-V"):
        trial.ended(trial.run(word), 0, f"cutshop {version_told()}\n", sent=word)


# Of each command's help the lines of these words, and the unit that each says.
UNITS = {
    "plan": {"<FILE>": "tenths of a millimetre", "--kerf": "tenths of a millimetre", "--step": "tenths of a millimetre"},
    "orders": {"<FILE>": "in millimetres"},
    "serve": {"--shop": "in millimetres"},
}


# Of each command's help what the line of each option says that no other one of its lines does.
MEANT = {
    "plan": {
        "--whole": "all pieces",
        "--calls": "in tables",
        "--stages": "how many stages",
        "--kerf": "saw",
        "--step": "rounded",
        "--shop": "shop file of an order file's materials",
        "--material": "material whose lines",
        "--size": "size of the units",
    },
    "orders": {"--shop": "by whose materials", "--order": "order's code", "--terminal": "terminal that sends", "--number": "message's number"},
    "serve": {
        "--port": "port of this machine",
        "--store": "keeps the shop's book",
        "--shop": "its materials",
        "--limit": "connections",
        "--page": "page that browsers get",
        "--backup": "backup of the store is made",
    },
    "ticket": {"--store": "keeps the shop's book", "JOB": "job's number"},
    "yield": {"--store": "keeps the shop's book", "MATERIAL": "material's code"},
    "history": {"--store": "keeps the shop's book", "--after": "greater numbers"},
    "audit": {"--store": "keeps the shop's book"},
    "restore": {"--store": "keeps the shop's book", "--from": "folder of backups"},
}


@case("what help says of each option", "Help says of each option and each word of a command what it is, at its own line and at no other one's.")
def meant(trial):
    for command, options in MEANT.items():
        ran = trial.run(command, "--help")
        lines = [it.strip() for it in ran.out.decode().split("\n")]
        for option, words in options.items():
            said = [it.startswith((option, f"<{option}>")) for it in lines if words in it]
            trial.equal((ran.status, said), (0, [True]), f"{command} {option}: {words}")


@case("units in help", "Help says of each number and of each file in which unit it is, at its own line.")
def units(trial):
    ran = trial.run("--help")
    trial.equal((ran.status, b"tenths of a millimetre" in ran.out, b"say millimetres" in ran.out), (0, True, True), ran.out)
    for command, words in UNITS.items():
        ran = trial.run(command, "--help")
        lines = [it.strip() for it in ran.out.decode().split("\n")]
        said = {word: [unit in it for it in lines if it.startswith(word + " ")] for word, unit in words.items()}
        trial.equal((ran.status, said), (0, {it: [True] for it in words}), command)
