"""The program's commands: what they print, the status that they end with, and the line that reports a fault."""

import os
import subprocess

from kit import tables
from kit.case import case
from kit.commands import GLASS, MISTAKE, STEEL, all_mistaken, mistaken, over, planned, serving, taken_port, plan_output


@case(
    "plans of problem files",
    "A piece as large as its sheet, one that fits but not rounded up, one of 500 steps, and a problem of 66 for a "
    "piece of 4 by 3 of which two are cut.",
)
def plans(trial):
    planned(trial, "1 4 3 4 3 1 12", plan_output(12, 12, 0, "p1"))
    planned(trial, "1 4 3 4 3 1 12", plan_output(12, 12, 0, "p1"), kerf="200")
    planned(trial, "1 5 3 5 3 1 9", plan_output(0, 9, 0, "r"), step="2")
    planned(trial, "1 500 1 500 1 1 7", plan_output(7, 7, 0, "p1"))


@case(
    "a problem whose best tree drops pieces",
    "Two pieces of 4 by 3 worth 66 are planned, where four fit: worth 132, ceiling 264, dropped 2, and no piece of 5 " "by 8.",
)
def dropping(trial):
    path = trial.write("problem.txt", "  2 10 8\r\n4 3 2 66\r\n5 8 1 40\r\n")
    ran = trial.run("plan", path, "--kerf", "1", "--step", "1")
    lines = ran.out.decode().split("\n")
    trial.equal((ran.status, lines[:3], lines[4:]), (0, ["worth 132", "ceiling 264", "dropped 2"], [""]))
    words = lines[3].split(" ")
    trial.equal((words[0], words.count("p1"), words.count("p2")), ("tree", 2, 0), lines[3])


@case(
    "faults of problem texts",
    "The first fault of a problem's text is reported with its place, then the planner's, each with status 1.",
)
def faults_of_problems(trial):
    planned(trial, "2 10 8 4 3 2 66 5 8 1", "fault text 21 Short")
    planned(trial, "2 10 8 4 3 2 66 5 8 1 40 7", "fault text 25 Long")
    planned(trial, "2 10 8 4 3 2 66.0 5 8 1 40", "fault text 15 Byte")
    planned(trial, "0 10 8", "fault text 0 Number")
    planned(trial, "", "fault text 0 Short")
    planned(trial, "9" * 60000, "fault text 0 Number")
    planned(trial, "1 4 3 5 3 1 9", "refused 90 NothingFits")
    planned(trial, "1 501 1 1 1 1 1", "refused 91 TableTooLarge")
    for kerf, step in (("0", "6"), ("0", "0"), ("200", "200000")):
        planned(trial, "1 10 10 5 5 2 25", "refused 92 BadStep", kerf, step)
    planned(trial, "40 4 4" + " 5 5 1 1" * 40, "refused 90 NothingFits")
    planned(trial, "41 4 4" + " 5 5 1 1" * 41, "refused 93 BadWant")


@case(
    "lengths of problem texts",
    "A text of 65536 bytes is read, and one byte more is too long, as is a file of 64 GiB, which isn't read to its end.",
)
def lengths(trial):
    planned(trial, " " * 65536, "fault text 65536 Short")
    planned(trial, " " * 65537, "fault text 65536 Long")
    planned(trial, "1 4 3 4 3 1 12".ljust(65536), plan_output(12, 12, 0, "p1"))
    with open(trial.path("huge.txt"), "wb") as file:
        file.truncate(1 << 36)
    trial.ended(trial.run("plan", "huge.txt", "--kerf", "0", "--step", "1"), 1, err="fault text 65536 Long\n")


def fault_of(text):
    """The first fault of a problem's text, by the layout alone, or None."""
    for at, byte in enumerate(text):
        if byte not in b"0123456789 \t\r\n":
            return f"{at} Byte"
    places = [
        at
        for at in range(len(text))
        if text[at : at + 1].isdigit() and not text[at - 1 : at].isdigit() or at == 0 and text[:1].isdigit()
    ]
    numbers = [int(text[at:].split()[0]) for at in places]
    most = [200, 200000, 60000]
    if numbers and 1 <= numbers[0] <= 200:
        most += [200000, 60000, 1000000, 1000000000] * numbers[0]
    for at, number, limit in zip(places, numbers, most):
        if not 1 <= number <= limit:
            return f"{at} Number"
    if len(numbers) < len(most):
        return f"{len(text)} Short"
    return f"{places[len(most)]} Long" if len(numbers) > len(most) else None


@case("prefixes of a problem text", "Each first part of a problem's text has the fault that its layout says.")
def prefixes(trial):
    text = b"  2 10 8\r\n4 3 2 66\r\n5 8 1 40\r\n"
    for end in range(len(text)):
        fault = fault_of(text[:end])
        path = trial.write("problem.txt", text[:end])
        ran = trial.run("plan", path, "--kerf", "1", "--step", "1")
        if fault:
            trial.ended(ran, 1, err=f"fault text {fault}\n", sent=text[:end])
        else:
            trial.equal((ran.status, ran.err), (0, b""), text[:end])


@case(
    "files that can't be read",
    "A file that isn't there and a folder are `fault file`, for `plan` and for the shop file of `serve`.",
)
def no_files(trial):
    for name in ("no.txt", "."):
        trial.ended(trial.run("plan", name, "--kerf", "0", "--step", "1"), 1, err="fault file\n", sent=name)
        trial.ended(trial.run("serve", "--port", "1", "--store", "a.db", "--shop", name), 1, err="fault file\n", sent=name)


@case(
    "outputs that can't be written",
    "Where standard output takes no byte, `replay`, `plan`, `ticket`, `yield`, `history`, `audit`, `serve` and help end with status 1 and "
    "`fault write`.",
)
def no_output(trial):
    shop = trial.shop(shop_file=trial.write("shop.toml", GLASS), limit=4)
    for line in DAY:
        shop.reply(line)
    shop.end()
    lines = trial.write("lines", "\n")
    problem = trial.write("problem.txt", "1 4 3 4 3 1 12")
    serve = ("serve", "--port", str(shop.port), "--store", shop.store, "--shop", shop.shop_file)
    commands = [("replay",), ("plan", problem, "--kerf", "0", "--step", "1"), ("--help",), serve]
    commands += [("ticket", "--store", shop.store, "2"), ("yield", "--store", shop.store, "GLASS")]
    commands += [("history", "--store", shop.store), ("audit", "--store", shop.store)]
    for words in commands:
        trial.equal(over(trial, *words, given=lines, out="/dev/full"), (1, b"fault write\n"), " ".join(words))


@case("an input that can't be read", "Where standard input is a folder `replay` ends with status 1 and `fault read`.")
def no_input(trial):
    trial.equal(over(trial, "replay", given=trial.folder), (1, b"fault read\n"))


@case("errors that can't be written", "Where standard error takes no byte the status alone reports the fault.")
def no_errors(trial):
    ran = subprocess.run(
        [trial.program, "plan", "no.txt", "--kerf", "0", "--step", "1"], stderr=open("/dev/full", "wb"), cwd=trial.folder
    )
    trial.equal(ran.returncode, 1)


DAY = [
    '{"batch":"G-7","count":1,"do":"receive","h":8,"material":"GLASS","number":1,"terminal":1,"w":10}',
    '{"do":"order","lines":[{"count":1,"h":3,"line":1,"material":"GLASS","turn":false,"w":4,"worth":12},'
    '{"count":1,"h":4,"line":2,"material":"GLASS","turn":false,"w":4,"worth":16},'
    '{"count":1,"h":3,"line":3,"material":"GLASS","turn":false,"w":5,"worth":15}],"number":2,"order":"A-1","terminal":1}',
    '{"do":"reserve","number":3,"part":"1/0","terminal":1,"tree":"x4 y3 p1 p2 r"}',
    '{"do":"done","job":2,"number":4,"terminal":1}',
]

TICKET = """job 2 done
part 1/0 GLASS 1.0 x 0.8 kerf 0.1
   0 cut x 0.4 at 0.0 0.0 of 1.0 x 0.8
   1 cut y 0.3 at 0.0 0.0 of 0.4 x 0.8
   2 piece at 0.0 0.0 of 0.4 x 0.3 demand 1 A-1 line 1
   3 piece at 0.0 0.4 of 0.4 x 0.4 demand 2 A-1 line 2
   4 rest at 0.5 0.0 of 0.5 x 0.8
cuts 2 pieces 2
"""

YIELD = """yield GLASS sheet
received               80
stock                   0
rack                   40
pieces                 28
kerf                   12
scrap                   0
returned                0
yield 35.0 %
part 2/4 0.5 x 0.8 standing
end
"""


@case(
    "ticket and yield of a store",
    "`ticket` and `yield` print what the books of a store have; an unknown job and material are refused 70 and 20.",
)
def printed(trial):
    shop = trial.shop(shop_file=trial.write("shop.toml", GLASS), limit=len(DAY))
    for line in DAY:
        shop.reply(line)
    trial.equal(shop.end()[0], 0)
    for _ in range(2):
        trial.ended(trial.run("ticket", "--store", shop.store, "2"), 0, TICKET)
        trial.ended(trial.run("yield", "--store", shop.store, "GLASS"), 0, YIELD)
    trial.ended(trial.run("ticket", "--store", shop.store, "3"), 1, err="refused 70 NoJob\n")
    trial.ended(trial.run("ticket", "--store", shop.store, "2147483647"), 1, err="refused 70 NoJob\n")
    trial.ended(trial.run("yield", "--store", shop.store, "IRON"), 1, err="refused 20 NoMaterial\n")


@case(
    "a store that isn't there is made",
    "`ticket` and `yield` on a new file are refused 70 and 20, and the file is an empty shop then.",
)
def made(trial):
    trial.ended(trial.run("ticket", "--store", "new.db", "1"), 1, err="refused 70 NoJob\n")
    trial.ended(trial.run("yield", "--store", "new.db", "STEEL"), 1, err="refused 20 NoMaterial\n")
    trial.holds(os.path.exists(trial.path("new.db")), "new.db is there")


@case(
    "faults of serve in order",
    "The shop file's text comes before the store, the store before the shop's entries, the entries before the port.",
)
def order_of_faults(trial):
    with taken_port() as port:
        trial.write("text.toml", "material = 1")
        trial.write("entry.toml", STEEL + "[[material]]\ncode = 1\n")
        trial.write("bad.toml", STEEL.replace("2.0", "0.0"))
        trial.write("shop.toml", STEEL)
        wanted = [
            ("no.toml", ".", "fault file"),
            ("text.toml", ".", "fault shop text"),
            ("entry.toml", ".", "fault shop entry 2"),
        ]
        wanted += [
            ("bad.toml", ".", "fault store"),
            ("bad.toml", "a.db", "shop entry 1 refused 22 BadMaterial"),
            ("shop.toml", "b.db", "fault port"),
        ]
        for shop, store, line in wanted:
            trial.ended(serving(trial, port, store, shop), 1, err=f"{line}\n", sent=f"{shop} {store}")


@case(
    "a shop file that grows",
    "Entries are added once; a further one at the end is added, a changed one is refused 11, and a known material "
    "with other values 21.",
)
def growing(trial):
    trial.write("shop.toml", STEEL)
    shop = trial.shop("a.db", shop_file=trial.path("shop.toml"))
    trial.holds(shop.is_open, "the shop doesn't open")
    shop.kill()
    with taken_port() as port:
        wanted = [(STEEL, "fault port"), (STEEL, "fault port"), (STEEL + GLASS, "fault port")]
        wanted += [(STEEL.replace("0.3", "0.4") + GLASS, "shop entry 1 refused 11 NumberReused")]
        wanted += [
            (STEEL + GLASS + STEEL.replace("0.3", "0.4"), "shop entry 3 refused 21 MaterialExists"),
            (STEEL + GLASS + STEEL, "fault port"),
        ]
        for text, line in wanted:
            trial.write("shop.toml", text)
            trial.ended(serving(trial, port, "a.db", "shop.toml"), 1, err=f"{line}\n", sent=text)
    shop = trial.shop("a.db", shop_file=trial.path("shop.toml"))
    trial.equal(shop.reply('{"ask":"totals","material":"GLASS"}')[:11], b'{"kerf":0,"')


@case(
    "shop files at their limits",
    "1000 entries and 65536 bytes are read; 1001 entries, 65537 bytes, another key and no list are `fault shop text`; "
    "the first bad entry is reported.",
)
def shop_files(trial):
    short = 'code = "{}"\nkind = "bar"\nkerf = "0"\nmin_long = "1"\nmin_short = "0.1"\n'
    texts = [("material = {}", "fault shop text"), ("[material]", "fault shop text"), ("x = 1\n" + STEEL, "fault shop text")]
    texts += [("material = [1]", "fault shop entry 1"), (STEEL.replace('"bar"', '"rod"'), "fault shop entry 1")]
    texts += [(STEEL + "[[material]]\n" + short.format("steel"), "fault shop entry 2"), (b"\xff", "fault shop text")]
    texts += [("\n" * 65537, "fault shop text"), ("material = [" + "1," * 1001 + "]", "fault shop text")]
    texts += [("material = [" + "1," * 1000 + "]", "fault shop entry 1")]
    for text, line in texts:
        trial.write("shop.toml", text)
        trial.ended(serving(trial, 1, ".", "shop.toml"), 1, err=f"{line}\n", sent=text)
    for text in ("", "# nothing\n", "material = []", "\n" * 65536):
        trial.write("shop.toml", text)
        trial.ended(serving(trial, 1, ".", "shop.toml"), 1, err="fault store\n", sent=text)


@case(
    "stores that are none",
    "A file that is no database and a folder are `fault store`, and the file stays as it was; tables of another make "
    "are `fault version`.",
)
def no_stores(trial):
    junk = trial.write("junk.db", "no database")
    tables.change(trial.path("other.db"), "CREATE TABLE parts (name TEXT) STRICT")
    for store, line in (
        (junk, "fault store"),
        (".", "fault store"),
        ("no/such.db", "fault store"),
        ("other.db", "fault version"),
    ):
        trial.ended(trial.run("ticket", "--store", store, "1"), 1, err=f"{line}\n", sent=store)
        trial.ended(trial.run("yield", "--store", store, "STEEL"), 1, err=f"{line}\n", sent=store)
    with open(junk, "rb") as file:
        trial.equal(file.read(), b"no database")


@case(
    "words at both ends of their ranges",
    "Ports from 1 to 65535 and limits from 1 to 1000000 are taken: the shop file is what is missing. Others are "
    "mistakes, with status 2.",
)
def ranges(trial):
    for port, limit in (("1", "1"), ("65535", "1000000"), ("+1", "007")):
        ran = trial.run("serve", "--port", port, "--store", "a.db", "--shop", "no.toml", "--limit", limit)
        trial.ended(ran, 1, err="fault file\n", sent=f"{port} {limit}")
    options = [("--host", "shop")] * 10 + [("--origin", f"https://shop-{it}.example:8017") for it in range(9)] + [("--origin", "http://[::1]")]
    words = [word for option in options for word in option]
    ran = trial.run("serve", "--port", "1", "--store", "a.db", "--shop", "no.toml", *words)
    trial.ended(ran, 1, err="fault file\n", sent="ten names and ten origins")
    for kerf, step in (("0", "0"), ("200", "200000")):
        trial.ended(
            trial.run("plan", "no.txt", f"--kerf={kerf}", f"--step={step}"), 1, err="fault file\n", sent=f"{kerf} {step}"
        )


# Mistakes, each with what its text names.
MISTAKES = """
serve = --port <N>
serve = --store <FILE>
serve = --shop <FILE>
replay lines.txt = 'lines.txt'
replay --kerf 1 = '--kerf'
plan --kerf 1 --step 1 = <FILE>
plan a.txt b.txt --kerf 1 --step 1 = 'b.txt'
plan a.txt --kerf 1 = '--step <N>' is missing
plan a.txt --step 1 = --kerf <N>
plan a.txt --kerf 201 --step 1 = '201' for '--kerf <N>'
plan a.txt --kerf -1 --step 1 = '-1'
plan a.txt --kerf 1x --step 1 = '1x' for '--kerf <N>'
plan a.txt --kerf 1 --step 200001 = '200001' for '--step <N>'
plan a.txt --kerf 1 --kerf 2 --step 1 = '--kerf <N>'
plan a.txt --kerf 1 --step 1 --port 1 = '--port'
plan a.txt --whole = '--kerf <N>' is missing
plan a.csv --shop a.toml --material GLASS --size 1.0x1.0 = '--whole' is missing
plan a.csv --whole --material GLASS --size 1.0x1.0 = '--shop <FILE>' is missing
plan a.csv --whole --shop a.toml --size 1.0x1.0 = '--material <CODE>' is missing
plan a.csv --whole --shop a.toml --material GLASS = '--size <WxH>' is missing
plan a.csv --whole --size 1.0x1.0 = '--shop <FILE>' is missing
plan a.csv --whole --shop a.toml --material GLASS --size 1.0x1.0 --kerf 1 = '--kerf <N>' may not be given with '--shop'
plan a.csv --whole --shop a.toml --material GLASS --size 1.0x1.0 --step 1 = '--step <N>' may not be given with '--shop'
plan a.csv --whole --shop a.toml --material GLASS --size 1.0x1.0 --calls 0 = '0' for '--calls <N>'
plan a.csv --whole --shop a.toml --shop b.toml --material GLASS --size 1.0x1.0 = '--shop <FILE>'
orders a.csv --shop a.toml --shop b.toml = '--shop <FILE>'
orders a.csv --shop a.toml --material GLASS = '--material'
history --after 1 = --store <FILE>
history --store a.db --after x = 'x' for '--after <N>'
history --store a.db --after 4294967296 = '4294967296' for '--after <N>'
history --store a.db --after 1 --after 2 = '--after <N>'
history --store a.db 1 = '1'
audit = --store <FILE>
audit --store a.db --after 1 = '--after'
audit --store a.db 1 = '1'
restore --store a.db = --from <FOLDER/N>
restore --from b/1 = --store <FILE>
restore --store a.db --from b/1 c = 'c'
ticket --store a.db 1 --read-only=1 = '1' for '--read-only'
serve --port 1 --store a.db --shop a.toml --read-only = '--read-only'
serve --port 1 --store a.db --shop a.toml --origin shop.example = 'shop.example' for '--origin <ORIGIN>'
serve --port 1 --store a.db --shop a.toml --origin https:// = 'https://' for '--origin <ORIGIN>'
serve --port 1 --store a.db --shop a.toml --origin https://shop.example/ = 'https://shop.example/' for '--origin <ORIGIN>'
serve --port 1 --store a.db --shop a.toml --origin https://:8017 = 'https://:8017' for '--origin <ORIGIN>'
serve --port 1 --store a.db --shop a.toml --origin ftp://shop.example = 'ftp://shop.example' for '--origin <ORIGIN>'
serve --port 1 --store a.db --shop a.toml --origin https://a --origin b = 'b' for '--origin <ORIGIN>'
ticket --store a.db 0 = '0' for '<JOB>'
ticket --store a.db 2147483648 = '2147483648' for '<JOB>'
ticket --store a.db x = 'x' for '<JOB>'
ticket --store a.db 1 2 = '2'
ticket --store a.db = <JOB>
ticket 1 = --store <FILE>
yield --store a.db steel = 'steel' for '<MATERIAL>': a code is 1 to 16 of A-Z, 0-9 and -
yield --store a.db ABCDEFGHIJKLMNOPQ = 'ABCDEFGHIJKLMNOPQ' for '<MATERIAL>'
yield --store a.db = <MATERIAL>
yield STEEL = --store <FILE>
serve --port 0 --store a.db --shop a.toml = '0' for '--port <N>'
serve --port 65536 --store a.db --shop a.toml = '65536' for '--port <N>'
serve --port x --store a.db --shop a.toml = 'x' for '--port <N>'
serve --port 1 --store a.db --shop a.toml --limit 0 = '0' for '--limit <N>'
serve --port 1 --store a.db --shop a.toml --limit 1000001 = '1000001' for '--limit <N>'
serve --port 1 --store a.db --shop a.toml --limit 1 --limit 2 = '--limit <N>'
serve --port 1 --store a.db --shop a.toml --pages a.html = '--pages'
serve --port 1 --store a.db = --shop <FILE>
serve --port 1 --shop a.toml = --store <FILE>
nothing = 'nothing'
--nothing = '--nothing'
"""


@case(
    "mistakes in the words",
    "An unknown word, one too many, one out of range and one that lacks end with status 2, an error on standard error that "
    "names it, and nothing on standard output; so do no words.",
)
def mistakes(trial):
    all_mistaken(trial, MISTAKES)
    eleven = (
        (("serve", "--port", "1", "--store", "a.db", "--shop", "a.toml"), "--host", "shop", "'--host <NAME>' may be given at most 10 times"),
        (("serve", "--port", "1", "--store", "a.db", "--shop", "a.toml"), "--origin", "http://a", "'--origin <ORIGIN>' may be given at most 10 times"),
        (("plan", "a.csv", "--whole", "--shop", "a.toml", "--material", "A"), "--size", "1.0", "'--size <WxH>' may be given at most 10 times"),
    )
    for words, option, value, named in eleven:
        mistaken(trial, (*words, *[option, value] * 11), named)
    ran = trial.run()
    trial.equal((ran.status, ran.out, bool(ran.err)), (2, b"", True), "no word")
    ran = subprocess.run([trial.program, b"\xff"], capture_output=True, cwd=trial.folder)
    trial.equal((ran.returncode, ran.stdout, ran.stderr[:7]), (2, b"", MISTAKE), "a word that is no UTF-8")
    trial.equal(os.listdir(trial.folder), [], "files that are made")


@case(
    "what stops a serve before its store",
    "A mistake in the words, a shop file that is bad or isn't there, a page that isn't there or is too large, and a folder of "
    "backups that isn't there make no store, and leave one that is there byte for byte.",
)
def before_store(trial):
    for name, text in (("text.toml", "material = 1"), ("entry.toml", STEEL + "[[material]]\ncode = 1\n"), ("shop.toml", STEEL)):
        trial.write(name, text)
    trial.write("long.html", b"a" * 1048577)
    trial.write("page.html", b"<p>")
    trial.run("ticket", "--store", "old.db", "1")
    with open(trial.path("old.db"), "rb") as file:
        content = file.read()
    before = sorted(os.listdir(trial.folder))
    wanted = [
        ("fault file\n", "no.toml"),
        ("fault shop text\n", "text.toml"),
        ("fault shop entry 2\n", "entry.toml"),
        ("fault file\n", "shop.toml", "--page", "no.html"),
        ("fault file\n", "shop.toml", "--page", "."),
        ("fault file\n", "shop.toml", "--page", "long.html"),
        ("fault file\n", "shop.toml", "--page", "no.html", "--backup", "."),
        ("fault backup\n", "shop.toml", "--page", "page.html", "--backup", "nowhere"),
        ("fault backup\n", "shop.toml", "--backup", "shop.toml"),
    ]
    for store in ("new.db", "old.db"):
        serve = ("serve", "--port", "1", "--store", store, "--shop")
        for line, *words in wanted:
            trial.ended(trial.run(*serve, *words), 1, err=line, sent=f"{store} {words}")
            trial.equal(sorted(os.listdir(trial.folder)), before, f"{store} {words}")
        mistaken(trial, (*serve, "shop.toml", "--limit", "0"), "--limit")
        trial.equal(sorted(os.listdir(trial.folder)), before, f"{store} with a mistake in the words")
    with open(trial.path("old.db"), "rb") as file:
        trial.equal(file.read() == content, True, "the store that was there")


# What help says of each command, and the words and options that it has.
COMMANDS = {
    "replay": ("lines of standard input", []),
    "plan": ("problem file", ["FILE", "--kerf", "--step", "--whole", "--calls", "--stages", "--shop", "--material", "--size"]),
    "orders": ("order file", ["FILE", "--shop", "--order", "--terminal", "--number"]),
    "serve": ("HTTP", ["--port", "--store", "--shop", "--limit", "--page", "--backup", "--existing", "--keep", "--host", "--origin"]),
    "ticket": ("ticket of a job", ["--store", "JOB", "--read-only"]),
    "yield": ("became of a material", ["--store", "MATERIAL", "--read-only"]),
    "history": ("entries of a", ["--store", "--after", "--read-only"]),
    "audit": ("whether a store is whole", ["--store", "--read-only"]),
    "restore": ("backup in the place of a store", ["--store", "--from"]),
}


# What help says of the stores of commands.
STORED = {
    "book; it is created if it doesn't exist": ("serve",),
    "without --read-only it is created if it doesn't exist": ("ticket", "yield"),
    "it has to exist\n": ("history", "audit"),
    "it may be missing or damaged": ("restore",),
}


@case(
    "help",
    "Help names each command, says what it is for, and names each of its options on standard output, with status 0. It says of the "
    "store of each whether it is created, has to exist, or may be missing.",
)
def helped(trial):
    for asked in (["--help"], ["help"]):
        ran = trial.run(*asked)
        lines = [it.strip() for it in ran.out.decode().split("\n")]
        said = [it for it, (about, _) in COMMANDS.items() if any(line.startswith(f"{it} ") and about in line for line in lines)]
        trial.equal((ran.status, ran.err, said), (0, b"", list(COMMANDS)), asked)
    for command, (about, named) in COMMANDS.items():
        for asked in ([command, "--help"], ["help", command]):
            ran = trial.run(*asked)
            trial.equal((ran.status, ran.err, [it for it in [about, *named] if it not in ran.out.decode()]), (0, b"", []), asked)
            trial.equal([it for it in STORED if it in ran.out.decode()], [it for it, of in STORED.items() if command in of], asked)


@case(
    "examples in help",
    "The help of each command ends with examples of it alone, and that of the program with one of each; none of them is a mistake in "
    "the words.",
)
def examples(trial):
    for asked, named in ((("--help",), COMMANDS), *[((it, "--help"), (it,)) for it in COMMANDS]):
        text = trial.run(*asked).out.decode().rpartition("Example")[2]
        lines = [it.split()[1:] for it in text.split("\n") if it.startswith("  cutshop ")]
        trial.equal(list(dict.fromkeys(it[0] for it in lines)), list(named), asked)
        for words in lines:
            ran = trial.run(*[it for it in words if it not in ("<", "lines.txt")])
            trial.holds(ran.status < 2, f"{asked}: {words} ends with {ran.status}: {ran.err}")


@case(
    "a replay of nothing",
    "No line gets no reply, an empty one is refused 10, the last may lack its line feed; status 0 also where lines "
    "are refused.",
)
def nothing(trial):
    trial.ended(trial.replay(b""), 0)
    refused = '{"name":"BadMessage","refused":10}\n'
    trial.ended(trial.replay(b"\n"), 0, refused)
    trial.ended(trial.replay(b"\n\n{"), 0, refused * 3)
    trial.ended(trial.replay(b'{"ask":"totals","material":"A"}'), 0, '{"name":"NoMaterial","refused":20}\n')
