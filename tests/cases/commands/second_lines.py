"""The second line of a fault: which file, entry or port it was, and why; and what a server reports of itself."""

import errno
import os
import re
import shutil
import subprocess
import threading
from pathlib import Path

from kit import tables
from kit.case import case
from kit.commands import STEEL, serving, taken_port
from kit.days import REFUSED
from kit.earlier import made
from kit.faults import Faults
from kit.glass import GLASS as MATERIAL
from kit.shop import SECONDS, answer, begin_line, end_line, request_of
from kit.stores import numbers
from kit.terminals import judged_by_modes
from kit.whole_orders import yard_of

GLASS = STEEL.replace("STEEL", "GLASS")
MISSING = "there is no such file"
FOLDER = "it is a folder; name a file"
NOT_ALLOWED = "this account may not read it"


@case("why a file can't be read", "A file that isn't there and a folder are reported by their names, as problem, order, shop file and page.")
def files(trial):
    trial.write("shop.toml", STEEL)
    for name, why in (("no.txt", MISSING), ("no/such.txt", MISSING), ("shop.toml/such.txt", MISSING), (".", FOLDER)):
        for words in (("plan", name, "--kerf", "0", "--step", "1"), ("orders", name)):
            trial.ended(trial.run(*words), 1, err="fault file\n", why=f"{name}: {why}")
        serve = ("serve", "--port", "1", "--store", "a.db")
        trial.ended(trial.run(*serve, "--shop", name), 1, err="fault file\n", why=f"{name}: {why}")
        trial.ended(trial.run(*serve, "--shop", "shop.toml", "--page", name), 1, err="fault file\n", why=f"{name}: {why}")
    trial.write("long.html", "x" * 1048577)
    ran = trial.run(*serve, "--shop", "shop.toml", "--page", "long.html")
    trial.ended(ran, 1, err="fault file\n", why="long.html: it is over 1048576 bytes long")


# Names with control characters, each with what is printed of it.
CONTROLS = (
    ("a\nb", r"a\u{a}b"),
    ("\n", r"\u{a}"),
    ("\x1b[31mred\x1b[0m", r"\u{1b}[31mred\u{1b}[0m"),
    ("\x01\t\r\x1f\x7f", r"\u{1}\u{9}\u{d}\u{1f}\u{7f}"),
    ("\x80\x9b\x9f\xa0ä", "\\u{80}\\u{9b}\\u{9f}\xa0ä"),
)


@case(
    "names with control characters",
    "A control character in a name is printed as its number, in errors and in the log of a server, so that one line stands behind the "
    "fault's, and a terminal gets no command.",
)
def controls(trial):
    for name, printed in CONTROLS:
        ran = trial.run("plan", name, "--kerf", "0", "--step", "1")
        trial.ended(ran, 1, err="fault file\n", why=f"{printed}: {MISSING}", sent=name)
        ran = trial.run("ticket", "--store", f"no/{name}", "1")
        trial.ended(ran, 1, err="fault store\n", why=f"no/{printed}: its folder isn't there; make it first", sent=name)
        shop = trial.shop(f"{name}.db", limit=1)
        shop.get("/materials")
        store = trial.path(f"{printed}.db")
        trial.equal(shop.end()[2], begin_line(store) + end_line(store), name)


@case(
    "words with control characters",
    "What is reported of a mistake in the words has a word's control characters as their numbers.",
)
def words_with_controls(trial):
    for word, printed in (("\x1b[31m", r"\u{1b}[31m"), ("a\x7f\x9bb", r"a\u{7f}\u{9b}b")):
        for words in ((word,), ("plan", "a.txt", "--kerf", word), ("yield", "--store", "a.db", word), ("orders", "a.csv", f"--{word}")):
            ran = trial.run(*words)
            trial.equal((ran.status, ran.out, printed.encode() in ran.err), (2, b"", True), f"{words}: {ran.err}")
            shown = ran.err.decode()
            trial.equal([it for it in shown if it != "\n" and (it < " " or "\x7f" <= it <= "\x9f")], [], f"{words}: {ran.err}")


@case(
    "long names and far places of faults",
    "A name of 255 characters, a path of 3000 and one of other letters are reported whole; so are the last byte of a long problem's text, "
    "and the last of many materials by its line, or by its number where all stand in one line.",
)
def far(trial):
    plan = ("--kerf", "0", "--step", "1")
    for name in ("n" * 255, "./" * 1500 + "no.txt", "Prüfung 切.txt"):
        trial.ended(trial.run("plan", name, *plan), 1, err="fault file\n", why=f"{name}: {MISSING}", sent=name)
    for name in ("n" * 240, "Prüfung 切.db"):
        why = f"no/{name}: its folder isn't there; make it first"
        trial.ended(trial.run("ticket", "--store", f"no/{name}", "1"), 1, err="fault store\n", why=why, sent=name)
    for at in (256, 65535):
        trial.write("p.txt", "1 10 8 4 3 2".ljust(at) + "x")
        why = f"p.txt, byte {at}: only digits, spaces, tabs and line ends may stand here"
        trial.ended(trial.run("plan", "p.txt", *plan), 1, err=f"fault text {at} Byte\n", why=why)
    good = 'code="A"\nkind="bar"\nkerf="0"\nmin_long="1"\nmin_short="1"\n'
    bad = good.replace("bar", "rod")
    table, row = "[[material]]\n{}", "{{{}}}"
    in_lines = "".join(table.format(it) for it in [good] * 899 + [bad])
    in_a_line = ",".join(row.format(it.strip().replace("\n", ",")) for it in [good] * 999 + [bad])
    for text, entry, place in ((in_lines, 900, f"line {6 * 899 + 3}"), (f"material=[{in_a_line}]", 1000, "material 1000")):
        trial.write("shop.toml", text)
        why = f'shop.toml, {place}: the kind is "bar" or "sheet"'
        trial.ended(serving(trial, 1, ".", "shop.toml"), 1, err=f"fault shop entry {entry}\n", why=why)


@case("why a problem has no plan", "The byte of a text's fault and the planner's refusal are reported in words.")
def problems(trial):
    wanted = [
        ("2 10 8 4 3 2 66.0 5 8 1 40", "0", "1", "fault text 15 Byte", "p.txt, byte 15: only digits, spaces, tabs and line ends may stand here"),
        ("2 10 8 4 3", "0", "1", "fault text 10 Short", "p.txt, byte 10: the text ends before its last number"),
        ("0 10 8", "0", "1", "fault text 0 Number", "p.txt, byte 0: this number is out of its range"),
        ("1 2 2 4 3 1 12", "0", "1", "refused 90 NothingFits", "p.txt: no piece fits the rectangle"),
        ("1 9 9 4 3 1 12", "0", "0", "refused 92 BadStep", "p.txt: a step is 1 to 3"),
    ]
    for text, kerf, step, line, why in wanted:
        trial.write("p.txt", text)
        for words in ((), ("--whole",)):
            ran = trial.run("plan", "p.txt", "--kerf", kerf, "--step", step, *words)
            trial.ended(ran, 1, err=f"{line}\n", why=why, sent=f"{text} {words}")


@case(
    "a problem that comes through a pipe",
    "A problem through standard input or a named pipe is planned; if its step or its size is refused, the second line says to write it to a file, and "
    "the program ends without a second look.",
)
def piped(trial):
    good, why = "1 9 9 4 3 1 12", "it can't be read again; write it to a file to be told what helps"
    pipe = trial.path("pipe.txt")
    os.mkfifo(pipe)
    for text, step, line in ((good, "1", ""), (good, "0", "refused 92 BadStep"), ("1 501 1 1 1 1 1", "1", "refused 91 TableTooLarge")):
        for name in ("/dev/stdin", pipe):
            # (the writer of the named pipe ends once the program has read it)
            writer = threading.Thread(target=lambda text=text: Path(pipe).write_text(text), daemon=True)
            if name == pipe:
                writer.start()
            ran = trial.run("plan", name, "--kerf", "0", "--step", step, given=b"" if name == pipe else text)
            if line:
                trial.ended(ran, 1, err=f"{line}\n", why=f"{name}: {why}", sent=(name, text))
            else:
                trial.equal((ran.status, ran.out != b"", ran.err), (0, True, b""), (name, text))
            if name == pipe:
                writer.join(SECONDS)


SHOPS = [
    ("material = {}", "fault shop text", "line 1: material is no list; write [[material]] above each material"),
    ("\n\nx = 1\n" + STEEL, "fault shop text", "line 3: write [[material]] above each material, and no key named x"),
    ("# shop\n[[material]]\ncode\n", "fault shop text", "line 3: it is no TOML: key with no value, expected `=`"),
    ("\n" * 65537, "fault shop text", ": it is over 65536 bytes long"),
    (b"\xff", "fault shop text", ": it is no UTF-8 text"),
    ("material = [" + "1," * 1001 + "]", "fault shop text", ": it has over 1000 materials"),
    ("material = [1]", "fault shop entry 1", "material 1: it is no table; write [[material]] above each material"),
    (STEEL.replace("kerf", "kerff"), "fault shop entry 1", "line 4: no key is named kerff"),
    (STEEL + "min = 1\n", "fault shop entry 1", "line 7: no key is named min"),
    (STEEL + "[[material]]\ncode = 1\n", "fault shop entry 2", "line 7: the material has no key kind"),
    *[
        (f"\n{STEEL}".replace(f"\n{key} =", f"\n# {key} ="), "fault shop entry 1", f"line 2: the material has no key {key}")
        for key in ("code", "kind", "kerf", "min_long", "min_short")
    ],
    (STEEL + GLASS.replace('"bar"', '"rod"'), "fault shop entry 2", 'line 9: the kind is "bar" or "sheet"'),
    (STEEL.replace('"STEEL"', '"steel"'), "fault shop entry 1", 'line 2: the code is 1 to 16 of A-Z, 0-9 and -; write it as "STEEL-40"'),
    (
        STEEL.replace('"0.3"', "0.3"),
        "fault shop entry 1",
        'line 4: write millimetres as a text, as "1250.5", with 1 to 6 digits, and one behind a point: kerf',
    ),
    *[
        (
            STEEL.replace(f'{key} = "{text}"', f'{key} = "2,0"'),
            "fault shop entry 1",
            f'line {line}: write millimetres as a text, as "1250.5", with 1 to 6 digits, and one behind a point: {key}',
        )
        for line, key, text in ((5, "min_long", "2.0"), (6, "min_short", "0.1"))
    ],
]


@case("why a shop file is bad", "The line of a shop file's fault is reported, where it is found, and what to write there.")
def shops(trial):
    for text, line, why in SHOPS:
        trial.write("shop.toml", text)
        why = f"shop.toml{why}" if why.startswith(":") else f"shop.toml, {why}"
        trial.ended(serving(trial, 1, ".", "shop.toml"), 1, err=f"{line}\n", why=why, sent=text)
    # (a key in quotes stands in the lines of its material, whatever stands in those of the next one)
    trial.write("shop.toml", STEEL.replace("kerf", '"kerff"') + GLASS.replace("kerf", "kerff"))
    ran = serving(trial, 1, ".", "shop.toml")
    output = re.fullmatch(rb"fault shop entry 1\n  shop.toml, (?:material 1|line [1-6]): no key is named kerff\n", ran.err)
    trial.holds(output, ran.err)


@case("why an entry is refused", "An entry of the shop file that the shop refuses is reported by its number, with the refusal in words.")
def entries(trial):
    changed = "another entry was read here before; put it back, and write new ones behind the last"
    other = "the store has this material with another kind, kerf or limits"
    bad = "the kerf or a limit is out of its range for this kind"
    trial.write("shop.toml", STEEL)
    shop = trial.shop("a.db", shop_file=trial.path("shop.toml"))
    trial.holds(shop.is_open, "the shop doesn't open")
    shop.kill()
    with taken_port() as port:
        for text, line, why in (
            (STEEL, "fault port", None),
            (STEEL.replace("0.3", "0.4"), "shop entry 1 refused 11 NumberReused", f"shop.toml, material 1: {changed}"),
            (STEEL + STEEL.replace("0.3", "0.4"), "shop entry 2 refused 21 MaterialExists", f"shop.toml, material 2: {other}"),
        ):
            trial.write("shop.toml", text)
            trial.ended(serving(trial, port, "a.db", "shop.toml"), 1, err=f"{line}\n", why=why, sent=text)
        trial.write("shop.toml", STEEL.replace("2.0", "0.0"))
        ran = serving(trial, port, "b.db", "shop.toml")
        trial.ended(ran, 1, err="shop entry 1 refused 22 BadMaterial\n", why=f"shop.toml, material 1: {bad}")
        trial.write("shop.toml", STEEL)
        why = f"port {port}: another program listens to it; end that one, or take another port"
        trial.ended(serving(trial, port, "c.db", "shop.toml"), 1, err="fault port\n", why=why)


@case(
    "why a store can't be opened",
    "A folder that isn't there, a folder, another program that has it open, no database, a hard link, a rollback journal and a "
    "damaged file are reported, each by its words.",
)
def stores(trial):
    shop = trial.shop("used.db")
    trial.write("junk.db", "no database, but a text")
    os.link(trial.write("one.db", ""), trial.path("two.db"))
    made = trial.run("ticket", "--store", "whole.db", "1")
    trial.equal(made.status, 1)
    with open(trial.path("whole.db"), "rb") as file:
        content = file.read()
    trial.write("damaged.db", content[:16] + b"\xff" * 4096)
    trial.write("damaged.db-wal", "")
    trial.write("journal.db", content)
    trial.write("journal.db-journal", b"\xd9\xd5\x05\xf9 \xa1c\xd7" + b"\x00" * 504)
    for name, why in (
        ("no/such.db", "its folder isn't there; make it first"),
        ("whole.db/such.db", "its folder isn't there; make it first"),
        (".", "it is a folder; name a file in it"),
        (shop.store, "another program has it open"),
        ("junk.db", "it is no SQLite database; name another file"),
        ("two.db", "it is no plain file with one name; name one, and no hard link to it"),
        ("damaged.db", "it or its disk is damaged; put a copy of it and its log in its place"),
        ("journal.db", "a rollback journal lies beside it; open it once with sqlite3"),
        *[(it, "it is no plain file with one name; name one, and no hard link to it") for it in ("/dev/null", ":memory:", "file:a.db")],
    ):
        for words in (("ticket", "--store", name, "1"), ("yield", "--store", name, "STEEL")):
            trial.ended(trial.run(*words), 1, err="fault store\n", why=f"{name}: {why}", sent=name)
    trial.write("shop.toml", STEEL)
    ran = serving(trial, 1, "junk.db", "shop.toml")
    trial.ended(ran, 1, err="fault store\n", why="junk.db: it is no SQLite database; name another file")


# What is reported of a store and of a folder of backups where the system says this.
ALLOWED = "this account may not read and write it, or may not write in its folder"
OTHER = "it or its log can't be read and written; look at the permissions of both and of their folder, and at the room on their disk"
SYSTEM = {
    errno.EROFS: ("its disk is read-only", "its disk is read-only"),
    errno.ENOSPC: ("the disk is full; make room", "its disk is full; make room"),
    errno.EDQUOT: ("the disk is full; make room", "its disk is full; make room"),
    errno.EACCES: (ALLOWED, "this account may not read it and make files in it"),
    errno.EIO: (OTHER, "files can't be made in it"),
}


@case(
    "what the system says of a store and a folder of backups",
    "Where a store, or a folder's first try of a backup, can't be made, a disk that is read-only or full, a quota, lack of rights and "
    "any other fault are told apart.",
)
def system_errors(trial):
    store, folder, shop_file = trial.path("a.db"), trial.path("backups"), trial.write("shop.toml", "")
    os.mkdir(folder)
    for error, (of_store, of_folder) in SYSTEM.items():
        refused = Faults(trial, "files", at=1, on=True, error=error)
        ran = trial.run("ticket", "--store", store, "1", environment=refused.environment)
        trial.ended(ran, 1, err="fault store\n", why=f"{store}: {of_store}", sent=errno.errorcode[error])
        refused = Faults(trial, "files", at=1, error=error, under=os.path.realpath(folder))
        words = ("serve", "--port", "1", "--store", store, "--shop", shop_file, "--backup", folder)
        ran = trial.run(*words, environment=refused.environment)
        trial.ended(ran, 1, err="fault backup\n", why=f"{folder}: {of_folder}", sent=errno.errorcode[error])


@case(
    "a disk that gets full while a store is made",
    "Of the calls on its files from which on the disk is full some are reported as a full disk, and none as damage. What the others are reported "
    "this doesn't say.",
)
def full_at_start(trial):
    def output(at):
        full = Faults(trial, "files", at=at, on=True, error=errno.ENOSPC)
        store = trial.path(f"{at}.db")
        return store, trial.run("ticket", "--store", store, "1", environment=full.environment)

    counted = Faults(trial, "files")
    trial.run("ticket", "--store", trial.path("whole.db"), "1", environment=counted.environment)
    count, said = counted.calls(), 0
    for at in trial.places(count, 13):
        store, ran = output(at + 1)
        said += ran.err == f"fault store\n  {store}: the disk is full; make room\n".encode()
        trial.holds(b"damaged" not in ran.err, f"call {at + 1}: {ran.err}")
    trial.holds(said > 1, f"{said} of {count} calls are told as a full disk")


@case(
    "why a file can't be read to its end",
    "Where a read of a problem file or of a shop file fails, with a page and without one, that file is named, and that it can't be read.",
)
def unreadable(trial):
    problem, shop_file = trial.write("p.txt", "1\n10 8\n4 3 10 12\n"), trial.write("shop.toml", STEEL)
    page = trial.write("page.html", "<p>a page</p>")
    serve = ("serve", "--port", "1", "--store", trial.path("a.db"), "--shop", shop_file)
    for path, words in (
        (problem, ("plan", problem, "--kerf", "1", "--step", "1")),
        (problem, ("plan", problem, "--kerf", "1", "--whole")),
        (problem, ("orders", problem)),
        (shop_file, serve),
        (shop_file, (*serve, "--page", page)),
    ):
        fails = Faults(trial, "read", at=1, on=True, under="")
        trial.ended(trial.run(*words, environment=fails.environment), 1, err="fault file\n", why=f"{path}: it can't be read", sent=words)


@case(
    "why tables are no shop's",
    "Tables of another program or of no version that there is, of a later one, and totals of each version that aren't their sums are "
    "told apart.",
)
def versions(trial):
    tables.change(trial.path("other.db"), "CREATE TABLE parts (name TEXT) STRICT")
    for name, change in (("newer.db", None), ("sums.db", "UPDATE totals2 SET received = received + 1")):
        shop = trial.shop(name, shop_file=trial.write("shop.toml", STEEL))
        shop.kill()
        if change:
            tables.change(shop.store, change)
        else:
            numbers(shop.store, "version", 4)
    for name, version, change in (
        ("last.db", 3, "UPDATE meta SET value = 4294967299 WHERE name = 'version'"),
        ("zero.db", 3, "UPDATE meta SET value = 0 WHERE name = 'version'"),
        ("none.db", 3, "DELETE FROM meta WHERE name = 'version'"),
        ("sums-1.db", 1, "UPDATE totals SET kerf = kerf + 1"),
        ("sums-2.db", 2, "UPDATE totals2 SET kerf = kerf + 1"),
    ):
        made(trial, name, version, change)
    foreign, newer = "it has the tables of another program; name another file", "a newer cutshop made it; run that one"
    contradicting = "its totals or rows contradict each other; put a copy of it and its log in its place"
    for name, why in (
        ("other.db", foreign),
        ("newer.db", newer),
        ("sums.db", contradicting),
        ("last.db", newer),
        ("zero.db", foreign),
        ("none.db", foreign),
        ("sums-1.db", contradicting),
        ("sums-2.db", contradicting),
    ):
        trial.ended(trial.run("ticket", "--store", name, "1"), 1, err="fault version\n", why=f"{name}: {why}", sent=name)


@case(
    "what a store hasn't, and one that is made",
    "`ticket` and `yield` report that the store has no such job or material, and of one that wasn't there that it was made.",
)
def and_made(trial):
    for words, line, why in (
        (("ticket", "--store", "new.db", "1"), "refused 70 NoJob", "there was no store, and an empty one was made"),
        (("ticket", "--store", "new.db", "1"), "refused 70 NoJob", "it has no such job"),
        (("yield", "--store", "new.db", "STEEL"), "refused 20 NoMaterial", "it has no such material"),
        (("yield", "--store", "newer.db", "STEEL"), "refused 20 NoMaterial", "there was no store, and an empty one was made"),
    ):
        trial.ended(trial.run(*words), 1, err=f"{line}\n", why=f"{words[2]}: {why}")


@case("why a stream failed", "Where standard output takes no byte, or standard input is a folder, the second line names it.")
def streams(trial):
    def over(*words, given=os.devnull, out=os.devnull):
        with open(out, "wb") as sink:
            source = os.open(given, os.O_RDONLY)
            try:
                ran = subprocess.run([trial.program, *words], stdin=source, stdout=sink, stderr=subprocess.PIPE)
            finally:
                os.close(source)
        return ran.returncode, ran.stderr

    wanted = b"fault write\n  standard output: it can't be written; is its disk full, or its reader gone?\n"
    trial.equal(over("replay", given=trial.write("lines", "\n"), out="/dev/full"), (1, wanted))
    trial.equal(over("--version", out="/dev/full"), (1, wanted))
    trial.equal(over("replay", given=trial.folder), (1, b"fault read\n  standard input: it can't be read to its end\n"))


@case(
    "what a server tells of itself",
    "It reports its version, its store and how many messages it keeps when it begins, those of the shop file among them, and that it "
    "ended. What is accepted is kept once; what is refused and what is asked isn't.",
)
def log(trial):
    shop_file, refused = trial.write("shop.toml", STEEL), MATERIAL.replace('"kerf":1', '"kerf":201').replace('"number":1', '"number":2')
    for is_new, kept, sent in ((True, 1, (MATERIAL, MATERIAL, refused)), (False, 2, ()), (False, 2, ())):
        shop = trial.shop("day.db", shop_file=shop_file, limit=len(sent) + 1)
        for line in sent:
            shop.reply(line)
        shop.get("/materials")
        log = begin_line(shop.store, is_new, kept) + end_line(shop.store)
        trial.equal(shop.end(), (0, f"listening on 127.0.0.1:{shop.port}\n".encode(), log))


FULL = b"cutshop: answered 99 StoreFault; the disk is full; make room, and messages are accepted again\n"


@case(
    "a disk that gets full",
    "A store that can't be made since the disk is full is reported so; where it gets full while it is served messages are refused 99, "
    "with a line on standard error (once a minute), and questions are answered.",
)
def full_disk(trial):
    none = trial.path("none.db")
    full = Faults(trial, "files", at=1, on=True, error=errno.ENOSPC)
    ran = trial.run("ticket", "--store", none, "1", environment=full.environment)
    trial.ended(ran, 1, err="fault store\n", why=f"{none}: the disk is full; make room")
    start = Faults(trial, "files")
    shop = trial.shop("a.db", environment=start.environment)
    shop.get("/materials")
    calls = start.calls()
    shop.kill()
    full = Faults(trial, "files", at=calls + 1, on=True, error=errno.ENOSPC)
    shop = trial.shop("b.db", environment=full.environment)
    for _ in range(2):
        trial.equal(shop.reply(MATERIAL), b'{"name":"StoreFault","refused":99}')
        trial.equal(shop.get("/materials"), answer(200, '{"materials":[],"ok":"materials"}'))
    shop.process.terminate()
    _, output = shop.process.communicate()
    trial.equal(output, begin_line(shop.store) + FULL)


WANTING = b"cutshop: answered 98 NoMemory; end other programs, or give this one more memory\n"


@case(
    "answers for which memory was wanting",
    "Each answer 98, to a message, a question, a question for plans, also while it is thought about, and a backup, is reported on standard "
    "error, once.",
)
def wanting(trial):
    yard, (asked, _) = yard_of("bar")

    def answered(number, at, request):
        faults = Faults(trial, "memory", at=at)
        # (a longer name would take more requests)
        name = f"{number}{at:05}"
        folder = trial.path(name)
        os.mkdir(folder)
        shop = trial.shop(f"{name}.db", environment=faults.environment, words=("--backup", folder))
        yard.fill(trial, shop)
        first, got = faults.calls(), shop.exchange(request)
        last = faults.calls()
        shop.process.terminate()
        errors = shop.process.communicate()[1]
        shutil.rmtree(folder)
        return first, last, got, errors.count(WANTING)

    # (another terminal than the yard's)
    lines = (MATERIAL.replace('"terminal":1', '"terminal":2'), '{"ask":"materials"}', asked, None)
    for number, line in enumerate(lines):
        request = request_of(line) if line else b"POST /backup HTTP/1.1\r\nHost: shop\r\nContent-Length: 0\r\n\r\n"
        first, last, got, output = answered(number, 0, request)
        trial.equal((got.split(b"\r\n")[0], output), (b"HTTP/1.1 200 OK", 0), line)
        refused = []
        for at in trial.places(last - first, max((last - first) // 8, 1)):
            _, _, got, output = answered(number, first + at + 1, request)
            if got == answer(503, REFUSED):
                refused.append(at)
            trial.equal(output, got == answer(503, REFUSED), f"{line}, request {first + at + 1}: {got}")
        trial.holds(refused and (line != asked or refused[-1] > (last - first) // 2), f"{line}: 98 at {refused} of {last - first}")


@case(
    "files of others",
    "A problem, an order file, a shop file and a page that this account may not read, or in whose folder it may not look, are reported so, "
    "and so is a store.",
)
def not_allowed(trial):
    os.mkdir(trial.path("folder"))
    trial.write("shop.toml", "")
    for name in ("a.txt", "folder/a.txt", "a.db"):
        os.chmod(trial.write(name, ""), 0)
    os.chmod(trial.path("folder"), 0)
    serve = ("serve", "--port", "1", "--store", "no/a.db", "--shop")
    for name in ("a.txt", "folder/a.txt"):
        plan, page = ("plan", name, "--kerf", "0", "--step", "1"), (*serve, "shop.toml", "--page", name)
        for words in (plan, ("orders", name), (*serve, name), page):
            ran = trial.run(*words, prepare=judged_by_modes)
            trial.ended(ran, 1, err="fault file\n", why=f"{name}: {NOT_ALLOWED}", sent=words)
    why = "a.db: this account may not read and write it, or may not write in its folder"
    trial.ended(trial.run("ticket", "--store", "a.db", "1", prepare=judged_by_modes), 1, err="fault store\n", why=why)
    os.chmod(trial.path("folder"), 0o700)
