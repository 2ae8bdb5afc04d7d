"""Requests for memory that are refused, one after the other: what is answered then, and what is kept."""

import os
import resource
import shutil

from kit import aged, tables
from kit.audits import lies_there
from kit.case import Skipped, case, fault_in
from kit.commands import taken_port
from kit.copies import both
from kit.days import ASKED, NAMES, day_of
from kit.faults import Faults
from kit.memory import replayed, served, sweep, texts_refused

SHOP_FILE = "".join(
    f'[[material]]\ncode = "{code}"\nkind = "{kind}"\nkerf = "0.3"\nmin_long = "2.0"\nmin_short = "0.1"\n'
    for code, kind in (("STEEL", "bar"), ("GLASS", "sheet"))
)


def replay_case(name):
    @case(
        f"memory refused in replay: {name}",
        f"Each request for memory of “{name}” is refused in turn: 98 and nothing changed, and sent again its reply, or "
        "`fault memory`.",
    )
    def body(trial):
        day = day_of(trial, name)
        sweep(trial, lambda it: replayed(trial, day, it), 3)


def serve_case(name):
    @case(
        f"memory refused in serve: {name}",
        f"The same of “{name}” over a store file: the tables in the end are those of an undisturbed run.",
    )
    def body(trial):
        day = day_of(trial, name)
        sweep(trial, lambda it: served(trial, day, it), 23)


for NAME in (*NAMES, ASKED):
    replay_case(NAME)
    serve_case(NAME)


@case(
    "memory refused in a start",
    "Each request for memory of a `serve` with two materials is refused in turn: `fault memory` or the entry refused "
    "98, and the next start adds both.",
)
def starts(trial):
    path = trial.write("shop.toml", SHOP_FILE)
    wanted = [b'{"kerf":0,"material":"%s","ok":"totals","pieces":0,"rack":0,' % it for it in (b"STEEL", b"GLASS")]
    output = (b"fault memory\n", b"shop entry 1 refused 98 NoMemory\n", b"shop entry 2 refused 98 NoMemory\n")

    def run(faults):
        shop = trial.shop(f"{faults.at}.db", shop_file=path, environment=faults.environment)
        if not shop.is_open:
            trial.equal((shop.status, fault_in(shop.errors) in output), (1, True), f"request {faults.at}: {shop.errors}")
        shop.kill()
        shop = trial.shop(f"{faults.at}.db", shop_file=path)
        got = [shop.reply(f'{{"ask":"totals","material":"{it}"}}') for it in ("STEEL", "GLASS")]
        trial.equal([it[: len(begin)] for it, begin in zip(got, wanted)], wanted, f"request {faults.at}")
        shop.kill()
        os.remove(shop.store)

    sweep(trial, run, 41)


def stored(trial):
    """The path of a store after “remnant cut again”."""
    lines = day_of(trial, "remnant cut again").lines
    shop = trial.shop(limit=len(lines))
    for line in lines:
        shop.reply(line)
    trial.equal(shop.end()[0], 0)
    return shop.store


@case(
    "memory refused in a text",
    "Each request for memory of a ticket and a report over HTTP is refused in turn: the whole text, or 98 with 503, "
    "or nothing, and asked again the text.",
)
def texts(trial):
    texts_refused(trial, stored(trial), ("/ticket/2", "/yield/GLASS"), 5)


@case(
    "memory refused in a command",
    "Each request for memory of `plan`, `ticket`, `yield`, `audit` and `history` is refused in turn: the whole text, or nothing and "
    "`fault memory` or refusal 98; of a history the first lines.",
)
def commands(trial):
    store = stored(trial)
    problem = trial.write("problem.txt", "1\n10 8\n4 3 10 12\n")

    def swept(stride, output, *words):
        whole = trial.run(*words)
        trial.equal((whole.status, whole.err), (0, b""), words)

        def run(faults):
            copy = trial.path(f"{words[0]}-{faults.at:06}.db")
            tables.copy(store, copy)
            ran = trial.run(*[copy if it == store else it for it in words], environment=faults.environment)
            first = ran.out if words[0] == "history" and whole.out.startswith(ran.out) else b""
            trial.equal(ran == whole or (ran.status, ran.out, fault_in(ran.err) in output) == (1, first, True), True, f"{words} {ran}")
            os.remove(copy)

        sweep(trial, run, stride)

    refused = (b"fault memory\n", b"refused 98 NoMemory\n")
    swept(3, refused[:1], "plan", problem, "--kerf", "1", "--step", "1")
    swept(41, refused, "ticket", "--store", store, "2")
    swept(41, refused, "yield", "--store", store, "GLASS")
    swept(97, refused[:1], "audit", "--store", store)
    swept(97, refused[:1], "history", "--store", store)


@case(
    "memory refused in a restore",
    "Each request for memory of a `restore` of a good backup is refused in turn: it is done and reported so, or ends with "
    "`fault memory`, and never because the backup is none; the files that were there have their names, or FILE.before, and the "
    "backup stays.",
)
def restores(trial):
    store = stored(trial)

    def run(faults):
        # (each run has a store and a backup of its own: one that another program has open is none)
        place = trial.path(f"{faults.at:06}")
        os.makedirs(f"{place}/1")
        path, backup = tables.copy(store, f"{place}/shop.db"), tables.copy(store, f"{place}/1/shop.db")
        files, copy = both(path), lies_there(backup)
        ran = trial.run("restore", "--store", path, "--from", f"{place}/1", environment=faults.environment)
        is_done = ran.status == 0 and ran.out.startswith(f"restored {path} from {place}/1\nentries ".encode())
        is_refused = (ran.status, ran.out, fault_in(ran.err)) == (1, b"", b"fault memory\n")
        trial.equal(is_done or is_refused, True, f"request {faults.at}: {ran}")
        there = zip(both(path), both(f"{path}.before"))
        trial.equal([was in found for was, found in zip(files, there)], [True, True], f"request {faults.at}: the files that were there")
        trial.equal(lies_there(backup) == copy, True, f"request {faults.at}: the backup")
        shutil.rmtree(place)

    sweep(trial, run, 97)


@case(
    "memory refused beside a lone log",
    "Each of the first requests for memory of a start beside a log without its store is refused in turn: `fault memory`, or the "
    "refusal of such a log, and never a new store.",
)
def lone_logs(trial):
    store = stored(trial)
    os.remove(store)
    log = both(store)
    first = trial.run("audit", "--store", store)
    trial.equal((first.status, fault_in(first.err)), (1, b"fault store\n"), first)

    def run(faults):
        shop = trial.shop(os.path.basename(store), environment=faults.environment)
        trial.equal((shop.is_open, shop.status), (False, 1), f"request {faults.at}")
        # (memory for the second line may be what is refused)
        trial.equal(shop.errors.startswith((b"fault memory\n", b"fault store\n")), True, f"request {faults.at}: {shop.errors}")
        trial.equal(both(store), log, f"request {faults.at}: the files")

    sweep(trial, run, 1)


# ---- a shop that is too large

MEGABYTE = 1 << 20

# How many parts a shop has that is too large for little memory.
PARTS = 20000


def large(trial, name):
    """The path of a store of many scrapped parts that plain SQL made once."""

    def make(path):
        rows = {**aged.book("STEEL", 0, 0, aged.HISTORY + PARTS, aged.HISTORY + PARTS, 100 * PARTS), **aged.history(PARTS, "STEEL")}
        tables.make(path, {**rows, "totals2": [("STEEL", 100 * PARTS, 0, 0, 0, 0, 100 * PARTS, 0)]})

    return tables.copy(aged.once(f"large-{PARTS}.db", make), trial.path(name))


def within(trial, megabytes, words):
    """Runs a command with so much room for addresses."""
    size = megabytes * MEGABYTE
    return trial.run(*words, prepare=lambda: resource.setrlimit(resource.RLIMIT_AS, (size, size)))


def least_room(trial, words):
    """The fewest megabytes with which a command doesn't report that memory ran out."""
    too_few, enough = 0, 1024
    while enough - too_few > 1:
        middle = (too_few + enough) // 2
        ran = within(trial, middle, words)
        if ran.status in (0, 1) and not ran.err.startswith(b"fault memory"):
            enough = middle
        else:
            too_few = middle
    return enough


def wanted(path, is_apart):
    """How many megabytes a store takes by the second line: one and 16 more for each whole million of bytes of its files; three times as many for the files of
    one that is read into memory whole."""
    each = sum(os.path.getsize(path + end) for end in ("", "-wal") if os.path.exists(path + end)) // 1000000 + 1
    return (3 if is_apart else 1) * each + 16


@case(
    "a shop too large for the memory at hand",
    "If a store of 20000 parts doesn't fit into the memory that the program may have, each command on it ends with `fault memory` and a second line "
    "that says about how much the store takes, and both files stay as they were, but for the salts in the head of the log. A store without a part opens with as much memory.",
)
def too_large(trial):
    if trial.is_watched():
        raise Skipped("the program was built without proofs, and takes other memory")
    path = large(trial, "large.db")
    trial.shop("small.db").kill()
    shop_file = trial.write("shop.toml", "")
    commands = [("ticket", "7"), ("yield", "GLASS"), ("history", "--after", "4294967295"), ("yield", "GLASS", "--read-only"), ("audit",)]
    with taken_port() as port:
        for words in (*commands, ("serve", "--port", str(port), "--shop", shop_file)):
            is_too_large(trial, path, words)


def but_for_salts(found):
    """What lies there, without the salts and checksums in the head of the log, which each opening of a store writes anew."""
    *others, log = found
    return [*others, log[:16] + log[32:]]


def is_too_large(trial, path, words):
    """With less than the least memory that it takes, a command on this store ends because memory ran out, and on a small one it doesn't."""
    command, *more = words
    is_apart = command == "audit" or "--read-only" in more
    enough = least_room(trial, (command, "--store", "large.db", *more))
    line = f"large.db: memory ran out; end other programs, or give this one more; its shop takes some {wanted(path, is_apart)} MB"
    before = but_for_salts(lies_there(path))
    for less in (1, 2, 3):
        ran = within(trial, enough - less, (command, "--store", "large.db", *more))
        trial.ended(ran, 1, err="fault memory\n", why=line, sent=f"{command} {more} with {enough - less} MB")
        small = within(trial, enough - less, (command, "--store", "small.db", *more))
        trial.equal(small.err.startswith(b"fault memory"), False, f"{command} {more} of a small store with {enough - less} MB")
    trial.equal(but_for_salts(lies_there(path)) == before, True, f"{command} {more}: both files as they were")
