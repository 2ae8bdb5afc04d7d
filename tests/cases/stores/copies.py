"""Copies of a store: what is refused of them, both files as they were, and what a start takes away or merges."""

import errno
import os
import shutil
import sqlite3
import subprocess
from contextlib import closing

from kit import tables
from kit.case import case, fault_in
from kit.commands import STEEL, serving, taken_port
from kit.copies import (
    BOUND,
    DAMAGED,
    ENDS,
    LONE_LOG,
    NO_DATABASE,
    NO_LOG,
    OTHER_FORM,
    TRIGGER,
    both,
    flipped,
    frames_of,
    kept,
    killed,
    last_commit,
    plain,
    put,
)
from kit.faults import Faults, sweep
from kit.shop import SECONDS, begin_line
from kit.stores import DAY, filled, received

IN_USE = "another program has it open"


def refused(trial, name, why, sent="", words=()):
    """Wants each command on a store refused by this second line, its files as they were, and none made beside them."""
    trial.write("shop.toml", STEEL)
    path = trial.path(name)
    before, names = both(path) if os.path.exists(path) else None, sorted(os.listdir(trial.folder))
    output = {"err": "fault store\n", "why": f"{name}: {why}", "sent": sent or name}
    with taken_port() as port:
        serve = ("serve", "--port", str(port), "--store", name, "--shop", "shop.toml")
        trial.ended(trial.run(*serve, *words), 1, **output)
    if not words:
        trial.ended(trial.run("ticket", "--store", name, "1"), 1, **output)
        trial.ended(trial.run("yield", "--store", name, "STEEL"), 1, **output)
    trial.equal((both(path) if os.path.exists(path) else None, sorted(os.listdir(trial.folder))), (before, names), name)


def opened(trial, name, exchanges):
    """Wants a store to be served, and to keep these messages with their replies, and no others."""
    shop = trial.shop(name)
    trial.holds(shop.is_open, f"{name}: {getattr(shop, 'errors', '')}")
    shop.kill()
    trial.equal(sorted(kept(trial, name)), sorted((plain(line), reply) for line, reply in exchanges), name)


@case(
    "a store without its log",
    "A store's file that was copied without its log is refused as that by each command, and stays; with an empty log beside it it opens.",
)
def without_log(trial):
    filled(trial, "day.db")
    shutil.copy(trial.path("day.db"), trial.path("alone.db"))
    refused(trial, "alone.db", NO_LOG)
    trial.write("alone.db-wal", "")
    opened(trial, "alone.db", DAY)


@case(
    "a log without its store",
    "A log that was copied without its store is refused as that by each command, and stays; an empty one is none.",
)
def without_store(trial):
    _, log = killed(trial)
    trial.write("lone.db-wal", log)
    refused(trial, "lone.db", LONE_LOG)
    trial.equal(both(trial.path("lone.db")), [None, log])
    trial.write("empty.db-wal", "")
    trial.ended(trial.run("ticket", "--store", "empty.db", "1"), 1, err="refused 70 NoJob\n")


@case(
    "a store that has to exist",
    "With `--existing` a store that isn't there is refused, and none is made; one that is there is served, as without it.",
)
def existing(trial):
    refused(trial, "none.db", "there is no such store", words=("--existing",))
    filled(trial, "day.db")
    shop = trial.shop("day.db", words=("--existing",))
    trial.holds(shop.is_open, "a store that is there")
    shop.kill()


@case("a link to no store", "A link that leads to no file is refused as that by each command, and nothing is made where it leads.")
def dangling(trial):
    os.symlink("nothere.db", trial.path("link.db"))
    refused(trial, "link.db", "it is a link to a file that isn't there")
    trial.holds(not os.path.exists(trial.path("nothere.db")), "a file was made where the link leads")


@case(
    "databases of another form",
    "Databases with auto_vacuum, in UTF-16 and with reserved bytes are reported as that, with a log beside them and without one; so is a file that "
    "is no database.",
)
def forms(trial):
    plain = trial.path("plain.db")
    for name, setting in (("vacuum", "auto_vacuum = 1"), ("little", "encoding = 'UTF-16le'"), ("big", "encoding = 'UTF-16be'"), ("plain", "")):
        with closing(sqlite3.connect(trial.path(f"{name}.db"))) as book:
            book.executescript(f"PRAGMA {setting or 'user_version'}; CREATE TABLE a (b)")
    with open(plain, "r+b") as file:
        file.seek(20)
        file.write(b"\x08")
    trial.write("junk.db", "no database, but a text")
    for name, why in (("vacuum", OTHER_FORM), ("little", OTHER_FORM), ("big", OTHER_FORM), ("plain", OTHER_FORM), ("junk", NO_DATABASE)):
        refused(trial, f"{name}.db", why)
        trial.write(f"{name}.db-wal", "")
        refused(trial, f"{name}.db", why, sent=f"{name} with a log")


@case(
    "triggers and views on the shop's tables",
    "A trigger on a shop's table and a view of one, in the store's file or in its log alone, are refused as that; a trigger and a view on "
    "tables of others are not.",
)
def bound(trial):
    for number, statement in enumerate((TRIGGER, "CREATE VIEW all_parts AS SELECT * FROM Parts", "CREATE VIEW meta2 AS SELECT 1 FROM main.meta")):
        name = f"bound-{number}.db"
        tables.change(filled(trial, name), statement)
        refused(trial, name, BOUND, sent=statement)
    path = filled(trial, "open.db")
    with closing(sqlite3.connect(path)) as book:
        book.executescript(TRIGGER)
        for end in ENDS:
            shutil.copy(path + end, trial.path(f"log.db{end}"))
    trial.holds(b"trigger" not in both(trial.path("log.db"))[0], "the trigger is in the log alone")
    refused(trial, "log.db", BOUND, sent="in the log")
    path = filled(trial, "others.db")
    others = "CREATE TABLE other (x); CREATE VIEW seen AS SELECT x FROM other; CREATE TRIGGER theirs AFTER INSERT ON other BEGIN SELECT 1; END"
    tables.change(path, others)
    opened(trial, "others.db", DAY)


def lying_over(trial, name, word, letters, statement, plain):
    """Makes a copy of a store with a trigger or a view, whose comment is so long that so many letters of its type's word lie before a
    place where reads of 4096 bytes behind a head of 100 meet."""
    for length in range(3800, 3960):
        path = tables.copy(plain, trial.path(name))
        tables.change(path, statement.format("-" * length))
        store = both(path)[0]
        trial.equal(store.count(word), 1, f"how often {word} is there")
        if (store.index(word) + letters - 100) % 4096 == 0:
            return
    trial.holds(False, f"{word} lies nowhere over the end of a read")


@case(
    "triggers and views over the end of a read",
    "A trigger on a shop's table and a view of one are refused wherever they lie in the store's file, also where the word for them lies "
    "over the end of what is read at once, behind any of its letters.",
)
def bound_anywhere(trial):
    plain = filled(trial, "plain.db")
    for word, statement in (
        (b"trigger", "CREATE TRIGGER again AFTER INSERT ON kept BEGIN /* {} */ DELETE FROM kept; END"),
        (b"view", "CREATE VIEW all_parts AS SELECT * FROM Parts /* {} */"),
    ):
        for letters in range(1, len(word)):
            lying_over(trial, "bound.db", word, letters, statement, plain)
            refused(trial, "bound.db", BOUND, sent=f"{letters} letters of {word}")


@case(
    "a journal that SQLite emptied",
    "Beside a journal of zeros, as SQLite leaves one that has nothing to play back, a store is what it is without one: it is served, "
    "printed with `--read-only`, and refused where its log is damaged or isn't there.",
)
def emptied_journal(trial):
    store, log = killed(trial)
    trial.write("copy.db-journal", bytes(512))
    put(trial.path("copy.db"), store, flipped(log, 40))
    refused(trial, "copy.db", DAMAGED)
    put(trial.path("copy.db"), store, log)
    for words in (("ticket", "3"), ("yield", "GLASS")):
        wanted = trial.run(words[0], "--store", "day.db", words[1])
        trial.equal(wanted.status, 0, words)
        trial.equal(trial.run(words[0], "--store", "copy.db", "--read-only", words[1]), wanted, words)
    opened(trial, "copy.db", DAY)
    put(trial.path("copy.db"), both(trial.path("copy.db"))[0], None)
    refused(trial, "copy.db", NO_LOG)
    trial.equal(both(trial.path("copy.db-journal"))[0], bytes(512), "the journal")


@case(
    "a damaged log",
    "One bit of a log before its last commit, one of its head, and a store of 0 bytes beside a log that has commits are refused as that by "
    "each command, both files as they were.",
)
def damaged(trial):
    store, log = killed(trial)
    begin, _ = last_commit(log)
    frames = [at for at, _ in frames_of(log) if at < begin]
    # (a page, a sum, a salt, the number of a page and the size behind a commit, of the first frame and of ones behind it)
    places = [at + it for at in (frames[0], frames[len(frames) // 2]) for it in (3, 7, 9, 20, 1000)]
    for at in (*places, 0, 5, 17, 30):
        put(trial.path("copy.db"), store, flipped(log, at))
        refused(trial, "copy.db", DAMAGED, sent=f"bit of byte {at}, of {len(log)}")
    put(trial.path("copy.db"), b"", log)
    refused(trial, "copy.db", DAMAGED, sent="a store of 0 bytes")


@case(
    "a damaged log, and several who look at it",
    "Commands that are run at once on a store with a damaged log are all refused, as that or since another has it open, and both files stay.",
)
def damaged_for_all(trial):
    store, log = killed(trial)
    log = flipped(log, 40)
    put(trial.path("copy.db"), store, log)
    words = [trial.program, "yield", "--store", "copy.db", "STEEL"]
    for _ in range(4):
        started = [subprocess.Popen(words, stdout=subprocess.PIPE, stderr=subprocess.PIPE, cwd=trial.folder) for _ in range(8)]
        output = [(it.communicate(timeout=SECONDS)[1].decode(), it.returncode) for it in started]
        for errors, status in output:
            trial.equal(status, 1, errors)
            trial.holds(errors in [f"fault store\n  copy.db: {it}\n" for it in (DAMAGED, IN_USE)], errors)
        trial.equal(both(trial.path("copy.db")), [store, log])


@case(
    "the log of a store that was being made",
    "A log that isn't whole beside a store of which nothing is written yet is no fault where it has the mark of a store that was being "
    "made; without that it is damaged.",
)
def being_made(trial):
    _, log = killed(trial)
    head = bytearray(log[:32])
    head[12:16] = b"\xff" * 4
    begun = bytes(head) + bytes(100)
    for number, begin in enumerate((b"\0", bytes(4096))):
        put(trial.path(f"begun-{number}.db"), begin, begun)
        shop = trial.shop(f"begun-{number}.db")
        trial.holds(shop.is_open, getattr(shop, "errors", ""))
        shop.kill()
    put(trial.path("copy.db"), bytes(4096), log[:12] + bytes(4) + log[16:32] + bytes(100))
    refused(trial, "copy.db", DAMAGED, sent="no mark beside a store that is begun")


@case(
    "what a stop leaves of a log",
    "A log that ends within its last commit, or has damage there, one whose first byte is 0, and one of 0, 32 or 41 bytes are no fault: the "
    "books are those of the commits before, or of the store's file.",
)
def torn(trial):
    store, log = killed(trial)
    begin, end = last_commit(log)
    for number, at in enumerate((begin, begin + 1, begin + 24, begin + 5000, end - 1)):
        put(trial.path(f"cut-{number}.db"), store, log[:at])
        opened(trial, f"cut-{number}.db", DAY[:-1])
    for number, at in enumerate((begin + 9, begin + 1000, end - 1)):
        put(trial.path(f"last-{number}.db"), store, flipped(log, at))
        opened(trial, f"last-{number}.db", DAY[:-1])
    put(trial.path("whole.db"), store, log)
    opened(trial, "whole.db", DAY)
    merged, short = both(filled(trial, "merged.db"))
    trial.equal(len(short), 41, "a log behind a merge")
    for number, it in enumerate((b"\0" + log[1:], log[:0], log[:32], short)):
        put(trial.path(f"merged-{number}.db"), merged, it)
        opened(trial, f"merged-{number}.db", DAY)


@case(
    "a start that makes no store",
    "A start that ends for its port, for an entry of its shop file or for its output takes away the store that it made: the next one reports a "
    "new store; one that was there stays.",
)
def taken_away(trial):
    bad = trial.write("bad.toml", STEEL.replace("2.0", "0.0"))
    with taken_port() as port:
        for shop_file, line in (("shop.toml", "fault port"), (bad, "shop entry 1 refused 22 BadMaterial")):
            trial.write("shop.toml", STEEL)
            trial.ended(serving(trial, port, "new.db", shop_file), 1, err=f"{line}\n")
            trial.equal(both(trial.path("new.db")), [None, None], line)
        filled(trial, "day.db")
        trial.ended(serving(trial, port, "day.db", "shop.toml"), 1, err="fault port\n")
        trial.equal(kept(trial, "day.db")[1:], DAY)
    shop = trial.shop("new.db", limit=1)
    shop.get("/materials")
    line = begin_line(shop.store)
    trial.equal(shop.end()[2][: len(line)], line)


@case(
    "a store is merged at each start",
    "Behind a start the store's file alone, with an empty log, holds all messages before it, whatever way the shop ended.",
)
def merged(trial):
    store, log = killed(trial)
    again = trial.shop("day.db")
    trial.equal(again.reply(DAY[0][0]).decode(), DAY[0][1])
    again.kill()
    put(trial.path("alone.db"), both(again.store)[0], b"")
    opened(trial, "alone.db", DAY)
    third = trial.shop("day.db")
    line, reply = received("GLASS", 10, 8, 4, number=20)
    trial.equal(third.reply(line).decode(), reply)
    third.kill()
    put(trial.path("before.db"), both(third.store)[0], b"")
    opened(trial, "before.db", DAY)
    fourth = trial.shop("day.db")
    fourth.kill()
    put(trial.path("behind.db"), both(fourth.store)[0], b"")
    opened(trial, "behind.db", [*DAY, (line, reply)])


@case(
    "a store is merged at an end",
    "Where a shop has served its limit, and where `ticket` and `yield` have ended, the store's file alone, with an empty log, holds "
    "all messages that were accepted.",
)
def merged_at_an_end(trial):
    def alone(name, exchanges, sent):
        put(trial.path("alone.db"), both(trial.path(name))[0], b"")
        held = [it[2:] for it in tables.rows(trial.path("alone.db")).get("kept", [])]
        trial.equal(sorted(held), sorted((plain(line), reply) for line, reply in exchanges), sent)

    filled(trial, "ended.db")
    alone("ended.db", DAY, "an end of a new store")
    line, reply = received("GLASS", 10, 8, 4, number=20)
    filled(trial, "ended.db", [(line, reply)])
    alone("ended.db", [*DAY, (line, reply)], "an end of a store that was there")
    store, log = killed(trial, "killed.db")
    for words in (("ticket", "1"), ("yield", "NONE")):
        put(trial.path("killed.db"), store, log)
        trial.run(words[0], "--store", "killed.db", words[1])
        alone("killed.db", DAY, words)


@case(
    "words of stores that have to exist and of backups that stay",
    "`--keep` takes 1 to 10000 and wants `--backup`; `--existing` takes no value; other words are mistakes, with status 2.",
)
def words_of_starts(trial):
    serve = ("serve", "--port", "1", "--store", "a.db", "--shop", "no.toml")
    for words in (("--keep", "1", "--backup", "b"), ("--backup", "b", "--keep", "10000", "--existing"), ("--existing",)):
        trial.ended(trial.run(*serve, *words), 1, err="fault file\n", sent=" ".join(words))
    for words in (("--keep", "0", "--backup", "b"), ("--keep", "10001", "--backup", "b"), ("--existing=no",), ("--keep",)):
        trial.equal(trial.run(*serve, *words).status, 2, " ".join(words))
    output = b"error: '--keep <N>' may be given only with '--backup'\n\nFor more information, try '--help'.\n"
    ran = trial.run(*serve, "--keep", "5")
    trial.equal((ran.status, ran.out, ran.err), (2, b"", output))


# ---- looks that fail

# Errors of the system that pass: a disk that fails now and then, no memory, no descriptor left, no lock left.
PASSING = (errno.EIO, errno.ENOMEM, errno.ENFILE, errno.ENOLCK)


@case(
    "a look that fails",
    "Of a store with a damaged log, one without its log, a log without its store and a store with a trigger on a shop's table each look at a "
    "start fails once, by each of four errors: it is refused all the same, both files as they were, and none is made.",
)
def failing_looks(trial):
    store, log = killed(trial)
    tables.change(filled(trial, "bound.db"), TRIGGER)
    kinds = {"damaged": (store, flipped(log, 40)), "alone": (store, None), "lone": (None, log), "bound": both(trial.path("bound.db"))}

    def looked(kind, at, **named):
        place = trial.path(f"{kind}-{at}-{named.get('error')}")
        os.mkdir(place)
        put(f"{place}/shop.db", *kinds[kind])
        lies_there = [sorted(os.listdir(place)), both(f"{place}/shop.db")]
        faults = Faults(trial, "glances", at=at, under=os.path.realpath(place), **named)
        # (the path is a whole one, so that each call names what lies below the folder)
        ran = trial.run("yield", "--store", os.path.realpath(f"{place}/shop.db"), "STEEL", environment=faults.environment)
        trial.equal((ran.status, ran.out, fault_in(ran.err) in (b"fault store\n", b"fault memory\n")), (1, b"", True), f"{kind}, {at}: {named}")
        trial.equal([sorted(os.listdir(place)), both(f"{place}/shop.db")], lies_there, f"{kind}, {at}: {named}")
        shutil.rmtree(place)
        calls = faults.calls()
        faults.end()
        return calls

    for kind in kinds:
        sweep(trial, 1, lambda at, kind=kind, **named: looked(kind, at, **named), *({"error": it} for it in PASSING))
