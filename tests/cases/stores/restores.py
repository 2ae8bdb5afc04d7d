"""`cutshop restore`: a backup in the place of a store, what it refuses, and what a stop leaves."""

import errno
import os
import shutil
import sqlite3
import stat
import subprocess
from contextlib import closing
from functools import partial

from kit import tables
from kit.backups import REQUEST, content, fill, is_whole, open_shop, backup_answer, tree
from kit.case import case, fault_in
from kit.earlier import made
from kit.faults import Faults, sweep
from kit.terminals import Terminal

STORE, LOG = "shop.db", "shop.db-wal"
# The time of the entries of a backup, and what a restore of its two reports.
DATE = 1795831213
RESTORED = b"restored shop.db from backups/1\nentries 2\nuntil 2026-11-28 02:00:13 UTC\n"
# What of a store may be lost.
LOST = {"nothing": (), "log": (LOG,), "store": (STORE,), "both": (STORE, LOG)}


def two_states(trial):
    """A stopped shop of four messages, with a backup of its first two, whose clock stands. Its terminal."""
    shop, terminal = open_shop(trial, environment=Faults(trial, date=DATE).environment), Terminal(1)
    trial.equal(terminal.send_all(shop, 2), None)
    trial.equal(shop.exchange(REQUEST), backup_answer(1))
    trial.equal(terminal.send_all(shop, 4), None)
    shop.kill()
    return terminal


def restore(trial, store=STORE, folder="backups/1", **named):
    return trial.run("restore", "--store", store, "--from", folder, **named)


def held(trial, *names):
    """What the files of these names hold, of those that are there."""
    return {it: content(trial.path(it)) for it in names if os.path.exists(trial.path(it))}


@case(
    "a backup restored",
    "Of a shop that lost its log, its store, both or nothing: `restore` reports what it did, the store is the backup's, byte for byte, opens with its "
    "messages, and what was there lies beside it as FILE.before and FILE.before-wal, as it was.",
)
def restored(trial):
    terminal = two_states(trial)
    kept = held(trial, STORE, LOG)
    wanted = held(trial, f"backups/1/{STORE}", f"backups/1/{LOG}")
    for lost, names in LOST.items():
        for name, bytes_of in kept.items():
            with open(trial.path(name), "wb") as file:
                file.write(bytes_of)
        for name in names:
            os.remove(trial.path(name))
        trial.ended(restore(trial), 0, out=RESTORED, sent=lost)
        trial.equal([content(trial.path(it)) for it in (STORE, LOG)], list(wanted.values()), lost)
        before = {f"shop.db.before{name[7:]}": it for name, it in kept.items() if name not in names}
        trial.equal(held(trial, "shop.db.before", "shop.db.before-wal"), before, lost)
        trial.equal(held(trial, "shop.db.new", "shop.db.new-wal"), {}, lost)
        trial.equal(is_whole(trial, trial.path(STORE), [terminal]), [2], lost)
        for name in before:
            os.remove(trial.path(name))
    trial.equal(held(trial, f"backups/1/{STORE}", f"backups/1/{LOG}"), wanted)


def access(path):
    """The owner, the group and the permissions of a file."""
    found = os.stat(path)
    return found.st_uid, found.st_gid, stat.S_IMODE(found.st_mode)


@case(
    "who may read a restored store",
    "A restore gives both files the owner and the permissions of those that were there, or of the one that isn't lost, and not the "
    "backup's.",
)
def accessible(trial):
    terminal = two_states(trial)
    kept = held(trial, STORE, LOG)
    # (root alone may give files another owner)
    own = os.geteuid(), os.getegid()
    owner = (1234, 2345) if own[0] == 0 else own
    trial.equal([access(trial.path(f"backups/1/{it}")) for it in (STORE, LOG)], [(*own, 0o600)] * 2, "the backup")
    for lost, mode in (("nothing", 0o640), ("nothing", 0o666), ("log", 0o660), ("store", 0o644)):
        for name in held(trial, STORE, LOG, "shop.db.before", "shop.db.before-wal"):
            os.remove(trial.path(name))
        for name in [it for it in kept if it not in LOST[lost]]:
            trial.write(name, kept[name])
            os.chmod(trial.path(name), mode)
            os.chown(trial.path(name), *owner)
        trial.ended(restore(trial), 0, out=RESTORED, sent=lost)
        trial.equal([access(trial.path(it)) for it in (STORE, LOG)], [(*owner, mode)] * 2, f"{lost} lost, {mode:o}")
    trial.equal(is_whole(trial, trial.path(STORE), [terminal]), [2])


@case(
    "a backup restored where a link leads",
    "Where `--store` is a link the files are replaced where it leads, under another name than the backup's, and the link stays.",
)
def linked(trial):
    terminal = two_states(trial)
    os.mkdir(trial.path("disk"))
    os.symlink("disk/real.db", trial.path("link.db"))
    trial.write("disk/real.db", "")
    trial.ended(restore(trial, "link.db"), 0, out=RESTORED.replace(b"shop.db", b"link.db"))
    trial.equal(os.path.islink(trial.path("link.db")), True)
    trial.equal(sorted(os.listdir(trial.path("disk"))), ["real.db", "real.db-wal", "real.db.before"])
    trial.equal(is_whole(trial, trial.path("disk/real.db"), [terminal]), [2])


@case(
    "a backup without entries restored",
    "A backup of a shop without a message, and one of version 1 or 2, are restored as others are; no time is reported of them.",
)
def without_entries(trial):
    shop = open_shop(trial)
    trial.equal(shop.exchange(REQUEST), backup_answer(1))
    shop.kill()
    for number in (1, 2, 3):
        if number > 1:
            os.mkdir(trial.path(f"backups/{number}"))
            made(trial, f"backups/{number}/shop.db", number - 1)
        trial.ended(restore(trial, folder=f"backups/{number}"), 0, out=f"restored shop.db from backups/{number}\nentries 0\n", sent=number)
        for end in ("", "-wal"):
            if os.path.exists(trial.path(f"shop.db.before{end}")):
                os.remove(trial.path(f"shop.db.before{end}"))


# Seconds since 1970, on both sides of days, months, leap days and 32 bits, and the times that they are.
TIMES = [
    (1, "1970-01-01 00:00:01"),
    (86399, "1970-01-01 23:59:59"),
    (86400, "1970-01-02 00:00:00"),
    (68255999, "1972-02-29 23:59:59"),
    (68256000, "1972-03-01 00:00:00"),
    (951782400, "2000-02-29 00:00:00"),
    (1798761599, "2026-12-31 23:59:59"),
    (1798761600, "2027-01-01 00:00:00"),
    (2147483648, "2038-01-19 03:14:08"),
    (4107542399, "2100-02-28 23:59:59"),
    (4107542400, "2100-03-01 00:00:00"),
    (4294967296, "2106-02-07 06:28:16"),
    (13574649599, "2400-02-29 23:59:59"),
    (253402207200, "9999-12-30 22:00:00"),
]


@case(
    "until when a restored store goes",
    "A restore reports how many entries the store has, and the time of the last one, in UTC: of days around the ends of months and years, of leap "
    "days, and of times over 32 bits.",
)
def until(trial):
    material = '{"do":"material","kerf":3,"kind":"bar","material":"STEEL","min_long":20,"min_short":1,"number":1,"terminal":1}'
    rows = {"meta": [("act", 0), ("demand", 0), ("version", 3)], "materials": [("STEEL", 0, 3, 20, 1)], "totals2": [("STEEL", *[0] * 7)]}
    rows["kept"] = [(1, 1, material, '{"material":"STEEL","ok":"material"}')]
    for number, (at, wanted) in enumerate(TIMES):
        os.makedirs(trial.path(f"copies/{number}"))
        rows["journal"] = [(1, at, 1, 1, "material", 0, 0, "", 0, 0)]
        tables.make(trial.path(f"copies/{number}/shop.db"), rows)
        out = f"restored {number}.db from copies/{number}\nentries 1\nuntil {wanted} UTC\n"
        trial.ended(restore(trial, f"{number}.db", f"copies/{number}"), 0, out=out, sent=at)


def database(path, table):
    with sqlite3.connect(path) as it:
        it.execute(f"CREATE TABLE {table} (a)")


@case(
    "what isn't restored",
    "A store that a program has open, a folder that is no backup, and one with FILE.before or FILE.before-wal are refused in this order, and all "
    "stays byte for byte.",
)
def refused(trial):
    two_states(trial)
    good = held(trial, f"backups/1/{STORE}", f"backups/1/{LOG}")
    store, log = good.values()
    fill(trial, "bad/empty")
    fill(trial, "bad/log", **{LOG: log})
    fill(trial, "bad/store", **{STORE: store})
    fill(trial, "bad/bytes", **{STORE: b"", LOG: b""})
    fill(trial, "bad/text", **{STORE: b"text " * 100, LOG: b""})
    fill(trial, "bad/torn", **{STORE: store, LOG: b"x" * 100})
    fill(trial, "bad/two", **{STORE: store, LOG: log, "other.db": store, "other.db-wal": log})
    fill(trial, "bad/links", **{STORE: "../../backups/1/shop.db", LOG: "../../backups/1/shop.db-wal"})
    fill(trial, "bad/1.part", **{STORE: store, LOG: log})
    for name, table in (("foreign", "parts"), ("strange", "others")):
        fill(trial, f"bad/{name}", **{"x.db-wal": b""})
        database(trial.path(f"bad/{name}/x.db"), table)
    trial.write("bad/file", "")
    bad = ["bad/none", *(f"bad/{it}" for it in sorted(os.listdir(trial.path("bad"))))]
    trial.write("shop.db.before-wal", "x")
    before = tree(trial.folder)
    for folder in bad:
        ran = restore(trial, folder=folder)
        trial.ended(ran, 1, err="fault backup\n", why=f"{folder}: it is no backup", sent=folder)
    trial.ended(restore(trial), 1, err="fault store\n", why="shop.db: put FILE.before away first")
    os.rename(trial.path("shop.db.before-wal"), trial.path("shop.db.before"))
    trial.ended(restore(trial), 1, err="fault store\n", why="shop.db: put FILE.before away first")
    os.rename(trial.path("shop.db.before"), trial.path("shop.db.before-wal"))
    trial.equal(tree(trial.folder), before)
    shop = trial.shop(STORE)
    for folder in ("bad/none", "backups/1"):
        trial.ended(restore(trial, folder=folder), 1, err="fault store\n", why="shop.db: another program has it open")
    shop.kill()


@case(
    "a copy with other names beside it",
    "A copy beside which lie a folder, a text, and a file whose name is no text is restored.",
)
def beside(trial):
    terminal = two_states(trial)
    os.mkdir(trial.path("backups/1/folder"))
    trial.write("backups/1/README", "a copy\n")
    with open(os.path.join(os.fsencode(trial.path("backups/1")), b"Notiz\xe4.txt"), "wb"):
        pass
    trial.ended(restore(trial), 0, out=RESTORED)
    trial.equal(is_whole(trial, trial.path(STORE), [terminal]), [2])


@case(
    "names in which nothing is restored",
    "An empty name, and those that SQLite gives another meaning, are refused as no store's, and no file is made.",
)
def no_names(trial):
    two_states(trial)
    before = tree(trial.folder)
    for name in ("", ":memory:", "file:day.db"):
        why = f"{name}: it is no plain file with one name; name one, and no hard link to it"
        trial.ended(restore(trial, name), 1, err="fault store\n", why=why, sent=name)
        trial.equal(tree(trial.folder), before, name)


@case(
    "a disk that is full at a restore",
    "Where a copy can't be made, as the disk is full, both files stay as they were, and what was made of the copies is taken away.",
)
def full_disk(trial):
    terminal = two_states(trial)
    before = tree(trial.folder)

    def full(at):
        faults = Faults(trial, "files", at=at, error=errno.ENOSPC)
        ran = restore(trial, environment=faults.environment)
        faults.end()
        return ran

    # (the first calls are those that make the copies: a name freed, a file made, written and synced, of each of two)
    for at in range(1, 9):
        trial.ended(full(at), 1, err="fault store\n", why="shop.db: the disk is full; make room", sent=at)
        trial.equal(tree(trial.folder), before, at)
    trial.ended(restore(trial), 0, out=RESTORED)
    trial.equal(is_whole(trial, trial.path(STORE), [terminal]), [2])


# ---- each call in turn


def state(trial, place, lost, kept):
    """A folder with a shop's files as they are where this is lost of them; what they hold by their names."""
    os.makedirs(place)
    files = {name: it for name, it in kept.items() if name not in LOST.get(lost, ())}
    if lost == "bytes of the log":
        files[LOG] = b""
    for name, it in files.items():
        with open(os.path.join(place, name), "wb") as file:
            file.write(it)
    return files


def check_stop(trial, place, backup, files, new, terminal, name):
    """What is there behind a stop: the old pair, the new one, or files that the next start refuses, with both pairs there; and it can be
    restored once what was put aside is put away."""
    found = {it: content(os.path.join(place, it)) for it in os.listdir(place)}
    trial.holds(not files or STORE in found or LOG in found, f"{name}: neither name is there: {sorted(found)}")
    pair = {it: found[it] for it in (STORE, LOG) if it in found}
    trial.holds(not files.get(STORE) or files[STORE] in (found.get(STORE), found.get(f"{STORE}.before")), f"{name}: the old store is lost")
    trial.holds(LOG not in files or files[LOG] in (found.get(LOG), found.get(f"{STORE}.before-wal")), f"{name}: the old log is lost")
    if pair not in (files, new):
        ran = trial.run("serve", "--port", "1", "--store", f"{place}/{STORE}", "--shop", trial.write("none.toml", ""))
        trial.equal((ran.status, fault_in(ran.err)), (1, b"fault store\n"), f"{name}: {sorted(found)}")
        behind = {it: content(os.path.join(place, it)) for it in os.listdir(place)}
        trial.equal(behind, found, name)
    for it in (f"{STORE}.before", f"{STORE}.before-wal"):
        if it in found:
            os.remove(os.path.join(place, it))
    trial.equal(restore(trial, f"{place}/{STORE}", backup).status, 0, name)
    trial.equal(is_whole(trial, f"{place}/{STORE}", [terminal]), [2], name)


def disturbed(trial, terminal, kept, new, lost, at, **named):
    """A restore with a fault at a call, and what is there behind it. How many calls there were."""
    name = f"{lost}-{at}-{named}"
    place = os.path.realpath(trial.path(f"place-{abs(hash(name))}"))
    # (its own copy of the backup, as one that another program reads isn't restored)
    backup = shutil.copytree(trial.path("backups/1"), f"{place}-backup")
    files = state(trial, place, lost, kept)
    faults = Faults(trial, "files", at=at, under=place, **named)
    ran = restore(trial, f"{place}/{STORE}", backup, environment=faults.environment)
    calls = faults.calls()
    faults.end()
    trial.holds(ran.status == (9 if named.get("stop") and at else 0 if not at else ran.status), f"{name}: {ran}")
    check_stop(trial, place, backup, files, new, terminal, name)
    shutil.rmtree(place)
    shutil.rmtree(backup)
    return calls


def sweep_restores(trial, **named):
    terminal = two_states(trial)
    kept = held(trial, STORE, LOG)
    new = {it: content(trial.path(f"backups/1/{it}")) for it in (STORE, LOG)}
    for lost in (*LOST, "bytes of the log"):
        sweep(trial, 2, partial(disturbed, trial, terminal, kept, new, lost), named, more_than=10)


@case(
    "stopped within a restore",
    "Stopped at each call that changes the files, of a shop that lost its log, its store, both, nothing, or its log's bytes: the old pair is there, or "
    "the new one, or files that the next start refuses and leaves as they were, with both pairs there; never neither name. Then it can be restored.",
)
def stopped(trial):
    sweep_restores(trial, stop="kept")


@case(
    "a call within a restore fails",
    "Each call that changes the files fails in turn: the same is there as behind a stop, and it can be restored.",
)
def fails(trial):
    sweep_restores(trial, error=errno.EIO)


@case(
    "stopped within a restore of an empty log",
    "Stopped at each call that changes the files, of a backup whose log has no byte, as SQLite's merge and a new empty file leave it: the same is "
    "there as with a log that has some, and never what a start takes for a new shop.",
)
def stopped_empty(trial):
    terminal = two_states(trial)
    kept = held(trial, STORE, LOG)
    with closing(sqlite3.connect(trial.path(f"backups/1/{STORE}"))) as book:
        book.execute("PRAGMA wal_checkpoint(TRUNCATE)")
    trial.write(f"backups/1/{LOG}", b"")
    new = {STORE: content(trial.path(f"backups/1/{STORE}")), LOG: b"\0"}
    for lost in LOST:
        sweep(trial, 1, partial(disturbed, trial, terminal, kept, new, lost), {"stop": "kept"}, more_than=10)


@case(
    "a copy's name that is taken at a restore",
    "Where FILE.new or FILE.new-wal is a link, a second name of another file, or a pipe, it is replaced: the store is restored, and the file that has "
    "another name stays as it was.",
)
def taken_names(trial):
    two_states(trial)
    kept, wanted = held(trial, STORE, LOG), held(trial, f"backups/1/{STORE}", f"backups/1/{LOG}")
    makers = {"link": lambda path: os.symlink("other.db", path), "name": lambda path: os.link(trial.path("other.db"), path), "pipe": os.mkfifo}
    for name in ("shop.db.new", "shop.db.new-wal"):
        for kind, make in makers.items():
            trial.write("other.db", "another file")
            for it, bytes_of in kept.items():
                trial.write(it, bytes_of)
            make(trial.path(name))
            trial.ended(restore(trial), 0, out=RESTORED, sent=f"{name}, a {kind}")
            trial.equal([content(trial.path(it)) for it in (STORE, LOG)], list(wanted.values()), f"{name}, a {kind}")
            trial.equal(content(trial.path("other.db")), b"another file", f"{name}, a {kind}")
            trial.equal(held(trial, "shop.db.before", "shop.db.before-wal"), {f"shop.db.before{it[7:]}": kept[it] for it in kept})
            trial.equal(held(trial, "shop.db.new", "shop.db.new-wal"), {}, f"{name}, a {kind}")
            for it in ("shop.db.before", "shop.db.before-wal"):
                os.remove(trial.path(it))


@case(
    "restores at once",
    "Of four restores of a store that begin together one is done, and each other one ends with status 1 and changes nothing: the store is the backup's, "
    "and FILE.before what was there.",
)
def at_once(trial):
    two_states(trial)
    kept, wanted = held(trial, STORE, LOG), held(trial, f"backups/1/{STORE}", f"backups/1/{LOG}")
    words = [trial.program, "restore", "--store", STORE, "--from", "backups/1"]
    for turn in range(5):
        for name, bytes_of in kept.items():
            trial.write(name, bytes_of)
        runs = [subprocess.Popen(words, cwd=trial.folder, stdin=subprocess.DEVNULL, stdout=subprocess.PIPE, stderr=subprocess.PIPE) for _ in range(4)]
        found = sorted((*it.communicate(), it.returncode) for it in runs)
        trial.equal([it[2] for it in found], [1, 1, 1, 0], f"turn {turn}: {found}")
        trial.equal(found[3][:2], (RESTORED, b""), f"turn {turn}")
        trial.equal([it[0] for it in found[:3]], [b""] * 3, f"turn {turn}")
        trial.equal([content(trial.path(it)) for it in (STORE, LOG)], list(wanted.values()), f"turn {turn}")
        trial.equal(held(trial, "shop.db.before", "shop.db.before-wal"), {f"shop.db.before{it[7:]}": kept[it] for it in kept}, f"turn {turn}")
        trial.equal(held(trial, f"backups/1/{STORE}", f"backups/1/{LOG}"), wanted, f"turn {turn}")
        for it in ("shop.db.before", "shop.db.before-wal"):
            os.remove(trial.path(it))


@case(
    "standard streams that are closed at a restore",
    "Whichever of the three streams are closed, no file of the store, of the backup or of what was there gets a byte that is meant for them; "
    "without standard output the status is 1.",
)
def closed_streams(trial):
    two_states(trial)
    kept, wanted = held(trial, STORE, LOG), held(trial, f"backups/1/{STORE}", f"backups/1/{LOG}")
    for closed in ((0,), (1,), (2,), (0, 1), (0, 2), (1, 2), (0, 1, 2)):
        for name, bytes_of in kept.items():
            trial.write(name, bytes_of)
        for _ in range(2):
            # (the second time it is refused, as FILE.before is there)
            ran = restore(trial, prepare=lambda: [os.close(it) for it in closed])
            trial.equal([content(trial.path(it)) for it in (STORE, LOG)], list(wanted.values()), closed)
            trial.equal(held(trial, "shop.db.before", "shop.db.before-wal"), {f"shop.db.before{it[7:]}": kept[it] for it in kept}, closed)
            trial.equal(held(trial, f"backups/1/{STORE}", f"backups/1/{LOG}"), wanted, closed)
            wants = 1 if 1 in closed or _ else 0
            trial.equal(ran.status, wants, closed)
        for it in ("shop.db.before", "shop.db.before-wal"):
            os.remove(trial.path(it))


@case(
    "a rollback journal beside a store at a restore",
    "A rollback journal of the store that was there, in use by no program, lies beside FILE.before as FILE.before-journal behind a restore, so that the restored "
    "store opens and stays; also where FILE isn't there. Where FILE.before-journal is there nothing is restored.",
)
def old_journal(trial):
    terminal = two_states(trial)
    kept, journal = held(trial, STORE, LOG), b"a journal of another program"
    for lost, names in LOST.items():
        for name, bytes_of in kept.items():
            trial.write(name, bytes_of)
        for name in names:
            os.remove(trial.path(name))
        trial.write("shop.db-journal", journal)
        trial.ended(restore(trial), 0, out=RESTORED, sent=lost)
        trial.equal(held(trial, "shop.db-journal", "shop.db.before-journal"), {"shop.db.before-journal": journal}, lost)
        trial.equal(is_whole(trial, trial.path(STORE), [terminal]), [2], lost)
        for name in ("shop.db.before", "shop.db.before-wal"):
            if os.path.exists(trial.path(name)):
                os.remove(trial.path(name))
        now = held(trial, STORE, LOG)
        trial.ended(restore(trial), 1, err="fault store\n", why="shop.db: put FILE.before away first")
        trial.equal(held(trial, STORE, LOG), now, lost)
        os.remove(trial.path("shop.db.before-journal"))


@case(
    "a served store under a copy's name at a restore",
    "Where a program has FILE.new open as its store, nothing is restored and no file changes: the other store goes on, and has its messages.",
)
def served_copy(trial):
    two_states(trial)
    other, terminal = trial.shop("shop.db.new"), Terminal(1)
    trial.equal(terminal.send_all(other, 2), None)
    names = (STORE, LOG, "shop.db.new", "shop.db.new-wal")
    before = held(trial, *names)
    trial.ended(restore(trial), 1, err="fault store\n", why="shop.db: another program has it open")
    trial.equal(held(trial, *names, "shop.db.before"), before)
    trial.equal(terminal.send_all(other, 4), None)
    other.kill()
    trial.equal(is_whole(trial, other.store, [terminal]), [4])
