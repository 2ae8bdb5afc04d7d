"""A start that ends before it serves takes away the store that it made, and nothing else, whatever has its names by then."""

import errno
import os
import subprocess
import time
from contextlib import contextmanager, suppress

from kit.case import case
from kit.commands import STEEL, serving, taken_port
from kit.copies import both, kept, plain, put
from kit.faults import Faults, sweep
from kit.shop import SECONDS, free_port
from kit.stores import DAY, filled, received

# How often it is looked whether a start listens by now.
TURN = 0.05


def full_pipe():
    """Both ends of a pipe that takes no byte more until some are read."""
    reader, writer = os.pipe()
    os.set_blocking(writer, False)
    for piece in (bytes(65536), b"\0"):
        with suppress(BlockingIOError):
            while True:
                os.write(writer, piece)
    os.set_blocking(writer, True)
    return reader, writer


def listens(port):
    """Whether somebody listens to a port of this machine."""
    wanted = f"0100007F:{port:04X}"
    with open("/proc/net/tcp", encoding="ascii") as table:
        return any(it.split()[1:4:2] == [wanted, "0A"] for it in table)


@contextmanager
def held(trial, store):
    """A start that has made its store and listens, and can't report that yet. Given is what has it end: its output is closed."""
    trial.write("shop.toml", STEEL)
    reader, writer = full_pipe()
    port = free_port()
    words = ("serve", "--port", str(port), "--store", store, "--shop", "shop.toml")
    process = subprocess.Popen([trial.program, *words], stdout=writer, stderr=subprocess.PIPE, cwd=trial.folder)
    os.close(writer)
    opened = [reader]

    def end():
        os.close(opened.pop())
        _, errors = process.communicate(timeout=SECONDS)
        trial.equal((process.returncode, errors.partition(b"\n")[0]), (1, b"fault write"), store)

    try:
        until = time.monotonic() + SECONDS
        while not listens(port) and process.poll() is None and time.monotonic() < until:
            time.sleep(TURN)
        trial.holds(process.poll() is None and listens(port), "the start came to its output")
        yield end
    finally:
        for it in opened:
            os.close(it)
        process.kill()
        process.wait()
        process.stderr.close()


def renamed_over(trial, store, good):
    """A good store gets the names, over the files that were made."""
    for end in ("", "-wal"):
        os.replace(good + end, store + end)


def linked(trial, store, good):
    """The files that were made get other names, and links to a good store have theirs."""
    for end in ("", "-wal"):
        os.rename(store + end, f"{store}{end}.away")
        os.symlink(good + end, store + end)


def folder_swapped(trial, store, good):
    """Another folder, with a good store in it, gets the name of the folder."""
    folder = os.path.dirname(store)
    os.rename(folder, folder + "-away")
    os.mkdir(folder)
    renamed_over(trial, store, good)


def store_alone(trial, store, good):
    """The store's file alone is another one."""
    os.replace(good, store)


def log_alone(trial, store, good):
    """The log alone is another one."""
    os.replace(good + "-wal", store + "-wal")


@case(
    "another store under the names of a start",
    "Where other files have the names of a store that a start made, or links to others, these stay byte for byte when it ends before it "
    "serves, the store, the log or both; so do others in a folder that got the name of its own.",
)
def swapped(trial):
    for number, swap in enumerate((renamed_over, linked, folder_swapped, store_alone, log_alone)):
        good = filled(trial, f"good-{number}.db")
        wanted = both(good)
        os.mkdir(trial.path(f"{number}"))
        store = trial.path(f"{number}/new.db")
        with held(trial, store) as end:
            swap(trial, store, good)
            before = both(store)
            end()
        found = both(store)
        if swap is not log_alone:
            trial.equal(found[0], wanted[0], f"the store, {swap.__doc__}")
        if swap is not store_alone:
            trial.equal(found[1], wanted[1], f"the log, {swap.__doc__}")
            trial.equal(found[1], before[1], swap.__doc__)
        if swap is linked:
            trial.equal(both(good), wanted, swap.__doc__)


@case(
    "a shop that serves under the names of a start",
    "A shop that was begun on other files under the names of a start that ends before it serves goes on, and loses neither of them.",
)
def served_meanwhile(trial):
    good = filled(trial, "good.db")
    store = trial.path("new.db")
    with held(trial, store) as end:
        renamed_over(trial, store, good)
        shop = trial.shop("new.db")
        trial.holds(shop.is_open, getattr(shop, "errors", ""))
        end()
        line, reply = received("GLASS", 10, 8, 4, number=20)
        trial.equal(shop.reply(line).decode(), reply)
        shop.kill()
    trial.equal(sorted(kept(trial, "new.db")), sorted([*DAY, (plain(line), reply)]))


@case(
    "a second name of a store that a start made",
    "A start that ends before it serves takes away its own names alone: another name of its file stays.",
)
def second_name(trial):
    store = trial.path("new.db")
    with held(trial, store) as end:
        os.link(store, trial.path("other.db"))
        end()
    trial.equal(both(store), [None, None])
    trial.holds(os.path.exists(trial.path("other.db")), "the other name")


@case(
    "an empty log that was there before a start",
    "A log of 0 bytes that lay there before a start made the store stays, with 0 bytes, when that ends before it serves.",
)
def empty_log(trial):
    trial.write("shop.toml", STEEL)
    put(trial.path("new.db"), None, b"")
    with taken_port() as port:
        trial.ended(serving(trial, port, "new.db", "shop.toml"), 1, err="fault port\n")
    trial.equal(both(trial.path("new.db")), [None, b""])


@case(
    "two starts on one new store",
    "A start that finds the store in use that another start is making ends, and takes neither file away.",
)
def two_starts(trial):
    store = trial.path("new.db")
    with held(trial, store) as end:
        before = both(store)
        with taken_port() as port:
            output = "new.db: another program has it open"
            trial.ended(serving(trial, port, "new.db", "shop.toml"), 1, err="fault store\n", why=output)
        trial.equal(trial.run("yield", "--store", "new.db", "STEEL").status, 1)
        trial.equal(both(store), before)
        end()
    trial.equal(both(store), [None, None])


@case(
    "a start that can't take its store away",
    "Where a call on its files fails in a start whose port is taken, or it is stopped there, the next start serves the store, or makes it. "
    "Where it is the store's opening that failed, on a full disk, say, nothing is left of the store.",
)
def not_taken_away(trial):
    trial.write("shop.toml", STEEL)

    def disturbed(number, **fault):
        name = f"new-{number}-{'-'.join(map(str, fault.values()))}.db"
        faults = Faults(trial, of="files", at=number, **fault)
        with taken_port() as port:
            ran = serving(trial, port, name, "shop.toml", environment=faults.environment)
        if not fault.get("stop"):
            trial.equal(ran.status, 1, f"call {number}, {fault}")
        if not fault.get("on") and ran.err.startswith(b"fault store\n"):
            trial.equal(both(trial.path(name)), [None, None], f"call {number}, {fault}")
        shop = trial.shop(name)
        trial.holds(shop.is_open, f"call {number}, {fault}: {getattr(shop, 'errors', '')}")
        shop.kill()
        count = faults.calls()
        faults.end()
        return count

    errors = ({"error": errno.EIO}, {"error": errno.ENOSPC, "on": True})
    sweep(trial, 5, disturbed, *errors, {"stop": "kept"}, {"stop": "dropped"}, more_than=10)
