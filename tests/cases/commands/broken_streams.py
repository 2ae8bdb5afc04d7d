"""Streams that fail, are interrupted, or take one byte at a time: what is answered, and what is reported."""

import errno
import os
import subprocess

from kit.case import case, fault_in
from kit.days import ASKED, day_of, whole
from kit.faults import Faults
from kit.glass import DONE, DONE_REPLY, TOTALS, reserved, totals
from kit.lines import material
from kit.shop import answer, request_of

NAME = "remnant cut again"

# A read or write is tried so often where it is interrupted.
TRIES = 1000


@case(
    "one byte at a time",
    "Where each read and each write takes one byte, `replay` and `serve` answer with the same bytes.",
)
def bytes_alone(trial):
    day = day_of(trial, ASKED)
    lines, replies = whole(day)
    trial.ended(trial.replay(lines, environment=Faults(trial, by=1).environment), 0, replies)
    shop = trial.shop(environment=Faults(trial, by=1, date=0).environment)
    for line, reply in zip(day.lines, day.replies):
        trial.equal(shop.reply(line), reply, line)


# So many bytes of replies are held before they are written.
HELD = 65536


@case(
    "replies go out together",
    "The replies to 1000 lines of a file that are at hand together are one write of `replay`; where they take more than 65536 bytes "
    "each write has so many, and not more than a reply over it.",
)
def together(trial):
    lines = [material(f"M-{it}", it + 1) for it in range(300)]
    for count, asked, replies in ((0, ['{"ask":"materials"}'] * 1000, 1000), (300, ['{"ask":"materials"}'] * 300, 600)):
        path = trial.write("lines.txt", "".join(f"{it}\n" for it in [*lines[:count], *asked]))
        faults = Faults(trial, "write")
        with open(path, "rb") as given, open(trial.path("replies.txt"), "wb") as out:
            ran = subprocess.run([trial.program, "replay"], stdin=given, stdout=out, env={**os.environ, **faults.environment})
        with open(trial.path("replies.txt"), "rb") as file:
            output = file.read().splitlines(keepends=True)
        trial.equal((ran.returncode, len(output)), (0, replies))
        total, longest = sum(map(len, output)), max(map(len, output))
        least, most = total // (HELD + longest), 1 + total // HELD
        trial.holds(least <= faults.calls() <= most, f"{faults.calls()} writes of {total} bytes, the longest reply {longest}")


@case(
    "a read of lines fails",
    "Each read of `replay`, of one byte, fails in turn, the one at the end too: the lines before it have their "
    "replies, then `fault read`.",
)
def reads_fail(trial):
    day = day_of(trial, NAME)
    lines, _ = whole(day)
    for at in trial.places(len(lines) + 1, 29):
        ran = trial.replay(lines, environment=Faults(trial, "read", at=at + 1, by=1).environment)
        replies = day.replies[: lines[:at].count(b"\n")]
        trial.ended(ran, 1, b"".join(it + b"\n" for it in replies), b"fault read\n", sent=f"read {at + 1}")


@case(
    "a write of replies fails",
    "Each write of `replay`, of one byte, fails in turn: a first part of the replies was written, then `fault write`.",
)
def writes_fail(trial):
    lines, replies = whole(day_of(trial, NAME))
    for at in trial.places(len(replies), 29):
        ran = trial.replay(lines, environment=Faults(trial, "write", at=at + 1, by=1).environment)
        trial.ended(ran, 1, replies[:at], b"fault write\n", sent=f"write {at + 1}")


@case(
    "a write of a text fails",
    "Each write of `plan`, `ticket`, `yield`, `history`, `audit`, help and of the line with the port fails in turn: a first part was "
    "written, then `fault write`.",
)
def texts_fail(trial):
    day = day_of(trial, NAME)
    shop = trial.shop(limit=len(day.lines))
    for line in day.lines:
        shop.reply(line)
    output, status = shop.end()[1], shop.end()[0]
    trial.equal(status, 0)
    problem = trial.write("problem.txt", "1\n10 8\n4 3 10 12\n")
    commands = [("plan", problem, "--kerf", "1", "--step", "1"), ("--help",)]
    commands += [("ticket", "--store", shop.store, "2"), ("yield", "--store", shop.store, "GLASS")]
    commands += [("history", "--store", shop.store), ("audit", "--store", shop.store)]
    for words in commands:
        text = trial.run(*words).out
        for at in trial.places(len(text), 41):
            ran = trial.run(*words, environment=Faults(trial, "write", at=at + 1, by=1).environment)
            trial.ended(ran, 1, text[:at], b"fault write\n", sent=f"{words}, write {at + 1}")
    for at in trial.places(len(output), 11):
        shop = trial.shop(environment=Faults(trial, "write", at=at + 1, by=1).environment)
        trial.equal((shop.is_open, shop.status, fault_in(shop.errors)), (False, 1, b"fault write\n"), f"write {at + 1}")
        trial.holds(output.startswith(shop.output[: len("listening on 127.0.0.1:")]), shop.output)


@case(
    "a read of a file fails",
    "Each read of a problem file and of a shop file fails in turn: `fault file` with status 1.",
)
def files_fail(trial):
    problem = trial.write("problem.txt", "1\n10 8\n4 3 10 12\n")
    shop_file = trial.write("shop.toml", "\n")
    serve = ("serve", "--port", "1", "--store", trial.path("shop.db"), "--shop", shop_file)
    for words, count in ((("plan", problem, "--kerf", "1", "--step", "1"), 18), (serve, 2)):
        for at in range(count):
            ran = trial.run(*words, environment=Faults(trial, "read", at=at + 1, by=1, under="").environment)
            trial.ended(ran, 1, b"", b"fault file\n", sent=f"{words}, read {at + 1}")


@case(
    "interrupted once, and for ever",
    "A read and a write of `replay` that are interrupted are made again; 1000 times in a row it is `fault read` and "
    "`fault write`.",
)
def interrupted(trial):
    lines, replies = whole(day_of(trial, NAME))
    for of in ("read", "write"):
        once = Faults(trial, of, at=1, error=errno.EINTR)
        trial.ended(trial.replay(lines, environment=once.environment), 0, replies, sent=of)
        ever = Faults(trial, of, at=1, on=True, error=errno.EINTR)
        trial.ended(trial.replay(lines, environment=ever.environment), 1, err=f"fault {of}\n", sent=of)
        trial.equal(ever.calls(), TRIES, of)


def first_write(trial):
    """How many writes of one byte report that a shop listens, those on standard error aside."""
    faults = Faults(trial, "write", by=1)
    trial.shop("empty.db", environment=faults.environment).kill()
    return faults.calls()


def waiting(trial, name):
    """The path of a store with a waiting job of two pieces of a sheet."""
    shop = reserved(trial, store=name)
    shop.kill()
    return shop.store


@case(
    "a read of a request fails",
    "Each read of a POST's connection fails in turn: its message isn't done, and sent again gets its reply.",
)
def request_reads_fail(trial):
    request = request_of(DONE)
    for at in trial.places(len(request), 29):
        faults = Faults(trial, "read", at=at + 1, by=1, error=errno.ECONNRESET)
        shop = trial.shop(waiting(trial, f"{at}.db"), environment=faults.environment)
        trial.equal(shop.exchange(request, ends=False), b"", f"read {at + 1}")
        trial.equal(shop.reply(TOTALS), totals(80, 0, 0, 0), f"read {at + 1}")
        trial.equal(shop.exchange(request), answer(200, DONE_REPLY), f"read {at + 1}")
        shop.kill()


@case(
    "a write of an answer fails",
    "Each write of an answer fails in turn: a first part came, the message is done, and sent again it gets the kept "
    "reply.",
)
def answer_writes_fail(trial):
    wanted, first = answer(200, DONE_REPLY), first_write(trial)
    for at in trial.places(len(wanted), 29):
        faults = Faults(trial, "write", at=first + at + 1, by=1, error=errno.EPIPE)
        shop = trial.shop(waiting(trial, f"{at}.db"), environment=faults.environment)
        trial.equal(shop.exchange(request_of(DONE)), wanted[:at], f"write {at + 1}")
        trial.equal(shop.reply(TOTALS), totals(0, 40, 28, 12), f"write {at + 1}")
        trial.equal(shop.exchange(request_of(DONE)), wanted, f"write {at + 1}")
        shop.kill()


@case(
    "a connection interrupted once",
    "A read or a write of a connection that is interrupted once, at each place in turn, is made again: the whole "
    "answer comes.",
)
def connection_interrupted(trial):
    request, wanted = request_of(DONE), answer(200, DONE_REPLY)
    for of, first, count in (("read", 0, len(request)), ("write", first_write(trial), len(wanted))):
        for at in trial.places(count, 41):
            faults = Faults(trial, of, at=first + at + 1, by=1, error=errno.EINTR)
            shop = trial.shop(waiting(trial, f"{of}-{at}.db"), environment=faults.environment)
            trial.equal(shop.exchange(request, ends=False), wanted, f"{of} {at + 1}")
            shop.kill()


@case(
    "a connection interrupted for ever",
    "Where each read of connections is interrupted from some on, a POST gets no answer and isn't done; where each "
    "write is, a first part of the answer comes. Sent again to a new start it gets its reply.",
)
def connections_interrupted(trial):
    request, wanted = request_of(DONE), answer(200, DONE_REPLY)
    for of, first in (("read", 0), ("write", first_write(trial))):
        for at in (0, 1, 40):
            says = f"{of} {at + 1}"
            store = waiting(trial, f"{of}-{at}.db")
            faults = Faults(trial, of, at=first + at + 1, on=True, by=1, error=errno.EINTR)
            shop = trial.shop(store, environment=faults.environment)
            trial.equal(shop.exchange(request, ends=False), wanted[:at] if of == "write" else b"", says)
            trial.equal(shop.exchange(request, ends=False), b"", f"{says}, the next connection")
            trial.equal(shop.has_ended(0), False, says)
            shop.kill()
            again = trial.shop(store)
            trial.equal(again.reply(TOTALS), totals(0, 40, 28, 12) if of == "write" else totals(80, 0, 0, 0), says)
            trial.equal(again.exchange(request), wanted, says)
            again.kill()
