"""What a server reports of itself where nobody reads it: a line that can't be written at once is dropped and counted, and the same line
is written once a minute."""

import errno
import fcntl
import os
import select
import time

from kit.backups import REQUEST, open_shop, backup_answer
from kit.case import case
from kit.faults import Faults
from kit.glass import GLASS, SHEET

FAULT = b'{"name":"StoreFault","refused":99}'
# A line of a message that the store couldn't take, by its first words.
FAILED = b"cutshop: answered 99 StoreFault; "
SMALLEST = 4096
AT_ONCE = 1


def waiting(shop):
    """What stands in the pipe of standard error."""
    pipe, got = shop.process.stderr.fileno(), b""
    while select.select([pipe], [], [], 0)[0]:
        piece = os.read(pipe, 1 << 16)
        if not piece:
            break
        got += piece
    return got


def timed(trial, shop, request, words):
    """An answer that comes at once."""
    begin = time.monotonic()
    got = shop.exchange(request)
    took = time.monotonic() - begin
    trial.holds(took < AT_ONCE, f"{words}: the answer took {took:.2f} seconds")
    return got


@case(
    "standard error that nobody reads",
    "With a pipe of 4096 bytes that isn't read 200 backups and the questions between them are answered within a second each. Once it is "
    "read the next line stands behind the number of those that were not written.",
)
def unread(trial):
    shop = open_shop(trial)
    trial.equal(fcntl.fcntl(shop.process.stderr, fcntl.F_SETPIPE_SZ, SMALLEST), SMALLEST)
    for number in range(1, 201):
        trial.equal(timed(trial, shop, REQUEST, f"backup {number}"), backup_answer(number))
        if number % 20 == 0:
            trial.equal(timed(trial, shop, b"GET /materials HTTP/1.0\r\n\r\n", number)[:15], b"HTTP/1.1 200 OK")
    lines = waiting(shop).splitlines()
    made = [it for it in lines if it.startswith(b"cutshop: made backup ")]
    trial.equal(made, [b"cutshop: made backup %d in backups" % number for number in range(1, len(made) + 1)])
    trial.holds(len(made) < 200, f"{len(made)} lines were written")
    trial.equal(shop.exchange(REQUEST), backup_answer(201))
    # (the start reports three lines: of itself, of hosts that aren't judged, of the disk)
    lost = f"cutshop: {203 - len(lines)} lines were not written\n"
    trial.equal(waiting(shop).decode(), f"{lost}cutshop: made backup 201 in backups\n")
    trial.equal(shop.exchange(REQUEST), backup_answer(202))
    trial.equal(waiting(shop).decode(), "cutshop: made backup 202 in backups\n")


@case(
    "standard error that is closed",
    "A server whose standard error is closed, or whose reader is gone, answers on.",
)
def closed(trial):
    shop = open_shop(trial)
    shop.process.stderr.close()
    for number in (1, 2, 3):
        trial.equal(timed(trial, shop, REQUEST, "its reader is gone"), backup_answer(number))
    none = open_shop(trial, "none.db", "others", prepare=lambda: os.close(2))
    for number in (1, 2, 3):
        trial.equal(timed(trial, none, REQUEST, "it is closed"), backup_answer(number))


@case(
    "the same line again and again",
    "Messages that a full disk refuses are reported once a minute; how many were left out stands behind the next line. Another line is "
    "written between them.",
)
def again(trial):
    counted = Faults(trial, "files")
    shop = trial.shop("a.db", environment=counted.environment)
    shop.reply(GLASS)
    calls = counted.calls()
    shop.kill()
    faults = Faults(trial, "files", at=calls + 1, on=True, error=errno.ENOSPC)
    shop = trial.shop("b.db", environment=faults.environment)
    shop.reply(GLASS)
    waiting(shop)
    for _ in range(38):
        trial.equal(shop.reply(SHEET), FAULT)
    first = waiting(shop)
    trial.holds(first.startswith(FAILED) and first.count(b"\n") == 1, first)
    for seconds, wanted in ((30, b""), (61, first[:-1] + b" (38 times)\n"), (62, b""), (125, first[:-1] + b" (1 times)\n")):
        faults.set_ahead(seconds)
        trial.equal(shop.reply(SHEET), FAULT)
        trial.equal(waiting(shop), wanted, f"{seconds} seconds later")
