"""Calls that change or read the store's files: each fails, or the program stops there; what was acknowledged is kept."""

import errno
import json
import os
import shutil

from kit import tables
from kit.case import case
from kit.days import AMENDED, day_of
from kit.faults import Faults
from kit.shop import answer
from kit.stops import Course, sweep_courses

# The day whose calls are disturbed.
NAME = "remnant cut again"


def courses(trial):
    """The day from an empty folder; a start behind a stop, with all in the log; a start on a file of version 1 and one on a
    file of version 2; and a day with amends from an empty folder. Each ends by itself, and puts the log into the file then."""
    day = day_of(trial, NAME)
    end = len(day.lines)
    shop = trial.shop("stopped.db")
    for line in day.lines:
        shop.reply(line)
    shop.kill()
    earlier = {it: tables.make(trial.path(f"earlier-{it}.db"), tables.earlier(day.rows, it), it) for it in (1, 2)}
    renewed = tables.renewed(day.rows)

    def copy(path):
        for end in ("", "-wal"):
            if os.path.exists(shop.store + end):
                shutil.copy(shop.store + end, path + end)

    return [
        Course("day", day, lambda path: None, 0),
        Course("again", day, copy, end),
        Course("earlier", day, lambda path: tables.copy(earlier[1], path), end, renewed),
        Course("second", day, lambda path: tables.copy(earlier[2], path), end, renewed),
        Course("amended", day_of(trial, AMENDED), lambda path: None, 0),
    ]


@case(
    "a call on the store's files fails once",
    "Each call that changes the files of “remnant cut again”, of “amended order”, of a start behind a stop and of moves "
    "from versions 1 and 2 fails in turn: refused 99, and sent again its reply, or `fault store` at a start; nothing is lost.",
)
def fails_once(trial):
    sweep_courses(trial, courses(trial), 3, {"error": errno.EIO})


@case(
    "a disk that is full from some call on",
    "From each call that changes the files of “remnant cut again”, and of “amended order”, on none works: nothing acknowledged "
    "is lost, and all sent again with room come to the same tables.",
)
def fails_on(trial):
    sweep_courses(trial, courses(trial), 3, {"error": errno.ENOSPC, "on": True})


@case(
    "a read of the store's files fails",
    "Each call that opens, locks or reads the files of “remnant cut again”, and of “amended order”, fails once or from then on: "
    "99 or `fault store`, and nothing is lost.",
)
def looks_fail(trial):
    sweep_courses(trial, courses(trial), 11, {"error": errno.EIO}, {"error": errno.EIO, "on": True}, of="looks")


def stopped(how, says, seeds=(0,)):
    @case(
        f"stopped with unsynced writes {how}",
        "Stopped at each call that changes files (“remnant cut again”, “amended order”, a start behind a stop, moves from versions 1 "
        f"and 2), {says}: what was acknowledged is there, and all sent again come to the same tables.",
    )
    def body(trial):
        sweep_courses(trial, courses(trial), 2, *[{"stop": how, "seed": it} for it in (seeds if trial.whole else seeds[:2])])


stopped("kept", "and all that was written stays")
stopped("dropped", "and what wasn't synced is lost, new files too")
stopped("torn", "and of what wasn't synced some sectors of 512 bytes stay", range(8))


@case(
    "a full disk that gets room within a message",
    "From each call of two messages on the disk is full or over its quota, and has room again behind three messages: what was accepted before and behind "
    "is kept with its reply, and at most one message more, which was refused; the store is whole, and a later start accepts all.",
)
def room_again(trial):
    for error in (errno.ENOSPC, errno.EDQUOT):
        at, is_disturbed = 1, True
        while is_disturbed:
            store = f"full-{error}-{at}.db"
            faults = Faults(trial, "files", at=0, error=error, on=True, under=os.path.realpath(trial.path(store)))
            shop = trial.shop(store, environment=faults.environment)
            began = faults.calls()
            shop.kill()
            for end in ("", "-wal"):
                os.remove(trial.path(store + end))
            faults = Faults(trial, "files", at=began + at, error=error, on=True, under=os.path.realpath(trial.path(store)))
            shop = trial.shop(store, environment=faults.environment)
            accepted, refused = [], []
            for turn in range(5):
                if turn == 3:
                    faults.count_anew()
                line = json.dumps({"do": "material", "kerf": 1, "kind": "bar", "material": f"M-{turn}", "min_long": 1, "min_short": 1}
                    | {"number": turn + 1, "terminal": 1}, sort_keys=True, separators=(",", ":"))
                came = shop.send(line)
                wanted = answer(200, f'{{"material":"M-{turn}","ok":"material"}}')
                (accepted if came == wanted else refused).append((1, turn + 1, line, wanted.partition(b"\r\n\r\n")[2].decode()))
                if came != wanted:
                    trial.equal(came, answer(503, '{"name":"StoreFault","refused":99}'), f"{store}, message {turn + 1}")
            shop.kill()
            is_disturbed = len(accepted) < 5
            ran = trial.run("audit", "--store", store)
            trial.equal((ran.status, ran.out[-6:], ran.err), (0, b"whole\n", b""), store)
            found = tables.rows(trial.path(store))["kept"]
            trial.equal([it for it in accepted if it not in found], [], f"{store}: what was accepted and isn't kept")
            more = [it for it in found if it not in accepted]
            trial.holds(len(more) <= 1 and all(it in refused for it in more), f"{store}: {more} is kept and wasn't accepted")
            shop = trial.shop(store)
            for _, number, line, reply in sorted(accepted + refused):
                trial.equal(shop.reply(line).decode(), reply, f"{store}, message {number} again")
            shop.kill()
            at += 1
        trial.holds(at > 8, f"only {at} calls were disturbed")
