"""Calls on the store's files that fail, and stops, while the commands of the floor are handled."""

import errno
import shutil

from kit import tables
from kit.case import case
from kit.days import FLOOR, Day, day_of, questions_of
from kit.faults import Faults
from kit.floor import GLASS, line, numbered, received
from kit.lines import LONGEST
from kit.stops import Course, sweep_courses

ENDS = ("", "-wal")


def courses(trial):
    """The day on the floor from an empty folder; its second half, from a store that a stop left in the middle, behind the undo; and a start on one that a stop left
    in the end, with all in the log."""
    day = day_of(trial, FLOOR)
    undone = next(at for at, line in enumerate(day.lines) if b'"undo"' in line and b'"ok"' in day.replies[at]) + 1

    def left(name, count):
        shop = trial.shop(f"left-{name}.db")
        for line in day.lines[:count]:
            shop.reply(line)
        shop.kill()
        return shop.store

    def copied(store):
        return lambda path: [shutil.copy(store + end, path + end) for end in ENDS]

    end = len(day.lines)
    return [
        Course("day", day, lambda path: None, 0),
        Course("behind", day, copied(left("behind", undone)), undone),
        Course("again", day, copied(left("again", end)), end),
    ]


@case(
    "a call on the files fails once on the floor",
    "Each call that changes the files of “a day on the floor” fails in turn: the message is refused 99, and sent again gets its "
    "reply; nothing is lost.",
)
def fails_once(trial):
    sweep_courses(trial, courses(trial), 3, {"error": errno.EIO})


@case(
    "a disk that is full on the floor",
    "From each call that changes the files of “a day on the floor” on none works: nothing acknowledged is lost, and all sent "
    "again with room come to the same tables.",
)
def fails_on(trial):
    sweep_courses(trial, courses(trial), 5, {"error": errno.ENOSPC, "on": True})


@case(
    "a read of the files fails on the floor",
    "Each call that opens, locks or reads the files of “a day on the floor” fails once or from then on: 99 or `fault store`, "
    "and nothing is lost.",
)
def looks_fail(trial):
    sweep_courses(trial, courses(trial), 17, {"error": errno.EIO}, {"error": errno.EIO, "on": True}, of="looks")


def stopped(how, says, seeds=(0,)):
    @case(
        f"stopped on the floor with unsynced writes {how}",
        f"Stopped at each call that changes files of “a day on the floor”, {says}: a note, an extend, a begin, an undo and a "
        "break with a rest that were acknowledged are "
        "there whole, one that wasn't is there whole or not at all, and all sent again come to the same tables.",
    )
    def body(trial):
        sweep_courses(trial, courses(trial), 3, *[{"stop": how, "seed": it} for it in (seeds if trial.whole else seeds[:2])])


stopped("kept", "and all that was written stays")
stopped("dropped", "and what wasn't synced is lost, new files too")
stopped("torn", "and of what wasn't synced some sectors of 512 bytes stay", range(8))


def long_day(trial):
    """A day whose last message but one undoes a job of 511 parts, from a run that nothing disturbs."""
    lines = [{**GLASS, "kind": "bar", "material": "STEEL", "min_long": 1, "min_short": 1}, received(1, 511, 1, "STEEL")]
    lines += [{"do": "order", "order": "A-1", "lines": [line(1, 1, 1, 256, "STEEL")]}, {"do": "reserve", "part": "1/0", "tree": LONGEST}]
    lines += [{"do": "done", "job": 2}, {"do": "undo", "job": 2}, {"do": "reserve", "part": "1/0", "tree": LONGEST}]
    found = Day([], [], [], {})
    shop = trial.shop("undisturbed long.db", environment=Faults(trial, date=0).environment)
    for it in [*numbered(lines), '{"ask":"totals","material":"STEEL"}']:
        found.states.append(questions_of(shop))
        found.lines.append(it.encode())
        found.replies.append(shop.reply(it))
        trial.holds(b'"ok"' in found.replies[-1], it)
    found.states.append(questions_of(shop))
    shop.kill()
    found.rows = tables.rows(shop.store)
    trial.equal(sum(it[10] == 7 for it in found.rows["parts"]), 511, "undone parts")
    return found


@case(
    "stopped within an undo of 511 parts",
    "Stopped at each call that changes files while a job of 511 parts is undone, with what wasn't synced kept, lost or torn: "
    "all of them are undone and the bar stands, or none is; acknowledged, "
    "the undo is there.",
)
def long_undo(trial):
    day = long_day(trial)
    before = len(day.lines) - 3
    shop = trial.shop("left-long.db")
    for it in day.lines[:before]:
        shop.reply(it)
    shop.kill()
    course = Course("long", day, lambda path: [shutil.copy(shop.store + end, path + end) for end in ENDS], before)
    sweep_courses(trial, [course], 2, *[{"stop": how, "seed": it} for how, it in (("kept", 0), ("dropped", 0), ("torn", 0), ("torn", 1))])
