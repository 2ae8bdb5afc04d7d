"""Days of a shop whose calls on the store's files fail or stop the program, and what is found behind each."""

import os
from dataclasses import dataclass
from functools import partial

from kit import tables
from kit.case import fault_in
from kit.days import Day, questions_of
from kit.faults import Faults, sweep

FAULT = b'{"name":"StoreFault","refused":99}'
UNAVAILABLE = b"HTTP/1.1 503 Service Unavailable"


@dataclass
class Course:
    """A start of `serve` on a store that is made first, and lines that are sent; `before` of the day's were sent earlier. `rows`: what
    its tables have in the end, where that isn't the day's."""

    name: str
    day: Day
    make: object
    before: int
    rows: dict = None

    def lines(self):
        return list(zip(self.day.lines, self.day.replies))[self.before :]


def sent(shop, line):
    """The first line of the answer to a line, and its body; or nothing."""
    try:
        head, _, body = shop.send(line).partition(b"\r\n\r\n")
    except OSError:
        return b"", b""
    return head.partition(b"\r\n")[0], body


def acknowledged(trial, course, shop, goes_on):
    """Sends a course's lines and a question. How many of the day's lines are acknowledged then. A line may get 99 with status
    503, or no answer. Where the shop `goes_on` it is sent again once; a commit that failed at its end may leave it open, and
    then 99 is the answer until the next start."""
    lines = course.lines()
    for number, (line, reply) in enumerate(lines):
        got = sent(shop, line)
        if got[1] != reply and goes_on:
            trial.equal(got, (UNAVAILABLE, FAULT), line)
            goes_on = False
            got = sent(shop, line)
        if got[1] != reply:
            trial.equal(got in [(b"", b""), (UNAVAILABLE, FAULT)], True, f"{line.decode()}: {got}")
            return course.before + number
    sent(shop, course.day.lines[-1])
    return course.before + len(lines)


def goes_on(trial, course, store, count):
    """The store is opened again without faults: the books are those behind as many messages as were acknowledged, or behind
    one more; all that are accepted, sent again, get their replies, and come to the tables of a day that nothing disturbed."""
    day = course.day
    shop = trial.shop(store)
    trial.holds(shop.is_open, f"the store {store} doesn't open again: {getattr(shop, 'errors', '')}")
    found = questions_of(shop)
    trial.equal(found in day.states[count : count + 2], True, f"{store}: {count} acknowledged, found {found}")
    for line, reply in day.accepted():
        trial.equal(shop.reply(line), reply, f"{store}: {line.decode()}")
    shop.kill()
    trial.equal(tables.rows(shop.store), course.rows or day.rows, store)
    for end in ("", "-wal"):
        if os.path.exists(shop.store + end):
            os.remove(shop.store + end)


def disturbed(trial, course, at, of, stop="", on=False, **named):
    """A course with a fault at a call, and what is found behind it. How many calls there were."""
    folder = trial.path("stores")
    os.makedirs(folder, exist_ok=True)
    faults = Faults(trial, of, at=at, stop=stop, on=on, under=os.path.realpath(folder), **named)
    store = os.path.join(folder, f"{course.name}-{at}-{os.path.basename(faults.count_path)}.db")
    course.make(store)
    # (the line that gets no answer is sent once more, or else a question comes last)
    shop = trial.shop(store, limit=len(course.lines()) + 1, environment=faults.environment)
    count = course.before
    if shop.is_open:
        count = acknowledged(trial, course, shop, not on and not stop)
    elif not stop:
        trial.equal((shop.status, fault_in(shop.errors)), (1, b"fault store\n"), f"the start, call {at}")
    if stop:
        trial.equal(shop.end()[0] if shop.is_open else shop.status, 9, f"the stop at call {at}")
    elif shop.is_open and count == len(course.day.lines):
        status, _, errors = shop.end()
        trial.equal((status, fault_in(errors)) in ((0, b""), (1, b"fault store\n")), True, f"the end, call {at}")
    shop.kill()
    goes_on(trial, course, store, count)
    calls = faults.calls()
    faults.end()
    return calls


def sweep_courses(trial, courses, stride, *faults, of="files"):
    """Disturbs each course by each of these faults."""
    for course in courses:
        sweep(trial, stride, partial(disturbed, trial, course, of=of), *faults)
