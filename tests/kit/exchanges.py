"""Cases that are data: files of lines with their replies, and of requests with their answers.

    = two bars                          the case's name
    A bar's cells are counted.          the sentence that it shows, up to the first mark below
    after three pieces                  it begins with all that this case, or this shop of shops.txt, sends and wants
    date 0                              `serve` has a clock that stands at so many seconds since 1970; `replay` gives no time, as at 0
    > {"ask":"totals","material":"A"}   a line of a terminal; an empty line is `>` alone
    < {"name":"NoMaterial","refused":20}    its reply
    ~ "GET / HTTP/1.1\\r\\n\\r\\n"          a request, as a text of JSON or a list of texts, each after a number that many times
    < 404                               its answer: a status, and `Allow: GET` or a body of JSON behind it; or `nothing`
    | job 2 done                        behind the status alone: a line of a body that is text
    # a remark
        "h":8}                          four spaces: the line above goes on here

A case's lines go to `cutshop replay` and, as requests over HTTP, to `cutshop serve` over a store file, which have to answer
with the same bytes. Requests go to `serve` alone, whole and in pieces.
"""

import json
import os
import re
from dataclasses import dataclass, field
from functools import cache

from kit import case as cases
from kit.faults import Faults
from kit.shop import answer, begin_line, end_line, request_of, status_of
from kit.tables import select

# The cases of all files, by name.
EXCHANGES = {}

# A request is sent whole, and in pieces of so many bytes.
PIECES = (None, 1, 17, 8191)


@dataclass
class Step:
    """What is sent, and what is wanted."""

    at: str
    sent: bytes
    is_request: bool
    wanted: bytes = None
    lines: list = field(default_factory=list)

    def answer(self):
        """The whole answer over HTTP that is wanted."""
        if not self.is_request:
            return answer(status_of(self.sent, self.wanted), self.wanted)
        if self.wanted == b"nothing":
            return b""
        status, _, rest = self.wanted.decode().partition(" ")
        if rest.startswith("Allow: "):
            return answer(int(status), allow=rest.removeprefix("Allow: "))
        if self.lines:
            return answer(int(status), "".join(f"{it}\n" for it in self.lines), "text/plain")
        return answer(int(status), rest)


@dataclass
class Exchange:
    """A named list of steps."""

    name: str
    says: list
    at: str
    steps: list = field(default_factory=list)
    date: int = None

    def run(self, trial):
        if not any(it.is_request for it in self.steps):
            replay(trial, self.steps)
        serve(trial, self.steps, self.date)


def replay(trial, steps):
    """Sends all lines to `cutshop replay`, and compares its replies one by one."""
    ran = trial.replay(b"".join(it.sent + b"\n" for it in steps))
    replies = ran.out.split(b"\n")
    for step, reply in zip(steps, replies):
        trial.equal(reply, step.wanted, step.sent, step.at)
    trial.equal((len(replies) - 1, replies[-1], ran.status, ran.err), (len(steps), b"", 0, b""), "replay")


def serve(trial, steps, date=None):
    """Sends each line and request to `cutshop serve` over a file, which ends by itself behind the last of them; with a clock that
    stands at a date, where one is given."""
    sends = [(it, size) for it in steps for size in (PIECES if it.is_request else (None,))]
    is_new = not os.path.exists(trial.path("shop.db"))
    kept = 0 if is_new else select(trial.path("shop.db"), "SELECT count(*) FROM kept")[0][0]
    environment = None if date is None else Faults(trial, date=date).environment
    shop = trial.shop("shop.db", limit=len(sends), environment=environment)
    trial.holds(shop.is_open, "the shop doesn't open")
    for step, size in sends:
        request = step.sent if step.is_request else request_of(step.sent, step.wanted)
        got = shop.exchange(request, size)
        trial.equal(got, step.answer(), request if size is None else f"in pieces of {size}: {cases.short(request)}", step.at)
    log = begin_line(shop.store, is_new, kept) + end_line(shop.store)
    trial.equal(shop.end(), (0, f"listening on 127.0.0.1:{shop.port}\n".encode(), log), "serve")


def bytes_of(text):
    """The bytes that a text of JSON, or a list of texts with how often each comes, stands for (a byte a character)."""
    value, times, came = json.loads(text), 1, []
    for it in value if isinstance(value, list) else [value]:
        if isinstance(it, int):
            times = it
        else:
            came.append(it.encode("latin-1") * times)
            times = 1
    return b"".join(came)


# What cases begin with, by its name; a shop of this file is no case.
SHOPS = os.path.join(os.path.dirname(os.path.abspath(__file__)), "..", "cases", "lines", "shops.txt")


def lines_of(path):
    """The lines of a file, each with the number at which it begins."""
    lines = []
    with open(path, encoding="utf-8") as file:
        for number, line in enumerate(file, 1):
            line = line.rstrip("\n")
            if line.startswith("    "):
                lines[-1] = (lines[-1][0], lines[-1][1] + line[4:])
            else:
                lines.append((number, line))
    return lines


def parsed(path, before):
    """The cases or shops of a file, by their names. They may begin with those before."""
    known = {}
    for number, line in lines_of(path):
        at, mark, rest = f"{os.path.relpath(path)}:{number}", line[:1], line[2:]
        if mark == "=":
            now = known[rest] = Exchange(rest, [], at)
        elif line.startswith("after ") and not now.steps:
            now.steps += {**before, **known}[line.removeprefix("after ")].steps
        elif re.fullmatch("date [0-9]+", line):
            now.date = int(line.removeprefix("date "))
        elif mark in (">", "~") and mark:
            sent = bytes_of(rest) if mark == "~" else rest.encode()
            now.steps.append(Step(at, sent, mark == "~"))
        elif mark == "<":
            now.steps[-1].wanted = rest.encode()
        elif mark == "|":
            now.steps[-1].lines.append(rest)
        elif line and mark != "#":
            now.says.append(line)
    lacking = [step.at for it in known.values() for step in it.steps if step.wanted is None]
    if lacking:
        raise SystemExit(f"{lacking[0]}: nothing is said of what comes of it")
    return known


@cache
def shops():
    return parsed(SHOPS, {})


def read(path):
    """Adds the cases of a file."""
    if os.path.samefile(path, SHOPS):
        return
    for it in parsed(path, shops()).values():
        EXCHANGES[it.name] = it
        cases.add(it.name, " ".join(it.says), it.at, it.run)
