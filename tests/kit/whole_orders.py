"""`plan --whole` on problems, and whether what it prints is a plan of them."""

import re

from kit.plans import Problem, checked
from kit.questions import compact
from kit.yards import Yard, question


def asked(trial, problem, kerf=0, *words):
    """Runs `plan --whole` on a problem or a text."""
    text = problem.text() if isinstance(problem, Problem) else problem
    return trial.run("plan", trial.write("order.txt", text), "--whole", "--kerf", str(kerf), *map(str, words))


def planned(trial, problem, kerf=0, *words):
    """What `plan --whole` prints for a problem, checked, and the answer that it is."""
    ran = asked(trial, problem, kerf, *words)
    trial.equal((ran.status, ran.err), (0, b""), f"{problem} kerf {kerf} {words}")
    text = ran.out.decode()
    return text, checked(problem, kerf, text)


def bar(length, *kinds):
    """A problem of bars: of each kind its length, its number, and its worth if it isn't its length."""
    return Problem(length, 1, [(it[0], 1, it[1], it[2] if len(it) > 2 else it[0]) for it in kinds])


def sheet(w, h, *kinds):
    """A problem of sheets: of each kind its width, its height and its number; a piece is worth its cells, where that is a worth."""
    return Problem(w, h, [(*it, min(it[0] * it[1], 10**9)) for it in kinds])


def sizes_in(words):
    """The sizes that words report: width, height, whether it may turn, and the number, None where there is none."""
    found = re.findall(r"(\d+)(?:x(\d+))?(t?)(?:\*(\d+))?", words)
    return [(int(w), int(h or 1), bool(turn), int(number) if number else None) for w, h, turn, number in found]


SMALL = (bar(10, (3, 4), (4, 2)), sheet(6, 4, (3, 2, 5), (2, 2, 3)))


def yard_of(kind):
    """A yard with a unit, a remnant and demands, and questions to it."""
    yard = Yard()
    if kind == "bar":
        yard.material("M", 1)
        yard.receive("M", 20, 1, 2)
        yard.remnant("M", 1, 9)
        yard.bars("M", (3, 4), (4, 2))
        return yard, [compact(question("M", calls=4)), compact(question("M", calls=3, parts=[], buy=[{"h": 1, "w": 10}]))]
    yard.material("M", 1, "sheet")
    yard.receive("M", 9, 6, 2)
    yard.remnant("M", 1, 5, 4)
    yard.order("M", (3, 2, 4, True), (2, 2, 2, False))
    return yard, [compact(question("M", calls=4)), compact(question("M", calls=3, parts=[], buy=[{"h": 4, "w": 6}]))]
