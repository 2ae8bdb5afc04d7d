"""Plans as text, read by themselves: what a tree cuts from a unit, and whether the plans of a whole order that `plan --whole`
prints are what the formats say of them. (Answers to the question `plans` are read in `questions.py`, over the same trees.)"""

import re
from collections import Counter
from dataclasses import dataclass
from itertools import groupby

from kit.case import Failed, short

MAX_CUTS = 255

# The most units of an answer.
MAX_UNITS = 100000

NUMBER = "[1-9][0-9]*"


@dataclass
class Problem:
    """A unit's sides, and of each kind of pieces the width, the height, the greatest number and the worth of one."""

    w: int
    h: int
    kinds: list

    def text(self):
        """The problem as a file."""
        return "\n".join(" ".join(map(str, it)) for it in [(len(self.kinds),), (self.w, self.h), *self.kinds]) + "\n"

    def fits(self, kind):
        return kind[0] <= self.w and kind[1] <= self.h

    def demands(self):
        """Of each kind's number its width and height, and that it isn't turned."""
        return {number: (w, h, False) for number, (w, h, *_) in enumerate(self.kinds, 1)}

    def pieces(self):
        """How many pieces are wanted."""
        return sum(kind[2] for kind in self.kinds)


@dataclass
class Answer:
    """The plans of a whole order: how often each tree is cut, and what is reported above them."""

    units: int
    bound: int
    proved: bool
    missing: int
    plans: list


def wrong(why):
    raise Failed(f"\n  {short(why)}")


def cut_from(w, h, kerf, demands, tree):
    """How many pieces of each demand a tree cuts from a unit of these sides. Of each demand's number `demands` has the width,
    the height, and whether a piece may be turned. Each cut stands inside its rectangle and goes right across it, the saw takes
    the kerf or what is left, and each piece has exactly the sides of its demand, swapped where it is turned."""
    counts, cuts, parts = Counter(), 0, [(w, h)]
    for word in tree.split(" "):
        if not parts:
            wrong(f"a word behind the whole tree: {tree}")
        w, h = parts.pop()
        if re.fullmatch(f"[xy]{NUMBER}", word):
            at, cuts = int(word[1:]), cuts + 1
            side = w if word[0] == "x" else h
            if at >= side:
                wrong(f"{word} doesn't cut {w} by {h}: {tree}")
            behind = side - at - kerf
            if behind > 0:
                parts.append((behind, h) if word[0] == "x" else (w, behind))
            parts.append((at, h) if word[0] == "x" else (w, at))
        elif read := re.fullmatch(f"p({NUMBER})(t?)", word):
            counts[piece_of(demands, int(read[1]), bool(read[2]), w, h, tree)] += 1
        elif word != "r":
            wrong(f"the word {word!r}: {tree}")
    if parts:
        wrong(f"the tree ends early: {tree}")
    if cuts > MAX_CUTS:
        wrong(f"{cuts} cuts: {tree}")
    return counts


def leaves_of(w, h, kerf, tree):
    """Of each leaf of a legal tree on these sides its word, its sides, and the axes of the cuts above it, the root's first."""
    leaves, parts = [], [(w, h, "")]
    for word in tree.split(" "):
        w, h, above = parts.pop()
        if word[0] not in "xy":
            leaves.append((word, w, h, above))
            continue
        at, above = int(word[1:]), above + word[0]
        behind = (w if word[0] == "x" else h) - at - kerf
        if behind > 0:
            parts.append((behind, h, above) if word[0] == "x" else (w, behind, above))
        parts.append((at, h, above) if word[0] == "x" else (w, at, above))
    return leaves


def stages_of(w, h, kerf, tree):
    """The stages of a legal tree: the most runs of parallel cuts above one of its pieces."""
    return max(
        (len(list(groupby(above))) for word, _, _, above in leaves_of(w, h, kerf, tree) if word != "r"),
        default=0,
    )


def largest_rest(w, h, kerf, tree, long, short):
    """The cells of the largest rest of a legal tree whose sides are at least these, 0 where there is none."""
    rests = [(w, h) for word, w, h, _ in leaves_of(w, h, kerf, tree) if word == "r"]
    return max((w * h for w, h in rests if max(w, h) >= long and min(w, h) >= short), default=0)


def piece_of(demands, number, is_turned, w, h, tree):
    """The number of a piece's demand, which has its sides, or has them swapped and may turn."""
    wanted = demands.get(number)
    if wanted is None:
        wrong(f"p{number} is none of the demands: {tree}")
    sides = wanted[1::-1] if is_turned else wanted[:2]
    if sides != (w, h) or is_turned and not wanted[2]:
        wrong(f"p{number}{'t' * is_turned} isn't {w} by {h}: {tree}")
    return number


def read_answer(text):
    """The answer that a text has, line by line: four numbers and words, then `N TREE` for each different plan, by falling N
    and then by the text."""
    lines = text.split("\n")
    said = re.fullmatch(r"units ([0-9]+)\nbound ([0-9]+)\nproved (yes|no)\nmissing ([0-9]+)", "\n".join(lines[:4]))
    if not said or lines[-1]:
        wrong(f"no answer of plans: {text[:200]}")
    units, bound, proved, missing = said.groups()
    plans = []
    for line in lines[4:-1]:
        read = re.fullmatch(f"({NUMBER}) (.+)", line)
        if not read:
            wrong(f"no plan of units: {line}")
        plans.append((int(read[1]), read[2]))
    for name, number in (("units", units), ("bound", bound), ("missing", missing)):
        if number != str(int(number)):
            wrong(f"{name} {number}")
    if plans != sorted(plans, key=lambda it: (-it[0], it[1].encode())) or len({tree for _, tree in plans}) < len(plans):
        wrong(f"the plans aren't in their order, or one comes twice: {plans}")
    return Answer(int(units), int(bound), proved == "yes", int(missing), plans)


def checked(problem, kerf, text, stages=None):
    """The answer that a text has, of which everything holds that may be asked of it whatever was found: legal plans, each
    with a piece; of each kind no more pieces than are wanted, and with those missing all; a piece is missing only where it
    doesn't fit the unit, or all units of an answer are used; no fewer units than the bound; proved exactly where nothing is
    missing and both are equal; and no plan with more stages than the limit, if there is one."""
    answer = read_answer(text)
    counts, units = Counter(), 0
    for times, tree in answer.plans:
        pieces = cut_from(problem.w, problem.h, kerf, problem.demands(), tree)
        if not pieces:
            wrong(f"a plan without a piece: {tree}")
        if stages and stages_of(problem.w, problem.h, kerf, tree) > stages:
            wrong(f"more than {stages} stages: {tree}")
        units += times
        for kind, count in pieces.items():
            counts[kind] += times * count
    if units != answer.units or units > MAX_UNITS:
        wrong(f"{units} units are planned, {answer.units} told")
    unfit = 0
    for number, kind in enumerate(problem.kinds, 1):
        if counts[number] > kind[2]:
            wrong(f"{counts[number]} pieces of kind {number}, of which {kind[2]} are wanted")
        unfit += 0 if problem.fits(kind) else kind[2]
    planned = sum(counts.values())
    if planned + answer.missing != problem.pieces():
        wrong(f"{planned} pieces are planned and {answer.missing} missing, of {problem.pieces()}")
    if answer.missing != unfit and (units < MAX_UNITS or answer.missing < unfit):
        wrong(f"{answer.missing} pieces are missing, {unfit} don't fit")
    if not answer.missing and answer.bound > units:
        wrong(f"{units} units are fewer than the bound {answer.bound}")
    if answer.proved != (not answer.missing and answer.bound == units):
        wrong(f"proved {answer.proved} of {units} units, bound {answer.bound}, missing {answer.missing}")
    return answer
