"""Answers to the question `plans`, read by themselves: what a question asks of a shop, and whether an answer is all that the
formats say of one, whatever was found. The bound is counted anew from the prices that are reported, by tables of its own."""

import json
import math
import re
from bisect import bisect_right
from collections import Counter
from dataclasses import dataclass
from operator import add

from kit.plans import MAX_UNITS, cut_from, largest_rest, stages_of, wrong

MAX_DEMANDS, MAX_PARTS = 100, 1000
MAX_BAR_LEN = 150000
# As many places as a table over every length may have here.
MAX_PLACES = 40000
MAX_WORTH = 10**9
MAX_BOUND = 10**18

# Keys of an answer and of its parts, and what stands there.
NUMBERS = ("bound", "cost", "rest", "step")
FLAGS = ("proved", "short")
LISTS = {
    "missing": {"demand": int, "pieces": int},
    "plans": {"buy": int, "h": int, "parts": list, "tree": str, "w": int},
    "prices": {"demand": int, "worth": int},
}


def compact(value):
    return json.dumps(value, sort_keys=True, separators=(",", ":"))


@dataclass
class Demand:
    """A demand's sides, whether its pieces may be turned, how many are neither made nor reserved, and the day on which its order is due,
    0 for none."""

    w: int
    h: int
    turn: bool
    left: int
    due: int = 0

    def is_held_by(self, w, h):
        """Whether a unit of these sides holds a piece."""
        return self.w <= w and self.h <= h or self.turn and self.h <= w and self.w <= h


@dataclass
class Part:
    """A standing part's sides, and whether a job left it."""

    w: int
    h: int
    is_remnant: bool


@dataclass
class Content:
    """What a shop has of a material: whether it is cut as bars, its kerf, its demands that aren't all made by their numbers,
    and its standing parts by their names, both rising; and the least sides of a rest that is kept."""

    is_bar: bool
    kerf: int
    demands: dict
    parts: dict
    min_long: int = 1
    min_short: int = 1


def rows_of(ask, word, key, after, **keys):
    """All rows of a list, asked for page by page."""
    rows, more = [], True
    while more:
        page = json.loads(ask(compact({"ask": word, "after": after, **keys})))
        rows += page[word]
        more, after = page["more"], rows[-1][key] if rows else after
    return rows


def content_of(ask, material):
    """What a shop reports of a material. `ask` sends a line and gives the reply."""
    (found,) = [it for it in json.loads(ask('{"ask":"materials"}'))["materials"] if it["material"] == material]
    demands = {
        it["demand"]: Demand(it["w"], it["h"], it["turn"], it["wanted"] - it["reserved"] - it["made"], it.get("due", 0))
        for it in rows_of(ask, "demands", "demand", 0, material=material)
    }
    parts = {
        it["part"]: Part(it["w"], it["h"], it["root"] != it["part"])
        for it in rows_of(ask, "parts", "part", "", material=material)
        if it["state"] == "standing"
    }
    return Content(found["kind"] == "bar", found["kerf"], demands, parts, found["min_long"], found["min_short"])


@dataclass
class Asked:
    """What a question asks of a content: the wants by their numbers, in its order; the parts by their names, in its order; the
    sizes to buy as (w, h); the step, 0 where no side is rounded; and the most stages, if there is a limit."""

    content: Content
    wants: dict
    parts: dict
    buy: list
    remnant: int
    step: int
    stages: int | None = None

    @classmethod
    def of(cls, content, question):
        left = [number for number, it in content.demands.items() if it.left]
        # (those whose orders are due first, those without a day last, and of one day by rising number; reported by rising number)
        first = sorted(left, key=lambda it: (not content.demands[it].due, content.demands[it].due, it))[:MAX_DEMANDS]
        numbers = question.get("demands", sorted(first))
        wants = {it: content.demands[it] for it in numbers if it in left}
        names = [it for it, part in content.parts.items() if not content.is_bar or part.w <= MAX_BAR_LEN]
        parts = {it: content.parts[it] for it in question.get("parts", names[:MAX_PARTS])}
        buy = [(it["w"], it["h"]) for it in question.get("buy", [])]
        step = 0 if content.is_bar else question.get("step", 0)
        return cls(content, wants, parts, buy, question.get("remnant", 90), step, question.get("stages"))

    def sides(self):
        """The sides of the stock."""
        return [(it.w, it.h) for it in self.parts.values()] + self.buy

    def cost_of_part(self, part):
        return part.w * part.h * (self.remnant if part.is_remnant else 100)

    def sizes(self):
        """How many units there are of each (w, h, cost), None where there is no end of them."""
        counts = Counter((it.w, it.h, self.cost_of_part(it)) for it in self.parts.values())
        return {**counts, **{(w, h, 100 * w * h): None for w, h in self.buy}}

    def steps_of(self, side):
        """A side and a kerf in steps, rounded down; in tenths where no side is rounded."""
        return (side + self.content.kerf) // (self.step or 1)

    def is_exact(self):
        """Whether the bound that the prices give is the one that is reported: no table over classes of sides was taken."""
        return self.content.is_bar or self.step > 0


# The bound, from prices.


def bar_worths(asked, prices):
    """Of each room the greatest worth of pieces within what is left that take it, each with a kerf."""
    kerf = asked.content.kerf
    worths = [0] * (max(w for w, _ in asked.sides()) + kerf + 1)
    for number, price in prices.items():
        want, times = asked.wants[number], 1
        left = min(want.left, len(worths) // (want.w + kerf)) if want.w + kerf else want.left
        while left:
            times = min(times, left)
            room, worth = times * (want.w + kerf), times * price
            worths[room:] = [max(a, b + worth) for a, b in zip(worths[room:], worths)]
            left, times = left - times, 2 * times
    return worths


def sums_of(sides, most):
    """The sums of these sides, each as often as one likes, up to the greatest, rising."""
    reached = [True] + [False] * most
    for at in range(1, most + 1):
        reached[at] = any(side <= at and reached[at - side] for side in sides)
    return [at for at, is_reached in enumerate(reached) if is_reached]


def partners_of(sums):
    """Of each sum and each lesser one up to its half, in turn, the place of what is left, rounded down to a sum."""
    return [
        [bisect_right(sums, whole - first) - 1 for first in sums[1 : bisect_right(sums, whole // 2)]] for whole in sums
    ]


def best_cut(worths, partners):
    """The best of two parts along a line, the first of which is at most the half."""
    return max(map(add, worths[1:], map(worths.__getitem__, partners)), default=0)


@dataclass
class Sheets:
    """Of each rectangle in steps the worth of its best guillotine cutting, each piece as often as one likes. Cuts at sums of
    sides are enough (Herz 1972), so a rectangle is one of the columns by one of the rows. `across` has each row's worths."""

    columns: list
    rows: list
    across: list

    @classmethod
    def of(cls, asked, prices):
        pieces = []
        for number, price in prices.items():
            want = asked.wants[number]
            w, h = asked.steps_of(want.w), asked.steps_of(want.h)
            pieces += [(w, h, price)] + [(h, w, price)] * want.turn
        columns = sums_of({it[0] for it in pieces}, max(asked.steps_of(w) for w, _ in asked.sides()))
        rows = sums_of({it[1] for it in pieces}, max(asked.steps_of(h) for _, h in asked.sides()))
        if not asked.is_exact() and len(columns) * len(rows) > MAX_PLACES:
            return None
        sheets, beside, below = cls(columns, rows, [[] for _ in rows]), partners_of(columns), partners_of(rows)
        for x, w in enumerate(columns):
            column, narrow = [], [(ph, price) for pw, ph, price in pieces if pw <= w]
            for y, h in enumerate(rows):
                one = max((price for ph, price in narrow if ph <= h), default=0)
                worth = max(one, best_cut(column, below[y]), best_cut(sheets.across[y], beside[x]))
                column.append(worth)
                sheets.across[y].append(worth)
        return sheets

    def best(self, w, h):
        return self.across[bisect_right(self.rows, h) - 1][bisect_right(self.columns, w) - 1]


def best_worths(asked, prices):
    """Of each sides of the stock a worth that no plan of a unit exceeds."""
    if asked.content.is_bar:
        worths = bar_worths(asked, prices)
        return {(w, h): worths[w + asked.content.kerf] for w, h in asked.sides()}
    sheets = Sheets.of(asked, prices)
    if sheets is None:
        return None
    return {(w, h): sheets.best(asked.steps_of(w), asked.steps_of(h)) for w, h in asked.sides()}


def bound_of(asked, prices):
    """The greatest bound for these prices, over each size that may set the rate. Without a step, where any number is a bound
    because there is no whole cutting, or the table over every length is too large to be made here: None."""
    best, sizes = best_worths(asked, prices), asked.sizes()
    if best is None:
        return None
    worth = sum(price * asked.wants[number].left for number, price in prices.items())
    rated = [(cost, best[w, h], number) for (w, h, cost), number in sizes.items()]
    if not asked.is_exact() and worth > sum(its * (number or 0) for _, its, number in rated):
        if not any(its for _, its, number in rated if number is None):
            return None
    divisor, greatest = math.gcd(*[cost for cost, _, _ in rated]), 0
    for rate, of, _ in rated:
        above = [(max(0, rate * its - of * cost), number) for cost, its, number in rated]
        if of and not any(excess for excess, number in above if number is None):
            paid = max(0, rate * worth - sum(excess * (number or 0) for excess, number in above))
            greatest = max(greatest, -(-paid // of))
    return min(-(-greatest // divisor) * divisor, MAX_BOUND)


# An answer.


def is_number(value):
    return isinstance(value, int) and not isinstance(value, bool) and value >= 0


def read_told(text):
    """An answer's object, whose form and order of keys are those of the formats."""
    output = json.loads(text)
    if not isinstance(output, dict) or compact(output) != text:
        wrong(f"not compact, or its keys aren't in their order: {text}")
    if set(output) != {*NUMBERS, *FLAGS, *LISTS, "ok"} or output["ok"] != "plans":
        wrong(f"no answer of plans: {text}")
    if not all(is_number(output[it]) for it in NUMBERS) or not all(isinstance(output[it], bool) for it in FLAGS):
        wrong(f"numbers or flags: {text}")
    for name, keys in LISTS.items():
        for row in output[name]:
            if not isinstance(row, dict) or set(row) != set(keys):
                wrong(f"of {name}: {row}")
            if not all(is_number(row[key]) if of is int else isinstance(row[key], of) for key, of in keys.items()):
                wrong(f"of {name}: {row}")
    return output


def check_prices(asked, output):
    """The prices are of wants that have one, in the question's order, and give the bound."""
    prices = {it["demand"]: it["worth"] for it in output["prices"]}
    if [it["demand"] for it in output["prices"]] != [it for it in asked.wants if it in prices]:
        wrong(f"prices of {[it['demand'] for it in output['prices']]}, wants {list(asked.wants)}")
    for number, worth in prices.items():
        want = asked.wants[number]
        is_small = asked.step > 0 and not min(asked.steps_of(want.w), asked.steps_of(want.h))
        if not 1 <= worth <= MAX_WORTH or is_small:
            wrong(f"a price of {worth} of demand {number}: {want}, step {asked.step}")
    bound = bound_of(asked, prices)
    if bound is None:
        return
    if output["bound"] > bound or asked.is_exact() and output["bound"] < bound:
        wrong(f"the bound is {output['bound']}, and the prices give {bound}")


def name_key(name):
    return tuple(int(it) for it in name.split("/"))


def check_entry(asked, entry):
    """An entry's parts stand, have its sides and one cost, and rise; or its size may be bought. What a unit of it costs."""
    names, sides = entry["parts"], (entry["w"], entry["h"])
    if not names:
        if not entry["buy"] or sides not in asked.buy:
            wrong(f"neither parts nor bought ones: {entry}")
        return 100 * sides[0] * sides[1]
    if entry["buy"]:
        wrong(f"parts, and bought ones: {entry}")
    if any(not isinstance(it, str) or not re.fullmatch("[1-9][0-9]*/(0|[1-9][0-9]*)", it) for it in names):
        wrong(f"a name: {entry}")
    if any(it not in asked.parts for it in names) or names != sorted(set(names), key=name_key):
        wrong(f"parts that don't stand, don't rise, or come twice: {entry}")
    parts = [asked.parts[it] for it in names]
    if any((it.w, it.h) != sides for it in parts):
        wrong(f"sides of parts: {entry}")
    costs = {asked.cost_of_part(it) for it in parts}
    if len(costs) > 1:
        wrong(f"units and remnants in one: {entry}")
    return costs.pop()


def check_order(asked, entries):
    """Entries with parts come first, by the place of the first of them in the stock; then bought ones, by the place of their
    size and the text of the tree. No part comes twice, and no plan of a size."""
    place = {name: at for at, name in enumerate(asked.parts)}
    keys, named = [], [name for it in entries for name in it["parts"]]
    for it in entries:
        first = min((place[name] for name in it["parts"]), default=None)
        keys.append((1, asked.buy.index((it["w"], it["h"])), it["tree"].encode()) if first is None else (0, first, b""))
    if keys != sorted(keys):
        wrong(f"the plans aren't in their order: {entries}")
    if len(set(named)) < len(named):
        wrong(f"a part comes twice: {sorted(named)}")
    kinds = [(it["tree"], it["w"], it["h"], bool(it["parts"]), *is_remnant(asked, it)) for it in entries]
    if len(set(kinds)) < len(kinds):
        wrong(f"a plan of a size comes twice: {entries}")


def is_remnant(asked, entry):
    """Whether an entry's parts are remnants, where it has any."""
    return [asked.parts[it].is_remnant for it in entry["parts"][:1]]


def check_missing(asked, output, planned, units):
    """Pieces planned and missing are all that are left; one is missing only where nothing unused holds it."""
    missing = {it["demand"]: it["pieces"] for it in output["missing"]}
    if [it["demand"] for it in output["missing"]] != sorted(missing) or not all(missing.values()):
        wrong(f"missing: {output['missing']}")
    used = {name for it in output["plans"] for name in it["parts"]}
    unused = [(it.w, it.h) for name, it in asked.parts.items() if name not in used] + asked.buy
    for number in missing.keys() | planned.keys():
        if number not in asked.wants:
            wrong(f"demand {number} isn't asked for")
    for number, want in asked.wants.items():
        if planned[number] + missing.get(number, 0) != want.left:
            wrong(f"demand {number}: {planned[number]} planned, {missing.get(number, 0)} missing, {want.left} left")
        if number in missing and units < MAX_UNITS and any(want.is_held_by(*it) for it in unused):
            wrong(f"demand {number} is missing, and a unit that isn't used holds a piece")


def checked_answer(content, question, text):
    """The answer that a text has, of which everything holds that may be asked of it whatever was found."""
    asked, output = Asked.of(content, question), read_told(text)
    demands = {number: (it.w, it.h, it.turn) for number, it in asked.wants.items()}
    planned, cost, units, rest = Counter(), 0, 0, 0
    for entry in output["plans"]:
        times = len(entry["parts"]) or entry["buy"]
        cost += times * check_entry(asked, entry)
        pieces = cut_from(entry["w"], entry["h"], content.kerf, demands, entry["tree"])
        if not pieces:
            wrong(f"a plan without a piece: {entry}")
        if asked.stages is not None and stages_of(entry["w"], entry["h"], content.kerf, entry["tree"]) > asked.stages:
            wrong(f"more than {asked.stages} stages: {entry}")
        sides = content.min_long, content.min_short
        rest = max(rest, largest_rest(entry["w"], entry["h"], content.kerf, entry["tree"], *sides))
        units += times
        planned.update({number: times * count for number, count in pieces.items()})
    check_order(asked, output["plans"])
    check_missing(asked, output, planned, units)
    check_prices(asked, output)
    if (cost, asked.step) != (output["cost"], output["step"]) or units > MAX_UNITS:
        wrong(f"{units} units of cost {cost}, {output['cost']} told; step {output['step']}, {asked.step} asked")
    if output["rest"] != rest:
        wrong(f"a rest of {rest}, {output['rest']} told: {text}")
    if not output["missing"] and output["bound"] > cost:
        wrong(f"a cost of {cost}, below the bound {output['bound']}")
    if output["proved"] != (not output["missing"] and output["bound"] == cost):
        wrong(f"proved {output['proved']}: cost {cost}, bound {output['bound']}, missing {output['missing']}")
    stock = sum(asked.cost_of_part(it) for it in asked.parts.values())
    if output["short"] != (not asked.buy and output["bound"] > stock):
        wrong(f"short {output['short']}: bound {output['bound']}, stock {stock}, to buy {asked.buy}")
    return output
