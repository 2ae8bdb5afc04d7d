#!/usr/bin/env python3
"""Plans whole orders, class by class, and reports how many units they take over the bound.

    bench/orders.py [CLASS ..] [--count N] [--seed N] [--program PATH] [--calls N] [--stages S] [--runs N]
                    [--keep FOLDER] [--list]

Each class makes its orders from seeds, as problem files. `cutshop plan FILE --whole` plans each of them with 500 calls, some
runs an order, of which the least time counts. Each output is checked by itself (`tests/kit/plans.py`): legal plans, pieces
planned and missing that add up, at most 255 cuts, lines in their order, `proved yes` exactly where nothing is missing and as
many units are planned as the bound says. Where a check fails or the program ends with another status than 0 that is printed,
and the status is 1.

Printed: for each class its orders, kinds and pieces on the average, units, bound, the share over the bound, how many are
proved best, milliseconds on the average and at most, and the most memory of a run. Where a trial of the search in plain Rust
had the same orders, its units over the bound and what it proved best stand beside them.

--count and --seed say which orders: those of the seed from the first on. --stages limits the stages of each plan. Two classes
at the planners' limits, whose time and memory are of interest, are run where they are named. --keep leaves the problem files in
a folder, named by class, seed and number. --list prints the classes.

The orders of a class that has several sizes and remnants, or pieces that may turn, can't be said in a problem file, which has
one size and turns nothing. `cutshop replay` gets them as a shop's messages and a question `plans`, all that has no end as sizes
to buy, a remnant at the cost of its cells; the time is that of the question. Each answer is checked (`tests/kit/questions.py`),
and what stands for units is the cost: in units, where there is one size, else in metres of bar or square metres. Orders that
the stock can't make are reported and not counted. With --keep they are left as the lines that are sent.
"""

import argparse
import os
import subprocess
import sys
import tempfile
import time
from collections import Counter
from dataclasses import dataclass, field

HERE = os.path.dirname(os.path.abspath(__file__))
PROGRAM = os.path.join(HERE, "..", "crates", "cutshop", "out", "cutshop")
sys.path.insert(0, os.path.join(HERE, "..", "tests"))
sys.dont_write_bytecode = True

from kit.case import Failed  # noqa: E402
from kit.plans import Problem, checked  # noqa: E402
from kit.questions import checked_answer, compact, content_of  # noqa: E402
from kit.yards import Yard, question  # noqa: E402

LARGEST = (1 << 64) - 1


class Dice:
    """Numbers from a seed: Marsaglia's generator of 64 bits by shifts of 13, 7 and 17."""

    def __init__(self, seed, number):
        self.now = (0x9E3779B97F4A7C15 * (seed * 1000 + number + 1)) & LARGEST | 1
        for _ in range(5):
            self.next()

    def next(self):
        self.now ^= self.now << 13 & LARGEST
        self.now ^= self.now >> 7
        self.now ^= self.now << 17 & LARGEST
        return self.now

    def below(self, count):
        return (self.next() >> 11) % count

    def range(self, least, most):
        return least + self.below(most - least + 1)


@dataclass
class Order:
    """An order: sizes as (width, height, number), None for as many as are wanted; wants as (width, height, count, whether it
    may turn); the kerf; and remnants as (width, height, number)."""

    sizes: list
    wants: list
    kerf: int
    rests: list = field(default_factory=list)

    def problem(self):
        """The order as a problem, each piece worth its cells."""
        w, h, _ = self.sizes[0]
        return Problem(w, h, [(w, h, count, w * h) for w, h, count, _ in self.wants])

    def yard(self):
        """The order as a shop in which all sizes that have an end stand, whole."""
        yard = Yard()
        yard.material(MATERIAL, self.kerf, "bar" if self.sizes[0][1] == 1 else "sheet")
        for w, h, number in self.sizes:
            for first in range(0, number or 0, 100):
                yard.receive(MATERIAL, w, h, min(number - first, 100))
        for w, h, number in self.rests:
            for _ in range(number):
                yard.remnant(MATERIAL, self.kerf, w, h)
        yard.order(MATERIAL, *self.wants)
        return yard

    def question(self, calls, stages):
        buy = [{"h": h, "w": w} for w, h, number in self.sizes if number is None]
        return question(MATERIAL, buy=buy, calls=calls, **({"stages": stages} if stages else {}))

    def measure(self):
        """What a cost is reported in: a unit of the one size, or a metre of bar, or a square metre."""
        if len(self.sizes) == 1 and not self.rests:
            return 100 * self.sizes[0][0] * self.sizes[0][1]
        return 100 * 10000 * (1 if self.sizes[0][1] == 1 else 10000)


MATERIAL = "M"


def bars(lengths, size, kerf):
    """An order of bars, the longest first."""
    wants = [(it, 1, lengths.count(it), False) for it in sorted(set(lengths), reverse=True)]
    return Order([(size, 1, None)], wants, kerf)


def workshop(dice, _):
    """A workshop's order of 6 m bars: 5 to 40 lengths, in millimetres or parts of them, 1 to 60 pieces each."""
    kinds = dice.range(5, 40)
    grain = [100, 50, 10, 5, 1][dice.below(5)]
    least, most = [(2000, 30000), (5000, 25000), (1000, 12000), (8000, 45000)][dice.below(4)]
    often = dice.range(4, 60)
    lengths = []
    for _ in range(kinds):
        length = dice.range(least, most) // grain * grain
        lengths += [length] * dice.range(1, often)
    return bars(lengths, 60000, dice.range(3, 40))


def uniform(count):
    """Falkenauer's uniform class: pieces of 20 to 100, bars of 150."""
    return lambda dice, _: bars([dice.range(20, 100) for _ in range(count)], 150, 0)


def triplets(count):
    """Falkenauer's triplets: bars of 1000, each filled by three pieces, one of 380 to 490, two of 250 and more."""

    def made(dice, _):
        lengths = []
        while len(lengths) < count:
            first = dice.range(380, 490)
            second = dice.range(250, max(1000 - first - 250, 250))
            if 1000 - first - second >= 250:
                lengths += [first, second, 1000 - first - second]
        return bars(lengths, 1000, 0)

    return made


def gau(dice, number):
    """Wäscher and Gau's generator CUTGEN1: lengths of a share of the bar's, and an average demand (Gau and Wäscher 1995)."""
    kinds, average = [10, 20, 30, 40][number % 4], [10, 50][number // 16 % 2]
    least, most = [1, 10][number % 2], [250, 500, 750, 1000][number // 4 % 4]
    lengths = [dice.range(max(10 * least, 1), 10 * most) for _ in range(kinds)]
    weights = [dice.range(1, 1000000) for _ in range(kinds)]
    counts = [max(average * kinds * it // sum(weights), 1) for it in weights]
    return bars([it for it, count in zip(lengths, counts) for _ in range(count)], 10000, 0)


def mixed(is_ample):
    """A workshop's order of 6 m bars, some of 8 m and 3 m, and 2 to 12 remnants; or where bars of each size have an end too,
    enough for all and little more."""

    def made(dice, number):
        order = workshop(dice, number)
        longest = max(it[0] for it in order.wants)
        numbers = [None, dice.range(0, 10), dice.range(0, 6)]
        if not is_ample:
            cells = sum((it[0] + order.kerf) * it[2] for it in order.wants)
            numbers[0] = cells // 60000 * dice.range(90, 110) // 100 + 1
            numbers[1] = dice.range(0, 10)
        first = 80000 if longest > 60000 - order.kerf else 60000
        sizes = list(zip([first, 80000, 30000], [1] * 3, numbers))
        order.sizes = sizes + [(dice.range(5000, 45000), 1, 1) for _ in range(dice.range(2, 12))]
        return order

    return made


def sheets(size, grain=10, few=False, turning=False):
    """An order of sheets: 10 to 40 kinds of pieces, their sides multiples of a grain, 1 to 20 each or 1 to 3."""

    def made(dice, _):
        kinds = dice.range(10, 40)
        kerf = 0 if grain == 500 else dice.range(0, 40)
        least, most = [(2500, 12000), (4000, 16000), (6000, 22000)][dice.below(3)]
        often = 3 if few else dice.range(2, 20)
        pieces = []
        for _ in range(kinds):
            w, h = (dice.range(least, min(most, side)) // grain * grain for side in size)
            pieces.append((w, h, dice.below(2) == 0 and turning))
        wants = [(w, h, dice.range(1, often), turn) for w, h, turn in pieces]
        return Order([(*size, None)], wants, kerf)

    return made


def stock(dice, number):
    """An order of sheets from two to four sizes, one or two of which may be bought, and 5 to 20 remnants."""
    kerf = dice.range(0, 40)
    names = [(32100, 22500), (60000, 32100), (25000, 12500), (30000, 15000), (21000, 15000)]
    whole = [names.pop(dice.below(len(names))) for _ in range(dice.range(2, 4))]
    low, high = [(2500, 9000), (4000, 12000), (5000, 15000)][dice.below(3)]
    wants = {}
    for _ in range(dice.range(10, 30)):
        sides = dice.range(low, high) // 10 * 10, dice.range(low, min(high, 12000)) // 10 * 10
        wants[sides] = (dice.range(1, 8), dice.below(2) == 0)
    bought = 1 if number % 2 else 2
    sizes = [(*it, None) for it in whole[:bought]] + [(*it, dice.range(1, 3)) for it in whole[bought:]]
    rests = Counter()
    for _ in range(dice.range(5, 20)):
        w, h = whole[dice.below(len(whole))]
        tall = h if dice.below(2) else dice.range(h // 4, h) // 10 * 10
        rests[dice.range(w // 5, w * 4 // 5) // 10 * 10, tall] += 1
    wants = [(*sides, *it) for sides, it in wants.items()]
    return Order(sizes, wants, kerf, [(*sides, count) for sides, count in sorted(rests.items())])


def largest(w, h):
    """An order at the limits of the planners: 100 kinds up to half a unit's sides, 1 to 20 each."""

    def made(dice, _):
        kerf = dice.range(0, 40)
        wants = []
        for _ in range(100):
            sides = [dice.range(max(side // 400, 1), max(side // 2, 1)) for side in (w, h)]
            wants.append((*sides, dice.range(1, 20), False))
        return Order([(w, h, None)], wants, kerf)

    return made


GLASS, JUMBO = (32100, 22500), (60000, 32100)


@dataclass
class Class:
    """A class: what it is, how an order is made from dice and its number, the seed and the count without options, how often
    the search may be called; whether it is for the query `plans` alone; and whether it is run where it is named alone."""

    says: str
    order: object
    seed: int = 1
    count: int = 20
    calls: int = 500
    is_for_query: bool = False
    is_apart: bool = False


CLASSES = {
    "workshop": Class("a workshop's bars of 6 m", workshop, 2, 100),
    "gau": Class("Wäscher and Gau's bars", gau, 1, 64),
    "uniform60": Class("60 pieces of 20 to 100, bars of 150", uniform(60), 1, 10),
    "uniform120": Class("120 pieces of 20 to 100, bars of 150", uniform(120), 1, 20),
    "uniform250": Class("250 pieces of 20 to 100, bars of 150", uniform(250), 1, 10),
    "triplets60": Class("60 pieces, three to a bar", triplets(60)),
    "mixed": Class("a workshop's bars, several lengths and remnants", mixed(True), 5, 25, is_for_query=True),
    "limited": Class("the same, an end of each length", mixed(False), 5, 25, is_for_query=True),
    "glass": Class("sheets of 3210 by 2250 mm", sheets(GLASS), 7, 12),
    "glass50": Class("the same, sides multiples of 50 mm, no kerf", sheets(GLASS, 500), 7, 20),
    "jumbo": Class("sheets of 6000 by 3210 mm", sheets(JUMBO), 7, 8),
    "few": Class("sheets of 3210 by 2250 mm, 1 to 3 a kind", sheets(GLASS, few=True), 7, 15),
    "few-jumbo": Class("sheets of 6000 by 3210 mm, 1 to 3 a kind", sheets(JUMBO, few=True), 7, 8),
    "largest-bars": Class("bars of 150000, 100 lengths", largest(150000, 1), 1, 3, is_apart=True),
    "largest-sheets": Class("sheets of 6000 by 6000 mm, 100 kinds", largest(60000, 60000), 1, 3, is_apart=True),
    "stock": Class("sheets, several sizes and remnants", stock, 11, 20, 500, True),
    "turning": Class("sheets, half of the kinds may turn", sheets(GLASS, turning=True), 7, 12, 500, True),
    "few-turning": Class("the same, 1 to 3 a kind", sheets(GLASS, few=True, turning=True), 7, 15, 500, True),
}

# What a trial of the search in plain Rust reached, of the same orders: by class, seed and count its units, the bound, and how
# many it proved best; of sheets in a second an order.
TRIAL = {
    ("workshop", 1, 40): (4254, 4254, 40),
    ("workshop", 2, 100): (10226, 10226, 100),
    ("workshop", 9, 60): (7818, 7818, 60),
    ("gau", 1, 64): (15701, 15701, 64),
    ("uniform60", 1, 10): (250, 250, 10),
    ("uniform120", 1, 20): (969, 969, 20),
    ("uniform250", 1, 10): (1012, 1012, 10),
    ("triplets60", 1, 20): (403, 400, 17),
    ("glass", 7, 12): (562, 562, 12),
    ("glass50", 7, 20): (675, 672, 17),
    ("jumbo", 7, 8): (153, 151, 6),
    ("few", 7, 15): (236, 234, 13),
    ("few-jumbo", 7, 8): (56, 56, 8),
    ("turning", 7, 12): (533, 530, 9),
    ("few-turning", 7, 15): (219, 218, 14),
}


@dataclass
class Row:
    """What came of the orders of a class."""

    orders: int = 0
    kinds: int = 0
    pieces: int = 0
    units: int = 0
    bound: int = 0
    proved: int = 0
    seconds: float = 0
    slowest: float = 0
    memory: int = 0

    def add(self, order, units, bound, proved, ran):
        seconds = min(it.seconds for it in ran)
        self.orders += 1
        self.kinds += len(order.wants)
        self.pieces += sum(it[2] for it in order.wants)
        self.units += units
        self.bound += bound
        self.proved += proved
        self.seconds += seconds
        self.slowest = max(self.slowest, seconds)
        self.memory = max(self.memory, *[it.memory for it in ran])


def timed(words):
    """Runs the program: what it wrote on both outputs, its status, its seconds, and its most memory in KiB."""
    with tempfile.TemporaryFile() as out:
        begin = time.perf_counter()
        child = subprocess.Popen(words, stdin=subprocess.DEVNULL, stdout=out, stderr=subprocess.STDOUT)
        _, status, used = os.wait4(child.pid, 0)
        seconds = time.perf_counter() - begin
        child.returncode = os.waitstatus_to_exitcode(status)
        out.seek(0)
        return out.read().decode(), child.returncode, seconds, used.ru_maxrss


def words_of(program, path, order, calls, stages):
    words = [program, "plan", path, "--whole", "--kerf", str(order.kerf), "--calls", str(calls)]
    return words + (["--stages", str(stages)] if stages else [])


@dataclass
class Ran:
    """What a program answered, how long it took, and its most memory in KiB."""

    text: str
    seconds: float
    memory: int


def whole(program, path, order, calls, stages):
    """What `plan --whole` prints for an order's file."""
    text, status, seconds, memory = timed(words_of(program, path, order, calls, stages))
    if status:
        raise Failed(f"\n  status {status}: {text.strip()}")
    return Ran(text, seconds, memory)


def asked(program, yard, line):
    """What `replay` answers to a question behind a yard's messages, and what it reports of the material."""
    child = subprocess.Popen([program, "replay"], stdin=subprocess.PIPE, stdout=subprocess.PIPE)

    def reply(line):
        child.stdin.write(f"{line}\n".encode())
        child.stdin.flush()
        return child.stdout.readline().decode().removesuffix("\n")

    for message in yard.lines:
        if '"ok"' not in (output := reply(message)):
            raise Failed(f"\n  {message}: {output}")
    content = content_of(reply, MATERIAL)
    begin = time.perf_counter()
    text = reply(line)
    seconds = time.perf_counter() - begin
    child.stdin.close()
    _, _, used = os.wait4(child.pid, 0)
    child.returncode = 0
    if '"ok":"plans"' not in text:
        raise Failed(f"\n  {line}: {text}")
    return Ran(text, seconds, used.ru_maxrss), content


def planned(path, order, of, calls, given, row):
    """Plans an order some times, checks what is reported, and adds it to the row of its class."""
    if of.is_for_query:
        yard, keys = order.yard(), order.question(calls, given.stages)
        ran, contents = zip(*[asked(given.program, yard, compact(keys)) for _ in range(given.runs)])
    else:
        ran = [whole(given.program, path, order, calls, given.stages) for _ in range(given.runs)]
    if len({it.text for it in ran}) > 1:
        raise Failed("\n  two runs tell different plans")
    if of.is_for_query:
        output = checked_answer(contents[0], keys, ran[0].text)
        if output["missing"]:
            print(f"({sum(it['pieces'] for it in output['missing'])} pieces are missing, short {output['short']})", flush=True)
            return
        units, bound, proved = output["cost"] / order.measure(), output["bound"] / order.measure(), output["proved"]
    else:
        answer = checked(order.problem(), order.kerf, ran[0].text, given.stages)
        units, bound, proved = answer.units, answer.bound, answer.proved
    row.add(order, units, bound, proved, ran)


def kept(folder, name, order, of, calls, stages):
    """The path of an order as a file in a folder."""
    path = os.path.join(folder, f"{name}.txt")
    with open(path, "w") as file:
        if of.is_for_query:
            file.writelines(f"{it}\n" for it in [*order.yard().lines, compact(order.question(calls, stages))])
        else:
            file.write(order.problem().text())
    return path


HEAD = "| Class | Orders | Kinds, pieces | Units | Bound | Over | Proved best | ms, most | MiB | The trial |\n|" + "---|" * 10


def row_text(name, seed, row):
    """A class's row of the table."""
    many = max(row.orders, 1)
    over = 100 * (row.units - row.bound) / max(row.bound, 1)
    same = TRIAL.get((name, seed, row.orders))
    trial = f"{100 * (same[0] - same[1]) / same[1]:.2f} %, {same[2]} of {row.orders}" if same else ""
    output = [name, row.orders, f"{row.kinds / many:.0f}, {row.pieces / many:.0f}", f"{row.units:.10g}", f"{row.bound:.10g}"]
    output += [f"{over:.2f} %"]
    output += [f"{row.proved} of {row.orders}", f"{1000 * row.seconds / many:.0f}, {1000 * row.slowest:.0f}"]
    return "| " + " | ".join(map(str, [*output, row.memory // 1024, trial])) + " |"


def run(name, given, folder):
    """Plans the orders of a class. Whether all went well."""
    of, row, is_well = CLASSES[name], Row(), True
    seed = of.seed if given.seed is None else given.seed
    for number in range(given.count or of.count):
        order = of.order(Dice(seed, number), number)
        calls = given.calls or of.calls
        path = kept(folder, f"{name}-{seed}-{number}", order, of, calls, given.stages)
        try:
            planned(path, order, of, calls, given, row)
        except Failed as why:
            print(f"{name}, seed {seed}, order {number}:{why}", flush=True)
            is_well = False
    print(row_text(name, seed, row), flush=True)
    return is_well


def main():
    reader = argparse.ArgumentParser(description=__doc__, formatter_class=argparse.RawDescriptionHelpFormatter)
    reader.add_argument("classes", nargs="*", choices=[[], *CLASSES], metavar="CLASS")
    reader.add_argument("--count", type=int)
    reader.add_argument("--seed", type=int)
    reader.add_argument("--program", default=PROGRAM)
    reader.add_argument("--calls", type=int)
    reader.add_argument("--stages", type=int)
    reader.add_argument("--runs", type=int, default=3)
    reader.add_argument("--keep")
    reader.add_argument("--list", action="store_true")
    given = reader.parse_args()
    if given.list:
        for name, it in CLASSES.items():
            apart = ", for `plans`" if it.is_for_query else ", where it is named" if it.is_apart else ""
            print(f"{name:15} {it.says}; seed {it.seed}, {it.count} orders{apart}")
        return 0
    names = given.classes or [it for it, of in CLASSES.items() if given.keep or not of.is_apart]
    with tempfile.TemporaryDirectory() as folder:
        if given.keep:
            os.makedirs(given.keep, exist_ok=True)
        print(HEAD, flush=True)
        return 0 if all([run(it, given, given.keep or folder) for it in names]) else 1


if __name__ == "__main__":
    sys.exit(main())
