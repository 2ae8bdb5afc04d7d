"""Whole orders whose best plan is known, since the bound that is reported with it is its cost: the search has to come to it, by so
many tables at most. Most were made by cutting units without waste. Without this a search that finds worse plans, or needs more
tables, would pass, as no contract says how good a plan is. Nothing specifies how many calls that takes: the numbers here are what
the search was measured to need, and a quarter more, so they keep it from getting worse and don't say that it is good."""

import os
import random
import subprocess
from dataclasses import dataclass, replace

from kit.case import case
from kit.whole_orders import bar, planned, sheet, sizes_in
from kit.yards import Yard, answered, question

MATERIAL = "M"

# Of each order of bars the kerf, the calls, the lengths of bars, and those of pieces with how many are wanted of each. A length
# of bars without a number is there as often as one likes.
BARS = """
0 146 | 196 112 77 | 63*1 56*3 49*6 42*7 35*4 28*8 21*9 14*6
1 80 | 132 76 55 | 62*1 55*2 48*1 41*3 34*2 27*1 20*2 13*3
3 35 | 213*5 201*8 189*1 | 105*1 93*2 81*5 69*4 57*10 45*7 33*7 21*12
0 7 | 1134 | 650*3 644*7 428*13 354*8 283*10
6 9 | 919*45 513*8 198*1 524*1 | 540*10 530*13 510*7 477*14 461*5 400*2 340*11 321*11 200*9 164*12 80*7
1 69 | 299 129 99 | 89*5 79*3 69*4 59*7 49*3 39*4 29*5 19*12
3 117 | 187*4 137*4 127*5 | 87*2 77*1 67*4 57*3 47*8 37*5 27*7 17*6
0 99 | 270 72 | 90*2 81*1 72*11 63*5 54*3 45*7 36*10 27*9 18*8
2 141 | 250*7 241*1 223*3 205*4 | 79*3 70*9 61*3 52*4 43*10 34*13 25*17 16*6
3 144 | 237 187 117 77 | 87*2 77*5 67*2 57*6 47*3 37*1 27*6 17*3
4 165 | 176 128 116 | 50*2 44*3 38*7 32*2 26*4 20*3 14*1 8*4
"""

# Of each order of sheets the kerf, the step, the calls, and the sides; pieces with a t may turn.
SHEETS = """
1 1 126 | 85x60 | 20x25t*8 22x13t*11 13x10t*6 15x11t*12 11x17t*13 15x24*15
0 1 86 | 90x52 | 17x35*1 24x39t*2 13x29*3 37x27t*3 21x20t*2
0 1 149 | 57x32*5 34x38*1 30x24*1 | 17x14t*3 18x17t*3 20x17*3 20x15t*3 20x12*3 20x20t*3 26x32*1 31x21t*1 12x11*1 19x11*1
1 1 115 | 103x103 | 25x24*1 25x39*3 40x13*7 29x29*2 23x14*8 27x28*6 40x18*10 15x23*2 26x12*5
1 1 105 | 121x66 | 17x34t*8 28x31t*11 34x25t*9 30x26t*12 38x8t*10 36x24*12 40x13*11 20x13*9 18x13t*3 12x16t*12
0 1 45 | 30x24 | 14x14*2 14x10*2 16x14t*2 10x16t*2 16x12*6 14x12*6
2 1 30 | 66x44*2 45x43*2 30x47*1 | 19x24t*1 17x19t*1 10x24t*1 24x16t*1 24x13*1 66x44*1
0 1 35 | 65x36 55x45 52x31 | 45x28t*2 45x27t*2 25x13t*1 25x23*1 13x19t*1 13x17*1 27x26t*1 27x10*1
1 1 211 | 103x103 | 25x24*1 39x28*6 17x29*1 23x14*8 28x22*9 14x15*10 26x12*5 37x25t*3 34x22*5
8 3 32 | 139x88 | 85x88t*2 36x45t*2 41x45t*2 138x88*4 51x47*2 29x52t*2 28x29*2 48x26t*2 87x42t*2
6 3 66 | 189x66 | 187x66*1 65x64*1 62x26*1 63x33*1 47x29*2
0 1 82 | 61x26*1 58x45*3 58x42*3 | 18x12*3 18x18t*3 18x15*3 29x13t*3 29x27t*3 27x16*3 13x16*3 42x58t*2 46x26*1 16x15t*1 15x10*1
2 1 22 | 64x28*1 63x50*2 37x25*6 | 45x50t*1 16x19*1 16x29*1 37x25t*6
1 1 46 | 61x51 | 14x36*2 38x20t*1 21x32t*2 33x34t*3 34x15*1 15x31t*3 12x32t*2 38x19*1 40x37*2
3 1 104 | 64x41 | 34x38t*3 34x17t*7 35x34t*11 16x19t*3 38x25t*2 18x17t*9 27x15*4 18x19t*4 21x21t*13 30x33t*10 18x24t*9
0 1 107 | 84x62 | 47x17*4 20x30*9 30x27t*2 33x21*11 20x17t*3 27x47t*6 39x29*2 29x36*3 40x34t*15 23x21*14 30x21*12 15x49t*15
1 1 44 | 67x24 44x38 32x31 | 24x13t*4 24x11*4 11x12*4 12x12t*4 19x19t*4 19x18t*4 11x10*3 11x13t*3 22x24t*3 24x12t*3 19x13*3 19x10t*3 44x38*3
1 1 139 | 67x24*3 44x38*8 32x31*1 | 24x13t*4 24x11*4 11x12*4 12x12t*4 19x19t*4 19x18t*4 11x10*3 11x13t*3 22x24t*3 24x12t*3 19x13*3 19x10t*3 44x38*3
"""


# Orders for which sheets of several sizes may be bought: the kerf, the calls, the sizes and the pieces.
BOUGHT = """
30 20 | 24000x13000 21770x11803 15422x11512 | 4407x5499*5 2974x2362*6 7034x2368*5
30 100 | 24000x13000 21770x11803 15422x11512 | 4407x5499*5 2974x2362*6 7034x2368*5
1 20 | 67x24 44x38 32x31 | 24x13t*4 24x11*4 11x12*4 12x12t*4 19x19t*4 19x18t*4 11x10*3 11x13t*3 22x24t*3
0 20 | 105x69 119x63 | 10x8*1 60x10t*2 47x34t*2 20x23*2
3 20 | 51x47 118x48 117x53 | 60x9t*1 52x42*1 26x16*1
30 20 | 17211x11495 16130x12665 | 4544x2853*7 7244x5307*6 2196x2509*6 5710x4590*3
"""


@dataclass
class Order:
    """An order: the kerf, the step of sheets, how many calls its best plan takes at most, its units and its pieces."""

    kerf: int
    step: int
    calls: int
    units: list
    pieces: list

    @classmethod
    def of(cls, line):
        """The order of a line."""
        numbers, units, pieces = line.split(" | ")
        kerf, *step, calls = map(int, numbers.split())
        return cls(kerf, step[0] if step else 0, calls, sizes_in(units), sizes_in(pieces))

    def is_plain(self):
        """Whether a problem file can say it: one size without an end, and nothing turns."""
        return len(self.units) == 1 and self.units[0][3] is None and not any(it[2] for it in self.pieces)

    def yard(self):
        """A shop with this order; the sizes that have an end stand there."""
        yard = Yard()
        yard.material(MATERIAL, self.kerf, "sheet" if self.step else "bar")
        for w, h, _, number in self.units:
            if number:
                yard.receive(MATERIAL, w, h, number)
        yard.order(MATERIAL, *[(w, h, number, turn) for w, h, turn, number in self.pieces])
        return yard

    def question(self, calls):
        buy = [{"h": h, "w": w} for w, h, _, number in self.units if number is None]
        step = {"step": self.step} if self.step else {}
        return question(MATERIAL, buy=buy, calls=calls, **step)


def best(trial, lines):
    """Wants of each order a plan of all pieces whose cost is the bound, from a shop and, where one can say it, from a file; and
    none that is proved where the search may make one table, as prices for a bound take one, and the bound another."""
    for line in lines.strip().split("\n"):
        order = Order.of(line)
        shop = order.yard().replay(trial)
        output = answered(trial, shop, order.question(order.calls))
        trial.equal((output["missing"], output["cost"], output["proved"]), ([], output["bound"], True), line)
        trial.equal(answered(trial, shop, order.question(1))["proved"], False, line)
        if order.is_plain():
            kinds = [(w, h, number) for w, h, _, number in order.pieces]
            ((w, h, _, _),) = order.units
            problem = sheet(w, h, *kinds) if order.step else bar(w, *[(w, number) for w, _, number in kinds])
            step = ("--step", order.step) if order.step else ()
            for calls, is_best in ((order.calls, True), (1, False)):
                trial.equal(planned(trial, problem, order.kerf, "--calls", calls, *step)[1].proved, is_best, line)


@case(
    "best plans of bars",
    "Orders of bars, of one length and of several, without an end and with one, are planned best by the calls that stand with "
    "them: all pieces are made, at the cost of the bound.",
)
def bars(trial):
    best(trial, BARS)


@case(
    "best plans of sheets",
    "The same of sheets: many pieces and few of a kind, some that may turn, of one size and of several, in steps of a tenth and in "
    "longer ones.",
)
def sheets(trial):
    best(trial, SHEETS)


def by_chance(count):
    """Orders by chance that take few sheets, as lines of `BOUGHT`."""
    dice = random.Random(5)
    for _ in range(count):
        pieces = [f"{dice.randint(1500, 8000)}x{dice.randint(1500, 6000)}*{dice.randint(2, 7)}" for _ in range(dice.randint(2, 4))]
        sizes = [f"{dice.randint(9000, 26000)}x{dice.randint(8000, 15000)}" for _ in range(dice.randint(2, 3))]
        yield f"30 20 | {' '.join(sizes)} | {' '.join(pieces)}"


@case(
    "more sizes to buy",
    "With several sizes of sheets to buy, a plan costs at most as much as with any one of them and the same calls, for some listed "
    "orders and for others by chance. The bound is at most the cost of each of these plans.",
)
def more_sizes(trial):
    for line in [*BOUGHT.strip().split("\n"), *by_chance(4)]:
        order = Order.of(line)
        whole = Order(order.kerf, 1, order.calls, order.units, order.pieces)
        shop = whole.yard().replay(trial)

        def planned_from(units):
            output = answered(trial, shop, replace(whole, step=0, units=units).question(order.calls))
            return sum(it["pieces"] for it in output["missing"]), output["cost"], output["bound"]

        missing, cost, bound = planned_from(order.units)
        for one in order.units:
            alone = planned_from([one])
            trial.holds((missing, cost) <= alone[:2], f"{(missing, cost)}, and from {one} alone {alone}: {line}")
            trial.holds(alone[0] or bound <= alone[1], f"bound {bound}, and from {one} alone {alone}: {line}")


# Orders of pieces that fill whole strips of the sheets that they take: the sheets to buy, the pieces, and how many sheets are taken.
STRIPS = """
100x100 | 30x20*5 | 1
100x100 | 25x20*10 | 1
100x60 | 20x20*6 | 1
100x100 | 60x20*2 60x30*2 | 1
100x100 | 50x100*2 30x20*5 | 2
200x120 | 70x40*3 70x30t*4 | 1
"""


@case(
    "best plans with the largest rest",
    "Where the pieces of an order fill whole strips of sheets, the plan that is proved best leaves all else of them in one rest, as no "
    "rest is larger.",
)
def rests(trial):
    for line in STRIPS.strip().split("\n"):
        units, pieces, count = line.split(" | ")
        ((w, h, _, _),) = sizes_in(units)
        kinds = sizes_in(pieces)
        yard = Yard()
        yard.material(MATERIAL, 0, "sheet")
        yard.order(MATERIAL, *[(*sides, number, turn) for *sides, turn, number in kinds])
        output = answered(trial, yard.replay(trial), question(MATERIAL, buy=[{"h": h, "w": w}]))
        cells = int(count) * w * h
        rest = cells - sum(across * down * number for across, down, _, number in kinds)
        trial.equal((output["missing"], output["cost"], output["proved"]), ([], 100 * cells, True), line)
        trial.equal(output["rest"], rest, line)


def seconds_of(trial, problem, calls, *step):
    """Seconds of the processor's time that the plan of a whole order takes, the least of three runs."""
    path = trial.write("order.txt", problem.text())
    return seconds_of_words(trial, "plan", path, "--whole", "--kerf", "0", "--calls", str(calls), *step)


def seconds_of_words(trial, *words):
    """Seconds of the processor's time that a run on these words takes, the least of three."""
    least = None
    for _ in range(3):
        run = subprocess.Popen([trial.program, *words], stdout=subprocess.DEVNULL)
        _, status, used = os.wait4(run.pid, 0)
        run.returncode = os.waitstatus_to_exitcode(status)
        trial.equal(run.returncode, 0, words)
        seconds = used.ru_utime + used.ru_stime
        least = seconds if least is None else min(least, seconds)
    return least


@case(
    "time of a whole order",
    "Of 70 lengths that are planned best by 40 calls 5000 take about as long, as a search ends where nothing is left to find; "
    "and lengths 150 times as long take about as long as the short ones.",
)
def times(trial):
    def order(scale):
        return bar(1000 * scale, *[((40 + 137 * it % 450) * scale, 10 + it % 7) for it in range(70)])

    trial.equal(planned(trial, order(1), 0, "--calls", 40)[1].proved, True)
    short = seconds_of(trial, order(1), 40)
    for scale, calls in ((1, 5000), (150, 40)):
        seconds = seconds_of(trial, order(scale), calls)
        why = f"{seconds} seconds by {calls} calls of lengths times {scale}, {short} of the short ones by 40"
        trial.holds(seconds < 6 * short + 0.05, why)


@case(
    "time of a call of a search for sheets",
    "A search for sheets of 6000 by 3210 mm from 100 kinds of pieces, which isn't done behind 40 calls, takes at most 50 milliseconds "
    "of the processor's time a call, and as much again on a slow machine.",
)
def a_call(trial):
    kinds = [(2500 + 613 * it % 9700, 2500 + 1289 * it % 8300, 3 + it % 7) for it in range(1, 101)]
    problem = sheet(60000, 32100, *kinds)
    begin = seconds_of_words(trial, "--version")
    search = seconds_of_words(trial, "plan", trial.write("order.txt", problem.text()), "--kerf", "30", "--whole", "--calls", "40") - begin
    trial.equal(planned(trial, problem, 30, "--calls", 40)[1].proved, False)
    trial.holds(search < 40 * 0.1, f"{search} seconds for 40 calls")
