"""`plan --whole`: all pieces of a problem file from as many of its rectangles as it takes. Every answer is checked by itself
(`kit/plans.py`); of how few units the search finds only what anybody plans at sight is wanted here, and more in
`best_plans.py`."""

import random
from functools import cache

from kit.case import Failed, case
from kit.commands import all_mistaken, over
from kit.faults import Faults
from kit.plans import MAX_UNITS, Problem, checked, stages_of
from kit.whole_orders import SMALL, asked, bar, planned, sheet

MAX_BAR_LEN = 150000


def prints(trial, problem, kerf, wanted, *words):
    """Wants these units, this bound, whether they are equal, and this number of pieces missing."""
    _, answer = planned(trial, problem, kerf, *words)
    got = (answer.units, answer.bound, "yes" if answer.proved else "no", answer.missing)
    trial.equal(got, wanted, f"{problem} kerf {kerf} {words}")
    return answer


def refused(trial, problem, kerf, line, *words):
    trial.ended(asked(trial, problem, kerf, *words), 1, err=f"{line}\n", sent=f"{problem} kerf {kerf} {words}")


@case(
    "whole orders planned at sight",
    "Pieces that one bar or one sheet holds take one unit, proved; ten of 30 on bars of 100 with a kerf of 3 take four, seven "
    "halves of a bar four, and ten pieces of 4 by 3 of the README's sheet three. A piece as large as its unit is `1 p1`.",
)
def at_sight(trial):
    one = (1, 1, "yes", 0)
    prints(trial, bar(100, (30, 3)), 3, one)
    prints(trial, bar(98, (30, 3)), 3, one)
    prints(trial, bar(100, (60, 1), (37, 1)), 3, one)
    prints(trial, sheet(10, 8, (4, 3, 4)), 1, one)
    prints(trial, sheet(10, 8, (4, 8, 1), (5, 8, 1)), 1, one)
    prints(trial, bar(100, (30, 10)), 3, (4, 4, "yes", 0))
    prints(trial, bar(100, (50, 7)), 0, (4, 4, "yes", 0))
    prints(trial, sheet(10, 8, (4, 3, 10)), 1, (3, 3, "yes", 0), "--step", 1)
    for problem in (bar(100, (100, 1)), sheet(4, 3, (4, 3, 1))):
        for kerf in (0, 200):
            text, _ = planned(trial, problem, kerf)
            trial.equal(text, "units 1\nbound 1\nproved yes\nmissing 0\n1 p1\n", problem)
    text, _ = planned(trial, bar(100, (100, 3)), 3)
    trial.equal(text, "units 3\nbound 3\nproved yes\nmissing 0\n3 p1\n")


@case(
    "whole orders of equal kinds",
    "Kinds of equal sides keep their own demands and counts, and different plans stand in lines of their own, the one that is "
    "cut most often first.",
)
def lines(trial):
    answer = prints(trial, bar(100, (100, 2), (100, 3)), 0, (5, 5, "yes", 0))
    trial.equal(answer.plans, [(3, "p2"), (2, "p1")])
    answer = prints(trial, bar(100, (100, 2), (100, 2), (100, 2)), 0, (6, 6, "yes", 0))
    trial.equal(answer.plans, [(2, "p1"), (2, "p2"), (2, "p3")])
    ten = bar(100, *[(100, 2)] * 10)
    trial.equal([tree for _, tree in planned(trial, ten)[1].plans], sorted(f"p{it}" for it in range(1, 11)))


# The fewest units, by trying all: the counts that a unit holds and no others hold more of.


def sum_within(first, second, counts):
    return tuple(min(a + b, most) for a, b, most in zip(first, second, counts))


def greatest(counts):
    """Those counts of a set that no others of it exceed."""
    return [it for it in counts if not any(it != other and all(a <= b for a, b in zip(it, other)) for other in counts)]


def holds(problem, kerf):
    """All greatest counts of pieces that one unit holds, by every cut of every rectangle."""
    wanted = [kind[2] for kind in problem.kinds]

    @cache
    def held(w, h):
        found = {tuple(0 for _ in wanted)}
        for number, kind in enumerate(problem.kinds):
            if kind[:2] == (w, h):
                found.add(tuple(int(it == number) for it in range(len(wanted))))
        cuts = [((at, h), (w - at - kerf, h)) for at in range(1, w)] + [((w, at), (w, h - at - kerf)) for at in range(1, h)]
        for first, second in cuts:
            rests = held(*second) if min(second) > 0 else [tuple(0 for _ in wanted)]
            found |= {sum_within(a, b, wanted) for a in held(*first) for b in rests}
        return greatest(found)

    return held(problem.w, problem.h)


def fewest(problem, kerf):
    """The fewest units that hold all pieces."""
    plans, units = holds(problem, kerf), 0
    lefts = {tuple(kind[2] for kind in problem.kinds)}
    while not any(sum(it) == 0 for it in lefts):
        lefts = {tuple(max(left - count, 0) for left, count in zip(it, plan)) for it in lefts for plan in plans}
        units += 1
    return units


def tried(trial, problem, kerf, *words):
    """The bound of an order isn't over the fewest units, and what is reported as proved takes no more."""
    _, answer = planned(trial, problem, kerf, *words)
    least = fewest(problem, kerf)
    why = f"{problem} kerf {kerf}: {answer}, and {least} units hold all"
    trial.holds(answer.bound <= least <= answer.units and not answer.missing, why)


@case(
    "whole orders of small bars beside all plans",
    "The bound of bars up to 24 with up to three lengths isn't over the fewest bars that trying all plans finds, and no answer "
    "takes fewer.",
)
def small_bars(trial):
    dice = random.Random(7)
    for _ in range(60 if trial.whole else 20):
        length = dice.randint(3, 24)
        kinds = [(dice.randint(1, length), dice.randint(1, 6)) for _ in range(dice.randint(1, 3))]
        tried(trial, bar(length, *kinds), dice.randint(0, 3))


@case(
    "whole orders of small sheets beside all plans",
    "The bound of sheets up to 8 by 7 with up to three kinds, by steps of 1 and by the least, isn't over the fewest sheets that "
    "trying all plans finds, and no answer takes fewer.",
)
def small_sheets(trial):
    dice = random.Random(11)
    for number in range(40 if trial.whole else 14):
        w, h = dice.randint(2, 8), dice.randint(2, 7)
        kinds = [(dice.randint(1, w), dice.randint(1, h), dice.randint(1, 4)) for _ in range(dice.randint(1, 3))]
        tried(trial, sheet(w, h, *kinds), dice.randint(0, 2), *(("--step", 1) if number % 2 else ()))


@case(
    "whole orders that fill their units",
    "Three triplets of bars of 1000, a perfect cut of a sheet of 12 by 8 made three times, and bars of many lengths: the bound "
    "isn't over the units that fill them.",
)
def filled(trial):
    triplets = bar(1000, *[(it, 1) for it in (475, 262, 263, 450, 289, 261, 400, 302, 298)])
    trial.equal(sum(kind[0] for kind in triplets.kinds), 3000)
    perfect = sheet(12, 8, (5, 8, 3), (7, 3, 3), (4, 5, 3), (3, 2, 3), (3, 3, 3))
    trial.equal(sum(kind[3] * kind[2] for kind in perfect.kinds), 3 * 96)
    many = bar(6000, *[(3000 - 7 * it, 2) for it in range(1, 21)], *[(3000 + 7 * it, 2) for it in range(1, 21)])
    for problem, units in ((triplets, 3), (perfect, 3), (many, 40)):
        _, answer = planned(trial, problem)
        trial.holds(answer.bound <= units, f"{problem}: {answer}")


@case(
    "whole orders with pieces that no unit holds",
    "Pieces that are too long, too high or fit turned alone are missing, the others planned, and nothing is proved; where no "
    "piece fits it is `refused 90 NothingFits`.",
)
def unfit(trial):
    def lacking(problem, kerf, units, missing):
        _, answer = planned(trial, problem, kerf)
        trial.equal((answer.units, answer.proved, answer.missing), (units, False, missing), problem)

    lacking(bar(100, (101, 5), (50, 4)), 0, 2, 5)
    lacking(bar(100, (100, 1), (100001, 1000000)), 3, 1, 1000000)
    lacking(sheet(4, 3, (3, 4, 2), (4, 3, 2)), 0, 2, 2)
    lacking(sheet(10, 8, (11, 1, 1), (1, 9, 1), (10, 8, 1)), 1, 1, 2)
    lacking(Problem(100, 1, [(100, 2, 3, 9), (100, 1, 2, 9)]), 0, 2, 3)
    for problem in (bar(100, (101, 1)), sheet(4, 3, (3, 4, 1)), bar(100, (101, 1), (200000, 2)), sheet(10, 8, *[(11, 9, 1)] * 100)):
        refused(trial, problem, 3, "refused 90 NothingFits")
    refused(trial, Problem(100, 1, [(100, 2, 3, 9)]), 0, "refused 90 NothingFits", "--step", 1)


@case(
    "a whole order of 100 kinds, and of 101",
    "100 kinds of bars and of sheets are planned, 101 and 200 are `refused 93 BadWant`, before a bad step and a large table, and also "
    "where none fits.",
)
def kinds(trial):
    lengths = [(600 + 7 * it, 1 + it % 3) for it in range(101)]
    refused(trial, bar(6000, *lengths, *lengths[2:]), 4, "refused 93 BadWant")
    planned(trial, bar(6000, *lengths[:100]), 4, "--calls", 3)
    sides = [(100 + 3 * it, 90 + 2 * it, 1 + it % 3) for it in range(101)]
    planned(trial, sheet(1000, 800, *sides[:100]), 4, "--calls", 2, "--step", 20)
    for problem in (bar(6000, *lengths), sheet(1000, 800, *sides), bar(5, *lengths)):
        refused(trial, problem, 4, "refused 93 BadWant")
    refused(trial, sheet(1000, 800, *sides), 4, "refused 93 BadWant", "--step", 0)
    refused(trial, sheet(1000, 800, *sides), 4, "refused 93 BadWant", "--step", 1)
    refused(trial, bar(MAX_BAR_LEN + 1, *lengths), 4, "refused 93 BadWant")


@case(
    "a whole order of a million pieces and more",
    "1000000 pieces, ten to a bar or a sheet, take 100000 units, proved. Where more units are needed 100000 are planned, the "
    "other pieces are missing, and the bound says how many it takes.",
)
def million(trial):
    full = (MAX_UNITS, MAX_UNITS, "yes", 0)
    prints(trial, bar(100, (10, 1000000)), 0, full)
    prints(trial, sheet(20, 10, (4, 5, 1000000)), 0, full, "--step", 1)
    for problem in (bar(100, (100, 1000000)), sheet(4, 3, (4, 3, 1000000)), bar(1, (1, 1000000))):
        answer = prints(trial, problem, 200, (MAX_UNITS, 1000000, "no", 900000))
        trial.equal(answer.plans, [(MAX_UNITS, "p1")])
    prints(trial, bar(100, (100, MAX_UNITS)), 3, full)
    prints(trial, bar(100, (100, MAX_UNITS + 1)), 3, (MAX_UNITS, MAX_UNITS + 1, "no", 1))
    over_all = bar(100, *[(it, 1000000, 1000000000) for it in (100, 99, 98, 51, 101)])
    _, answer = planned(trial, over_all, 0, "--calls", 5)
    trial.holds(answer.missing >= 4900000, answer)
    planned(trial, bar(6000, *[(60 * it, 1000000) for it in range(1, 101)]), 0, "--calls", 2)
    planned(trial, Problem(1000, 800, [(9 * it, 8 * it, 1000000, 1000000000) for it in range(11, 100)]), 0, "--step", 40, "--calls", 1)


@case(
    "steps of a whole order of sheets",
    "A step of 0 and one over a side of a piece and the kerf are `refused 92 BadStep`, of a piece that doesn't fit too; a side "
    "and the kerf of over 500 steps `refused 91 TableTooLarge`; 92 comes before 91, and both before 90.",
)
def steps(trial):
    pieces = sheet(10, 10, (5, 7, 2))
    for kerf, step in ((0, 0), (0, 6), (3, 9), (200, 206), (200, 200000)):
        refused(trial, pieces, kerf, "refused 92 BadStep", "--step", step)
    for kerf, step in ((0, 5), (3, 8), (200, 205)):
        planned(trial, pieces, kerf, "--step", step)
    refused(trial, sheet(10, 10, (5, 7, 2), (20, 1, 1)), 0, "refused 92 BadStep", "--step", 2)
    planned(trial, sheet(500, 2, (100, 2, 3)), 0, "--step", 1)
    refused(trial, sheet(501, 2, (100, 2, 3)), 0, "refused 91 TableTooLarge", "--step", 1)
    refused(trial, sheet(500, 2, (100, 2, 3)), 1, "refused 91 TableTooLarge", "--step", 1)
    refused(trial, sheet(2, 501, (2, 100, 3)), 0, "refused 91 TableTooLarge", "--step", 1)
    planned(trial, sheet(1001, 4, (100, 2, 3)), 0, "--step", 2)
    refused(trial, sheet(1002, 4, (100, 2, 3)), 0, "refused 91 TableTooLarge", "--step", 2)
    refused(trial, sheet(501, 2, (502, 2, 3)), 0, "refused 91 TableTooLarge", "--step", 1)
    refused(trial, sheet(501, 2, (502, 2, 3)), 0, "refused 92 BadStep", "--step", 3)
    refused(trial, sheet(501, 2, (502, 2, 3)), 0, "refused 90 NothingFits")


@case(
    "a whole order of sheets without a step",
    "Without `--step` no side is rounded: pieces whose sides with the kerf just fit are planned and proved, of sheets of any "
    "sides; so are pieces however small, which a step that takes the sheet's sides refuses, 92.",
)
def without_step(trial):
    # two by two pieces take a sheet exactly, and one a tenth wider or higher has no place beside another
    for (w, h), kerf in (((1003, 701), 3), ((701, 1003), 3), ((200000, 60000), 0), ((199999, 59999), 199)):
        side, high = (w - kerf) // 2, (h - kerf) // 2
        prints(trial, sheet(w, h, (side, high, 8)), kerf, (2, 2, "yes", 0))
        prints(trial, sheet(w, h, (side + 1, high, 4)), kerf, (2, 2, "yes", 0))
        prints(trial, sheet(w, h, (side + 1, high + 1, 4)), kerf, (4, 4, "yes", 0))
    small = sheet(3000, 20, (1, 1, 5))
    _, answer = planned(trial, small)
    trial.holds(answer.units == 1 and answer.bound <= 1, answer)
    refused(trial, small, 0, "refused 92 BadStep", "--step", 6)
    both = sheet(3000, 20, (5, 20, 1), (6, 20, 1), (3000, 20, 2))
    _, answer = planned(trial, both)
    trial.holds(answer.units == 3 and 2 <= answer.bound <= 3, answer)


@case(
    "stages of a whole order",
    "Plans have at most so many stages as `--stages` says, 2 to 255, and all is planned all the same; of bars and with 255 the "
    "bytes are those without a limit.",
)
def stages(trial):
    problem = sheet(100, 100, (60, 39, 4), (40, 20, 6), (35, 50, 3), (15, 10, 9))
    free, _ = planned(trial, problem, 1, "--calls", 20)
    for most in (2, 3, 4, 255):
        text, answer = planned(trial, problem, 1, "--calls", 20, "--stages", most)
        trial.equal(answer.missing, 0, f"stages {most}")
        for _, tree in answer.plans:
            trial.holds(stages_of(100, 100, 1, tree) <= most, f"stages {most}: {tree}")
        trial.holds(most < 255 or text == free, f"{text} and {free}")
    # one piece in the corner takes two stages, whatever its sides
    prints(trial, sheet(100, 100, (51, 51, 3)), 1, (3, 3, "yes", 0), "--stages", 2)
    text, _ = planned(trial, bar(501, (250, 5)), 1)
    for most in (2, 255):
        trial.equal(planned(trial, bar(501, (250, 5)), 1, "--stages", most)[0], text, f"stages {most}")


@case(
    "sheets of a whole order that steps don't hold",
    "A piece that fits its sheet but not rounded up to steps is planned; so are pieces of which each takes a sheet of its own.",
)
def beside_steps(trial):
    prints(trial, sheet(5, 3, (5, 3, 1)), 0, (1, 1, "yes", 0), "--step", 2)
    prints(trial, sheet(4, 3, (4, 3, 2)), 0, (2, 2, "yes", 0), "--step", 3)
    planned(trial, sheet(100, 100, (99, 99, 3), (98, 7, 2)), 4, "--step", 7)


@case(
    "bars of a whole order at their limits",
    "A rectangle of height 1 whose pieces have height 1 is a bar up to 150000, over it 91, and takes any step; with a piece of "
    "height 2, or higher itself, it is a sheet.",
)
def long_bars(trial):
    prints(trial, bar(MAX_BAR_LEN, (MAX_BAR_LEN, 2), (50000, 3)), 0, (3, 3, "yes", 0))
    planned(trial, bar(MAX_BAR_LEN, (149, 2000), (40001, 3)), 30, "--calls", 2)
    for length in (MAX_BAR_LEN + 1, 200000):
        refused(trial, bar(length, (100, 1)), 0, "refused 91 TableTooLarge")
        refused(trial, bar(length, (length, 1)), 0, "refused 91 TableTooLarge", "--step", 0)
        planned(trial, sheet(length, 2, (length, 2, 1)))
    text, _ = planned(trial, bar(501, (250, 5)), 1)
    for step in (0, 1, 200000):
        trial.equal(planned(trial, bar(501, (250, 5)), 1, "--step", step)[0], text, f"step {step}")
    refused(trial, Problem(501, 1, [(250, 1, 5, 1), (250, 2, 5, 1)]), 0, "refused 91 TableTooLarge", "--step", 1)
    refused(trial, Problem(501, 1, [(250, 1, 5, 1), (250, 2, 5, 1)]), 0, "refused 92 BadStep", "--step", 0)
    refused(trial, sheet(501, 2, (250, 1, 5)), 0, "refused 91 TableTooLarge", "--step", 1)


@case(
    "whole orders of over 256 pieces a unit",
    "255 pieces on a bar take one unit, and 256 that fill a bar or a sheet two at most, whose bound is one; 257 on a bar and 272 on a "
    "sheet take two units or more, as no plan has over 255 cuts, and the bound isn't over two.",
)
def many(trial):
    prints(trial, bar(255, (1, 255)), 0, (1, 1, "yes", 0))
    for problem in (bar(256, (1, 256)), sheet(16, 16, (1, 1, 256))):
        _, answer = planned(trial, problem)
        trial.holds(answer.bound == 1 <= answer.units <= 2 and not answer.missing, f"{problem}: {answer}")
    for problem in (bar(257, (1, 257)), bar(128500, (500, 257)), sheet(16, 17, (1, 1, 272))):
        _, answer = planned(trial, problem)
        trial.holds(answer.bound <= 2 <= answer.units and not answer.missing, f"{problem}: {answer}")
    planned(trial, bar(MAX_BAR_LEN, (1, 1000000)), 0, "--calls", 3)


@case(
    "calls of a whole order",
    "1 and 5000 calls give an answer with nothing missing, and left out they are 500; the same words print the same bytes.",
)
def calls(trial):
    problem = bar(6000, *[(1000 + 137 * it, 3 + it % 4) for it in range(15)])
    for count in (1, 2, 7):
        trial.equal(planned(trial, problem, 4, "--calls", count)[1].missing, 0)
    text, _ = planned(trial, problem, 4)
    trial.equal(planned(trial, problem, 4)[0], text, "again")
    trial.equal(planned(trial, problem, 4, "--calls", 500)[0], text, "500 calls")
    planned(trial, sheet(100, 80, (33, 21, 9), (40, 40, 5)), 2, "--calls", 1, "--step", 5)
    prints(trial, bar(100, (30, 3)), 3, (1, 1, "yes", 0), "--calls", 5000)
    prints(trial, sheet(10, 8, (4, 3, 4)), 1, (1, 1, "yes", 0), "--calls", 5000)


# Mistakes, each with what its text names.
MISTAKES = """
plan a.txt --whole = --kerf <N>
plan --whole --kerf 1 = <FILE>
plan a.txt --whole --kerf = '--kerf <N>'
plan a.txt --whole --whole --kerf 1 = '--whole'
plan a.txt --whole=yes --kerf 1 = '--whole'
plan a.txt yes --whole --kerf 1 = 'yes'
plan a.txt --Whole --kerf 1 = '--Whole'
plan a.txt --whole --kerf 201 = '201' for '--kerf <N>'
plan a.txt --whole --kerf 1 --kerf 2 = '--kerf <N>'
plan a.txt --whole --kerf 1 --step 200001 = '200001' for '--step <N>'
plan a.txt --whole --kerf 1 --step -1 = '-1'
plan a.txt --whole --kerf 1 --step = '--step <N>'
plan a.txt --whole --kerf 1 --step 2 --step 2 = '--step <N>'
plan a.txt --whole --kerf 1 --calls 0 = '0' for '--calls <N>'
plan a.txt --whole --kerf 1 --calls 5001 = '5001' for '--calls <N>'
plan a.txt --whole --kerf 1 --calls 4294967296 = '4294967296' for '--calls <N>'
plan a.txt --whole --kerf 1 --calls x = 'x' for '--calls <N>'
plan a.txt --whole --kerf 1 --calls -1 = '-1'
plan a.txt --whole --kerf 1 --calls = '--calls <N>'
plan a.txt --whole --kerf 1 --calls 2 --calls 3 = '--calls <N>'
plan a.txt --whole --kerf 1 --stages 0 = '0' for '--stages <N>'
plan a.txt --whole --kerf 1 --stages 1 = '1' for '--stages <N>'
plan a.txt --whole --kerf 1 --stages 256 = '256' for '--stages <N>'
plan a.txt --whole --kerf 1 --stages 4294967298 = '4294967298' for '--stages <N>'
plan a.txt --whole --kerf 1 --stages x = 'x' for '--stages <N>'
plan a.txt --whole --kerf 1 --stages -1 = '-1'
plan a.txt --whole --kerf 1 --stages = '--stages <N>'
plan a.txt --whole --kerf 1 --stages 2 --stages 3 = '--stages <N>'
plan a.txt --whole --kerf 1 --turn = '--turn'
plan a.txt b.txt --whole --kerf 1 = 'b.txt'
plan a.txt --kerf 1 = '--step <N>' is missing: it may be left out only with '--whole'
plan a.txt --kerf 1 --calls 5 = '--step <N>' is missing
plan a.txt --kerf 1 --step 1 --calls 5 = '--calls <N>' may be given only with '--whole'
plan a.txt --kerf 1 --step 1 --stages 5 = '--stages <N>' may be given only with '--whole'
plan a.txt --kerf 1 --step 1 --whole=no = '--whole'
orders a.csv --whole = '--whole'
replay --whole = '--whole'
ticket --store a.db 1 --whole = '--whole'
"""


@case(
    "words of a whole order",
    "The words of `plan --whole` stand in any order, numbers with a plus, zeros or an equals sign; help names `--whole` and "
    "`--calls`; a number out of its range, a word twice, one without its value, and `--calls` and `--stages` without `--whole` are "
    "mistakes, whose text names them.",
)
def words(trial):
    path, problem = trial.write("order.txt", bar(100, (30, 10)).text()), bar(100, (30, 10))
    text, _ = planned(trial, problem, 3, "--calls", 9, "--step", 2)
    for line in (
        "--calls 9 --step 2 --kerf 3 --whole order.txt",
        "--whole order.txt --step=2 --kerf=3 --calls=9",
        "order.txt --kerf +3 --whole --calls 009 --step 02",
    ):
        trial.ended(trial.run("plan", *line.split(" ")), 0, text, sent=line)
    trial.write("-order.txt", problem.text())
    trial.ended(trial.run("plan", "--whole", "--kerf", "3", "--calls", "9", "--step", "2", "--", "-order.txt"), 0, text)
    all_mistaken(trial, MISTAKES)
    for option, value, why in (
        ("--calls", "5001", "5001 is not in 1..=5000"),
        ("--calls", "0", "0 is not in 1..=5000"),
        ("--calls", "x", "invalid digit found in string"),
        ("--step", "200001", "200001 is not in 0..=200000"),
        ("--stages", "1", "1 is not in 2..=255"),
        ("--stages", "256", "256 is not in 2..=255"),
    ):
        ran = trial.run("plan", path, "--whole", "--kerf", "3", option, value)
        wanted = f"error: invalid value '{value}' for '{option} <N>': {why}\n"
        trial.equal(ran.err.decode()[: len(wanted)], wanted, f"{option} {value}")
    for asked_by in (["plan", "--help"], ["help", "plan"]):
        ran = trial.run(*asked_by)
        trial.equal([it for it in ("--whole", "--calls", "5000", "--stages", "255") if it not in ran.out.decode()], [], asked_by)


@case(
    "faults of a whole order's file",
    "The words come first, then a file that can't be read, then the first fault of its text with its place, then the planner's.",
)
def faults(trial):
    for name in ("no.txt", "."):
        trial.ended(trial.run("plan", name, "--whole", "--kerf", "0"), 1, err="fault file\n", sent=name)
        trial.equal(trial.run("plan", name, "--whole", "--kerf", "201").status, 2, name)
    for text, line in (
        ("", "fault text 0 Short"),
        ("2 10 8 4 3 2 66 5 8 1", "fault text 21 Short"),
        ("2 10 8 4 3 2 66 5 8 1 40 7", "fault text 25 Long"),
        ("2 10 8 4 3 2 66.0 5 8 1 40", "fault text 15 Byte"),
        ("201 10 8", "fault text 0 Number"),
        ("1 200001 1 1 1 1 1", "fault text 2 Number"),
        ("1 10 1 1 1 1000001 1", "fault text 11 Number"),
        (" " * 65537, "fault text 65536 Long"),
    ):
        refused(trial, text, 0, line, "--step", 0)
        refused(trial, text, 0, line)


@case(
    "plan without whole beside it",
    "`plan` without `--whole` prints the README's four lines to the byte, takes a bar as a sheet of height 1, at most 40 kinds, "
    "and needs its step.",
)
def unchanged(trial):
    path = trial.write("sheet.txt", "1\n10 8\n4 3 10 12\n")
    for step, wanted in (
        ("1", "worth 48\nceiling 48\ndropped 0\n"),
        ("2", "worth 24\nceiling 48\ndropped 0\n"),
    ):
        ran = trial.run("plan", path, "--kerf", "1", "--step", step)
        trial.equal((ran.status, ran.out.startswith(wanted.encode()), ran.out.count(b"\n")), (0, True, 4), ran.out)
    for text, line in (
        ("1 501 1 1 1 1 1", "refused 91 TableTooLarge"),
        ("41 4 4" + " 5 5 1 1" * 41, "refused 93 BadWant"),
        ("1 4 3 3 4 1 9", "refused 90 NothingFits"),
    ):
        trial.ended(trial.run("plan", trial.write("problem.txt", text), "--kerf", "0", "--step", "1"), 1, err=f"{line}\n")


@case(
    "a whole order's streams that fail",
    "Each read of the file fails in turn, `fault file`; each write, of one byte, `fault write` behind a first part of the text; "
    "a full output is `fault write`.",
)
def streams(trial):
    for problem in SMALL:
        text = planned(trial, problem, 1, "--calls", 5)[0].encode()
        words = ("plan", trial.path("order.txt"), "--whole", "--kerf", "1", "--calls", "5")
        trial.equal(over(trial, *words, out="/dev/full"), (1, b"fault write\n"), words)
        trial.ended(trial.run(*words, environment=Faults(trial, by=1, under="").environment), 0, text, sent="a byte at a time")
        for at in trial.places(len(problem.text()), 7):
            ran = trial.run(*words, environment=Faults(trial, "read", at=at + 1, by=1, under="").environment)
            trial.ended(ran, 1, b"", b"fault file\n", sent=f"{words}, read {at + 1}")
        for at in trial.places(len(text), 17):
            ran = trial.run(*words, environment=Faults(trial, "write", at=at + 1, by=1).environment)
            trial.ended(ran, 1, text[:at], b"fault write\n", sent=f"{words}, write {at + 1}")


GOOD = "units 4\nbound 4\nproved yes\nmissing 0\n3 x30 p1 x30 p1 x30 p1 r\n1 x30 p1 r\n"

# Changes of that answer, each of which makes a wrong one.
WRONG = [
    ("units 4", "units 5"),
    ("units 4", "units 04"),
    ("bound 4", "bound 5"),
    ("bound 4", "bound 3"),
    ("yes", "no"),
    ("missing 0", "missing 1"),
    ("1 x30 p1 r\n", "1 x30 p1 r"),
    ("1 x30 p1 r\n", "1 x30 p1 r\n\n"),
    ("1 x30 p1 r", "1 r"),
    ("1 x30 p1 r", "1 x30 p2 r"),
    ("1 x30 p1 r", "1 x30 p1t r"),
    ("1 x30 p1 r", "1 x30 p1 x30 p1 r"),
    ("3 x30 p1 x30 p1 x30 p1 r\n1 x30 p1 r", "1 x30 p1 r\n3 x30 p1 x30 p1 x30 p1 r"),
    ("p1 r\n1", "p1\n1"),
    ("p1 r\n1", "p1 r r\n1"),
    ("p1 r\n1", "p1 x1 r\n1"),
    ("x30 p1 r\n1", "x31 p1 r\n1"),
]


@case(
    "wrong answers to a whole order",
    "The check that each answer goes through takes one made by hand, and refuses it with a wrong number, an illegal plan, an "
    "empty one, pieces too many, and lines out of their order.",
)
def checks(trial):
    problem = bar(100, (30, 10))
    checked(problem, 3, GOOD)
    for old, new in WRONG:
        trial.equal(GOOD.count(old) > 0, True, old)
        try:
            checked(problem, 3, GOOD.replace(old, new, 1))
        except Failed:
            continue
        raise Failed(f"\n  {old} became {new}, and the answer was taken")
