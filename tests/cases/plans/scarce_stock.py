"""Plans from bars of which there are few: the least cost of each question is found here, by trying all ways to cut the pieces from the
bars that there are. A search that forgets how many bars of a length there are plans some of them worse, as no contract says how good a
plan is."""

from functools import cache

from kit.case import case
from kit.whole_orders import sizes_in
from kit.yards import Yard, answered, question

# Of each question the kerf, the lengths of bars with how many there are, and those of pieces with how many are wanted.
QUESTIONS = """
0 | 89*2 65*1 55*2 | 55*3 34*3 30*1 14*2
0 | 121*1 76*2 59*2 | 58*3 32*1 29*3 21*2
1 | 123*1 116*1 | 52*2 35*2 32*1
2 | 92*2 76*2 74*1 | 56*3 45*3 31*1
0 | 95*2 78*1 | 49*2 26*3 15*3
1 | 117*1 114*1 52*1 | 59*2 31*3 18*2
1 | 81*2 71*1 66*1 | 45*2 40*2 25*3
1 | 94*1 57*3 | 55*2 45*2 16*2
2 | 87*1 85*2 49*1 | 50*3 30*2 14*2 9*2
1 | 74*1 57*1 40*3 | 41*2 34*2 20*2 11*1
0 | 104*1 97*2 92*1 | 57*3 43*3 26*1
0 | 127*1 92*3 48*1 | 51*3 45*2 36*2 24*2
2 | 125*1 111*1 40*1 | 54*2 38*3 22*1 16*1
0 | 62*1 50*1 | 25*2 23*1 20*1
0 | 103*1 48*2 46*2 | 39*3 33*2 28*2
2 | 71*1 69*2 65*2 | 49*2 36*3 28*1 19*2
"""

# Calls of each search: twice as many as are enough for each of these.
CALLS = 24


def fillings(length, kerf, pieces, left):
    """The ways to cut a bar from what is left of the pieces, to each of which no piece could be added: how many of each."""
    found = []

    def add(at, room, counts):
        if at == len(pieces):
            if not any(left[it] > counts[it] and pieces[it] <= room for it in range(len(pieces))):
                found.append(tuple(counts))
            return
        for count in range(left[at] + 1):
            # (the saw takes its kerf behind each piece, and behind the last one only what is there)
            taken = count * (pieces[at] + kerf)
            if count and taken - kerf > room:
                break
            add(at + 1, room - taken, [*counts, count])

    add(0, length, [])
    return found


def least_cost(kerf, bars, wanted):
    """What the bars cost at least from which all pieces are cut, in tenths times 100; None where they don't suffice. `bars` and `wanted`
    have the lengths with their numbers, None for as many as one likes."""
    lengths, pieces = [it for it, _ in bars], [it for it, _ in wanted]

    @cache
    def least(first, there, left):
        if not any(left):
            return 0
        costs = []
        for at in range(first, len(lengths)):
            if there[at] == 0:
                continue
            fewer = tuple(it if place != at or it is None else it - 1 for place, it in enumerate(there))
            for counts in fillings(lengths[at], kerf, pieces, left):
                if any(counts):
                    rest = least(at, fewer, tuple(it - count for it, count in zip(left, counts)))
                    if rest is not None:
                        costs.append(100 * lengths[at] + rest)
        return min(costs, default=None)

    return least(0, tuple(it for _, it in bars), tuple(it for _, it in wanted))


def asked(line):
    """The kerf, the bars and the pieces of a question, with their numbers."""
    kerf, bars, pieces = line.split(" | ")
    return int(kerf), *[[(w, number) for w, _, _, number in sizes_in(it)] for it in (bars, pieces)]


@case(
    "best plans from scarce bars",
    "Of each of these questions, whose bars suffice only where the right ones are cut into the right pieces, all pieces are planned, at "
    "the least cost that trying all ways finds, which is more than it would be if there were as many bars as one likes.",
)
def scarce(trial):
    yard, questions = Yard(), [asked(it) for it in QUESTIONS.strip().split("\n")]
    for number, (kerf, bars, pieces) in enumerate(questions):
        yard.material(f"M-{number}", kerf)
        for length, count in bars:
            yard.receive(f"M-{number}", length, 1, count)
        yard.bars(f"M-{number}", *pieces)
    shop = yard.replay(trial)
    for number, (kerf, bars, pieces) in enumerate(questions):
        least, without = least_cost(kerf, bars, pieces), least_cost(kerf, [(it, None) for it, _ in bars], pieces)
        trial.holds(least is not None and without < least, f"{bars} {pieces}: {least}, {without}")
        output = answered(trial, shop, question(f"M-{number}", calls=CALLS))
        trial.equal((output["missing"], output["cost"]), ([], least), f"{kerf} {bars} {pieces}")
