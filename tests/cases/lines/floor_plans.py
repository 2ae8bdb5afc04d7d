"""Questions for plans that name no demands: which are taken, by the days on which orders are due."""

import json

from kit.case import case
from kit.questions import compact, content_of
from kit.yards import Yard, answered, question

CODE = "STEEL"


class Dated(Yard):
    """A yard whose orders have days."""

    def due(self, demand_of, day):
        """Notes the order of some message with a day."""
        self.send(do="note", order=demand_of, due=day, text="")

    def orders(self):
        return [json.loads(it)["order"] for it in self.lines if '"do":"order"' in it]


def yard_of(orders, days):
    """A yard with stock for all, so many orders of so many demands each of a bar, and days for some of them by their place."""
    yard = Dated()
    yard.material(CODE, 3)
    for _ in range(5):
        yard.receive(CODE, 6000, 1, 100)
    for count in orders:
        yard.bars(CODE, *[(10 + it, 1) for it in range(count)])
    for place, day in days:
        yard.due(yard.orders()[place], day)
    return yard


def planned(trial, shop, asked):
    """The demands of which an answer plans pieces, of all that is open and can be cut, by rising number; the answer is checked."""
    answer = answered(trial, shop, asked)
    trial.equal(answer["missing"], [], compact(asked))
    found = {int(word[1:].rstrip("t")) for it in answer["plans"] for word in it["tree"].split() if word[0] == "p"}
    prices = [it["demand"] for it in answer["prices"]]
    trial.equal(prices, sorted(prices), "prices in rising order of demands")
    trial.equal(set(prices) <= found, True, "prices of demands that are planned")
    return sorted(found)


@case(
    "plans of what is due first",
    "Without `demands` the first 100 open demands by rising day of their orders are planned, those of one day by rising number, "
    "and those without a day last; with "
    "100 or fewer all are. Prices stay in rising order of demands.",
)
def due_first(trial):
    # Orders of 40 demands each: 1 to 40, 41 to 80, and so on up to 200.
    def demands(*places):
        return sorted(number for place in places for number in range(1 + 40 * place, 41 + 40 * place))

    cases = [
        # (without a day by number)
        ([], sorted([*demands(0, 1), *range(81, 101)])),
        # (one day alone goes before all without)
        ([(4, 20261203)], sorted([*demands(4), *demands(0), *range(41, 61)])),
        ([(3, 20261203), (4, 20261201)], sorted([*demands(4, 3), *range(1, 21)])),
        # (of one day by number)
        ([(4, 20261203), (2, 20261203), (1, 20261203)], sorted([*demands(1, 2), *range(161, 181)])),
        # (the least day is the first there is)
        ([(0, 99991231), (1, 20261203), (2, 19700101), (3, 20261202)], sorted([*demands(2, 3), *range(41, 61)])),
        # (a day that is taken away counts no more)
        ([(4, 20261203), (4, 0), (3, 20261224)], sorted([*demands(3, 0), *range(41, 61)])),
    ]
    for days, wanted in cases:
        shop = yard_of([40] * 5, days).replay(trial)
        trial.equal(planned(trial, shop, question(CODE, calls=10)), wanted, days)
        trial.equal(shop.end(), (0, b""))
    shop = yard_of([40, 40, 20], [(2, 20261203)]).replay(trial)
    trial.equal(planned(trial, shop, question(CODE, calls=10)), list(range(1, 101)))
    trial.equal(shop.end(), (0, b""))


@case(
    "missing pieces of what is due first",
    "Of 100 demands that are taken by their days, of which no stock holds a piece, all are missing, by rising demand; the "
    "others aren't reported.",
)
def missing(trial):
    yard = Dated()
    yard.material(CODE, 3)
    yard.receive(CODE, 100)
    yard.bars(CODE, *[(200 + it, 2) for it in range(60)])
    yard.bars(CODE, (30, 1))
    yard.bars(CODE, *[(200 + it, 1) for it in range(60)])
    first, second, third = yard.orders()
    yard.due(third, 20261201)
    yard.due(second, 20261203)
    shop = yard.replay(trial)
    answer = answered(trial, shop, question(CODE, calls=10))
    wanted = [{"demand": it, "pieces": 2} for it in range(1, 40)] + [{"demand": it, "pieces": 1} for it in range(62, 122)]
    trial.equal(answer["missing"], wanted)
    trial.equal([it["parts"] for it in answer["plans"]], [["1/0"]], first)
    trial.equal(shop.end(), (0, b""))


@case(
    "what is made or reserved takes no place",
    "Among the 100 that are planned is no demand of which nothing is left, however early its order is due: one whose pieces are "
    "all reserved, made or cancelled takes no "
    "place. Behind the undo of a job its demands are taken again.",
)
def nothing_left(trial):
    yard = Dated()
    yard.material(CODE, 3)
    for _ in range(5):
        yard.receive(CODE, 6000, 1, 100)
    for count in (3, 60, 60):
        yard.bars(CODE, *[(10 + it, 1) for it in range(count)])
    early, _, late = yard.orders()
    yard.due(early, 20261201)
    yard.due(late, 20261203)
    yard.reserve("1/0", "x10 p1 r")
    job = yard.cut("1/1", "x11 p2 r")
    yard.amend(3, 0)
    shop = yard.serve(trial)
    trial.equal(planned(trial, shop, question(CODE, calls=10)), [*range(4, 44), *range(64, 124)])
    number = len(yard.lines) + 1
    trial.holds(b'"ok"' in shop.reply(compact({"do": "undo", "job": job, "number": number, "terminal": 1})), "the undo")
    trial.equal(planned(trial, shop, question(CODE, calls=10)), [2, *range(4, 43), *range(64, 124)])


@case(
    "days and demands that are named",
    "Demands that a question names are planned whatever is due, in its order; a day of one material's orders doesn't matter to "
    "another material's question, and an "
    "order of both counts for both.",
)
def named(trial):
    yard = Dated()
    for code in (CODE, "ALU"):
        yard.material(code, 3)
        for _ in range(3):
            yard.receive(code, 6000, 1, 100)
    for code in (CODE, "ALU"):
        yard.bars(code, *[(10 + it, 1) for it in range(70)])
        yard.bars(code, *[(10 + it, 1) for it in range(70)])
    yard.due(yard.orders()[3], 20261203)
    # Demands 1 to 140 are of one material, 141 to 280 of the other, of which the last 70 are due.
    shop = yard.replay(trial)
    trial.equal(planned(trial, shop, question(CODE, calls=10)), list(range(1, 101)))
    trial.equal(planned(trial, shop, question("ALU", calls=10)), [*range(141, 171), *range(211, 281)])
    asked = question("ALU", calls=10, demands=[150, 141, 145])
    answer = answered(trial, shop, asked, content_of(shop.reply, "ALU"))
    prices = [it["demand"] for it in answer["prices"]]
    trial.equal(prices, [it for it in (150, 141, 145) if it in prices])
    trial.equal(shop.end(), (0, b""))


@case(
    "open demands behind the first hundreds",
    "Of 1000 open demands the 100 that are due first are planned wherever their numbers are, over a file and in memory; when "
    "they are cut the next ones are.",
)
def far_behind(trial):
    yard = yard_of([100] * 10, [(9, 20261201), (6, 20261202)])
    for shop in (yard.replay(trial), yard.serve(trial)):
        trial.equal(planned(trial, shop, question(CODE, calls=10)), list(range(901, 1001)))
        answer = answered(trial, shop, question(CODE, calls=10))
        number = 1
        for part, tree in [(part, it["tree"]) for it in answer["plans"] for part in it["parts"]]:
            line = compact({"do": "reserve", "number": number, "part": part, "terminal": 7, "tree": tree})
            trial.holds(b'"ok"' in shop.reply(line), line)
            number += 1
        trial.equal(planned(trial, shop, question(CODE, calls=10)), list(range(601, 701)))
