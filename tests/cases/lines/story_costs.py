"""What the story of an order, of a job and of a part costs behind few and behind many entries of others, and that none of its own is missed.

No specification has the factor: it lies between what was measured and what a search through all entries takes."""

import json

from kit.case import case
from kit.old_shops import asked_costs, at_most_thrice, begun, work
from kit.questions import compact
from kit.yards import Yard

# How many entries of others: few and many.
OTHERS = (500, 20000)


def story(after=0, **about):
    return compact({"after": after, "ask": "story", **about})


def stories(job):
    """Stories of an order of 40 lines, of one of its jobs, of a unit that was cut and of a rest of it."""
    return {
        "story of an order": story(order="A-1-1"),
        "story of an order behind all": story(2147483647, order="A-1-1"),
        "story of a job": story(job=job),
        "story of a unit": story(part="1/0"),
        "story of a rest": story(part=f"{job}/2"),
    }


def entries_in(shop, line):
    return [it["entry"] for it in json.loads(shop.reply(line))["entries"]]


@case(
    "the cost of a story in memory",
    "In memory the stories of an order, of a job, of a unit and of a rest take at most three times as long behind 20000 entries of others "
    "as behind 500.",
)
def costs_in_memory(trial):
    told = []
    for count in OTHERS:
        yard = begun()
        shop = yard.replay(trial)
        others = yard.then(5)
        demand = others.bars("STEEL", (40, 9))
        for it in range(count):
            others.amend(demand, 10 + it % 2)
        last = others.then(2)
        work(last)
        for it in (others, last):
            it.fill(trial, shop)
        told.append(asked_costs(trial, shop, stories(21)))
        shop.end()
    at_most_thrice(trial, *told, OTHERS)


@case(
    "a story through others",
    "The entries of an order and of a part lie between those of others: of two orders in turn, of a hundred units of one receipt, of a job that was "
    "done, undone and reserved anew, and of an import that came again; each story has its own from any number on, in memory, in a file, and where "
    "that is opened again.",
)
def between_others(trial):
    yard = Yard()
    yard.material("STEEL", 0)
    units = yard.receive("STEEL", 100, 1, 100)
    first = yard.bars("STEEL", (30, 9))
    other = yard.bars("STEEL", (40, 9))
    jobs = [yard.cut(f"1/{it}", f"x30 p{first} r" if it % 2 else f"x40 p{other} r") for it in range(6)]
    yard.send(do="undo", job=jobs[1])
    again = yard.cut("1/1", f"x30 p{first} r")
    yard.amend(other, 10)
    codes = [json.loads(it)["order"] for it in yard.lines if '"order"' in it]
    expected = {
        compact({"order": codes[0]}): [3, 7, 8, 11, 12, 15, 16, 17, 18, 19],
        compact({"order": codes[1]}): [4, 5, 6, 9, 10, 13, 14, 20],
        compact({"job": jobs[1]}): [7, 8, 17],
        compact({"job": again}): [18, 19],
        compact({"part": units}): [2, 5, 6],
        compact({"part": "1/1"}): [2, 7, 8, 17, 18, 19],
        compact({"part": "1/99"}): [2],
        compact({"part": f"{again}/2"}): [19],
    }

    def check(shop):
        for about, numbers in expected.items():
            for after in (0, *numbers, 21):
                trial.equal(entries_in(shop, story(after, **json.loads(about))), [it for it in numbers if it > after], (about, after))

    shop = yard.replay(trial)
    check(shop)
    shop.end()
    shop = yard.serve(trial)
    check(shop)
    shop.kill()
    shop = trial.shop(shop.store)
    check(shop)
