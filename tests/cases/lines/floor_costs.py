"""What the questions and commands of the floor cost in shops that did much before: what they report, and a look at an order's jobs, a batch's units or a unit.

The specification says what a cost may depend on; the factor lies between what was measured of other questions and what a wrong body is reckoned to take."""

import json

from kit.case import case
from kit.floor import line, message
from kit.old_shops import HISTORIES, ask, asked_costs, at_most_thrice, measured, old_store
from kit.questions import compact

# The terminal of the messages of the floor, and the order and the batch that they make.
TERMINAL, ORDER, BATCH = 6, "FLOOR-1", "FLOOR"


class Floor:
    """Messages of a terminal to a shop that is old."""

    def __init__(self, trial, shop):
        self.trial, self.shop, self.number = trial, shop, 0

    def send(self, **command):
        self.number += 1
        sent = message(self.number, TERMINAL, **command)
        reply = json.loads(self.shop.reply(sent))
        self.trial.holds("ok" in reply, f"{sent}: {reply}")
        return reply

    def cut(self, part, tree):
        job = self.send(do="reserve", part=part, tree=tree)["job"]
        self.send(do="done", job=job)
        return job


def made(trial, count):
    """An old shop with an order of the floor, of which pieces were cut from units of a batch and from remnants, and jobs that were undone."""
    shop = old_store(trial, count)
    floor = Floor(trial, shop)
    act = floor.send(do="receive", material="STEEL", batch=BATCH, w=1000, h=1, count=20)["act"]
    first = floor.send(do="order", order=ORDER, lines=[line(1, 30, 1, 1000, "STEEL")])["first"]
    for unit in range(10):
        job = floor.cut(f"{act}/{unit}", f"x30 p{first} x30 p{first} r")
        again = floor.cut(f"{job}/4", f"x30 p{first} r")
    floor.send(do="undo", job=floor.cut(f"{act}/10", f"x30 p{first} r"))
    floor.send(do="note", order=ORDER, due=20261203, text="edges ground")
    return shop, floor, act, first, again


@case(
    "questions of the floor in an old shop",
    "Behind 100000 of history the pieces of an order, of a batch and of a unit, also behind a name, the steps of a job and a "
    "ticket, and the lists that report days and who began a job take at most three times the processor time "
    "that they take behind 1000, also where the shop is opened again.",
)
def questions(trial):
    output, again = [], []
    for count in HISTORIES:
        shop, _, act, _, job = made(trial, count)
        asked = {
            "pieces of an order": compact({"after": "", "ask": "pieces", "order": ORDER}),
            "pieces of an order behind a name": compact({"after": f"{job}/0", "ask": "pieces", "order": ORDER}),
            "pieces of a batch": compact({"after": "", "ask": "pieces", "batch": BATCH}),
            "pieces of a unit": compact({"after": "", "ask": "pieces", "unit": f"{act}/3"}),
            "pieces of another unit": compact({"after": "", "ask": "pieces", "unit": f"{act}/19"}),
            "steps": compact({"ask": "steps", "job": job}),
            "ticket": f"/ticket/{job}",
            "jobs": '{"after":0,"ask":"jobs"}',
            "lines": compact({"ask": "lines", "order": ORDER}),
        }
        trial.equal(len(json.loads(ask(trial, shop, asked["pieces of an order"]))["pieces"]), 30)
        trial.equal(len(json.loads(ask(trial, shop, asked["pieces of a unit"]))["pieces"]), 3)
        output.append(asked_costs(trial, shop, asked))
        shop.kill()
        shop = trial.shop(shop.store)
        again.append(asked_costs(trial, shop, asked))
        shop.kill()
    at_most_thrice(trial, *output, HISTORIES)
    at_most_thrice(trial, *again, HISTORIES)


@case(
    "commands of the floor in an old shop",
    "Behind 100000 of history a note, an extend, a begin, a job that is done and undone, and one that is broken off with a rest "
    "and undone take at most three times the processor time that they take behind 1000.",
)
def commands(trial):
    output = []
    for count in HISTORIES:
        shop, floor, act, first, _ = made(trial, count)
        waiting = floor.send(do="reserve", part=f"{act}/18", tree=f"x30 p{first} r")["job"]
        numbers = iter(range(2, 4294967295))

        def undone(end, floor=floor, unit=f"{act}/19", tree=f"x30 p{first} x30 p{first} r"):
            job = floor.send(do="reserve", part=unit, tree=tree)["job"]
            floor.send(job=job, **end)
            floor.send(do="undo", job=job)

        def extended(floor=floor, numbers=numbers):
            # (an order has 200 lines at most)
            number = next(numbers)
            order = f"MORE-{(number - 2) // 190}"
            if (number - 2) % 190 == 0:
                floor.send(do="order", order=order, lines=[line(1, 30, 1, 1, "STEEL")])
            floor.send(do="extend", order=order, lines=[line(number, 30, 1, 1, "STEEL")])

        deeds = {
            "note": lambda floor=floor: floor.send(do="note", order=ORDER, due=20261203, text="x"),
            "extend": extended,
            "begin": lambda floor=floor, waiting=waiting: floor.send(do="begin", job=waiting),
            "done and undone": lambda undone=undone: undone({"do": "done"}),
            "broken and undone": lambda undone=undone: undone({"do": "break", "cuts": 1, "lost": True, "rest": 900}),
        }
        output.append(measured(shop, deeds))
        shop.kill()
    at_most_thrice(trial, *output, HISTORIES)
