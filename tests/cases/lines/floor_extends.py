"""How many lines an order may have, and demands a shop, when orders are extended."""

import json

from kit.case import case
from kit.days import Replay
from kit.floor import line, message, numbered, refused, answers
from kit.lines import added, material
from kit.stores import filled, numbers

CODE = "GLASS"


def lines(first, last):
    return [line(it, 2, 2, 1) for it in range(first, last + 1)]


def extended(count, first, order="A-1"):
    return {"count": count, "first": first, "ok": "extend", "order": order}


@case(
    "an order of 200 lines",
    "An order is extended up to 200 lines in all, at once or one by one; one more is refused 41, before any of its lines is "
    "judged. Its lines are reported as one list.",
)
def most_lines(trial):
    shop = Replay(trial, {})
    answers(trial, shop, material(CODE, 1), added(CODE))
    for number, (order, has) in enumerate((("A-1", 1), ("A-2", 199), ("A-3", 200)), 2):
        first = {2: 1, 3: 2, 4: 201}[number]
        reply = {"count": has, "first": first, "ok": "order", "order": order}
        answers(trial, shop, message(number, do="order", order=order, lines=lines(1, has)), reply)
    for order, more in (("A-1", (2, 201)), ("A-2", (200, 201)), ("A-3", (201, 201))):
        # (also where a line's material isn't there, or its number isn't above the last one)
        for wrong in (lines(*more), [{**it, "material": "IRON"} for it in lines(*more)], lines(1, 1 + more[1] - more[0])):
            answers(trial, shop, message(5, do="extend", order=order, lines=wrong), refused(41, "BadLine"))
    answers(trial, shop, message(5, do="extend", order="A-1", lines=lines(2, 200)), extended(199, 401))
    answers(trial, shop, message(6, do="extend", order="A-2", lines=lines(200, 200)), extended(1, 600, "A-2"))
    for order in ("A-1", "A-2", "A-3"):
        answers(trial, shop, message(7, do="extend", order=order, lines=lines(201, 201)), refused(41, "BadLine"))
        found = json.loads(shop.reply(f'{{"ask":"lines","order":"{order}"}}'))["lines"]
        trial.equal([it["line"] for it in found], list(range(1, 201)), order)
    demands = [it["demand"] for it in json.loads(shop.reply('{"ask":"lines","order":"A-2"}'))["lines"]]
    trial.equal(demands, [*range(2, 201), 600])
    answers(trial, shop, {"after": 599, "ask": "demands"}, json.dumps({"demands": [row(600, "A-2", 200)], "more": False, "ok": "demands"}, separators=(",", ":")))
    trial.equal(shop.end(), (0, b""))


def row(demand, order, number):
    output = {"demand": demand, "due": 0, "h": 2, "line": number, "made": 0, "material": CODE, "order": order, "reserved": 0}
    return {**output, "turn": False, "w": 2, "wanted": 1, "worth": 1}


@case(
    "an order that grows line by line",
    "An order that is extended by a line a hundred times, between orders of others, has all its lines in their order, each with "
    "the demand that was the next one.",
)
def line_by_line(trial):
    commands = [{"do": "order", "order": "A-1", "lines": lines(1, 1)}]
    for number in range(2, 102):
        commands += [{"do": "order", "order": f"B-{number}", "lines": lines(1, 1)}, {"do": "extend", "order": "A-1", "lines": lines(number, number)}]
    shop = Replay(trial, {})
    answers(trial, shop, material(CODE, 1), added(CODE))
    for at, it in enumerate(numbered(commands, 2), 1):
        reply = json.loads(shop.reply(it))
        trial.equal((reply.get("ok"), reply.get("first"), reply.get("count")), (json.loads(it)["do"], at, 1), it)
    found = json.loads(shop.reply('{"ask":"lines","order":"A-1"}'))["lines"]
    trial.equal([(it["line"], it["demand"]) for it in found], [(1, 1)] + [(it, 2 * it - 1) for it in range(2, 102)])
    (first,) = [it for it in json.loads(shop.reply('{"after":"","ask":"orders"}'))["orders"] if it["order"] == "A-1"]
    trial.equal((first["lines"], first["wanted"]), (101, 101))
    trial.equal(shop.end(), (0, b""))


@case(
    "the last demands of a shop",
    "Where only one number of a demand is left an order is extended by one line, and by two it is refused 33, behind 20 and 41; "
    "then none is left.",
)
def last_demands(trial):
    order = message(2, do="order", order="A-1", lines=lines(1, 1))
    exchanges = [(material(CODE, 1), added(CODE)), (order, '{"count":1,"first":1,"ok":"order","order":"A-1"}')]
    path = filled(trial, exchanges=exchanges)
    numbers(path, "demand", 2147483646)
    shop = trial.shop()
    answers(trial, shop, message(3, do="extend", order="A-1", lines=lines(2, 3)), refused(33, "NumbersSpent"))
    answers(trial, shop, message(3, do="extend", order="A-1", lines=[*lines(2, 2), line(3, 2, 2, 1, "IRON")]), refused(20, "NoMaterial"))
    answers(trial, shop, message(3, do="extend", order="A-1", lines=[*lines(2, 2), *lines(2, 2)]), refused(41, "BadLine"))
    answers(trial, shop, message(3, do="extend", order="A-9", lines=lines(2, 3)), refused(43, "NoOrder"))
    answers(trial, shop, message(3, do="extend", order="A-1", lines=lines(2, 2)), extended(1, 2147483647))
    answers(trial, shop, message(4, do="extend", order="A-1", lines=lines(3, 3)), refused(33, "NumbersSpent"))
    answers(trial, shop, message(4, do="extend", order="A-1", lines=[]), refused(41, "BadLine"))
    answers(trial, shop, message(4, do="order", order="A-2", lines=lines(1, 1)), refused(33, "NumbersSpent"))
