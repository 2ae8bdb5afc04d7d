"""Jobs that are done and undone again and again."""

import json

from kit import owners, tables
from kit.case import case
from kit.days import Replay
from kit.floor import GLASS, line, message, numbered, over_each, received, refused, answers
from kit.lines import LONGEST
from kit.owners import Owners
from kit.paper import Paper
from kit.questions import compact

ORDERED = {"do": "order", "order": "A-1", "lines": [line(1, 4, 3, 1), line(2, 4, 4, 1), line(3, 5, 3, 1)]}
TREE = "x4 y3 p1 p2 y3 p3 r"
WHOLE = {"kerf": 0, "material": "GLASS", "ok": "totals", "pieces": 0, "rack": 0, "received": 80, "returned": 0, "scrap": 0, "stock": 80}
CUT = {**WHOLE, "kerf": 17, "pieces": 43, "rack": 20, "stock": 0}


def made(count):
    return {"demand": 3, "line": 3, "made": count, "material": "GLASS", "ok": "demand", "order": "A-1", "reserved": 0, "wanted": 1}


@case(
    "undone and done again ten times",
    "A sheet is reserved, cut and undone ten times, each time under the next number: the totals and the demands go back to what "
    "they were, the parts of each "
    "job stay undone under their names, and the eleventh job cuts it. Each kept reply stays.",
)
def ten_times(trial):
    exchanges = list(zip(numbered([GLASS, received(1), ORDERED]), [None] * 3))
    lines, number = [it for it, _ in exchanges], 4
    replies = ['{"material":"GLASS","ok":"material"}', '{"act":1,"count":1,"ok":"receive"}', '{"count":3,"first":1,"ok":"order","order":"A-1"}']
    for job in range(2, 12):
        lines += [message(number, do="reserve", part="1/0", tree=TREE), message(number + 1, do="done", job=job), message(number + 2, do="undo", job=job)]
        replies.append(f'{{"cuts":3,"job":{job},"ok":"reserve"}}')
        replies.append(f'{{"job":{job},"kerf":17,"ok":"done","pieces":43,"rack":20,"scrap":0}}')
        replies.append(f'{{"job":{job},"ok":"undo","part":"1/0"}}')
        number += 3
    lines += [message(number, do="reserve", part="1/0", tree=TREE), message(number + 1, do="done", job=12)]
    replies += ['{"cuts":3,"job":12,"ok":"reserve"}', '{"job":12,"kerf":17,"ok":"done","pieces":43,"rack":20,"scrap":0}']

    shop = Replay(trial, {})
    for at, (it, reply) in enumerate(zip(lines, replies)):
        answers(trial, shop, it, reply)
        word = json.loads(it)["do"]
        if word in ("done", "undo"):
            answers(trial, shop, {"ask": "totals", "material": "GLASS"}, CUT if word == "done" else WHOLE)
            answers(trial, shop, {"ask": "demand", "demand": 3}, made(int(word == "done")))
        if word == "undo":
            job = json.loads(it)["job"]
            answers(trial, shop, message(99, do="done", job=job), refused(71, "JobOver"))
            answers(trial, shop, message(99, do="undo", job=job), refused(73, "NotOver"))
            answers(trial, shop, lines[at - 1], replies[at - 1])
    trial.equal(shop.end(), (0, b""))

    def check(shop):
        answers(trial, shop, {"ask": "totals", "material": "GLASS"}, CUT)
        for job in range(2, 13):
            found = json.loads(shop.reply(f'{{"ask":"steps","job":{job}}}'))
            states = ["kerf", "kerf", "piece", "piece", "kerf", "piece", "standing"] if job == 12 else ["undone"] * 7
            trial.equal((found["state"], [it["state"] for it in found["steps"]]), ("done" if job == 12 else "undone", states), job)
            trial.equal([it["part"] for it in found["steps"]], [f"{job}/{node}" for node in range(7)])
        found = json.loads(shop.reply('{"after":"","ask":"pieces","unit":"1/0"}'))["pieces"]
        trial.equal([it["part"] for it in found], ["12/2", "12/3", "12/5"])

    path = over_each(trial, list(zip(lines, replies)), check)
    owned = Owners()
    for it, reply in zip(lines, replies):
        owned.accept(it, reply)
    owners.check(trial, tables.rows(path), owned)


@case(
    "undo from the last job to the first",
    "A sheet is cut, its remnant, and the remnants' remnants, ten jobs deep; each but the last is refused 74, and they are "
    "undone one behind the other, back to the "
    "whole sheet. Behind each undo each cell has its owner of before.",
)
def all_the_way(trial):
    depth, w = 10, 40
    commands = [{**GLASS, "min_long": 2, "min_short": 1}, received(1, w, 3), {"do": "order", "order": "A-1", "lines": [line(1, 2, 3, depth)]}]
    part, job = "1/0", 2
    for _ in range(depth):
        commands += [{"do": "reserve", "part": part, "tree": "x2 p1 r"}, {"do": "done", "job": job}]
        part, job = f"{job}/2", job + 1
    first, last = 2, job - 1
    paper, shop, owned, number, before = Paper(), trial.shop(), Owners(), 1, []
    for it in commands:
        sent = message(number, **it)
        answers(trial, shop, sent, paper.reply(sent))
        owned.accept(sent, paper.reply(sent))
        number += 1
        if it["do"] in ("receive", "done"):
            before.append((dict(owned.cells), [shop.reply(f'{{"ask":"{ask}","material":"GLASS"}}') for ask in ("totals", "rack")]))
    # (the part that the first of them cut, and then those that each of them left, but the last)
    parts = ["1/0", *[f"{it}/2" for it in range(first, last)]]
    for job in range(last, first - 1, -1):
        for it in range(first, job):
            answers(trial, shop, message(number, do="undo", job=it), refused(74, "PartsMoved"))
        sent, reply = message(number, do="undo", job=job), f'{{"job":{job},"ok":"undo","part":"{parts[job - first]}"}}'
        answers(trial, shop, sent, reply)
        owned.accept(sent, reply)
        number += 1
        cells, wanted = before[job - first]
        trial.equal(owned.cells == cells, True, f"the owners behind the undo of {job}")
        trial.equal([shop.reply(f'{{"ask":"{ask}","material":"GLASS"}}') for ask in ("totals", "rack")], wanted, job)
    shop.kill()
    owners.check(trial, tables.rows(shop.store), owned)


@case(
    "undo of a job of 511 parts",
    "A plan of 255 cuts leaves 511 parts, 255 kerf strips and 256 pieces: all are undone at once, over a file and in memory, "
    "and the bar is cut anew; of one that is broken off in its last cut all "
    "that it left is, the rest of the lost cut among them.",
)
def longest(trial):
    count, length = 256, 511
    lines = [{**GLASS, "kind": "bar", "material": "B", "min_long": 1, "min_short": 1}, received(1, length, 1, "B")]
    lines += [{"do": "order", "order": "A-1", "lines": [line(1, 1, 1, count, "B")]}, {"do": "reserve", "part": "1/0", "tree": LONGEST}]
    lines += [{"do": "done", "job": 2}, {"do": "undo", "job": 2}, {"do": "reserve", "part": "1/0", "tree": LONGEST}]
    # (the last cut divides the last 3 of the bar)
    lines += [{"do": "break", "job": 3, "cuts": 254, "lost": True, "rest": 2}, {"do": "undo", "job": 3}]
    lines += [{"do": "reserve", "part": "1/0", "tree": LONGEST}, {"do": "done", "job": 4}]
    replies = [{"material": "B", "ok": "material"}, {"act": 1, "count": 1, "ok": "receive"}, {"count": 1, "first": 1, "ok": "order", "order": "A-1"}]
    ended = {"kerf": 255, "ok": "done", "pieces": 256, "rack": 0, "scrap": 0}
    for job in (2, 3, 4):
        replies.append({"cuts": 255, "job": job, "ok": "reserve"})
        replies.append({"job": job, **ended} if job != 3 else {"job": 3, "kerf": 254, "ok": "break", "pieces": 254, "rack": 2, "scrap": 1})
        replies += [{"job": job, "ok": "undo", "part": "1/0"}] if job != 4 else []
    sent = numbered(lines)

    def check(shop):
        totals = {"kerf": 255, "material": "B", "ok": "totals", "pieces": 256, "rack": 0, "received": length, "returned": 0, "scrap": 0, "stock": 0}
        answers(trial, shop, {"ask": "totals", "material": "B"}, totals)
        for job, left, state in ((2, 511, "undone"), (3, 510, "undone"), (4, 511, "")):
            steps = json.loads(shop.reply(f'{{"ask":"steps","job":{job}}}'))["steps"]
            states = [it["state"] for it in steps if it["state"]]
            trial.equal((len(steps), len(states)), (511, left), job)
            trial.equal(set(states), {state} if state else {"kerf", "piece"}, job)

    over_each(trial, [(it, compact(reply)) for it, reply in zip(sent, replies)], check)
