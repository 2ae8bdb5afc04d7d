"""Pages of pieces, when they were made, and the longest list of steps."""

import json

from kit.case import case
from kit.days import Replay
from kit.earlier import made
from kit.faults import Faults
from kit.floor import GLASS, line, message, numbered, over_each, received, refused, answers
from kit.lines import LONGEST
from kit.questions import compact

CODE = "GLASS"
# A sheet with no kerf is cut into strips of these names: a plan of so many pieces of a demand.
THIN = {**GLASS, "kerf": 0, "min_long": 1, "min_short": 1}


def strips(count, demand):
    return " ".join(f"x1 p{demand}" for _ in range(count)) + " r"


def piece(part, demand, order, number, root, batch="B-1", w=1, h=2, at=0, material=CODE):
    output = {"at": at, "batch": batch, "demand": demand, "h": h, "line": number, "material": material, "order": order}
    return {**output, "part": part, "root": root, "w": w}


def asked(trial, shop, wanted, after="", more=False, **of):
    answers(trial, shop, {"after": after, "ask": "pieces", **of}, {"more": more, "ok": "pieces", "pieces": wanted})


@case(
    "pages of 100 pieces",
    "Of 100 pieces of an order, of a batch and of a unit all are reported, and of 101 the first 100 and that more follow; behind "
    "any name those with greater "
    "names, of the job's and of the next, by number and not by letters.",
)
def pages(trial):
    lines = [THIN, received(1, 250, 2), received(1, 250, 2, batch="B-2"), {"do": "order", "order": "A-1", "lines": [line(1, 1, 2, 1000)]}]
    lines += [{"do": "order", "order": "A-2", "lines": [line(1, 1, 2, 1000)]}]
    # Of unit 1/0 job 3 cuts 60 pieces of demand 1, job 4 of its remnant 40 of it and one of demand 2; job 5 of unit 2/0 one more of demand 1.
    lines += [{"do": "reserve", "part": "1/0", "tree": strips(60, 1)}, {"do": "done", "job": 3}]
    lines += [{"do": "reserve", "part": "3/120", "tree": strips(40, 1).removesuffix("r") + "x1 p2 r"}, {"do": "done", "job": 4}]
    lines += [{"do": "reserve", "part": "2/0", "tree": strips(1, 1)}, {"do": "done", "job": 5}]
    sent = numbered(lines)
    first = [piece(f"3/{1 + 2 * it}", 1, "A-1", 1, "1/0") for it in range(60)]
    second = [piece(f"4/{1 + 2 * it}", 1, "A-1", 1, "1/0") for it in range(40)]
    other, last = piece("4/81", 2, "A-2", 1, "1/0"), piece("5/1", 1, "A-1", 1, "2/0", "B-2")
    of_order, of_unit = [*first, *second, last], [*first, *second, other]

    def check(shop):
        for of, wanted in (({"order": "A-1"}, of_order), ({"batch": "B-1"}, of_unit), ({"unit": "1/0"}, of_unit)):
            asked(trial, shop, wanted[:100], more=True, **of)
            # (a kerf and a rest are no pieces, and a name needn't be there)
            for after, has in (("1/0", 0), ("3/0", 0), ("3/1", 1), ("3/2", 1), ("3/9", 5), ("3/10", 5), ("3/119", 60), ("4/0", 60), ("4/79", 100)):
                asked(trial, shop, wanted[has : has + 100], after, len(wanted) - has > 100, **of)
            asked(trial, shop, wanted[100:], wanted[99]["part"], **of)
            asked(trial, shop, [], wanted[100]["part"], **of)
        asked(trial, shop, [other], order="A-2")
        asked(trial, shop, [last], batch="B-2")
        asked(trial, shop, [last], unit="2/0")

    shop = Replay(trial, {})
    replies = [shop.reply(it).decode() for it in sent]
    trial.equal([it for it in replies if '"ok"' not in it], [])
    trial.equal(shop.end(), (0, b""))
    over_each(trial, list(zip(sent, replies)), check)
    # (without the last job there are 100 of the order)
    shop = Replay(trial, {})
    for it, reply in zip(sent[:-2], replies):
        answers(trial, shop, it, reply)
    asked(trial, shop, of_order[:100], order="A-1")
    trial.equal(shop.end(), (0, b""))


@case(
    "a batch of two materials",
    "A batch's code may stand on units of several receipts and materials: the pieces of all of them are reported, by rising act and "
    "then node, and no other batch's.",
)
def of_several(trial):
    steel = {"do": "material", "kerf": 0, "kind": "bar", "material": "STEEL", "min_long": 1, "min_short": 1}
    bars = line(2, 4, 1, 9, "STEEL")
    lines = [THIN, steel, received(2, 10, 2), received(1, 20, 1, "STEEL"), received(1, 20, 1, "STEEL", "B-2")]
    lines += [{"do": "order", "order": "A-1", "lines": [line(1, 1, 2, 9), bars]}]
    lines += [{"do": "reserve", "part": "2/0", "tree": "x4 p2 x4 p2 r"}, {"do": "reserve", "part": "1/1", "tree": "x1 p1 r"}]
    lines += [{"do": "reserve", "part": "3/0", "tree": "x4 p2 r"}, {"do": "reserve", "part": "1/0", "tree": "x1 p1 r"}]
    lines += [{"do": "done", "job": it} for it in (7, 5, 6, 4)]
    shop = Replay(trial, {})
    for it in numbered(lines):
        trial.holds(b'"ok"' in shop.reply(it), it)
    bar = {"w": 4, "h": 1, "material": "STEEL"}
    pieces = [piece("4/1", 2, "A-1", 2, "2/0", **bar), piece("4/3", 2, "A-1", 2, "2/0", **bar), piece("5/1", 1, "A-1", 1, "1/1"), piece("7/1", 1, "A-1", 1, "1/0")]
    other = piece("6/1", 2, "A-1", 2, "3/0", "B-2", **bar)
    asked(trial, shop, pieces, batch="B-1")
    asked(trial, shop, [other], batch="B-2")
    asked(trial, shop, [*pieces[:3], other, pieces[3]], order="A-1")
    asked(trial, shop, pieces[2:3], unit="1/1")
    trial.equal(shop.end(), (0, b""))


@case(
    "when a piece was made",
    "A piece has the second in which the `done` or `break` was accepted that made it, whatever came before or behind; one of a "
    "store of version 1 or 2, whose "
    "message has no entry, has 0.",
)
def times(trial):
    clock = Faults(trial, date=1000)
    shop = trial.shop(environment=clock.environment)
    lines = [THIN, received(2, 10, 2), {"do": "order", "order": "A-1", "lines": [line(1, 1, 2, 99)]}]
    lines += [{"do": "reserve", "part": "1/0", "tree": "x1 p1 x1 p1 r"}, {"do": "reserve", "part": "1/1", "tree": "x1 p1 x1 p1 r"}]
    lines += [{"do": "begin", "job": 2}, {"do": "break", "job": 3, "cuts": 1, "lost": True, "rest": 1}, {"do": "done", "job": 2}]
    lines += [{"do": "reserve", "part": "2/4", "tree": "x1 p1 r"}, {"do": "note", "order": "A-1", "due": 0, "text": ""}, {"do": "done", "job": 4}]
    for at, it in enumerate(numbered(lines)):
        clock.set_date(1000 + 10 * at)
        trial.holds(b'"ok"' in shop.reply(it), it)
    wanted = [piece(f"2/{it}", 1, "A-1", 1, "1/0", at=1070) for it in (1, 3)]
    wanted += [piece("3/1", 1, "A-1", 1, "1/1", at=1060), piece("4/1", 1, "A-1", 1, "1/0", at=1100)]
    for _ in range(2):
        asked(trial, shop, wanted, order="A-1")
        asked(trial, shop, wanted, batch="B-1")
        asked(trial, shop, [*wanted[:2], wanted[3]], unit="1/0")
        shop.kill()
        clock.set_date(9000)
        shop = trial.shop(environment=clock.environment)
    shop.kill()
    for version in (1, 2):
        made(trial, f"{version}.db", version)
        shop = trial.shop(f"{version}.db", environment=Faults(trial, date=50).environment)
        glass = [piece("2/2", 1, "A-1", 1, "1/0", w=4, h=3), piece("2/3", 2, "A-1", 2, "1/0", w=4, h=4), piece("3/1", 3, "A-1", 3, "1/0", w=5, h=3)]
        for of in ({"order": "A-1"}, {"batch": "B-1"}, {"unit": "1/0"}):
            asked(trial, shop, glass, **of)
        # (what is cut behind has a time)
        answers(trial, shop, message(8, do="extend", order="A-1", lines=[line(4, 5, 4, 1)]), {"count": 1, "first": 4, "ok": "extend", "order": "A-1"})
        answers(trial, shop, message(9, do="reserve", part="3/2", tree="p4"), {"cuts": 0, "job": 4, "ok": "reserve"})
        answers(trial, shop, message(10, do="done", job=4), {"job": 4, "kerf": 0, "ok": "done", "pieces": 20, "rack": 0, "scrap": 0})
        asked(trial, shop, [*glass, piece("4/0", 4, "A-1", 4, "1/0", w=5, h=4, at=50)], order="A-1")
        shop.kill()


@case(
    "steps of 511 nodes",
    "A plan of 255 cuts has 511 nodes: all are reported at once, in order, each with its part where it has one; with a saw of no "
    "width no kerf strip is there.",
)
def longest(trial):
    for kerf in (0, 1):
        lines = [{**THIN, "kerf": kerf}, received(1, 256 + 255 * kerf, 1), {"do": "order", "order": "A-1", "lines": [line(1, 1, 1, 256)]}]
        lines += [{"do": "reserve", "part": "1/0", "tree": LONGEST}]
        shop = Replay(trial, {})
        for it in numbered(lines):
            trial.holds(b'"ok"' in shop.reply(it), it)
        for state in ("waiting", "done", "undone"):
            if state != "waiting":
                trial.holds(b'"ok"' in shop.reply(message(5 if state == "done" else 6, do="done" if state == "done" else "undo", job=2)), state)
            wanted = []
            for node in range(511):
                at, is_cut = node // 2 * (1 + kerf), node % 2 == 0 and node < 510
                it = {"demand": 0, "h": 1, "line": 0, "node": node, "order": "", "part": "", "place": 0, "state": "", "turned": False, "y": 0}
                if is_cut:
                    it |= {"place": 1, "w": 256 + 255 * kerf - at, "what": "cut x", "x": at}
                else:
                    it |= {"demand": 1, "line": 1, "order": "A-1", "w": 1, "what": "piece", "x": at}
                if state != "waiting" and (kerf or not is_cut):
                    it |= {"part": f"2/{node}", "state": "undone" if state == "undone" else "kerf" if is_cut else "piece"}
                wanted.append(it)
            found = json.loads(shop.reply('{"ask":"steps","job":2}'))
            trial.equal((found["kerf"], found["state"], found["part"], len(found["steps"])), (kerf, state, "1/0", 511), state)
            trial.equal([(a, b) for a, b in zip(found["steps"], wanted) if a != b][:2], [], f"kerf {kerf}, {state}")
        trial.equal(shop.end(), (0, b""))


@case(
    "numbers of questions for pieces and steps",
    "A job goes up to 4294967295 in a question for steps and to 2147483647 in a route; names go up to 2147483647/4294967295 in both.",
)
def far_numbers(trial):
    lines = [(compact({"ask": "steps", "job": it}), refused(70, "NoJob")) for it in (0, 1, 2147483647, 2147483648, 4294967295)]
    lines += [(compact({"ask": "steps", "job": 4294967296}), refused(10, "BadMessage"))]
    none = '{"more":false,"ok":"pieces","pieces":[]}'
    lines += [(compact({"after": "2147483647/4294967295", "ask": "pieces", "batch": "B-1"}), none)]
    lines += [(compact({"after": "", "ask": "pieces", "batch": "ABCDEFGHIJKLMNOP"}), none)]
    lines += [(compact({"after": "", "ask": "pieces", "unit": "2147483647/4294967295"}), refused(50, "NoPart"))]
    ran = trial.replay([it for it, _ in lines])
    trial.equal(ran.out.decode().split("\n")[:-1], [reply for _, reply in lines])
