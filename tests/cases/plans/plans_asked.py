"""The question `plans`: by which parts and plans all that is open of a material is cut. Every answer is checked by itself
(`kit/questions.py`); of how little material the search takes only what anybody plans at sight is wanted here, and more in
`best_plans.py`."""

import random

from kit.case import Failed, case
from kit.plans import MAX_UNITS
from kit.questions import Content, Demand, Part, checked_answer, compact, content_of
from kit.yards import Yard, answered, question, reservations

MAX_BAR_LEN = 150000


def answers(trial, shop, asked, cost, bound, proved, missing=(), short=False):
    """Wants this cost and bound, whether they are proved equal, and of which demands how many pieces are missing."""
    answer = answered(trial, shop, asked)
    got = (answer["cost"], answer["bound"], answer["proved"], answer["short"])
    trial.equal(got, (cost, bound, proved, short), compact(asked))
    trial.equal([(it["demand"], it["pieces"]) for it in answer["missing"]], list(missing), compact(asked))
    return answer


def entry(tree, w, h=1, parts=(), buy=0):
    return {"buy": buy, "h": h, "parts": list(parts), "tree": tree, "w": w}


@case(
    "plans asked at sight",
    "Three bars of 30 on one of 100 with a kerf of 3 cost it alone; ten take four, bought or in stock; pieces of 4 by 3 on the "
    "README's sheet likewise. A cost is cells times 100, and these are proved.",
)
def at_sight(trial):
    yard = Yard()
    yard.material("STEEL", 3)
    yard.receive("STEEL", 100, 1, 6)
    three, ten = yard.bars("STEEL", (30, 3)), yard.bars("STEEL", (30, 10))
    yard.material("GLASS", 1, "sheet")
    yard.receive("GLASS", 10, 8, 5)
    four, more = yard.order("GLASS", (4, 3, 4, False)), yard.order("GLASS", (3, 4, 10, True))
    shop, bars, sheets = yard.replay(trial), [{"h": 1, "w": 100}], [{"h": 8, "w": 10}]
    answers(trial, shop, question("STEEL", demands=[three]), 10000, 10000, True)
    answers(trial, shop, question("STEEL", demands=[ten]), 40000, 40000, True)
    answers(trial, shop, question("STEEL", demands=[ten], parts=[], buy=bars), 40000, 40000, True)
    answers(trial, shop, question("GLASS", demands=[four]), 8000, 8000, True)
    answers(trial, shop, question("GLASS", demands=[more]), 24000, 24000, True)
    answers(trial, shop, question("GLASS", demands=[more], parts=[], buy=sheets), 24000, 24000, True)


@case(
    "plans of units and remnants",
    "A remnant costs 90 of 100, or what the question says, and goes first where it serves. Of a unit and a remnant of equal "
    "sides the same plan stands twice, by the place of the parts in the stock's list, which the question may turn round.",
)
def remnants(trial):
    yard = Yard()
    yard.material("STEEL", 3)
    rest = yard.remnant("STEEL", 3, 100)
    unit = yard.receive("STEEL", 100)
    short = yard.remnant("STEEL", 3, 60)
    one, two = yard.bars("STEEL", (60, 1)), yard.bars("STEEL", (100, 2))
    shop = yard.replay(trial)
    for keys, cost in (({}, 5400), ({"remnant": 100}, 6000), ({"remnant": 1}, 60)):
        answer = answers(trial, shop, question("STEEL", demands=[one], **keys), cost, cost, True)
        trial.equal(answer["plans"], [entry(f"p{one}", 60, parts=[short])])
    entries = [entry(f"p{two}", 100, parts=[it]) for it in (rest, unit)]
    trial.equal(answers(trial, shop, question("STEEL", demands=[two]), 19000, 19000, True)["plans"], entries)
    answer = answers(trial, shop, question("STEEL", demands=[two], parts=[unit, rest]), 19000, 19000, True)
    trial.equal(answer["plans"], entries[::-1])


@case(
    "bought units of plans",
    "Bought units stand behind parts, by the place of their size in the question, then by the text of the tree, p10 before p2; "
    "how many are cut so is reported, and parts that serve as well are reported with them, rising.",
)
def bought(trial):
    yard = Yard()
    yard.material("STEEL")
    names = [yard.receive("STEEL", 100) for _ in range(11)]
    yard.bars("STEEL", *[(100, 2)] * 11, (60, 3))
    shop, sizes = yard.replay(trial), [{"h": 1, "w": 100}, {"h": 1, "w": 60}]
    trees = sorted(f"p{it}" for it in range(1, 12))
    for buy in (sizes, sizes[::-1]):
        answer = answers(trial, shop, question("STEEL", parts=[], buy=buy), 238000, 238000, True)
        wanted = {100: [entry(it, 100, buy=2) for it in trees], 60: [entry("p12", 60, buy=3)]}
        trial.equal(answer["plans"], [it for size in buy for it in wanted[size["w"]]])
    answer = answers(trial, shop, question("STEEL", demands=[1], parts=names[:1], buy=sizes), 20000, 20000, True)
    trial.equal(answer["plans"], [entry("p1", 100, parts=names[:1]), entry("p1", 100, buy=1)])
    answer = answers(trial, shop, question("STEEL", demands=[2], parts=["11/0", "9/0"]), 20000, 20000, True)
    trial.equal(answer["plans"], [entry("p2", 100, parts=["9/0", "11/0"])])


@case(
    "plans of too little stock",
    "Where two bars stand for three pieces one is missing, and the bound of three bars is over the stock, so that no whole "
    "cutting is there: `short`; not where something may be bought. What no unit holds is missing alone.",
)
def too_little(trial):
    yard = Yard()
    yard.material("STEEL")
    yard.receive("STEEL", 100, 1, 2)
    full, long = yard.bars("STEEL", (100, 3)), yard.bars("STEEL", (101, 2))
    shop = yard.replay(trial)
    answer = answers(trial, shop, question("STEEL", demands=[full]), 20000, 30000, False, [(full, 1)], True)
    trial.equal(answer["plans"], [entry(f"p{full}", 100, parts=["1/0", "1/1"])])
    answers(trial, shop, question("STEEL", demands=[full], buy=[{"h": 1, "w": 100}]), 30000, 30000, True)
    answer = answered(trial, shop, question("STEEL", demands=[long, full], buy=[{"h": 1, "w": 100}]))
    trial.equal((answer["missing"], answer["cost"], answer["short"]), ([{"demand": long, "pieces": 2}], 30000, False))
    answer = answered(trial, shop, question("STEEL", demands=[full], buy=[{"h": 1, "w": 99}]))
    trial.equal((answer["missing"], answer["cost"], answer["short"]), ([{"demand": full, "pieces": 1}], 20000, False))


@case(
    "plans of a million pieces",
    "Of a million bars 100000 are planned, the others are missing, and the bound is that of all. Over 10^18 a bound is reported as "
    "10^18.",
)
def million(trial):
    yard = Yard()
    yard.material("STEEL")
    yard.bars("STEEL", (100, 1000000))
    yard.material("GLASS", 0, "sheet")
    yard.order("GLASS", (200000, 60000, 1000000, False))
    shop, bar, sheet = yard.replay(trial), {"h": 1, "w": 100}, {"h": 60000, "w": 200000}
    left = 1000000 - MAX_UNITS
    answer = answers(trial, shop, question("STEEL", buy=[bar]), 10**9, 10**10, False, [(1, left)])
    trial.equal(answer["plans"], [entry("p1", 100, buy=MAX_UNITS)])
    cost = MAX_UNITS * 200000 * 60000 * 100
    answers(trial, shop, question("GLASS", buy=[sheet], step=60000), cost, 10**18, False, [(2, left)])


# Shops by chance.


def shop_by_chance(dice, kind):
    """A yard of a material with units, remnants and demands, of which each third one is amended."""
    yard, kerf = Yard(), dice.randint(0, 4)
    most_w, most_h = (120, 1) if kind == "bar" else (60, 45)

    def sides():
        return dice.randint(most_w // 3, most_w), max(1, dice.randint(most_h // 3, most_h))

    yard.material("M", kerf, kind)
    for _ in range(dice.randint(1, 4)):
        yard.receive("M", *sides(), dice.randint(1, 4))
    for _ in range(dice.randint(0, 3)):
        yard.remnant("M", kerf, *sides())
    lines = []
    for _ in range(dice.randint(1, 7)):
        w, h = dice.randint(3, most_w // 2), max(1, dice.randint(most_h // 8, most_h // 2))
        lines.append((w, h, dice.randint(1, 8), kind == "sheet" and dice.random() < 0.5))
    first = yard.order("M", *lines)
    for at in range(1, len(lines), 3):
        yard.amend(first + at, 9 - lines[at][2])
    return yard


def question_by_chance(dice, content):
    """A question with some of its keys."""
    keys, is_bar = {}, content.is_bar
    if dice.random() < 0.6:
        most = 120, 1 if is_bar else 45
        sizes = {(dice.randint(most[0] // 2, most[0]), dice.randint((most[1] + 1) // 2, most[1])) for _ in range(dice.randint(0, 4))}
        keys["buy"] = [{"h": h, "w": w} for w, h in sorted(sizes, key=lambda _: dice.random())]
    left = [number for number, it in content.demands.items() if it.left]
    if dice.random() < 0.4:
        keys["demands"] = dice.sample(left, dice.randint(1, len(left)))
    if dice.random() < 0.4:
        keys["parts"] = dice.sample(list(content.parts), dice.randint(1, len(content.parts)))
    if dice.random() < 0.4:
        keys["remnant"] = dice.randint(1, 100)
    if dice.random() < 0.3:
        keys["step"] = dice.randint(1, 3)
    if dice.random() < 0.3:
        keys["stages"] = dice.randint(2, 4)
    return question("M", **keys, calls=dice.choice([1, 2, 5, 20, 60]))


def by_chance(trial, kind, seed, count):
    """Asks shops by chance, has each plan that is reported for a part reserved, in an order by chance, and asks again."""
    dice, answers = random.Random(seed), 0
    for _ in range(count):
        yard = shop_by_chance(dice, kind)
        shop, number = yard.replay(trial), 1
        for _ in range(3):
            content = content_of(shop.reply, "M")
            if not content.parts or not any(it.left for it in content.demands.values()):
                break
            asked = question_by_chance(dice, content)
            text = shop.reply(compact(asked)).decode()
            if text == '{"name":"NothingFits","refused":90}':
                continue
            answer, answers = checked_answer(content, asked, text), answers + 1
            trial.equal(shop.reply(compact(asked)).decode(), text, f"again: {compact(asked)}")
            for line in reservations(answer, dice, number):
                trial.holds(b'"ok":"reserve"' in shop.reply(line), f"{compact(asked)}: {text}, then {line}")
                number += 1
        shop.end()
    trial.holds(answers > count, f"{answers} answers of {count} shops")


@case(
    "plans of bars by chance",
    "Questions by chance to shops by chance, of whose demands some were amended: each answer has everything that holds of one, "
    "the bound that its prices give, is the same when it is asked again, and each plan of a part is reserved, in an order by "
    "chance.",
)
def bars_by_chance(trial):
    by_chance(trial, "bar", 3, 40 if trial.whole else 12)


@case("plans of sheets by chance", "The same of sheets, of whose pieces some may turn, in steps of 1 to 3 and without one, in 2 to 4 stages and without a limit.")
def sheets_by_chance(trial):
    by_chance(trial, "sheet", 5, 40 if trial.whole else 12)


@case(
    "plans from a file, and in lines",
    "The answers of `replay` and, over HTTP, of `serve` and of one that is started again are the same bytes.",
)
def both(trial):
    for number, kind in enumerate(("bar", "sheet")):
        dice = random.Random(number)
        yard = shop_by_chance(dice, kind)
        for line in yard.lines[:1]:
            trial.holds('"material"' in line, line)
        asked = [compact(question("M", calls=it, buy=[{"h": 1 if kind == "bar" else 40, "w": 110}])) for it in (1, 30)]
        lines = yard.replay(trial)
        wanted = [lines.reply(it) for it in asked]
        shop = yard.serve(trial, f"{kind}.db")
        trial.equal([shop.reply(it) for it in asked], wanted)
        shop.kill()
        again = trial.shop(f"{kind}.db")
        trial.equal([again.reply(it) for it in reversed(asked)], wanted[::-1])
        again.kill()


# What a question without demands or parts asks.


@case(
    "plans of the first hundred demands",
    "Without `demands` the first 100 of which something is left are planned; those that are made or reserved are passed "
    "over, also where they are named.",
)
def first_demands(trial):
    yard = Yard()
    yard.material("STEEL")
    yard.bars("STEEL", *[(100, 1)] * 110)
    for demand in (5, 10):
        part = yard.receive("STEEL", 100)
        (yard.cut if demand == 5 else yard.reserve)(part, f"p{demand}")
    shop, buy = yard.replay(trial), [{"h": 1, "w": 100}]
    answer = answers(trial, shop, question("STEEL", buy=buy), 1000000, 1000000, True)
    wanted = [it for it in range(1, 103) if it not in (5, 10)]
    trial.equal(sorted(it["tree"] for it in answer["plans"]), sorted(f"p{it}" for it in wanted))
    answer = answers(trial, shop, question("STEEL", buy=buy, demands=[10, 110, 5, 1]), 20000, 20000, True)
    trial.equal([it["tree"] for it in answer["plans"]], ["p1", "p110"])
    trial.equal([it for it in (it["demand"] for it in answer["prices"]) if it not in (110, 1)], [])


@case(
    "plans from the first thousand parts",
    "Without `parts` the first 1000 standing parts of the material are the stock, reserved ones and those of another "
    "material left out.",
)
def first_parts(trial):
    yard = Yard()
    yard.material("STEEL")
    yard.material("IRON")
    yard.receive("IRON", 100)
    for _ in range(10):
        yard.receive("STEEL", 100, 1, 100)
    yard.receive("STEEL", 100, 1, 10)
    yard.bars("STEEL", (100, 1008))
    yard.reserve("2/7", "p1")
    shop = yard.replay(trial)
    answer = answers(trial, shop, question("STEEL"), 10000000, 10070000, False, [(1, 7)], True)
    names = [f"{act}/{node}" for act in range(2, 13) for node in range(100)]
    names.remove("2/7")
    trial.equal(answer["plans"], [entry("p1", 100, parts=names[:1000])])


@case(
    "plans and bars over 150000",
    "Without `parts` a bar over 150000 isn't in the stock; one of 150000 is. Where it is named, or its size may be bought, "
    "it is refused 91.",
)
def long_bars(trial):
    yard = Yard()
    yard.material("STEEL")
    yard.receive("STEEL", MAX_BAR_LEN + 1)
    yard.receive("STEEL", MAX_BAR_LEN)
    yard.bars("STEEL", (MAX_BAR_LEN, 2))
    shop = yard.replay(trial)
    cost = 100 * MAX_BAR_LEN
    answer = answers(trial, shop, question("STEEL"), cost, 2 * cost, False, [(1, 1)], True)
    trial.equal(answer["plans"], [entry("p1", MAX_BAR_LEN, parts=["2/0"])])
    answers(trial, shop, question("STEEL", parts=["2/0"], buy=[{"h": 1, "w": MAX_BAR_LEN}]), 2 * cost, 2 * cost, True)
    for keys in ({"parts": ["2/0", "1/0"]}, {"buy": [{"h": 1, "w": MAX_BAR_LEN + 1}]}, {"buy": [{"h": 1, "w": 200000}]}):
        reply = shop.reply(compact(question("STEEL", **keys)))
        trial.equal(reply, b'{"name":"TableTooLarge","refused":91}', compact(keys))


@case(
    "the step of plans",
    "Without a step 0 is reported, however large a side of the stock is, and with one that one; a bar reports 0 whatever it is given. "
    "A step of 0 is refused 92 of a sheet, and a side of over 500 steps 91.",
)
def step_told(trial):
    yard = Yard()
    yard.material("GLASS", 2, "sheet")
    yard.receive("GLASS", 500, 400)
    pieces = yard.order("GLASS", (160, 120, 3, True), (1, 300, 2, False))
    yard.material("STEEL", 2)
    yard.receive("STEEL", 500)
    bars = yard.bars("STEEL", (70, 3))
    shop = yard.replay(trial)
    for buy in ((400, 300), (498, 300), (499, 300), (300, 1000), (2002, 300), (200000, 60000)):
        for parts in ({}, {"parts": []}):
            answer = answered(trial, shop, question("GLASS", buy=[{"h": buy[1], "w": buy[0]}], calls=3, **parts))
            trial.equal((answer["step"], answer["missing"]), (0, []), f"{buy}, {parts}")
    for step in (2, 3):
        trial.equal(answered(trial, shop, question("GLASS", calls=3, step=step))["step"], step)
    for step, keys, reply in (
        (0, {}, b'{"name":"BadStep","refused":92}'),
        (4, {}, b'{"name":"BadStep","refused":92}'),
        (4, {"demands": [pieces]}, None),
        (1, {}, b'{"name":"TableTooLarge","refused":91}'),
        (1, {"parts": [], "buy": [{"h": 300, "w": 498}]}, None),
        (1, {"parts": [], "buy": [{"h": 300, "w": 499}]}, b'{"name":"TableTooLarge","refused":91}'),
        (1, {"parts": [], "buy": [{"h": 499, "w": 300}]}, b'{"name":"TableTooLarge","refused":91}'),
    ):
        asked = question("GLASS", calls=3, step=step, **keys)
        if reply:
            trial.equal(shop.reply(compact(asked)), reply, compact(asked))
        else:
            trial.equal(answered(trial, shop, asked)["step"], step)
    for keys in ({}, {"step": 0}, {"step": 4294967295}):
        trial.equal(answered(trial, shop, question("STEEL", demands=[bars], **keys))["step"], 0)


@case(
    "stages of plans",
    "Two stages cut one piece of each sheet or strips alone, three and four more; no plan has more stages than were asked "
    "for, and all is planned all the same. A bar's plan has one, and any limit from 2 to 255 may be given. 1 and 256 are "
    "refused 10, of a bar too.",
)
def stages(trial):
    yard = Yard()
    yard.material("GLASS", 1, "sheet")
    # a wheel of four pieces can't be cut across, so its pieces are shared out
    yard.order("GLASS", (60, 39, 4, True), (40, 20, 6, True), (35, 50, 3, False), (15, 10, 9, True))
    yard.material("STEEL", 2)
    yard.receive("STEEL", 500)
    yard.bars("STEEL", (70, 3))
    shop = yard.replay(trial)
    costs = []
    for most in (2, 3, 4, 255, None):
        limit = {} if most is None else {"stages": most}
        answer = answered(trial, shop, question("GLASS", buy=[{"h": 100, "w": 100}], calls=50, **limit))
        trial.equal(answer["missing"], [], f"stages {most}")
        costs.append(answer["cost"])
    trial.equal(costs[3], costs[4], "255 stages are no limit")
    bars = [answered(trial, shop, question("STEEL", **keys)) for keys in ({}, {"stages": 2}, {"stages": 255})]
    trial.holds(bars[0] == bars[1] == bars[2], f"{bars}")
    for material in ("GLASS", "STEEL"):
        for most in (0, 1, 256, 4294967295):
            line = compact(question(material, stages=most))
            trial.equal(shop.reply(line), b'{"name":"BadMessage","refused":10}', line)


@case(
    "the largest rest of plans",
    "A rest is reported where it is kept, at least as long and as wide as the material's limits, however it lies; a tenth less "
    "and it is scrap, and 0 is reported; so where no rest is left, and where nothing is planned.",
)
def rests(trial):
    # a piece of 60 by 100 on a sheet of 100 by 100, the kerf 1: what is left is 39 by 100
    for long, short, rest in ((100, 39, 3900), (39, 39, 3900), (101, 39, 0), (100, 40, 0)):
        yard = Yard()
        yard.material("GLASS", 1, "sheet", long, short)
        yard.receive("GLASS", 100, 100)
        whole = yard.order("GLASS", (60, 100, 1, False), (100, 100, 1, False))
        shop = yard.replay(trial)
        answer = answered(trial, shop, question("GLASS", demands=[whole]))
        trial.equal((answer["rest"], answer["missing"]), (rest, []), f"limits of {long} and {short}")
        answer = answered(trial, shop, question("GLASS", demands=[whole + 1]))
        trial.equal((answer["rest"], answer["missing"]), (0, []), "the whole sheet")
    # bars of 100, pieces of 30, the kerf 3: a rest of 1, of 34, of 67
    for left, long, rest in ((3, 1, 1), (3, 2, 0), (2, 34, 34), (2, 35, 0), (1, 67, 67), (1, 68, 0)):
        yard = Yard()
        yard.material("STEEL", 3, "bar", long, 1)
        yard.receive("STEEL", 100)
        yard.bars("STEEL", (30, left))
        answer = answered(trial, yard.replay(trial), question("STEEL"))
        trial.equal((answer["rest"], answer["missing"]), (rest, []), f"{left} pieces, from {long} on")


@case(
    "plans and what happened behind them",
    "An answer is that of the content when it was asked: a part that was reserved since is refused 51, and the next answer "
    "hasn't it.",
)
def behind(trial):
    yard = Yard()
    yard.material("STEEL")
    yard.receive("STEEL", 100, 1, 2)
    yard.bars("STEEL", (100, 1))
    shop = yard.replay(trial)
    first = answered(trial, shop, question("STEEL"))["plans"]
    part = first[0]["parts"][0]
    trial.equal(first, [entry("p1", 100, parts=[part])])
    trial.holds(b'"ok"' in shop.reply(compact({"do": "scrap", "number": 1, "part": part, "terminal": 2})), part)
    (line,) = reservations({"plans": first}, random.Random(1), 1)
    trial.equal(shop.reply(line), b'{"name":"NotStanding","refused":51}', line)
    second = answered(trial, shop, question("STEEL"))["plans"]
    trial.equal(second, [entry("p1", 100, parts=["1/1" if part == "1/0" else "1/0"])])


# The check itself.

CONTENT = Content(
    True,
    3,
    {4: Demand(30, 1, False, 6), 7: Demand(40, 1, False, 1), 9: Demand(30, 1, False, 0)},
    {"1/0": Part(100, 1, False), "1/1": Part(100, 1, False), "2/0": Part(100, 1, True), "10/0": Part(40, 1, True)},
    10,
    1,
)
QUESTION = question("STEEL", buy=[{"h": 1, "w": 50}])
# Prices of 3 and 4: a bar of 100 holds 9 at most, one of 50 or 40 holds 4. At the rate of a bar in stock, 10000 for 9, the
# 22 that are left cost (220000 - 9000 - 7600) / 9 or more, the remnants' excess taken off.
GOOD = (
    '{"bound":22600,"cost":27600,"missing":[],"ok":"plans","plans":['
    '{"buy":0,"h":1,"parts":["2/0"],"tree":"x30 p4 x30 p4 x30 p4 r","w":100},'
    '{"buy":0,"h":1,"parts":["10/0"],"tree":"p7","w":40},'
    '{"buy":1,"h":1,"parts":[],"tree":"x17 r p4","w":50},'
    '{"buy":2,"h":1,"parts":[],"tree":"x30 p4 r","w":50}],'
    '"prices":[{"demand":4,"worth":3},{"demand":7,"worth":4}],"proved":false,"rest":17,"short":false,"step":0}'
)
BEST = (
    '{"bound":22600,"cost":22600,"missing":[],"ok":"plans","plans":['
    '{"buy":0,"h":1,"parts":["1/1"],"tree":"x30 p4 x30 p4 x30 p4 r","w":100},'
    '{"buy":0,"h":1,"parts":["2/0"],"tree":"x30 p4 x30 p4 x30 p4 r","w":100},'
    '{"buy":0,"h":1,"parts":["10/0"],"tree":"p7","w":40}],'
    '"prices":[{"demand":4,"worth":3},{"demand":7,"worth":4}],"proved":true,"rest":0,"short":false,"step":0}'
)

# Changes of the two, each of which makes a wrong answer.
WRONG = {
    GOOD: [
        ("22600", "22400"),
        ("22600", "22800"),
        ("27600", "27500"),
        ('"proved":false', '"proved":true'),
        ('"short":false', '"short":true'),
        ('"short":false', '"short":0'),
        ('"step":0', '"step":1'),
        ('"rest":17', '"rest":1'),
        ('"rest":17', '"rest":18'),
        ('"rest":17,', ''),
        ('"ok":"plans"', '"ok":"plan"'),
        ('"missing":[]', '"missing":[{"demand":4,"pieces":1}]'),
        ('"missing":[]', '"missing":[{"demand":9,"pieces":1}]'),
        ('{"bound":22600,"cost":27600,', '{"cost":27600,"bound":22600,'),
        ('"missing":[],', '"missing": [],'),
        ('"step":0}', '"step":0,"units":5}'),
        (',"step":0}', "}"),
        ('{"demand":4,"worth":3},{"demand":7,"worth":4}', '{"demand":7,"worth":4},{"demand":4,"worth":3}'),
        ('{"demand":7,"worth":4}', '{"demand":7,"worth":4},{"demand":9,"worth":4}'),
        ('{"demand":7,"worth":4}', '{"demand":7,"worth":0}'),
        ('{"demand":7,"worth":4}', '{"demand":7,"worth":1000000001}'),
        (',{"demand":7,"worth":4}', ""),
        ("x30 p4 x30 p4 x30 p4 r", "x30 p4 x30 p4 x30 p4"),
        ("x30 p4 x30 p4 x30 p4 r", "x30 p4 x30 p4 x31 r"),
        ("x30 p4 x30 p4 x30 p4 r", "x30 p9 x30 p4 x30 p4 r"),
        ("x30 p4 x30 p4 x30 p4 r", "x30 p4t x30 p4 x30 p4 r"),
        ("x30 p4 x30 p4 x30 p4 r", "x30 p4 x30 p4 x40 p7"),
        ('"tree":"x17 r p4"', '"tree":"x17 p4 r"'),
        ('"tree":"x17 r p4"', '"tree":"x17 r r"'),
        ('"tree":"x17 r p4"', '"tree":"x30 p4 r"'),
        ('"buy":2', '"buy":3'),
        ('"buy":2', '"buy":0'),
        ('"buy":0,"h":1,"parts":["2/0"]', '"buy":1,"h":1,"parts":["2/0"]'),
        ('"w":50}]', '"w":100}]'),
        ('["2/0"]', '["2/1"]'),
        ('["2/0"]', '["2/0","2/0"]'),
        ('["2/0"]', "[2]"),
        ('["2/0"]', '["10/0"]'),
        ('["2/0"]', '["1/0"]'),
        ('["10/0"]', '["2/0"]'),
        (GOOD[GOOD.index('{"buy":1') : GOOD.index('{"buy":2')], ""),
    ],
    BEST: [
        ('"proved":true', '"proved":false'),
        ('{"buy":0,"h":1,"parts":["2/0"],"tree":"x30 p4 x30 p4 x30 p4 r","w":100},', ""),
        ('["1/1"],"tree":"x30 p4 x30 p4 x30 p4 r","w":100},{"buy":0,"h":1,"parts":["2/0"]', '["1/1","2/0"]'),
        ('["1/1"]', '["1/2"]'),
        ('["1/1"]', '["2/0"]'),
        ('"parts":["2/0"]', '"parts":["1/0"]'),
    ],
}


def is_taken(text, content=CONTENT):
    try:
        checked_answer(content, QUESTION, text)
    except (Failed, ValueError):
        return False
    return True


@case(
    "wrong answers of plans",
    "The check that each answer goes through takes two made by hand, and refuses them with a wrong number or word, an "
    "illegal plan, pieces too many or unsaid, parts that come twice or don't stand, units and remnants in one, and entries "
    "out of their order.",
)
def checks(trial):
    for text, changes in WRONG.items():
        checked_answer(CONTENT, QUESTION, text)
        for old, new in changes:
            trial.equal(text.count(old) > 0, True, old)
            trial.holds(not is_taken(text.replace(old, new, 1)), f"{old} became {new}, and the answer was taken")
    entries = GOOD[GOOD.index('{"buy":0') : GOOD.index('],"prices"')].split("},{")
    for first, second in ((0, 1), (1, 2), (2, 3)):
        other = list(entries)
        other[first], other[second] = other[second].strip("{}"), other[first].strip("{}")
        text = GOOD.replace("},{".join(entries), "{" + "},{".join(it.strip("{}") for it in other) + "}")
        trial.holds(text != GOOD and not is_taken(text), f"entries {first} and {second} in the other order are taken: {text}")
    trial.holds(not is_taken(GOOD, Content(True, 4, CONTENT.demands, CONTENT.parts)), "another kerf")
