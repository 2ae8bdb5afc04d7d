"""Refusals of the question `plans`, in their order, its form, and both sides of each limit."""

from kit.case import case
from kit.lines import over_both, refused
from kit.questions import compact, content_of
from kit.shop import answer
from kit.yards import Yard, answered, question

BAD = refused(10, "BadMessage")
NAMES = {
    20: "NoMaterial",
    30: "BadSize",
    42: "NoDemand",
    50: "NoPart",
    51: "NotStanding",
    61: "WrongMaterial",
    90: "NothingFits",
    91: "TableTooLarge",
    92: "BadStep",
    93: "BadWant",
}

LONGEST = 150000

OPEN, DONE, OTHER, SMALL = 1, 2, 3, 4
WHOLE, GONE, NARROW, FAR, FAR_RESERVED = "1/0", "2/0", "3/0", "5/0", "6/0"


def stocked():
    """A shop of glass and steel: an open demand, one that is made, one of steel, and one of small pieces; a sheet, one that was
    cut, one that holds nothing, a bar, and one that is reserved."""
    yard = Yard()
    yard.material("GLASS", 1, "sheet")
    yard.material("STEEL", 3)
    yard.receive("GLASS", 1000, 800)
    yard.order("GLASS", (50, 40, 5, False), (60, 70, 1, False))
    yard.bars("STEEL", (30, 5))
    yard.order("GLASS", (5, 6, 2, True))
    yard.receive("GLASS", 60, 70)
    yard.receive("GLASS", 1000, 4)
    yard.cut("2/0", f"p{DONE}")
    yard.receive("STEEL", 100, 1, 2)
    yard.receive("STEEL", 100)
    yard.reserve("6/0", f"x30 p{OTHER} r")
    return yard


def sizes(*pairs):
    return [{"h": h, "w": w} for w, h in pairs]


ELEVEN = sizes(*[(100 + it, 100) for it in range(11)])
# Faults of a question that has none else, by the order in which they are judged.
FAULTS = [
    (20, {"material": "WOOD"}),
    (93, {"demands": []}),
    (93, {"demands": [OPEN, DONE, OPEN]}),
    (93, {"demands": [99, 99]}),
    (93, {"demands": list(range(1, 102))}),
    (93, {"parts": [WHOLE, WHOLE]}),
    (93, {"parts": [f"1/{it}" for it in range(1001)]}),
    (93, {"buy": sizes((100, 100), (90, 100), (100, 100))}),
    (93, {"buy": sizes((0, 0), (0, 0))}),
    (93, {"buy": ELEVEN}),
    (42, {"demands": [OPEN, 99, OTHER]}),
    (61, {"demands": [OPEN, OTHER, 99]}),
    (50, {"parts": [WHOLE, "99/0", GONE]}),
    (51, {"parts": [WHOLE, GONE, "99/0", FAR]}),
    (51, {"parts": [FAR_RESERVED, FAR]}),
    (61, {"parts": [WHOLE, FAR, "99/0", GONE]}),
    (30, {"buy": sizes((100, 100), (0, 100))}),
    (93, {"demands": [DONE]}),
    (92, {"step": 0}),
    (92, {"step": 42}),
    (91, {"step": 1}),
    (90, {"parts": [NARROW]}),
]
# Those that are judged at once: lists first, then demands, then parts.
RANKS = [20, 93, 42, 50, 30, 93, 92, 91, 90]


def rank(at):
    """The place of a fault among those that are judged one after the other."""
    number, keys = FAULTS[at]
    if number == 93:
        return 5 if keys == {"demands": [DONE]} else 1
    if number in (42, 61, 50, 51):
        return 2 if "demands" in keys else 3
    return RANKS.index(number)


@case(
    "refusals of plans in their order",
    "Each refusal of a question comes alone, and of two that hold the one that is judged first: 20, 93 of a list, demand by "
    "demand 42 and 61, part by part 50, 51 and 61, 30, 93 where nothing is left, 92, 91, 90.",
)
def in_order(trial):
    yard, steps = stocked(), []
    asked = [({}, None)] + [(keys, number) for number, keys in FAULTS]
    for first, (number, keys) in enumerate(FAULTS):
        for second, (_, others) in enumerate(FAULTS):
            if rank(first) < rank(second) and not set(keys) & set(others):
                asked.append((keys | others, number))
    shop = yard.replay(trial)
    answered(trial, shop, question("GLASS", calls=1))
    for keys, number in asked[1:]:
        line = compact({**question("GLASS"), **keys})
        steps.append((line, refused(number, NAMES[number])))
        trial.equal(shop.reply(line).decode(), steps[-1][1], line)
    shop = yard.serve(trial)
    for line, reply in steps[:: 1 if trial.whole else 5]:
        trial.equal(shop.send(line), answer(409, reply), line)


@case(
    "refusals of plans in an empty yard",
    "A material without a demand, or of which all are made, is refused 93, also without a stock and with a bad step; without "
    "a stock, or with parts that hold nothing, it is 90, of bars with any step.",
)
def empty(trial):
    yard, steps = Yard(), []
    yard.material("GLASS", 1, "sheet")
    yard.material("STEEL", 3)
    shop = yard.replay(trial)

    def wants(number, **keys):
        steps.append((compact(question(**keys)), refused(number, NAMES[number])))

    wants(93, material="GLASS")
    wants(93, material="STEEL", step=0)
    wants(93, material="GLASS", step=0, buy=sizes((200000, 60000)))
    for line, reply in steps:
        trial.equal(shop.reply(line).decode(), reply, line)
    yard.bars("STEEL", (30, 2))
    yard.receive("STEEL", 29, 1, 3)
    yard.order("GLASS", (5, 6, 2, False))
    shop, steps = yard.replay(trial), []
    wants(90, material="STEEL")
    wants(90, material="STEEL", parts=[])
    wants(90, material="STEEL", parts=[], step=0)
    wants(90, material="STEEL", buy=sizes((1, 1)))
    wants(90, material="GLASS")
    wants(90, material="GLASS", buy=[])
    wants(90, material="GLASS", step=6)
    wants(92, material="GLASS", step=7)
    wants(92, material="GLASS", step=0)
    wants(90, material="GLASS", buy=sizes((6, 5)))
    for line, reply in steps:
        trial.equal(shop.reply(line).decode(), reply, line)


@case(
    "a question of plans in its form",
    "Another key, a missing material, values of another type, numbers out of range and names that are none are refused 10, "
    "before an unknown material; of a key that comes twice the last value counts.",
)
def forms(trial):
    bad = ['{"ask":"plans"}', '{"ask":"plans","material":"WOOD","number":1}', '{"ask":"plans","material":"WOOD","part":"1/0"}']
    bad += ['{"ask":"plans","do":"plans","material":"WOOD"}', '{"do":"plans","material":"WOOD"}']
    bad += ['{"ask":"Plans","material":"WOOD"}']
    lists = ["1", "null", "{}", '"1"', '["a"]', "[null]", "[[]]"]
    numbers = ["-1", "1.0", "1e0", "-0", "4294967296", '"1"', "null", "[]", "true"]
    values = {
        "material": ["1", "null", '""', '"wood"', '"WOOD-56789-123456"', "[]"],
        "demands": lists + [f"[{it}]" for it in numbers],
        "parts": lists + ["[1]", '["1"]', '["0/0"]', '["01/0"]', '["1/00"]', '["1/0 "]', '["1/-1"]', '["1/0/0"]', '[""]'],
        "buy": lists + ['[{"w":1}]', '[{"h":1}]', '[{"h":1,"w":1,"count":1}]', "[[1,1]]"],
        "remnant": [*numbers, "0", "101"],
        "calls": [*numbers, "0", "5001"],
        "stages": [*numbers, "0", "1", "256"],
        "step": numbers,
    }
    values["buy"] += [f'[{{"h":{it},"w":1}}]' for it in numbers]
    for key, texts in values.items():
        rest = "" if key == "material" else '"material":"WOOD",'
        bad += [f'{{"ask":"plans",{rest}"{key}":{it}}}' for it in texts]
        if key != "material":
            bad += [f'{{"ask":"plans","{key}":{good},{rest}"{key}":{texts[0]}}}' for good in ("5", "[]")]
    unknown = refused(20, "NoMaterial")
    good = {"remnant": ["1", "100"], "calls": ["1", "5000"], "step": ["0", "1", "4294967295"], "stages": ["2", "255"]}
    fine = [f'{{"ask":"plans","material":"WOOD","{key}":{it}}}' for key, its in good.items() for it in its]
    fine += ['{"ask":"plans","calls":0,"material":"wood","material":"WOOD","calls":7}', ' {"material":"WOOD","ask":"plans"}\t']
    fine += ['{"ask":"plans","material":"WOOD","demands":[0,4294967295],"parts":[],"buy":[]}']
    fine += ['{"ask":"plans","material":"WOOD","demands":[],"buy":[{"w":0,"h":4294967295}]}']
    over_both(trial, [*[(it, BAD) for it in bad], *[(it, unknown) for it in fine]])


@case(
    "the route of plans",
    "POST /plans answers a question for plans and nothing else; at the other routes it is refused 10, and /plans has no "
    "other method.",
)
def routes(trial):
    shop = stocked().serve(trial)

    def posted(path, line):
        return shop.exchange(f"POST {path} HTTP/1.1\r\nHost: shop\r\nContent-Length: {len(line)}\r\n\r\n{line}".encode())

    good = compact(question("GLASS", calls=5, demands=[OPEN], step=20))
    output = posted("/plans", good)
    trial.equal(output.partition(b"\r\n\r\n")[0], answer(200, output.partition(b"\r\n\r\n")[2]).partition(b"\r\n\r\n")[0], good)
    trial.holds(output.partition(b"\r\n\r\n")[2].startswith(b'{"bound":'), output)
    for path in ("/plan", "/bound", "/message"):
        trial.equal(posted(path, good), answer(400, BAD), path)
    plan = compact({"ask": "plan", "demands": [OPEN], "part": WHOLE, "step": 5})
    for line in (plan, '{"ask":"materials"}', '{"do":"release","job":5,"number":90,"terminal":1}', "", "x", '{"ask":"plans"}'):
        trial.equal(posted("/plans", line), answer(400, BAD), line)
    trial.equal(shop.get("/plans"), answer(405, allow="POST"))
    for path in ("/plans/", "/plans/GLASS"):
        trial.equal(posted(path, good), answer(404), path)
    trial.equal(shop.exchange(b"POST /plans HTTP/1.1\r\nHost: shop\r\n\r\n"), answer(411))
    trial.equal(posted("/plans", good), output, "again")
    long = good.ljust(131072)
    trial.equal(posted("/plans", long), output, "a body of 131072")
    trial.equal(shop.exchange(b"POST /plans HTTP/1.1\r\nHost: shop\r\nContent-Length: 131073\r\n\r\n"), answer(413))


@case(
    "lists of plans at their limits",
    "1000 parts, 100 demands and 10 sizes to buy are planned, 1001, 101 and 11 refused 93; so are 1 and 5000 calls and a "
    "remnant's cost of 1 and 100.",
)
def limits(trial):
    yard = Yard()
    yard.material("STEEL", 3)
    yard.bars("STEEL", *[(30 + it, 1) for it in range(101)])
    for _ in range(10):
        yard.receive("STEEL", 200, 1, 100)
    yard.receive("STEEL", 200)
    rest = yard.remnant("STEEL", 3, 140)
    shop = yard.replay(trial)
    content = content_of(shop.reply, "STEEL")
    parts = [f"{act}/{node}" for act in range(1, 11) for node in range(100)] + ["11/0"]
    for key, values, most in (
        ("parts", parts, 1000),
        ("demands", list(range(1, 102)), 100),
        ("buy", sizes(*[(150 + it, 1) for it in range(11)]), 10),
    ):
        output = answered(trial, shop, question("STEEL", calls=2, **{key: values[:most]}), content)
        trial.equal(output["missing"], [], key)
        reply = shop.reply(compact(question("STEEL", **{key: values})))
        trial.equal(reply.decode(), refused(93, "BadWant"), f"{most + 1} {key}")
    for calls in (1, 5000):
        answered(trial, shop, question("STEEL", calls=calls, demands=[1, 2], parts=["1/0", "1/1"]), content)
    for cost in (1, 100):
        output = answered(trial, shop, question("STEEL", remnant=cost, demands=[101], parts=["1/0", rest]), content)
        trial.equal((output["cost"], output["proved"], output["plans"][0]["parts"]), (140 * cost, True, [rest]), f"remnant {cost}")


@case(
    "sizes and steps of plans at their limits",
    "Sizes to buy are those that the kind can have, 30 else; a given step goes up to a side of a piece and the kerf, 92 "
    "else, and down to 500 steps of the stock's sides, 91 else. A pair and the pair turned round are two sizes.",
)
def edges(trial):
    shop, steps = stocked().replay(trial), []

    def wants(number, code="GLASS", **keys):
        steps.append((compact(question(code, **keys)), refused(number, NAMES[number])))

    for w, h in ((200001, 1), (1, 60001), (0, 1), (1, 0), (4294967295, 4294967295)):
        wants(30, buy=sizes((w, h)))
    for w, h in ((100, 2), (100, 0), (0, 1), (200001, 1)):
        wants(30, code="STEEL", buy=sizes((w, h)))
    wants(92, step=42, demands=[OPEN])
    wants(92, step=7, demands=[SMALL], calls=1, parts=[], buy=sizes((200000, 60000)))
    wants(91, step=6, demands=[SMALL], calls=1, parts=[], buy=sizes((3006, 6)))
    wants(91, step=6, demands=[SMALL], calls=1, parts=[], buy=sizes((6, 3005), (100, 100)))
    wants(91, step=6, demands=[SMALL], calls=1, parts=[], buy=sizes((200000, 60000)))
    for line, reply in steps:
        trial.equal(shop.reply(line).decode(), reply, line)
    for keys in (
        {"buy": sizes((3004, 60)), "step": 6, "demands": [SMALL]},
        {"buy": sizes((60, 3004)), "step": 6, "demands": [SMALL]},
        {"buy": sizes((50, 41), (41, 50)), "step": 41, "demands": [OPEN]},
        {"buy": sizes((50, 40), (40, 50)), "step": 41, "demands": [OPEN, DONE]},
    ):
        answered(trial, shop, question("GLASS", parts=[], calls=1, **keys))
    for keys in ({"buy": sizes((30, 1))}, {"buy": sizes((LONGEST, 1)), "step": 9}):
        answered(trial, shop, question("STEEL", parts=[], calls=1, **keys))
