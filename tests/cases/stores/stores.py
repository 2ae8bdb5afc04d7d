"""A shop's store file: its tables row by row, a shop that is opened again, and the greatest numbers and reports."""

import json

from kit import tables
from kit.case import case
from kit.glass import GLASS, ORDER, RESERVE
from kit.shop import answer
from kit.stores import DAY, NO_ROW, ORDERS, PROBLEM, QUESTIONS, ROWS, TOTALS, filled, long_answer, many_parts, numbers, received, sent


@case(
    "tables row by row",
    "After “remnant cut again” each table has the columns of the formats, STRICT and not NULL, with their keys, and "
    "exactly the rows of the books.",
)
def row_by_row(trial):
    path = filled(trial)
    tables.check(trial, path, ROWS)
    trial.equal(tables.select(path, "PRAGMA integrity_check"), [("ok",)])
    trial.equal(tables.select(path, "PRAGMA foreign_key_check"), [])


TURNED = {"count": 2, "h": 4, "line": 1, "material": "GLASS", "turn": True, "w": 3, "worth": 12}
LIMITS = {"kerf": 3, "kind": "bar", "material": "STEEL", "min_long": 20, "min_short": 1}
IMPORTED = {"act": 1, "count": 2, "first": 1, "ok": "import", "order": "CG-1"}
# Messages after which there are a part of each state, a job of each but a done one, and imports of both forms.
STATES = [
    (json.loads(GLASS), {"material": "GLASS", "ok": "material"}),
    ({"do": "import", "form": "cgcut", "material": "GLASS", "order": "CG-1", "text": PROBLEM}, IMPORTED),
    ({"do": "import", "form": "cgcut", "material": "GLASS", "order": "CG-1", "text": PROBLEM}, IMPORTED),
    ({"do": "material", **LIMITS}, {"material": "STEEL", "ok": "material"}),
    (
        {"do": "import", "form": "csv", "order": "A-1", "text": ORDERS},
        {"act": 0, "count": 1, "first": 3, "ok": "import", "order": "A-1"},
    ),
    ({"do": "order", "lines": [TURNED], "order": "A-2"}, {"count": 1, "first": 4, "ok": "order", "order": "A-2"}),
    (
        {"batch": "B-1", "count": 3, "do": "receive", "h": 8, "material": "GLASS", "w": 10},
        {"act": 2, "count": 3, "ok": "receive"},
    ),
    ({"do": "reserve", "part": "1/0", "tree": "x4 y3 p1 r r"}, {"cuts": 2, "job": 3, "ok": "reserve"}),
    ({"do": "reserve", "part": "2/0", "tree": "y3 x4 p4t r r"}, {"cuts": 2, "job": 4, "ok": "reserve"}),
    (
        {"cuts": 1, "do": "break", "job": 4, "lost": False},
        {"job": 4, "kerf": 10, "ok": "break", "pieces": 0, "rack": 40, "scrap": 30},
    ),
    ({"do": "reserve", "part": "2/1", "tree": "x4 y3 p1 r r"}, {"cuts": 2, "job": 5, "ok": "reserve"}),
    ({"do": "release", "job": 5}, {"job": 5, "ok": "release"}),
    ({"do": "return", "part": "2/2"}, {"ok": "return", "part": "2/2"}),
    ({"do": "scrap", "part": "2/1"}, {"ok": "scrap", "part": "2/1"}),
]

# Of each of them, as its entry has it, the word, the act that it made, the job, the order, and the part.
ENTRIES = [
    ("material", 0, 0, "", 0, 0),
    ("import", 1, 0, "CG-1", 0, 0),
    ("import", 0, 0, "CG-1", 0, 0),
    ("material", 0, 0, "", 0, 0),
    ("import", 0, 0, "A-1", 0, 0),
    ("order", 0, 0, "A-2", 0, 0),
    ("receive", 2, 0, "", 0, 0),
    ("reserve", 3, 3, "", 1, 0),
    ("reserve", 4, 4, "", 2, 0),
    ("break", 0, 4, "", 0, 0),
    ("reserve", 5, 5, "", 2, 1),
    ("release", 0, 5, "", 0, 0),
    ("return", 0, 0, "", 2, 2),
    ("scrap", 0, 0, "", 2, 1),
]


def compact(value):
    return json.dumps(value, sort_keys=True, separators=(",", ":"))


@case(
    "states and imports row by row",
    "Parts and jobs of each state, a line that turns and imports of both forms stand in the tables with their "
    "numbers, an import that came twice once; so does the entry of each message with what it made, and the orders of each job.",
)
def states(trial):
    exchanges = [
        (compact(keys | {"terminal": 1, "number": number}), compact(reply)) for number, (keys, reply) in enumerate(STATES, 1)
    ]
    found = tables.rows(filled(trial, exchanges=exchanges))
    trial.equal(found["meta"], [("act", 5), ("demand", 4), ("version", 3)])
    trial.equal(found["materials"], [("GLASS", 1, 1, 5, 4), ("STEEL", 0, 3, 20, 1)])
    root = ("GLASS", "B-1", 2, 0)
    states_of = [(2, 4), (5, 0), (6, 0)]
    units = [(2, it, "GLASS", "B-1", 2, it, 0, 0, 10, 8, *state) for it, state in enumerate(states_of)]
    broken = [(4, 0, *root, 0, 3, 10, 1, 4, 0), (4, 1, *root, 0, 0, 10, 3, 5, 0), (4, 4, *root, 0, 4, 10, 4, 0, 0)]
    trial.equal(found["parts"], [(1, 0, "GLASS", "CG-1", 1, 0, 0, 0, 10, 8, 1, 3), *units, *broken])
    trial.equal(found["jobs"], [(3, 1, 0, "x4 y3 p1 r r", 0), (4, 2, 0, "y3 x4 p4t r r", 2), (5, 2, 1, "x4 y3 p1 r r", 3)])
    trial.equal(found["orders"], [("A-1",), ("A-2",), ("CG-1",)])
    demands = [(1, "CG-1", 1, "GLASS", 4, 3, 0, 66, 2, 1, 0), (2, "CG-1", 2, "GLASS", 5, 8, 0, 40, 1, 0, 0)]
    demands += [(3, "A-1", 1, "STEEL", 30, 1, 0, 30, 3, 0, 0), (4, "A-2", 1, "GLASS", 3, 4, 1, 12, 2, 0, 0)]
    trial.equal(found["demands"], demands)
    trial.equal(found["kept"], [(1, number, *it) for number, it in enumerate(exchanges, 1)])
    imports = [("A-1", 0, "", ORDERS, exchanges[4][1]), ("CG-1", 1, "GLASS", PROBLEM, exchanges[1][1])]
    trial.equal((found["imports"], found["totals"]), (imports, []))
    trial.equal(found["totals2"], [("GLASS", 320, 80, 40, 0, 10, 110, 80), ("STEEL", 0, 0, 0, 0, 0, 0, 0)])
    trial.equal(found["journal"], [(number, 0, 1, number, *it) for number, it in enumerate(ENTRIES, 1)])
    trial.equal(found["uses"], [(3, "CG-1"), (4, "A-2"), (5, "CG-1")])
    trial.equal([found[it] for it in ("notes", "begun", "halts")], [[], [], [(4, '{"cuts":1,"lost":false}')]])


@case(
    "keys of the tables",
    "Parts, jobs, orders and totals are referenced as the formats have it; an order's line, an entry and an order of a job "
    "stand once; no more is reserved and made than wanted.",
)
def keys(trial):
    path = filled(trial)
    wanted = {
        "parts": [("materials", "material", "code")],
        "jobs": [("parts", "part_act", "act"), ("parts", "part_node", "node")],
        "demands": [("materials", "material", "code"), ("orders", "ord", "ord")],
        "imports": [("orders", "ord", "ord")],
        "totals": [("materials", "material", "code")],
        "totals2": [("materials", "material", "code")],
        "notes": [("orders", "ord", "ord")],
        "begun": [("jobs", "job", "job")],
        "halts": [("jobs", "job", "job")],
    }
    for name in tables.COLUMNS:
        found = sorted(it[2:5] for it in tables.select(path, f"PRAGMA foreign_key_list({name})"))
        trial.equal(found, wanted.get(name, []), name)
    indexes = tables.select(path, "SELECT name FROM pragma_index_list('demands') WHERE origin = 'u'")
    columns = tables.select(path, f"SELECT name FROM pragma_index_info('{indexes[0][0]}')")
    trial.equal(columns, [("ord",), ("line",)])
    statements = ["UPDATE demands SET reserved = 1 WHERE number = 3", "INSERT INTO orders VALUES ('A-1')"]
    statements += ["INSERT INTO uses VALUES (2, 'A-1')", "INSERT INTO journal SELECT * FROM journal", "UPDATE uses SET job = NULL"]
    for statement in (*statements, "UPDATE parts SET x = 'a'", "UPDATE journal SET at = 'a'"):
        try:
            tables.change(path, statement)
            trial.holds(False, f"{statement} is taken")
        except tables.sqlite3.Error:
            pass


@case(
    "a book opened again",
    "“Remnant cut again” over a file, killed and opened again: the same answers, each message gets its kept reply, and "
    "nothing is done twice.",
)
def opened_again(trial):
    shop = trial.shop()
    sent(trial, shop)
    before = [shop.reply(it) for it in QUESTIONS] + [shop.get(it) for it in ("/ticket/2", "/ticket/3", "/yield/GLASS")]
    shop.kill()
    again = trial.shop()
    sent(trial, again)
    after = [again.reply(it) for it in QUESTIONS] + [again.get(it) for it in ("/ticket/2", "/ticket/3", "/yield/GLASS")]
    trial.equal(after, before)
    totals = {"kerf": 17, "pieces": 43, "rack": 20, "received": 80, "returned": 0, "scrap": 0, "stock": 0}
    trial.equal(after[0].decode(), compact({"material": "GLASS", "ok": "totals", **totals}))
    again.kill()
    trial.equal(len(tables.select(shop.store, "SELECT * FROM kept")), len(DAY))


@case(
    "a book of a file and one in memory",
    "The same lines get the same replies from `replay` and, question for question, from a file that was opened again "
    "behind each message.",
)
def both_books(trial):
    lines = [it for line, _ in DAY for it in (line, *QUESTIONS)]
    wanted = trial.replay(lines).out.decode().split("\n")[:-1]
    got = []
    for line, _ in DAY:
        shop = trial.shop()
        got += [shop.reply(it).decode() for it in (line, *QUESTIONS)]
        shop.kill()
    trial.equal(got, wanted)


@case(
    "the last numbers",
    "Behind act or demand 2147483646 one more is given; behind 2147483647 a receipt, an order and a reservation are "
    "refused 33.",
)
def last_numbers(trial):
    spent = b'{"name":"NumbersSpent","refused":33}'
    path = filled(trial, exchanges=DAY[:3])
    numbers(path, "act", 2147483646)
    numbers(path, "demand", 2147483646)
    shop = trial.shop()
    line, reply = received("GLASS", 10, 8, 2147483647, number=9)
    trial.equal(shop.reply(line).decode(), reply, line)
    trial.equal(shop.reply(received("GLASS", 10, 8, 1, number=10)[0]), spent)
    trial.equal(shop.reply('{"do":"reserve","number":11,"part":"1/0","terminal":1,"tree":"x4 y3 p1 p2 r"}'), spent)
    order = ORDER.replace("A-1", "A-2").replace('"number":3', '"number":12')
    trial.equal(shop.reply(order), spent)
    line = {"count": 1, "h": 3, "line": 1, "material": "GLASS", "turn": False, "w": 4, "worth": 12}
    one = compact({"do": "order", "lines": [line], "number": 13, "order": "A-3", "terminal": 1})
    trial.equal(shop.reply(one), b'{"count":1,"first":2147483647,"ok":"order","order":"A-3"}')
    trial.equal(shop.reply(one.replace("A-3", "A-4").replace("13", "14")), spent)


# The nodes of the first job of “remnant cut again”: what each is, the demand of a piece, the place of a cut, its rectangle, and what it
# becomes.
STEPS = [
    ("cut x", 0, 4, (0, 0, 10, 8), "kerf"),
    ("cut y", 0, 3, (0, 0, 4, 8), "kerf"),
    ("piece", 1, 0, (0, 0, 4, 3), "piece"),
    ("piece", 2, 0, (0, 4, 4, 4), "piece"),
    ("rest", 0, 0, (5, 0, 5, 8), "standing"),
]


@case(
    "the job of the last number",
    "Behind act 2147483646 a job has the number 2147483647: its steps, its plan and its ticket are told as any other's, while it waits and "
    "when it is done, also behind a start, and its parts have its number.",
)
def last_job(trial):
    last = 2147483647
    path = filled(trial, exchanges=DAY[:3])
    numbers(path, "act", last - 1)

    def steps(state):
        is_done, rows = state == "done", []
        for node, (what, demand, place, (x, y, w, h), became) in enumerate(STEPS):
            part, order = f"{last}/{node}" if is_done else "", "A-1" if demand else ""
            row = {"demand": demand, "h": h, "line": demand, "node": node, "order": order, "part": part, "place": place}
            rows.append(row | {"state": became if is_done else "", "turned": False, "w": w, "what": what, "x": x, "y": y})
        return compact({"job": last, "kerf": 1, "material": "GLASS", "ok": "steps", "part": "1/0", "state": state, "steps": rows})

    shop = trial.shop()
    trial.equal(shop.reply(RESERVE).decode(), compact({"cuts": 2, "job": last, "ok": "reserve"}))
    done = compact({"do": "done", "job": last, "number": 5, "terminal": 1})
    output = compact({"job": last, "kerf": 12, "ok": "done", "pieces": 28, "rack": 40, "scrap": 0})
    for state in ("waiting", "done"):
        if state == "done":
            trial.equal(shop.reply(done).decode(), output)
        for _ in range(2):
            trial.equal(shop.get(f"/steps/{last}"), answer(200, steps(state)), state)
            job = {"begun": 0, "cuts": 2, "h": 8, "job": last, "kerf": 1, "material": "GLASS", "ok": "job", "part": "1/0", "state": state}
            trial.equal(shop.reply(f'{{"ask":"job","job":{last}}}').decode(), compact(job | {"tree": "x4 y3 p1 p2 r", "w": 10}), state)
            trial.equal(shop.get(f"/ticket/{last}").partition(b"\r\n\r\n")[2].split(b"\n")[0], f"job {last} {state}".encode())
            shop.kill()
            shop = trial.shop()
    shop.kill()
    trial.equal([it[:2] for it in tables.rows(path)["parts"]], [(1, 0), *((last, node) for node in range(5))])


@case(
    "totals over 2^32 cells",
    "Totals of more cells than 32 bits hold are reported, of received units and after a shop was opened again.",
)
def large_totals(trial):
    shop = trial.shop()
    sent(trial, shop, [DAY[0], received("GLASS", 200000, 60000, 1, 100)])
    for _ in range(2):
        output = json.loads(shop.reply(TOTALS))
        trial.equal((output["received"], output["stock"]), (1200000000000, 1200000000000))
        trial.holds(b"received    1200000000000" in shop.get("/yield/GLASS"), "the report's first row")
        shop.kill()
        shop = trial.shop()


@case("the last cell", "With 999999999999999 cells received one cell more is accepted, and two are refused 32.")
def last_cell(trial):
    path = filled(trial, exchanges=DAY[:1])
    # (units of 12000000000 cells, and one of what is left)
    units, rest = divmod(999999999999999, 200000 * 60000)
    rows = [(1, it, 200000, 60000) for it in range(units)]
    left = [(200000, rest // 200000), (rest % 200000, 1)]
    rows += [(2, it, w, h) for it, (w, h) in enumerate(left) if w * h]
    values = ",".join(f"({act}, {node}, 'GLASS', 'B', {act}, {node}, 0, 0, {w}, {h}, 0, 0)" for act, node, w, h in rows)
    sums = "UPDATE totals2 SET received = 999999999999999, stock = 999999999999999"
    tables.change(path, f"INSERT INTO parts VALUES {values}; {sums}; UPDATE meta SET value = 2 WHERE name = 'act'")
    shop = trial.shop()
    trial.equal(shop.reply(received("GLASS", 2, 1, 3, number=5)[0]), b'{"name":"TooMuch","refused":32}')
    trial.equal(shop.reply(received("GLASS", 1, 1, 3, number=5)[0]), b'{"act":3,"count":1,"ok":"receive"}')
    trial.equal(shop.reply(received("GLASS", 1, 1, 3, number=6)[0]), b'{"name":"TooMuch","refused":32}')
    trial.equal(json.loads(shop.reply(TOTALS))["received"], 1000000000000000)


# More parts than 16 bits count.
MANY = 65600


@case(
    "racks and reports of many parts",
    "A rack and a yield report of 65600 parts are reported whole, in order, over HTTP and by `yield`.",
)
def many(trial):
    path, count = filled(trial, exchanges=DAY[:2]), MANY
    many_parts(path, "GLASS", count, 5, 4)
    shop = trial.shop()
    rack = json.loads(long_answer(shop, "/rack/GLASS"))
    trial.equal(rack["parts"], [{"h": 4, "part": f"10/{it}", "state": "standing", "w": 5} for it in range(count)])
    report = long_answer(shop, "/yield/GLASS")
    shop.kill()
    lines = report.decode().split("\n")
    trial.equal(lines[9:11], ["part 1/0 1.0 x 0.8 standing", "part 10/0 0.5 x 0.4 standing"])
    trial.equal(lines[count + 9 :], [f"part 10/{count - 1} 0.5 x 0.4 standing", "end", ""])
    trial.ended(trial.run("yield", "--store", path, "GLASS"), 0, report)


@case("a rack of 1000 parts", "A rack of 1000 parts is reported, and so is one of 1001.")
def thousand(trial):
    for count in (1000, 1001):
        path = filled(trial, f"rack-{count}.db", exchanges=DAY[:2])
        many_parts(path, "GLASS", count, 5, 4)
        shop = trial.shop(f"rack-{count}.db")
        trial.equal(len(json.loads(shop.reply('{"ask":"rack","material":"GLASS"}'))["parts"]), count)


# A row of each table that stands for nothing that a shop has, and what the second line reports of it.
SPOILS = [
    ("UPDATE jobs SET state = 9", "jobs 2"),
    ("UPDATE jobs SET tree = 'x4 y3 p1'", "jobs 2"),
    ("UPDATE jobs SET tree = 'x4 y3'", "jobs 2"),
    ("UPDATE demands SET turn = 5 WHERE number = 2", "demands 2"),
    ("UPDATE materials SET kind = 3", "materials GLASS"),
    ("UPDATE parts SET state = 8 WHERE node = 1", "parts 1/1"),
    ("UPDATE parts SET batch = 'b-1' WHERE node = 0", "parts 1/0"),
    ("UPDATE journal SET word = 'orders' WHERE entry = 2", "journal 2"),
    ("UPDATE journal SET act = -1 WHERE entry >= 3", "journal 3"),
    ("UPDATE journal SET at = -1 WHERE entry = 4", "journal 4"),
    ("UPDATE journal SET ord = 'h-1' WHERE entry = 1", "journal 1"),
    ("UPDATE journal SET part_node = 1 WHERE entry = 2", "journal 2"),
    # Before an entry with a number that none has, and behind one.
    ("UPDATE journal SET entry = 9 WHERE entry = 4; UPDATE journal SET word = 'orders' WHERE entry >= 2", "journal 2"),
    ("UPDATE journal SET entry = 0 WHERE entry = 1; UPDATE journal SET word = 'orders' WHERE entry = 3", "journal 0"),
]
# Numbers that are out of their ranges, together or alone.
OUT_OF_RANGE = [
    "UPDATE materials SET kind = 0",
    "UPDATE demands SET w = 0 WHERE number = 2",
    "UPDATE demands SET line = 4294967296 WHERE number = 2",
    "UPDATE journal SET act = 4294967296 WHERE entry = 2",
]
DAMAGED = "it or its disk is damaged; put a copy of it and its log in its place"


@case(
    "rows of no book",
    "A job of state 9 or of a plan that is none, a turn of 5, a kind of 3, a part of state 8 or of a batch that is no code, and an entry of "
    "another word, of an act or a time below 0, of an order that is no code or of a node without an act are `fault version` at each start, and "
    "the second line names the first such row; a bar with the limits of a sheet, a width of 0, and a line and an act over 32 bits are "
    "`fault store`; the file stays as it was.",
)
def spoiled(trial):
    spoils = [(it, "version", NO_ROW + row) for it, row in SPOILS] + [(it, "store", DAMAGED) for it in OUT_OF_RANGE]
    for number, (statement, fault, why) in enumerate(spoils):
        name = f"spoiled-{number}.db"
        path = filled(trial, name, exchanges=[*DAY[:1], received("GLASS", 10, 8, 1, 2), *DAY[2:4]])
        tables.change(path, statement)
        before = tables.dump(path)
        for words in (("ticket", "--store", name, "2"), ("yield", "--store", name, "GLASS")):
            trial.ended(trial.run(*words), 1, err=f"fault {fault}\n", why=f"{name}: {why}", sent=statement)
        trial.equal(tables.dump(path), before, statement)


@case(
    "kept replies that are none",
    "A kept reply that is none, and the last number of a terminal over 32 bits, are reported as 99 where they are asked for; all else is "
    "answered.",
)
def spoiled_texts(trial):
    for number, (statement, line) in enumerate(
        (
            ("UPDATE kept SET reply = '{' WHERE number = 4", RESERVE),
            ("UPDATE kept SET number = 4294967296 WHERE number = 4", '{"ask":"terminal","terminal":1}'),
        )
    ):
        path = filled(trial, f"spoiled-{number}.db", exchanges=DAY[:4])
        tables.change(path, statement)
        shop = trial.shop(f"spoiled-{number}.db")
        for _ in range(2):
            trial.equal(shop.send(line).partition(b"\r\n")[0], b"HTTP/1.1 503 Service Unavailable", statement)
            trial.equal(shop.reply(line), b'{"name":"StoreFault","refused":99}', statement)
        trial.equal(shop.reply('{"ask":"trace","part":"1/0"}')[:14], b'{"batch":"B-1"', statement)


@case(
    "imports that are none",
    "An import of form 7, or 0 beside a material, of no material, or without a kept reply is reported as 99 where its "
    "order comes again; all else is answered.",
)
def spoiled_imports(trial):
    keys, _ = STATES[1]
    lines = [compact(keys | {"terminal": 1, "number": number}) for number in (2, 3)]
    exchanges = [DAY[0], (lines[0], compact(IMPORTED))]
    for number, change in enumerate(("form = 7", "form = 0", "material = ''", "material = 'glass'", "reply = '{'")):
        path = filled(trial, f"imports-{number}.db", exchanges)
        tables.change(path, f"UPDATE imports SET {change}")
        shop = trial.shop(f"imports-{number}.db")
        trial.equal(shop.send(lines[1]).partition(b"\r\n")[0], b"HTTP/1.1 503 Service Unavailable", change)
        trial.equal(shop.reply(lines[1]), b'{"name":"StoreFault","refused":99}', change)
        trial.equal(shop.reply('{"ask":"trace","part":"1/0"}')[:15], b'{"batch":"CG-1"', change)
