"""Numbers, lengths and lists on the far side of what programs keep in 8 and 16 bits, or read at once: each is reported by a plain
exchange. There is memory enough in each."""

import json

from kit import aged, tables
from kit.case import case
from kit.lines import LONGEST, added, compact, imported, material, over_both, refused
from kit.order_files import HEADER
from kit.shop import answer
from kit.stores import DAY, ROWS, filled, long_answer

WAITING = """job 3 waiting
part 2/4 GLASS 0.5 x 0.8 kerf 0.1
   0 cut y 0.3 at 0.0 0.0 of 0.5 x 0.8
   1 piece at 0.0 0.0 of 0.5 x 0.3 demand 3 A-1 line 3
   2 rest at 0.0 0.4 of 0.5 x 0.4
cuts 1 pieces 1
"""


@case(
    "a waiting ticket of a remnant",
    "The ticket of a job that waits to cut a remnant has places and sides counted in the remnant, over HTTP and by `ticket`.",
)
def waiting_ticket(trial):
    path = filled(trial, exchanges=DAY[:6])
    trial.ended(trial.run("ticket", "--store", path, "3"), 0, WAITING)
    shop = trial.shop()
    trial.equal(shop.get("/ticket/3"), answer(200, WAITING, "text/plain"))


def bar_order(code, lines, number=2, order="A", w=1, count=1, first=1):
    """An order of so many lines of bars, with its reply."""
    line = {"count": count, "h": 1, "material": code, "turn": False, "w": w, "worth": 1}
    wanted = [line | {"line": it} for it in range(1, lines + 1)]
    text = compact({"do": "order", "lines": wanted, "number": number, "order": order, "terminal": 1})
    return text, compact({"count": lines, "first": first, "ok": "order", "order": order})


def received(code, w, number, act, count=1):
    line = {"batch": "B-1", "count": count, "do": "receive", "h": 1, "material": code, "number": number, "terminal": 1, "w": w}
    return compact(line), compact({"act": act, "count": count, "ok": "receive"})


BAR = (material("B", 1, "bar", 0, 1, 1), added("B"))


def halted(job, number, cuts, lost=False):
    return compact({"cuts": cuts, "do": "break", "job": job, "lost": lost, "number": number, "terminal": 1})


@case(
    "halts of 20, 100, 254 and 255 listed cuts",
    "Bars in 256 pieces are broken off behind 20, 100 and 254 listed cuts, and one whose 255th is lost; each repeat has its "
    "reply, and another list under the number is refused 11. All 255 cuts are no halt, 72.",
)
def listed_cuts(trial):
    steps, made = [BAR, received("B", 256, 2, 1, 4), bar_order("B", 1, 3, count=1024)], 0
    for node, (count, lost) in enumerate(((20, False), (100, False), (254, False), (254, 254))):
        job, number = node + 2, 10 * node + 10
        reserve = {"do": "reserve", "number": number, "part": f"1/{node}", "terminal": 1, "tree": LONGEST}
        steps.append((compact(reserve), compact({"cuts": 255, "job": job, "ok": "reserve"})))
        output = {"job": job, "kerf": 0, "ok": "break", "pieces": count, "rack": 0, "scrap": 0}
        output["rack" if lost is False else "scrap"] = 256 - count
        made += count
        steps.append((halted(job, number + 1, list(range(255))), refused(72, "BadCut")))
        steps += [(halted(job, number + 2, list(range(count)), lost), compact(output))] * 2
        steps.append((halted(job, number + 2, list(range(count - 1)), lost and count - 1), refused(11, "NumberReused")))
        wanted = {"demand": 1, "line": 1, "made": made, "material": "B", "ok": "demand", "order": "A", "reserved": 0}
        steps.append(('{"ask":"demand","demand":1}', compact(wanted | {"wanted": 1024})))
    over_both(trial, steps)


@case(
    "51 units returned",
    "51 units are returned one by one, and again: each repeat has its reply, and the totals have 51 of 60 returned.",
)
def returned(trial):
    steps = [BAR, received("B", 1000, 2, 1, 60)]
    for node in range(51):
        line = compact({"do": "return", "number": 10 + node, "part": f"1/{node}", "terminal": 1})
        steps.append((line, compact({"ok": "return", "part": f"1/{node}"})))
    totals = {"kerf": 0, "material": "B", "ok": "totals", "pieces": 0, "rack": 0, "received": 60000, "returned": 51000}
    asked = ('{"ask":"totals","material":"B"}', compact(totals | {"scrap": 0, "stock": 9000}))
    over_both(trial, [*steps, asked, *steps[2:], asked])


@case(
    "numbers of messages of over 16 bits",
    "Messages 255, 256, 65535, 65536, 2147483648 and 4294967295 of a terminal are kept apart: each repeat has its reply, "
    "another command under the number is refused 11, and the greatest is the last one.",
)
def message_numbers(trial):
    numbers = (255, 256, 65535, 65536, 2147483648, 4294967295)
    steps = [(material(f"M-{it}", it), added(f"M-{it}")) for it in numbers]
    steps += [*steps, *[(material("OTHER", it), refused(11, "NumberReused")) for it in numbers]]
    steps += [(material("OTHER", 0), added("OTHER")), (material("OTHER", 0), added("OTHER"))]
    over_both(trial, [*steps, ('{"ask":"terminal","terminal":1}', '{"last":4294967295,"ok":"terminal","terminal":1}')])


@case(
    "lines and bodies of 65535 to 131072 bytes",
    "A message in a line, and in a body, of 65535, 65536, 100003 and 131072 bytes is done, and its repeat in another length has "
    "the kept reply.",
)
def long_lines(trial):
    lengths = (65535, 65536, 100003, 131072)
    steps = [(material(f"M-{it}", it).ljust(it), added(f"M-{it}")) for it in lengths]
    steps += [(material(f"M-{it}", it).rjust(196607 - it), added(f"M-{it}")) for it in lengths]
    over_both(trial, [*steps, (material("LAST", 1), added("LAST"))])


@case(
    "an import of 60000 line feeds",
    "An order file of one row and 60000 line feeds is imported; the same again, under its number and under another one, has the "
    "kept reply.",
)
def line_feeds(trial):
    text = HEADER + "1,S,3.0,0.1,no,3,30" + "\n" * 60000
    reply = compact({"act": 0, "count": 1, "first": 1, "ok": "import", "order": "C-1"})
    steps = [(imported(number, "C-1", "csv", text), reply) for number in (2, 2, 3)]
    over_both(trial, [(material("S", 1), added("S")), *steps, (imported(2, "C-2", "csv", text), refused(11, "NumberReused"))])


@case(
    "bounds of millions of units",
    "1000000 pieces that take a bar each are bounded by 1000000 bars, and 40 demands of so many by 40000000; the best is a bar's "
    "worth.",
)
def bounds(trial):
    order, reply = bar_order("B", 40, w=100, count=1000000)
    steps = [BAR, (order, reply)]
    for count in (1, 40):
        asked = {"ask": "bound", "demands": list(range(1, count + 1)), "h": 1, "material": "B", "step": 0, "w": 100}
        steps.append((compact(asked), compact({"best": 1, "ok": "bound", "units": count * 1000000})))
    over_both(trial, steps)


# Twenty columns of a sheet in twelve pieces each, and each piece's demand.
COLUMNS, ACROSS, FIRST = 20, 12, 2147483401


def wide_plan():
    """The tree of 20 by 12 pieces of 1000.0 by 500.0 mm, and the lines of its ticket."""
    words, lines = [], []

    def add(text):
        lines.append(f"{len(lines):4} {text}")

    for column in range(COLUMNS):
        x, wide = f"{column * 1000}.0", f"{(COLUMNS - column) * 1000}.0"
        if column < COLUMNS - 1:
            words.append("x10000")
            add(f"cut x 1000.0 at {x} 0.0 of {wide} x 6000.0")
        for row in range(ACROSS):
            y, high = f"{row * 500}.0", f"{(ACROSS - row) * 500}.0"
            if row < ACROSS - 1:
                words.append("y5000")
                add(f"cut y 500.0 at {x} {y} of 1000.0 x {high}")
            number = column * ACROSS + row
            words.append(f"p{FIRST + number}")
            order = f"A-{number // 200 + 1} line {number % 200 + 1}"
            add(f"piece at {x} {y} of 1000.0 x 500.0 demand {FIRST + number} {order}")
    return " ".join(words), lines


@case(
    "a plan of 239 cuts and over 4000 bytes",
    "A sheet in 240 pieces of demands of ten digits, up to 2147483640, is reserved, reported as a job and as a ticket, opened again, "
    "and cut.",
)
def wide(trial):
    path = filled(trial, exchanges=DAY[:1])
    tables.change(path, f"UPDATE meta SET value = {FIRST - 1} WHERE name = 'demand'; UPDATE materials SET kerf = 0")
    tree, lines = wide_plan()
    trial.holds(len(tree) > 4000, len(tree))
    shop = trial.shop()
    line = {"count": 1, "h": 5000, "material": "GLASS", "turn": False, "w": 10000, "worth": 1}
    for number, count in ((1, 200), (2, 40)):
        wanted = [line | {"line": it} for it in range(1, count + 1)]
        order = compact({"do": "order", "lines": wanted, "number": 10 + number, "order": f"A-{number}", "terminal": 1})
        output = {"count": count, "first": FIRST + 200 * (number - 1), "ok": "order", "order": f"A-{number}"}
        trial.equal(shop.reply(order).decode(), compact(output))
    sheet = {"batch": "B-1", "count": 1, "do": "receive", "h": 60000, "material": "GLASS", "number": 20, "terminal": 1}
    trial.equal(shop.reply(compact(sheet | {"w": 200000})), b'{"act":1,"count":1,"ok":"receive"}')
    reserve = compact({"do": "reserve", "number": 21, "part": "1/0", "terminal": 1, "tree": tree})
    ticket = "\n".join(["job 2 waiting", "part 1/0 GLASS 20000.0 x 6000.0 kerf 0.0", *lines, "cuts 239 pieces 240", ""])
    job = {"begun": 0, "cuts": 239, "h": 60000, "job": 2, "kerf": 0, "material": "GLASS", "ok": "job", "part": "1/0", "state": "waiting"}
    for _ in range(2):
        trial.equal(shop.reply(reserve), b'{"cuts":239,"job":2,"ok":"reserve"}')
        trial.equal(shop.reply('{"ask":"job","job":2}').decode(), compact(job | {"tree": tree, "w": 200000}))
        trial.equal(shop.get("/ticket/2"), answer(200, ticket, "text/plain"))
        shop.kill()
        trial.ended(trial.run("ticket", "--store", path, "2"), 0, ticket)
        shop = trial.shop()
    done = '{"do":"done","job":2,"number":22,"terminal":1}'
    trial.equal(shop.reply(done), b'{"job":2,"kerf":0,"ok":"done","pieces":12000000000,"rack":0,"scrap":0}')


def listed(shop, path):
    """What a list reports over HTTP: the numbers of its rows, and whether others follow."""
    value = json.loads(shop.get(path).partition(b"\r\n\r\n")[2])
    name = next(it for it in ("jobs", "demands", "materials") if it in value)
    key = {"jobs": "job", "demands": "demand", "materials": "material"}[name]
    return [it[key] for it in value[name]], value.get("more")


JOBS = 5000


@case(
    "5000 jobs and 5000 demands of a file",
    "Of 5000 waiting jobs and 5000 open demands in a file each list reports the hundred behind its number and whether others "
    "follow; the last job is done, and the lists end before it.",
)
def many_jobs(trial):
    work, first = aged.open_work(JOBS, "S", 5, 4)
    tables.make(trial.path("shop.db"), aged.book("S", 1, 0, first + JOBS - 1, JOBS, 20 * JOBS, **work))
    shop, last = trial.shop(), first + JOBS - 1
    for after in (0, first - 1, first, 2500, last - 101, last - 100, last - 99, last - 1, last):
        wanted = [it for it in range(first, last + 1) if it > after]
        trial.equal(listed(shop, f"/jobs/{after}"), (wanted[:100], len(wanted) > 100), f"jobs behind {after}")
    for after in (0, 1, 2500, JOBS - 101, JOBS - 100, JOBS - 1, JOBS):
        wanted = list(range(after + 1, JOBS + 1))
        for path in (f"/demands/{after}", f"/demands/{after}/S"):
            trial.equal(listed(shop, path), (wanted[:100], len(wanted) > 100), path)
    reply = shop.reply(compact({"do": "done", "job": last, "number": 1, "terminal": 1}))
    trial.equal(reply.decode(), compact({"job": last, "kerf": 0, "ok": "done", "pieces": 20, "rack": 0, "scrap": 0}))
    trial.equal(listed(shop, f"/jobs/{last - 2}"), ([last - 1], False))
    trial.equal(listed(shop, f"/demands/{JOBS - 1}"), ([JOBS], False))


@case(
    "5000 jobs and 5000 demands in memory",
    "`replay` reports the first and the last hundred of 5000 waiting jobs and of 5000 open demands, and of 2000 materials all.",
)
def many_in_memory(trial):
    codes = ["S", *[f"M-{it}" for it in range(1999)]]
    lines = [material(it, number, kerf=0) for number, it in enumerate(codes)]
    units = {"batch": "B", "count": 100, "do": "receive", "h": 4, "material": "S", "terminal": 2, "w": 5}
    lines += [compact(units | {"number": it}) for it in range(1, 51)]
    line = {"count": 2, "h": 4, "material": "S", "turn": False, "w": 5, "worth": 1}
    wanted = [line | {"line": it} for it in range(1, 201)]
    lines += [compact({"do": "order", "lines": wanted, "number": it, "order": f"A-{it}", "terminal": 3}) for it in range(25)]
    for it in range(JOBS):
        part, tree = f"{it // 100 + 1}/{it % 100}", f"p{it + 1}"
        lines.append(compact({"do": "reserve", "number": it, "part": part, "terminal": 4, "tree": tree}))
    asked = [f'{{"after":{it},"ask":"jobs"}}' for it in (0, 4949, 4950)]
    asked += [f'{{"after":{it},"ask":"demands"}}' for it in (0, 4899, 4900)] + ['{"ask":"materials"}']
    got = trial.replay([*lines, *asked]).out.decode().split("\n")
    trial.equal([it for it in got[: len(lines)] if '"ok"' not in it], [])
    output = [json.loads(it) for it in got[len(lines) : -1]]
    jobs = [([row["job"] for row in it["jobs"]], it["more"]) for it in output[:3]]
    trial.equal(jobs, [(list(range(it + 1, it + 101)), more) for it, more in ((50, True), (4949, True), (4950, False))])
    demands = [([row["demand"] for row in it["demands"]], it["more"]) for it in output[3:6]]
    trial.equal(demands, [(list(range(it + 1, it + 101)), more) for it, more in ((0, True), (4899, True), (4900, False))])
    trial.equal([it["material"] for it in output[6]["materials"]], sorted(codes))


@case("2000 materials of a file", "2000 materials of a file are all listed, by rising code, and each is reported alone.")
def many_materials(trial):
    codes = sorted(f"M-{it}" for it in range(2000))
    rows = {it: [] for it in ROWS} | {"meta": [("act", 0), ("demand", 0), ("version", 3)]}
    rows["materials"] = [(it, 1, 0, 5, 4) for it in codes]
    rows["totals2"] = [(it, 0, 0, 0, 0, 0, 0, 0) for it in codes]
    tables.make(trial.path("shop.db"), rows)
    shop = trial.shop()
    trial.equal(listed(shop, "/materials"), (codes, None))
    for code in (codes[0], codes[1023], codes[-1]):
        trial.equal(json.loads(shop.reply(compact({"ask": "totals", "material": code})))["ok"], "totals")


@case(
    "a ticket behind a million acts",
    "In a file whose acts and demands have numbers over 1000000 and over 2000000000 tickets, jobs and traces are reported, and the "
    "next act is one more.",
)
def late_acts(trial):
    for number, act in enumerate((1000000, 2147483000)):
        work = {
            "orders": [("A",)],
            "parts": [(act, it, "S", "B", act, it, 0, 0, 5, 4, int(it == 7), (act + 1) * (it == 7)) for it in range(10)],
            "jobs": [(act + 1, act, 7, f"p{act}", 0)],
            "demands": [(act, "A", 4294967295, "S", 5, 4, 0, 1, 1, 1, 0)],
        }
        path = tables.make(trial.path(f"{number}.db"), aged.book("S", 1, 0, act + 1, act, 200, **work))
        ticket = f"job {act + 1} waiting\npart {act}/7 S 0.5 x 0.4 kerf 0.0\n"
        ticket += f"   0 piece at 0.0 0.0 of 0.5 x 0.4 demand {act} A line 4294967295\ncuts 0 pieces 1\n"
        trial.ended(trial.run("ticket", "--store", path, str(act + 1)), 0, ticket)
        trial.ended(trial.run("ticket", "--store", path, str(act)), 1, err="refused 70 NoJob\n")
        shop = trial.shop(f"{number}.db")
        trial.equal(shop.get(f"/ticket/{act + 1}"), answer(200, ticket, "text/plain"))
        trial.equal(listed(shop, f"/jobs/{act}"), ([act + 1], False))
        reserve = compact({"do": "reserve", "number": 1, "part": f"{act}/8", "terminal": 1, "tree": "r"})
        trial.equal(shop.reply(reserve).decode(), refused(60, "BadTree"))
        done = compact({"do": "done", "job": act + 1, "number": 2, "terminal": 1})
        wanted = compact({"job": act + 1, "kerf": 0, "ok": "done", "pieces": 20, "rack": 0, "scrap": 0})
        trial.equal([shop.reply(done).decode(), shop.reply(done).decode()], [wanted] * 2)
        unit = {"batch": "B", "count": 1, "do": "receive", "h": 4, "material": "S", "number": 3, "terminal": 1, "w": 5}
        trial.equal(shop.reply(compact(unit)).decode(), compact({"act": act + 2, "count": 1, "ok": "receive"}))


ACTS = 1000000


@case(
    "a file of a million acts",
    "Behind a file of 1000000 acts, a unit and jobs that were released, the ticket of the last job and of the one before are "
    "reported, the lists report that job alone, and it is done.",
)
def million_acts(trial):
    released = [(it, 1, 0, "p1", 3) for it in range(2, ACTS)]
    work = {
        "orders": [("A",)],
        "parts": [(1, 0, "S", "B", 1, 0, 0, 0, 5, 4, 1, ACTS)],
        "jobs": [*released, (ACTS, 1, 0, "p1", 0)],
        "demands": [(1, "A", 1, "S", 5, 4, 0, 1, 1, 1, 0)],
    }
    path = tables.make(trial.path("shop.db"), aged.book("S", 1, 0, ACTS, 1, 20, **work))
    shop = trial.shop()

    def ticket(job, state):
        lines = [f"job {job} {state}", "part 1/0 S 0.5 x 0.4 kerf 0.0", "   0 piece at 0.0 0.0 of 0.5 x 0.4 demand 1 A line 1"]
        return "\n".join([*lines, "cuts 0 pieces 1", ""])

    for job, state in ((ACTS, "waiting"), (ACTS - 1, "released"), (2, "released")):
        trial.equal(long_answer(shop, f"/ticket/{job}").decode(), ticket(job, state))
    for after in (0, ACTS - 2, ACTS - 1):
        trial.equal(listed(shop, f"/jobs/{after}"), ([ACTS], False), f"jobs behind {after}")
    trial.equal(listed(shop, f"/jobs/{ACTS}"), ([], False))
    reply = shop.reply(compact({"do": "done", "job": ACTS, "number": 1, "terminal": 1}))
    trial.equal(reply.decode(), compact({"job": ACTS, "kerf": 0, "ok": "done", "pieces": 20, "rack": 0, "scrap": 0}))
    trial.equal(listed(shop, "/jobs/0"), ([], False))
    line, reply = received("S", 5, 9, ACTS + 1)
    trial.equal(shop.reply(line).decode(), reply)
    if trial.whole:
        shop.kill()
        trial.ended(trial.run("ticket", "--store", path, str(ACTS)), 0, ticket(ACTS, "done"))


@case(
    "a report of over 100 KB",
    "A yield report of 4000 parts, over 100 KB, is the same over HTTP and by `yield`, and has each part in order.",
)
def long_report(trial):
    parts = aged.units(4000, "GLASS", 100, 80)
    path = tables.make(trial.path("shop.db"), aged.book("GLASS", 1, 1, 40, 0, 32000000, parts=parts))
    numbers = [("received", 32000000), ("stock", 32000000), ("rack", 0), ("pieces", 0), ("kerf", 0), ("scrap", 0), ("returned", 0)]
    lines = ["yield GLASS sheet", *[f"{name:8}{number:17}" for name, number in numbers], "yield 0.0 %"]
    lines += [f"part {act}/{node} 10.0 x 8.0 standing" for act, node, *_ in parts]
    report = "\n".join([*lines, "end", ""])
    trial.holds(len(report) > 100000, len(report))
    shop = trial.shop()
    trial.equal(long_answer(shop, "/yield/GLASS").decode(), report)
    shop.kill()
    trial.ended(trial.run("yield", "--store", path, "GLASS"), 0, report)


@case(
    "rows and tables that no store has",
    "A kerf part with a detail, a total returned below 0, and another program's table `kept`, alone or beside others, are `fault "
    "version`; the file stays as it was.",
)
def no_rows(trial):
    kept = "CREATE TABLE kept (word TEXT NOT NULL PRIMARY KEY) STRICT; INSERT INTO kept VALUES ('a')"
    changes = [
        (ROWS, "UPDATE parts SET detail = 5 WHERE state = 4"),
        (ROWS, "UPDATE parts SET detail = -1 WHERE act = 2 AND node = 0"),
        (ROWS, "UPDATE totals2 SET returned = -1"),
        (ROWS, "UPDATE totals2 SET returned = -1, kerf = kerf + 1"),
        (None, kept),
        (None, f"{kept}; CREATE TABLE other (x INTEGER NOT NULL) STRICT"),
    ]
    for number, (rows, change) in enumerate(changes):
        path = tables.make(trial.path(f"{number}.db"), rows) if rows else trial.path(f"{number}.db")
        tables.change(path, change)
        before = tables.dump(path)
        words = ("yield", "--store", path, "GLASS") if number % 2 else ("ticket", "--store", path, "2")
        trial.ended(trial.run(*words), 1, err="fault version\n", sent=change)
        trial.equal(tables.dump(path), before, change)
