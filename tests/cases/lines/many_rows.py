"""Orders of many lines, many orders, many parts of a material in memory, and what a question costs behind a long history."""

import itertools
import json
from collections import Counter

from kit import aged, tables
from kit.case import case
from kit.days import Replay
from kit.lines import added, imported, over_both, refused
from kit.old_shops import HISTORIES, PLENTY, SAID, ask, at_most_thrice, begun, measured, old_store, work
from kit.order_files import HEADER
from kit.plans import cut_from
from kit.questions import compact, name_key, rows_of
from kit.yards import Yard


@case(
    "orders of 13, 100 and 200 lines",
    "Each line is a demand of its own, in the list of what is open and in the tables, also when the shop is opened again; an "
    "order of 201 lines is refused 41 and leaves nothing.",
)
def long_orders(trial):
    yard, wanted = Yard(), []
    yard.material("GLASS", 1, "sheet")
    for count in (13, 100, 200):
        lines = [(5 + it, 400 - it, 1 + it % 7, it % 3 == 0) for it in range(count)]
        order = f"A-1-{len(yard.lines)}"
        first = yard.order("GLASS", *lines)
        wanted += [(first + it, order, it + 1, *line) for it, line in enumerate(lines)]
    many = json.loads(yard.lines[-1])
    many |= {"lines": [{**many["lines"][0], "line": it} for it in range(1, 202)], "number": 9, "order": "B-1"}
    for open_book in (yard.replay, yard.serve):
        shop = open_book(trial)
        trial.equal(shop.reply(compact(many)).decode(), refused(41, "BadLine"))
        check_demands(trial, shop, wanted)
    shop.kill()
    again = trial.shop()
    check_demands(trial, again, wanted)
    again.kill()
    rows = [(it[0], it[1], it[2], it[4], it[5], it[8], bool(it[6])) for it in tables.rows(shop.store)["demands"]]
    trial.equal(rows, wanted)


def check_demands(trial, shop, wanted):
    found = rows_of(shop.reply, "demands", "demand", 0)
    keys = ("demand", "order", "line", "w", "h", "wanted", "turn")
    trial.equal([tuple(it[key] for key in keys) for it in found], wanted)
    one = json.loads(shop.reply(compact({"ask": "demand", "demand": wanted[-1][0]})))
    trial.equal((one["order"], one["line"], one["wanted"], one["made"]), (wanted[-1][1], wanted[-1][2], wanted[-1][5], 0))


def lines_of(shop, order):
    """The lines that are reported of an order, as what is wanted, reserved and made of each."""
    output = json.loads(shop.reply(compact({"ask": "lines", "order": order})))
    return [tuple(it[key] for key in ("demand", "line", "wanted", "reserved", "made")) for it in output["lines"]]


def orders_of(shop, after=""):
    """The orders that are reported behind a code, as tuples of all that is reported of each, and whether others follow."""
    output = json.loads(shop.reply(compact({"after": after, "ask": "orders"})))
    keys = ("order", "lines", "wanted", "reserved", "made")
    return [tuple(it[key] for key in keys) for it in output["orders"]], output["more"]


@case(
    "an order of 200 lines that are amended",
    "All 200 lines of an order are reported, whatever becomes of them: each is amended, some are reserved and made, and the sums of "
    "the order are those of its lines, also when the shop is opened again.",
)
def amended_lines(trial):
    yard, order = Yard(), "A-1-2"
    yard.material("STEEL", 3)
    yard.receive("STEEL", 1000, 1, 3)
    first = yard.bars("STEEL", *[(it, 1000000) for it in range(1, 201)])
    wanted = {it: [it, it, 1000000, 0, 0] for it in range(first, first + 200)}
    for it in wanted:
        yard.amend(it, (it * 7919) % 1000001 if it % 3 else 0)
        wanted[it][2] = (it * 7919) % 1000001 if it % 3 else 0
    yard.cut("1/0", "x10 p10 x10 p10 x20 p20 r")
    yard.reserve("1/1", "x200 p200 x10 p10 x10 p10 x10 p10 r")
    yard.amend(20, 1)
    yard.amend(10, 5)
    for it, keys in ((10, (5, 3, 2)), (20, (1, 0, 1)), (200, ((200 * 7919) % 1000001, 1, 0))):
        wanted[it][2:] = keys
    rows = [tuple(it) for it in wanted.values()]
    sums = (order, 200, *[sum(it[at] for it in rows) for at in (2, 3, 4)])
    open_rows = [it[0] for it in rows if it[4] < it[2]]
    for open_book in (yard.replay, yard.serve):
        shop = open_book(trial)
        check_order(trial, shop, order, rows, sums, open_rows)
    shop.kill()
    check_order(trial, trial.shop(), order, rows, sums, open_rows)


def check_order(trial, shop, order, rows, sums, open_rows):
    trial.equal(lines_of(shop, order), rows)
    trial.equal(orders_of(shop), ([sums], False))
    trial.equal([it["demand"] for it in rows_of(shop.reply, "demands", "demand", 0)], open_rows)


@case(
    "lists of 100 and of 101 orders",
    "100 orders are reported at once, and of 101 the first 100 and that others follow; page by page all are reported once, with the sums "
    "of their lines, and behind any code those that are greater.",
)
def many_orders(trial):
    yard, wanted = Yard(), {}
    yard.material("STEEL", 3)
    for it in range(101):
        # (as texts A-1-10 comes before A-1-2)
        lines = [(30, 1 + it + line) for line in range(1 + it % 3)]
        first, code = yard.bars("STEEL", *lines), json.loads(yard.lines[-1])["order"]
        wanted[code] = (code, len(lines), sum(count for _, count in lines), 0, 0)
        if it % 5 == 1:
            yard.amend(first, 0)
            wanted[code] = (code, len(lines), sum(count for _, count in lines[1:]), 0, 0)
    last, rows = yard.lines.pop(), [wanted[it] for it in sorted(wanted)]
    for open_book in (yard.replay, yard.serve):
        shop = open_book(trial)
        trial.equal(orders_of(shop), ([it for it in rows if it[0] != code], False))
        trial.holds(b'"ok"' in shop.reply(last), last)
        for after in ("", "A", "A-1-", "A-1-1", "A-1-2ZZ", "A-1-99", rows[0][0], rows[50][0], *[it[0] for it in rows[99:]], "Z"):
            behind = [it for it in rows if it[0] > after]
            trial.equal(orders_of(shop, after), (behind[:100], len(behind) > 100), after)


def check_parts(trial, shop, code, names):
    """The pages of a material's standing parts are those of these names, at the first, the last and some between."""
    afters = [None, names[0], names[len(names) // 2], *names[-102:-99], *names[-2:]]
    for after in afters:
        behind = [it for it in names if after is None or it > after]
        text = "{}/{}".format(*after) if after else ""
        page = json.loads(shop.reply(compact({"ask": "parts", "after": text, "material": code})))
        trial.equal(([name_key(it["part"]) for it in page["parts"]], page["more"]), (behind[:100], len(behind) > 100), text)


@case(
    "70000 parts of a material in memory",
    "A material of which 70000 units stand in `replay` is counted, listed from any name on, cut, scrapped and returned.",
)
def many_parts(trial):
    yard = Yard()
    yard.material("STEEL", 3)
    for _ in range(700):
        yard.receive("STEEL", 100, 1, 100)
    demand = yard.bars("STEEL", (30, 3))
    job = yard.cut("400/50", f"x30 p{demand} r")
    yard.send(do="scrap", part="1/0")
    yard.send(do="return", part="700/99")
    shop = yard.replay(trial)
    totals = {"kerf": 3, "pieces": 30, "rack": 67, "received": 7000000, "returned": 100, "scrap": 100, "stock": 6999700}
    wanted = compact({"material": "STEEL", "ok": "totals", **totals})
    trial.equal(shop.reply('{"ask":"totals","material":"STEEL"}').decode(), wanted)
    gone = [(1, 0), (400, 50), (700, 99)]
    names = [it for it in itertools.product(range(1, 701), range(100)) if it not in gone] + [(job, 2)]
    check_parts(trial, shop, "STEEL", names)
    for after in ("399/99", "400/50", "655/35"):
        behind = [it for it in names if it > name_key(after)]
        page = json.loads(shop.reply(compact({"ask": "parts", "after": after, "material": "STEEL"})))
        trial.equal(([name_key(it["part"]) for it in page["parts"]], page["more"]), (behind[:100], True), after)
    rack = json.loads(shop.reply('{"ask":"rack","material":"STEEL"}'))["parts"]
    trial.equal(rack, [{"h": 1, "part": f"{job}/2", "state": "standing", "w": 67}])


@case(
    "65535 to 70001 parts of a material in a file",
    "Of 65535 and of 69999 standing units in a file, and of the next two, each is counted and listed from any name on; one is "
    "cut, one scrapped and one returned, also when the shop is opened again.",
)
def many_parts_in_file(trial):
    for count in (65535, 69999):
        acts = (count + 99) // 100
        rows = aged.book("STEEL", 0, 3, acts, 0, 100 * count, parts=aged.units(count, "STEEL", 100))
        shop = served(trial, tables.make(trial.path(f"{count}.db"), rows))
        names, yard = [it[:2] for it in rows["parts"]], Yard()
        yard.acts = acts
        for _ in range(2):
            yard.receive("STEEL", 100)
            yard.fill(trial, shop)
            names.append((yard.acts, 0))
            check_parts(trial, shop, "STEEL", names)
        demand = yard.bars("STEEL", (30, 3))
        job = yard.cut("400/50", f"x30 p{demand} r")
        yard.send(do="scrap", part="1/0")
        yard.send(do="return", part="650/99")
        names = [it for it in names if it not in ((1, 0), (400, 50), (650, 99))] + [(job, 2)]
        totals = {"kerf": 3, "pieces": 30, "rack": 67, "returned": 100, "scrap": 100, "stock": 100 * (count - 1)}
        wanted = compact({"material": "STEEL", "ok": "totals", "received": 100 * (count + 2), **totals})
        for _ in range(2):
            # (each message of the yard, sent again, gets its reply and changes nothing)
            yard.fill(trial, shop)
            trial.equal(shop.reply('{"ask":"totals","material":"STEEL"}').decode(), wanted)
            check_parts(trial, shop, "STEEL", names)
            shop.kill()
            shop = served(trial, shop.store)
        shop.kill()


def served(trial, path):
    shop = trial.shop(path)
    trial.holds(shop.is_open, f"{path}: {getattr(shop, 'errors', b'')}")
    return shop


@case(
    "70000 receipts in memory",
    "`replay` keeps apart 70000 receipts of a unit each, every one of a batch of its own: the last are listed and traced, and "
    "the very last is returned.",
)
def many_receipts(trial):
    yard, count = Yard(), 70000
    yard.material("STEEL", 3)
    for it in range(1, count + 1):
        yard.send(do="receive", material="STEEL", batch=f"B-{it}", w=it, h=1, count=1)
    yard.send(do="return", part=f"{count}/0")
    asked = [compact({"ask": "trace", "part": f"{it}/0"}) for it in (1, 65535, 65536, 65537, count)]
    asked.append(compact({"ask": "parts", "after": f"{count - 3}/0", "material": "STEEL"}))
    output = [json.loads(it) for it in trial.replay([*yard.lines, *asked]).out.split(b"\n")[:-1]]
    trial.equal([it for it in output if "ok" not in it], [])
    for it in output[-6:-1]:
        act = it["w"]
        state = "returned" if act == count else "standing"
        wanted = {"batch": f"B-{act}", "part": f"{act}/0", "root": f"{act}/0", "state": state}
        trial.equal({key: it[key] for key in wanted}, wanted)
    trial.equal([it["w"] for it in output[-6:-1]], [1, 65535, 65536, 65537, count])
    last = [(f"{it}/0", f"B-{it}") for it in (count - 2, count - 1)]
    trial.equal([(it["part"], it["batch"]) for it in output[-1]["parts"]], last)


@case(
    "repeats of orders of 13, 100 and 200 lines",
    "Orders of 13, 100 and 200 lines and an order file of 200, sent again, have their replies, also when the shop is opened "
    "again; with another last line they are refused 11. Plans of 13 and of 40 of their demands hold a piece of each.",
)
def long_repeats(trial):
    yard, text = Yard(), HEADER + "".join(f"{it},B,3.0,0.1,no,3,30\n" for it in range(1, 201))
    yard.material("B")
    yard.receive("B", 400)
    steps, others = [(yard.lines[0], added("B")), (yard.lines[1], '{"act":1,"count":1,"ok":"receive"}')], []
    for count in (13, 100, 200):
        first = yard.bars("B", *[(10, 1)] * count)
        order = json.loads(yard.lines[-1])
        steps.append((yard.lines[-1], compact({"count": count, "first": first, "ok": "order", "order": order["order"]})))
        order["lines"][-1]["count"] = 2
        others.append((compact(order), refused(11, "NumberReused")))
    wanted = compact({"act": 0, "count": 200, "first": yard.demands + 1, "ok": "import", "order": "C-1"})
    steps.append((imported(90, "C-1", "csv", text), wanted))
    others.append((imported(90, "C-1", "csv", text.replace("\n200,B,3.0", "\n200,B,3.1")), refused(11, "NumberReused")))
    over_both(trial, [*steps, *steps, *others, *steps])
    shop = trial.shop()
    for line, reply in [*steps, *others]:
        trial.equal(shop.reply(line).decode(), reply, line[:200])
    for count in (13, 40):
        asked = {"ask": "plan", "demands": list(range(1, count + 1)), "part": "1/0", "step": 0}
        output = json.loads(shop.reply(compact(asked)))
        pieces = cut_from(400, 1, 0, {it: (10, 1, False) for it in range(1, count + 1)}, output["tree"])
        trial.equal((output["worth"], pieces), (count, Counter(range(1, count + 1))))


# A shop that is old.


def old_memory(trial, count):
    """The same in memory, behind so many parts that were cut, and a fifth of so many orders and jobs."""
    yard = begun()
    cut = yard.then(5)
    aged.cut_up(cut, "STEEL", count)
    undone = cut.then(3)
    aged.undone(undone, "STEEL", count // 5, "20/2")
    last = undone.then(2)
    work(last)
    shop = Replay(trial, {})
    lines = [*yard.lines, *cut.lines, *undone.lines, *last.lines]
    trial.equal([it for it in shop.replies(lines) if b'"ok"' not in it], [])
    return shop, cut, undone


# What is asked of either book, by its name.
ASKED = {
    "materials": '{"ask":"materials"}',
    "totals": '{"ask":"totals","material":"STEEL"}',
    "parts": '{"after":"","ask":"parts","material":"STEEL"}',
    "parts behind": '{"after":"15/0","ask":"parts","material":"STEEL"}',
    "demands": '{"after":0,"ask":"demands"}',
    "demands of a material": '{"after":0,"ask":"demands","material":"STEEL"}',
    "demand": '{"ask":"demand","demand":7}',
    "jobs": '{"after":0,"ask":"jobs"}',
    "rack": '{"ask":"rack","material":"STEEL"}',
    "trace": '{"ask":"trace","part":"20/2"}',
    "terminal": '{"ask":"terminal","terminal":1}',
    "orders": '{"after":"","ask":"orders"}',
    "lines": '{"ask":"lines","order":"A-1-1"}',
    "plan": '{"ask":"plan","demands":[1,2,3],"part":"20/2","step":0}',
    "bound": '{"ask":"bound","demands":[1,2,3],"h":1,"material":"STEEL","step":0,"w":100}',
    "plans": '{"ask":"plans","calls":1,"demands":[1],"material":"STEEL","parts":["19/2","20/2"]}',
    "plans of all": '{"ask":"plans","calls":1,"material":"STEEL"}',
}


def costs(trial, shop, asked):
    """How many seconds of a processor each question takes, by its name, and each message; the least of some rounds."""
    numbers = itertools.count(1)

    def send(**keys):
        return json.loads(ask(trial, shop, compact({**keys, "number": next(numbers), "terminal": 7})))

    def receive():
        return f"{send(do='receive', material='STEEL', batch='B', w=100, h=1, count=1)['act']}/0"

    def reserve(part):
        return send(do="reserve", part=part, tree=f"x30 p{PLENTY} r")["job"]

    deeds = {name: lambda line=line: ask(trial, shop, line) for name, line in asked.items()}
    deeds["a receipt"] = receive
    deeds["an amend"] = lambda: send(do="amend", demand=SAID, wanted=7)
    deeds["a reservation and its release"] = lambda: send(do="release", job=reserve("20/2"))
    deeds["a cut"] = lambda: send(do="done", job=reserve(receive()))
    deeds["a scrap"] = lambda: send(do="scrap", part=receive())
    return measured(shop, deeds)


@case(
    "questions and messages of an old shop",
    "Behind 100000 parts, jobs, orders and messages of history each list, a job, a ticket and a report, a rack, the "
    "totals, a plan, a repeat and each message take at most three times the processor time that they take behind 1000.",
)
def old_shop(trial):
    job, (repeat, reply) = aged.HISTORY, aged.scrapped(500)
    asked = ASKED | {
        "orders behind": '{"after":"OLD-5","ask":"orders"}',
        "lines of an old order": '{"ask":"lines","order":"OLD-500"}',
        "demands behind": f'{{"after":{job - 1},"ask":"demands"}}',
        "job": f'{{"ask":"job","job":{job}}}',
        "trace of an old part": f'{{"ask":"trace","part":"{job}/0"}}',
        "old demand": f'{{"ask":"demand","demand":{job}}}',
        "terminal of many": f'{{"ask":"terminal","terminal":{aged.EARLIER}}}',
        "ticket": f"/ticket/{job}",
        "yield": "/yield/STEEL",
        "repeat": repeat,
    }
    output = []
    for count in HISTORIES:
        shop = old_store(trial, count)
        trial.equal(shop.reply(repeat).decode(), reply)
        trial.equal(json.loads(shop.reply(asked["terminal of many"]))["last"], count - 1)
        output.append(costs(trial, shop, asked))
    at_most_thrice(trial, *output, HISTORIES)


@case(
    "questions and messages of an old shop in memory",
    "The same of `replay`, behind 100000 parts that were cut, 20000 orders and 20000 jobs, and behind a hundredth of that.",
)
def old_in_memory(trial):
    output = []
    for count in HISTORIES:
        shop, cut, undone = old_memory(trial, count)
        asked = ASKED | {
            "demands behind": f'{{"after":{cut.demands - 1},"ask":"demands"}}',
            "job": f'{{"ask":"job","job":{undone.acts - 1}}}',
            "trace of an old part": f'{{"ask":"trace","part":"{cut.acts}/1"}}',
            "old demand": f'{{"ask":"demand","demand":{cut.demands}}}',
            "terminal of many": '{"ask":"terminal","terminal":3}',
            "orders behind": '{"after":"A-3-","ask":"orders"}',
            "lines of an old order": compact({"ask": "lines", "order": json.loads(undone.lines[-4])["order"]}),
            "repeat": undone.lines[100],
        }
        output.append(costs(trial, shop, asked))
        trial.equal(shop.end(), (0, b""))
    at_most_thrice(trial, *output, HISTORIES)


@case(
    "lists of much work in an old shop",
    "5000 waiting jobs and 5000 open demands behind 100000 of history are listed, from any number on, in at most three times "
    "the processor time that they take behind 1000.",
)
def much_work(trial):
    output, more = [], 5000
    first = aged.WORK + more // 100
    asked = {
        "jobs": '{"after":0,"ask":"jobs"}',
        "jobs in between": f'{{"after":{first + more // 2},"ask":"jobs"}}',
        "last jobs": f'{{"after":{first + more - 50},"ask":"jobs"}}',
        "demands": '{"after":0,"ask":"demands"}',
        "demands of a material": f'{{"after":{aged.HISTORY},"ask":"demands","material":"STEEL"}}',
        "last demands": f'{{"after":{aged.WORK + more - 50},"ask":"demands"}}',
    }
    for count in HISTORIES:
        shop = old_store(trial, count, more)
        behind = json.loads(shop.reply(asked["jobs in between"]))["jobs"]
        trial.equal([it["job"] for it in behind], [first + more // 2 + it for it in range(1, 101)])
        output.append(costs(trial, shop, asked))
    at_most_thrice(trial, *output, HISTORIES)
