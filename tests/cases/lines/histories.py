"""The history of a shop: what makes an entry, what an entry is about, and what `shop`, `history` and `story` report of them."""

import json
import time

from kit import tables
from kit.backups import REQUEST, open_shop, posting
from kit.backups import backup_answer
from kit.case import case
from kit.days import Replay
from kit.earlier import made
from kit.faults import Faults
from kit.full_day import CGCUT, CSV, DAY, EXCHANGES, GLASS_FILE, PANE, STEEL, STEEL_FILE, all_entries, history, ordered, received, reserved
from kit.glass import GLASS, SHEET
from kit.journals import Journal, canonical, journal_of
from kit.questions import compact
from kit.shop import answer
from kit.stores import ORDERS
from kit.terminals import Terminal, at_once
from kit.yards import Yard

SHOP = '{"ask":"shop"}'
NONE = b'{"began":0,"entries":0,"last":0,"ok":"shop"}'


# Of each subject the numbers of the entries about it.
ABOUT = [
    ({"order": "A-1"}, (3, 5, 6, 7, 8)),
    ({"order": "A-2"}, (4, 6, 8, 9, 10, 11, 12, 16)),
    ({"order": "A-3"}, (17, 18, 19)),
    ({"order": "CG-1"}, (21, 22, 23)),
    ({"job": 2}, (5, 7)),
    ({"job": 3}, (6, 8)),
    ({"job": 4}, (9, 10)),
    ({"job": 5}, (11, 12)),
    ({"job": 8}, (23,)),
    ({"part": "1/0"}, (2, 5, 7)),
    ({"part": "1/1"}, (2, 6, 8)),
    ({"part": "2/0"}, (7,)),
    ({"part": "2/1"}, (7,)),
    ({"part": "2/4"}, (7, 9, 10, 11, 12)),
    ({"part": "3/1"}, (8,)),
    ({"part": "3/2"}, (8, 13)),
    ({"part": "5/2"}, (12,)),
    ({"part": "6/0"}, (14, 15)),
    ({"part": "7/0"}, (21, 23)),
]
# Subjects that aren't there: another order, receipts that are no jobs, and parts that no message made.
NOT_THERE = [({"order": "A-4"}, (43, "NoOrder"))]
NOT_THERE += [({"job": it}, (70, "NoJob")) for it in (1, 6, 7, 9)]
NOT_THERE += [({"part": it}, (50, "NoPart")) for it in ("1/2", "2/5", "4/0", "8/0", "9/0", "3/3")]


def answer_of(numbers):
    """The entries of these numbers of the day, as they are reported, at 0."""
    found = []
    for it in numbers:
        line, reply = EXCHANGES[it - 1]
        found.append({"at": 0, "entry": it, "message": json.loads(line), "reply": json.loads(reply)})
    return found


def output(word, numbers):
    return compact({"entries": answer_of(numbers), "more": False, "ok": word})


def asked(trial, shop, line, wanted):
    trial.equal(shop.reply(line).decode(), wanted, line)


def story(after=0, **about):
    return compact({"after": after, "ask": "story", **about})


def over_each(trial, exchanges, check):
    """Sends messages to `replay` and to `serve`, whose clock stands at 0, and checks each shop; that of `serve` once more when it was
    opened again."""
    shop = Replay(trial, {})
    for line, reply in exchanges:
        trial.equal(shop.reply(line).decode(), reply, line)
    check(shop)
    trial.equal(shop.end(), (0, b""))
    for _ in range(2):
        # (in the second round each message gets its kept reply)
        shop = trial.shop(environment=Faults(trial, date=0).environment)
        for line, reply in exchanges:
            trial.equal(shop.reply(line).decode(), reply, line)
        check(shop)
        shop.kill()
    return shop.store


@case(
    "what an entry is about",
    "Of a day with each command the story of each order, job and part has exactly the messages about it: their texts and replies, as they "
    "are kept, behind any number; what isn't there is refused 43, 70 or 50.",
)
def subjects(trial):
    def check(shop):
        asked(trial, shop, SHOP, compact({"began": 0, "entries": len(DAY), "last": 0, "ok": "shop"}))
        asked(trial, shop, history(), output("history", range(1, len(DAY) + 1)))
        for about, numbers in ABOUT:
            asked(trial, shop, story(**about), output("story", numbers))
            for after in (numbers[0] - 1, numbers[0], numbers[-1] - 1, numbers[-1], len(DAY)):
                asked(trial, shop, story(after, **about), output("story", [it for it in numbers if it > after]))
        for about, (number, name) in NOT_THERE:
            for after in (0, 5):
                asked(trial, shop, story(after, **about), compact({"name": name, "refused": number}))

    path = over_each(trial, EXCHANGES, check)
    # (the kit reckons the same entries, by rules of its own, for other cases)
    journal = journal_of(EXCHANGES)
    trial.equal([(about, tuple(it.number for it in journal.about(**about))) for about, _ in ABOUT], ABOUT)
    found = tables.rows(path)
    trial.equal(found["journal"], journal.rows())
    trial.equal(found["uses"], [(2, "A-1"), (3, "A-1"), (3, "A-2"), (4, "A-2"), (5, "A-2"), (8, "CG-1")])
    trial.equal(found["uses"], journal.used())


@case(
    "an order of several pieces in the orders of a job",
    "A plan with pieces of three orders, of one of them twice and of another turned, is about each of them, and about none of whose lines it has no "
    "piece.",
)
def several_orders(trial):
    yard = Yard()
    yard.material("GLASS", 0, "sheet")
    yard.receive("GLASS", 40, 30)
    first = yard.order("GLASS", (10, 30, 5, False), (7, 7, 1, False))
    second = yard.order("GLASS", (30, 10, 5, True))
    yard.order("GLASS", (10, 30, 5, False))
    fourth = yard.order("GLASS", (5, 5, 1, False), (10, 30, 5, False))
    job = yard.reserve("1/0", f"x10 p{first} x10 p{second}t x10 p{first} p{fourth + 1}")
    yard.send(do="done", job=job)
    codes = [json.loads(it)["order"] for it in yard.lines if '"order"' in it]
    shop = yard.replay(trial)
    exchanges = [(line, shop.reply(line).decode()) for line in yard.lines]
    trial.equal(shop.end(), (0, b""))

    def check(shop):
        for code, numbers in zip(codes, ((3, 7, 8), (4, 7, 8), (5,), (6, 7, 8))):
            found = json.loads(shop.reply(story(order=code)))["entries"]
            trial.equal([it["entry"] for it in found], list(numbers), code)

    path = over_each(trial, exchanges, check)
    trial.equal(tables.rows(path)["uses"], sorted((job, codes[it]) for it in (0, 1, 3)))


@case(
    "what makes no entry",
    "A repeat, each refused message, another message under a kept pair, a query and a question for plans make no entry and change none, in "
    "memory and in a file.",
)
def no_entry(trial):
    lines = [line for line, _ in EXCHANGES[:7]]
    refused = [{"do": "material", **STEEL, "kerf": 4}, {"do": "material", **PANE, "min_long": 0}, received("B", 100, 0), received("B", 0, 1)]
    refused += [ordered("A-1", 30, 3), ordered("A-9", 30, 0), reserved("1/0", "r"), reserved("1/1", "p1"), {"do": "done", "job": 2}]
    refused += [{"do": "release", "job": 9}, {"do": "scrap", "part": "1/0"}, {"do": "return", "part": "2/4"}]
    refused += [{"demand": 1, "do": "amend", "wanted": 1}, {"cuts": 1, "do": "break", "job": 3, "lost": 1}, {**CSV, "text": "x"}, CGCUT]
    others = [compact({**it, "number": at, "terminal": 9}) for at, it in enumerate(refused, 1)]
    # (another message under a pair that is kept, lines that are none, queries, and a question for plans)
    others += [compact({**json.loads(lines[0]), "kerf": 5}), "", "{}", "x", SHOP, history(), story(job=2), '{"ask":"materials"}']
    others += ['{"ask":"totals","material":"STEEL"}', '{"ask":"plan","demands":[2],"part":"2/4","step":1}']
    others += ['{"ask":"plans","calls":5,"material":"STEEL"}', '{"ask":"terminal","terminal":9}']

    def check(shop):
        before = [shop.reply(it) for it in (SHOP, history())]
        trial.equal(before[1].decode(), output("history", range(1, 8)))
        for line in (*lines, *others, *lines[::-1]):
            shop.reply(line)
            trial.equal([shop.reply(it) for it in (SHOP, history())], before, line)
        for line in others[: len(refused) + 4]:
            trial.holds(b'"refused"' in shop.reply(line), line)

    path = over_each(trial, EXCHANGES[:7], check)
    trial.equal(tables.rows(path)["journal"], journal_of(EXCHANGES[:7]).rows())


def amended(count):
    """A yard with so many entries: a material, an order, and amends of its line."""
    yard = Yard()
    yard.material("STEEL", 3)
    demand = yard.bars("STEEL", (30, 1))
    for it in range(count - 2):
        yard.amend(demand, 1 + it % 1000)
    return yard


# Numbers behind which entries are asked for, by how many there are.
AFTERS = (0, 1, 2, 99, 100, 101, 102, 199, 200, 201, 202, 1000, 2147483647)


@case(
    "pages of 100 entries",
    "100 entries are reported at once, and of 101 the first 100 and that more follow, of the whole history and of an order's story; behind any "
    "number those with greater ones; behind the last and beyond none.",
)
def pages(trial):
    yard = amended(202)
    order = json.loads(yard.lines[1])["order"]
    shop, served = Replay(trial, {}), trial.shop(environment=Faults(trial, date=0).environment)
    journal, sent = Journal(), 0
    for count in (100, 101, 102, 202):
        for line in yard.lines[sent:count]:
            reply = shop.reply(line).decode()
            trial.equal(served.reply(line).decode(), reply, line)
            journal.accept(line, reply)
        sent = count
        for it in (shop, served):
            for after in AFTERS:
                asked(trial, it, history(after), journal.history(after))
                asked(trial, it, story(after, order=order), journal.story(after, order=order))
        first = json.loads(shop.reply(history()))
        trial.equal((len(first["entries"]), first["more"]), (100, count > 100), count)
        # (the material is in no order's story)
        first = json.loads(shop.reply(story(order=order)))
        trial.equal((len(first["entries"]), first["more"]), (min(count - 1, 100), count > 101), count)
    asked(trial, shop, history(4294967295), '{"entries":[],"more":false,"ok":"history"}')
    asked(trial, shop, story(4294967295, order=order), '{"entries":[],"more":false,"ok":"story"}')


def padded(number, count, pair=None):
    """An import of an order file of an order and a message of a number, with so many line feeds in front of its row; and its reply."""
    text = ORDERS.replace("\n1,", "\n" + "\n" * count + "1,")
    message = {"do": "import", "form": "csv", "number": pair or number, "order": f"A-{number}", "terminal": 1, "text": text}
    return compact(message), compact({"act": 0, "count": 1, "first": number - 1, "ok": "import", "order": f"A-{number}"})


def bytes_of(exchanges):
    """How many bytes messages and replies have as they are kept."""
    return sum(len(canonical(it).encode()) for pair in exchanges for it in pair)


ADDED = compact({"do": "material", **STEEL, "number": 1, "terminal": 2}), '{"material":"STEEL","ok":"material"}'


def of_bytes(whole):
    """Exchanges of a material, of nine imports whose texts and replies have so many bytes together, and of two imports more."""
    many = [padded(number, 55000) for number in range(2, 10)]
    left = whole - bytes_of([*many, padded(10, 0)])
    # (a line feed takes two bytes in a message's text, and one digit more of its number one)
    return [ADDED, *many, padded(10, left // 2, 100 if left % 2 else None), padded(11, 0), padded(12, 0)]


@case(
    "pages of 1000000 bytes",
    "Texts and replies of nine entries that have 999999 bytes are reported with the next, and none behind it; of nine that have 1000000 none "
    "behind; of the whole history and of a part's, in memory and in a file.",
)
def bytes_told(trial):
    for whole, last in ((999998, 11), (999999, 11), (1000000, 10), (1000001, 10)):
        exchanges = of_bytes(whole)
        trial.equal(bytes_of(exchanges[1:10]), whole, "the case's own texts")
        trial.holds(max(len(line) for line, _ in exchanges) <= 131072, "a line is too long")
        journal = journal_of(exchanges)
        shop = Replay(trial, {})
        trial.equal([it.decode() for it in shop.replies([line for line, _ in exchanges])], [it for _, it in exchanges])
        served = trial.shop(f"{whole}.db", environment=Faults(trial, date=0).environment)
        for line, reply in exchanges:
            trial.equal(served.reply(line).decode(), reply)
        for it in (shop, served):
            found = json.loads(it.reply(history(1)))
            trial.equal([row["entry"] for row in found["entries"]], list(range(2, last + 1)), whole)
            trial.equal(found["more"], True, whole)
            for after in (0, 1, 2, last - 1, last, 11, 12):
                asked(trial, it, history(after), journal.history(after))
        trial.equal(shop.end(), (0, b""))
        served.kill()


def imported_again(number, count):
    """The import of one order, with so many line feeds in its text, under a number."""
    return padded(2, count, number)


@case(
    "a story of 1000000 bytes",
    "Of an order whose import came again and again, nine times with texts and replies of 1000000 bytes, none behind the ninth is reported in its "
    "story; with 999999 the tenth, too.",
)
def bytes_of_story(trial):
    count = (1000000 // 9 - bytes_of([imported_again(1, 0)])) // 2
    for whole, last in ((1000000, 10), (999999, 11)):
        left, numbers = whole - 9 * bytes_of([imported_again(1, count)]), []
        # (the text is one and the same; the digits of the numbers make up what is left)
        for number in range(1, 10):
            more = min(left, 8)
            numbers.append(number * 10**more)
            left -= more
        exchanges = [ADDED, *[imported_again(it, count) for it in (*numbers, 11, 12)]]
        trial.equal(bytes_of(exchanges[1:10]), whole, "the case's own texts")
        shop = Replay(trial, {})
        trial.equal([it.decode() for it in shop.replies([line for line, _ in exchanges])], [it for _, it in exchanges])
        found = json.loads(shop.reply(story(order="A-2")))
        trial.equal(([row["entry"] for row in found["entries"]], found["more"]), (list(range(2, last + 1)), True), whole)
        for after in (0, 1, 2, 10, 11):
            asked(trial, shop, story(after, order="A-2"), journal_of(exchanges).story(after, order="A-2"))
        trial.equal(shop.end(), (0, b""))


@case(
    "entries of all terminals in one order",
    "Eight terminals post at once: entries are numbered over all of them, each accepted message once, and in their order `replay` gives "
    "each message the same reply; `shop` reports how many there are, also behind a stop.",
)
def one_order(trial):
    count, terminals = 13, [Terminal(it) for it in range(1, 9)]
    shop = trial.shop()
    trial.equal(at_once(shop, terminals, count), [])
    entries = all_entries(trial, shop)
    trial.equal([it["entry"] for it in entries], list(range(1, 8 * count + 1)))
    lines = [(compact(it["message"]), compact(it["reply"])) for it in entries]
    trial.equal(sorted(lines), sorted(exchange for it in terminals for exchange in it.exchanges))
    times = [it["at"] for it in entries]
    trial.equal(times, sorted(times))
    again = trial.replay([line for line, _ in lines])
    trial.equal(again.out.decode().split("\n")[:-1], [reply for _, reply in lines])
    journal = Journal()
    for line, reply in lines:
        journal.accept(line, reply)
    wanted = compact({"began": times[0], "entries": len(times), "last": times[-1], "ok": "shop"})
    for _ in range(2):
        asked(trial, shop, SHOP, wanted)
        check_stories(trial, shop, journal, terminals)
        shop.kill()
        trial.equal(tables.rows(shop.store)["journal"], journal.rows())
        trial.equal(tables.rows(shop.store)["uses"], journal.used())
        shop = trial.shop()


@case(
    "the history of a backup",
    "A backup that is made while eight terminals post has exactly the entries up to its answer: those of the shop's history from the first on, each "
    "message that was answered before it was asked for, and none that was sent behind its answer; done again in their order they get the same replies.",
)
def backups(trial):
    shop, terminals, bounds = open_shop(trial), [Terminal(it) for it in range(1, 9)], []
    with posting(shop, terminals) as faults:
        for number in range(1, 7):
            limit, last = time.monotonic() + 30, bounds[-1][1] if bounds else 0
            while sum(len(it.exchanges) for it in terminals) < last + 4 and time.monotonic() < limit:
                time.sleep(0.001)
            before = sum(len(it.exchanges) for it in terminals)
            trial.equal(shop.exchange(REQUEST), backup_answer(number))
            bounds.append((before, sum(len(it.exchanges) for it in terminals) + len(terminals)))
    trial.equal(faults, [])
    entries = all_entries(trial, shop)
    shop.kill()
    again = trial.replay([compact(it["message"]) for it in entries])
    trial.equal(again.out.decode().split("\n")[:-1], [compact(it["reply"]) for it in entries])
    for number, (least, most) in enumerate(bounds, 1):
        copy = trial.shop(trial.path(f"backups/{number}/shop.db"))
        found = all_entries(trial, copy)
        copy.kill()
        trial.equal(found, entries[: len(found)], f"backup {number}")
        trial.holds(least <= len(found) <= most, f"backup {number} has {len(found)} entries, and not {least} to {most}")


@case(
    "the history of a restored store",
    "A store that was restored has the entries of its backup, and goes on behind them; where the clock is before the last of them by then, with its time.",
)
def restored(trial):
    clock, terminal = Faults(trial, date=2000), Terminal(1)
    shop = open_shop(trial, environment=clock.environment)
    trial.equal(terminal.send_all(shop, 5), None)
    trial.equal(shop.exchange(REQUEST), backup_answer(1))
    trial.equal(terminal.send_all(shop, 9), None)
    shop.kill()
    trial.equal(trial.run("restore", "--store", "shop.db", "--from", "backups/1").status, 0)
    clock.set_date(1000)
    shop = open_shop(trial, environment=clock.environment)
    trial.equal(shop.reply(SHOP), b'{"began":2000,"entries":5,"last":2000,"ok":"shop"}')
    trial.equal(terminal.send_all(shop, 9), None)
    trial.equal(times_of(shop), [2000] * 9)


def check_stories(trial, shop, journal, terminals):
    """The stories of the orders, jobs and units of some terminals have the entries that their messages make."""
    for it in terminals[:3]:
        replies = [json.loads(reply) for _, reply in it.exchanges]
        for reply in replies:
            about = [{"order": reply["order"]}] if reply["ok"] == "order" else []
            about += [{"part": f"{reply['act']}/0"}] if reply["ok"] == "receive" else []
            about += [{"job": reply["job"]}, {"part": f"{reply['job']}/4"}] if reply["ok"] == "done" else []
            for keys in about:
                found = json.loads(shop.reply(story(**keys)))["entries"]
                trial.equal([row["entry"] for row in found], [row.number for row in journal.about(**keys)], keys)


@case(
    "texts of an entry",
    "An entry has its message as its canonical text has it, whatever was sent: keys in another order, spaces, escapes, a byte order mark, a list "
    "of cuts and a single one, and numbers at their limits.",
)
def texts(trial):
    glass = "line,material,length,width,turn,count,worth\r\n1,GLASS,0.4,0.3,yes,2,12\r\n"
    sent = [
        ' { "terminal" : 1 , "number" : 0 , "do" : "material" , "material" : "GLASS" , "kind" : "sheet" , "kerf" : 1 , "min_long" : 5 , '
        '"min_short" : 4 } \r',
        '{"number":4294967295,"terminal":4294967295,"w":10,"h":8,"count":2,"batch":"\\u0042-1","material":"GLASS","do":"receive"}',
        json.dumps({"do": "import", "form": "csv", "order": "A-1", "text": "\ufeff" + glass, "number": 2, "terminal": 1}),
        json.dumps({"do": "import", "form": "csv", "order": "A-2", "text": glass.replace("1,", '"1",'), "number": 3, "terminal": 1}),
        '{"do":"reserve","number":4,"part":"1/0","terminal":1,"tree":"x4 y3 p1 r r"}',
        '{"do":"reserve","number":5,"part":"1/1","terminal":1,"tree":"x4 y3 p2 r r"}',
        '{"lost":false,"cuts":[0],"do":"break","job":2,"number":6,"terminal":1,"number":7}',
        '{"lost":true,"cuts":1,"do":"break","job":3,"number":8,"terminal":1}',
    ]
    shop = Replay(trial, {})
    replies = [shop.reply(it).decode() for it in sent]
    trial.equal([it for it in replies if '"ok"' not in it], [])
    journal = journal_of(zip(sent, replies))
    trial.holds('"cuts":[0]' in journal.history() and '"cuts":1,' in journal.history(), "the two forms of cuts")
    trial.equal(shop.reply(history()).decode(), journal.history())
    trial.equal(shop.end(), (0, b""))
    served = trial.shop(environment=Faults(trial, date=0).environment)
    trial.equal([served.reply(it).decode() for it in sent], replies)
    trial.equal(served.reply(history()).decode(), journal.history())
    served.kill()
    kept = {it[:2]: it[2:] for it in tables.rows(served.store)["kept"]}
    trial.equal([kept[it.row[2], it.row[3]] for it in journal.entries], [(it.command, it.reply) for it in journal.entries])


# ---- times


def message(number, terminal=1):
    return compact({**received("B-1", 100, 1), "number": number, "terminal": terminal})


def times_of(shop):
    return [it["at"] for it in json.loads(shop.reply(history()))["entries"]]


@case(
    "the time of an entry",
    "Under `serve` an entry has the second in which its message was accepted, by the machine's clock; where the clock is set back, or before "
    "1970, it has the time of the entry before; a repeat changes none, and what was written stays, also when the shop is opened again.",
)
def times(trial):
    clock = Faults(trial, date=1000)
    shop = trial.shop(shop_file=trial.write("shop.toml", STEEL_FILE), environment=clock.environment)
    wanted = [1000]
    for number, (date, at) in enumerate(
        ((1000, 1000), (1001, 1001), (2000, 2000), (500, 2000), (-5, 2000), (1999, 2000), (2001, 2001), (4294967296, 4294967296), (9, 4294967296)), 1
    ):
        clock.set_date(date)
        trial.holds(b'"ok"' in shop.reply(message(number)), number)
        wanted.append(at)
        trial.equal(times_of(shop), wanted, f"the clock at {date}")
        trial.equal(shop.reply(SHOP).decode(), compact({"began": 1000, "entries": len(wanted), "last": at, "ok": "shop"}))
    clock.set_date(5000000000)
    shop.reply(message(1))
    shop.reply(compact({**received("B-1", 100, 0), "number": 99, "terminal": 1}))
    trial.equal(times_of(shop), wanted, "behind a repeat and a refused message")
    shop.kill()
    clock.set_date(7)
    shop = trial.shop(shop_file=shop.shop_file, environment=clock.environment)
    trial.equal(times_of(shop), wanted, "opened again")
    trial.holds(b'"ok"' in shop.reply(message(10)), "a message of a clock that is behind")
    clock.set_date(6000000000)
    trial.holds(b'"ok"' in shop.reply(message(11)), "a message of a clock that goes right again")
    shop.kill()
    wanted += [4294967296, 6000000000]
    trial.equal([it[1] for it in tables.rows(shop.store, times=True)["journal"]], wanted)


@case(
    "a first entry before 1970",
    "Where the machine's clock is before 1970 the first entry has time 0, and `began` is 0; the next one has its time.",
)
def before_1970(trial):
    clock = Faults(trial, date=-100)
    shop = trial.shop(environment=clock.environment)
    trial.equal(shop.reply(SHOP), NONE)
    trial.holds(b'"ok"' in shop.reply(GLASS), "a material")
    clock.set_date(60)
    trial.holds(b'"ok"' in shop.reply(SHEET), "a receipt")
    trial.equal(times_of(shop), [0, 60])
    asked(trial, shop, SHOP, '{"began":0,"entries":2,"last":60,"ok":"shop"}')


@case(
    "a clock at its ends",
    "Under a clock at the least and the greatest second of 64 bits, at the ends of 32 bits and of the year 9999, an entry has that second, or 0 below 0; "
    "a later start whose clock goes right serves on with the greatest, and an audit calls the store whole.",
)
def ends_of_time(trial):
    for number, date in enumerate((-(2**63), -1, 2**31 - 1, 2**31, 2**32, 253402300799, 253402300800, 2**53 + 1, 2**63 - 1)):
        at, clock, store = max(date, 0), Faults(trial, date=date), f"clock-{number}.db"
        shop = trial.shop(store, environment=clock.environment)
        trial.holds(b'"ok"' in shop.reply(GLASS), date)
        trial.equal(times_of(shop), [at], date)
        asked(trial, shop, SHOP, compact({"began": at, "entries": 1, "last": at, "ok": "shop"}))
        shop.kill()
        shop = trial.shop(store, environment=Faults(trial, date=2000).environment)
        trial.holds(b'"ok"' in shop.reply(SHEET), date)
        trial.equal(times_of(shop), [at, max(at, 2000)], date)
        shop.kill()
        trial.ended(trial.run("audit", "--store", store), 0, b"entries 2\nwhole\n", sent=date)


@case(
    "a clock that tells no date",
    "Where the seconds since 1970 can't be read a message is accepted with the time of the entry before, the first one with 0.",
)
def no_date(trial):
    faults = Faults(trial, "date", at=1, on=True, date=1000)
    shop = trial.shop("none.db", environment=faults.environment)
    for line in (GLASS, SHEET):
        trial.holds(b'"ok"' in shop.reply(line), line)
    trial.equal(times_of(shop), [0, 0])
    trial.holds(faults.calls() >= 2, "the clock wasn't read")
    shop.kill()
    shop = trial.shop("later.db", environment=Faults(trial, date=1000).environment)
    trial.holds(b'"ok"' in shop.reply(GLASS), "a material")
    shop.kill()
    shop = trial.shop("later.db", environment=Faults(trial, "date", at=1, on=True, date=2000).environment)
    trial.holds(b'"ok"' in shop.reply(SHEET), "a receipt")
    trial.equal(times_of(shop), [1000, 1000])


@case(
    "times of the machine's own clock",
    "An entry's time is that of this machine's clock, between when its message was sent and when its answer came.",
)
def own_clock(trial):
    shop = trial.shop()
    for line in (GLASS, SHEET):
        before = int(time.time())
        trial.holds(b'"ok"' in shop.reply(line), line)
        at = json.loads(shop.reply(SHOP))["last"]
        trial.holds(before <= at <= int(time.time()), f"{before}, {at}, {time.time()}")


@case(
    "times decide nothing",
    "Under a clock that goes, one that stands at 0 and one that is set back the same messages get the same replies, and all rows but for times "
    "are equal.",
)
def times_decide_nothing(trial):
    found = []
    for name, dates in (("stands", [0]), ("goes", range(1000, 100000, 997)), ("back", range(100000, 1000, -997))):
        clock = Faults(trial, date=dates[0])
        shop = trial.shop(f"{name}.db", environment=clock.environment)
        for at, (line, reply) in enumerate(EXCHANGES):
            clock.set_date(dates[at % len(dates)])
            asked(trial, shop, line, reply)
        shop.kill()
        found.append(tables.rows(shop.store))
    trial.equal(found[1:], found[:1] * 2)


BEHIND = b"cutshop: the clock is behind the last entry by over an hour\n"


@case(
    "a clock that is behind",
    "A start whose clock is behind the last entry by 3601 seconds reports that in one line on standard error, once; by 3600 seconds, before the "
    "first entry and with a clock that goes right it reports nothing.",
)
def clock_behind(trial):
    def lines(date, store="shop.db", messages=()):
        shop = trial.shop(store, limit=len(messages) + 1, environment=Faults(trial, date=date).environment)
        for it in messages:
            trial.holds(b'"ok"' in shop.reply(it), it)
        shop.reply(SHOP)
        return shop.end()[2].count(BEHIND)

    trial.equal(lines(0), 0, "an empty shop")
    trial.equal(lines(100000, messages=(GLASS, SHEET)), 0, "its first messages")
    for date, count in ((100000, 0), (96400, 0), (96399, 1), (0, 1), (-7, 1), (200000, 0)):
        trial.equal(lines(date), count, f"the clock at {date}")
    # (the messages change nothing of what is the last entry's time)
    trial.equal(lines(5, messages=(GLASS, SHEET)), 1, "with messages")


@case(
    "materials of a shop file in the history",
    "The materials of a shop file are entries of terminal 0, with the time of the start that added them, and are reported so; one that is there "
    "already makes none.",
)
def shop_file(trial):
    clock = Faults(trial, date=1000)
    path = trial.write("shop.toml", STEEL_FILE)
    shop = trial.shop(shop_file=path, environment=clock.environment)
    steel = {"do": "material", **STEEL, "number": 1, "terminal": 0}
    glass = {"do": "material", **PANE, "number": 2, "terminal": 0}
    first = {"at": 1000, "entry": 1, "message": steel, "reply": {"material": "STEEL", "ok": "material"}}
    asked(trial, shop, history(), compact({"entries": [first], "more": False, "ok": "history"}))
    clock.set_date(2000)
    trial.holds(b'"ok"' in shop.reply(message(1)), "a receipt")
    shop.kill()
    clock.set_date(3000)
    trial.write("shop.toml", STEEL_FILE + GLASS_FILE)
    shop = trial.shop(shop_file=path, environment=clock.environment)
    clock.set_date(4000)
    second = {"at": 2000, "entry": 2, "message": json.loads(message(1)), "reply": {"act": 1, "count": 1, "ok": "receive"}}
    third = {"at": 3000, "entry": 3, "message": glass, "reply": {"material": "GLASS", "ok": "material"}}
    for _ in range(2):
        asked(trial, shop, history(), compact({"entries": [first, second, third], "more": False, "ok": "history"}))
        asked(trial, shop, SHOP, '{"began":1000,"entries":3,"last":3000,"ok":"shop"}')
        shop.kill()
        shop = trial.shop(shop_file=path, environment=clock.environment)
    shop.kill()
    rows = [(1, 1000, 0, 1, "material", 0, 0, "", 0, 0), (2, 2000, 1, 1, "receive", 1, 0, "", 0, 0), (3, 3000, 0, 2, "material", 0, 0, "", 0, 0)]
    trial.equal(tables.rows(shop.store, times=True)["journal"], rows)


# ---- stores of earlier versions


@case(
    "stories of an earlier store",
    "A store of version 1 or 2 has no entries: its orders, jobs and parts have empty stories. What is accepted behind is entry 1 and on, and is "
    "about the orders, jobs and parts of before, too.",
)
def earlier_stories(trial):
    reserve = '{"do":"reserve","number":8,"part":"3/2","terminal":1,"tree":"y3 p4"}'
    order = compact({"do": "order", "lines": [{"count": 3, "h": 3, "line": 1, "material": "GLASS", "turn": False, "w": 5, "worth": 1}], "number": 9, "order": "A-9", "terminal": 1})
    for version in (1, 2):
        # (job 3 waits in it)
        waiting = "UPDATE parts SET state = 1, detail = 3 WHERE act = 2 AND node = 4; DELETE FROM parts WHERE act = 3"
        waiting += "; UPDATE jobs SET state = 0 WHERE job = 3; UPDATE demands SET made = 0, reserved = 1 WHERE number = 3"
        sums = "SET rack = 40, pieces = 28, kerf = 12"
        path = made(trial, f"{version}.db", version, f"{waiting}; UPDATE {'totals' if version == 1 else 'totals2'} {sums}")
        tables.change(path, "DELETE FROM kept WHERE number = 7")
        shop = trial.shop(f"{version}.db", environment=Faults(trial, date=50).environment)
        asked(trial, shop, SHOP, NONE.decode())
        asked(trial, shop, history(), '{"entries":[],"more":false,"ok":"history"}')
        for about in ({"order": "A-1"}, {"job": 2}, {"job": 3}, {"part": "1/0"}, {"part": "2/4"}, {"part": "2/2"}):
            asked(trial, shop, story(**about), '{"entries":[],"more":false,"ok":"story"}')
        done = '{"do":"done","job":3,"number":7,"terminal":1}'
        sent = [(done, '{"job":3,"kerf":5,"ok":"done","pieces":15,"rack":20,"scrap":0}'), (order, '{"count":1,"first":4,"ok":"order","order":"A-9"}')]
        sent += [(reserve, '{"cuts":1,"job":4,"ok":"reserve"}')]
        for line, reply in sent:
            asked(trial, shop, line, reply)
        for about, numbers in (
            ({"order": "A-1"}, [1]),
            ({"order": "A-9"}, [2, 3]),
            ({"job": 2}, []),
            ({"job": 3}, [1]),
            ({"job": 4}, [3]),
            ({"part": "1/0"}, []),
            ({"part": "2/4"}, [1]),
            ({"part": "3/1"}, [1]),
            ({"part": "3/2"}, [1, 3]),
        ):
            found = json.loads(shop.reply(story(**about)))["entries"]
            trial.equal([(it["entry"], it["at"]) for it in found], [(it, 50) for it in numbers], about)
        shop.kill()
        trial.equal(tables.rows(path)["uses"], [(4, "A-9")])


# ---- queries as lines, beyond what a route can say


@case(
    "numbers of history queries",
    "`after` goes up to 4294967295 in a query, and to 2147483647 in a route; a job of a story up to 4294967295 and to 2147483647; beyond they are "
    "refused 10, and behind the last entry is none.",
)
def numbers(trial):
    bad = '{"name":"BadMessage","refused":10}'
    lines = [(history(4294967295), '{"entries":[],"more":false,"ok":"history"}'), (history(4294967296), bad)]
    lines += [(story(4294967295, job=4294967295), '{"name":"NoJob","refused":70}'), (story(0, job=4294967296), bad)]
    lines += [(story(4294967296, job=1), bad), (story(0, job=0), '{"name":"NoJob","refused":70}')]
    lines += [(story(4294967295, part="2147483647/4294967295"), '{"name":"NoPart","refused":50}'), (story(0, part="2147483648/0"), bad)]
    ran = trial.replay([line for line, _ in lines])
    trial.equal(ran.out.decode().split("\n")[:-1], [reply for _, reply in lines])
    shop = trial.shop()
    trial.equal(shop.get("/history/2147483647"), answer(200, '{"entries":[],"more":false,"ok":"history"}'))
    trial.equal(shop.get("/history/2147483648"), answer(400, bad))
    trial.equal(shop.get("/story/job/2147483647/2147483647"), answer(404, '{"name":"NoJob","refused":70}'))
    trial.equal(shop.get("/story/job/1/2147483648"), answer(400, bad))
    trial.equal(shop.get("/story/job/2147483648/0"), answer(400, bad))
