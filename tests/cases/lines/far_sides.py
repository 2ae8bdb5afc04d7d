"""What only a case shows: rows that are gone or none, lists, tickets and numbers at their greatest, streams that would block,
and texts that leave a store alone. There is memory enough in each."""

import errno
import json

from kit import tables
from kit.case import case
from kit.commands import over
from kit.commands import GLASS as GLASS_ENTRY
from kit.days import day_of, whole
from kit.faults import Faults
from kit.glass import DONE
from kit.lines import LONGEST, added, compact, material, over_both
from kit.order_files import HEADER, MESSAGE, OF_FIELD, ROW
from kit.shop import answer
from kit.stores import DAY, filled

FAULT = '{"name":"StoreFault","refused":99}'


def contradicts(trial, shop, line, why):
    """A line that is answered 99 with status 503, and 99 again."""
    for _ in range(2):
        trial.equal(shop.send(line), answer(503, FAULT), f"{line} {why}")


@case(
    "a demand that is gone",
    "Where the demand of a job's piece is gone, done, break, release and both tickets are reported as 99; the job, its "
    "part and other demands are reported, and the demand is unknown, 42.",
)
def gone(trial):
    path = filled(trial, exchanges=DAY[:4])
    tables.change(path, "DELETE FROM demands WHERE number = 1")
    shop = trial.shop()
    for line in (DONE, '{"do":"release","job":2,"number":6,"terminal":1}'):
        contradicts(trial, shop, line, "without its demand")
    contradicts(trial, shop, '{"cuts":1,"do":"break","job":2,"lost":false,"number":7,"terminal":1}', "without its demand")
    trial.equal(shop.get("/ticket/2"), answer(503, FAULT), "the ticket")
    job = {"begun": 0, "cuts": 2, "h": 8, "job": 2, "kerf": 1, "material": "GLASS", "ok": "job", "part": "1/0", "state": "waiting", "w": 10}
    trial.equal(shop.get("/job/2"), answer(200, compact(job | {"tree": "x4 y3 p1 p2 r"})))
    trial.equal(shop.get("/demand/1"), answer(404, '{"name":"NoDemand","refused":42}'))
    trial.equal(json.loads(shop.reply('{"ask":"demand","demand":2}'))["reserved"], 1)
    trial.equal(json.loads(shop.reply('{"ask":"trace","part":"1/0"}'))["of"], 2)
    shop.kill()
    trial.ended(trial.run("ticket", "--store", path, "2"), 1, err="refused 99 StoreFault\n")


ENTRY = "{{code='{}',kind='sheet',kerf='0',min_long='1',min_short='1'}}"


@case(
    "a thousand materials in a list",
    "1000 materials of a shop file and 1001 of messages are all listed, by rising code.",
)
def thousand(trial):
    codes = [f"M{it}" for it in range(1001)]
    rows = [{"kerf": 0, "kind": "sheet", "material": it, "min_long": 10, "min_short": 10} for it in sorted(codes)]
    entries = ",".join(ENTRY.format(it) for it in codes[:1000])
    shop = trial.shop(shop_file=trial.write("shop.toml", f"material=[{entries}]"))
    output = compact({"materials": [it for it in rows if it["material"] != codes[1000]], "ok": "materials"})
    trial.equal(shop.get("/materials"), answer(200, output))
    lines = [material(it, number, "sheet", 0, 10, 10) for number, it in enumerate(codes)]
    ran = trial.replay([*lines, '{"ask":"materials"}'])
    trial.equal(ran.out.decode().split("\n")[1001], compact({"materials": rows, "ok": "materials"}))


def longest_ticket():
    lines = ["job 2 waiting", "part 1/0 B 25.6 kerf 0.0"]
    for it in range(255):
        at, of = f"{it // 10}.{it % 10}", f"{(256 - it) // 10}.{(256 - it) % 10}"
        lines.append(f"{2 * it:4} cut x 0.1 at {at} of {of}")
        lines.append(f"{2 * it + 1:4} piece at {at} of 0.1 demand 1 A line 1")
    lines.append(f"{510:4} piece at 25.5 of 0.1 demand 1 A line 1")
    return "\n".join([*lines, "cuts 255 pieces 256", ""])


@case(
    "a job of 255 cuts is told",
    "A job of 255 cuts is listed and reported with its whole plan, over both books, and its ticket has all 511 nodes.",
)
def longest_job(trial):
    line = {"count": 256, "h": 1, "line": 1, "material": "B", "turn": False, "w": 1, "worth": 1}
    received = {"batch": "B-1", "count": 1, "do": "receive", "h": 1, "material": "B", "number": 2, "terminal": 1, "w": 256}
    row = {"begun": 0, "cuts": 255, "h": 1, "job": 2, "material": "B", "part": "1/0", "w": 256}
    steps = [
        (material("B", 1, "bar", 0, 1, 1), added("B")),
        (compact(received), compact({"act": 1, "count": 1, "ok": "receive"})),
        (
            compact({"do": "order", "lines": [line], "number": 3, "order": "A", "terminal": 1}),
            compact({"count": 1, "first": 1, "ok": "order", "order": "A"}),
        ),
        (
            compact({"do": "reserve", "number": 4, "part": "1/0", "terminal": 1, "tree": LONGEST}),
            compact({"cuts": 255, "job": 2, "ok": "reserve"}),
        ),
        ('{"after":0,"ask":"jobs"}', compact({"jobs": [row | {"due": 0}], "more": False, "ok": "jobs"})),
        ('{"ask":"job","job":2}', compact(row | {"kerf": 0, "ok": "job", "state": "waiting", "tree": LONGEST})),
    ]
    over_both(trial, steps)
    trial.ended(trial.run("ticket", "--store", "shop.db", "2"), 0, longest_ticket())


@case(
    "the greatest number of a terminal",
    "A message of the number 4294967295 is kept, and that number is reported as its terminal's last, over both books.",
)
def greatest_number(trial):
    asked = '{"ask":"terminal","terminal":4294967295}'
    line = material("S", 4294967295).replace('"terminal":1', '"terminal":4294967295')
    steps = [(line, added("S")), (asked, '{"last":4294967295,"ok":"terminal","terminal":4294967295}'), (line, added("S"))]
    over_both(trial, steps)


@case(
    "streams that would block",
    "A read and a write of `replay` that would block, or that time out, once, are `fault read` and `fault write` and not made "
    "again.",
)
def blocked(trial):
    lines, replies = whole(day_of(trial, "two bars"))
    for error in (errno.EAGAIN, errno.ETIMEDOUT):
        ran = trial.run("replay", given=lines, environment=Faults(trial, "read", at=1, error=error).environment)
        trial.ended(ran, 1, err="fault read\n", sent=errno.errorcode[error])
        ran = trial.run("replay", given=lines, environment=Faults(trial, "write", at=1, error=error).environment)
        trial.ended(ran, 1, err="fault write\n", sent=errno.errorcode[error])


@case(
    "texts that leave the store as it was",
    "`ticket` and `yield` of what is there and of what isn't, twice each, change no row of the store.",
)
def left(trial):
    path = filled(trial)
    before = tables.dump(path)
    for _ in range(2):
        for words, status in (
            (("ticket", "--store", path, "2"), 0),
            (("ticket", "--store", path, "9"), 1),
            (("yield", "--store", path, "GLASS"), 0),
            (("yield", "--store", path, "IRON"), 1),
        ):
            trial.equal(trial.run(*words).status, status, " ".join(words))
            trial.equal(tables.dump(path), before, " ".join(words))


@case(
    "outputs of orders and the version that can't be written",
    "Where standard output takes no byte, `orders` with and without a message, and `--version`, end with status 1 and `fault "
    "write`.",
)
def full(trial):
    path = trial.write("orders.csv", HEADER + ROW)
    for words in (("orders", path), ("orders", path, *MESSAGE), ("--version",), ("-V",)):
        trial.equal(over(trial, *words, out="/dev/full"), (1, b"fault write\n"), " ".join(words))


@case(
    "order files that aren't UTF-8",
    "A byte that is no UTF-8 makes its field the first bad one, whichever it is, or its header another.",
)
def not_utf8(trial):
    for field, sentence in enumerate(OF_FIELD):
        fields = ROW.encode().strip().split(b",")
        fields[field] = b"\xff"
        path = trial.write("orders.csv", HEADER.encode() + b",".join(fields) + b"\n")
        for options in ((), MESSAGE):
            ran = trial.run("orders", path, *options)
            trial.ended(ran, 1, err=f"fault order row 1 field {field}: {sentence}\n", sent=f"field {field}")


@case(
    "the last row of an order file",
    "A bad field of the 200th row is reported as what it is, and not as a row too many.",
)
def last_row(trial):
    path = trial.write("orders.csv", HEADER + ROW * 199 + ROW.replace("STEEL", "steel"))
    for options in ((), MESSAGE):
        ran = trial.run("orders", path, *options)
        trial.ended(ran, 1, err=f"fault order row 200 field 1: {OF_FIELD[1]}\n", sent="the 200th row")


@case(
    "the longest order file as a message",
    "An order file of 65536 bytes and 200 rows is counted, and its message is one line that the shop takes.",
)
def longest_orders(trial):
    rows = [f"{it:010},ABCDEFGHIJ-01234,000003.0,000000.1,yes,0000000003,0000000030\n" for it in range(1, 201)]
    text = "".join([HEADER, *rows]).ljust(65536, "\n")
    path = trial.write("orders.csv", text)
    trial.ended(trial.run("orders", path), 0, "200 lines\n")
    ran = trial.run("orders", path, *MESSAGE)
    trial.equal((ran.status, ran.err, json.loads(ran.out)["text"] == text), (0, b"", True))
    output = compact({"act": 0, "count": 200, "first": 1, "ok": "import", "order": "A-1"})
    over_both(trial, [(material("ABCDEFGHIJ-01234", 1), added("ABCDEFGHIJ-01234")), (ran.out.rstrip(b"\n"), output)])


@case(
    "over a thousand rows in memory",
    "`replay` keeps 1100 units, 1200 demands and 1050 waiting jobs, and reports the rack's totals and the last of each list.",
)
def many_in_memory(trial):
    lines = [material("S", 1)]
    lines += [
        compact({"batch": "B-1", "count": 100, "do": "receive", "h": 4, "material": "S", "number": it, "terminal": 2, "w": 5})
        for it in range(1, 12)
    ]
    line = {"count": 10, "h": 4, "material": "S", "turn": False, "w": 5, "worth": 1}
    wanted = [line | {"line": it} for it in range(1, 201)]
    lines += [
        compact({"do": "order", "lines": wanted, "number": it, "order": f"A-{it}", "terminal": 3}) for it in range(1, 7)
    ]
    parts = [f"{act}/{node}" for act in range(1, 12) for node in range(100)]
    lines += [
        compact({"do": "reserve", "number": it, "part": part, "terminal": 4, "tree": f"p{it % 1200 + 1}"})
        for it, part in enumerate(parts[:1050])
    ]
    asked = ['{"after":"11/98","ask":"parts","material":"S"}', '{"after":1199,"ask":"demands"}', '{"after":1060,"ask":"jobs"}']
    asked += ['{"ask":"totals","material":"S"}', '{"ask":"rack","material":"S"}']
    got = trial.replay([*lines, *asked]).out.decode().split("\n")
    trial.equal([it for it in got[: len(lines)] if '"ok"' not in it], [])
    listed, demands, jobs, totals, rack = [json.loads(it) for it in got[len(lines) : -1]]
    trial.equal([(it["part"], it["state"], it["of"]) for it in listed["parts"]], [("11/99", "standing", 0)])
    output = [(it["demand"], it["order"], it["line"], it["reserved"]) for it in demands["demands"]]
    trial.equal(output, [(1200, "A-6", 200, 0)])
    trial.equal([(it["job"], it["part"]) for it in jobs["jobs"]], [(1061, "11/49")])
    trial.equal((totals["stock"], totals["rack"], rack["parts"]), (22000, 0, []))


@case(
    "a start that changes nothing",
    "A shop that is opened again with the same shop file, with a page and without one, has the same rows in its tables.",
)
def same_rows(trial):
    shop_file = trial.write("shop.toml", GLASS_ENTRY)
    shop = trial.shop(shop_file=shop_file, limit=1)
    shop.get("/materials")
    trial.equal(shop.end()[0], 0)
    before = tables.dump(shop.store)
    for words in ((), ("--page", trial.write("page.html", "<p>"))):
        again = trial.shop(shop_file=shop_file, limit=1, words=words)
        again.exchange(b"GET /materials HTTP/1.1\r\nHost: localhost\r\n\r\n")
        trial.equal(again.end()[0], 0)
        trial.equal(tables.dump(shop.store), before, " ".join(words))
