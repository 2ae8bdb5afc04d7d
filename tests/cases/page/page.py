"""The terminal's page, in a real browser where one is installed."""

import concurrent.futures
import html
import importlib.util
import json
import os
import re
import signal

from browser.terminal import PAGE, SHOP_FILE, Terminal, by_id, exchange, open_shop, other_site
from kit import tables
from kit.case import case
from kit.page import GERMAN, PLACE_OF, is_german, is_quiet, order, stock
from kit.shop import answer

DEMANDS = [
    (1, "A-1", 1, "GLASS", 4005, 3000, 0, 12015, 3),
    (2, "A-1", 2, "GLASS", 2500, 2000, 1, 5000, 4),
    (3, "A-1", 5, "STEEL", 12005, 1, 0, 12005, 6),
    (4, "A-1", 6, "STEEL", 8000, 1, 0, 8000, 3),
]


@case(
    "the page stands alone",
    "`page/terminal.html` is under 300 KB, names no other address, and builds nothing out of data but by `textContent` and "
    "attributes.",
)
def alone(trial):
    with open(PAGE, encoding="utf-8") as file:
        text = file.read()
    trial.holds(len(text.encode()) < 300000, "the page is over 300 KB")
    addresses = set(re.findall(r"https?://[^\s\"'`]+", text))
    trial.equal(addresses, {"http://www.w3.org/2000/svg"})
    trial.equal(re.findall(r"innerHTML|outerHTML|insertAdjacentHTML|document\.write|eval\(|srcdoc|\son\w+=\"", text), [])


@case(
    "the page is joined of its files",
    "`page/terminal.html` is what `page/join.py` makes of the files of `page/src`, in which each has its one place.",
)
def is_joined(trial):
    folder = os.path.dirname(PAGE)
    found = importlib.util.spec_from_file_location("join", os.path.join(folder, "join.py"))
    join = importlib.util.module_from_spec(found)
    found.loader.exec_module(join)
    with open(PAGE, encoding="utf-8", newline="") as file:
        trial.holds(file.read() == join.joined(), "it is another: run page/join.py")
    named = re.findall(r"(?m)^\{\{(.+)\}\}$", join.source("document.html"))
    trial.equal(sorted([*named, "document.html"]), sorted(os.listdir(os.path.join(folder, "src"))))


@case(
    "the page is served",
    "`GET /` of a shop with `--page` is answered with the file's bytes and its policy; another method is refused 405.",
)
def served(trial):
    shop = open_shop(trial)
    with open(PAGE, "rb") as file:
        page = file.read()
    fields = [
        "HTTP/1.1 200 OK",
        "Content-Type: text/html; charset=utf-8",
        f"Content-Length: {len(page)}",
        "Content-Security-Policy: default-src 'none'; script-src 'unsafe-inline'; style-src 'unsafe-inline'; "
        "img-src data:; connect-src 'self'; base-uri 'none'; form-action 'none'; frame-ancestors 'none'",
        "X-Content-Type-Options: nosniff",
        "Cache-Control: no-cache",
        "Connection: close",
    ]
    host = f"Host: 127.0.0.1:{shop.port}\r\n"
    head, _, body = shop.exchange(f"GET / HTTP/1.1\r\n{host}\r\n".encode()).partition(b"\r\n\r\n")
    first, *rest = head.decode().split("\r\n")
    trial.equal((first, sorted(rest)), (fields[0], sorted(fields[1:])))
    trial.holds(body == page, "other bytes than the file's")
    got = shop.exchange(f"POST / HTTP/1.1\r\n{host}Content-Length: 0\r\n\r\n".encode())
    trial.equal(got, answer(405, allow="GET"))


@case(
    "a day at the page",
    "In a browser: receipts, an order by a German CSV whose bad field is told at its row, plans, a ticket printed on "
    "one sheet, a job broken off by clicked cuts, another done; the tables and the page agree.",
)
def day(trial):
    shop = open_shop(trial)
    with Terminal(trial, shop) as it:
        it.begin(7)
        stock(it)
        it.order_file("a-1", "bad.csv", GERMAN.format(bad="20,5x").encode("utf-8-sig"))
        it.until("document.querySelector('#csvPreview .badfield')")
        bad = (
            "[...document.querySelectorAll('#csvPreview .badfield')].map(e => [e.parentNode.rowIndex, e.cellIndex, "
            "e.textContent, e.parentNode.nextSibling.textContent])"
        )
        wanted = "width “20,5x”: write millimetres with at most one decimal, like 1250.5"
        trial.equal(it.value(bad), [[2, 4, "✗ ", f"{wanted}Leave out"]])
        trial.holds(it.value(f"{by_id('sendCsv')}.disabled"), "a bad file can be sent")
        order(it)
        sheet = cut_sheet(it)
        bar = cut_bar(it)
        is_quiet(it)
        told = it.value("['GLASS', 'STEEL'].map(code => ({code, ...factOf(`/totals/${code}`)}))")
        shown = [[row[key] for key in ("code", "pieces", "kerf", "scrap", "rack", "stock")] for row in told]
    shop.kill()
    found = tables.rows(shop.store)
    trial.equal([row[:8] + row[8:9] for row in found["demands"]], DEMANDS)
    states = {row[0]: row[4] for row in found["jobs"]}
    trial.equal(states, {sheet["job"]: 2, bar["job"]: 1})
    trial.equal({row[0]: row[3] for row in found["jobs"]}, {it["job"]: it["tree"] for it in (sheet, bar)})
    trial.equal([row[1] for row in found["kept"] if row[0] == 7], list(range(1, 8)))
    totals = {row[0]: row for row in found["totals2"]}
    trial.equal(sorted(shown), sorted([row[0], row[4], row[5], row[6], row[3], row[2]] for row in totals.values()))
    lost = next(row for row in found["parts"] if row[:2] == (sheet["job"], sheet["lost"]))
    trial.equal(lost[10], 5, "the lost cut's rectangle is scrap")
    made = sum(row[10] for row in found["demands"] if row[3] == "STEEL")
    trial.equal(made, sum(row[10] == 3 for row in found["parts"] if row[0] == bar["job"]))


def cut_sheet(it):
    """A sheet is planned, reserved, printed and broken off: the deepest cut went wrong, those above it were made."""
    it.propose("GLASS")
    drawn = it.value(
        "[...document.querySelectorAll('#planList rect.piece')].filter(r => r.querySelector('title'))"
        ".map(r => +r.getAttribute('width') / +r.getAttribute('height'))"
    )
    sides = (4005 / 3000, 1.25, 0.8)
    it.trial.holds(drawn and all(min(abs(got - side) for side in sides) < 0.01 for got in drawn), f"not to scale: {drawn}")
    job = it.reserve()
    told = it.ask(f"/job/{job}")
    it.trial.equal(it.value("document.querySelectorAll('#cutList li').length"), told["cuts"])
    it.trial.equal(it.sheets("ticket"), 1, "the ticket is printed on one sheet")
    deep, above, node = it.value(
        "(() => { const cuts = cutsOf(atSaw.told.root), deep = cuts.reduce((a, c) => c.above.length > a.above.length ? c : a);"
        " return [deep.cut, deep.above, deep.node]; })()"
    )
    it.click(by_id("startBreak"))
    it.click(it.cut_mark(above[-1]))
    it.trial.equal(it.value(f"[...ticks.of({job})].sort((a, b) => a - b)"), above, "a made cut takes all above it")
    it.click("document.querySelector('[name=breakMode][value=lost]')")
    it.click(f"document.querySelectorAll('#cutList button')[{deep}]")
    it.trial.equal(it.value("atSaw.lost"), deep)
    said = re.split(r"\. (?:Kept|Nothing is kept)", it.text("breakWords").partition("Then: ")[2])[0]
    it.click(by_id("sendBreak"))
    it.says(f"Break off job {job}: {said}")
    it.until("atSaw.told.state === 'broken'")
    it.trial.equal(it.ask("/jobs/0")["jobs"], [])
    return {**told, "lost": node}


def cut_bar(it):
    """A bar is planned, reserved and done."""
    it.propose("STEEL")
    job = it.reserve()
    told = it.ask(f"/job/{job}")
    it.click(by_id("done"))
    it.says(f"Job {job} done: pieces")
    it.until("atSaw.told.state === 'done'")
    it.view("yield")
    it.until("factOf('/totals/GLASS') && factOf('/totals/STEEL')")
    return told


def yields_fit(it):
    """The table of yields isn't scrolled sideways."""
    over = "(e => e.scrollWidth - e.clientWidth)(document.querySelector('#yieldBars .scroll'))"
    for width in (1280, 1024, 768, 400):
        it.size(width)
        it.trial.equal(it.value(over), 0, f"the table of yields at {width} pixels")


@case(
    "the page at two widths",
    "Each view at 1280 and at 400 pixels shows what it has without scrolling sideways, the table of yields and a line's material also between; "
    "the pictures are left to be looked at.",
)
def widths(trial):
    with Terminal(trial, open_shop(trial)) as it:
        it.go(it.address)
        it.open_dialog()
        it.at_widths("terminal")
        it.begin(7)
        stock(it)
        it.order_file("a-1", "bad.csv", GERMAN.format(bad="20,5x"))
        it.at_widths("orders-bad")
        order(it)
        it.until(f"{by_id('orderList')}.querySelector('form')")
        it.at_widths("orders")
        for width in (1280, 1024, 768, 400):
            it.size(width)
            trial.holds(it.value("document.querySelector('#orderLines select').clientWidth >= 190"), f"a code is cut at {width} pixels")
        it.propose("GLASS")
        it.at_widths("to-cut")
        job = it.reserve()
        it.at_widths("saw")
        it.click(by_id("startBreak"))
        it.click("document.querySelectorAll('#cutList button')[1]")
        it.click("document.querySelector('[name=breakMode][value=lost]')")
        it.click("document.querySelectorAll('#cutList button')[2]")
        it.at_widths("break")
        it.click(by_id("sendBreak"))
        it.says(f"Break off job {job}")
        it.propose("STEEL")
        it.at_widths("to-cut-bar")
        it.reserve()
        it.at_widths("saw-bar")
        it.click(by_id("done"))
        it.says("done: pieces")
        it.until("atSaw.told.state === 'done'")
        it.at_widths("saw-done")
        it.view("stock")
        it.material("stock", "GLASS")
        remnant = next(row["part"] for row in it.ask("/parts/GLASS")["parts"] if row["part"] != row["root"])
        it.click(f"document.querySelector('#stockList [data-key=\"t{remnant}\"]')")
        it.until("document.querySelector('#tracePicture svg')")
        it.at_widths("stock")
        it.view("yield")
        it.click("document.querySelector('#yieldBars [data-key=yGLASS]')")
        it.until("document.querySelector('#report table')")
        it.at_widths("yield")
        yields_fit(it)
        trial.equal(it.sheets("report"), 1, "the report is printed on one sheet")
        is_quiet(it)


@case(
    "orders and stock at the page",
    "In a browser: an order by hand whose bad field is told at its line, a used code refused in words, a problem "
    "file, a plan of a part alone; a release, a trace, a return and a scrap.",
)
def by_hand(trial):
    shop = open_shop(trial)
    with Terminal(trial, shop) as it:
        it.begin(7)
        stock(it)
        it.view("orders")
        it.type(by_id("orderCode"), "b-2")
        field = "document.querySelector('#orderLines [data-field={}]')"
        it.choose(field.format("material"), "GLASS")
        for name, text in (("length", "600"), ("width", "450,5"), ("count", "x")):
            it.type(field.format(name), text)
        it.key("Enter")
        it.until("document.querySelector('#orderLines .fault')")
        told = it.value("document.querySelector('#orderLines .fault').textContent")
        trial.equal(told, "count “x”: write a whole number from 1 to 1\u202f000\u202f000")
        it.type(field.format("count"), "2")
        it.key("Enter")
        it.says("Order B-2: 1 line ordered, pieces wanted from no. 1 on")
        row = it.ask("/demands/0")["demands"][0]
        trial.equal([row[key] for key in ("w", "h", "wanted", "worth", "turn")], [6000, 4505, 2, 270300, False])
        it.view("orders")
        it.type(by_id("fileCode"), "B-2")
        it.choose(by_id("problemMaterial"), "GLASS")
        it.pick(by_id("problemFile"), trial.write("sheet.txt", "1\n6000 4000\n1500 1000 4 150\n"))
        it.click(by_id("sendProblem"))
        it.says("an order with this code is there already (40 OrderExists)")
        it.type(by_id("fileCode"), "P-1")
        it.click(by_id("sendProblem"))
        it.says("Order P-1 from a file: 1 line ordered, pieces wanted from no. 2 on, unit 3/0 received")
        it.propose("GLASS")
        trial.equal(it.value("toCut.part"), "3/0", "the smallest that something fits comes first")
        job = it.reserve()
        it.click(by_id("release"))
        it.confirm()
        it.says(f"Give back job {job}: done")
        it.view("stock")
        it.material("stock", "GLASS")
        it.click("document.querySelector('#stockList [data-key=\"mr1/0\"]')")
        it.until(f"{by_id('confirm')}.open")
        it.key("Enter")
        it.until(f"!{by_id('confirm')}.open")
        trial.equal(it.ask("/trace/1/0")["state"], "standing", "Enter alone returns nothing")
        it.click("document.querySelector('#stockList [data-key=\"mr1/0\"]')")
        it.confirm()
        it.says("Return 1/0: done")
        it.click("document.querySelector('#stockList [data-key=\"s3/0\"]')")
        it.confirm()
        it.says("Scrap 3/0: done")
        it.type(by_id("tracePart"), "1/0")
        it.key("Enter")
        it.until(f"{by_id('traceWords')}.textContent.includes('returned to its supplier')")
        is_quiet(it)
    shop.kill()
    states = {row[:2]: row[10] for row in tables.rows(shop.store)["parts"]}
    trial.equal((states[1, 0], states[1, 1], states[3, 0]), (6, 0, 5))


@case(
    "a page of another origin",
    "A page of another port, and one of another host's name, that is open in the browser and posts a scrap is answered 403, "
    "and nothing changes.",
)
def stranger(trial):
    shop = open_shop(trial)
    body = json.dumps({"do": "scrap", "number": 1, "part": "2/0", "terminal": 9})
    with Terminal(trial, shop) as it:
        it.begin(7)
        stock(it)
        script = f"fetch('{it.address}message', {{ method: 'POST', mode: 'no-cors', body: {json.dumps(body)} }})"
        page = f"<!DOCTYPE html><script>{script}.finally(() => document.title = 'sent')</script>"
        with other_site(page) as port:
            for host in ("127.0.0.1", "localhost"):
                it.answers.clear()
                it.go(f"http://{host}:{port}/")
                it.until("document.title === 'sent'")
                trial.holds((f"{it.address}message", 403) in it.answers, f"{host}: {it.answers}")
                trial.equal((it.ask("/trace/2/0")["state"], it.ask("/terminal/9")["last"]), ("standing", 0))
    for origin, wanted in (
        ("http://elsewhere.example", answer(403)),
        (f"http://localhost:{shop.port}", answer(200, '{"ok":"scrap","part":"2/0"}')),
    ):
        head = f"POST /message HTTP/1.1\r\nHost: 127.0.0.1:{shop.port}\r\nOrigin: {origin}\r\n"
        request = f"{head}Content-Length: {len(body)}\r\n\r\n{body}"
        trial.equal(shop.exchange(request.encode()), wanted, request)


@case(
    "an answer that the page doesn't hear",
    "A message whose answer is lost is kept over a reload, sent again under its number, and done once.",
)
def unheard(trial):
    with Terminal(trial, open_shop(trial)) as it:
        it.begin(7)
        stock(it)
        with it.losing_answers():
            it.receive("STEEL", "s-2", "3000,5", None, 2)
            it.until(f"{by_id('keptNotice')}.textContent.includes('(number 3)')")
            it.call("Page.reload")
            it.until(f"document.readyState === 'complete' && {by_id('keptNotice')}.textContent.includes('(number ')")
            trial.equal(it.value("terminal.kept()[0].number"), 3)
        it.says("2 units received, 3/0 to 3/1")
        trial.equal(it.ask("/totals/STEEL")["received"], 5 * 60000 + 2 * 30005)
        trial.equal((it.value("terminal.kept().length"), it.ask("/terminal/7")["last"]), (0, 3))


@case(
    "a plan at the page that another terminal took",
    "Where another terminal took the pieces of a proposed plan, the page tells how many of which demand are left, "
    "and in words, with its number, a refusal.",
)
def overdrawn(trial):
    with Terminal(trial, open_shop(trial)) as it:
        it.begin(7)
        stock(it)
        order(it)
        it.propose("STEEL")
        tree, part = it.value("[chosenPlan().tree, chosenPlan().part]")
        other = next(row["part"] for row in it.ask("/parts/STEEL")["parts"] if row["part"] != part)
        reply = exchange(it.shop, "/message", {"do": "reserve", "number": 1, "part": other, "terminal": 8, "tree": tree})
        trial.equal(reply.get("ok"), "reserve", "the other terminal can't reserve")
        it.value(f"send({{ do: 'reserve', part: '{part}', tree: '{tree}' }}, 'Reserve {part}')")
        it.says("(63 TooMany)")
        trial.holds(re.search(r"only \d+ of pieces no. \d+ (is|are) left \(63 TooMany\)", it.told()), it.told())
        it.until(f"{by_id('planFault')}.textContent.includes('Plan again')")
        trial.equal(it.value(f"[{by_id('reserve')}.hidden, {by_id('planAgain')}.hidden]"), [True, False], "a plan that can't be had can be reserved")


@case(
    "a plan at the page by keys alone",
    "By digits, Tab, Space and Enter alone the views open, all is planned and reserved, and a cut is ticked off.",
)
def keys(trial):
    with Terminal(trial, open_shop(trial)) as it:
        it.begin(7)
        stock(it)
        order(it)
        it.value("document.activeElement.blur()")
        it.key("1")
        it.until("!document.getElementById('tocut').hidden && !document.getElementById('planAll').disabled")
        for wanted in ("planAll", "reserve"):
            reach(it, f"document.activeElement.id === '{wanted}'")
            it.key("Enter")
            if wanted == "planAll":
                it.planned()
        it.until("toCut.found.jobs.size === toCut.found.sent.size")
        it.key("2")
        it.until("!document.getElementById('saw').hidden && document.querySelector('#cutList button')")
        reach(it, "document.activeElement.dataset.key === 'c0'")
        it.key("Enter")
        it.until("ticks.of(atSaw.job).has(0) && document.activeElement.dataset.key === 'c0'")


def reach(it, found):
    """Presses Tab until an expression holds."""
    for _ in range(80):
        if it.value(found):
            return
        it.key("Tab")
    it.trial.holds(False, f"Tab never came where {found}")


@case(
    "lists of the page behind their first hundred",
    "With over 100 demands, jobs and parts the page shows what lies behind the first 100 when asked, all jobs go into lists and "
    "onto tickets, and a ticket of over 100 cuts is printed on one sheet.",
)
def hundreds(trial):
    more = "".join(
        f'\n[[material]]\ncode = "M-{it}"\nkind = "bar"\nkerf = "0.0"\nmin_long = "10.0"\nmin_short = "0.1"\n' for it in range(9)
    )
    shop = open_shop(trial, SHOP_FILE + more)
    with Terminal(trial, shop) as it:
        said = iter(range(1, 1000))
        send = lambda **keys: exchange(shop, "/message", {"number": next(said), "terminal": 8, **keys})
        for batch in ("B-1", "B-2"):
            send(do="receive", material="STEEL", batch=batch, w=60000, h=1, count=100)
        send(do="receive", material="GLASS", batch="G-1", w=12000, h=8000, count=1)
        line = {"material": "STEEL", "w": 1000, "h": 1, "turn": False, "count": 1, "worth": 100}
        for order_code in ("A-1", "A-2"):
            send(do="order", order=order_code, lines=[{**line, "line": number} for number in range(1, 121)])
        small = {"line": 1, "material": "GLASS", "w": 1000, "h": 600, "turn": False, "count": 132, "worth": 60}
        send(do="order", order="A-3", lines=[small])
        for place in range(105):
            send(do="reserve", part=f"1/{place}" if place < 100 else f"2/{place - 100}", tree=f"x1000 p{place + 1} r")
        columns = f"x1000 {'y600 p241 ' * 12}r " * 11
        trial.equal(send(do="reserve", part="3/0", tree=f"{columns}r"), {"cuts": 143, "job": 109, "ok": "reserve"})
        send(do="done", job=4)
        it.begin(7)
        it.until(f"{by_id('jobCount')}.textContent === '100+'")
        it.choose("document.querySelector('#tocut .materials select')", "STEEL")
        it.until("document.querySelectorAll('#wanted .order').length === 2 && !document.querySelector('#wanted .demand')")
        for code in ("A-1", "A-2"):
            it.click(f"document.querySelector('#wanted [data-key=\"fold{code}\"]')")
        it.until("document.querySelectorAll('#wanted .demand').length === 135")
        trial.holds("104 other kinds of pieces: all" in it.text("wanted"), it.text("wanted")[-200:])
        it.until("document.querySelector('#cutFrom .row .tag').textContent === 'remnant'")
        it.view("saw")
        it.until("document.querySelectorAll('#jobList button.row').length === 100")
        it.click("document.querySelector('#jobList [data-key=jobPages]')")
        it.until("document.querySelectorAll('#jobList button.row').length === 105")
        for read in ("readJobCells()", "readTickets('')"):
            trial.equal(it.value(f"{read}.then(rows => rows.length)"), 105, read)
        it.type(by_id("jobNumber"), "109")
        it.key("Enter")
        it.until("document.querySelectorAll('#cutList li').length === 143")
        trial.equal(it.sheets("ticket-of-many-cuts"), 1)
        # (the heading has the focus, and paper shows none)
        it.call("Emulation.setEmulatedMedia", media="print")
        trial.equal(it.value("[document.activeElement.id, getComputedStyle(document.activeElement).outlineStyle]"), ["jobTitle", "none"])
        it.call("Emulation.setEmulatedMedia", media="")
        it.at_widths("many")
        is_quiet(it)


@case(
    "a ticket and a report while eight terminals post",
    "A browser opens a ticket, a report and a trace while eight terminals post: each message is answered, and the "
    "page shows what the books hold.",
)
def crowd(trial):
    shop = open_shop(trial)
    line = {"count": 2, "h": 1, "line": 1, "material": "STEEL", "turn": False, "w": 10000, "worth": 100}
    for number, keys in enumerate(
        (
            {"batch": "S-1", "count": 1, "do": "receive", "h": 1, "material": "STEEL", "w": 60000},
            {"do": "order", "lines": [line], "order": "A-1"},
            {"do": "reserve", "part": "1/0", "tree": "x10000 p1 x10000 p1 r"},
        )
    ):
        trial.holds("ok" in exchange(shop, "/message", {**keys, "number": number, "terminal": 8}), keys)

    def posted(terminal):
        bar = {"batch": "S-2", "count": 1, "do": "receive", "h": 1, "material": "STEEL", "w": 30000, "terminal": terminal}
        return [exchange(shop, "/message", {**bar, "number": number}) for number in range(6)]

    with Terminal(trial, shop) as it, concurrent.futures.ThreadPoolExecutor(8) as pool:
        it.begin(7)
        running = [pool.submit(posted, terminal) for terminal in range(11, 19)]
        it.view("saw")
        it.until("atSaw.told && document.querySelectorAll('#cutList li').length === 2")
        it.view("yield")
        it.click("document.querySelector('#yieldBars [data-key=ySTEEL]')")
        it.until("document.querySelector('#report table')")
        it.view("stock")
        it.material("stock", "STEEL")
        it.click("document.querySelector('#stockList [data-key=\"t1/0\"]')")
        it.until("document.querySelector('#tracePicture svg')")
        acts = [reply.get("act") for replies in running for reply in replies.result()]
        trial.equal(sorted(acts), list(range(3, 51)), "each is received once")
        it.view("yield")
        received = 60000 + 48 * 30000
        it.until(f"factOf('/totals/STEEL')?.received === {received}")
        it.click("document.querySelector('#yieldBars [data-key=ySTEEL]')")
        it.until(f"{by_id('report')}.textContent.includes('49 parts')")
        trial.equal(it.ask("/totals/STEEL")["received"], received)
        trial.holds("150.000\u00a0m" in it.text("report"), "the report has other totals")
        is_quiet(it)


PIECES = {"line": 1, "material": "STEEL", "w": 10000, "h": 1, "turn": False, "count": 12, "worth": 100}


@case(
    "what is reserved at the page is answered at once",
    "Reserve by Enter: nothing moves, the focus is at *Plan all*, Enter plans what is left and Tab leads to Reserve, also while the shop is "
    "silent, whose plans then leave out what was reserved; where another terminal takes a bar the next of its size is planned, and that "
    "is told.",
)
def answered_at_once(trial):
    with Terminal(trial, open_shop(trial)) as it:
        it.begin(7)
        send = lambda number, **keys: exchange(it.shop, "/message", {"number": number, "terminal": 8, **keys})
        send(1, do="receive", material="STEEL", batch="S-1", w=60000, h=1, count=4)
        send(2, do="order", order="A-1", lines=[PIECES])
        for width in (1280, 400):
            it.size(width)
            it.propose("STEEL")
            it.value("scrollTo(0, 0)")
            part, left = it.value("[chosenPlan().part, leftOf(shop.demands[0])]")
            planned = it.value("chosenPlan().counts.get(1)")
            before = it.value(f"[{PLACE_OF}({by_id('planAll')}), {PLACE_OF}({by_id('reserve')})]")
            it.value(f"{by_id('reserve')}.focus()")
            it.shop.process.send_signal(signal.SIGSTOP)
            it.key("Enter")
            it.until("document.activeElement.id === 'planAll'", 2)
            trial.holds(f"{part} is being reserved." in it.text("planWords"), it.text("planWords"))
            trial.equal(it.value("leftOf(demandsToCut()[0])"), left - planned)
            trial.equal(it.value(f"[...document.querySelectorAll('#cutFrom .row')].some(e => e.textContent.includes('{part},'))"), False)
            it.key("Enter")
            it.until(f"{by_id('planNow')}.textContent.startsWith('Planned once the answer is there')", 2)
            it.shop.process.send_signal(signal.SIGCONT)
            it.says(f"Reserve {part}: job ")
            it.planned()
            trial.equal(it.value("document.activeElement.id"), "planAll")
            it.key("Tab")
            trial.equal(it.value("document.activeElement.id"), "reserve", "Reserve isn't the next step")
            trial.holds(it.value("countOf(toCut.found.plans)") <= left - planned, "pieces that are reserved are planned again")
            trial.equal(it.value(f"toCut.found.plans.some(plan => plan.parts.includes('{part}'))"), False)
            if width == 1280:
                after = it.value(f"[{PLACE_OF}({by_id('planAll')}), {PLACE_OF}({by_id('reserve')})]")
                moved = [abs(a - b) for now, was in zip(after, before) for a, b in zip(now, was)]
                trial.holds(max(moved) <= 1, f"what was pressed moved: {before} to {after}")
            it.until("shop.parts.filter(row => row.state === 'reserved').length === " + ("1" if width == 1280 else "2"))
            it.click("document.querySelector('#successes button:last-child')")
        it.size(1280)
        it.propose("STEEL")
        taken = it.value("chosenPlan().part")
        it.value(f"{by_id('reserve')}.focus()")
        trial.equal(send(3, do="reserve", part=taken, tree="x10000 p1 r").get("ok"), "reserve")
        (last,) = [row["part"] for row in it.ask("/parts/STEEL")["parts"] if row["state"] == "standing"]
        it.until(f"toCut.part === {json.dumps(last)}")
        it.planned()
        words = f"Part {taken} doesn't stand any more: it was taken elsewhere. {last} is planned in its place."
        trial.holds(it.text("planWords").startswith(words), it.text("planWords"))
        trial.equal(it.value("[document.activeElement.id, countOf(toCut.found.plans)]"), ["planAll", 1])
        it.key("Tab")
        trial.equal(it.value("[document.activeElement.id, document.activeElement.textContent]"), ["reserve", f"Reserve {last}"])
        trial.equal(send(4, do="scrap", part=last).get("ok"), "scrap")
        it.until("toCut.part === '' && !toCut.found")
        words = f"Part {last} doesn't stand any more: it was taken elsewhere."
        it.until(f"{by_id('planWords')}.textContent.startsWith({json.dumps(words)})")
        trial.equal(it.value("document.activeElement.id"), "planTitle", "nothing is left to plan from")
        is_quiet(it)


@case(
    "an address of the page that names no view",
    "Behind `#` a name that JavaScript has itself, or any other, shows the first view, and the page goes on.",
)
def no_view(trial):
    with Terminal(trial, open_shop(trial)) as it:
        it.begin(7)
        for name in ("constructor", "__proto__", "toString", "hasOwnProperty", "valueOf", "nothing", "%00", ""):
            it.value(f"location.hash = {json.dumps(name)}")
            shown = "[...document.querySelectorAll('.view')].filter(e => !e.hidden).map(e => e.id)"
            it.until(f"{shown}.join() === 'tocut'", 5)
            it.view("stock")
        it.go(f"{it.address}#__proto__")
        it.call("Page.reload")
        it.until(f"document.readyState === 'complete' && !{by_id('tocut')}.hidden && shop.materials.length")
        is_quiet(it)


def templates_of(text):
    """The texts that a script writes as templates of `tr`, with {0}, {1}, .. for what is filled in."""
    found = set()
    for match in re.finditer(r"(?<![\w`])tr`", text):
        words, _ = template_at(text, match.end())
        found.add(re.sub(r"\\u([0-9a-f]{4})", lambda it: chr(int(it[1], 16)), words))
    return found


def template_at(text, place):
    """A template's words from this place on, and the place behind its end."""
    words, holes = "", 0
    while text[place] != "`":
        if text.startswith("${", place):
            words, holes, place = words + "{%d}" % holes, holes + 1, hole_end(text, place + 2)
        else:
            words, place = words + text[place], place + 1
    return words, place + 1


def hole_end(text, place):
    """The place behind what is filled in, which may have braces, texts and templates itself."""
    depth = 1
    while depth:
        mark, place = text[place], place + 1
        if mark == "`":
            place = template_at(text, place)[1]
        elif mark in "\"'":
            place = text.index(mark, place) + 1
        depth += (mark == "{") - (mark == "}")
    return place


@case(
    "the page's texts in both languages",
    "Each text that the page's code or its document has stands in the one table with its German, with the same things filled "
    "in or fewer, and each of the table is used.",
)
def both_languages(trial):
    with open(PAGE, encoding="utf-8") as file:
        text = file.read()
    body, script = text.split("<body>")[1].split("<script>")
    table, code = script.split("let GERMAN=new Map(Object.entries(")[1].split("));", 1)
    german = json.loads(re.sub(r",\s*}", "}", table))
    shown = {html.unescape(it.strip()) for pair in re.findall(r">([^<]+)<|aria-label=\"([^\"]+)\"", body) for it in pair}
    texts = templates_of(code) | {it for it in shown if re.search("[A-Za-z]{2}", it)}
    trial.equal(sorted(texts - set(german)), [], "texts without German")
    one_or_many = lambda it: f"({re.escape(it)}|{re.escape(it.removesuffix('s'))})"
    words = {it for it in set(german) - texts if re.search(rf"[\"'`\[, ]{one_or_many(it)}[\"'`\], ]", code)}
    trial.equal(sorted(set(german) - texts - words), [], "German of no text")
    for english, other in german.items():
        filled = lambda it: set(re.findall(r"{\d}", it))
        trial.holds(filled(other) <= filled(english) and (other or not english), f"{english}: {other}")


@case(
    "the page in German",
    "In a German browser a receipt, an order from a spreadsheet, a plan, its job and the yield are in German, with decimal "
    "commas, and no text in sight is English; a fault and a refusal too.",
)
def german(trial):
    with Terminal(trial, open_shop(trial), "de-DE") as it:
        it.go(it.address)
        it.open_dialog()
        trial.equal(it.value("document.documentElement.lang"), "de")
        is_german(it, "terminal")
        it.begin(7)
        it.receive("GLASS", "g-1", "1200", "800", 3)
        it.says("Eingang 3 × GLASS 1200,0\u00a0×\u00a0800,0\u00a0mm: 3 Stück eingegangen, 1/0 bis 1/2")
        it.receive("GLASS", "g-1", "1200,55", "800", 3)
        wanted = "Länge „1200,55“: Millimeter mit höchstens einer Nachkommastelle schreiben, wie 1250,5"
        it.until("document.querySelector('#receiveForm .fault')")
        trial.equal(it.value("document.querySelector('#receiveForm .fault').textContent"), wanted)
        is_german(it, "stock")
        for said in ("2 Zeilen bestellt, Positionen ab 1", "wurde "):
            it.order_file("a-1", "glas.csv", "Material;Länge;Breite;Anzahl;worth\r\nGLASS;400,5;300;3;9\r\nGLASS;250;200;4;\r\n")
            trial.equal(it.value("document.querySelector('#csvPreview tbody').rows[1].cells[7].textContent"), "50000← leer")
            is_german(it, "orders")
            it.click(by_id("sendCsv"))
            it.says(f"Auftrag A-1 aus einer Datei: {said}")
        it.propose("GLASS")
        trial.equal(it.text("planTitle"), "Plan von 1/0, 1200,0\u00a0×\u00a0800,0\u00a0mm")
        is_german(it, "to-cut")
        it.click(by_id("reserve"))
        it.says("1/0 reservieren: Job 2, ")
        it.view("saw")
        it.until("atSaw.told && document.querySelector('#jobPicture svg')")
        is_german(it, "saw")
        it.click(by_id("done"))
        it.says("Job 2 erledigt: Zuschnitte ")
        it.until("atSaw.told.state === 'done'")
        is_german(it, "done")
        it.type(by_id("jobNumber"), "999")
        it.key("Enter")
        it.until(f"{by_id('jobFault')}.textContent === 'Es gibt keinen Job 999.'")
        it.value("void send({do: 'done', job: 2}, tr`Job ${2} done`)")
        it.says("Job 2: erledigt von Terminal 7, ")
        it.value("void send({do: 'release', job: 2}, tr`Give back job ${2}`)")
        it.says("Abgelehnt: Job 2 auflösen: Job 2: erledigt von Terminal 7, ")
        it.view("yield")
        it.until(f"{by_id('yieldTable')} && {by_id('yieldTable')}.rows[1].cells[1].textContent === '2,8800\u00a0m²'")
        it.click("document.querySelector('#yieldBars [data-key=yGLASS]')")
        it.until("document.querySelector('#report table')")
        is_german(it, "yield")
        yields_fit(it)
        is_quiet(it)


# What German calls things, by the page's law, and the words that it doesn't have.
GERMAN_WORDS = (
    ("kerf", "Schnittbreite"),
    ("demand", "Position"),
    ("there is no such part", "dieses Teil gibt es nicht"),
    ("Give back", "Auflösen"),
    ("standing", "verfügbar"),
    ("scrap", "Ausschuss"),
    ("Take back", "Zurücknehmen"),
    ("Done", "Erledigt"),
    ("Broken off…", "Abbruch…"),
    ("broken off", "Abbruch"),
    ("{0}: proved best", "{0}: nachweislich optimal"),
    ("Any order", "Auftrag suchen"),
    ("yes", "ja"),
    ("no", "nein"),
    ("What happened", "Verlauf"),
)
NO_GERMAN = r"\bFuge|Bedarf|[Ff]reigeb|\b[Dd]er Teil\b|\b[Dd]erselbe|Betrieb (lehnt|verweigert|weist)|Betrieb hat .*abgelehnt"


@case(
    "the German words of the page",
    "German calls kerf, demands, parts and what is done as the page's law has it, and has none of the words that mean something else.",
)
def german_words(trial):
    with open(os.path.join(os.path.dirname(PAGE), "src", "words.js"), encoding="utf-8") as file:
        rows = dict(json.loads(f"[{row}]") for row in re.findall(r'(?m)^  ("(?:[^"\\]|\\.)*": "(?:[^"\\]|\\.)*"),?$', file.read()) for row in [row.replace('": "', '", "', 1)])
    trial.holds(len(rows) > 500, f"{len(rows)} texts")
    trial.equal([(text, rows.get(text)) for text, _ in GERMAN_WORDS], list(GERMAN_WORDS))
    trial.equal([german for german in rows.values() if re.search(NO_GERMAN, german)], [])
