"""What the floor's commands bring to the terminal's page: days and texts of orders, begun jobs, what is taken back, rests of wrong
cuts, lines that are added, and where pieces came from. The values are of the page's law."""

import json
import re

from browser.terminal import Terminal, by_id, open_shop
from kit.case import case
from kit.page import is_german, is_quiet
from kit.page_saw import BAR, LINES, sender, shop_with_jobs

MARKUP = "edges ground <img src=x onerror=alert(1)>"
# Four pieces of 1200.0 mm of a bar of 6000.0 mm, whose saw takes 2.5 mm: behind two cuts 3595.0 mm are left.
LONG = {"line": 1, "material": "STEEL", "w": 12000, "h": 1, "turn": False, "count": 8, "worth": 1}
FOUR = "x12000 p1 x12000 p1 x12000 p1 x12000 p1 r"


def orders_of(it, holder):
    """The codes of the orders that a view lists, from above."""
    return it.value(f"{by_id(holder)}.textContent.match(/[A-Z]-[0-9]/g).filter((code, i, all) => all.indexOf(code) === i)")


def keyed(holder, key):
    return f"{by_id(holder)}.querySelector('[data-key=\"{key}\"]')"


def clicks(it, most, act):
    """Does something by at most so many clicks."""
    before = it.clicks
    act()
    it.trial.holds(it.clicks - before <= most, f"{it.clicks - before} clicks in place of {most}")


def put(it, find, value):
    """Has a field hold a value, as typing does."""
    it.value(f"(e => {{ e.value = {json.dumps(value)}; e.dispatchEvent(new Event('input', {{bubbles: true}})); }})({find})")


@case(
    "a due day at the page",
    "An order's day and text are noted by one *Save*, in three clicks from any view, with the bytes that are left; a longer text is told at "
    "its field. Orders, To cut and the saw list by the day, what has none last, and show day and text, markup as text. Another "
    "terminal's note is shown, too.",
)
def due_day(trial):
    shop = open_shop(trial)
    send = sender(shop)
    send(do="receive", material="STEEL", batch="S-1", w=6000, h=1, count=4)
    for code in ("A-1", "B-1", "C-1"):
        send(do="order", order=code, lines=LINES[:1])
    send(do="note", order="C-1", due=20261210, text="")
    jobs = [send(do="reserve", part=f"1/{place}", tree=f"x1000 p{place + 1} r")["job"] for place in range(3)]
    with Terminal(trial, shop) as it:
        it.begin(7)

        def note():
            it.view("orders")
            it.until(keyed("orderList", "saveB-1"))
            put(it, keyed("orderList", "dueB-1"), "2026-12-03")
            put(it, keyed("orderList", "textB-1"), "ä" * 101)
            trial.holds("2 bytes too long" in it.text("orderList"), it.text("orderList"))

        it.view("stock")
        before = it.clicks
        note()
        it.click(keyed("orderList", "saveB-1"))
        it.until("orderList.querySelector('.fault')?.textContent === 'text has 202 bytes: write at most 200'")
        trial.equal(it.ask("/terminal/7")["last"], 0)
        put(it, keyed("orderList", "textB-1"), MARKUP)
        it.click(keyed("orderList", "saveB-1"))
        it.says("Order B-1: due Dec 03, 2026, “edges ground")
        trial.holds(it.clicks - before <= 3, f"{it.clicks - before} clicks")
        rows = {row["order"]: (row["due"], row["text"]) for row in it.ask("/orders")["orders"]}
        trial.equal(rows, {"A-1": (0, ""), "B-1": (20261203, MARKUP), "C-1": (20261210, "")})
        it.until("orderList.querySelector('.orderedhead').textContent.startsWith('B-1')")
        trial.equal(orders_of(it, "orderList"), ["B-1", "C-1", "A-1"])
        it.until(f"orderList.querySelector('.orderedhead').textContent.includes({json.dumps(MARKUP)})")
        it.at_widths("orders-due")
        it.value("void (location.hash = 'cut/STEEL')")
        it.until(f"wanted.textContent.includes({json.dumps('due Dec 03, 2026, ' + MARKUP)})")
        trial.equal(orders_of(it, "wanted"), ["B-1", "C-1", "A-1"])
        it.value("void (location.hash = 'saw')")
        it.until("jobList.querySelectorAll('.row').length === 3 && jobList.textContent.includes('due Dec 10, 2026')")
        listed = it.value("[...jobList.querySelectorAll('.row')].map(e => e.dataset.key)")
        trial.equal(listed, [f"j{jobs[1]}", f"j{jobs[2]}", f"j{jobs[0]}"], "by day")
        it.value(f"openJob({jobs[1]})")
        it.until(f"jobOrders.textContent === {json.dumps('B-1: due Dec 03, 2026, ' + MARKUP)}")
        trial.equal(it.value("document.querySelectorAll('main img').length"), 0)
        it.at_widths("saw-due")
        send(do="note", order="B-1", due=0, text="later")
        it.until("jobOrders.textContent === 'B-1: later'")
        is_quiet(it)


@case(
    "a wrong Done at the page that is taken back",
    "Behind *Done* its notice takes it back by one click; later it takes three: the saw, the ended job, *Take back*. What happened has it, "
    "too. Where a part moved it is told which; what another terminal took back is no fault. Behind *All 2 done* one click takes both back.",
)
def taken_back(trial):
    shop = open_shop(trial)
    send = sender(shop)
    send(do="receive", material="STEEL", batch="S-1", w=6000, h=1, count=6)
    send(do="order", order="A-1", lines=LINES[:1])
    jobs = [send(do="reserve", part=f"1/{place}", tree=tree)["job"] for place, tree in enumerate((BAR, BAR, "x1000 p1 r", "x1000 p1 x1000 p1 r"))]
    state = lambda job: it.ask(f"/job/{job}")["state"]
    back = "[...document.querySelectorAll('#successes .notice button')].find(e => e.textContent === 'Take back')"
    with Terminal(trial, shop) as it:
        it.begin(7)
        it.value(f"void (location.hash = 'saw/{jobs[2]}')")
        it.until(f"atSaw.told?.job === {jobs[2]}")
        it.click(by_id("done"))
        it.says(f"Job {jobs[2]} done: pieces 100.0")
        clicks(it, 1, lambda: it.click(back))
        it.says(f"Take back job {jobs[2]}: part 1/2 stands again, and its pieces are wanted again")
        trial.equal((state(jobs[2]), it.ask("/trace/1/2")["state"], it.ask("/demand/1")["made"]), ("undone", "standing", 0))
        it.until(f"jobTitle.textContent === 'Job {jobs[2]}, taken back: STEEL, part 1/2' && done.hidden && {by_id('takeBack')}.hidden")
        trial.holds(it.text("jobWords").startswith("The job was taken back: part 1/2 stands again"), it.text("jobWords"))
        send(do="done", job=jobs[3])
        it.view("yield")

        def later():
            it.view("saw")
            it.click(keyed("endedJobs", f"e{jobs[3]}"))
            it.until(f"atSaw.told.job === {jobs[3]} && !{by_id('takeBack')}.hidden")
            it.click(by_id("takeBack"))

        clicks(it, 3, later)
        it.says(f"Take back job {jobs[3]}: part 1/3 stands again")
        it.value(f"openJob({jobs[0]})")
        it.until(f"atSaw.told.job === {jobs[0]} && allDone.textContent === 'All 2 done'")
        it.click(by_id("allDone"))
        it.confirm()
        it.says(f"Jobs {jobs[0]} to {jobs[1]} done: 2 of 2 done")
        clicks(it, 1, lambda: it.click(back))
        it.until("!terminal.kept().length")
        trial.equal([state(job) for job in jobs], ["undone"] * 4)
        # (of a job whose rest was reserved since it is told which part moved; what is taken back already is no fault)
        job = send(do="reserve", part="1/4", tree="x1000 p1 r")["job"]
        send(do="done", job=job)
        other = send(do="reserve", part=f"{job}/2", tree="x1000 p1 r")["job"]
        it.value(f"void undoJob({job})")
        it.says(f"Refused: Take back job {job}: {job}/2 is reserved: the job isn't as it was left any more (74 PartsMoved)")
        send(do="release", job=other)
        it.value("void (location.hash = 'happened')")
        entry = "[...happenedList.querySelectorAll('button')].find(e => e.getAttribute('aria-label') === 'Take back job {}')"
        it.until(entry.format(job))
        it.value("(window.pass = refreshPass, refreshPass = () => {}, 0)")
        it.until("!refresh.running")
        send(do="undo", job=job)
        it.click(entry.format(job))
        it.until("!terminal.kept().length")
        words = it.value("terminal.answered().at(-1).words")
        trial.holds(re.fullmatch(rf"Job {job}: taken back by terminal 8, \d+:\d\d(\s[AP]M)?", words), words)
        it.value("(refreshPass = window.pass, refreshNow(), 0)")
        it.until(f"happenedList.textContent.includes('job {job} taken back, 1/4 stands again')")
        trial.equal(it.value(f"Boolean({entry.format(job)})"), False, "it can be taken back twice")
        is_quiet(it)


@case(
    "jobs at the page that are begun",
    "The first tick tells that the job is begun here, once; *Begin* does without a tick. The list tells of other terminals which jobs they "
    "have begun, and whoever begins such a job is told.",
)
def begun(trial):
    shop, send, jobs = shop_with_jobs(trial)
    with Terminal(trial, shop) as it:
        it.begin(7)
        it.value(f"void (location.hash = 'saw/{jobs[0]}')")
        it.until(f"atSaw.told?.job === {jobs[0]} && !begin.hidden")
        for cut in (0, 1):
            it.click(f"document.querySelectorAll('#cutList .cut')[{cut}]")
        it.until("!terminal.kept().length && begin.hidden")
        trial.equal((it.ask(f"/job/{jobs[0]}")["begun"], it.ask("/terminal/7")["last"]), (7, 1))
        it.until(f"jobList.textContent.includes('{jobs[0]} begun by terminal 7')")
        send(do="begin", job=jobs[1])
        send(do="begin", job=jobs[2])
        it.until(f"jobList.textContent.includes('{jobs[1]} to {jobs[2]} begun by terminal 8')")
        it.at_widths("saw-begun")
        for job, act in ((jobs[1], by_id("begin")), (jobs[2], "document.querySelector('#cutList .cut')")):
            it.value(f"openJob({job})")
            it.until(f"atSaw.told.job === {job} && {by_id('jobFigures')}.textContent.includes('Terminal 8')")
            it.click(act)
            it.says(f"Job {job}: terminal 8 had begun it. Ask there before you cut.")
            trial.equal(it.ask(f"/job/{job}")["begun"], 7)
        it.until(f"jobList.textContent.includes('{jobs[0]} to {jobs[2]} begun by terminal 7')")
        is_quiet(it)


@case(
    "a third cut at the page that went wrong",
    "Of four cuts two are ticked and the third went wrong: *Broken off* takes the first that isn't ticked for the wrong one, 2390.0 mm are "
    "measured, and it is told at once what is kept under which name and that 1205.0 mm are lost. Two clicks. A rest that isn't shorter "
    "than what was to be divided is told. A click clears the wrong cut. The ticket shows it over a reload.",
)
def third_cut(trial):
    shop = open_shop(trial)
    send = sender(shop)
    send(do="receive", material="STEEL", batch="S-1", w=60000, h=1, count=2)
    send(do="order", order="A-1", lines=[LONG])
    job = send(do="reserve", part="1/0", tree=FOUR)["job"]
    kept = f"{job}/5"
    with Terminal(trial, shop) as it:
        it.begin(7)
        it.value(f"void (location.hash = 'saw/{job}')")
        it.until(f"atSaw.told?.job === {job}")
        it.click("document.querySelectorAll('#cutList .cut')[1]")

        def broken():
            it.click(by_id("startBreak"))
            trial.equal(it.value("atSaw.lost"), 2)
            trial.holds("Lost: 3595.0\u00a0mm." in it.text("breakWords"), it.text("breakWords"))
            for text, fault in (("3595.0", "3595.0 mm: write 0.1 to 3594.9 mm"), ("x", "write millimetres with at most one decimal")):
                put(it, by_id("breakRest"), text)
                trial.holds(fault in it.text("breakWords") and it.value(f"{by_id('sendBreak')}.disabled"), it.text("breakWords"))
            put(it, by_id("breakRest"), "2390,0")
            told = it.text("breakWords")
            trial.holds(f"Kept: {kept} (2390.0\u00a0mm). Lost: 1205.0\u00a0mm." in told, told)
            it.shot("saw-rest")
            it.click(by_id("sendBreak"))

        clicks(it, 2, broken)
        it.says(f"Break off job {job}: pieces 2.400\u00a0m, kept 2.390\u00a0m, kerf 5.0\u00a0mm, scrap 1.205\u00a0m. Label what is kept: {kept} (2390.0\u00a0mm)")
        part = it.ask(f"/trace/{kept}")
        trial.equal((part["state"], part["w"], part["x"]), ("standing", 23900, 36100))
        it.call("Page.reload")
        it.until(f"document.readyState === 'complete' && {by_id('jobWords')}.textContent.endsWith('what was left.')")
        trial.holds(f"left of it: rest 2390.0\u00a0mm, kept as {kept}" in it.text("cutList"), it.text("cutList"))
        trial.equal(it.value("[...document.querySelectorAll('#cutList .cut')].map(e => e.className)"), ["cut made", "cut made", "cut lost", "cut "])
        lost = it.value("[...document.querySelectorAll('#cutList .cut .quiet')].map(e => e.textContent.split('; ').filter(words => words.includes('lost')))")
        trial.equal(lost, [[], [], ["1205.0\u00a0mm, lost"], []])
        it.value("void (location.hash = 'happened')")
        it.until(f"happenedList.textContent.includes('job {job} broken off, 2 cuts made, cut 3 went wrong, rest 2390.0\u00a0mm')")
        it.value(f"undoJob({job})")
        it.says(f"Take back job {job}: part 1/0 stands again")
        job = send(do="reserve", part="1/0", tree=FOUR)["job"]
        it.value(f"openJob({job})")
        it.until(f"atSaw.told.job === {job} && viewName() === 'saw'")
        it.click(by_id("startBreak"))
        it.click("document.querySelectorAll('#cutList .cut')[0]")
        trial.equal((it.value("atSaw.lost"), it.value(f"{by_id('sendBreak')}.disabled")), (None, True), "a click doesn't clear it")
        is_quiet(it)


@case(
    "lines at the page that are added to an order",
    "*Add lines* adds lines by hand behind the order's last one, and a file's lines where its order is there. Over 200 lines is told. What "
    "is refused comes back.",
)
def extended(trial):
    shop = open_shop(trial)
    send = sender(shop)
    send(do="order", order="A-1", lines=[{**LINES[0], "line": 5}])
    send(do="order", order="B-1", lines=[{**LINES[0], "line": line} for line in range(1, 200)])
    with Terminal(trial, shop) as it:
        it.begin(7)
        it.value("void (location.hash = 'order/A-1')")
        it.until(keyed("foundOrder", "extendA-1"))
        it.click(keyed("foundOrder", "extendA-1"))
        trial.equal(it.text("handTitle"), "Add lines to order A-1")
        for name, text in (("length", "250"), ("width", "200"), ("count", "3")):
            it.type(f"orderLines.querySelector('[data-field={name}]')", text)
        it.click(by_id("sendOrder"))
        it.says("Add lines to order A-1: 1 line added, pieces wanted from no. 201 on")
        it.until("foundOrder.textContent.includes('line 6')")
        trial.equal(it.text("handTitle"), "New order by hand")
        it.order_file("a-1", "more.csv", "material,length,count\nSTEEL,100,2\nSTEEL,120,1\n")
        it.until(by_id("extendCsv"))
        it.click(by_id("extendCsv"))
        it.says("Add lines to order A-1: 2 lines added, pieces wanted from no. 202 on")
        told = [(row["line"], row["material"], row["w"], row["wanted"]) for row in it.ask("/order/A-1")["lines"]]
        trial.equal(told, [(5, "STEEL", 1000, 40), (6, "GLASS", 2500, 3), (7, "STEEL", 1000, 2), (8, "STEEL", 1200, 1)])
        it.order_file("b-1", "more.csv", "material,length,count\nSTEEL,100,2\nSTEEL,120,1\n")
        it.until(f"{by_id('extendCsv')}?.textContent.includes('B-1')")
        it.click(by_id("extendCsv"))
        it.says("Add lines to order B-1: An order has at most 200 lines.")
        trial.equal(len(it.ask("/order/B-1")["lines"]), 199)
        is_quiet(it)


@case(
    "where an order's pieces came from at the page",
    "An order tells its jobs and the batches and units of which its pieces were made, a batch and a unit the orders that have pieces of them, "
    "in two clicks. One field finds an order, a job, a part and a batch.",
)
def where_from(trial):
    shop = open_shop(trial)
    send = sender(shop)
    for batch in ("S-1", "S-2"):
        send(do="receive", material="STEEL", batch=batch, w=6000, h=1, count=2)
    for code in ("A-1", "B-1"):
        send(do="order", order=code, lines=LINES[:1])
    jobs = [send(do="reserve", part=part, tree=tree)["job"] for part, tree in (("1/0", "x1000 p1 x1000 p2 r"), ("2/0", "x1000 p1 r"), ("1/1", "x1000 p1 r"))]
    send(do="done", job=jobs[0])
    send(do="done", job=jobs[1])
    links = lambda holder: it.value(f"[...{by_id(holder)}.querySelectorAll('.links a')].map(e => e.getAttribute('href'))")
    with Terminal(trial, shop) as it:
        it.begin(7)

        def order():
            it.view("orders")
            it.click("document.querySelector('#orderList a[href=\"#order/A-1\"]')")

        clicks(it, 2, order)
        it.until("foundOrder.textContent.includes('Where from')")
        jobs_of = [f"#saw/{job}" for job in reversed(jobs)]
        trial.equal(links("foundOrder"), [*jobs_of, "#batch/S-1", "#part/1/0", "#batch/S-2", "#part/2/0"])
        trial.holds("Batch S-11 piece 100.0\u00a0mm, STEEL:1/0" in it.text("foundOrder"), it.text("foundOrder"))
        trial.holds(f"Job {jobs[2]}waits" in it.text("foundOrder"), it.text("foundOrder"))
        it.at_widths("order-from")

        def batch():
            it.type(by_id("findOrder"), "s-1")
            it.click("document.querySelector('#findForm button')")

        clicks(it, 2, batch)
        it.until("location.hash === '#batch/S-1' && traceWords.textContent.includes('Pieces of orders')".replace("traceWords", by_id("traceWords")))
        trial.equal(links("traceWords"), ["#order/A-1", "#part/1/0", "#order/B-1", "#part/1/0"])
        for text, address in (("1/0", "part/1/0"), (str(jobs[2]), f"saw/{jobs[2]}"), ("B-1", "order/B-1")):
            it.value("void (location.hash = 'orders')")
            it.until("!foundOrder.textContent")
            it.type(by_id("findOrder"), text)
            it.key("Enter")
            it.until(f"location.hash === '#{address}'")
        it.value("void (location.hash = 'part/1/0')")
        it.until(f"{by_id('traceWords')}.textContent.includes('Pieces of orders')")
        trial.equal(links("traceWords"), ["#order/A-1", "#part/1/0", "#order/B-1", "#part/1/0"])
        it.value("void (location.hash = 'order/A-1')")
        it.until(keyed("foundOrder", "cutnowA-1"))
        it.click(keyed("foundOrder", "cutnowA-1"))
        it.until("toCut.found && !toCut.planning && toCut.only === 'A-1' && location.hash === '#cut/STEEL'", 300)
        is_quiet(it)


FILE = "Bauvorhaben Nord\nMaterial;Länge;Breite;Anzahl;Kunde;Liefertermin\nSTEEL;100;;3;Huber GmbH;3.12.2026\nGLASS;400;300;2;Huber GmbH;1.12.2026\n"


@case(
    "an order of bars and glass at the page by five clicks",
    "From a file of bars and glass to all reserved and printed it takes five clicks: *Order and plan* plans all materials, one behind "
    "another. The file's customer and its earliest day are noted of the order, and its title is offered as the text.",
)
def all_at_once(trial):
    shop = open_shop(trial)
    send = sender(shop)
    send(do="receive", material="STEEL", batch="S-1", w=6000, h=1, count=2)
    send(do="receive", material="GLASS", batch="G-1", w=12000, h=8000, count=2)
    with Terminal(trial, shop) as it:
        it.begin(7)
        it.value("(window.print = () => { window.asked = (window.asked || 0) + 1; }, window.asked = 0)")
        it.value("void (location.hash = 'yield')")
        it.until("shop.isKnown")
        before = it.clicks
        it.view("orders")
        it.pick(by_id("csvFile"), trial.write("Huber 1.csv", FILE))
        it.until("document.getElementById('planCsv')")
        trial.equal(it.value("[document.getElementById('csv-due').value, document.getElementById('csv-text').value]"), ["2026-12-01", "Huber GmbH"])
        trial.holds("Text: “Bauvorhaben Nord”" in it.text("csvPreview"), it.text("csvPreview"))
        it.click(by_id("planCsv"))
        it.until("viewName() === 'tocut' && location.hash === '#cut' && !toCut.all && [...plansByMaterial.values()].filter(of => of.found).length === 2", 300)
        trial.holds(it.value("planTitle.textContent") == "Plan of all materials", it.text("planTitle"))
        it.until(f"!{by_id('reserve')}.disabled")
        it.at_widths("to-cut-all")
        it.click(by_id("reserve"))
        it.until("[...plansByMaterial.values()].every(of => !of.found || of.found.jobs.size === of.found.sent?.size)")
        it.click(by_id("printAll"))
        it.until("window.asked === 1")
        trial.holds(it.clicks - before <= 5, f"{it.clicks - before} clicks")
        trial.equal(sorted(row["material"] for row in it.ask("/jobs/0")["jobs"]), ["GLASS", "STEEL"])
        row = it.ask("/orders")["orders"][0]
        trial.equal((row["order"], row["due"], row["text"]), ("HUBER-1", 20261201, "Huber GmbH"))
        is_quiet(it)


@case(
    "what is typed at the page stays",
    "An order by hand, a receipt, a note and a picked file stay over another view and a reload, until they are sent.",
)
def typed(trial):
    shop = open_shop(trial)
    send = sender(shop)
    send(do="order", order="A-1", lines=LINES[:1])
    with Terminal(trial, shop) as it:
        it.begin(7)
        it.view("stock")
        it.choose(by_id("receiveMaterial"), "STEEL")
        it.type(by_id("receiveBatch"), "S-9")
        it.type(by_id("receiveW"), "5999")
        it.view("orders")
        it.type(by_id("orderCode"), "new-1")
        it.type("orderLines.querySelector('[data-field=length]')", "123")
        it.until(keyed("orderList", "textA-1"))
        put(it, keyed("orderList", "textA-1"), "edges")
        it.order_file("f-1", "file.csv", "material,length,count\nSTEEL,100,2\n")
        for _ in range(2):
            it.call("Page.reload")
            it.until(f"document.readyState === 'complete' && shop.isKnown && {by_id('sendCsv')}")
            it.until(f"{keyed('orderList', 'textA-1')}?.value === 'edges'")
            fields = ("orderCode", "fileCode", "receiveMaterial", "receiveBatch", "receiveW")
            told = it.value(f"{json.dumps(fields)}.map(id => document.getElementById(id).value)")
            trial.equal(told, ["new-1", "f-1", "STEEL", "S-9", "5999"])
            trial.equal(it.value("orderLines.querySelector('[data-field=length]').value"), "123")
        it.click(by_id("sendCsv"))
        it.says("1 line ordered, pieces wanted from no. 2 on")
        it.call("Page.reload")
        it.until("document.readyState === 'complete' && shop.isKnown && !refresh.running")
        trial.equal(it.value("[fileCode.value, Boolean(csvPreview.firstChild)]"), ["", False])
        is_quiet(it)


@case(
    "the floor's commands at the page in German",
    "In a German browser days stand as TT.MM.JJJJ, and what is noted, begun, broken off with a rest and taken back is told in German.",
)
def german(trial):
    shop = open_shop(trial)
    send = sender(shop)
    send(do="receive", material="STEEL", batch="S-1", w=60000, h=1, count=2)
    send(do="order", order="A-1", lines=[LONG])
    send(do="note", order="A-1", due=20261203, text="Kanten geschliffen")
    job = send(do="reserve", part="1/0", tree=FOUR)["job"]
    send(do="begin", job=job)
    with Terminal(trial, shop, "de-DE") as it:
        it.begin(7)
        it.value(f"void (location.hash = 'saw/{job}')")
        it.until("jobOrders.textContent === 'A-1: fällig 03.12.2026, Kanten geschliffen'")
        it.click("document.querySelectorAll('#cutList .cut')[1]")
        it.says(f"Job {job}: Terminal 8 hatte ihn begonnen.")
        it.click(by_id("startBreak"))
        put(it, by_id("breakRest"), "2390")
        trial.holds(f"Bleibt: {job}/5 (2390,0\u00a0mm). Verloren: 1205,0\u00a0mm." in it.text("breakWords"), it.text("breakWords"))
        is_german(it, "break-rest")
        it.click(by_id("sendBreak"))
        it.until(f"!{by_id('takeBack')}.hidden && endedJobs.textContent.includes('Abbruch')")
        is_german(it, "saw-ended")
        it.click(by_id("takeBack"))
        it.says(f"Job {job} zurücknehmen: Teil 1/0 ist wieder verfügbar, seine Zuschnitte sind wieder gewünscht")
        for address, words in (("happened", f"Job {job} zurückgenommen, 1/0 ist wieder verfügbar"), ("order/A-1", "fällig 03.12.2026"), ("cut", "fällig 03.12.2026")):
            it.value(f"void (location.hash = '{address}')")
            it.until(f"document.querySelector('.view:not([hidden])').textContent.includes({json.dumps(words)})")
            is_german(it, address.replace("/", "-"))
        is_quiet(it)
