"""What the page knows of the shop, and what others do there meanwhile: its values are of the page's law and of what was sent."""

import json
import re
import time

from browser.terminal import Terminal, by_id, exchange, open_shop
from kit.case import case
from kit.page import TIME, is_quiet, open_tab
from kit.page_away import begun_again, copied, restored
from kit.page_saw import BAR, LINES, sender

STOCK = {"do": "receive", "material": "STEEL", "batch": "S-1", "w": 6000, "h": 1}


def alone(it):
    """The page asks nothing by itself any more, and its notices stay."""
    it.until("!refresh.running && shop.isKnown")
    it.value("(clearTimeout(refresh.timer), window.pass = refreshPass, refreshPass = () => {}, forgetRead = foldNotices, 0)")


def notices(it, kind):
    """What notices of a kind say, the newest first, without times."""
    return [re.sub(TIME, "", text[2:]) for text in it.value(f"[...{by_id(kind)}.querySelectorAll('.notice span')].map(e => e.textContent)")]


def answered(it):
    it.until("!terminal.kept().length && !sending.busy")


@case(
    "another was quicker than the page",
    "A job that another terminal ended is told with who and when, and the same end is no fault; another end is one. So it is with a part "
    "that another reserved or scrapped, also where it is one of several, and where its story was looked at before; in German too.",
)
def quicker(trial):
    shop = open_shop(trial)
    send = sender(shop)
    send(**STOCK, count=9)
    send(do="order", order="A-1", lines=LINES)
    jobs = [send(do="reserve", part=f"1/{place}", tree=BAR)["job"] for place in range(3)]
    with Terminal(trial, shop) as it:
        it.begin(7)
        it.value(f"void (location.hash = 'happened/job/{jobs[0]}')")
        it.until(f"happenedList.textContent.includes('1/0 reserved as job {jobs[0]}')")
        it.value(f"void (location.hash = 'saw/{jobs[0]}')")
        it.until(f"atSaw.told?.job === {jobs[0]}")
        alone(it)
        send(do="done", job=jobs[0])
        it.click(by_id("done"))
        answered(it)
        trial.equal((notices(it, "successes"), notices(it, "refusals")), ([f"Job {jobs[0]}: done by terminal 8"], []))
        told = it.value("terminal.answered().at(-1).words")
        trial.holds(re.fullmatch(rf"Job {jobs[0]}: done by terminal 8, \d+:\d\d(\s[AP]M)?", told), told)
        it.until(f"atSaw.told.job === {jobs[1]}")
        send(do="done", job=jobs[1])
        it.value(f"void send({{do: 'release', job: {jobs[1]}}}, 'Give back')")
        answered(it)
        trial.equal(notices(it, "refusals"), [f"Refused: Give back: Job {jobs[1]}: done by terminal 8 (71 JobOver)"])
        send(do="scrap", part="1/3")
        send(do="reserve", part="1/4", tree=BAR)
        it.value("document.querySelector('#refusals button').click()")
        it.value("void send({do: 'scrap', part: '1/3'}, 'Scrap 1/3')")
        it.value("void send({do: 'scrap', part: '1/4'}, 'Scrap 1/4')")
        answered(it)
        trial.equal(notices(it, "refusals"), ["Refused: Scrap 1/4: Part 1/4: reserved by terminal 8 (51 NotStanding)"])
        trial.equal(notices(it, "successes")[0], "Part 1/3: scrapped by terminal 8")
        both = "[['Reserve 1/4', {do: 'reserve', part: '1/4', tree: 'x1000 p1 r'}], ['Reserve 1/5', {do: 'reserve', part: '1/5', tree: 'x1000 p1 r'}]]"
        it.value(f"void sendMany('Reserve all', {both}, () => 0)")
        answered(it)
        trial.equal(notices(it, "refusals")[0], "Refused: Reserve all: 1 of 2 done; 1 refused (1/4): Part 1/4: reserved by terminal 8 (51 NotStanding)")
        trial.equal(it.ask("/trace/1/5")["state"], "reserved")
        is_quiet(it)
    with Terminal(trial, shop, "de-DE") as it:
        it.begin(6)
        alone(it)
        it.value(f"void send({{do: 'done', job: {jobs[1]}}}, 'Fertig')")
        answered(it)
        trial.equal(notices(it, "successes"), [f"Job {jobs[1]}: erledigt von Terminal 8"])
        is_quiet(it)


@case(
    "what is looked at closely at the page while others work",
    "A part's trace, the parts of a batch, a job's story and the button that takes a job back, on an older page of what happened, follow "
    "what other terminals do meanwhile. A part that isn't there yet is shown once it is.",
)
def followed(trial):
    shop = open_shop(trial)
    send = sender(shop)
    send(**STOCK, count=3)
    send(do="order", order="A-1", lines=LINES)
    words = f"{by_id('traceWords')}.textContent"
    with Terminal(trial, shop) as it:
        it.begin(7)
        it.value("void (location.hash = 'part/1/0')")
        it.until(f"{words}.includes('1/0, 600.0\u00a0mm: stands.') && tracePicture.querySelector('svg')")
        job = send(do="reserve", part="1/0", tree="x1000 p1 r")["job"]
        it.until(f"{words}.includes('reserved for job {job}.') && {by_id('traceWords')}.querySelector('a[href=\"#saw/{job}\"]')")
        send(do="done", job=job)
        it.until(f"{words}.includes('cut by job {job}.') && {words}.includes('Pieces of orders')")
        it.value("void (location.hash = 'batch/S-1')")
        it.until(f"{words}.includes('2 units, standing') && {words}.includes('1 remnant, standing') && !tracePicture.firstChild")
        send(do="scrap", part="1/1")
        it.until(f"{words}.includes('1 unit, standing')")
        it.value(f"void (location.hash = 'happened/6')")
        back = "[...happenedList.querySelectorAll('button')].map(e => e.getAttribute('aria-label'))"
        it.until(f"{back}.join() === 'Take back job {job}'")
        send(do="undo", job=job)
        it.until(f"!{back}.length && happenedList.textContent.includes('job {job} done')")
        it.value("void (location.hash = 'part/4/0')")
        it.until(f"{words} === 'there is no such part (50 NoPart)'")
        for _ in range(2):
            send(**STOCK, count=1)
        it.until(f"{words}.includes('4/0, 600.0\u00a0mm: stands.')")
        is_quiet(it)


@case(
    "another device with the number of the page's terminal",
    "An entry of this terminal that wasn't sent by this browser is told: another device has its number. What was sent by another tab of "
    "it isn't.",
)
def stranger(trial):
    shop = open_shop(trial)
    with Terminal(trial, shop) as it:
        it.begin(7)
        it.view("stock")
        it.receive("STEEL", "S-1", "6000", None, 1)
        it.says("1 unit received")
        it.until("facts.last.entry === 3")
        first = it.session
        open_tab(it, "stock")
        it.receive("STEEL", "S-2", "6000", None, 1)
        it.says("1 unit received")
        it.session = first
        it.call("Page.bringToFront")
        it.until("facts.last.entry === 4")
        it.value("pause(LATE + 1000)")
        trial.equal(notices(it, "refusals"), [])
        exchange(shop, "/message", {**STOCK, "count": 1, "number": 3, "terminal": 7})
        words = "Another device is terminal 7, too: it sent message 3. Choose another number for one of them."
        it.says(words)
        trial.equal(notices(it, "refusals"), [words])
        is_quiet(it)


def seconds_until(it, words):
    begin = time.monotonic()
    it.says(words)
    return time.monotonic() - begin


@case(
    "a backup that is restored under an open page",
    "Where a copy from before is put in place of the shop's files, the page has dropped what it knew within four seconds, and tells as "
    "when the shop is and which message that was answered here it doesn't have. Notices of before are gone, but for those that bring back "
    "what was typed. The same shop, started again, drops nothing.",
)
def exchanged(trial):
    shop = open_shop(trial)
    send = sender(shop)
    send(**STOCK, count=2)
    send(do="order", order="A-1", lines=LINES)
    copied(shop)
    begun_again(shop)
    with Terminal(trial, shop) as it:
        it.begin(7)
        it.view("stock")
        it.receive("STEEL", "S-9", "5000", None, 1)
        it.says("1 unit received, 2/0")
        it.until("stockList.textContent.includes('5000.0')")
        shop.kill()
        it.until(f"{by_id('link')}.textContent === 'no connection'")
        begun_again(shop)
        it.until(f"{by_id('link')}.textContent === 'connected' && !refresh.running && !refresh.lost")
        trial.equal((it.value("terminal.answered().some(message => message.isLost)"), notices(it, "refusals")), (False, []))
        trial.holds("What was shown is dropped" not in it.told(), it.told())
        at = exchange(shop, "/history/3")["entries"][0]["at"]
        lost = "What was shown is dropped and read anew. It doesn't have: Receive 1 × STEEL 5000.0\u00a0mm: 1 unit received, 2/0."
        it.value("(tell('Job 1 done', 'good'), tell('Refused: Job 1', 'refused'), tell('typed', 'refused', {words: 'Take back', isTyped: true}))")
        shop.kill()
        restored(shop)
        times = [seconds_until(it, lost)]
        # (of one more try the shorter time counts, as a machine may be loaded)
        trial.equal(it.value("document.getElementById('lastNotice').innerText.match(/Job 1|typed/g)"), ["typed"])
        if times[0] >= 4:
            it.view("stock")
            it.receive("STEEL", "S-8", "5500", None, 1)
            it.until("stockList.textContent.includes('5500.0')")
            shop.kill()
            restored(shop)
            times.append(seconds_until(it, "5500.0\u00a0mm: 1 unit received, 2/0."))
        trial.holds(min(times) < 4, f"it took {times} seconds")
        it.until("stockList.textContent.includes('600.0') && !stockList.textContent.includes('5000.0')")
        words = it.value(f"tr`The shop is as it was at ${{momentText({at})}}.`")
        trial.holds(words in it.told(), (words, it.told()))
        is_quiet(it)


@case(
    "texts of the shop that look like markup",
    "A batch that has markup, as no shop of ours tells one, is shown as text in the stock, in what happened and at a part.",
)
def markup(trial):
    shop = open_shop(trial)
    send = sender(shop)
    send(**STOCK, count=1)
    send(do="order", order="A-1", lines=LINES)
    bad = "<img src=x onerror=alert(1)>"
    with Terminal(trial, shop) as it:
        it.begin(7)
        alone(it)
        it.value(f"(window.told = readReply, readReply = text => told(text.replaceAll('S-1', {bad!r})), facts.by = new Map(), refreshPass = window.pass, 0)")
        for address, holder in (("stock/STEEL", "stockList"), ("happened", "happenedList"), ("part/1/0", "traceWords")):
            it.value(f"void (location.hash = '{address}'), refreshNow()")
            it.until(f"{by_id(holder)}.textContent.includes({bad!r})")
            trial.equal(it.value("document.querySelectorAll('main img').length"), 0)
        is_quiet(it)


SHEET = "x4000 y3000 p2 r r"
FILE = "line,material,length,width,turn,count,worth\n1,STEEL,100.0,0.1,no,3,1000\n"
WIRE = {"do": "material", "material": "WIRE", "kind": "bar", "kerf": 0, "min_long": 1000, "min_short": 1}

# Messages of another terminal, with what each surely leaves as it was.
DAY = (
    ({**STOCK, "count": 6}, ["/parts/GLASS", "/totals/GLASS", "/demands/0", "/jobs/0", "/orders", "/materials"]),
    ({**STOCK, "material": "GLASS", "batch": "G-1", "w": 12000, "h": 8000, "count": 2}, ["/parts/STEEL", "/totals/STEEL", "/demands/0", "/jobs/0"]),
    ({"do": "order", "order": "A-1", "lines": LINES}, ["/parts/STEEL", "/totals/GLASS", "/jobs/0"]),
    ({"do": "order", "order": "B-1", "lines": LINES[:1]}, ["/order/A-1", "/demands/0/GLASS", "/parts/STEEL"]),
    ({"do": "import", "order": "C-1", "form": "csv", "text": FILE}, ["/order/A-1", "/jobs/0"]),
    ({"do": "import", "order": "C-1", "form": "csv", "text": FILE}, ["/order/A-1", "/materials"]),
    ({"do": "reserve", "part": "1/0", "tree": BAR}, ["/order/B-1", "/parts/GLASS", "/totals/GLASS"]),
    ({"do": "reserve", "part": "2/0", "tree": SHEET}, ["/order/B-1", "/parts/STEEL", "/demands/0/STEEL"]),
    ({"do": "reserve", "part": "1/1", "tree": BAR}, ["/job/3", "/job/4", "/order/C-1"]),
    ({"do": "done", "job": 3}, ["/job/4", "/parts/GLASS", "/demands/0/GLASS"]),
    ({"do": "break", "job": 4, "cuts": [0], "lost": False}, ["/job/3", "/job/5", "/parts/STEEL"]),
    ({"do": "release", "job": 5}, ["/job/3", "/job/4", "/parts/GLASS"]),
    ({"do": "amend", "demand": 1, "wanted": 39}, ["/order/B-1", "/parts/STEEL", "/jobs/0"]),
    ({"do": "scrap", "part": "1/3"}, ["/order/A-1", "/demands/0", "/jobs/0", "/job/3"]),
    ({"do": "return", "part": "1/4"}, ["/order/A-1", "/demands/0", "/jobs/0", "/job/3"]),
    ({"do": "note", "order": "B-1", "due": 20261203, "text": "edges ground"}, ["/order/A-1", "/parts/STEEL", "/totals/STEEL", "/job/3"]),
    ({"do": "extend", "order": "B-1", "lines": [{**LINES[0], "line": 9}]}, ["/order/A-1", "/parts/STEEL", "/jobs/0"]),
    ({"do": "reserve", "part": "1/2", "tree": BAR}, ["/order/B-1", "/parts/GLASS", "/pieces/order/A-1"]),
    ({"do": "begin", "job": 6}, ["/job/3", "/orders", "/parts/STEEL", "/demands/0", "/steps/3"]),
    ({"do": "break", "job": 6, "cuts": [0], "lost": 1, "rest": 4000}, ["/job/3", "/parts/GLASS"]),
    ({"do": "undo", "job": 6}, ["/job/3", "/parts/GLASS", "/order/B-1"]),
    ({"do": "undo", "job": 3}, ["/job/6", "/parts/GLASS"]),
    (WIRE, ["/order/A-1", "/parts/STEEL", "/jobs/0", "/totals/GLASS"]),
)

# What a page may ask for. (What isn't there is refused, and so isn't known.)
PATHS = [
    *("/materials", "/jobs/0", "/orders", "/demands/0", "/history/0"),
    *(f"/{what}{code}" for code in ("STEEL", "GLASS", "WIRE") for what in ("demands/0/", "parts/", "totals/")),
    *(f"/{what}{order}{behind}" for order in ("A-1", "B-1", "C-1") for what, behind in (("order/", ""), ("story/order/", "/0"))),
    *(f"/demand/{demand}" for demand in range(1, 5)),
    *(f"/{what}{job}{behind}" for job in (3, 4, 5, 6) for what, behind in (("job/", ""), ("steps/", ""), ("story/job/", "/0"))),
    *(f"/pieces/{of}" for of in ("order/A-1", "order/B-1", "batch/S-1", "batch/G-1", "unit/1/0", "unit/2/0")),
    *(f"/{what}{part}{behind}" for part in ("1/0", "1/1", "1/3", "1/4", "2/0", "3/1", "4/1", "4/2") for what, behind in (("trace/", ""), ("story/part/", "/0"))),
]

LOOK = """(async paths => {
  await lookAtShop();
  const stayed = [...facts.by.keys()];
  for (const path of paths) await askCalmly(path).catch(() => 0);
  return [stayed, [...facts.by].map(([path, {reply}]) => [path, reply])];
})"""


@case(
    "what the page knows is what the shop says",
    "Behind each kind of message of another terminal all that the page still holds as known is what the shop answers by then; what the "
    "message leaves as it was stays known. A word that the page doesn't know makes all stale.",
)
def as_said(trial):
    shop = open_shop(trial)
    send = sender(shop)
    with Terminal(trial, shop) as it:
        it.begin(7)
        alone(it)
        look = f"{LOOK}({json.dumps(PATHS)})"
        it.value(look)
        for message, left in DAY:
            send(**message)
            stayed, known = it.value(look)
            trial.equal([path for path in left if path not in stayed], [], f"dropped behind {message}")
            for path, reply in known:
                trial.equal(reply, exchange(shop, path), f"{path} behind {message}")
        trial.holds(len(known) > 40, f"only {len(known)} answers are known")
        trial.equal(it.value(f"{json.dumps(PATHS)}.filter(path => !isStaleBy({{do: 'unheard', job: 3}}, {{orders: [], materials: []}}, path))"), [])
        is_quiet(it)
