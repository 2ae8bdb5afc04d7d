"""What the page tells of what happened, in which order, when and by whom: its values are of the page's law and of what was sent."""

import datetime
import json

from browser.terminal import Terminal, by_id, exchange, open_shop
from kit.case import case
from kit.page import is_german, is_quiet
from kit.page_saw import BAR, LINES

ROWS = "[...document.querySelectorAll('#happenedList .entries li:not(.looked)')].map(e => [e.children[1].textContent, e.children[2].textContent])"
LIST = "happenedList.innerText"
FILE = "line,material,length,width,turn,count,worth\n1,STEEL,100.0,0.1,no,3,1000\n"

# What a day's messages are told as, the oldest first.
TOLD = [
    ("shop file", "material STEEL, bar, kerf 2.5\u00a0mm, keeps from 300.0\u00a0mm"),
    ("shop file", "material GLASS, sheet, kerf 3.0\u00a0mm, keeps from 300.0\u00a0×\u00a0100.0\u00a0mm"),
    ("Terminal 2", "4 × STEEL 600.0\u00a0mm received, batch S-1"),
    ("Terminal 2", "order A-1: 2 lines"),
    ("Terminal 2", "file of order B-1: 1 line"),
    ("Terminal 3", "file of order B-1: 1 line, which was there: nothing done"),
    ("Terminal 3", "1/0 reserved as job 2: 4 pieces"),
    ("Terminal 3", "1/1 reserved as job 3: 4 pieces"),
    ("Terminal 3", "1/2 reserved as job 4: 4 pieces"),
    ("Terminal 3", "job 2 done"),
    ("Terminal 3", "job 3 broken off, 2 cuts made, cut 3 went wrong"),
    ("Terminal 3", "job 4 given back"),
    ("Terminal 2", "39 wanted of order A-1, line 1"),
    ("Terminal 2", "1/3 scrapped"),
    ("Terminal 2", "1/2 returned"),
]


def sending(shop):
    """What sends messages of terminals, each of which has to be accepted; gives the reply."""
    last = {}

    def send(terminal, **keys):
        last[terminal] = last.get(terminal, 0) + 1
        reply = exchange(shop, "/message", {**keys, "number": last[terminal], "terminal": terminal})
        assert "ok" in reply, (keys, reply)
        return reply

    return send


def day(shop):
    """The messages of TOLD."""
    send = sending(shop)
    send(2, do="receive", material="STEEL", batch="S-1", w=6000, h=1, count=4)
    send(2, do="order", order="A-1", lines=LINES)
    for terminal in (2, 3):
        send(terminal, do="import", order="B-1", form="csv", text=FILE)
    for place in range(3):
        send(3, do="reserve", part=f"1/{place}", tree=BAR)
    send(3, do="done", job=2)
    send(3, do="break", job=3, cuts=[0, 1], lost=2)
    send(3, do="release", job=4)
    send(2, do="amend", demand=1, wanted=39)
    send(2, do="scrap", part="1/3")
    send(2, do="return", part="1/2")
    return send


def told(*places):
    return [list(TOLD[place]) for place in places]


def newest(count=len(TOLD)):
    return told(*reversed(range(count)))


@case(
    "what happened at the page",
    "Key 6 shows what the shop did, the newest first: by whom, in a sentence, with links; narrowed by terminal, by what was done or by "
    "an order. An order, a job and a part lead to their own stories, each with its address, which a reload shows again.",
)
def happened(trial):
    shop = open_shop(trial)
    day(shop)
    with Terminal(trial, shop) as it:
        it.begin(7)
        it.until("shop.isKnown")
        it.value("document.activeElement.blur()")
        it.key("6")
        it.until(f"{ROWS}.length === {len(TOLD)}")
        trial.equal((it.value(ROWS), it.value("location.hash")), (newest(), "#happened"))
        it.at_widths("happened")
        links = "[...document.querySelectorAll('#happenedList .links')].map(e => [...e.children].map(a => [a.textContent, a.getAttribute('href')]))"
        part, job, order, batch = ["Part 1/0", "#part/1/0"], ["Job 2", "#saw/2"], ["Order A-1", "#order/A-1"], ["Batch S-1", "#batch/S-1"]
        of_all = it.value(links)[::-1]
        trial.equal([of_all[2], of_all[3], of_all[6], of_all[9], of_all[12]], [[part, batch], [order], [job, part], [job, ["Take back", None]], [order]])
        it.choose(by_id("ofTerminal"), "3")
        it.until(f"{ROWS}.length === 7")
        trial.equal(it.value(ROWS), told(11, 10, 9, 8, 7, 6, 5))
        it.choose(by_id("ofWord"), "reserve")
        trial.equal(it.value(ROWS), told(8, 7, 6))
        it.choose(by_id("ofTerminal"), "")
        it.choose(by_id("ofWord"), "scrap")
        trial.equal(it.value(ROWS), told(13))
        it.choose(by_id("ofWord"), "")
        it.type(by_id("ofOrder"), "b-1")
        it.key("Enter")
        it.until("location.hash === '#happened/order/B-1' && !refresh.running")
        it.until(f"{ROWS}.length === 2")
        trial.equal((it.value(ROWS), it.text("happenedTitle")), (told(5, 4), "What happened to order B-1"))
        stories = (
            ("order/A-1", "Order A-1", "foundOrder", (12, 11, 10, 9, 8, 7, 6, 3)),
            ("saw/3", "Job 3", "jobStory", (10, 7)),
            ("part/1/2", "Part 1/2", "traceWords", (14, 11, 8, 2)),
        )
        for address, _, holder, places in stories:
            it.value(f"void (location.hash = '{address}')")
            story = f"[...{by_id(holder)}.querySelectorAll('a')].find(a => a.textContent === 'What happened')"
            it.click(story)
            it.until(f"!document.getElementById('happened').hidden && {ROWS}.length === {len(places)}")
            trial.equal((it.value(ROWS), it.value("location.hash")), (told(*places), f"#happened/{address.replace('saw', 'job')}"))
            it.call("Page.reload")
            it.until(f"document.readyState === 'complete' && {ROWS}.length === {len(places)}")
            trial.equal(it.value(ROWS), told(*places))
        it.value("void (location.hash = 'happened/order/NONE')")
        it.until(f"{LIST}.includes('there is no order with this code (43 NoOrder)')")
        it.value("void (location.hash = 'happened/nothing')")
        it.until("!tocut.hidden && location.hash.startsWith('#cut')")
        is_quiet(it)


@case(
    "pages of what happened",
    "A hundred entries are a page, which takes one question beside `/shop`, and none where each of them is known; older and newer ones have "
    "addresses. An entry's address shows it first. What is new since the last look stands above a line. Seen and left alone nothing but `/shop` is asked.",
)
def pages(trial):
    shop = open_shop(trial)
    send = sending(shop)
    for _ in range(103):
        send(2, do="receive", material="STEEL", batch="S-1", w=6000, h=1, count=1)
    entries = "[...document.querySelectorAll('#happenedList .entries li:not(.looked) > a')].map(e => Number(e.getAttribute('href').split('/')[1]))"
    asked = lambda it: [at.removeprefix(it.address) for at in it.requests if "/history/" in at or "/story/" in at]
    with Terminal(trial, shop) as it:
        it.begin(7)
        it.until("shop.isKnown && !refresh.running")
        it.requests.clear()
        it.value("void (location.hash = 'happened')")
        it.until(f"{entries}.length === 100")
        trial.equal((it.value(entries), asked(it)), (list(range(105, 5, -1)), ["history/5"]))
        trial.holds("since your last look" not in it.value(LIST), "there was no look before")
        link = lambda words: f"[...happenedPages.children].find(a => a.textContent === '{words}')"
        trial.equal(it.value(f"Boolean({link('Newer')})"), False)
        it.click(link("Older"))
        it.until(f"{entries}[0] === 5")
        trial.equal((it.value(entries), it.value("location.hash")), ([5, 4, 3, 2, 1], "#happened/5"))
        trial.equal((asked(it), it.value(f"Boolean({link('Older')})")), (["history/5", "history/0"], False))
        it.choose(by_id("ofWord"), "scrap")
        it.until(f"{LIST}.includes('Nothing of it among entries 1 to 5.')")
        it.choose(by_id("ofWord"), "")
        it.click(link("Newer"))
        it.until(f"{entries}[0] === 105 && location.hash === '#happened'")
        trial.equal(asked(it), ["history/5", "history/0"])
        it.value("void (location.hash = 'happened/7')")
        it.until(f"{entries}[0] === 7")
        trial.equal((it.value(entries), it.value("document.querySelector('#happenedList .chosen time') !== null")), ([7, 6, 5, 4, 3, 2, 1], True))
        it.value("void (location.hash = 'yield')")
        it.until("!document.getElementById('yield').hidden")
        it.until("!refresh.running")
        it.requests.clear()
        for part in range(2):
            send(2, do="scrap", part=f"{part + 1}/0")
        it.until("facts.last.entry === 107")
        it.value("void (location.hash = 'happened')")
        it.until(f"{entries}[0] === 107 && document.querySelector('#happenedList .looked')")
        trial.holds(all(int(path.split("/")[1]) >= 104 for path in asked(it)), f"{asked(it)}: an entry is asked for that is known")
        seen = "[...document.querySelectorAll('#happenedList .entries li')].findIndex(e => e.textContent === 'since your last look ↑')"
        trial.equal(it.value(seen), 2)
        it.requests.clear()
        it.value("pause(12000)")
        trial.equal({at.removeprefix(it.address) for at in it.requests}, {"shop"})
        trial.equal(it.value(seen), 2)
        is_quiet(it)


@case(
    "what happened at the page in German",
    "In a German browser days stand as TT.MM.JJJJ and times in the reader's own time zone; sentences, words and links are German, and a "
    "shop without entries tells so.",
)
def german(trial):
    shop = open_shop(trial)
    day(shop)
    first = exchange(shop, "/history/0")["entries"][2]["at"]
    tokyo = datetime.datetime.fromtimestamp(first, datetime.timezone(datetime.timedelta(hours=9)))
    with Terminal(trial, shop, "de-DE") as it:
        it.call("Emulation.setTimezoneOverride", timezoneId="Asia/Tokyo")
        it.begin(7)
        it.view("happened")
        it.until(f"{ROWS}.length === {len(TOLD)}")
        rows = it.value(ROWS)[::-1]
        trial.equal(rows[2], ["Terminal 2", "4 × STEEL 600,0\u00a0mm eingegangen, Charge S-1"])
        trial.equal([rows[place][1] for place in (6, 9, 10)], ["1/0 reserviert als Job 2: 4 Zuschnitte", "Job 2 erledigt", "Abbruch von Job 3, 2 Schnitte gemacht, Schnitt 3 misslang"])
        at = "[...document.querySelectorAll('#happenedList .entries time')].at(-3).textContent"
        trial.equal(it.value(at), tokyo.strftime("%H:%M"))
        head = it.value("[...document.querySelectorAll('#happenedList h3')].at(-1).textContent")
        trial.holds(head.endswith(tokyo.strftime(", %d.%m.%Y")), head)
        is_german(it, "happened")
        for address in ("happened/order/A-1", "happened/12", "happened/order/NONE"):
            it.value(f"void (location.hash = {json.dumps(address)})")
            it.until(f"!refresh.running && {LIST} !== '…'")
            is_german(it, address.replace("/", "-"))
        is_quiet(it)
    with Terminal(trial, open_shop(trial, "", "bare.db"), "de-DE") as it:
        it.begin(7)
        it.view("happened")
        it.until(f"{LIST} === 'Noch nichts.'")
        is_quiet(it)
