"""What the page sends and tells: messages of several tabs, notices, what waits, and how often it asks."""

import json
import os
import re
import signal
import subprocess
import time

from browser.terminal import SHOP_FILE, Terminal, by_id, exchange, open_shop
from kit.case import case
from kit.page import TIME, is_quiet, open_tab, reach, stock

FIELDS = ("receiveBatch", "receiveW", "receiveH", "receiveCount")
RECEIPT = f"{json.dumps(FIELDS)}.map(id => document.getElementById(id).value)"
EMPTY = ["", "", "", "1"]
WAITING = "[...document.querySelectorAll('#keptNotice .waiting')]"


def turn_to(it, tab):
    it.session = tab
    it.call("Page.bringToFront")


def type_order(it, code):
    """An order by hand of two sheets."""
    it.view("orders")
    it.until("document.querySelector('#orderLines .orderline') && shop.materials.length")
    it.type(by_id("orderCode"), code)
    field = "document.querySelector('#orderLines [data-field={}]')"
    it.choose(field.format("material"), "GLASS")
    for name, text in (("length", "500"), ("width", "400"), ("count", "2")):
        it.type(field.format(name), text)
    it.key("Enter")


def bar(batch):
    """A receipt of a bar of 6000.0 mm."""
    return {"batch": batch, "count": 1, "do": "receive", "h": 1, "material": "STEEL", "w": 60000}


def send_bar(batch):
    """The call by which the page sends such a receipt."""
    return f"send({json.dumps(bar(batch))}, 'Receive {batch}')"


def bars(shop):
    return exchange(shop, "/totals/STEEL")["received"] // 60000


@case(
    "two tabs of a browser are one terminal",
    "What was typed in a tab that can't reach the shop is sent by another, and the first, whose form is empty by then, shows its answer; "
    "each message is done once, under a number of its own; a refusal stays beside the success behind it.",
)
def two_tabs(trial):
    with Terminal(trial, open_shop(trial)) as it:
        it.begin(7)
        stock(it)
        first = it.session
        other = open_tab(it, "orders")
        reach(it, False)
        turn_to(it, first)
        reach(it, False)
        it.receive("STEEL", "T-1", "6000", None, 2)
        it.until("terminal.kept().length === 1")
        trial.equal(it.value(RECEIPT), EMPTY, "the form isn't cleared before the answer")
        turn_to(it, other)
        type_order(it, "A-1")
        it.until("terminal.kept().length === 2")
        reach(it, True)
        it.says("Order A-1: 1 line ordered")
        it.until("terminal.kept().length === 0")
        turn_to(it, first)
        it.says("2 units received, 3/0 to 3/1")
        trial.equal((bars(it.shop), it.ask("/terminal/7")["last"]), (7, 4))
        trial.equal([row["order"] for row in it.ask("/demands/0")["demands"]], ["A-1"])
        is_quiet(it)


ORDER_TYPED = (
    "[document.getElementById('orderCode').value, ...[...document.querySelectorAll('#orderLines .orderline')].map(line => "
    "['material', 'length', 'width', 'count'].map(name => line.querySelector(`[data-field=${name}]`).value).join(' '))]"
)


@case(
    "forms of the page that are emptied when they are sent",
    "An order, a receipt and a file leave their forms empty at once, while the shop is silent: its late answers empty nothing that is "
    "typed by then. What is refused comes back where the form is still empty, else by the notice's link.",
)
def emptied(trial):
    rows = "Länge;Breite;Stück;Material\n500;400;2;GLASS\n"
    shown = f"[{by_id('fileCode')}.value, document.querySelectorAll('#csvPreview tbody tr').length]"
    take_back = "[...document.querySelectorAll('#refusals button')].find(e => e.textContent === 'Take back what was typed')"
    with Terminal(trial, open_shop(trial)) as it:
        it.begin(7)
        it.view("orders")
        it.until("document.querySelector('#orderLines .orderline') && shop.materials.length && !refresh.running && !queue.busy")
        it.shop.stand_still()
        type_order(it, "A-1")
        it.until(f"JSON.stringify({ORDER_TYPED}) === JSON.stringify(['', `${{shop.material}}   `])")
        it.type(by_id("orderCode"), "A-2")
        it.order_file("f-1", "f.csv", rows)
        it.click(by_id("sendCsv"))
        it.until(f"JSON.stringify({shown}) === '[\"\",0]'")
        it.type(by_id("fileCode"), "f-2")
        it.receive("STEEL", "S-1", "6000", None, 2)
        it.until(f"JSON.stringify({RECEIPT}) === JSON.stringify({json.dumps(EMPTY)})")
        it.type(by_id("receiveBatch"), "S-2")
        it.type(by_id("receiveW"), "59")
        trial.equal(it.value("terminal.kept().map(message => message.command.do)"), ["order", "import", "receive"])
        it.shop.go_on()
        for words in ("Order A-1: 1 line ordered", "Order F-1 from a file: 1 line ordered", "Receive 2 × STEEL 6000.0\u00a0mm: 2 units received"):
            it.says(words)
        it.until("terminal.kept().length === 0")
        trial.equal(it.value(f"[{RECEIPT}, {ORDER_TYPED}[0], {by_id('fileCode')}.value]"), [["S-2", "59", "", "1"], "A-2", "f-2"])
        # (refused: into the form that is empty, and by a link into one that isn't)
        refused = "Refused: Order A-1: an order with this code is there already (40 OrderExists)"
        type_order(it, "A-1")
        it.says(refused)
        it.until(f"JSON.stringify({ORDER_TYPED}) === JSON.stringify(['A-1', 'GLASS 500 400 2'])")
        trial.equal(it.value(f"Boolean({take_back})"), False)
        it.click("document.querySelector('#refusals button')")
        it.shop.stand_still()
        it.click("document.querySelector('#orderForm .act')")
        it.until(f"{by_id('orderCode')}.value === ''")
        it.type(by_id("orderCode"), "A-3")
        it.shop.go_on()
        it.says(refused)
        trial.equal(it.value(f"{ORDER_TYPED}[0]"), "A-3")
        it.click(take_back)
        it.until(f"JSON.stringify({ORDER_TYPED}) === JSON.stringify(['A-1', 'GLASS 500 400 2'])")
        it.order_file("a-1", "g.csv", rows)
        it.click(by_id("sendCsv"))
        it.says("Refused: Order A-1 from a file: an order with this code is there already (40 OrderExists)")
        it.until(f"JSON.stringify({shown}) === '[\"a-1\",1]'")
        it.type(by_id("fileCode"), "a-9")
        it.click(by_id("sendCsv"))
        it.says("Order A-9 from a file: 1 line ordered")
        trial.equal(it.ask("/terminal/7")["last"], 4)
        is_quiet(it)


@case(
    "tabs that send at once",
    "Twelve receipts that two tabs keep at the same time are numbered one behind the other, and each is done once.",
)
def at_once(trial):
    with Terminal(trial, open_shop(trial)) as it:
        it.begin(7)
        tabs = [it.session, open_tab(it, "stock")]
        for place, tab in enumerate(tabs):
            it.session = tab
            reach(it, False)
            for batch in range(6):
                it.value(send_bar(f"{place}-{batch}"))
        it.until("terminal.kept().length === 12")
        for tab in tabs:
            it.session = tab
            reach(it, True)
        for tab in tabs:
            turn_to(it, tab)
            it.until("terminal.kept().length === 0 && whenAccepted.size === 0")
        parts = it.ask("/parts/STEEL")["parts"]
        trial.equal(sorted(row["batch"] for row in parts), sorted(f"{tab}-{batch}" for tab in range(2) for batch in range(6)))
        numbers = it.value("terminal.answered().map(message => message.number).sort((a, b) => a - b)")
        trial.equal((numbers, it.ask("/terminal/7")["last"]), (list(range(1, 13)), 12))
        is_quiet(it)


@case(
    "a message of a tab that is closed",
    "What waits of a closed tab is sent by another that is open; and what waits in the list of an earlier page is sent under "
    "its number.",
)
def closed(trial):
    with Terminal(trial, open_shop(trial)) as it:
        it.begin(7)
        stock(it)
        first = it.session
        open_tab(it, "stock")
        reach(it, False)
        it.value(send_bar("S-2"))
        it.until("terminal.kept().length === 1")
        it.call("Page.close")
        it.session = first
        it.says("Receive S-2: 1 unit received, 3/0")
        waits = {"command": bar("S-3"), "what": "Receive S-3", "mark": "1700000000000.0.5", "number": 9}
        it.value(f"storage.write('cutshop.kept.7', [{json.dumps(waits)}])")
        it.call("Page.reload")
        it.says("Receive S-3: 1 unit received, 4/0")
        trial.equal(it.value("[terminal.kept().length, localStorage.getItem('cutshop.kept.7')]"), [0, None])
        trial.equal((bars(it.shop), it.ask("/terminal/7")["last"]), (7, 9))
        is_quiet(it)


@case(
    "refusals at the page stay",
    "A refusal stays beside later successes until it is closed: it is shown with the newest of them. The log of the terminal's dialog "
    "has its words.",
)
def refusals(trial):
    with Terminal(trial, open_shop(trial)) as it:
        it.begin(7)
        stock(it)
        type_order(it, "A-1")
        it.says("Order A-1: 1 line ordered")
        reach(it, False)
        type_order(it, "A-1")
        for place in range(6):
            it.value(send_bar(f"S-{place}"))
        it.until("terminal.kept().length === 7")
        reach(it, True)
        it.says("Receive S-5: 1 unit received")
        refused = "Refused: Order A-1: an order with this code is there already (40 OrderExists)"
        shown = "[...document.querySelectorAll('#lastNotice .notice:not([hidden]) span')].map(e => e.textContent)"
        trial.equal(it.value(shown), [f"✗ {refused}", "✓ Receive S-5: 1 unit received, 8/0"])
        it.view("yield")
        it.click(by_id("terminalButton"))
        it.until(f"{by_id('messageLog')}.textContent.includes({json.dumps(refused)})")
        it.key("Escape")
        it.until(f"!{by_id('terminalDialog')}.open")
        trial.holds(refused in it.told(), "the refusal is gone")
        it.click("document.querySelector('#refusals button')")
        it.until("!document.querySelector('#refusals .notice')")
        is_quiet(it)


@case(
    "a message at the page is dropped",
    "Of what waits only a message that was surely not sent can be dropped, also while the shop hangs: the one with a number "
    "can't, nor any where tabs can't take turns; what was dropped is never done.",
)
def dropped(trial):
    with Terminal(trial, open_shop(trial)) as it:
        it.begin(7)
        stock(it)
        with it.losing_answers():
            it.receive("STEEL", "S-2", "6000", None, 1)
            it.until(f"{by_id('keptNotice')}.textContent.includes('(number 3)')")
            it.receive("STEEL", "S-3", "6000", None, 10)
            it.until(f"{WAITING}.length === 2")
            trial.equal(it.value(f"{WAITING}.map(row => Boolean(row.querySelector('button')))"), [False, True])
            it.click(f"{WAITING}[1].querySelector('button')")
            it.until("terminal.kept().length === 1")
        it.says("1 unit received, 3/0")
        os.kill(it.shop.process.pid, signal.SIGSTOP)
        it.receive("STEEL", "S-3", "6000", None, 10)
        it.click(f"{WAITING}[0].querySelector('button')")
        it.until(f"{WAITING}[0].textContent.endsWith('(not sent yet)Dropping…')")
        os.kill(it.shop.process.pid, signal.SIGCONT)
        it.until(f"!{by_id('keptNotice')}.textContent")
        trial.equal((bars(it.shop), it.ask("/terminal/7")["last"]), (6, 3))
        it.value("Object.defineProperty(navigator, 'locks', { value: undefined }) && 0")
        reach(it, False)
        it.receive("STEEL", "S-4", "6000", None, 1)
        it.until(f"{WAITING}.length === 1")
        trial.equal(it.value(f"{WAITING}[0].querySelector('button')"), None)
        reach(it, True)
        it.says("1 unit received, 4/0")
        is_quiet(it)


# Of an order with ten lines, whose button lies far below the header.
LONG_ORDER = """
while (document.querySelectorAll('#orderLines .orderline').length < 10) addOrderLine();
for (const line of document.querySelectorAll('#orderLines .orderline'))
  for (const [name, text] of [['material', 'STEEL'], ['length', '500'], ['count', '2']])
    line.querySelector(`[data-field=${name}]`).value = text;
adaptLines();
"""


def press(it, button, words, role):
    """Presses a button. The notice with these words is to stand in the window, over all else there and not over the
    button, within a region of this role."""
    it.click(button)
    notice = f"[...document.querySelectorAll('#lastNotice .notice')].find(e => e.textContent.includes({json.dumps(words)}))"
    it.until(notice)
    time.sleep(0.3)
    on_top = "(e => { const r = e.getBoundingClientRect(), x = r.left + r.width / 2; return "
    on_top += "[r.top + 2, r.bottom - 2].every(y => e.contains(document.elementFromPoint(x, y))); })"
    for find in (notice, button):
        it.trial.holds(it.value(f"{on_top}({find})"), f"{find} can't be seen at {it.value('innerWidth')} pixels")
    it.trial.equal(it.value(f"{notice}.closest('[role]').getAttribute('role')"), role)


def name_of_dialog(it):
    nodes = it.call("Accessibility.getFullAXTree")["nodes"]
    return [node["name"]["value"] for node in nodes if node.get("role", {}).get("value") == "dialog"]


@case(
    "notices of the page in sight",
    "At 400, 768 and 1280 pixels a success and a refusal stand in the window where one presses, in regions that are read "
    "out, and not over the button; both dialogs have names.",
)
def in_sight(trial):
    with Terminal(trial, open_shop(trial)) as it:
        it.begin(7)
        stock(it)
        type_order(it, "A-1")
        it.says("Order A-1")
        for width, height in ((400, 800), (768, 1000), (1280, 800)):
            it.size(width, height)
            it.view("stock")
            it.choose(by_id("receiveMaterial"), "STEEL")
            it.type(by_id("receiveBatch"), f"W-{width}")
            it.type(by_id("receiveW"), "100")
            press(it, "document.querySelector('#receiveForm button')", f"Receive 1 × STEEL 100.0\u00a0mm: 1 unit", "status")
            it.view("orders")
            it.value(LONG_ORDER)
            it.type(by_id("orderCode"), "A-1")
            press(it, "document.querySelector('#orderForm .act')", "an order with this code is there already", "alert")
            it.click("document.querySelector('#refusals button')")
        it.size(1280, 800)
        it.click(by_id("terminalButton"))
        trial.equal(name_of_dialog(it), ["Which terminal is this?"])
        it.key("Escape")
        it.value("void confirmed('Scrap 1/0?', 'Scrap')")
        trial.equal(name_of_dialog(it), ["Scrap 1/0?"])
        is_quiet(it)


def requests_in(it, seconds):
    """How many requests the page makes in so many seconds."""
    it.requests.clear()
    time.sleep(seconds)
    it.value("0")
    return len(it.requests)


@case(
    "an idle page asks seldom",
    "The page asks `/shop` every two seconds, after ten minutes without anything done or changed every ten, hidden not at all; at "
    "once when something is pressed or it is shown again; what no entry changed isn't asked anew.",
)
def idle(trial):
    with Terminal(trial, open_shop(trial)) as it:
        it.begin(7)
        stock(it)
        quiet = lambda minutes: it.value(f"refresh.lively = performance.now() - {minutes} * 60000, pauseOf()")
        trial.equal([quiet(minutes) for minutes in (0, 9.9, 10.1, 61)], [2000, 2000, 10000, 10000])
        it.view("tocut")
        it.until("!refresh.running")
        quiet(11)
        it.value("waitForPass()")
        trial.equal(requests_in(it, 6), 0)
        it.click(by_id("planTitle"))
        it.until("refresh.running || performance.now() - refresh.ended < 1000", 2)
        it.until("!refresh.running")
        trial.equal(it.value("pauseOf()"), 2000)
        line = {"count": 2, "h": 1, "line": 1, "material": "STEEL", "turn": False, "w": 10000, "worth": 100}
        reserve = {"do": "reserve", "part": "2/0", "tree": "x10000 p1 r"}
        for number, keys in enumerate(({"do": "order", "lines": [line], "order": "A-1"}, reserve)):
            trial.holds("ok" in exchange(it.shop, "/message", {**keys, "number": number, "terminal": 8}), keys)
        it.view("saw")
        it.until("atSaw.told && !refresh.running")
        it.requests.clear()
        it.value("(clearTimeout(refresh.timer), refreshPass())")
        trial.equal([address.removeprefix(it.address) for address in it.requests], ["shop"])
        first = it.session
        open_tab(it, "stock")
        it.call("Page.bringToFront")
        it.session = first
        it.until("document.hidden")
        it.until("!refresh.running")
        asked = it.value("performance.getEntriesByType('resource').length")
        it.value("refreshPass()")
        trial.equal(it.value("performance.getEntriesByType('resource').length"), asked, "a hidden page asks")
        it.value("refresh.ended = 0")
        it.call("Page.bringToFront")
        it.until("refresh.ended > 0", 2)
        is_quiet(it)


@case(
    "the page's header at ten widths",
    "From 360 to 1280 pixels no view is scrolled sideways, and the header's buttons can be reached, also with a long number "
    "of the terminal, many jobs and no connection.",
)
def header(trial):
    with Terminal(trial, open_shop(trial)) as it:
        it.begin(4294967295)
        stock(it)
        for words in ("", "showLink(false), jobCount.textContent = '100+', jobCount.hidden = false"):
            for view in ("tocut", "saw", "orders", "stock", "yield", "happened"):
                it.view(view)
                for width in (360, 400, 600, 700, 701, 720, 768, 800, 820, 860, 861, 900, 1000, 1280):
                    it.size(width)
                    it.value(words)
                    fits = "document.documentElement.scrollWidth <= document.documentElement.clientWidth"
                    fits += " && [...document.querySelectorAll('header button, #link')].every(e => {"
                    fits += " const r = e.getBoundingClientRect(); return r.left >= 0 && r.right <= innerWidth; })"
                    trial.holds(it.value(fits), f"{view} doesn't fit at {width} pixels {words}")
        is_quiet(it)


@case(
    "a terminal at the page whose numbers are spent",
    "Where another program sent a message under the last number as this terminal, the page says so and what to do; under "
    "another number what waits is done once, and the spent number isn't taken again.",
)
def spent(trial):
    last = 4294967295
    with Terminal(trial, open_shop(trial)) as it:
        it.begin(7)
        trial.equal(exchange(it.shop, "/message", {**bar("B-1"), "number": last, "terminal": 7}).get("ok"), "receive")
        it.receive("STEEL", "B-2", "6000", None, 1)
        words = f"The numbers of terminal 7 are spent, as a message was sent under the last one, {last}."
        it.until(f"{by_id('keptNotice')}.textContent.startsWith({json.dumps(words)})")
        trial.holds("Choose another number: what waits is sent under it." in it.text("keptNotice"), it.text("keptNotice"))
        it.click(f"[...{by_id('keptNotice')}.querySelectorAll('button')].find(e => e.textContent === 'Another number')")
        it.until(f"{by_id('terminalDialog')}.open && {by_id('terminalNumber')}.value === '1'")
        trial.equal(it.text("terminalFault"), words)
        it.type(by_id("terminalNumber"), "7")
        it.key("Enter")
        it.until(f"{by_id('terminalFault')}.textContent === {json.dumps(words + ' Choose another number.')}")
        it.type(by_id("terminalNumber"), "9")
        it.key("Enter")
        it.says("1 unit received, 2/0")
        trial.equal((bars(it.shop), it.ask("/terminal/9")["last"], it.text("keptNotice")), (2, 1, ""))
        it.receive("STEEL", "B-3", "6000", None, 1)
        it.says("1 unit received, 3/0")
        trial.equal((bars(it.shop), it.ask("/terminal/9")["last"]), (3, 2))
        is_quiet(it)


@case(
    "a button held down while the lists change",
    "What the pointer or the space bar holds down isn't made anew before it is let go, so that the press counts; then it tells "
    "what changed meanwhile.",
)
def held_down(trial):
    with Terminal(trial, open_shop(trial)) as it:
        it.begin(7)
        it.view("tocut")
        it.material("tocut", "GLASS")
        button = "[...document.querySelectorAll('#tocut .materials button')].find(it => it.textContent.startsWith('{}'))"
        is_chosen = "{}.getAttribute('aria-pressed') === 'true' && {}.textContent.includes('{} to cut')"
        line = {"count": 2, "h": 1, "line": 1, "material": "STEEL", "turn": False, "w": 5000, "worth": 500}
        message = {"do": "order", "lines": [line], "number": 1, "order": "A-1", "terminal": 9}
        it.until("factOf('/demands/0/STEEL')")
        trial.holds(it.press(button.format("STEEL")), "the button isn't where it was")
        trial.equal(exchange(it.shop, "/message", message).get("ok"), "order")
        it.until("factOf('/demands/0/STEEL')?.demands[0]?.wanted === 2")
        it.mouse("mouseReleased", *it.pressed)
        it.until(is_chosen.format(button.format("STEEL"), button.format("STEEL"), 2))
        it.until("factOf('/demands/0/GLASS')")
        it.value(f"{button.format('GLASS')}.focus()")
        it.call("Input.dispatchKeyEvent", type="rawKeyDown", key=" ", code="Space", windowsVirtualKeyCode=32)
        line = {**line, "h": 2000, "material": "GLASS", "w": 3000}
        message = {**message, "lines": [line], "number": 2, "order": "A-2"}
        trial.equal(exchange(it.shop, "/message", message).get("ok"), "order")
        it.until("factOf('/demands/0/GLASS')?.demands[0]?.wanted === 2")
        it.call("Input.dispatchKeyEvent", type="keyUp", key=" ", code="Space", windowsVirtualKeyCode=32)
        it.until(is_chosen.format(button.format("GLASS"), button.format("GLASS"), 2))
        is_quiet(it)


@case(
    "the shop's name at the page",
    "The window's title is the shop's name, which is written once and kept in the browser, for all its tabs; what is done is "
    "said in a live region.",
)
def shop_name(trial):
    with Terminal(trial, open_shop(trial)) as it:
        it.begin(7)
        it.until("document.title === 'cutshop'")
        it.click(by_id("terminalButton"))
        it.type(by_id("shopName"), "  Glaserei <b>Huber</b> & Töchter, Werkstatt am Fluss ")
        it.key("Enter")
        name = "Glaserei <b>Huber</b> & Töchter, Werkstatt am Fluss"
        it.until(f"document.title === {json.dumps(name)}")
        trial.equal(it.text("shopTitle"), name)
        it.at_widths("shop-name")
        open_tab(it, "stock")
        it.until(f"document.title === {json.dumps(name)}")
        said = f"{by_id('said')}.closest('[role=status]') && {by_id('said')}.textContent"
        for view, words in (("yield", "Yield"), ("tocut", "To cut")):
            it.view(view)
            it.until(f"{said} === {json.dumps(words)}")
        it.receive("STEEL", "S-1", "6000", None, 1)
        it.says("1 unit received")
        type_bars(it)
        it.propose("STEEL")
        it.until(f"{said} === 'Plan of 1/0: 2 pieces, 2 cuts'")
        it.click(by_id("reserve"))
        it.until(f"{said} === 'Reserve 1/0: sent'")
        is_quiet(it)


def type_bars(it):
    """An order by hand of two bars."""
    it.view("orders")
    it.until("document.querySelector('#orderLines .orderline')")
    it.type(by_id("orderCode"), "A-1")
    field = "document.querySelector('#orderLines [data-field={}]')"
    it.choose(field.format("material"), "STEEL")
    for name, text in (("length", "500"), ("count", "2")):
        it.type(field.format(name), text)
    it.key("Enter")
    it.says("Order A-1: 1 line ordered")


def refused(it, commands):
    """Sends commands from the page, and gives what it tells of each."""
    texts = [f"send({json.dumps(command)}, '{place}')" for place, command in enumerate(commands)]
    it.value(f"void [{', '.join(texts)}]")
    it.until("terminal.kept().length === 0")
    told = it.value("terminal.answered().map(message => message.words)")[-len(commands) :]
    return [words.removeprefix(f"Refused: {place}: ") for place, words in enumerate(told)]


@case(
    "refusals at the page in words",
    "Messages and questions that the shop refuses, one for each of its reasons that a terminal can meet, are told in the words of "
    "that reason, with its number and name.",
)
def in_words(trial):
    shop = open_shop(trial)
    with Terminal(trial, shop) as it:
        number = iter(range(1, 99))
        by_other = lambda **keys: exchange(shop, "/message", {**keys, "number": next(number), "terminal": 8})
        sheet = {"line": 2, "material": "GLASS", "w": 4000, "h": 3000, "turn": False, "count": 2, "worth": 5}
        line = {"line": 1, "material": "STEEL", "w": 10000, "h": 1, "turn": False, "count": 2, "worth": 5}
        by_other(do="receive", material="STEEL", batch="S-1", w=60000, h=1, count=2)
        by_other(do="receive", material="GLASS", batch="G-1", w=12000, h=8000, count=1)
        by_other(do="order", order="A-1", lines=[line, sheet])
        by_other(do="reserve", part="1/0", tree="x10000 p1 r")
        trial.equal(by_other(do="done", job=3).get("ok"), "done")
        trial.equal(by_other(do="reserve", part="2/0", tree="x4000 y3000 p2 r r").get("job"), 4)
        reserve = lambda tree: {"do": "reserve", "part": "1/1", "tree": tree}
        wanted = (
            ({**bar("B-1"), "material": "WOOD"}, "there is no such material (20 NoMaterial)"),
            ({**bar("B-1"), "h": 2}, "this material can't have these sides: nothing is over 20000.0\u00a0×\u00a06000.0\u00a0mm (30 BadSize)"),
            ({**bar("B-1"), "count": 101}, "1 to 100 units are received at a time (31 BadCount)"),
            ({"do": "order", "order": "A-1", "lines": [line]}, "an order with this code is there already (40 OrderExists)"),
            (
                {"do": "order", "order": "A-2", "lines": [sheet, line]},
                "a line can't be ordered so: line numbers have to rise, sides have to be the material's, a bar can't turn (41 BadLine)",
            ),
            ({"do": "amend", "demand": 9, "wanted": 1}, "there are no such pieces wanted (42 NoDemand)"),
            ({"do": "scrap", "part": "9/9"}, "there is no such part (50 NoPart)"),
            ({"do": "scrap", "part": "1/0"}, "Part 1/0: cut up by terminal 8 (51 NotStanding)"),
            ({"do": "return", "part": "3/2"}, "only a whole unit, as it was received, can be returned (52 NotWhole)"),
            (reserve("x10000 r r"), "the plan isn't one of this part, or has no piece (60 BadTree)"),
            (reserve("x10000 p2 r"), "the plan has a piece of another material (61 WrongMaterial)"),
            (reserve("x9000 p1 r"), "a piece of the plan hasn't the size that is wanted (62 WrongSize)"),
            (reserve("x10000 p1 x10000 p1 r"), "only 1 of pieces no. 1 is left (63 TooMany)"),
            ({"do": "done", "job": 9}, "there is no such job (70 NoJob)"),
            ({"do": "break", "job": 3, "cuts": [0], "lost": False}, "Job 3: done by terminal 8 (71 JobOver)"),
            (
                {"do": "break", "job": 4, "cuts": [1], "lost": False},
                "work can't have halted so: each cut needs all cuts above it, and a rest is shorter than what was to be divided (72 BadCut)",
            ),
            ({"do": "note", "order": "A-9", "due": 0, "text": ""}, "there is no order with this code (43 NoOrder)"),
            (
                {"do": "note", "order": "A-1", "due": 20261332, "text": ""},
                "an order's day is one of the calendar, and its text has at most 200 bytes and no control characters (44 BadNote)",
            ),
            ({"do": "undo", "job": 4}, "the job is neither done nor broken off, so there is nothing to take back (73 NotOver)"),
            ({"do": "import", "form": "csv", "order": "A-3", "text": "A"}, "the file's text isn't of its form (80 BadText)"),
        )
        it.begin(7)
        told = [re.sub(TIME, "", words) for words in refused(it, [command for command, _ in wanted])]
        trial.equal(told, [words for _, words in wanted])
        plan = lambda **keys: {"ask": "plan", "demands": [1], "part": "1/1", "step": 0, **keys}
        asked = (
            ("/order/A-9", None, "there is no order with this code (43 NoOrder)"),
            ("/plan", plan(part="3/2", demands=[2]), "the plan has a piece of another material (61 WrongMaterial)"),
            ("/bound", {**plan(w=9000), "ask": "bound", "material": "STEEL", "h": 1}, "none of the pieces fits the part (90 NothingFits)"),
            (
                "/plan",
                plan(demands=[]),
                "there is nothing to plan: choose kinds of pieces of which some are left, at most 100 (93 "
                "BadWant)",
            ),
        )
        for path, body, words in asked:
            if path == "/bound":
                del body["part"]
            options = f"{{body: {json.dumps(json.dumps(body))}}}" if body else "{}"
            trial.equal(it.value(f"ask('{path}', {options}).then(() => 'accepted', faultWords)"), words)
        trial.equal(it.ask("/terminal/7")["last"], 0)
        is_quiet(it)


@case(
    "what is pressed twice at the page",
    "While the shop is silent a receipt that is pressed twice is kept once; units that are being returned are a row of their own "
    "without buttons, and those that were surely not sent are dropped by one press, which is told. Escape at a question is no.",
)
def pressed_twice(trial):
    rows = "[...document.querySelectorAll('#stockList .fold > div > .stocked')].map(e => [e.children[0].children[1].textContent, "
    rows += "e.querySelectorAll(':scope > .buttons > button').length])"
    with Terminal(trial, open_shop(trial)) as it:
        it.begin(7)
        it.view("stock")
        it.material("stock", "STEEL")
        os.kill(it.shop.process.pid, signal.SIGSTOP)
        it.receive("STEEL", "S-1", "6000", None, 5)
        it.key("Enter")
        it.until(f"{WAITING}.length && {WAITING}[0].textContent.startsWith('Receive 5')")
        trial.equal(it.value("terminal.kept().length"), 1)
        os.kill(it.shop.process.pid, signal.SIGCONT)
        it.says("5 units received, 1/0 to 1/4")
        it.until(f"{rows}.length === 1")
        trial.equal(it.value(rows), [["5 units, standing", 2]])
        for key in ("mr1/0", "ms1/0"):
            it.click(f"document.querySelector('#stockList [data-key=\"{key}\"]')")
            it.until(f"{by_id('confirm')}.open")
            it.key("Escape")
            it.until(f"!{by_id('confirm')}.open")
        trial.equal((it.value("terminal.kept().length"), it.ask("/trace/1/0")["state"]), (0, "standing"))
        it.until("!refresh.running && !queue.busy")
        os.kill(it.shop.process.pid, signal.SIGSTOP)
        it.type("document.querySelector('#stockList [data-count=\"1/0\"]')", "2")
        it.click("document.querySelector('#stockList [data-key=\"mr1/0\"]')")
        it.confirm()
        it.until(f"{rows}.length === 2")
        trial.equal(it.value(rows), [["2 units, waits for its answer", 0], ["3 units, standing", 2]])
        it.until(f"{by_id('keptNotice')}.querySelector('.waiting button')")
        trial.equal(it.text("keptNotice").partition("comes.")[2], "Return 2 × STEEL 6000.0\u00a0mm: 0 of 2 answeredDrop the rest")
        it.click(f"{by_id('keptNotice')}.querySelector('.waiting button')")
        it.until("sending.dropping.size === 2")
        os.kill(it.shop.process.pid, signal.SIGCONT)
        it.says("Return 2 × STEEL 6000.0\u00a0mm: 0 of 2 done; 2 dropped")
        it.until(f"{rows}.length === 1")
        trial.equal((it.value(rows), it.ask("/terminal/7")["last"]), ([["5 units, standing", 2]], 1))
        is_quiet(it)


@case(
    "the terminal's number at the page",
    "The number is asked for at the first message, which waits for it, over a reload too. A number by which no message was sent is "
    "offered. Without a number nothing is sent, and while a message with a number waits it isn't changed. The log tells what was refused. Digits that are typed in a "
    "field open no view.",
)
def own_number(trial):
    shop = open_shop(trial)
    with Terminal(trial, shop) as it:
        for number in (4, 7):
            trial.equal(exchange(shop, "/message", {**bar("B-1"), "number": number, "terminal": 1}).get("ok"), "receive")
        it.go(it.address)
        it.until("shop.isKnown && !refresh.running")
        trial.equal(it.value(f"{by_id('terminalDialog')}.open"), False, "the number is asked for before a message")
        it.receive("STEEL", "S-1", "6000", None, 1)
        it.until(f"{by_id('terminalDialog')}.open && {by_id('terminalWords')}.textContent === 'No message was sent as terminal 2 yet.'")
        trial.equal(it.value(f"{by_id('terminalNumber')}.value"), "2")
        it.click(by_id("terminalCancel"))
        it.until(f"{by_id('keptNotice')}.textContent.includes('1 message waits for the number of this terminal.')")
        it.call("Page.reload")
        it.until(f"document.readyState === 'complete' && {by_id('keptNotice')}.querySelector('.kept > button')")
        trial.equal(it.value("terminal.kept().map(message => message.number)"), [0])
        it.click(f"{by_id('keptNotice')}.querySelector('.kept > button')")
        it.until(f"{by_id('terminalDialog')}.open && {by_id('terminalNumber')}.value")
        it.type(by_id("terminalNumber"), "1")
        it.key("Enter")
        it.says("Receive 1 × STEEL 6000.0\u00a0mm: 1 unit received, 3/0")
        it.until("terminal.number === 1 && !terminal.kept().length")
        trial.equal(it.ask("/terminal/1")["last"], 8)
        for view, field in (("stock", "receiveBatch"), ("saw", "jobNumber")):
            it.view(view)
            it.type(by_id(field), "1")
            it.key("3")
            it.key("5")
            trial.equal((it.value(f"{by_id(field)}.value"), it.value("viewName()")), ("135", view))
        it.view("stock")
        with it.losing_answers():
            it.receive("STEEL", "S-1", "6000", None, 1)
            it.until(f"{by_id('keptNotice')}.textContent.includes('(number 9)')")
            it.click(by_id("terminalButton"))
            it.type(by_id("terminalNumber"), "2")
            it.key("Enter")
            words = "Messages of this terminal wait for an answer. Change the number when they are answered."
            it.until(f"{by_id('terminalFault')}.textContent === {json.dumps(words)}")
            it.key("Escape")
            it.until(f"!{by_id('terminalDialog')}.open")
        it.says("Receive 1 × STEEL 6000.0\u00a0mm: 1 unit received, 4/0")
        it.value("void send({do: 'scrap', part: '9/9'}, 'Scrap 9/9')")
        it.says("Refused: Scrap 9/9: there is no such part (50 NoPart)")
        it.click(by_id("terminalButton"))
        log = [
            "10: ✗ Refused: Scrap 9/9: there is no such part (50 NoPart)",
            "9: ✓ Receive 1 × STEEL 6000.0\u00a0mm: 1 unit received, 4/0",
            "8: ✓ Receive 1 × STEEL 6000.0\u00a0mm: 1 unit received, 3/0",
        ]
        it.until(f"{by_id('messageLog')}.querySelectorAll('div').length === 3")
        trial.equal(it.value(f"[...{by_id('messageLog')}.querySelectorAll('div')].map(e => e.textContent)"), log)
        is_quiet(it)


NEW_MATERIAL = '\n[[material]]\ncode = "WIRE"\nkind = "bar"\nkerf = "0.0"\nmin_long = "10.0"\nmin_short = "0.1"\n'


@case(
    "a material that the shop has new at the page",
    "Where the shop was started again with another material, it stands at the page as soon as the shop answers again.",
)
def new_material(trial):
    shop = open_shop(trial)
    with Terminal(trial, shop) as it:
        it.begin(7)
        it.view("stock")
        names = "[...document.querySelectorAll('#stock .materials button')].map(e => e.firstChild.data)"
        it.until(f"{names}.length === 2")
        words = "[...document.querySelectorAll('#stock .materials small')].map(e => e.textContent)"
        steel, glass = "bar, kerf 2.5\u00a0mm, keeps from 300.0\u00a0mm", "sheet, kerf 3.0\u00a0mm, keeps from 300.0\u00a0×\u00a0100.0\u00a0mm"
        trial.equal(it.value(words), [glass, steel])
        shop.kill(signal.SIGKILL)
        it.until(f"{by_id('link')}.textContent === 'no connection'")
        command = shop.process.args
        with open(command[command.index("--shop") + 1], "w", encoding="utf-8") as file:
            file.write(SHOP_FILE + NEW_MATERIAL)
        shop.process = subprocess.Popen(command, stdin=subprocess.DEVNULL, stdout=subprocess.PIPE, stderr=subprocess.PIPE)
        trial.equal(shop.process.stdout.readline(), f"listening on 127.0.0.1:{shop.port}\n".encode())
        it.until(f"{names}.join() === 'GLASS,STEEL,WIRE'", 60)
        trial.equal(it.value(words), [glass, steel, "bar, kerf 0.0\u00a0mm, keeps from 10.0\u00a0mm"])
        trial.equal(it.text("link"), "connected")
