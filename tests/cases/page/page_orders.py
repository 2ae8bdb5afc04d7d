"""Orders at the terminal's page that are found, changed and cancelled, in a real browser where one is installed."""

import itertools
import json

from browser.terminal import Terminal, by_id, exchange, open_shop
from kit.case import case
from kit.page import is_german, is_quiet, saved
from kit.page_answers import answering
from kit.page_saw import LINES, sender

LINE = {"line": 7, "material": "STEEL", "w": 10000, "h": 1, "turn": False, "count": 1, "worth": 1}

# The orders that are listed, or the one that was found: code, state, sums.
CARDS = (
    "[...document.querySelectorAll('#{} .ordered')].map(e => [e.querySelector('.orderedhead').firstChild.textContent, "
    "e.querySelector('.orderedhead .quiet').textContent, e.querySelector(':scope > p').textContent])"
)
LISTED, FOUND = CARDS.format("orderList"), CARDS.format("foundOrder")


def grouped(number):
    """A number as the page writes it."""
    return f"{number:,}".replace(",", "\u202f")


def card(order, state, made, reserved, wanted):
    """An order as it is listed."""
    numbers = [grouped(it) for it in (made, reserved, wanted - made - reserved, wanted)]
    return [order, state, "{} made · {} reserved · {} left of {}".format(*numbers)]


def sender(shop):
    """Sends messages of another terminal, each of which is accepted."""
    numbers = itertools.count(1)

    def send(**keys):
        reply = exchange(shop, "/message", {"number": next(numbers), "terminal": 8, **keys})
        assert "ok" in reply, (keys, reply)
        return reply

    return send


def half_made(send):
    """Six bars, and the orders A-1, of which one line is made, one half reserved and one open, and B-1 that is made."""
    send(do="receive", material="STEEL", batch="S-1", w=60000, h=1, count=6)
    lines = [{**LINE, "line": line, "count": count} for line, count in ((7, 2), (8, 5), (9, 3))]
    send(do="order", order="A-1", lines=lines)
    send(do="order", order="B-1", lines=[LINE, {**LINE, "line": 9, "count": 2}])
    for part, tree in (("1/0", "x10000 p1 x10000 p1 x10000 p2 r"), ("1/1", "x10000 p4 x10000 p5 x10000 p5 r")):
        send(do="done", job=send(do="reserve", part=part, tree=tree)["job"])
    send(do="reserve", part="1/2", tree="x10000 p2 x10000 p2 r")


def lines_of(it, order):
    """What the shop tells of an order's lines: wanted, reserved and made of each."""
    return [[row[key] for key in ("wanted", "reserved", "made")] for row in it.ask(f"/order/{order}")["lines"]]


def within(holder, key):
    """What has this key in the list of orders, or in the order that was found."""
    return f"document.querySelector('#{holder} [data-key={json.dumps(key)}]')"


def in_two_clicks(it, act):
    """Does something, in two clicks at most."""
    before = it.clicks
    act()
    it.trial.holds(it.clicks - before <= 2, f"{it.clicks - before} clicks")


def is_last(it, number):
    """Waits until nothing waits any more, and wants this number of the terminal's last message."""
    it.until("terminal.kept().length === 0")
    it.trial.equal(it.ask("/terminal/7")["last"], number)


@case(
    "an order that is changed at the page",
    "How many pieces of a line are wanted is changed to more and to fewer, down to what is made and reserved, in two clicks; "
    "less, and over 1000000, is told at the field with the least and the most, and nothing is sent. A refusal that comes all the "
    "same tells them too.",
)
def changed(trial):
    field, fault = within("orderList", "w2"), "document.querySelector('#orderList .fault')"
    with Terminal(trial, open_shop(trial)) as it:
        half_made(sender(it.shop))
        it.begin(7)
        it.view("orders")
        it.until(field)
        for text, words in (
            ("2", "wanted 2: 1 made, 2 reserved: 3 is the least"),
            ("0", "wanted 0: 1 made, 2 reserved: 3 is the least"),
            ("1000001", "wanted 1\u202f000\u202f001: 1\u202f000\u202f000 is the most"),
            ("", "wanted is empty: write a whole number from 3 to 1\u202f000\u202f000"),
            ("4,5", "wanted “4,5”: write a whole number from 3 to 1\u202f000\u202f000"),
        ):
            it.type(field, text)
            it.key("Enter")
            it.until(f"{fault} && {fault}.textContent === {json.dumps(words)} && document.activeElement === {field}")
            trial.equal(it.value(f"{field}.getAttribute('aria-describedby')"), it.value(f"{fault}.id"))
        trial.equal(it.ask("/terminal/7")["last"], 0)

        def change(number):
            it.type(field, str(number))
            it.click(within("orderList", "a2"))

        before = 5
        for sent, number in enumerate((12, 3, 1000000, 4), 1):
            in_two_clicks(it, lambda: change(number))
            it.says(f"Order A-1, line 8: {grouped(number)} wanted in place of {grouped(before)}: done")
            is_last(it, sent)
            trial.equal(lines_of(it, "A-1"), [[2, 0, 2], [number, 2, 1], [3, 0, 0]])
            it.until(f"{LISTED}[0][2] === {json.dumps(card('', '', 3, 2, number + 5)[2])} && {field}.value === '{number}'")
            before = number
        for number, words in (
            (2, "1 made, 2 reserved: 3 is the least (63 TooMany)"),
            (1000001, "1\u202f000\u202f000 is the most (41 BadLine)"),
        ):
            it.value(f"void send({{do: 'amend', demand: 2, wanted: {number}}}, 'Line 8')")
            it.says(f"Refused: Line 8: {words}")
        trial.equal(lines_of(it, "A-1")[1], [4, 2, 1])
        is_quiet(it)


@case(
    "an order that is cancelled at the page",
    "A line, and an order of which pieces are reserved and made, are cancelled in two clicks, the one question telling what stays: "
    "an amend for each line of which something is left, to what is reserved and made, told together. Nothing of it is left to "
    "cut then, and it can be wanted again.",
)
def cancelled(trial):
    with Terminal(trial, open_shop(trial)) as it:
        send = sender(it.shop)
        half_made(send)
        it.begin(7)
        it.view("orders")
        it.until(f"{LISTED}.length === 1")
        trial.equal(it.value(LISTED), [card("A-1", "open", 3, 2, 10)])
        cancels = "[...document.querySelectorAll('#orderList [data-key^=c]')].map(e => e.getAttribute('aria-label'))"
        line = "Cancel line {} of order A-1"
        trial.equal(it.value(cancels), ["Cancel order A-1", line.format(8), line.format(9)])
        it.click(within("orderList", "cl3"))
        it.until(f"{by_id('confirm')}.open")
        trial.equal(it.text("confirmWords"), "Cancel line 9 of order A-1? 3 pieces fewer are wanted then.")
        it.click(by_id("confirmNo"))
        it.until(f"!{by_id('confirm')}.open && document.activeElement === {within('orderList', 'cl3')}")
        trial.equal(it.ask("/terminal/7")["last"], 0)

        def cancel(key):
            it.click(within("orderList", key))
            it.confirm()

        in_two_clicks(it, lambda: cancel("cl3"))
        it.says("Cancel line 9 of order A-1: done")
        it.until(f"{LISTED}[0][2] === {json.dumps(card('', '', 3, 2, 7)[2])}")
        trial.equal(lines_of(it, "A-1"), [[2, 0, 2], [5, 2, 1], [0, 0, 0]])
        it.type(within("orderList", "w3"), "4")
        it.key("Enter")
        it.says("Order A-1, line 9: 4 wanted in place of 0: done")
        it.until(f"{LISTED}[0][2] === {json.dumps(card('', '', 3, 2, 11)[2])}")
        it.at_widths("orders-open")
        it.click(within("orderList", "coA-1"))
        it.until(f"{by_id('confirm')}.open")
        asked = "Cancel order A-1? 6 pieces fewer are wanted then. 3 made and 2 reserved stay wanted. "
        trial.equal(it.text("confirmWords"), asked + "To cancel what is reserved too, give its jobs back first.")
        it.click(by_id("confirmNo"))
        in_two_clicks(it, lambda: cancel("coA-1"))
        it.says("Cancel order A-1: 2 of 2 done")
        is_last(it, 4)
        trial.equal(lines_of(it, "A-1"), [[2, 0, 2], [3, 2, 1], [0, 0, 0]])
        it.until(f"{LISTED}[0][2] === {json.dumps(card('', '', 3, 2, 5)[2])}")
        trial.equal(it.value(cancels), [])
        it.view("tocut")
        it.material("tocut", "STEEL")
        it.until(f"{by_id('wanted')}.textContent.startsWith('1 kind of pieces: all made or reserved.')")
        send(do="done", job=4)
        it.view("orders")
        it.until(f"{by_id('orderList')}.textContent === 'No order is open.'")
        is_quiet(it)


@case(
    "orders at the page that are found again",
    "An order is found by its code or the number of its pieces, finished or not, whether this browser saw it or not, in two "
    "clicks, and shown as it becomes; so is a cancelled one. Another text is told at the field. Finished ones are listed by "
    "their codes where that is chosen, and all lines are saved as CSV then.",
)
def found(trial):
    with Terminal(trial, open_shop(trial)) as it:
        send = sender(it.shop)
        half_made(send)
        send(do="order", order="4", lines=[{**LINE, "count": 9}])
        it.begin(7)
        it.view("orders")
        it.until(f"{LISTED}.length === 2")

        def find(text):
            it.type(by_id("findOrder"), text)
            it.click("document.querySelector('#findForm button')")

        a_1, b_1, four = card("A-1", "open", 3, 2, 10), card("B-1", "finished", 3, 0, 3), card("4", "open", 0, 0, 9)
        for text, wanted in (("b-1", b_1), ("4", four), ("5", b_1), ("A-1", a_1), ("3", a_1), ("6", four)):
            in_two_clicks(it, lambda: find(text))
            it.until(f"{FOUND}.length === 1 && {FOUND}[0][0] === 'Order {wanted[0]}'")
            trial.equal(it.value(FOUND)[0][1:], wanted[1:], text)
        for text in ("A-2", "7", "4294967295", "Ä-1"):
            find(text)
            words = f"order “{text}” is no code of an order or a batch, and no number of pieces wanted, a job or a part"
            it.until(f"document.querySelector('#findForm .fault')?.textContent === {json.dumps(words)}")
            trial.equal((it.value(FOUND), it.value("document.activeElement.id")), ([], "findOrder"))
        trial.equal(it.value(LISTED), [a_1, four])
        find("b-1")
        it.until(f"{FOUND}.length === 1")
        it.type(within("foundOrder", "fw5"), "4")
        it.key("Enter")
        it.says("Order B-1, line 9: 4 wanted in place of 2: done")
        it.until(f"{FOUND}[0][1] === 'open' && {LISTED}.length === 3")
        trial.equal(it.value(FOUND)[0][1:], card("B-1", "open", 3, 0, 5)[1:])
        it.click(within("foundOrder", "cfoB-1"))
        it.confirm()
        it.until(f"{FOUND}[0][1] === 'finished' && {LISTED}.length === 2")
        find("4")
        it.until(f"{FOUND}[0]?.[0] === 'Order 4'")
        it.click(within("foundOrder", "cfo4"))
        it.confirm()
        it.until(f"{FOUND}[0][1] === 'cancelled' && {LISTED}.length === 1")
        it.click(by_id("finishedToo"))
        it.until(f"{LISTED}.length === 3")
        trial.equal(it.value(LISTED), [card("4", "cancelled", 0, 0, 0), a_1, b_1])
        it.click(within("orderList", "uB-1"))
        it.until(within("orderList", "w5"))
        it.at_widths("orders-all")
        heads = ["order", "line", "demand", "wanted", "reserved", "made", "left"]
        told, _ = saved(it, "orders", "point")
        places = [told[0].index(it) for it in heads]
        trial.equal(
            [[row[place] for place in places] for row in told],
            [
                heads,
                ["4", 7, 6, 0, 0, 0, 0],
                ["A-1", 7, 1, 2, 0, 2, 0],
                ["A-1", 8, 2, 5, 2, 1, 2],
                ["A-1", 9, 3, 3, 0, 0, 3],
                ["B-1", 7, 4, 1, 0, 1, 0],
                ["B-1", 9, 5, 2, 0, 2, 0],
            ],
        )
        send(do="amend", demand=4, wanted=2)
        it.value("refreshNow()")
        it.until(f"{LISTED}[2][1] === 'open' && {within('orderList', 'w4')}.value === '2'")
        it.click(by_id("finishedToo"))
        it.until(f"{LISTED}.length === 2")
        is_quiet(it)


@case(
    "sums of orders at the page",
    "Of 130 orders, behind their first hundred too, the sums are over all lines, made, reserved and cancelled ones too, and "
    "follow what other terminals do; open ones are listed alone at first, and their lines are read again only where they changed.",
)
def sums(trial):
    with Terminal(trial, open_shop(trial)) as it:
        send, wanted = sender(it.shop), {}
        send(do="receive", material="STEEL", batch="S-1", w=60000, h=1, count=90)
        for number in range(130):
            code, lines = f"N-{number:03}", [{**LINE, "count": 1 + number}, {**LINE, "line": 8, "count": 2}]
            first = send(do="order", order=code, lines=lines)["first"]
            wanted[code] = [3 + number, 0, 0]
            if number % 2:
                for demand in (first, first + 1):
                    send(do="amend", demand=demand, wanted=0)
                wanted[code] = [0, 0, 0]
            elif number % 10 == 4:
                tree = f"x10000 p{first + 1} x10000 p{first + 1} r"
                send(do="done", job=send(do="reserve", part=f"1/{number // 2}", tree=tree)["job"])
                wanted[code][2] = 2
            elif number % 10 == 6:
                send(do="reserve", part=f"1/{number // 2}", tree=f"x10000 p{first} x10000 p{first + 1} r")
                wanted[code][1] = 2
        rows = []
        for code, (all_of, reserved, made) in wanted.items():
            rows.append(card(code, "open" if all_of else "cancelled", made, reserved, all_of))
        is_open = [row for row in rows if row[1] == "open"]
        it.begin(7)
        it.view("orders")
        # (130 lines are open: 65 orders of two lines, of which 13 have one that is made)
        it.until(f"{LISTED}.length === {len(is_open)}")
        trial.equal(it.value(LISTED), is_open)
        it.until("!refresh.running")
        asked = len(it.requests)
        it.value("refreshNow()")
        it.until("!refresh.running && performance.now() - refresh.ended < 1000")
        again = [path for path in it.requests[asked:] if "/order/" in path]
        trial.holds(len(again) <= 8, f"{len(again)} orders are asked for again")
        send(do="amend", demand=1, wanted=77)
        wanted["N-000"][0] += 76
        it.value("refreshNow()")
        it.until(f"{LISTED}[0][2] === {json.dumps(card('', '', 0, 0, 79)[2])}")
        it.click(by_id("finishedToo"))
        it.until(f"{LISTED}.length === 100")
        it.click(within("orderList", "allOrderPages"))
        it.until(f"{LISTED}.length === 130")
        rows[0] = card("N-000", "open", 0, 0, 79)
        trial.equal(it.value(LISTED), rows)
        is_quiet(it)


@case(
    "amends at the page whose answers are lost",
    "What is changed and cancelled while answers are lost waits, shown at its line, is kept over a reload and sent again under "
    "its number: each is done once, whatever another terminal amended since.",
)
def lost(trial):
    with Terminal(trial, open_shop(trial)) as it:
        send = sender(it.shop)
        half_made(send)
        it.begin(7)
        it.view("orders")
        it.until(within("orderList", "w2"))
        with it.losing_answers():
            it.type(within("orderList", "w2"), "9")
            it.key("Enter")
            it.until(f"{by_id('orderList')}.textContent.includes('waits for its answer')")
            trial.equal(it.value(f"{within('orderList', 'w2')}.value"), "9")
            it.until(f"{by_id('keptNotice')}.textContent.includes('(number 1)')")
            send(do="amend", demand=2, wanted=6)
            it.call("Page.reload")
            it.until(f"document.readyState === 'complete' && {by_id('keptNotice')}.textContent.includes('(number 1)')")
        it.until("terminal.kept().length === 0")
        trial.equal((lines_of(it, "A-1")[1], it.ask("/terminal/7")["last"]), ([6, 2, 1], 1))
        it.until(f"{within('orderList', 'w2')}?.value === '6'")
        with it.losing_answers():
            it.click(within("orderList", "coA-1"))
            it.confirm()
            it.until(f"{by_id('keptNotice')}.textContent.includes('Cancel order A-1: 0 of 2 answered')")
        it.says("Cancel order A-1: 2 of 2 done")
        is_last(it, 3)
        trial.equal(lines_of(it, "A-1"), [[2, 0, 2], [3, 2, 1], [0, 0, 0]])


@case(
    "orders at the page in German",
    "In a German browser an order that is changed, refused, cancelled and found is told in German.",
)
def german_orders(trial):
    with Terminal(trial, open_shop(trial), "de-DE") as it:
        half_made(sender(it.shop))
        it.begin(7)
        it.view("orders")
        it.until(within("orderList", "w2"))
        it.type(within("orderList", "w2"), "2")
        it.key("Enter")
        words = "Anzahl 2: 1 fertig, 2 reserviert: 3 ist das Mindeste"
        it.until(f"document.querySelector('#orderList .fault')?.textContent === {json.dumps(words)}")
        is_german(it, "orders-fault")
        it.type(within("orderList", "w2"), "7")
        it.key("Enter")
        it.says("Auftrag A-1, Zeile 8: 7 gewünscht statt 5: erledigt")
        it.click(within("orderList", "coA-1"))
        it.until(f"{by_id('confirm')}.open")
        asked = "Auftrag A-1 stornieren? 7 Zuschnitte weniger sind dann gewünscht. "
        asked += "3 fertige und 2 reservierte bleiben gewünscht. Um auch Reserviertes zu stornieren, zuerst dessen Jobs auflösen."
        trial.equal(it.text("confirmWords"), asked)
        it.click(by_id("confirmYes"))
        it.says("Auftrag A-1 stornieren: 2 von 2 erledigt")
        it.type(by_id("findOrder"), "b-1")
        it.key("Enter")
        it.until(f"{FOUND}.length === 1")
        trial.equal(it.value(FOUND)[0][:2], ["Auftrag B-1", "fertig"])
        is_german(it, "orders-found")
        it.type(by_id("findOrder"), "b-2")
        it.key("Enter")
        words = "Auftrag „B-2“ ist kein Code eines Auftrags oder einer Charge und keine Nummer einer Position, eines Jobs oder eines Teils"
        it.until(f"document.querySelector('#findForm .fault')?.textContent === {json.dumps(words)}")
        is_german(it, "orders-none")
        is_quiet(it)


@case(
    "a number that is typed while others work",
    "A number that is typed at a line stays where another terminal changes that line meanwhile; an order is cancelled by what is "
    "reserved of it when it is cancelled, not by what was shown; then the line has the number that is wanted now. An order's bar has "
    "what is made, reserved and left as they are.",
)
def typed(trial):
    field = within("orderList", "w2")
    with Terminal(trial, open_shop(trial)) as it:
        send = sender(it.shop)
        half_made(send)
        it.begin(7)
        it.view("orders")
        it.until(field)
        drawn = (
            "[...document.querySelectorAll('#orderList .ordered svg rect:has(title)')].map(e => [e.textContent, "
            "Math.round(e.getAttribute('width'))])"
        )
        trial.equal(it.value(drawn), [["made", 300], ["reserved", 200], ["left", 500]])
        forms = "[...document.querySelectorAll('#orderList .ordered svg rect:has(title)')].map(e => e.classList[1])"
        trial.equal(it.value(forms), ["piece", "scrap", "unit"])
        it.type(field, "9")
        it.value("document.activeElement.blur()")
        send(do="amend", demand=2, wanted=6)
        it.value("refreshNow()")
        it.until(f"{LISTED}[0][2] === {json.dumps(card('', '', 3, 2, 11)[2])}")
        trial.equal(it.value(f"{field}.value"), "9")
        it.until("!refresh.running")
        it.value("(clearTimeout(refresh.timer), refreshPass = () => {}, 0)")
        send(do="reserve", part="1/3", tree="x10000 p2 x10000 p3 x10000 p3 r")
        it.click(within("orderList", "coA-1"))
        it.until(f"{by_id('confirm')}.open")
        asked = "Cancel order A-1? 3 pieces fewer are wanted then. 3 made and 5 reserved stay wanted. "
        trial.equal(it.text("confirmWords"), asked + "To cancel what is reserved too, give its jobs back first.")
        it.click(by_id("confirmYes"))
        it.says("Cancel order A-1: 2 of 2 done")
        trial.equal(lines_of(it, "A-1"), [[2, 0, 2], [4, 3, 1], [2, 2, 0]])
        it.until(f"{field}.value === '4'", 10)
        is_quiet(it)


SUMMARY = "foundOrder.querySelector('summary')"
LINES_SHOWN = "[...foundOrder.querySelectorAll('[data-field=wanted]')].filter(e => e.checkVisibility()).length"


@case(
    "an order of many lines at the page",
    "An order that is looked for shows at most twelve lines at once. More are folded behind how many they are, as its jobs stand below them. "
    "Unfolded they stay so, with what is typed, while another terminal works, and are changed as ever; in the list they aren't folded.",
)
def many_lines(trial):
    shop = open_shop(trial)
    send = sender(shop)
    send(do="receive", material="STEEL", batch="S-1", w=60000, h=1, count=2)
    for code, lines in (("A-1", 13), ("B-1", 12)):
        send(do="order", order=code, lines=[{**LINE, "line": line, "count": 2} for line in range(1, lines + 1)])
    send(do="reserve", part="1/0", tree="x10000 p1 r")
    with Terminal(trial, shop) as it:
        it.begin(7)
        for code, lines in (("B-1", 12), ("A-1", 0)):
            it.value(f"void (location.hash = 'order/{code}')")
            it.until(f"foundOrder.textContent.includes('Order {code}') && {LINES_SHOWN} === {lines}")
        it.until("foundOrder.textContent.includes('Jobs')")
        trial.equal(it.value(f"{SUMMARY}.textContent"), "13 lines")
        trial.holds(it.value(f"foundOrder.querySelector('.links').getBoundingClientRect().top - {SUMMARY}.getBoundingClientRect().bottom < 200"), "its jobs are far below")
        it.click(SUMMARY)
        it.until(f"{LINES_SHOWN} === 13")
        it.type(within("foundOrder", "fw3"), "7")
        send(do="amend", demand=2, wanted=5)
        it.until("foundOrder.textContent.includes('left of 5')")
        trial.equal(it.value(f"[{LINES_SHOWN}, {within('foundOrder', 'fw3')}.value]"), [13, "7"])
        it.click(within("foundOrder", "fa3"))
        it.says("Order A-1, line 3: 7 wanted in place of 2: done")
        it.until(f"foundOrder.textContent.includes('left of 7') && {LINES_SHOWN} === 13")
        it.click(SUMMARY)
        it.until(f"{LINES_SHOWN} === 0")
        it.click(within("orderList", "uA-1"))
        it.until("orderList.querySelectorAll('[data-field=wanted]').length === 13 && !orderList.querySelector('details')")
        is_quiet(it)


@case(
    "lines of an order at the page that stand below one another",
    "At 1280, 768 and 400 pixels, in English and in German, the fields and the buttons of an order's lines stand below one another, also of a "
    "line of which nothing is left, and so nothing can be cancelled.",
)
def in_columns(trial):
    shop = open_shop(trial)
    half_made(sender(shop))
    lefts = "[...new Set([...foundOrder.querySelectorAll('{}')].map(e => Math.round(e.getBoundingClientRect().left)))].length"
    for language in ("en", "de-DE"):
        with Terminal(trial, shop, language) as it:
            it.begin(7)
            it.value("void (location.hash = 'order/A-1')")
            it.until("foundOrder.querySelectorAll('[data-field=wanted]').length === 3 && !refresh.running")
            trial.equal(it.value("[...foundOrder.querySelectorAll('[data-key^=cfl]')].filter(e => e.checkVisibility({checkVisibilityCSS: true})).length"), 2)
            for width in (1280, 768, 400):
                it.size(width)
                for find in ("[data-field=wanted]", "[data-key^=fa]"):
                    trial.equal(it.value(lefts.format(find)), 1, f"{find} at {width}, {language}")
            is_quiet(it)


@case(
    "an amend at the page that is refused",
    "The number that was typed comes back into its field, and the notice says why it was refused.",
)
def amend_refused(trial):
    shop = open_shop(trial)
    sender(shop)(do="order", order="A-1", lines=LINES[:1])
    field, change = (f"orderList.querySelector('[data-key={key}]')" for key in ("w1", "a1"))
    refusal = {"name": "TooMany", "refused": 63}
    with Terminal(trial, shop) as it:
        it.begin(7)
        it.view("orders")
        it.until(field)
        it.type(field, "50")
        with answering(it, "/message", lambda asked: (409, refusal)):
            it.click(change)
            it.says("Refused: Order A-1, line 1: 50 wanted in place of 40")
        it.until(f"{field}.value === '50'")
        it.click(change)
        it.says(": 50 wanted in place of 40: done")
        trial.equal(it.ask("/demand/1")["wanted"], 50)
        is_quiet(it)
