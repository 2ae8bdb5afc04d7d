"""The office and the stock at the terminal's page, in a real browser where one is installed."""

import datetime
import json
import os
import random
import shutil
import signal
import subprocess
import xml.etree.ElementTree

from browser.terminal import Terminal, by_id, exchange, open_shop
from kit.case import case
from kit.page import is_quiet, order, saved, stock

HEADER = "line,material,length,width,turn,count,worth\n"
GOOD = "1,GLASS,400.5,300.0,no,3,12015\n"
LINE = {"line": 7, "material": "STEEL", "w": 10000, "h": 1, "turn": False, "count": 1, "worth": 1}

# Texts with commas: those that the shop reads as they stand, and those that the page turns or calls bad.
WHOLE = (
    HEADER + GOOD,
    "\ufeff" + HEADER.replace("\n", "\r\n") + "\r\n" + GOOD.replace("\n", "\r\n"),
    HEADER.replace("\n", "\r") + GOOD.replace("\n", ""),
    HEADER + '1,"GLASS","400",300,yes,003,0012015\n2,STEEL,1.5,0.1,no,1,1',
    HEADER + "\n\n7,STEEL,1200.5,0.1,no,6,1200\n\n",
)
# (text, what is sent or the first fault)
TURNED = (
    (HEADER + "1,GLASS,400.5,300.0,no, 3,12015\n", GOOD),
    (HEADER + "1,GLASS,400.5,300.0,no,3,12015 \n", GOOD),
    (HEADER + '1,GLASS,"400,5",300.0,No,3,12015\n', GOOD),
    (HEADER + "1,GLASS,400.5,300.0,NEIN,3,12015,,\n,,,,,,\n \n", GOOD),
    (HEADER.title() + GOOD, GOOD),
    (HEADER + "1,GLASS,400.5,300.0,no,3,\n", "1,GLASS,400.5,300.0,no,3,120150\n"),
    (HEADER + "1,STEEL,1200.5,,no,3,\n", "1,STEEL,1200.5,0.1,no,3,1201\n"),
    (HEADER + '""\n' + GOOD + "1,GLASS,1,1,no,1,1\n", "1,GLASS,400.5,300.0,no,3,12015\n2,GLASS,1,1,no,1,1\n"),
    ("sep=,\r\n" + HEADER + GOOD, GOOD),
    ("sep=;\r\n" + (HEADER + GOOD).replace(",", ";"), GOOD),
    (HEADER.replace(",", ";").strip() + ";;\r\n1;GLASS;400,5;300,0;nein;3;12015;;\r\n;;;;;;\r\n", GOOD),
    (HEADER.replace(",", "\t") + "1\tGLASS\t400,50\t300\tJa\t3\t5\n", "1,GLASS,400.5,300,yes,3,5\n"),
)
MILLIMETRES = "write millimetres with at most one decimal, like 1250.5"
WIDE = "the row has 8 fields and the first row 7: write a {} between each two"
# (text, line of the file and fault)
BAD = (
    (HEADER + "\n1,GLASS,1,1,no,1,1,soon\n", [f"3: {WIDE.format('comma')}, and a point before a tenth"]),
    (HEADER.replace(",", ";") + "1;GLASS;1;1;no;1;1;soon\n", [f"2: {WIDE.format('semicolon')}"]),
    (
        HEADER + "1,GLASS,0,7000,true,0,\n",
        [
            "2: length 0 mm: write 0.1 to 20000.0 mm",
            "2: width 7000 mm: write 0.1 to 6000.0 mm",
            "2: turn “true”: write yes or no",
            "2: count “0”: write a whole number from 1 to 1\u202f000\u202f000",
        ],
    ),
    (
        HEADER + "1,STEEL,1.0,2.0,yes,1,1\n\n,WOOD,,1,no,1,1\n",
        [
            "2: width 2.0 mm: a bar's is 0.1 mm",
            "2: turn yes: a bar can't turn, write no",
            f"4: length is empty: {MILLIMETRES}",
        ],
    ),
)
# (text, what is asked)
ASKED = (
    (HEADER + '1,GLASS,"1,200",1,no,1,1\n', "Say what “1,200” is."),
    (HEADER + "1,GLASS,1.25,1,no,1,1\n", "Say that lengths are rounded to tenths of a millimetre."),
    (HEADER + "1,WOOD,1,1,no,1,1\n", "Say which materials these are."),
    ("length,width\n600,400\n", "No column's head says which is the material: choose it."),
)
# What is read of a text, all of GLASS where it names no material.
READ = (
    "(text => { const first = readOrderFile(text), glass = { columns: { material: 'GLASS' } }; "
    "const file = first.columns?.material === null ? readOrderFile(text, glass) : first; "
    "return { fault: file.fault, text: file.texts?.join(''), bad: file.bad.flatMap(row => "
    "Object.entries(row.faults).map(([name, words]) => `${row.at}: ${name} ${words}`)) }; })"
)


def imported(it, number, text):
    """What the shop says to a text, sent beside the page."""
    command = {"do": "import", "form": "csv", "number": number, "order": f"O-{number}", "terminal": 8, "text": text}
    return exchange(it.shop, "/message", command)


def mutants(text, number):
    """Texts that differ from this one in a few places."""
    chance = random.Random(1)
    for _ in range(number):
        chars = list(text)
        for _ in range(chance.randint(1, 2)):
            place = chance.randrange(len(chars))
            chars[place : place + chance.randint(0, 1)] = chance.choice('", \r\n017.a')
        yield "".join(chars)


@case(
    "an order file that is good to the letter",
    "What the page calls good the shop accepts as the page sends it: a file with commas as it stands where the shop "
    "accepts it so, among 150 changed ones too; else the text that is shown, made of the turned fields.",
)
def letter(trial):
    with Terminal(trial, open_shop(trial)) as it:
        it.begin(7)
        it.until("shop.materials.length")
        for text in WHOLE:
            trial.equal(it.value(f"{READ}({json.dumps(text)})"), {"fault": "", "text": text, "bad": []})
        for text, sent in TURNED:
            trial.equal(it.value(f"{READ}({json.dumps(text)})"), {"fault": "", "text": HEADER + sent, "bad": []}, text)
        for text, bad in BAD:
            trial.equal(it.value(f"{READ}({json.dumps(text)})")["bad"], bad)
        for text, asked in ASKED:
            trial.equal(it.value(f"readOrderFile({json.dumps(text)}).fault"), asked)
        long = "\n" * 65440 + HEADER + GOOD
        trial.equal(it.value(f"{READ}({json.dumps(long)})"), {"fault": "", "text": HEADER + GOOD, "bad": []})
        texts = [*WHOLE, *(text for text, _ in TURNED), *mutants(HEADER + GOOD + "2,STEEL,7,0.1,no,1,1\n", 150)]
        files = it.value(f"{json.dumps(texts)}.map({READ})")
        whole = 0
        for number, (text, file) in enumerate(zip(texts, files)):
            accepts = "ok" in imported(it, 2 * number, text)
            isgood = not file["fault"] and not file["bad"]
            trial.equal(isgood and file["text"] == text, accepts, repr(text))
            if isgood and not accepts:
                trial.equal(imported(it, 2 * number + 1, file["text"]).get("ok"), "import", repr(text))
            whole += accepts
        trial.holds(len(WHOLE) + 5 < whole < 100, f"{whole} of {len(texts)} are accepted as they stand")


FAULT = (
    "(e => [e.getAttribute('aria-invalid'), document.getElementById(e.getAttribute('aria-describedby'))?.textContent])"
    "(document.activeElement)"
)


def faulty(it, field, words):
    """The field has the focus, and its fault is tied to it."""
    it.until(f"document.activeElement === {field} && {field}.getAttribute('aria-invalid')")
    it.trial.equal(it.value(FAULT), ["true", words], field)


@case(
    "a fault at its field",
    "What is wrong with a batch, a side, a count or a code is told at its field, which gets the focus: nothing that was "
    "pasted is cut, and nothing is sent. A changed field loses its fault.",
)
def at_fields(trial):
    long, sides = "COIL-2026-000000117", ": write 0.1 to 20000.0 mm"
    with Terminal(trial, open_shop(trial)) as it:
        it.begin(7)
        for batch, length, width, units, name, words in (
            (long, "2400", "1300", "1", "receiveBatch", f"batch “{long}” has 19 characters: write at most 16"),
            ("Straße", "2400", "1300", "1", "receiveBatch", "batch “STRAßE” has “ß”: write A–Z, 0–9 and - alone"),
            ("", "2400", "1300", "1", "receiveBatch", "batch is empty: write 1 to 16 of A–Z, 0–9 and -"),
            ("g-8", "", "1300", "1", "receiveW", f"length is empty: {MILLIMETRES}"),
            ("g-8", "2.400,5", "1300", "1", "receiveW", f"length “2.400,5”: {MILLIMETRES}"),
            ("g-8", "0", "1300", "1", "receiveW", f"length 0 mm{sides}"),
            ("g-8", "1234567", "1300", "1", "receiveW", f"length 1234567 mm{sides}"),
            ("g-8", "2400,5", "6000.1", "1", "receiveH", "width 6000.1 mm: write 0.1 to 6000.0 mm"),
            ("g-8", "2400,5", "1300", "101", "receiveCount", "units “101”: write a whole number from 1 to 100"),
        ):
            it.receive("GLASS", batch, length, width, units)
            faulty(it, by_id(name), words)
        it.type(by_id("receiveCount"), "2")
        trial.equal(it.value("document.querySelectorAll('#stock .fault:not([hidden]), #stock [aria-invalid]').length"), 0)
        it.key("Enter")
        it.says("Receive 2 × GLASS 2400.5\u00a0×\u00a01300.0\u00a0mm: 2 units received, 1/0 to 1/1")
        it.view("orders")
        it.type(by_id("orderCode"), long)
        it.key("Enter")
        faulty(it, by_id("orderCode"), f"code “{long}” has 19 characters: write at most 16")
        it.type(by_id("orderCode"), "A-1")
        field = "document.querySelector('#orderLines [data-field={}]')"
        for name, text in (("length", "20000,1"), ("width", "1"), ("count", "1")):
            it.type(field.format(name), text)
        it.key("Enter")
        faulty(it, field.format("length"), f"length 20000,1 mm{sides}")
        it.order_file(long, "good.csv", HEADER + GOOD)
        it.click(by_id("sendCsv"))
        faulty(it, by_id("fileCode"), f"code “{long}” has 19 characters: write at most 16")
        trial.equal(it.ask("/terminal/7")["last"], 1)
        is_quiet(it)


@case(
    "the page of a shop without materials",
    "To cut, Orders and Stock say that the shop has no material yet, and what to do; nothing is sent.",
)
def no_material(trial):
    words = "The shop has no material yet: write it into the shop file, and start the program again."
    with Terminal(trial, open_shop(trial, "")) as it:
        it.begin(7)
        for name in ("wanted", "cutFrom"):
            it.until(f"{by_id(name)}.textContent.startsWith({json.dumps(words)})")
        it.view("stock")
        it.until(f"{by_id('stockList')}.textContent === {json.dumps(words)}")
        trial.equal(it.text("stockTitle"), "Standing and reserved")
        it.type(by_id("receiveBatch"), "S-1")
        it.key("Enter")
        it.until(f"{by_id('receiveFault')}.textContent === {json.dumps(words)}")
        it.view("orders")
        it.type(by_id("orderCode"), "A-1")
        it.key("Enter")
        it.until(f"{by_id('orderFault')}.textContent === {json.dumps(words)}")
        trial.equal(it.ask("/terminal/7")["last"], 0)


@case(
    "a file that is ordered twice at the page",
    "The rows of a file are counted as a spreadsheet counts them, and what was turned is shown. The first time its lines are "
    "ordered; the second time the page says that nothing was done.",
)
def twice(trial):
    text = "\r\n" + (HEADER + GOOD).replace(",", ";") + "\r\n;;;;;;\r\n4;STEEL;1.200,5;;nein;2;{}\r\n"
    shown = "[...document.querySelectorAll('#csvPreview tbody tr')].map(row => [...row.cells].map(cell => cell.textContent))"
    with Terminal(trial, open_shop(trial)) as it:
        it.begin(7)
        it.order_file("a-1", "bad.csv", text.format("x"))
        bad = "Line 6 of the file can't be ordered: mend what is marked, or leave it out."
        it.until(f"{by_id('csvPreview')}.textContent.includes({json.dumps(bad)})")
        done = "by terminal 7: nothing done"
        for said in ("A-1 from a file: 2 lines ordered, pieces wanted from no. 1 on", done):
            it.order_file("a-1", "good.csv", text.format(""))
            it.until("document.querySelector('#csvPreview tbody').rows.length === 2")
            trial.equal(
                it.value(shown),
                [
                    ["3", "1", "GLASS", "400.5", "300.0", "no", "3", "12015"],
                    ["6", "4", "STEEL", "1200.5← 1.200,5", "0.1← empty", "no← nein", "2", "1201← empty"],
                ],
            )
            trial.holds("3 empty rows left out." in it.text("csvPreview"), "the empty rows aren't told")
            it.click(by_id("sendCsv"))
            it.says(said)
        it.order_file("b-1", "good.csv", text.format(""))
        it.click(by_id("sendCsv"))
        it.says("B-1 from a file: 2 lines ordered, pieces wanted from no. 3 on")
        for said in ("1 line ordered, pieces wanted from no. 5 on, unit 1/0 received", "P-1 from a file: was ordered at "):
            it.type(by_id("fileCode"), "P-1")
            it.choose(by_id("problemMaterial"), "GLASS")
            it.pick(by_id("problemFile"), trial.write("sheet.txt", "1\n6000 4000\n1500 1000 4 150\n"))
            it.until(by_id("sendProblem"))
            it.click(by_id("sendProblem"))
            it.says(said)
        trial.equal([row["demand"] for row in it.ask("/demands/0")["demands"]], [1, 2, 3, 4, 5])


# Of a line's fields the greatest value and one that is too great.
GREATEST = {
    "line": ("4294967295", "4294967296"),
    "length": ("20000.0", "20000.1"),
    "width": ("6000.0", "6000.1"),
    "count": ("1000000", "1000001"),
    "worth": ("1000000000", "1000000001"),
}


@case(
    "limits of a line at the page",
    "The greatest value of each field of a line is good, and one more is told at that field; lengths are told in metres from one "
    "metre on, and areas in square metres from a hundredth of one on.",
)
def greatest(trial):
    texts = {"line": "1", "material": "GLASS", "length": "10.0", "width": "10.0", "turn": "no", "count": "1", "worth": "1"}
    with Terminal(trial, open_shop(trial)) as it:
        it.begin(7)
        it.until("shop.materials.length === 2")
        for name, (good, bad) in GREATEST.items():
            for value, wanted in ((good, []), (bad, [name])):
                line = json.dumps(list({**texts, name: value}.values()))
                trial.equal(it.value(f"Object.keys(lineFaults({line}, 0))"), wanted, line)
        told = it.value("[metresText(9999), metresText(10000), areaText(999999), areaText(1000000)]")
        trial.equal([words.split("\u00a0")[-1] for words in told], ["mm", "m", "mm²", "m²"], told)
        is_quiet(it)


@case(
    "stock that isn't in a row",
    "Units of one batch and size are told as ranges only where their names follow one another.",
)
def names(trial):
    with Terminal(trial, open_shop(trial)) as it:
        number = iter(range(99))
        send = lambda **keys: exchange(it.shop, "/message", {"number": next(number), "terminal": 8, **keys})
        for count in (5, 1, 2):
            send(do="receive", material="STEEL", batch="S-1", w=60000, h=1, count=count)
        send(do="order", order="A-1", lines=[LINE])
        send(do="reserve", part="1/2", tree="x10000 p1 r")
        send(do="scrap", part="3/0")
        it.begin(7)
        it.view("stock")
        it.material("stock", "STEEL")
        it.until("document.querySelectorAll('#stockList .fold > div > .stocked').length === 2")
        shown = "[...document.querySelectorAll('#stockList .fold > div > .stocked > div:first-child')]"
        wanted = [
            ["6000.0\u00a0mm", "6 units, standing", "1/0 to 1/1, 1/3 to 1/4, 2/0, 3/1, batch S-1"],
            ["6000.0\u00a0mm", "unit, reserved, job 4", "1/2, batch S-1"],
        ]
        trial.equal(sorted(it.value(f"{shown}.map(e => e.innerText.split('\\n'))")), wanted)


@case(
    "demands that stay left out",
    "A demand that is left out stays so when another material is chosen, and over a reload; a demand of the same number of "
    "another order doesn't; how many are left out is told, and a button puts all back.",
)
def left_out(trial):
    ticks = "[...document.querySelectorAll('#wanted .demand input')].map(it => it.checked)"
    with Terminal(trial, open_shop(trial)) as it:
        it.begin(7)
        stock(it)
        order(it)
        it.view("tocut")
        it.material("tocut", "GLASS")
        it.click("document.querySelector('#wanted [data-key=d2]')")
        it.until(f"{by_id('wanted')}.textContent.startsWith('1 kind of pieces left out')")
        it.material("tocut", "STEEL")
        it.until("document.querySelector('#wanted [data-key=d3]')")
        trial.equal(it.value(ticks), [True, True])
        it.click("document.querySelector('#wanted [data-key=\"oA-1\"]')")
        it.until(f"{by_id('wanted')}.textContent.startsWith('2 kinds of pieces left out')")
        it.click(by_id("putBack"))
        it.until(f"!{by_id('putBack')}")
        it.material("tocut", "GLASS")
        it.until("document.querySelector('#wanted [data-key=d2]')")
        trial.equal(it.value(ticks), [True, False])
        it.call("Page.reload")
        it.until("document.readyState === 'complete' && document.querySelector('#wanted [data-key=d2]')")
        trial.equal((it.value(ticks), it.value("chosenDemands().map(row => row.demand)")), ([True, False], [1]))
        it.value("localStorage.setItem('cutshop.leftOut', JSON.stringify(['1 B-9 1', '2 A-1 3']))")
        it.call("Page.reload")
        it.until("document.readyState === 'complete' && document.querySelector('#wanted [data-key=d2]')")
        trial.equal(it.value(ticks), [True, True], "another store's demand is left out")


@case(
    "whose piece it is, and whether its order is finished",
    "A trace of a piece tells its order and line, and leads to the order with all its lines, and whether all pieces are made.",
)
def finished(trial):
    with Terminal(trial, open_shop(trial)) as it:
        number = iter(range(99))
        send = lambda **keys: exchange(it.shop, "/message", {"number": next(number), "terminal": 8, **keys})
        send(do="receive", material="STEEL", batch="S-1", w=60000, h=1, count=2)
        for code in ("A-1", "B-1", "C-1"):
            send(do="order", order=code, lines=[LINE, {**LINE, "line": 9, "count": 2}])
        send(do="reserve", part="1/0", tree="x10000 p5 x10000 p6 x10000 p6 x10000 p3 r")
        send(do="done", job=2)
        it.begin(7)
        shown = f"[...{by_id('foundOrder')}.querySelectorAll('.orderedhead, p, form.stocked')].map(e => e.innerText.split('\\n').slice(0, 2).join(' '))"
        made = "{0} made · 0 reserved · {1} left of {2}"
        for part, demand, order, line, state in (("2/3", 6, "C-1", 9, "finished"), ("2/7", 3, "B-1", 7, "open")):
            it.view("stock")
            it.type(by_id("tracePart"), part)
            it.key("Enter")
            it.until(f"{by_id('traceWords')}.textContent.includes('a piece of order {order}, line {line} (no. {demand}).')")
            it.click(f"{by_id('traceWords')}.querySelector('a[href^=\"#order/\"]')")
            it.until(f"{shown}[0] === 'Order {order} {state}'")
            counts = (3, 1, 2) if order == "C-1" else (1, 1, 0)
            wanted = [made.format(it, of - it, of) for it, of in zip(counts, (3, 1, 2))]
            lines = [f"line {number}: STEEL 1000.0\u00a0mm {words}" for number, words in ((7, wanted[1]), (9, wanted[2]))]
            trial.equal(it.value(shown)[1:], [wanted[0], *lines])
        is_quiet(it)


@case(
    "many units at the page at once",
    "40 bars are returned by one press and one question, each by a message of its own; how far they are is told, and the one "
    "that another terminal took is told as refused, with its name, while the others go on. A bad number is told.",
)
def many_units(trial):
    with Terminal(trial, open_shop(trial)) as it:
        send = lambda number, **keys: exchange(it.shop, "/message", {"number": number, "terminal": 8, **keys})
        send(1, do="receive", material="STEEL", batch="S-1", w=60000, h=1, count=42)
        send(2, do="order", order="A-1", lines=[LINE])
        it.begin(7)
        it.view("stock")
        it.material("stock", "STEEL")
        button = "document.querySelector('#stockList [data-key=\"mr1/0\"]')"
        field = "document.querySelector('#stockList [data-count=\"1/0\"]')"
        for text in ("43", "0", "x"):
            it.type(field, text)
            it.click(button)
            it.says("Return: write how many, a whole number from 1 to 42")
            trial.equal(it.value(f"[document.activeElement === {field}, {field}.getAttribute('aria-invalid')]"), [True, "true"])
        it.type(field, "40")
        it.until("!refresh.running")
        it.value("clearTimeout(refresh.timer)")
        trial.equal(send(3, do="reserve", part="1/7", tree="x10000 p1 r").get("job"), 2)
        it.click(button)
        it.until(f"{by_id('confirm')}.open")
        asked = "Return 40 × STEEL 6000.0\u00a0mm (1/0 to 1/39)? This can't be taken back."
        trial.equal(it.text("confirmWords"), asked)
        it.shop.process.send_signal(signal.SIGSTOP)
        it.click(by_id("confirmYes"))
        it.until(f"/Return 40 × STEEL 6000.0.mm: [0-9]+ of 40 answered/.test({by_id('keptNotice')}.textContent)")
        trial.equal(it.value(f"{by_id('keptNotice')}.querySelectorAll('.waiting, progress').length"), 2, "one row and its bar")
        it.at_widths("stock-many")
        it.shop.process.send_signal(signal.SIGCONT)
        it.says(
            "Refused: Return 40 × STEEL 6000.0\u00a0mm: 39 of 40 done; 1 refused (1/7): Part 1/7: reserved by terminal 8, "
        )
        trial.equal(it.value("document.querySelectorAll('#successes .notice').length"), 0, "each is told by itself")
        names = [row["part"] for row in it.ask("/parts/STEEL")["parts"]]
        trial.equal((names, it.ask("/terminal/7")["last"]), (["1/7", "1/40", "1/41"], 39))
        it.until("document.querySelectorAll('#stockList .fold > div > .stocked').length === 2")
        it.type("document.querySelector('#stockList [data-count=\"1/40\"]')", "2")
        it.click("document.querySelector('#stockList [data-key=\"ms1/40\"]')")
        it.confirm()
        it.says("Scrap 2 × STEEL 6000.0\u00a0mm: 2 of 2 done")
        trial.equal(it.ask("/totals/STEEL")["scrap"], 2 * 60000)
        is_quiet(it)


@case(
    "stock that folds by size",
    "With many sizes each is a line that opens and stays open; *Receive* is in sight on a phone.",
)
def folds(trial):
    with Terminal(trial, open_shop(trial)) as it:
        send = lambda number, **keys: exchange(it.shop, "/message", {"number": number, "terminal": 8, **keys})
        for place in range(30):
            receipt = {"material": "STEEL", "batch": f"S-{place}", "w": 30000 + 10000 * (place % 3), "h": 1, "count": 2}
            send(place, do="receive", **receipt)
        it.begin(7)
        it.view("stock")
        it.material("stock", "STEEL")
        heads = "[...document.querySelectorAll('#stockList > .fold > summary')].map(e => e.innerText)"
        it.until(f"{heads}.length === 3")
        wanted = [f"{size}.0\u00a0mm20 units" for size in (5000, 4000, 3000)]
        trial.equal(it.value(heads), wanted)
        shown = "[...document.querySelectorAll('#stockList .stocked')].filter(e => e.checkVisibility()).length"
        trial.equal(it.value(shown), 0)
        it.size(400)
        it.value("scrollTo(0, 0)")
        bottom = it.value("document.querySelector('#receiveForm .act').getBoundingClientRect().bottom")
        trial.holds(bottom < 800, f"Receive ends at {bottom}")
        it.click("document.querySelectorAll('#stockList > .fold > summary')[1]")
        it.until(f"{shown} === 10")
        send(30, do="receive", material="STEEL", batch="S-30", w=40000, h=1, count=1)
        it.until(f"{shown} === 11")
        it.at_widths("stock-folds")
        is_quiet(it)


@case(
    "demands at the page as a table",
    "What is open of a material is a table, a line for each demand: its line, its size, how much is left of how much, its "
    "number. A demand whose pieces are all reserved isn't among them, and that is told.",
)
def demand_table(trial):
    rows = "[...document.querySelectorAll('#wanted .demand')].map(row => [...row.cells].map(cell => cell.innerText))"
    with Terminal(trial, open_shop(trial)) as it:
        it.begin(7)
        stock(it)
        order(it)
        it.view("tocut")
        it.material("tocut", "STEEL")
        it.until(f"{rows}.length === 2")
        trial.equal(
            it.value(rows),
            [["", "5", "1200.5", "6 of 6", "3"], ["", "6", "800.0", "3 of 3", "4"]],
        )
        high = it.value("[...document.querySelectorAll('#wanted .demand')].map(row => row.offsetHeight)")
        trial.holds(max(high) <= 52, f"a line is {max(high)} pixels high")
        it.click("document.querySelectorAll('#wanted .demand')[1].cells[3]")
        it.until(f"{by_id('wanted')}.textContent.startsWith('1 kind of pieces left out')")
        it.click("document.querySelector('#wanted [data-key=d4]')")
        it.until(f"!{by_id('putBack')}")
        reserve = {"do": "reserve", "number": 1, "part": "2/0", "terminal": 8, "tree": "x8000 p4 x8000 p4 x8000 p4 r"}
        trial.holds("ok" in exchange(it.shop, "/message", reserve), reserve)
        it.until(f"{rows}.length === 1")
        trial.equal(it.value(rows)[0][4], "3")
        trial.holds("1 other kind of pieces: all made or reserved." in it.text("wanted"), it.text("wanted"))
        is_quiet(it)


@case(
    "the yield at the page",
    "Of each material the pieces are told as a share of what was used up and of all, with where the rest is, in metres and "
    "square metres, as a table and as pictures; nothing used up has no share.",
)
def yields(trial):
    with Terminal(trial, open_shop(trial)) as it:
        number = iter(range(99))
        send = lambda **keys: exchange(it.shop, "/message", {"number": next(number), "terminal": 8, **keys})
        send(do="receive", material="STEEL", batch="S-1", w=6000, h=1, count=3)
        send(do="receive", material="GLASS", batch="G-1", w=12000, h=8000, count=3)
        it.begin(7)
        it.view("yield")
        cells = "[...document.querySelectorAll('#yieldTable tbody tr')].map(row => [...row.cells].map(cell => cell.innerText))"
        it.until(f"{cells}.length === 2")
        trial.equal(it.value(f"{cells}.map(row => row.slice(-2))"), [["–", "0.0\u00a0%"], ["–", "0.0\u00a0%"]])
        lines = [{**LINE, "w": 1000, "count": 4}, {**LINE, "line": 8, "material": "GLASS", "w": 4000, "h": 3000}]
        send(do="order", order="A-1", lines=lines)
        for job, (part, tree) in enumerate((("1/0", "x1000 p1 x1000 p1 x1000 p1 x1000 p1 r"), ("2/0", "x4000 y3000 p2 r r"))):
            trial.equal(send(do="reserve", part=part, tree=tree).get("job"), 3 + job)
            trial.holds("ok" in send(do="done", job=3 + job), part)
        send(do="return", part="1/1")
        it.value("refreshNow()")
        # (sheets of 0.96 m², one cut by two cuts of 3.0 mm: 8.0 and 4.0 dm long; bars of 0.6 m)
        glass = [f"{area}\u00a0m²" for area in ("2.8800", "0.0000", "1.9200", "0.8364", "0.1200", "0.0036", "0.0000", "0.1236")]
        steel = [f"{long}\u00a0m" for long in ("1.800", "0.600", "0.600", "0.000", "0.400", "0.010", "0.190", "0.600")]
        share = "{}\u00a0%"
        wanted = [
            ["GLASS", *glass, share.format("97.0"), share.format("4.1")],
            ["STEEL", *steel, share.format("66.6"), share.format("33.3")],
        ]
        it.until(f"{cells}[1][7] === {json.dumps(steel[6])} && {cells}[0][5] === {json.dumps(glass[4])}")
        trial.equal(it.value(cells), wanted)
        figures = "[...document.querySelectorAll('#yieldBars .figures b')].map(e => e.textContent)"
        trial.equal(it.value(figures), [share.format(text) for text in ("97.0", "4.1", "66.6", "33.3")])
        drawn = "[...document.querySelectorAll('#yieldBars svg.shares')].map(e => [...e.querySelectorAll('rect.piece')]"
        drawn += ".map(r => Math.round(r.getAttribute('width'))))"
        trial.equal(it.value(drawn), [[971], [42], [667], [333]])
        it.click("document.querySelector('#yieldBars [data-key=ySTEEL]')")
        it.until(f"{by_id('report')}.textContent.includes('pieces of what was used up66.6')")
        trial.equal(it.value("document.body.innerText.match(/\\bkg\\b/g)"), None, "weights, which nobody knows")
        it.at_widths("yield-shares")
        is_quiet(it)


# (text, what is sent): columns by their heads, in any order; what a file hasn't is taken.
BY_HEADS = (
    ("Material;Länge (mm);Breite in mm;Stück\r\nGLASS;600 mm;450,5;2\r\n", "1,GLASS,600,450.5,no,2,270300\n"),
    ("qty,length,width,material,note\n2,600,450.50,glass,by noon\n", "1,GLASS,600,450.5,no,2,270300\n"),
    ("Anzahl\tHöhe\tBreite\n2\t450,5\t600,0\n", "1,GLASS,600.0,450.5,no,2,270300\n"),
    ("Pos;Werkstoff;Länge;Menge;Drehbar\n3;STEEL;1.200,5;4;nein\n9;STEEL;800;1;n\n", "3,STEEL,1200.5,0.1,no,4,1201\n9,STEEL,800,0.1,no,1,800\n"),
    ("Pieces,Length,Material\n2,\"1,200.5\",STEEL\n", "1,STEEL,1200.5,0.1,no,2,1201\n"),
    ('"Length";"Width";"Material"\n600;450;"=""GLASS"""\n', "1,GLASS,600,450,no,1,270000\n"),
)


@case(
    "a spreadsheet's columns by their heads",
    "An order file's columns are known by German and English heads, in any order; which is which is shown and can be changed, "
    "columns more are named as left out, what the file hasn't is told; `1.200` is asked for; a bad row gets no worth.",
)
def by_heads(trial):
    shown = "[...document.querySelectorAll('#csvPreview tbody tr')].map(row => [...row.cells].map(cell => cell.textContent))"
    column = "document.querySelector('#csvPreview [data-column={}]')"
    chosen = "[...document.querySelectorAll('#csvColumns select')].map(e => e.selectedOptions[0].textContent)"
    with Terminal(trial, open_shop(trial)) as it:
        it.begin(7)
        it.until("shop.materials.length")
        for text, sent in BY_HEADS:
            trial.equal(it.value(f"{READ}({json.dumps(text)})"), {"fault": "", "text": HEADER + sent, "bad": []}, text)
        bad = "Länge;Breite;Stück;Material\n0;7000;2;GLASS\n600;400;x;GLASS\n600;400;2;WOOD\n"
        worths = it.value(f"readOrderFile({json.dumps(bad)}).rows.map(row => row.texts[6])")
        trial.equal(worths, ["", "", ""], "a bad row has a worth that nobody typed")
        text = "Kunde;Länge;Breite;Stück;Stück je Kiste;Bemerkung\nHuber;1.200;600;2;5;eilig\nMaier;450,5;300;3;7;\n"
        it.order_file("a-1", "kisten.csv", text.encode("cp1252"))
        trial.equal(
            it.value(chosen),
            [
                "none: 1, 2, 3, ..",
                "choose…",
                "“Länge”, column 2",
                "“Breite”, column 3",
                "none: no",
                "“Stück”, column 4",
                "none: its size",
            ],
        )
        left = "Left out: “Stück je Kiste”, column 5; “Bemerkung”, column 6."
        trial.equal(it.text("csvLeftOut"), left)
        it.choose(column.format("material"), "GLASS")
        it.until("document.querySelector('#csvPreview .fault').textContent === 'Say what “1.200” is.'")
        trial.holds(it.value(f"{by_id('sendCsv')}.disabled"), "a length that is unclear can be sent")
        trial.equal(it.value("document.querySelector('#csvQuestion legend').textContent"), "Line 2 of the file has “1.200”: it is")
        it.at_widths("orders-columns")
        answers = "[...document.querySelectorAll('#csvQuestion label')]"
        trial.equal(it.value(f"{answers}.map(e => e.textContent)"), ["1200 mm", "1.2 mm"])
        it.click(f"{answers}[1]")
        it.until(f"{shown}[0][3] === '1.2← 1.200'")
        it.click(f"{answers}[0]")
        it.until(f"{shown}[0][3] === '1200← 1.200'")
        it.choose(column.format("count"), "column 4")
        it.choose(column.format("turn"), "yes")
        it.until(f"{shown}[0][5] === 'yes'")
        trial.equal(
            it.value(shown),
            [
                ["2", "1", "GLASS", "1200← 1.200", "600", "yes", "5", "720000"],
                ["3", "2", "GLASS", "450.5← 450,5", "300", "yes", "7", "135150"],
            ],
        )
        it.click(by_id("sendCsv"))
        it.says("Order A-1 from a file: 2 lines ordered, pieces wanted from no. 1 on")
        rows = [[row[key] for key in ("w", "h", "wanted", "turn", "worth")] for row in it.ask("/demands/0")["demands"]]
        trial.equal(rows, [[12000, 6000, 5, True, 720000], [4505, 3000, 7, True, 135150]])
        it.order_file("a-2", "no-heads.csv", "600;400;2;GLASS\n500;300;1;GLASS\n")
        trial.equal(it.value("document.querySelector('#csvPreview .fault').textContent"), "No column's head says which is the length: choose it.")
        for place, name in enumerate(("length", "width", "count", "material")):
            it.choose(column.format(name), f"column {place}")
        it.until(f"!{by_id('sendCsv')}.disabled")
        trial.equal([row[1:] for row in it.value(shown)], [["1", "GLASS", "600", "400", "no", "2", "240000"], ["2", "GLASS", "500", "300", "no", "1", "150000"]])
        is_quiet(it)


# (text, what is sent): units of heads and of cells, to the last digit; heads with money in them; counts as spreadsheets write them.
IN_UNITS = (
    ("Länge (cm);Breite (cm);Stück\n79,7;59,7;2\n", "1,GLASS,797.0,597.0,no,2,475809\n"),
    ("length m,width [m],qty\n1.2,0.8,3\n", "1,GLASS,1200.0,800.0,no,3,960000\n"),
    ("Länge in m;Breite in cm;Stück\n1,200;80,05;3\n", "1,GLASS,1200.0,800.5,no,3,960600\n"),
    ("Länge/mm;Breite mm;Stück\n79,7;59,7;2\n", "1,GLASS,79.7,59.7,no,2,4758\n"),
    ("Länge;Breite;Stück\n120 cm;0,6 m;5\n600 mm;400;5\n", "1,GLASS,1200.0,600.0,no,5,720000\n2,GLASS,600,400,no,5,240000\n"),
    ("Länge (cm);Breite (cm);Stück\n600 mm;40;5\n", "1,GLASS,600,400.0,no,5,240000\n"),
    ("Länge (cm);Werkstoff\n1.200,5;STEEL\n", "1,STEEL,12005.0,0.1,no,1,12005\n"),
    ("Länge;Breite m. Rand;Stück\n600;400;5\n", "1,GLASS,600,400,no,5,240000\n"),
    ("Länge;Breite;Stück Preis;Menge\n600;400;12;5\n", "1,GLASS,600,400,no,5,240000\n"),
    ("Länge;Breite;Stückpreis;Anzahl;Preis\n600;400;12;5;12,50\n", "1,GLASS,600,400,no,5,240000\n"),
    ("length,width,Pieces (EUR),Qty. €,amount,sum,cost,qty\n600,400,1,2,3,4,6,5\n", "1,GLASS,600,400,no,5,240000\n"),
    ("Länge;Breite;Betrag;Kosten Stk;Wert;Menge\n600;400;1;2;3;5\n", "1,GLASS,600,400,no,5,240000\n"),
    ("Länge;Breite;Stück\n600;400;3,0\n600;400;8 Stk\n600;400;2 pcs\n", "1,GLASS,600,400,no,3,240000\n2,GLASS,600,400,no,8,240000\n3,GLASS,600,400,no,2,240000\n"),
)


@case(
    "units and money in a spreadsheet's heads at the page",
    "Lengths are taken in the unit that their head or cell names, cm, m or mm, to the last digit; where none is named and none is 100 "
    "or more it is asked once. A head with money in it is no count and no worth. `3,0` and `8 Stk` are counts.",
)
def in_units(trial):
    shown = "[...document.querySelectorAll('#csvPreview tbody tr')].map(row => [...row.cells].map(cell => cell.textContent))"
    answers = "[...document.querySelectorAll('#csvUnit label')]"
    with Terminal(trial, open_shop(trial)) as it:
        it.begin(7)
        it.until("shop.materials.length")
        for text, sent in IN_UNITS:
            trial.equal(it.value(f"{READ}({json.dumps(text)})"), {"fault": "", "text": HEADER + sent, "bad": []}, text)
        bad = it.value(f"{READ}({json.dumps('Länge (cm);Breite (cm);Stück' + chr(10) + '79,755;59,7;1.000' + chr(10))})")["bad"]
        trial.equal(bad, ["2: count “1.000”: write a whole number from 1 to 1\u202f000\u202f000"])
        text = "Länge;Breite;Stück;Preis/Stück;Material\n79,7;59,7;2;12,50;GLASS\n99,9;8;1;9;GLASS\n"
        it.order_file("a-1", "cm.csv", text)
        trial.equal(it.value("document.querySelector('#csvPreview .fault').textContent"), "Say in which unit the lengths are.")
        trial.holds(it.value(f"{by_id('sendCsv')}.disabled"), "lengths without a unit can be ordered")
        trial.equal(it.text("csvLeftOut"), "Left out: “Preis/Stück”, column 4.")
        trial.equal(it.value(f"{answers}.map(e => e.textContent)"), ["99,9 mm", "99,9 cm", "99,9 m"])
        it.at_widths("orders-units")
        it.click(f"{answers}[0]")
        it.until(f"{shown}[0][3] === '79.7← 79,7'")
        it.click(f"{answers}[1]")
        it.until(f"{shown}[0][3] === '797.0← 79,7'")
        it.click(by_id("sendCsv"))
        it.says("Order A-1 from a file: 2 lines ordered, pieces wanted from no. 1 on")
        rows = [[row[key] for key in ("w", "h", "wanted")] for row in it.ask("/demands/0")["demands"]]
        trial.equal(rows, [[7970, 5970, 2], [9990, 800, 1]])
        # (no unit is asked for where one length is 100 or more, nor of the shop's own form)
        for text in ("Länge;Breite\n100;60\n5;6\n", HEADER + "1,GLASS,3.0,4.0,no,1,1\n", "Länge (cm);Werkstoff;Breite\n5;STEEL;0,1\n"):
            trial.equal(it.value(f"{READ}({json.dumps(text)})")["fault"], "", text)
        trial.equal(it.value(f"{READ}('Länge;Breite\\n1.200;60\\n')")["fault"], "Say what “1.200” is.")
        is_quiet(it)


@case(
    "files that no order can be at the page",
    "A cell of 20000 to 80000 spaces, and a head of 80000 brackets, are read in less than a tenth of a second. A first row of 400000 "
    "columns, a file of 80000 rows and one of over 262144 bytes are told at once, the last without being read.",
)
def no_orders(trial):
    fault = "document.querySelector('#csvPreview .fault')?.textContent"
    with Terminal(trial, open_shop(trial)) as it:
        it.begin(7)
        it.until("shop.materials.length && !refresh.running")
        took = "(text => { const begin = performance.now(); readOrderFile(text); return performance.now() - begin; })"
        cells = [f"'Länge;Breite;Stück\\n1' + ' '.repeat({number}) + 'x;400;2\\n'" for number in (20000, 40000, 60000)]
        heads = ["'('.repeat(80000) + ';Länge;Breite\\n1;600;400\\n'", "'[(('.repeat(20000) + ' in'.repeat(20000) + ' '.repeat(20000) + 'x;Länge\\n1;600\\n'"]
        for text in [*cells, "'Länge;Breite;Stück\\n1' + ' '.repeat(80000) + 'x;400;2\\n'", *heads]:
            # (the first of three may wait for others of this machine)
            trial.holds(it.value(f"Math.min(...[1, 2, 3].map(() => {took}({text})))") < 100, f"{text} takes too long")
        wide = "The file has 400\u202f000 columns; at most 64 are read."
        trial.equal(it.value("readOrderFile('a'.concat(';a'.repeat(99999)).slice(0, 199999)).fault"), wide.replace("400", "100"))
        long = "The file is over 262144 bytes long."
        trial.equal(it.value("readOrderFile('a;'.repeat(400000)).fault"), long)
        it.view("orders")
        for name, content, words in (
            ("long.csv", "Länge;Breite\n" + "600;400\n" * 40000, long),
            ("wide.csv", "a;" * 65 + "\n" + "1;" * 65 + "\n", wide.replace("400\u202f000", "65")),
            ("rows.csv", "Länge;Breite\n" + "600;400\n" * 30000, "The file has 30\u202f000 rows; at most 2\u202f000 are ordered at once."),
        ):
            it.value("(window.reads = 0, window.read = Blob.prototype.arrayBuffer, Blob.prototype.arrayBuffer = function () { reads++; return read.call(this); }, 0)")
            it.pick(by_id("csvFile"), trial.write(name, content))
            it.until(f"{fault} === {json.dumps(words)}")
            trial.equal(it.value(f"reads"), 0 if words == long else 1, name)
            it.value("(Blob.prototype.arrayBuffer = read, 0)")
        it.choose(by_id("problemMaterial"), "GLASS")
        it.pick(by_id("problemFile"), trial.write("long.txt", "1 " * 140000))
        it.until(f"document.querySelector('#problemPreview .fault')?.textContent === {json.dumps(long)}")
        is_quiet(it)


@case(
    "lists of the page for a spreadsheet",
    "Each view saves what it is about as CSV, with points and commas or with decimal commas and semicolons, all rows; names "
    "like `1/2` stay texts. Python's csv reads it, LibreOffice where it is there, and the page itself reads it as an order.",
)
def csv_out(trial):
    with Terminal(trial, open_shop(trial)) as it:
        number = iter(range(99))
        send = lambda **keys: exchange(it.shop, "/message", {"number": next(number), "terminal": 8, **keys})
        for batch in ("MAR-1", "1E5"):
            send(do="receive", material="STEEL", batch=batch, w=60005, h=1, count=60)
        send(do="receive", material="GLASS", batch="007", w=12000, h=8000, count=1)
        lines = [{**LINE, "line": place + 1, "w": 1000 + place} for place in range(110)]
        glass = {"line": 111, "material": "GLASS", "w": 4000, "h": 3000, "turn": True, "count": 3, "worth": 5}
        send(do="order", order="1-2", lines=[*lines, glass])
        send(do="reserve", part="1/0", tree="x1000 p1 x1001 p2 r")
        send(do="done", job=4)
        send(do="reserve", part="1/1", tree="x1002 p3 r")
        it.begin(7)
        it.until("shop.materials.length === 2")
        heads = "order line demand material length+mm width+mm turn wanted reserved made left worth".split()
        heads = [head.replace("+", " ") for head in heads]
        bars = [["1-2", n, n, "STEEL", 100.0 + (n - 1) / 10, 0.1, "no", 1, n == 3, 0, n != 3, 1] for n in range(3, 111)]
        sheet = ["1-2", 111, 111, "GLASS", 400, 300, "yes", 3, 0, 0, 3, 5]
        stock_heads = ["part", "kind", "material", "batch", "length mm", "width mm", "state", "job", "cut from unit"]
        unit = ["unit", "STEEL"]
        wanted = {
            "orders": [heads, *bars, sheet],
            "tocut": [heads, sheet],
            "saw": [["job", "material", "part", "length mm", "width mm", "cuts"], [5, "STEEL", "1/1", 6000.5, 0.1, 1]],
            "stock": [
                stock_heads,
                ["3/0", "unit", "GLASS", "007", 1200, 800, "standing", "", "3/0"],
                ["1/1", *unit, "MAR-1", 6000.5, 0.1, "reserved", 5, "1/1"],
                *[[f"1/{n}", *unit, "MAR-1", 6000.5, 0.1, "standing", "", f"1/{n}"] for n in range(2, 60)],
                *[[f"2/{n}", *unit, "1E5", 6000.5, 0.1, "standing", "", f"2/{n}"] for n in range(60)],
                ["4/4", "remnant", "STEEL", "MAR-1", 5795.4, 0.1, "standing", "", "1/0"],
            ],
            "yield": [
                "material,kind,measured in,received,returned,whole units,remnants,pieces,kerf,scrap,used up,"
                "pieces of used up %,pieces of all %".split(","),
                ["GLASS", "sheet", "m²", 0.96, 0, 0.96, 0, 0, 0, 0, 0, "", 0],
                ["STEEL", "bar", "m", 720.06, 0, 714.0595, 5.7954, 0.2001, 0.005, 0, 0.2051, 97.5, 0],
            ],
        }
        paths = {}
        for form in ("comma", "point"):
            for view, rows in wanted.items():
                got, paths[view, form] = saved(it, view, form)
                trial.equal(got, rows, f"{view} {form}")
        day = datetime.date.today().isoformat()
        trial.equal(os.path.basename(paths["orders", "point"]), f"orders-{day}.csv")
        trial.equal(it.value("csvForm()"), "point")
        it.at_widths("csv")
        it.order_file("b-1", "back.csv", open(paths["orders", "comma"], "rb").read())
        it.until(f"{by_id('sendCsv')} && !{by_id('sendCsv')}.disabled")
        it.click(by_id("sendCsv"))
        it.says("Order B-1 from a file: 109 lines ordered, pieces wanted from no. 112 on")
        is_quiet(it)
        in_libreoffice(trial, paths, wanted)


def in_libreoffice(trial, paths, wanted):
    """Where LibreOffice's tables are installed, they show the same cells, as their language reads the files."""
    if not (shutil.which("soffice") and office_file(trial, trial.write("probe.csv", "a,1\n"), "probe", "point")):
        return
    for (view, form), path in paths.items():
        found = office_file(trial, path, f"{view}-{form}", form)
        trial.holds(found, f"{view} {form}: LibreOffice doesn't read the file")
        trial.equal(office_rows(found), wanted[view], f"{view} {form} in LibreOffice")


def office_file(trial, path, name, form):
    """The document that LibreOffice makes of a CSV file. None where it makes none, as where it is installed without tables."""
    mark, language = {"comma": (59, 1031), "point": (44, 1033)}[form]
    out = trial.path(f"office-{name}")
    words = ["soffice", "--headless", f"-env:UserInstallation=file://{trial.path('office')}", "--convert-to", "fods"]
    # (text in UTF-8, from the first row, in this language, numbers told from texts, formulas worked out)
    words.append(f"--infilter=CSV:{mark},34,76,1,,{language},false,true,false,false,false,-1,true")
    subprocess.run([*words, "--outdir", out, path], check=True, capture_output=True, timeout=240)
    found = os.path.join(out, os.path.basename(path).replace(".csv", ".fods"))
    return found if os.path.exists(found) else None


def office_rows(path):
    """The cells of a flat document of LibreOffice: numbers as numbers, texts as texts, else with their kind."""
    office, table = ("{urn:oasis:names:tc:opendocument:xmlns:%s:1.0}" % name for name in ("office", "table"))
    rows = []
    for row in xml.etree.ElementTree.parse(path).iter(f"{table}table-row"):
        cells = []
        for cell in row.iter(f"{table}table-cell"):
            kind, text = cell.get(f"{office}value-type"), "".join(cell.itertext()).strip()
            known = {"float": lambda: float(cell.get(f"{office}value")), "string": lambda: text, None: lambda: ""}
            value = known[kind]() if kind in known else (kind, text)
            cells += [value] * int(cell.get(f"{table}number-columns-repeated", 1))
        rows.append(cells)
    return rows


SHEET = {"line": 1, "material": "GLASS", "w": 1000, "h": 1000, "turn": False, "count": 20, "worth": 5}


# Of the last rectangle of a form in a trace's picture its place and sides.
SIDES_DRAWN = """(form => (e => ['x', 'y', 'width', 'height'].map(name => Number(e.getAttribute(name))))(
  [...document.querySelectorAll(`#tracePicture rect.${form}`)].at(-1)))"""


@case(
    "a part at the page that came of many jobs",
    "A remnant of a remnant of remnants tells each job on the way and its place in the unit, and is drawn there within the parts that "
    "it was cut from; a trace tells what is a piece, kerf, scrap, cut, or reserved. A remnant can be scrapped and not returned.",
)
def many_jobs(trial):
    with Terminal(trial, open_shop(trial)) as it:
        number = iter(range(99))
        send = lambda **keys: exchange(it.shop, "/message", {"number": next(number), "terminal": 8, **keys})
        send(do="receive", material="GLASS", batch="G-1", w=12000, h=8000, count=2)
        send(do="order", order="A-1", lines=[SHEET])
        # (from the left, from the top, and twice from the left 100.0 mm and a kerf of 3.0 mm)
        part = "1/0"
        for job, tree in ((2, "x1000 y1000 p1 r r"), (3, "y1000 x1000 p1 r r"), (4, "x1000 y1000 p1 r r"), (5, "x1000 y1000 p1 r r")):
            trial.equal(send(do="reserve", part=part, tree=tree).get("job"), job)
            trial.equal(send(do="done", job=job).get("ok"), "done")
            part = f"{job}/4"
        trial.equal(send(do="reserve", part="5/4", tree="x1000 y1000 p1 r r").get("job"), 6)
        trial.equal(send(do="scrap", part="1/1").get("ok"), "scrap")
        it.begin(7)
        it.view("stock")
        it.material("stock", "GLASS")
        lay = "It lay in unit 1/0 (1200.0\u00a0×\u00a0800.0\u00a0mm) at {}\u00a0mm from the left, {}\u00a0mm from the top."
        came = ["5/4 came of job 5, which cut 4/4", "4/4 came of job 4, which cut 3/4", "3/4 came of job 3, which cut 2/4"]
        came = "; ".join([*came, "2/4 came of job 2, which cut 1/0"]) + "."
        first, batch = "2/{} came of job 2, which cut 1/0.", "Batch G-1"
        for name, state, fate, rest in (
            ("5/4", "891.0\u00a0×\u00a0697.0\u00a0mm: reserved for job 6.", "kept", [lay.format("309.0", "103.0"), came, batch, "Job 6"]),
            ("2/4", "1097.0\u00a0×\u00a0800.0\u00a0mm: cut by job 3.", "kept", [lay.format("103.0", "0.0"), first.format(4), batch, "Job 3"]),
            ("2/2", "100.0\u00a0×\u00a0100.0\u00a0mm: a piece of order A-1, line 1 (no. 1).", "piece", [lay.format("0.0", "0.0"), first.format(2), batch, "Order A-1"]),
            ("2/0", "3.0\u00a0×\u00a0800.0\u00a0mm: taken by the saw.", "kerf", [lay.format("100.0", "0.0"), first.format(0), batch]),
            ("2/3", "100.0\u00a0×\u00a0697.0\u00a0mm: stands.", "kept", [lay.format("0.0", "103.0"), first.format(3), batch]),
            ("1/1", "1200.0\u00a0×\u00a0800.0\u00a0mm: scrap.", "scrap", ["It is a unit as it was received.", batch]),
        ):
            it.type(by_id("tracePart"), name)
            it.key("Enter")
            it.until(f"{by_id('traceWords')}.firstChild?.textContent.startsWith('{name}, ') && document.querySelector('#tracePicture svg')")
            trial.equal(it.value(f"[...{by_id('traceWords')}.children].map(e => e.textContent)"), [f"{name}, {state}", *rest, "What happened"])
            told = it.ask(f"/trace/{name}")
            unit, drawn = it.value(f"['unit', '{fate}'].map({SIDES_DRAWN})")
            corner = [place - other for place, other in zip(drawn[:2], unit[:2])]
            got = [round(length * 12000 / unit[2]) for length in (*corner, *drawn[2:])]
            trial.equal(got if fate != "kerf" else got[:2], [told[key] for key in ("x", "y", "w", "h")][: 2 if fate == "kerf" else 4], name)
            within = it.value("document.querySelectorAll('#tracePicture rect.within').length")
            trial.equal(within, 3 if name == "5/4" else 0, name)
        buttons = "[...document.querySelectorAll('#stockList .fold > div > .stocked')].map(e => [e.querySelector(':scope > div > div').textContent, "
        buttons += "...[...e.querySelectorAll(':scope > .buttons > button')].map(b => b.textContent)])"
        rest, busy = ["remnant, standing", "Trace", "Scrap"], ["remnant, reserved, job 6", "Trace"]
        # (4/3 and 5/3 have the same sides)
        trial.equal(sorted(it.value(buttons)), sorted([busy, rest, rest, ["2 remnants, standing", "Scrap"]]))
        is_quiet(it)


@case(
    "a report at the page of over a hundred parts",
    "The report of a material has all parts that stand, behind the first hundred too, each as a unit or a remnant, standing or with "
    "its job, and the share of pieces of all that came and wasn't returned.",
)
def long_report(trial):
    with Terminal(trial, open_shop(trial)) as it:
        number = iter(range(99))
        send = lambda **keys: exchange(it.shop, "/message", {"number": next(number), "terminal": 8, **keys})
        for batch, w, count in (("S-1", 20000, 100), ("S-2", 20000, 3), ("S-3", 200000, 3)):
            send(do="receive", material="STEEL", batch=batch, w=w, h=1, count=count)
        send(do="order", order="A-1", lines=[{**LINE, "count": 9}])
        trial.equal(send(do="reserve", part="2/0", tree="x10000 p1 r").get("job"), 4)
        send(do="done", job=4)
        trial.equal(send(do="reserve", part="2/1", tree="x10000 p1 r").get("job"), 5)
        for place in range(3):
            trial.equal(send(do="return", part=f"3/{place}").get("ok"), "return")
        it.begin(7)
        it.view("yield")
        it.click("document.querySelector('#yieldBars [data-key=ySTEEL]')")
        it.until("document.querySelectorAll('#report table').length === 2")
        trial.equal(it.value("document.querySelector('#report h3').textContent"), "103 parts standing or reserved")
        rows = it.value("[...document.querySelectorAll('#report table')[1].tBodies[0].rows].map(row => [...row.cells].map(cell => cell.textContent))")
        unit = lambda name, state: [name, "2000.0\u00a0mm", "unit", state]
        wanted = [*[unit(f"1/{n}", "standing") for n in range(100)], unit("2/1", "reserved, job 5"), unit("2/2", "standing")]
        trial.equal(rows, [*wanted, ["4/2", "997.5\u00a0mm", "remnant", "standing"]])
        # (1 m of 206 m, as 60 m of 266 m were returned)
        heads = "Object.fromEntries([...document.querySelectorAll('#report table')[0].rows].map(row => [row.cells[0].textContent, "
        heads += "[row.cells[1].textContent, row.cells[2].textContent]]))"
        told = it.value(heads)
        trial.equal(told["received"], ["266.000\u00a0m", ""])
        trial.equal(told["returned"], ["60.000\u00a0m", ""])
        trial.equal(told["pieces"], ["1.000\u00a0m", "0.4\u00a0%"])
        trial.equal(told["yield: pieces of all that came and wasn't returned"], ["", "0.4\u00a0%"])
        is_quiet(it)


LINES_TYPED = "[...document.querySelectorAll('#orderLines .orderline')]"


def type_line(it, place, material, turn=False, **texts):
    """Types a line of the order by hand."""
    field = f"{LINES_TYPED}[{place}].querySelector('[data-field={{}}]')"
    it.choose(field.format("material"), material)
    for name, text in texts.items():
        it.type(field.format(name), text)
    if turn:
        it.click(field.format("turn"))


@case(
    "lines of an order by hand",
    "Lines are typed, one is removed, and what stands there is ordered, may turn where that is ticked; a bar has no width and can't "
    "turn. Then the form is empty. No 201st line can be typed.",
)
def lines_by_hand(trial):
    with Terminal(trial, open_shop(trial)) as it:
        it.begin(7)
        it.view("orders")
        it.until(f"{LINES_TYPED}.length === 1")
        it.type(by_id("orderCode"), "HALL-2026-000117")
        type_line(it, 0, "GLASS", turn=True, length="600", width="450,5", count="2")
        it.click(by_id("addLine"))
        type_line(it, 1, "GLASS", length="7", width="8", count="9")
        it.click(by_id("addLine"))
        type_line(it, 2, "STEEL", length="1200.5", count="3", worth="77")
        disabled = f"{LINES_TYPED}.map(line => ['width', 'turn'].map(name => line.querySelector(`[data-field=${{name}}]`).disabled))"
        trial.equal(it.value(disabled), [[False, False], [False, False], [True, True]])
        it.click(f"{LINES_TYPED}[1].querySelector('button')")
        it.until(f"{LINES_TYPED}.length === 2")
        trial.equal(it.value(f"{LINES_TYPED}.map(line => line.getAttribute('aria-label'))"), ["Line 1", "Line 2"])
        it.click("document.querySelector('#orderForm .act')")
        it.says("Order HALL-2026-000117: 2 lines ordered, pieces wanted from no. 1 on")
        keys = ("line", "material", "w", "h", "turn", "wanted", "worth")
        rows = [[row[key] for key in keys] for row in it.ask("/order/HALL-2026-000117")["lines"]]
        trial.equal(rows, [[1, "GLASS", 6000, 4505, True, 2, 270300], [2, "STEEL", 12005, 1, False, 3, 77]])
        it.until(f"{LINES_TYPED}.length === 1 && !{by_id('orderCode')}.value")
        empty = f"{LINES_TYPED}.flatMap(line => [...line.querySelectorAll('input')].map(e => e.type === 'checkbox' ? e.checked : e.value))"
        trial.equal(it.value(empty), ["", "", False, "", ""])
        it.value(f"void Array.from({{length: 198}}, addOrderLine)")
        it.click(by_id("addLine"))
        trial.equal((it.value(f"{LINES_TYPED}.length"), it.value(f"{by_id('orderFault')}.hidden")), (200, True))
        it.click(by_id("addLine"))
        it.until(f"{by_id('orderFault')}.textContent === 'An order has at most 200 lines.'")
        trial.equal(it.value(f"{LINES_TYPED}.length"), 200)
        is_quiet(it)


@case(
    "limits of files at the page",
    "200 rows are shown, all of them, and are one order, 201 are two; a file in UTF-16 is read; what stands in a file is text and no "
    "markup. Of a problem file its unit and pieces are shown, at most 200 are taken, and 65536 bytes.",
)
def files_at_limits(trial):
    rows = lambda number: HEADER + "".join(f"{line},STEEL,1200.5,0.1,no,1,1\n" for line in range(1, number + 1))
    shown = "[...document.querySelectorAll('#csvPreview tbody tr')].map(row => [...row.cells].map(cell => cell.textContent))"
    with Terminal(trial, open_shop(trial)) as it:
        it.begin(7)
        it.until("shop.materials.length")
        it.order_file("a-1", "many.csv", rows(201))
        trial.equal((it.text("sendCsv"), it.value(f"{by_id('sendCsv')}.disabled")), ("Order 201 lines as 2 orders", False))
        it.order_file("a-1", "most.csv", rows(200))
        it.until(f"{by_id('sendCsv')}.textContent === 'Order 200 lines'")
        trial.equal(it.value(f"({shown}).map(row => row[1])"), [str(line) for line in range(1, 201)])
        head = "<img src=x>"
        text = f"w;Länge;drehbar;Stück;{head};Sorte\r\n300;400,5;x;2;<b>1</b>;GLASS\r\n"
        it.order_file("a-2", "utf16.csv", text.encode("utf-16"))
        it.until(f"{shown}.length === 1")
        trial.equal(it.value(shown), [["2", "1", "GLASS", "400.5← 400,5", "300", "yes← x", "2", "120150"]])
        trial.equal(it.text("csvLeftOut"), f"Left out: “{head}”, column 5.")
        trial.equal(it.value("document.querySelectorAll('#csvPreview :is(img, b)').length"), 0)
        heads = "document.querySelector('#csvPreview .check input')"
        trial.equal(it.value(f"{heads}.checked"), False)
        it.click(heads)
        it.until(f"{shown}.length > 1")
        trial.equal(it.value(f"{heads}.checked"), True)
        it.choose(by_id("problemMaterial"), "GLASS")
        it.pick(by_id("problemFile"), trial.write("sheet.txt", "2\n6000 4000\n1500 1000 4 150\n700 800 9 60\n"))
        it.until(by_id("sendProblem"))
        lines = "[...document.querySelectorAll('#problemPreview :is(p, li)')].map(e => e.textContent)"
        pieces = ["4 of 150.0\u00a0×\u00a0100.0\u00a0mm, price for the planner 150", "9 of 70.0\u00a0×\u00a080.0\u00a0mm, price for the planner 60"]
        trial.equal(it.value(lines), ["A unit of 600.0\u00a0×\u00a0400.0\u00a0mm and 2 lines:", *pieces])
        judged = lambda number: it.value(f"problemFault({json.dumps(f'{number} 6000 4000' + ' 10 10 1 1' * number)})")
        trial.equal((judged(200), judged(201)), ("", "Number 1 of the file is 201; 1 to 200 is wanted."))
        long = lambda size: it.value(f"problemFault({json.dumps('1 6000 4000 10 10 1 1'.ljust(size))})")
        trial.equal((long(65536), long(65537)), ("", "The file is over 65536 bytes long."))
        trial.equal(it.ask("/terminal/7")["last"], 0)
        is_quiet(it)


# By language: the fields of a receipt; the buttons of the stock, of the saw, and of the saw's dialog; how two cuts of a sheet and
# the state of an order read.
SAID = {
    "en": (
        ("Batch (A–Z, 0–9, -)", "Length in mm", "Width in mm", "Units"),
        ("Receive", "Scrap", "Return"),
        ("Give back", "Broken off…", "Done"),
        ("Saw across at 400.0 mm from the left", "Saw along at 300.0 mm from the top"),
        "1 made · 2 reserved · 3 left of 6",
    ),
    "de-DE": (
        ("Charge (A–Z, 0–9, -)", "Länge in mm", "Breite in mm", "Stück"),
        ("Eingang", "Verschrotten", "Zurückgeben"),
        ("Auflösen", "Abbruch…", "Erledigt"),
        ("Quer sägen bei 400,0 mm von links", "Längs sägen bei 300,0 mm von oben"),
        "1 fertig · 2 reserviert · 3 offen von 6",
    ),
}


def by_words(it, language):
    """What is found by its words in a language does what they say."""
    fields, (receive, scrap, give_back), (release, broken, done), cuts, sums = SAID[language]
    shop = it.shop
    number = iter(range(1, 99))
    send = lambda **keys: exchange(shop, "/message", {**keys, "number": next(number), "terminal": 8})
    labelled = "[...document.querySelectorAll('#receiveForm label')].find(e => e.firstChild.data === {}).querySelector('input')"
    button = "[...document.querySelectorAll('{} button')].find(e => e.checkVisibility() && e.textContent === {})"
    it.begin(7)
    it.view("stock")
    it.choose(by_id("receiveMaterial"), "GLASS")
    for name, text in zip(fields, ("G-1", "1200", "800", "3")):
        it.type(labelled.format(json.dumps(name)), text)
    it.click(button.format("#receiveForm", json.dumps(receive)))
    it.until("shop.parts.length === 3")
    for place, words, state in ((0, scrap, "scrap"), (1, give_back, "returned")):
        part = it.ask(f"/trace/1/{place}")
        it.trial.equal([part[key] for key in ("batch", "w", "h", "state")], ["G-1", 12000, 8000, "standing"])
        it.material("stock", "GLASS")
        it.click(button.format("#stockList .fold > div > .stocked > .buttons", json.dumps(words)))
        it.confirm()
        it.until(f"shop.parts.length === {2 - place}")
        it.trial.equal(it.ask(f"/trace/1/{place}")["state"], state)
    send(do="order", order="A-1", lines=[{**SHEET, "w": 4000, "h": 3000, "count": 6}])
    it.view("saw")
    for words, state in ((release, "released"), (done, "done")):
        job = send(do="reserve", part="1/2", tree="x4000 y3000 p1 r r")["job"]
        it.until(f"document.querySelector('#jobList [data-key=j{job}]')")
        it.click(f"document.querySelector('#jobList [data-key=j{job}]')")
        it.until(f"atSaw.told.job === {job}")
        for place, told in enumerate(cuts):
            it.trial.holds(it.value(f"document.querySelectorAll('#cutList .cut')[{place}].textContent").startswith(f"{place + 1}{told}"), told)
        it.click(button.format("#jobButtons", json.dumps(broken)))
        it.until(f"!{by_id('breakPanel')}.hidden")
        it.click(by_id("stopBreak"))
        it.click(button.format("#jobButtons", json.dumps(words)))
        if state == "released":
            it.confirm()
        it.until(f"atSaw.told.job === {job} && atSaw.told.state === '{state}'")
        it.trial.equal(it.ask(f"/job/{job}")["state"], state)
    rest = next(row for row in it.ask("/parts/GLASS")["parts"] if row["w"] > 7000)
    it.trial.holds("ok" in send(do="reserve", part=rest["part"], tree="y3000 x4000 p1 r y3000 x4000 p1 r r"), "not reserved")
    it.view("orders")
    it.until(f"{by_id('orderList')}.querySelector('.ordered > p')?.textContent === {json.dumps(sums)}")
    is_quiet(it)


@case(
    "buttons of the page that do what they say",
    "Found by their words, the fields of a receipt take what they name, and *Scrap*, *Return*, *Give back*, *Broken off…* and *Done* do "
    "that; cuts across and along, and what is made, reserved and left, are told as they are.",
)
def as_they_say(trial):
    with Terminal(trial, open_shop(trial)) as it:
        by_words(it, "en")


@case(
    "buttons of the page in German that do what they say",
    "In a German browser, found by their German words, fields and buttons do the same.",
)
def as_they_say_in_german(trial):
    with Terminal(trial, open_shop(trial), "de-DE") as it:
        by_words(it, "de-DE")
