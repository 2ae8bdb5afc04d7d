"""Orders from files as offices have them, at the terminal's page in a real browser where one is installed."""

import base64
import json

from browser.terminal import Terminal, by_id, exchange, open_shop
from kit import sheets
from kit.case import Skipped, case
from kit.page import is_german, is_quiet
from kit.page_answers import answering
from kit.page_plans import is_slow

# Of a file's name, its bytes and what was said of it: what is asked first, and then what is ordered.
IMPORT = """(([name, bytes, said]) => {
  const text = textOf(Uint8Array.from(atob(bytes), letter => letter.charCodeAt(0))), first = readOrderFile(text);
  const file = readOrderFile(text, said), left = file.left.map(({at, why}) => [at, why]), {fault, sums, bad} = file;
  const messages = importsOf(file, codeOfName(name, file.texts.length));
  return {asked: first.fault, fault, bad: bad.map(({at, faults}) => [at, faults]), left, sums, messages};
})"""

SHOWN = "[...document.querySelectorAll('#csvPreview tbody tr')].map(row => [...row.cells].map(cell => cell.textContent))"
LEFT = "[...document.querySelectorAll('#csvRowsLeft li')].map(e => e.textContent)"
FAULTS = "[...document.querySelectorAll('#csvPreview > .fault')].map(e => e.textContent)"
CODES = "[...document.querySelectorAll('#fileCodes p')].map(e => e.textContent)"
# The fields of a row of the preview, behind its line of the file.
FIELDS_SHOWN = ("line", "material", "length", "width", "turn", "count", "worth")
CELL = "document.querySelector('#csvPreview input[data-key={}]')"


def cell(at, name):
    """The field of a bad cell."""
    return CELL.format(json.dumps(f"csv {at} {name}"))


def picked(it, name, content):
    """Picks a file; its code is the one that its name gives."""
    it.pick(by_id("csvFile"), it.trial.write(name, content))
    it.until(f"{by_id('csvPreview')}.querySelector('table')")


def ordered(it, code):
    """What the shop has of an order's lines."""
    return [[row[key] for key in ("line", "material", "w", "h", "wanted")] for row in it.ask(f"/order/{code}")["lines"]]


def begun(it):
    """The page on the view of orders, with the shop's materials read."""
    it.begin(7)
    it.view("orders")
    it.until("shop.materials.length")


@case(
    "order files as offices have them",
    "Files of Excel in German and English, of LibreOffice, in UTF-16 and Windows-1252, with `sep=`, titles, sums, merged heads, units, "
    "sizes of two sides, quotes, 300 lines and unknown materials: each asks what it has to, and is ordered by exactly these messages, "
    "which the shop accepts. One in the shop's own form goes byte for byte.",
)
def as_offices(trial):
    with Terminal(trial, open_shop(trial)) as it:
        it.begin(7)
        it.until("shop.materials.length")
        number, most_lines = 0, 50 if is_slow(it.shop) else 200
        for sheet in sheets.SHEETS:
            given = [sheet.name, base64.b64encode(sheet.content).decode(), sheet.said]
            wanted = {"asked": sheet.asked, "fault": "", "bad": [], "left": sheet.left, "sums": sheet.sums, "messages": sheet.messages()}
            trial.equal(it.value(f"{IMPORT}({json.dumps(given)})"), wanted, sheet.name)
            for message in sheet.messages():
                # (a program that was built without proofs takes minutes for 200 lines)
                if message["text"].count("\n") > most_lines + 1:
                    continue
                number += 1
                reply = exchange(it.shop, "/message", {**message, "number": number, "terminal": 8})
                trial.equal(reply.get("ok"), "import", f"{sheet.name}: {reply}")
        is_quiet(it)


@case(
    "a file with titles and sums at the page",
    "Rows above the heads are titles: they, heads that come again and sums are left out and shown, and a sum that isn't the pieces' is "
    "told. The file can be ordered.",
)
def titles(trial):
    text = sheets.TITLED.replace("Summe;;;;6", "Pos.;Werkstoff;Länge;Breite;Stück\r\n3;STEEL;700;;1\r\nSumme;;;;8")
    with Terminal(trial, open_shop(trial)) as it:
        begun(it)
        picked(it, "Huber 4711.csv", text.encode("cp1252"))
        trial.equal(
            it.value(LEFT),
            [
                "line 1, title: “Zuschnittliste Küche Huber”",
                "line 2, title: “Auftrag 4711, Liefertermin 12.11.2026”",
                "line 8, heads again: “Pos. · Werkstoff · Länge · Breite · Stück”",
                "line 10, sum: “Summe · 8”",
            ],
        )
        trial.equal(it.value(FAULTS), ["Line 10 of the file says 8 pieces, and the lines above it have 7."])
        trial.equal([row[:2] for row in it.value(SHOWN)], [["5", "1"], ["6", "2"], ["9", "3"]])
        it.at_widths("orders-titles")
        it.click(by_id("sendCsv"))
        it.says("Order HUBER-4711 from a file: 3 lines ordered, pieces wanted from no. 1 on")
        trial.equal(ordered(it, "HUBER-4711"), [[1, "GLASS", 6000, 4000, 2], [2, "GLASS", 5000, 3000, 4], [3, "STEEL", 7000, 1, 1]])
        is_quiet(it)


@case(
    "a sum in a file at the page",
    "A row that begins with Summe, Gesamt or Total, and one with a count alone, stops no file: it is left out, as it is no line.",
)
def sums(trial):
    with Terminal(trial, open_shop(trial)) as it:
        begun(it)
        named = "Bezeichnung;Länge;Stück;Material\nTür;1200;3;STEEL\nFach;600;2;STEEL\n"
        rows = [named + row for row in ("Summe;;5", "Gesamt:;;5", "Total pieces;;5", ";;5", "Summe;3600 mm;5", "Gesamtsumme;;")]
        # (the word stands where the material does)
        rows.append("Material;Länge;Stück\nSTEEL;1200;3\nSTEEL;600;2\nSumme;;5")
        for number, text in enumerate(rows):
            picked(it, f"s-{number}.csv", f"{text}\n")
            it.until(f"{SHOWN}.length === 2 && {by_id('fileCode')}.value === 'S-{number}'")
            trial.equal((it.value(f"{LEFT}.length"), it.value(FAULTS)), (1, []), text)
            it.click(by_id("sendCsv"))
            it.says(f"Order S-{number} from a file: 2 lines ordered")
        is_quiet(it)


@case(
    "positions of a file at the page that don't rise",
    "Positions like 1.1, or 1 twice, are shown beside the lines 1, 2, 3; whole numbers that rise stay.",
)
def positions(trial):
    with Terminal(trial, open_shop(trial)) as it:
        begun(it)
        for name, places, shown in (
            ("a", ("1.1", "1.2", "2"), ["1← 1.1", "2← 1.2", "3← 2"]),
            ("b", ("1", "1", "2"), ["1", "2← 1", "3← 2"]),
            ("c", ("A", "", "7"), ["1← A", "2← empty", "3← 7"]),
            ("d", ("2", "5", "9"), ["2", "5", "9"]),
        ):
            picked(it, f"{name}.csv", "Pos;Länge;Menge;Material\n" + "".join(f"{place};600;1;STEEL\n" for place in places))
            it.until(f"{SHOWN}.length === 3 && {by_id('fileCode')}.value === '{name.upper()}'")
            trial.equal([row[1] for row in it.value(SHOWN)], shown)
            it.click(by_id("sendCsv"))
            it.says(f"Order {name.upper()} from a file: 3 lines ordered")
            lines = [int(text.split("←")[0]) for text in shown]
            trial.equal([row[0] for row in ordered(it, name.upper())], lines)
        is_quiet(it)


@case(
    "two sides in one cell of a file at the page",
    "`797 x 597` in a column of sizes, or in one of lengths, is two sides, in the unit of its head or of the cell; a column of sizes may "
    "have bars, too. Where another width stands beside them the cell is bad.",
)
def two_sides(trial):
    with Terminal(trial, open_shop(trial)) as it:
        begun(it)
        text = "Maße;Stück;Material\n797 x 597;3;GLASS\n79,7×59,7 cm;2;GLASS\n0,8 m * 300 mm;1;GLASS\n1200;4;STEEL\n"
        picked(it, "sizes.csv", text)
        it.click(by_id("sendCsv"))
        it.says("Order SIZES from a file: 4 lines ordered")
        sides = [[7970, 5970], [7970, 5970], [8000, 3000], [12000, 1]]
        trial.equal([row[2:4] for row in ordered(it, "SIZES")], sides)
        picked(it, "lengths.csv", "Länge (cm),Stück,Material\n79.7x59.7,3,GLASS\n")
        it.until(f"{by_id('fileCode')}.value === 'LENGTHS'")
        it.click(by_id("sendCsv"))
        it.says("Order LENGTHS from a file: 1 line ordered")
        trial.equal(ordered(it, "LENGTHS"), [[1, "GLASS", 7970, 5970, 3]])
        # (the same width beside it is none more; another one is a fault, and never the one that is ordered)
        picked(it, "both.csv", "Länge;Breite;Stück;Material\n797 x 597;597,0;3;GLASS\n797 x 597;397;3;GLASS\n")
        it.until(f"{by_id('fileCode')}.value === 'BOTH'")
        trial.equal(it.value("[...csvPreview.querySelectorAll('.badfield input')].map(e => e.value)"), ["797 x 597"])
        it.type("csvPreview.querySelector('.badfield input')", "797")
        it.key("Enter")
        it.until(f"!{by_id('sendCsv')}.disabled")
        it.click(by_id("sendCsv"))
        it.says("Order BOTH from a file: 2 lines ordered")
        trial.equal([row[2:4] for row in ordered(it, "BOTH")], [[7970, 5970], [7970, 3970]])
        is_quiet(it)


@case(
    "a file of 300 lines at the page",
    "It becomes two orders of 200 and 100 lines, in the file's order, in three clicks from another view; a code that leaves no room for "
    "their numbers is told. One that is refused is told by its name, and its lines come back.",
)
def three_hundred(trial):
    with Terminal(trial, open_shop(trial)) as it:
        if is_slow(it.shop):
            raise Skipped("the program is built without a proof, and too slow for orders of 200 lines")
        it.begin(7)
        it.until("shop.materials.length")
        before = it.clicks
        it.view("orders")
        picked(it, "Huber.csv", sheets.BARS_300.encode("cp1252"))
        it.until(f"JSON.stringify({CODES}) === JSON.stringify(['Orders HUBER-1 to HUBER-2, of at most 200 lines.'])")
        trial.equal((it.value(f"{SHOWN}.length"), it.text("sendCsv")), (300, "Order 300 lines as 2 orders"))
        it.at_widths("orders-300")
        it.click(by_id("sendCsv"))
        it.says("Order HUBER from a file: 2 of 2 done")
        trial.holds(it.clicks - before <= 3, f"{it.clicks - before} clicks")
        wanted = [[it, "STEEL", 6005 + 10 * it, 1, it % 9 + 1] for it in range(1, 301)]
        trial.equal((ordered(it, "HUBER-1"), ordered(it, "HUBER-2")), (wanted[:200], wanted[200:]))
        it.until(f"!{by_id('csvPreview')}.firstChild && !{by_id('fileCode')}.value && {CODES}.length === 0")
        it.order_file("A-CODE-OF-15-LE", "more.csv", sheets.BARS_300.encode("cp1252"))
        it.click(by_id("sendCsv"))
        it.until(f"{by_id('fileCode')}.getAttribute('aria-invalid')")
        fault = "code “A-CODE-OF-15-LE-2” has 17 characters: write at most 16"
        trial.equal(it.value("document.querySelector('#fileCodes').previousElementSibling.textContent"), fault)
        it.type(by_id("fileCode"), "K-1")
        exchange(it.shop, "/message", {"do": "import", "form": "csv", "number": 1, "order": "K-1-2", "terminal": 8, "text": sheets.HEADER + "1,STEEL,9,0.1,no,1,1\n"})
        it.click(by_id("sendCsv"))
        it.says("Refused: Order K-1 from a file: 1 of 2 done; 1 refused (K-1-2): an order with this code is there already")
        it.until(f"{SHOWN}.length === 100 && {by_id('fileCode')}.value === 'K-1'")
        trial.equal(it.value(f"{SHOWN}[0]")[:2], ["202", "201"])
        trial.equal(it.ask("/terminal/7")["last"], 3)
        is_quiet(it)


@case(
    "materials of a file at the page that the shop doesn't know",
    "What a text means is asked once for all of its lines, and kept for the next file, over a reload too; it can be changed. A file "
    "without a column of materials asks for one, and takes none by itself.",
)
def materials(trial):
    text = "Material;Länge;Breite;Stück\nFloat 4;600;400;1\nfloat 4;500;400;2\nFlachstahl;700;;2\nSTEEL;800;;1\n"
    select = "document.querySelector('#csvMaterials [data-column={}]')"
    float_4, flat = (select.format(json.dumps(f"material {it}")) for it in ("FLOAT 4", "FLACHSTAHL"))
    labels = "[...document.querySelectorAll('#csvMaterials label')].map(e => e.firstChild.textContent)"
    with Terminal(trial, open_shop(trial)) as it:
        begun(it)
        picked(it, "m-1.csv", text)
        trial.equal(it.value(labels), ["“Float 4” (2 lines)", "“Flachstahl” (1 line)"])
        trial.equal((it.value(FAULTS), it.value(f"{by_id('sendCsv')}.disabled")), ([sheets.MATERIALS], True))
        it.at_widths("orders-materials")
        it.choose(float_4, "GLASS")
        it.choose(flat, "GLASS")
        it.until(f"{FAULTS}[0].startsWith('Line 4 of the file can')")
        it.choose(flat, "STEEL")
        it.until(f"!{by_id('sendCsv')}.disabled")
        it.click(by_id("sendCsv"))
        it.says("Order M-1 from a file: 4 lines ordered")
        trial.equal([row[1] for row in ordered(it, "M-1")], ["GLASS", "GLASS", "STEEL", "STEEL"])
        for name in ("m-2", "m-3"):
            picked(it, f"{name}.csv", text)
            it.until(f"!{by_id('sendCsv')}.disabled && {by_id('fileCode')}.value === '{name.upper()}'")
            trial.equal(it.value(f"[{float_4}.value, {flat}.value]"), ["GLASS", "STEEL"])
            it.click(by_id("sendCsv"))
            it.says(f"Order {name.upper()} from a file: 4 lines ordered")
            it.go(it.address + "#orders")
            it.until("shop.materials.length")
        picked(it, "m-4.csv", "Länge;Stück\n600;2\n")
        trial.equal((it.value(labels), it.value(FAULTS)), (["all lines"], [sheets.MATERIAL]))
        it.choose(select.format(json.dumps("material ")), "STEEL")
        it.until(f"!{by_id('sendCsv')}.disabled")
        it.click(by_id("sendCsv"))
        it.says("Order M-4 from a file: 1 line ordered")
        is_quiet(it)


@case(
    "bad cells of a file that are mended at the page",
    "A bad cell is a field, told with its fault; what is typed is read as the file's own cells are. A mended one can be changed again, and "
    "a row that is no line left out. Then the file is ordered.",
)
def mended(trial):
    text = "Länge (cm);Breite (cm);Stück;Material\n79,7;x;2;GLASS\nBitte bis Freitag;;;GLASS\n60;40;viele;GLASS\n50;30;1;GLASS\n"
    with Terminal(trial, open_shop(trial)) as it:
        begun(it)
        picked(it, "mend.csv", text)
        wanted = "Lines 2, 3, 4 of the file can't be ordered: mend what is marked, or leave it out."
        trial.equal((it.value(FAULTS), it.value(f"{by_id('sendCsv')}.disabled")), ([wanted], True))
        fault = "width “x”: write millimetres with at most one decimal, like 1250.5"
        described = f"document.getElementById({cell(2, 'width')}.getAttribute('aria-describedby')).querySelector('.fault').textContent"
        trial.equal(it.value(described), fault)
        it.at_widths("orders-mend")
        it.type(cell(2, "width"), "59,7")
        it.key("Tab")
        it.until(f"{SHOWN}[0][4] === '597.0 ← '")
        it.type(cell(2, "width"), "0,6 m")
        it.key("Enter")
        it.until(f"{SHOWN}[0][4] === '600.0 ← '")
        it.click("document.querySelector('#csvPreview [aria-label=\"Leave out line 3 of the file\"]')")
        it.until(f"{LEFT}.length === 1")
        trial.equal(it.value(LEFT), ["line 3, left out by hand: “Bitte bis Freitag · GLASS”"])
        it.type(cell(4, "count"), "3 Stk")
        it.key("Tab")
        it.until(f"!{by_id('sendCsv')}.disabled")
        # (typed over, and sent by the next click: as it is shown then)
        it.type(cell(4, "count"), "5")
        it.click(by_id("sendCsv"))
        it.says("Order MEND from a file: 3 lines ordered")
        trial.equal(ordered(it, "MEND"), [[1, "GLASS", 7970, 6000, 2], [2, "GLASS", 6000, 4000, 5], [3, "GLASS", 5000, 3000, 1]])
        it.until(f"!{by_id('csvPreview')}.firstChild")
        is_quiet(it)


@case(
    "lengths of a file at the page that are finer than a tenth",
    "It is asked once whether they are rounded, and they are rounded by their digits alone, also where a float would be another.",
)
def rounded(trial):
    answer = "document.querySelector('#csvRound label')"
    with Terminal(trial, open_shop(trial)) as it:
        begun(it)
        text = "Länge (cm);Breite (cm);Stück;Material\n79,755;100,005;2;GLASS\n100,00499999999999999;59,7;1;GLASS\n60;40,0;1;GLASS\n"
        picked(it, "fine.csv", text)
        trial.equal((it.value(FAULTS), it.value(f"{by_id('sendCsv')}.disabled")), ([sheets.ROUNDED], True))
        legend = "Line 2 of the file has “79,755”, and 2 more are like it, finer than a tenth of a millimetre"
        trial.equal(it.value("document.querySelector('#csvRound legend').textContent"), legend)
        trial.equal(it.value(f"{answer}.textContent"), "round: 797.6 mm")
        it.click(answer)
        it.until(f"!{by_id('sendCsv')}.disabled")
        it.click(by_id("sendCsv"))
        it.says("Order FINE from a file: 3 lines ordered")
        trial.equal([row[2:4] for row in ordered(it, "FINE")], [[7976, 10001], [10000, 5970], [6000, 4000]])
        is_quiet(it)


@case(
    "the code of a file's name at the page",
    "The code is taken from the file's name, with AE for Ä, and follows the next file unless a person wrote one. An order that is there is "
    "told before, as the code is typed, too.",
)
def codes(trial):
    text = "Länge;Stück;Material\n600;2;STEEL\n"
    there = "There already: {}. The same file does nothing again; another one is refused."
    value = f"{by_id('fileCode')}.value"
    with Terminal(trial, open_shop(trial)) as it:
        begun(it)
        for name, code in (
            ("Küche 12.csv", "KUECHE-12"),
            ("große Straße (2).final.csv", "GROSSE-STRASSE-2"),
            ("čššř.csv", "CSSR"),
            ("<img src=x onerror=alert(1)>.csv", "IMG-SRC-X-ONERRO"),
            ("日本.csv", ""),
            ("a-1.csv", "A-1"),
        ):
            picked(it, name, text)
            it.until(f"{value} === {json.dumps(code)}")
        it.click(by_id("sendCsv"))
        it.says("Order A-1 from a file: 1 line ordered, pieces wanted from no. 1 on")
        trial.equal(it.value(CODES), [])
        picked(it, "a-1.csv", text)
        it.until(f"JSON.stringify({CODES}) === {json.dumps(json.dumps([there.format('A-1')]))}")
        it.at_widths("orders-there")
        it.type(by_id("fileCode"), "a-2")
        it.until(f"{CODES}.length === 0")
        picked(it, "a-1.csv", text)
        trial.equal((it.value(value), it.value(CODES)), ("a-2", []))
        it.type(by_id("fileCode"), "a-1")
        it.until(f"{CODES}.length === 1")
        it.type(by_id("fileCode"), "A_1")
        it.click(by_id("sendCsv"))
        it.until(f"{by_id('fileCode')}.getAttribute('aria-invalid')")
        trial.equal(it.value("document.querySelector('#fileCodes').previousElementSibling.textContent"), "code “A_1” has “_”: write A–Z, 0–9 and - alone")
        it.type(by_id("fileCode"), "A-3")
        it.click(by_id("sendCsv"))
        it.says("Order A-3 from a file: 1 line ordered, pieces wanted from no. 2 on")
        is_quiet(it)


@case(
    "bad files at the page",
    "1 MiB of quotes, 100000 rows and 2001 lines are told at once as too large; 262144 quotes, a row of 100000 fields and 2000 lines are "
    "judged in two seconds. A cell of 10 KB, one of 40 digits and one with markup are text, shortened, and told as bad.",
)
def bad_files(trial):
    fault = "document.querySelector('#csvPreview .fault')?.textContent"
    took = "(text => { const begin = performance.now(); readOrderFile(text); return performance.now() - begin; })"
    with Terminal(trial, open_shop(trial)) as it:
        begun(it)
        it.until("!refresh.running")
        long = "The file is over 262144 bytes long."
        for name, content, words in (
            ("quotes.csv", '"' * (1 << 20), long),
            ("rows.csv", "Länge;Stück\n" + "600;1\n" * 100000, long),
            ("short.csv", "L;B\n" + "1\n" * 100000, "The file has 100\u202f000 rows; at most 2\u202f000 are ordered at once."),
            ("2001.csv", "L;B\n" + "600;1\n" * 2001, "The file has 2\u202f001 rows; at most 2\u202f000 are ordered at once."),
        ):
            it.pick(by_id("csvFile"), trial.write(name, content))
            it.until(f"{fault} === {json.dumps(words)}")
        for text in ("'\"'.repeat(262144)", "'\";'.repeat(131072)", "'L;B;Menge;Material\\n' + '600;400;1;GLASS\\n'.repeat(2000)", "'L;B\\n' + ';'.repeat(100000)"):
            # (the first of three may wait for others of this machine)
            trial.holds(it.value(f"Math.min(...[1, 2, 3].map(() => {took}({text})))") < 2000, f"{text} takes too long")
        cells = (sheets.MARKUP, "x" * 10000, sheets.DIGITS)
        text = "Länge;Breite;Stück;Material\n" + "".join(f"{it};400;{it};GLASS\n" for it in cells)
        picked(it, "bad.csv", text)
        shown = [f"“{sheets.MARKUP}”", "“" + "x" * 59 + "…”", f"“{sheets.DIGITS}”"]
        number = "write a whole number from 1 to 1\u202f000\u202f000"
        wanted = [
            "length " + (f"{sheets.DIGITS} mm: write 0.1 to 20000.0 mm" if it == 2 else f"{shown[it]}: write millimetres with at most one decimal, like 1250.5")
            + f"count {shown[it]}: {number}Leave out"
            for it in range(3)
        ]
        trial.equal([row[0] for row in it.value(SHOWN)[1::2]], wanted)
        trial.equal(it.value("document.querySelectorAll('#csvPreview img').length"), 0)
        trial.equal(it.value(f"{cell(2, 'length')}.value"), sheets.MARKUP)
        it.at_widths("orders-bad-cells")
        # (of many rows the first 400 are drawn, and bad ones behind them)
        many = ["Länge;Stück;Material", *(f"{600 + it};1;STEEL" for it in range(600))]
        many[500] = "x;1;STEEL"
        picked(it, "many.csv", "\n".join(many))
        it.until(f"{SHOWN}.length === 402 && {cell(501, 'length')}")
        trial.holds("and 199 more" in it.text("csvPreview"), "it isn't told how many more there are")
        picked(it, "markup.csv", f"{sheets.MARKUP}\nLänge;Stück;Material\n600;1;{sheets.MARKUP}\n")
        it.until(f"{LEFT}.length === 1")
        trial.equal(it.value(LEFT), [f"line 1, title: “{sheets.MARKUP}”"])
        trial.equal(it.value("document.querySelectorAll('#csvPreview img').length"), 0)
        is_quiet(it)


@case(
    "what is said of a file's order at the page lasts",
    "The day and the text of a file are kept with its order, and are noted though the tab is closed before the order is answered; where the "
    "order was there before nothing is noted, which is told, of several orders too.",
)
def said_lasts(trial):
    text = "Material;Länge;Anzahl;Kunde;Liefertermin\nSTEEL;100;3;Huber GmbH;3.12.2026\n"
    with Terminal(trial, open_shop(trial)) as it:
        begun(it)
        said = lambda: {row["order"]: (row["due"], row["text"]) for row in it.ask("/orders")["orders"]}
        with answering(it, "/message", lambda _: None):
            picked(it, "Huber 1.csv", text)
            it.click(by_id("sendCsv"))
            it.until("terminal.kept().length === 1 && terminal.kept()[0].number")
            it.go("about:blank")
        trial.equal(it.ask("/orders")["orders"], [])
        it.go(it.address)
        it.until("shop.isKnown && !terminal.kept().length && terminal.answered().length === 2")
        trial.equal(said(), {"HUBER-1": (20261203, "Huber GmbH")})
        it.view("orders")
        picked(it, "Huber 1.csv", text.replace("Huber GmbH", "Meier"))
        it.click(by_id("sendCsv"))
        it.says("terminal 7: nothing done")
        it.until("!terminal.kept().length")
        trial.equal(said(), {"HUBER-1": (20261203, "Huber GmbH")})
        for number, code in ((1, "K-1"), (2, "K-2")):
            exchange(it.shop, "/message", {"do": "import", "form": "csv", "number": number, "order": code, "terminal": 8, "text": sheets.HEADER + "1,STEEL,10.0,0.1,no,1,10\n"})
        commands = [{"do": "import", "form": "csv", "order": code, "text": sheets.HEADER + "1,STEEL,10.0,0.1,no,1,10\n"} for code in ("K-1", "K-2", "K-3")]
        given = ", ".join(f"['{it['order']}', {json.dumps(it)}]" for it in commands)
        it.value(f"void sendMany('Order K from a file', [{given}], () => {{}}, () => {{}}, '', {{due: 20261204, text: 'Huber'}})")
        it.says("Order K from a file: 3 of 3 done; K-1 was ordered at ")
        it.until("!terminal.kept().length")
        trial.holds("by terminal 8: nothing done; K-2 was ordered at " in it.told() and "K-3 was" not in it.told(), it.told())
        trial.equal(said(), {"HUBER-1": (20261203, "Huber GmbH"), "K-1": (0, ""), "K-2": (0, ""), "K-3": (20261204, "Huber")})
        picked(it, "blank.csv", "\n\nLänge;Anzahl;Material\n\n600;1;STEEL\n;;\n700;1;STEEL\n\n\n")
        trial.holds("4 empty rows left out." in it.text("csvPreview"), it.text("csvPreview")[:200])
        is_quiet(it)


@case(
    "orders from files at the page in German",
    "What is asked of a file, what is left out, bad cells, several orders and one that is there: all in German.",
)
def in_german(trial):
    text = "Liste\nPos;Material;Maße;Stück;Nutzen\n1.1;Float;79,7 x 59,755;2;\n1.2;Float;60 x 40;viele;\nSumme;;;9;\n"
    rows = "Länge;Stück;Material\n" + "600;1;STEEL\n" * 201
    with Terminal(trial, open_shop(trial), "de-DE") as it:
        begun(it)
        picked(it, "a.csv", text)
        trial.equal(it.value(FAULTS)[0], "Angeben, in welcher Einheit die Längen sind.")
        is_german(it, "import-unit")
        it.click("[...document.querySelectorAll('#csvUnit label')][1]")
        it.until(f"{FAULTS}[0] === 'Angeben, welche Materialien das sind.'")
        it.choose("document.querySelector('#csvMaterials select')", "GLASS")
        it.until(f"{FAULTS}[0] === 'Bestätigen, dass Längen auf Zehntelmillimeter gerundet werden.'")
        trial.equal(it.value("document.querySelector('#csvRound label').textContent"), "runden: 597,6 mm")
        is_german(it, "import-round")
        it.click("document.querySelector('#csvRound label')")
        it.until(f"{FAULTS}[0].startsWith('Zeile 5 der Datei nennt 9 Stück')")
        is_german(it, "import-bad")
        it.click("document.querySelector('#csvPreview [aria-label=\"Zeile 4 der Datei weglassen\"]')")
        it.until(f"!{by_id('sendCsv')}.disabled")
        it.click(by_id("sendCsv"))
        it.says("Auftrag A aus einer Datei: 1 Zeile bestellt")
        picked(it, "a.csv", text)
        it.until(f"{CODES}[0]?.startsWith('Schon vorhanden: A.')")
        is_german(it, "import-there")
        picked(it, "viele.csv", rows)
        it.until(f"{CODES}[0] === 'Aufträge VIELE-1 bis VIELE-2 mit je höchstens 200 Zeilen.'")
        trial.equal(it.text("sendCsv"), "201 Zeilen als 2 Aufträge bestellen")
        is_german(it, "import-many")
        picked(it, "drehbar.csv", "Länge;Breite;Stück;Drehbar;Material\n600;400;1;ja;GLASS\n500;400;1;x;GLASS\n400;300;1;;GLASS\n")
        it.until(f"{SHOWN}.length === 3")
        turns = FIELDS_SHOWN.index("turn") + 1
        trial.equal([row[turns] for row in it.value(SHOWN)], ["ja", "ja← x", "nein← leer"])
        is_quiet(it)
