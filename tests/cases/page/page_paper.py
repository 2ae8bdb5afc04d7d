"""What the page prints, counted in sheets of A4, by the page's law."""

import re

from browser.terminal import Terminal, by_id, open_shop
from kit.case import case
from kit.page import is_quiet
from kit.page_plans import ROWS
from kit.page_saw import sender

LINE = {"line": 1, "material": "STEEL", "w": 1000, "h": 1, "turn": False, "count": 999, "worth": 9}


def asked_to_print(it, button):
    it.value("(window.print = () => { window.asked = (window.asked || 0) + 1; }, window.asked = 0)")
    it.click(by_id(button))
    it.until("window.asked === 1")


@case(
    "69 bars with 25 patterns on paper",
    "At the saw *Print all* prints 69 bars with 25 patterns on two sheets: one list, a row a pattern, with how often, the cuts with order "
    "and line, the rests' names, the jobs and a box for each; on each page stand the shop's name, the day and the material. Labels are "
    "three by eight on a sheet, or a list of order, line, size, number of how many, job and text, each page with the same words.",
)
def bars_on_paper(trial):
    shop = open_shop(trial)
    send = sender(shop)
    send(do="receive", material="STEEL", batch="S-1", w=60000, h=1, count=69)
    send(do="order", order="HUBER-12", lines=[{**LINE, "line": line, "w": 5000 + 500 * line} for line in range(1, 26)])
    trees = [f"x{5000 + 500 * line} p{line} x{5000 + 500 * line} p{line} x10000 r r" for line in range(1, 26)]
    for place in range(69):
        send(do="reserve", part=f"1/{place}", tree=trees[place % 25])
    with Terminal(trial, shop) as it:
        it.begin(7)
        it.value("storage.write('cutshop.name', 'Metallbau Huber')")
        it.view("saw")
        it.until("!labelWaiting.disabled && !refresh.running")
        asked_to_print(it, "printWaiting")
        rows = it.value(ROWS)
        trial.equal((len(rows), sum(int(row[0].split()[0]) for row in rows)), (25, 69))
        trial.equal(rows[0][:2], ["3 ×", "6000.0: 2 × 550.0 HUBER-12/1"])
        trial.equal([len(row[4].split()) for row in rows], [int(row[0].split()[0]) for row in rows])
        trial.equal(it.sheets("69-bars"), 2)
        head = it.value("document.querySelector('#sheets .pagehead').textContent")
        is_head = lambda text: bool(re.fullmatch(r"Metallbau Huber · .*\d.* · STEEL", text))
        trial.holds(is_head(head), head)
        it.until("!document.body.classList.contains('sheets')")
        asked_to_print(it, "labelWaiting")
        trial.equal(it.value("document.querySelectorAll('#sheets .label').length"), 138)
        trial.equal(it.sheets("138-labels"), 6)
        heads = it.value("[...document.querySelectorAll('#sheets .labels .pagehead')].map(e => e.textContent)")
        trial.holds(len(heads) == 6 and all(map(is_head, heads)), heads)
        it.until("!document.body.classList.contains('sheets')")
        send(do="note", order="HUBER-12", due=0, text="edges ground")
        it.until("facts.orders.get('HUBER-12')?.text === 'edges ground'")
        asked_to_print(it, "listWaiting")
        rows = it.value("[...document.querySelectorAll('#sheets tr')].map(e => [...e.cells].map(cell => cell.textContent))")
        trial.equal((len(rows), is_head(*rows[0]), rows[1]), (140, True, ["Order", "Line", "Size in mm", "Piece", "Job", "Text"]))
        job = it.ask("/jobs/0")["jobs"][0]["job"]
        trial.equal(rows[2], ["HUBER-12", "1", "550.0\u00a0mm", "piece 1 of 999", str(job), "edges ground"])
        trial.holds(it.sheets("138-labels-listed") <= 4, "the list takes more than four sheets")
        is_quiet(it)


@case(
    "three jobs on paper",
    "Three jobs of bars stand on one page; tickets of sheets with at most 24 cuts stand two on a page, a larger one alone.",
)
def few_on_paper(trial):
    shop = open_shop(trial)
    send = sender(shop)
    send(do="receive", material="STEEL", batch="S-1", w=60000, h=1, count=3)
    send(do="receive", material="GLASS", batch="G-1", w=24000, h=13000, count=5)
    send(do="order", order="A-1", lines=[LINE, {**LINE, "line": 2, "material": "GLASS", "w": 4000, "h": 3000}])
    for place, pieces in enumerate((3, 4, 5)):
        send(do="reserve", part=f"1/{place}", tree="x1000 p1 " * pieces + "r")
    for place, pieces in enumerate((1, 2, 3, 4)):
        send(do="reserve", part=f"2/{place}", tree="x4000 " + "y3000 p2 " * pieces + "r r")
    with Terminal(trial, shop) as it:
        it.begin(7)
        it.view("saw")
        for material, sheets in (("STEEL", 1), ("GLASS", 2)):
            it.choose(by_id("jobMaterial"), material)
            it.until("!printWaiting.disabled && !refresh.running")
            asked_to_print(it, "printWaiting")
            trial.equal(it.sheets(f"few-{material}"), sheets)
            it.until("!document.body.classList.contains('sheets')")
        send(do="order", order="B-1", lines=[{**LINE, "material": "GLASS", "w": 3000, "h": 2000}])
        send(do="reserve", part="2/4", tree=" ".join(["x3000 " + "y2000 p3 " * 6 + "r"] * 5) + " r")
        it.until("shop.jobs.length === 8")
        asked_to_print(it, "printWaiting")
        trial.equal(it.sheets("few-and-a-large"), 3)
        is_quiet(it)


TEXTS = {code: f"{code}: due Dec {day:02}, 2026, {'edges ground ' * 12}".strip() for day, code in enumerate(("A-1", "BALKON-NORD-2026", "C-1"), 1)}


@case(
    "texts of orders on paper",
    "A ticket of a sheet has the day and the text of each order that has a piece of it, and none of another. Of a ticket of 24 cuts in 20 "
    "lines of three orders with long texts nothing is cut off, nor of a label with the longest code and text.",
)
def texts_on_paper(trial):
    shop = open_shop(trial)
    send = sender(shop)
    send(do="receive", material="GLASS", batch="G-1", w=32000, h=22000, count=2)
    lines = [{**LINE, "line": line, "material": "GLASS", "w": 4000, "h": 3000 + line} for line in range(1, 8)]
    for day, code in enumerate((*TEXTS, "D-1"), 1):
        send(do="order", order=code, lines=lines)
        send(do="note", order=code, due=20261200 + day, text=("edges ground " * 12).strip())
    column = lambda first: "x4000 " + " ".join(f"y{3000 + (demand - 1) % 7 + 1} p{demand}" for demand in range(first, first + 5)) + " r"
    send(do="reserve", part="1/0", tree=" ".join(map(column, (1, 6, 11, 16))) + " r")
    said = "[...document.querySelectorAll('#sheets .ticket .said')].map(e => e.textContent)"
    cut_off = "[...document.querySelectorAll('#sheets :is(.ticket, .label)')].filter(e => e.scrollHeight > e.clientHeight || e.scrollWidth > e.clientWidth).map(e => e.textContent)"
    with Terminal(trial, shop) as it:
        it.begin(7)
        it.view("saw")
        it.until("!printWaiting.disabled && !refresh.running")
        for button, shown in (("printWaiting", "#sheets .ticket"), ("labelWaiting", "#sheets .label")):
            asked_to_print(it, button)
            trial.equal(it.value(f"document.querySelectorAll('{shown}').length"), {"printWaiting": 1, "labelWaiting": 20}[button])
            if button == "printWaiting":
                trial.equal(it.value(said), ["; ".join(TEXTS.values())])
                words = it.value("document.querySelector('#sheets .ticket').textContent")
                trial.equal([line for line in range(1, 25) if f"☐ {line} " not in words], [], "a cut isn't on the ticket")
            it.call("Emulation.setEmulatedMedia", media="print")
            # (as wide as a sheet of A4 without its margins)
            it.size(710, 1000)
            trial.equal(it.value(cut_off), [], f"{button}: cut off")
            it.call("Emulation.setEmulatedMedia", media="")
            it.size(1280)
            trial.equal(it.sheets(f"texts-{button}"), 1)
            it.until("!document.body.classList.contains('sheets')")
        is_quiet(it)


@case(
    "one ticket and a report on paper",
    "The ticket that is shown, and a material's report, are printed with the shop's name, the day and the material.",
)
def one_on_paper(trial):
    shop = open_shop(trial)
    send = sender(shop)
    send(do="receive", material="STEEL", batch="S-1", w=60000, h=1, count=3)
    send(do="order", order="A-1", lines=[LINE])
    send(do="reserve", part="1/0", tree="x1000 p1 r")
    head = "[...document.querySelectorAll('main .pagehead')].filter(e => e.getClientRects().length).map(e => e.textContent)"
    with Terminal(trial, shop) as it:
        it.begin(7)
        it.value("storage.write('cutshop.name', 'Metallbau Huber')")
        it.view("saw")
        it.until("atSaw.told")
        it.call("Emulation.setEmulatedMedia", media="print")
        trial.holds(re.fullmatch(r"Metallbau Huber · .*\d.* · STEEL", " ".join(it.value(head))), it.value(head))
        trial.equal(it.sheets("one-ticket-named"), 1)
        it.call("Emulation.setEmulatedMedia", media="")
        it.view("yield")
        it.click("document.querySelector('#yieldBars [data-key=ySTEEL]')")
        it.until("document.querySelector('#report table')")
        it.call("Emulation.setEmulatedMedia", media="print")
        trial.holds(re.fullmatch(r"Metallbau Huber · .*\d.* · STEEL", " ".join(it.value(head))), it.value(head))
        is_quiet(it)
