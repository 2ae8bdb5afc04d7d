"""Plans of all that is open at the terminal's page: planned, reserved and printed by a press each."""

import json
import os
import random
import re
import time
from collections import Counter

from browser.terminal import TOP, Terminal, by_id, exchange, open_shop
from kit.case import Skipped, case
from kit.page import PLACE_OF, is_german, is_quiet, open_tab
from kit.page_plans import ALL_ANSWERED, BARS, PIECES, ROWS, SHEETS, bars, is_slow
from kit.page_saw import sender

LINK = "[...document.querySelectorAll('#successes .notice')].find(e => e.textContent.includes({})).querySelector('button')"


def glass_file(lines=30):
    """A spreadsheet of panes."""
    dice = random.Random(30)
    rows = ["line,material,length,width,turn,count,worth"]
    for line in range(1, lines + 1):
        w, h = dice.randint(3000, 15000), dice.randint(2000, 11000)
        turn = dice.choice(("yes", "no"))
        rows.append(f"{line},GLASS,{w // 10}.{w % 10},{h // 10}.{h % 10},{turn},{dice.randint(1, 9)},{w * h // 100}")
    return "\n".join(rows) + "\n"


# Beside other cases, which take all processors, so many times as long is allowed.
BESIDE = 3


def in_time(it, begin, most, what):
    """What was awaited came within so many seconds of a browser that has a processor. Of a slow program no time is wanted."""
    took = time.monotonic() - begin
    it.trial.holds(took <= BESIDE * most or is_slow(it.shop), f"{what} took {took:.1f} s, {most} wanted")


def skip_slow(shop):
    """Panes take a slow program minutes."""
    if is_slow(shop):
        raise Skipped("the program is built without a proof, and too slow for panes")


def all_reserved(it, material):
    rows = it.ask(f"/demands/0/{material}")["demands"]
    it.trial.equal([row["reserved"] for row in rows], [row["wanted"] for row in rows])


def as_shown(it, material):
    """Each job that waits is a plan that is shown, of one of its parts."""
    shown = it.value("toCut.found.plans.flatMap(plan => plan.parts.map(part => [part, plan.tree]))")
    jobs = [it.ask(f"/job/{row['job']}") for row in it.ask("/jobs/0")["jobs"] if row["material"] == material]
    told = {job["part"]: job["tree"] for job in jobs}
    it.trial.equal({part: told.get(part) for part, _ in shown}, dict(map(tuple, shown)))


def follow(it, words):
    """Follows the notice with these words to the plan of what was ordered."""
    it.until(f"{by_id('successes')}.textContent.includes({json.dumps(words)})")
    it.click(LINK.format(json.dumps(words)))


def reserve_all(it):
    it.click(by_id("reserve"))
    it.until(ALL_ANSWERED)


@case(
    "an order at the page from its file to its jobs",
    "README's order of bars and its order of panes and bars: by at most six clicks from the order on all pieces are reserved, each "
    "job with a plan that was shown; plans of bars are there within two seconds.",
)
def from_file(trial):
    shop = open_shop(trial)
    send = sender(shop)
    send(**BARS, count=24)
    send(do="receive", material="GLASS", batch="G-7", w=24000, h=13000, count=4)
    with Terminal(trial, shop) as it:
        it.begin(7)
        it.view("orders")
        it.type(by_id("fileCode"), "BARS-1")
        it.choose(by_id("problemMaterial"), "STEEL")
        it.pick(by_id("problemFile"), os.path.join(TOP, "docs", "bars.txt"))
        it.until(by_id("sendProblem"))
        before = it.clicks
        it.click(by_id("sendProblem"))
        begin = time.monotonic()
        follow(it, "Order BARS-1 from a file: 4 lines ordered")
        it.until("shop.material === 'STEEL'")
        it.planned()
        in_time(it, begin, 2, "the plans of bars")
        trial.equal(it.value("toCut.found.missing.length"), 0)
        reserve_all(it)
        trial.holds(it.clicks - before <= 6, f"{it.clicks - before} clicks")
        all_reserved(it, "STEEL")
        as_shown(it, "STEEL")
        it.view("orders")
        it.type(by_id("fileCode"), "HALL-12")
        it.pick(by_id("csvFile"), os.path.join(TOP, "docs", "order.csv"))
        it.until(f"{by_id('sendCsv')} && !{by_id('sendCsv')}.disabled")
        before = it.clicks
        it.click(by_id("sendCsv"))
        follow(it, "Order HALL-12 from a file: 4 lines ordered")
        it.until("shop.material === 'GLASS'")
        it.planned()
        reserve_all(it)
        as_shown(it, "GLASS")
        it.click("[...document.querySelectorAll('#nextStep button')].find(e => e.textContent === 'Plan all of STEEL')")
        it.until("shop.material === 'STEEL'")
        it.planned()
        reserve_all(it)
        trial.holds(it.clicks - before <= 6, f"{it.clicks - before} clicks")
        for material in ("GLASS", "STEEL"):
            all_reserved(it, material)
        as_shown(it, "STEEL")
        is_quiet(it)


@case(
    "thirty lines of panes at the page",
    "From the order of 30 lines of panes to reserved jobs of all it takes at most six clicks; the first plans are there within three "
    "seconds, the last within 20, and no later ones are worse.",
)
def thirty_lines(trial):
    shop = open_shop(trial)
    skip_slow(shop)
    sender(shop)(**SHEETS, count=50)
    with Terminal(trial, shop) as it:
        it.begin(7)
        it.order_file("GLASS-30", "panes.csv", glass_file())
        before = it.clicks
        it.click(by_id("sendCsv"))
        begin = time.monotonic()
        follow(it, "Order GLASS-30 from a file: 30 lines ordered")
        it.until("toCut.found")
        in_time(it, begin, 3, "the first plans")
        first = it.value("[toCut.found.missing.length, toCut.found.cost]")
        it.planned()
        in_time(it, begin, 20, "the last plans")
        trial.holds(it.value("[toCut.found.missing.length, toCut.found.cost]") <= first, f"{first} was better")
        trial.holds(it.value("toCut.found.bound") <= it.value("toCut.found.cost"), "the bound is over the cost")
        it.at_widths("panes")
        reserve_all(it)
        trial.holds(it.clicks - before <= 6, f"{it.clicks - before} clicks")
        all_reserved(it, "GLASS")
        as_shown(it, "GLASS")
        is_quiet(it)


FIGURES = "Object.fromEntries([...document.querySelectorAll('#planFigures div')].map(e => [e.lastChild.textContent, e.firstChild.textContent]))"
CARDS = "[...document.querySelectorAll('#planList .planned h3')].map(e => e.innerText.replace(/\\s+/g, ' ').trim())"


def cards_of(plans):
    """How the heads of these plans of bars of one size read."""
    heads = []
    for plan in plans:
        times = len(plan["parts"])
        first, last = plan["parts"][0], plan["parts"][-1]
        follows = int(last.split("/")[1]) - int(first.split("/")[1]) == times - 1
        names = first if times == 1 else f"{first} to {last}" if follows else ", ".join(plan["parts"])
        heads.append(f"{f'{times} × ' if times > 1 else ''}{plan['w'] / 10:.1f} mm {names}")
    return heads


@case(
    "what the plans of all at the page show",
    "Equal plans stand once with how often, each with its parts and with its pieces by order and line; sums and the bound's words are "
    "those of the shop's answer, and said in the live region; what is left out by boxes isn't asked for.",
)
def shown(trial):
    shop, send = bars(trial)
    send(do="order", order="B-1", lines=[{**PIECES, "w": 25000, "count": 2}])
    send(**{**BARS, "batch": "S-2", "w": 30000}, count=2)
    with Terminal(trial, shop) as it:
        it.begin(7)
        it.view("tocut")
        it.material("tocut", "STEEL")
        it.click("document.querySelector('#wanted [data-key=d2]')")
        it.click("document.querySelector('#cutFrom [data-key=\"b2/0\"]')")
        it.click(by_id("planAll"))
        it.planned()
        asked = it.value("plansQuestion(toCut.found.asked, toCut.found.calls)")
        wanted = {"ask": "plans", "calls": asked["calls"], "demands": [1], "material": "STEEL", "parts": [f"1/{n}" for n in range(4)]}
        trial.equal(asked, wanted)
        told = exchange(shop, "/plans", asked)
        trial.equal([told["missing"], sum(len(plan["parts"]) for plan in told["plans"])], [[], 3])
        heads = [re.sub(r"\s", " ", text) for text in it.value(CARDS)]
        trial.equal(heads, cards_of(told["plans"]))
        trees = [tree for plan in told["plans"] for tree in [plan["tree"]] * len(plan["parts"])]
        words = Counter(word[0] for tree in trees for word in tree.split(" "))
        figures = it.value(FIGURES)
        trial.equal([figures[name] for name in ("are cut up", "pieces", "cuts")], ["3 bars", "12", str(words["x"])])
        trial.equal(figures["in pieces"], "66.6\u00a0%", "12 of 18 m")
        kinds = "different plan" if len(told["plans"]) == 1 else "different plans"
        trial.equal(figures[kinds], str(len(told["plans"])))
        lines = it.value("[...document.querySelectorAll('#planList .planned li:not(.rests)')].map(e => e.textContent)")
        pieces = [plan["tree"].split(" ").count("p1") for plan in told["plans"]]
        trial.equal(lines, [f"{count} × 1000.0\u00a0mmA-1, line 1 (no. 1)" for count in pieces])
        trial.holds(told["proved"], "three bars are fewest")
        trial.equal([it.text("planNow"), it.text("boundSays").strip()], ["3 bars: proved best", "No plan takes fewer."])
        trial.equal(it.text("said"), "Plan of STEEL: 3 bars: proved best")
        scales = "[...document.querySelectorAll('#planList .planned rect.piece')].map(r => Math.round(100 * r.getAttribute('width')))"
        trial.equal(len(set(it.value(scales))), 1, "pieces of one size are drawn in one size")
        it.click(by_id("putBack"))
        it.until("!toCut.found && !document.querySelector('#planList svg')")
        it.click("document.querySelector('#cutFrom [data-key=\"parts back\"]')")
        names = [f"1/{n}" for n in range(4)] + ["2/0", "2/1"]
        wanted = {"ask": "plans", "calls": 20, "demands": [1, 2], "material": "STEEL", "parts": names}
        trial.equal(it.value("plansQuestion({code: 'STEEL', part: '', buy: null, demands: chosenDemands().map(row => row.demand)}, 20)"), wanted)
        it.click(by_id("planAll"))
        it.planned()
        told = exchange(shop, "/plans", it.value("plansQuestion(toCut.found.asked, toCut.found.calls)"))
        metres = f"{told['cost'] / 1000000:.3f}\u00a0m"
        words = f": {metres}, at least {told['bound'] / 1000000:.3f}\u00a0m"
        trial.holds(it.text("planNow").endswith(": proved best" if told["proved"] else words), it.text("planNow"))
        says = "No plan takes less." if told["proved"] else f"These take {metres}; no plan takes less than"
        trial.holds(it.text("boundSays").startswith(says), it.text("boundSays"))
        is_quiet(it)


@case(
    "a part that is taken while all is reserved",
    "Where another terminal took one of the parts, the others are reserved all the same, which one was refused is told with why, and one "
    "press plans what is left. Where that is known before, *Plan again* stands in place of *Reserve all*.",
)
def taken(trial):
    shop, send = bars(trial)
    with Terminal(trial, shop) as it:
        it.begin(7)
        it.plan_all("STEEL")
        parts = it.value("toCut.found.plans.flatMap(plan => plan.parts)")
        lost = parts[-1]
        trial.equal(len(parts), 3)
        it.until("!refresh.running")
        it.value("(clearTimeout(refresh.timer), window.pass = refreshPass, refreshPass = () => {}, 0)")
        send(do="scrap", part=lost)
        reserve_all(it)
        it.value("(refreshPass = window.pass, refreshNow())")
        it.says(f"Refused: Reserve all of STEEL: 2 of 3 done; 1 refused ({lost}): Part {lost}: scrapped by terminal 8, ")
        trial.holds(f"Not reserved: {lost}. The others are." in it.text("planWords"), it.text("planWords"))
        trial.equal(len(it.ask("/jobs/0")["jobs"]), 2)
        it.click("[...document.querySelectorAll('#nextStep button')].find(e => e.textContent === 'Plan what is left')")
        it.planned()
        left = it.value("leftOf(shop.demands[0])")
        trial.equal((it.value("countOf(toCut.found.plans)"), 0 < left <= 5), (left, True))
        rest = it.value("toCut.found.plans.flatMap(plan => plan.parts)")
        it.click(by_id("reserve"))
        it.says(f"Reserve {rest[0]}: job ")
        it.until("shop.demands.length && leftOf(shop.demands[0]) === 0")
        trial.equal(it.ask("/demand/1")["reserved"], 12)
        is_quiet(it)


LABELS = "[...document.querySelectorAll('#sheets .label')].map(e => [...e.children].map(it => it.textContent))"


BUTTONS = f"[...document.querySelectorAll('#planButtons button')].map({PLACE_OF})"


def printed(it, button):
    """Prints by a button, and gives the rows of the list of bars, the labels, and on how many sheets they stand."""
    it.value("(window.print = () => { window.asked = (window.asked || 0) + 1; }, window.asked = 0)")
    it.click(by_id(button))
    it.until("window.asked === 1")
    return it.value(ROWS), it.value(LABELS), it.sheets(f"all-{button}")


@case(
    "tickets and labels of all jobs at the page",
    "*Print all* prints the jobs that were reserved as one list, a row for each plan, with how many have it and a box for each; *Labels* a "
    "label for each piece with order, line, size, its number of how many, and job; at the saw of all that wait, counted on from what is "
    "made. No button moves.",
)
def printing(trial):
    shop, send = bars(trial)
    with Terminal(trial, shop) as it:
        it.begin(7)
        it.plan_all("STEEL")
        plans = it.value("toCut.found.plans.map(plan => [plan.parts.length, plan.tree])")
        before = it.value(BUTTONS)
        it.value(f"{by_id('reserve')}.focus()")
        it.key("Enter")
        it.until("document.activeElement.id === 'printAll'")
        it.until(ALL_ANSWERED)
        it.click("document.querySelector('#successes button:last-child')")
        it.until("!document.querySelector('#successes .notice')")
        trial.equal(it.value(BUTTONS), before, "what can be pressed moved")
        listed, _, sheets = printed(it, "printAll")
        trial.equal(sheets, 1)
        cuts = lambda tree: f"{tree.count('p1')} × 1000.0 A-1/1" if tree.count("p1") > 1 else "1000.0 A-1/1"
        trial.equal([row[:2] for row in listed], [[f"{times} ×", f"6000.0: {cuts(tree)}"] for times, tree in plans])
        trial.equal([row[4] for row in listed], [" ".join("☐" * times) for times, _ in plans])
        it.until("!document.body.classList.contains('sheets')")
        _, rows, sheets = printed(it, "labelAll")
        trial.equal([row[:3] for row in rows], [["A-1", "line 1", "1000.0\u00a0mm"]] * 12)
        trial.equal([row[3] for row in rows], [f"piece {n} of 12" for n in range(1, 13)])
        jobs = it.value("[...toCut.found.jobs.values()].sort((a, b) => a - b)")
        trial.equal(sorted({row[4] for row in rows}), sorted(f"job {job}" for job in jobs))
        trial.equal(sheets, 1, "twelve labels are a page")
        it.until("!document.body.classList.contains('sheets')")
        first = jobs[0]
        made = it.ask(f"/job/{first}")["tree"].split(" ").count("p1")
        send(do="done", job=first)
        it.view("saw")
        it.until(f"shop.jobs.length === {len(jobs) - 1}")
        _, rows, sheets = printed(it, "labelWaiting")
        trial.equal([row[3] for row in rows], [f"piece {n} of 12" for n in range(made + 1, 13)])
        trial.holds(f"job {first}" not in {row[4] for row in rows}, "a job that is done is printed")
        trial.equal(sheets, 1)
        it.until("!document.body.classList.contains('sheets')")
        trial.equal(it.sheets("one-ticket"), 1, "the ticket alone")
        is_quiet(it)


@case(
    "what has to be bought at the page",
    "Where the stock doesn't suffice, what isn't planned is told by order and line, and how many units of a size have to be bought for "
    "it; what stands is reserved, and the stock opens with the rest filled in.",
)
def bought(trial):
    shop, _ = bars(trial, count=1)
    with Terminal(trial, shop) as it:
        it.begin(7)
        it.plan_all("STEEL")
        trial.equal(it.text("planNow"), "1 bar, 7 pieces missing")
        trial.equal(it.text("boundSays").strip()[:50], "The stock doesn't suffice: no plan cuts all of it.")
        trial.equal(it.value("[...document.querySelectorAll('#missing li')].map(e => e.textContent)"), ["7 × 1000.0\u00a0mmA-1, line 1 (no. 1)"])
        trial.equal(it.value(f"[{by_id('buyPanel')}.open, {by_id('buyW')}.value]"), [True, "6000.0"])
        it.type(by_id("buyW"), "15000.1")
        it.key("Enter")
        it.until("document.querySelector('#buyForm .fault')")
        it.type(by_id("buyW"), "6000")
        it.key("Enter")
        it.until("toCut.found?.asked.buy")
        it.planned()
        trial.equal(it.text("planNow"), "1 bar, 2 bars to buy: proved best")
        trial.holds(it.text("buyWords").startswith("2 bars of 6000.0\u00a0mm have to be bought."), it.text("buyWords"))
        it.at_widths("to-buy")
        it.click(by_id("reserve"))
        it.says("Reserve 1/0: job 2, ")
        it.until("toCut.found.jobs.size === 1")
        trial.equal(len(it.ask("/jobs/0")["jobs"]), 1, "what has to be bought can't be reserved")
        it.click(f"{by_id('buyWords')}.querySelector('button')")
        it.until("!document.getElementById('stock').hidden")
        trial.equal(it.value("['receiveMaterial', 'receiveW', 'receiveCount'].map(id => document.getElementById(id).value)"), ["STEEL", "6000.0", "2"])
        is_quiet(it)


@case(
    "a long search at the page",
    "While the shop thinks what is pressed is answered; *Stop* keeps what was found, and *Search longer* goes on from it. At 360 "
    "pixels nothing is scrolled sideways. In a German browser it is in German.",
)
def long_search(trial):
    shop = open_shop(trial)
    skip_slow(shop)
    sender(shop)(**SHEETS, count=50)
    with Terminal(trial, shop, "de-DE") as it:
        it.begin(7)
        it.order_file("GLAS-30", "scheiben.csv", glass_file())
        it.click(by_id("sendCsv"))
        follow(it, "30 Zeilen bestellt")
        it.until("toCut.found")
        trial.holds(re.match(r"(bisher )?\d+ Platten", it.text("planNow")), it.text("planNow"))
        it.receive("GLASS", "G-2", "1000", "500", 1)
        it.says("Eingang 1 × GLASS 1000,0\u00a0×\u00a0500,0\u00a0mm: 1 Stück eingegangen, 2/0")
        it.view("tocut")
        if it.value("Boolean(toCut.planning)"):
            it.click(by_id("stopPlan"))
        it.until("!toCut.planning", 5)
        found = it.value("[toCut.found.plans.length, toCut.found.cost]")
        trial.holds(found[0] > 0, "what was found is gone")
        is_german(it, "plans")
        for width in (360, 390, 700, 1000):
            it.size(width)
            trial.holds(it.value("document.documentElement.scrollWidth <= innerWidth"), f"wider than {width}")
        it.shot("1000-plans")
        it.size(1280)
        if not it.value("toCut.found.proved"):
            it.click("document.querySelector('#boundSays button')")
            it.until("toCut.planning || toCut.found.calls === MAX_CALLS")
            trial.equal(it.value("toCut.found.plans.length > 0"), True, "what is shown goes while the search goes on")
            if it.value("Boolean(toCut.planning)"):
                it.click(by_id("stopPlan"))
            it.until("!toCut.planning", 5)
            trial.holds(it.value("toCut.found.cost") <= found[1], "a longer search found worse")
        it.click(by_id("reserve"))
        it.until(ALL_ANSWERED)
        is_german(it, "reserved")
        it.value("window.print = () => 0")
        it.click(by_id("labelAll"))
        it.until("document.body.classList.contains('sheets')")
        it.trial.equal(it.value("document.querySelectorAll('#sheets .label').length"), it.value("countOf(toCut.found.plans)"))
        it.sheets("german-tickets")
        is_quiet(it)


@case(
    "plans at the page that use remnants",
    "A remnant is told as a remnant among what is cut up and at its plan; the shares of pieces, kept rests, kerf and scrap are those "
    "of what is cut up, and what is kept of a plan stands at it. Two parts are reserved by one press. Another material has no plans.",
)
def of_remnants(trial):
    shop = open_shop(trial)
    send = sender(shop)
    for w in (60000, 50000):
        send(**{**BARS, "w": w}, count=1)
    send(do="order", order="A-1", lines=[{**PIECES, "w": 11500, "count": 9}])
    send(do="done", job=send(do="reserve", part="2/0", tree="x11500 p1 r")["job"])
    with Terminal(trial, shop) as it:
        it.begin(7)
        it.plan_all("STEEL")
        # (five pieces of 1150.0 mm and a rest of 237.5 mm of the bar, three and one of 390.0 mm of the remnant, eight cuts)
        trial.holds(it.text("planNow").startswith("1 bar, 1 remnant: "), it.text("planNow"))
        heads = [re.sub(r"\s", " ", text) for text in it.value(CARDS)]
        trial.equal(sorted(heads), ["3847.5 mm remnant 3/2", "6000.0 mm 1/0"])
        figures = it.value(FIGURES)
        names = ("are cut up", "pieces", "cuts", "in pieces", "kept as rests, 390.0\u00a0mm", "kerf and scrap")
        wanted = ["1 bar, 1 remnant", "8", "8", "93.4\u00a0%", "3.9\u00a0%", "2.6\u00a0%"]
        trial.equal([figures.get(name) for name in names], wanted)
        rests = "[...document.querySelectorAll('#planList .rests')].map(e => e.textContent)"
        trial.equal(it.value(rests), ["Kept on the rack: 390.0\u00a0mm"])
        it.material("tocut", "GLASS")
        trial.equal(it.value(f"[toCut.found, {by_id('planList')}.children.length, {by_id('planFigures')}.children.length]"), [None, 0, 0])
        it.plan_all("STEEL")
        it.click(by_id("reserve"))
        it.says("Reserve all of STEEL: 2 of 2 done")
        trial.equal(sorted(row["part"] for row in it.ask("/jobs/0")["jobs"]), ["1/0", "3/2"])
        is_quiet(it)


@case(
    "what is left and what it is cut from",
    "At a material, at its demands and at the question stands what is left, not what is reserved or made. What stands is listed where "
    "something fits first, turned where it may, remnants before units and small before large, units of a size with how many; what "
    "nothing fits can't be planned alone. What is left out is so in each tab and over a reload, as is the material.",
)
def what_is_left(trial):
    shop = open_shop(trial)
    send = sender(shop)
    for batch, w, h, count in (("G-1", 12000, 8000, 3), ("G-2", 2500, 5500, 4), ("G-3", 3000, 1500, 2)):
        send(do="receive", material="GLASS", batch=batch, w=w, h=h, count=count)
    wide = {"line": 1, "material": "GLASS", "w": 5000, "h": 2000, "turn": True, "count": 5, "worth": 9}
    send(do="order", order="A-1", lines=[wide, {**wide, "line": 2, "w": 4000, "h": 2400, "turn": False, "count": 2}])
    # (rests of 500.0 by 597.0 mm, and of 697.0 by 800.0 mm; then one piece is made, two are reserved)
    send(do="done", job=send(do="reserve", part="1/0", tree="x5000 y2000 p1 r r")["job"])
    send(do="reserve", part="1/1", tree="x5000 y2000 p1 y2000 p1 r r")
    rows = "[...document.querySelectorAll('#wanted .demand')].map(row => [...row.cells].slice(1).map(cell => cell.textContent))"
    stands = (
        "[...document.querySelectorAll('#cutFrom .row')].map(e => [...[...e.querySelectorAll('b, .tag, .quiet')].map(e => "
        "e.textContent), !e.querySelector('button').disabled])"
    )
    boxes = "[...document.querySelectorAll('#cutFrom .row input')].map(e => e.checked)"
    with Terminal(trial, shop) as it:
        it.begin(7)
        it.view("tocut")
        it.material("tocut", "GLASS")
        it.until(f"{rows}.length === 2 && {stands}.length === 5")
        trial.equal(it.value(rows), [["1", "500.0\u00a0×\u00a0200.0 ↻", "2 of 5", "1"], ["2", "400.0\u00a0×\u00a0240.0", "2 of 2", "2"]])
        button = "[...document.querySelectorAll('#tocut .materials button')].map(e => [...e.childNodes].map(e => e.textContent))"
        trial.equal(it.value(button)[1], ["GLASS", "4 to cut", "sheet, kerf 3.0\u00a0mm, keeps from 300.0\u00a0×\u00a0100.0\u00a0mm"])
        trial.equal(it.text("planWords"), "4 pieces of 2 kinds, 9 parts to cut from.")
        both, one, none = "2 kinds of pieces fit", "1 kind of pieces fits", "nothing chosen fits"
        wanted = [
            ["500.0\u00a0×\u00a0597.0\u00a0mm", "remnant", "4/3, batch G-1", both, True],
            ["697.0\u00a0×\u00a0800.0\u00a0mm", "remnant", "4/4, batch G-1", both, True],
            ["250.0\u00a0×\u00a0550.0\u00a0mm", "4 units", "2/0, batch G-2", one, True],
            ["1200.0\u00a0×\u00a0800.0\u00a0mm", "1 unit", "1/2, batch G-1", both, True],
            ["300.0\u00a0×\u00a0150.0\u00a0mm", "2 units", "3/0, batch G-3", none, False],
        ]
        trial.equal(it.value(stands), wanted)
        first = it.session
        other = open_tab(it, "cut/GLASS")
        it.until(f"{boxes}.length === 5")
        it.session = first
        it.call("Page.bringToFront")
        it.click("document.querySelector('#cutFrom [data-key=\"b2/0\"]')")
        it.until(f"{by_id('cutFrom')}.textContent.startsWith('1 size left out')")
        out = [True, True, False, True, True]
        trial.equal((it.value(boxes), it.text("planWords")), (out, "4 pieces of 2 kinds, 5 parts to cut from."))
        it.call("Page.reload")
        it.until(f"document.readyState === 'complete' && {boxes}.length === 5")
        trial.equal(it.value(boxes), out)
        it.session = other
        it.call("Page.bringToFront")
        it.until(f"JSON.stringify({boxes}) === '{json.dumps(out, separators=(',', ':'))}'")
        it.material("tocut", "STEEL")
        trial.equal(it.value(f"{by_id('receiveMaterial')}.value"), "STEEL")
        it.call("Page.reload")
        it.until("document.readyState === 'complete' && shop.partsOf")
        trial.equal(it.value("[shop.material, shop.partsOf]"), ["STEEL", "STEEL"])
        is_quiet(it)


@case(
    "lists of the page at once behind an answer",
    "What was reserved or scrapped is gone from the lists with the answer, before they are read again.",
)
def at_once(trial):
    shop, send = bars(trial)
    with Terminal(trial, shop) as it:
        it.begin(7)
        it.propose("STEEL")
        part, planned = it.value("[chosenPlan().part, chosenPlan().counts.get(1)]")
        it.until("!refresh.running")
        it.value("(clearTimeout(refresh.timer), refreshPass = () => {}, 0)")
        it.click(by_id("reserve"))
        it.says(f"Reserve {part}: job ")
        it.until("!terminal.kept().length")
        it.value("showView()")
        left = "document.querySelector('#wanted .demand').cells[3].textContent"
        trial.equal(it.value(left), f"{12 - planned} of 12")
        trial.equal(it.value("document.querySelector('#cutFrom .row .tag').textContent"), "3 units")
        it.view("stock")
        rows = "[...document.querySelectorAll('#stockList .fold > div > .stocked')].map(e => e.children[0].children[1].textContent)"
        trial.equal(sorted(it.value(rows)), ["3 units, standing", "unit, reserved, job 2"])
        it.click("document.querySelector('#stockList .fold > div > .stocked > .buttons [data-key^=ms]')")
        it.confirm()
        it.says("Scrap 1/")
        it.until("!terminal.kept().length")
        it.until(f"{rows}.includes('2 units, standing')", 10)
        is_quiet(it)


# What is shown is drawn again and again, and each of its states is noted.
WATCH = "(window.seen = [], setInterval(() => {{ showView(); const now = {}; if (now !== seen.at(-1)) seen.push(now); }}, 20))"
ALL_READ = "!terminal.kept().length && !refresh.running && !refresh.again && factOf('/parts/STEEL') && factOf('/demands/0/STEEL')"


@case(
    "lists of the page while they are read anew",
    "From the press until the lists are read behind its answer, each of their pages, nothing that was reserved is shown as free again, and no "
    "list is empty or shorter for a moment; nor is one that another terminal changed.",
)
def read_anew(trial):
    shop, send = bars(trial)
    send(do="order", order="B-1", lines=[{**PIECES, "line": line, "count": 1} for line in range(1, 151)])
    with Terminal(trial, shop) as it:
        it.begin(7)
        it.view("tocut")
        it.material("tocut", "STEEL")
        it.until(f"demandsToCut().length === 151 && {ALL_READ}")
        it.call("Network.emulateNetworkConditions", offline=False, latency=50, downloadThroughput=-1, uploadThroughput=-1)
        watch = it.value(WATCH.format(f"{by_id('planWords')}.textContent"))
        it.until("seen.length")
        it.value("void send({do: 'reserve', part: '1/0', tree: 'x10000 p1 r'}, 'Reserve 1/0')")
        it.until(f"facts.last.entry === 6 && {ALL_READ}")
        send(do="order", order="C-1", lines=[PIECES])
        it.until(f"facts.last.entry === 7 && {ALL_READ}")
        it.until("seen.at(-1).includes('152 kinds')")
        told = [re.search(r"(\d+) pieces of (\d+) kinds, (\d) parts", text).groups() for text in it.value("seen")]
        states = [state for place, state in enumerate(told) if not place or state != told[place - 1]]
        trial.equal(states, [("162", "151", "4"), ("161", "151", "3"), ("173", "152", "3")])
        it.value(f"clearInterval({watch})")
        it.view("orders")
        it.until("orderList.querySelectorAll('.ordered').length === 3 && !refresh.running")
        it.value(WATCH.format("orderList.querySelectorAll('.ordered').length"))
        it.value("void send({do: 'reserve', part: '1/1', tree: 'x10000 p1 r'}, 'Reserve 1/1')")
        it.until("facts.last.entry === 8 && !terminal.kept().length && !refresh.running && !refresh.again")
        trial.equal(it.value("seen"), [3])
        is_quiet(it)
