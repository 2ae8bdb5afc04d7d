"""Plans at the page: how long they stay, what is asked for them and what is told while the shop searches, by the page's law."""

import os
import re
import signal

from browser.terminal import Terminal, by_id, open_shop
from kit.case import case
from kit.page import is_quiet
from kit.page_answers import answering, bar_of, plans
from kit.page_plans import ALL_ANSWERED, BARS, PIECES, SHEETS, bars, is_slow
from kit.page_saw import sender

COST = 60000 * 100


@case(
    "a plan at the page while another material is looked at",
    "A look at GLASS, at the stock and at the saw doesn't drop STEEL's plan, which is reserved behind it.",
)
def kept(trial):
    shop, send = bars(trial)
    send(**SHEETS, count=1)
    with Terminal(trial, shop) as it:
        it.begin(7)
        it.plan_all("STEEL")
        trees = it.value("toCut.found.plans.map(plan => plan.tree)")
        it.material("tocut", "GLASS")
        trial.equal(it.value(f"[toCut.found, {by_id('planList')}.children.length]"), [None, 0])
        it.view("stock")
        it.view("saw")
        it.view("tocut")
        it.material("tocut", "STEEL")
        trial.equal(it.value("toCut.found.plans.map(plan => plan.tree)"), trees)
        trial.equal(it.text("planNow"), "3 bars: proved best")
        it.click(by_id("reserve"))
        it.until(ALL_ANSWERED)
        trial.equal(it.ask("/demand/1")["reserved"], 12)
        is_quiet(it)


@case(
    "a planned part at the page that is scrapped elsewhere",
    "Where a planned part is known to be gone *Plan again* stands in place of *Reserve all*, and plans from what stands.",
)
def plan_again(trial):
    shop, send = bars(trial)
    with Terminal(trial, shop) as it:
        it.begin(7)
        it.plan_all("STEEL")
        lost = it.value("toCut.found.plans[0].parts[0]")
        trial.equal(it.value(f"[{by_id('reserve')}.hidden, {by_id('planAgain')}.hidden]"), [False, True])
        send(do="scrap", part=lost)
        it.until(f"{by_id('reserve')}.hidden && !{by_id('planAgain')}.hidden")
        trial.equal(it.text("planFault"), f"Taken elsewhere meanwhile: {lost}. Plan again.")
        it.click(by_id("planAgain"))
        it.planned()
        trial.equal(it.value(f"toCut.found.plans.some(plan => plan.parts.includes('{lost}'))"), False)
        it.until(f"!{by_id('reserve')}.hidden && !{by_id('reserve')}.disabled && {by_id('planAgain')}.hidden")
        is_quiet(it)


@case(
    "what the page tells while the shop searches",
    "While it searches “1 bar so far, 7 pieces not placed yet” is told, and neither a bound nor that nothing has room; only at the end "
    "whether it is proved best, at least how many, that the stock doesn't suffice, or that no room was found.",
)
def while_searching(trial):
    shop, _ = bars(trial)
    row = lambda pieces, *parts: (list(parts), 0, bar_of(pieces), 60000, 1)
    replies = [
        plans([row(5, "1/0")], COST, COST, missing=7),
        plans([row(5, "1/0", "1/1"), row(2, "1/2")], 3 * COST, 2 * COST + 1),
    ]
    asked = []

    def answer(question):
        asked.append(question)
        return (200, replies[len(asked) - 1]) if len(asked) <= len(replies) else None

    with Terminal(trial, shop) as it:
        it.begin(7)
        it.view("tocut")
        it.material("tocut", "STEEL")
        it.value("(new MutationObserver(() => (window.saidNow ??= []).push(planNow.textContent + document.getElementById('boundSays').textContent)).observe(planPanel, {childList: true, subtree: true, characterData: true}), 0)")
        with answering(it, "/plans", answer):
            it.click(by_id("planAll"))
            it.until(f"{by_id('planNow')}.textContent === '3 bars so far · searching on…'")
            trial.equal(it.value(f"{by_id('buyPanel')}.open"), False, "buying is opened while it searches")
            said = [words.strip() for words in it.value("window.saidNow")]
            trial.holds("1 bar so far, 7 pieces not placed yet · searching on…" in said, said)
            trial.holds(not [words for words in said if re.search("suffice|no room|at least|proved", words)], said)
            it.click(by_id("stopPlan"))
            it.until(f"{by_id('planNow')}.textContent === '3 bars, at least 3'", 5)
            for reply, now, says in (
                (plans([row(5, "1/0")], COST, COST, missing=7) | {"short": False}, "1 bar, 7 pieces missing", "What is missing found no room: search longer or buy."),
                (plans([row(5, "1/0")], COST, COST, missing=7) | {"short": True}, "1 bar, 7 pieces missing", "The stock doesn't suffice: no plan cuts all of it."),
                (plans([row(4, "1/0", "1/1", "1/2")], 3 * COST, 3 * COST, proved=True), "3 bars: proved best", "No plan takes fewer."),
            ):
                asked.clear()
                replies[:] = [reply] * 9
                it.click(by_id("planAll"))
                it.planned()
                trial.equal(it.text("planNow"), now)
                trial.holds(it.text("boundSays").startswith(says), it.text("boundSays"))
                trial.equal(it.value(f"{by_id('buyPanel')}.open"), bool(reply["missing"]))
                it.value(f"void ({by_id('buyPanel')}.open = false)")
        is_quiet(it)


@case(
    "two answers at the page aren't joined",
    "Of 12 bars, at least 11, and behind a piece that was cancelled elsewhere 11 bars, at least 10, the second is shown as it is: 11 "
    "bars, at least 10. A later answer that is worse leaves the earlier one's own bound.",
)
def not_joined(trial):
    shop, send = bars(trial)
    one = lambda bars: [([f"1/{n}" for n in range(bars)], 0, "x10000 p1 r", 60000, 1)]
    replies = [plans(one(12), 12 * COST, 11 * COST), plans(one(11), 11 * COST, 10 * COST), plans(one(11), 12 * COST, 11 * COST)]
    asked = []

    def answer(question):
        asked.append(question)
        if len(asked) == 2:
            send(do="amend", demand=1, wanted=11)
        return (200, replies[len(asked) - 1]) if len(asked) <= len(replies) else None

    with Terminal(trial, shop) as it:
        it.begin(7)
        it.view("tocut")
        it.material("tocut", "STEEL")
        with answering(it, "/plans", answer):
            it.click(by_id("planAll"))
            it.until("toCut.found?.plans[0].parts.length === 11")
            # (the third is worse; the fourth doesn't come)
            for _ in range(400):
                if len(asked) == 4:
                    break
                it.value("pause(50)")
            it.click(by_id("stopPlan"))
            it.until("!toCut.planning", 5)
        trial.equal((it.text("planNow"), it.value("toCut.found.proved")), ("11 bars, at least 10", False))
        is_quiet(it)


@case(
    "how often a sheet may be turned",
    "*cuts: any, 2, 3, 4* is asked for, kept by material over a reload; bars have no such choice. No grid, price, ceiling or bound can "
    "be asked for.",
)
def stages(trial):
    shop = open_shop(trial)
    send = sender(shop)
    send(**SHEETS, count=1)
    send(**BARS, count=1)
    send(do="order", order="A-1", lines=[PIECES, {**PIECES, "line": 2, "material": "GLASS", "w": 3000, "h": 2000}])
    asked = []

    def answer(question):
        asked.append(question)
        return 200, plans([(["1/0"], 0, "x3000 y2000 p2 r r", 32100, 22500)], 32100 * 22500 * 100, 32100 * 22500 * 100, proved=True)

    with Terminal(trial, shop) as it:
        it.begin(7)
        it.view("tocut")
        it.material("tocut", "GLASS")
        options = "[...document.getElementById('stages').options].map(e => e.textContent)"
        trial.equal(it.value(options), ["any", "2", "3", "4"])
        with answering(it, "/plans", answer):
            for value, wanted in (("0", None), ("2", 2), ("3", 3), ("4", 4), ("3", 3)):
                it.choose(by_id("stages"), value)
                it.click(by_id("planAll"))
                it.planned()
                trial.equal(asked[-1].get("stages"), wanted)
            it.material("tocut", "STEEL")
            trial.holds(it.value(f"{by_id('stagesField')}.getClientRects().length === 0"), "a bar has stages")
            it.call("Page.reload")
            it.until("document.readyState === 'complete' && shop.partsOf")
            it.material("tocut", "GLASS")
            trial.equal(it.value(f"{by_id('stages')}.value"), "3")
            it.click(by_id("planAll"))
            it.planned()
            trial.equal(asked[-1]["stages"], 3)
        shown = it.value("document.getElementById('tocut').innerText")
        trial.equal(re.findall(r"(?i)grid|price|ceiling|how many units", shown), [])
        is_quiet(it)


@case(
    "a rush order at the page",
    "Among 61 orders *Only this* plans one alone by a click, and *Reserve all* reserves it: four clicks from any view, and nothing has "
    "to be put back.",
)
def rush(trial):
    shop = open_shop(trial)
    send = sender(shop)
    send(**BARS, count=14)
    orders = 11 if is_slow(shop) else 61
    for number in range(1, orders):
        send(do="order", order=f"A-{number}", lines=[{**PIECES, "count": 1}])
    send(do="order", order="RUSH", lines=[{**PIECES, "count": 3}])
    with Terminal(trial, shop) as it:
        it.begin(7)
        it.view("tocut")
        it.material("tocut", "STEEL")
        it.view("yield")
        before = it.clicks
        it.view("tocut")
        it.click("document.querySelector('#wanted [data-key=onlyRUSH]')")
        it.planned()
        trial.equal(it.text("planTitle"), "Plan of STEEL: order RUSH alone")
        trial.equal(it.value("toCut.found.asked.demands"), [orders])
        it.click(by_id("reserve"))
        it.until("toCut.found.jobs.size === 1")
        trial.holds(it.clicks - before <= 4, f"{it.clicks - before} clicks")
        trial.equal(it.ask(f"/demand/{orders}")["reserved"], 3)
        trial.equal(it.value("toCut.leftOut.size"), 0, "something has to be put back")
        it.until("document.querySelectorAll('#wanted .order').length === " + str(orders - 1))
        trial.equal(it.value("[...document.querySelectorAll('#wanted input')].every(e => e.checked)"), True)
        is_quiet(it)


@case(
    "121 kinds at the page",
    "Of 121 open kinds all are shown; the first hundred are asked for by their numbers, then the other 21 from the parts that are left, "
    "and all are reserved by one press.",
)
def hundreds(trial):
    shop = open_shop(trial)
    send = sender(shop)
    send(**BARS, count=3)
    send(do="order", order="A-1", lines=[{**PIECES, "line": line, "w": 1000, "count": 1} for line in range(1, 101)])
    send(do="order", order="A-2", lines=[{**PIECES, "line": line, "w": 1000, "count": 1} for line in range(1, 22)])
    asked = []

    def answer(question):
        asked.append(question)
        (part, *_), names = question["parts"], question["demands"][:50]
        tree = " ".join(f"x1000 p{name}" for name in names) + " r"
        reply = plans([([part], 0, tree, 60000, 1)], COST, COST, proved=True)
        return 200, {**reply, "missing": [{"demand": name, "pieces": 1} for name in question["demands"][50:]]}

    with Terminal(trial, shop) as it:
        it.begin(7)
        it.view("tocut")
        it.material("tocut", "STEEL")
        for code in ("A-1", "A-2"):
            it.click(f"document.querySelector('#wanted [data-key=\"fold{code}\"]')")
        it.until("document.querySelectorAll('#wanted .demand').length === 121")
        with answering(it, "/plans", answer):
            it.click(by_id("planAll"))
            it.planned()
        trial.equal([it["demands"] for it in asked if it["parts"][0] == "1/0"][-1], list(range(1, 101)))
        trial.equal((asked[-1]["demands"], asked[-1]["parts"]), (list(range(101, 122)), ["1/1", "1/2"]))
        trial.equal(it.value("[countOf(toCut.found.plans), piecesOf(toCut.found.missing), toCut.found.proved]"), [71, 50, False])
        it.click(by_id("reserve"))
        it.until(ALL_ANSWERED)
        trial.equal(it.value("toCut.found.refused"), [])
        trial.equal(it.ask("/demand/121")["reserved"], 1)
        is_quiet(it)


@case(
    "how many messages of a press are answered",
    "While messages wait it is told how many of them are answered, and not that all is reserved.",
)
def waiting(trial):
    shop, _ = bars(trial)
    with Terminal(trial, shop) as it:
        it.begin(7)
        it.plan_all("STEEL")
        os.kill(shop.process.pid, signal.SIGSTOP)
        it.click(by_id("reserve"))
        it.until(f"{by_id('planNow')}.textContent === '0 of 3 answered'")
        trial.equal(it.value(f"[{by_id('planBar')}.value, {by_id('planBar')}.max]"), [0, 3])
        trial.holds("all made or reserved" not in it.text("wanted"), it.text("wanted"))
        trial.holds("1 kind of pieces: all being reserved." in it.text("wanted"), it.text("wanted"))
        os.kill(shop.process.pid, signal.SIGCONT)
        it.until(ALL_ANSWERED)
        it.until(f"{by_id('wanted')}.textContent.includes('1 kind of pieces: all made or reserved.')")
        is_quiet(it)


@case(
    "orders at the page that are folded",
    "An order in To cut tells its code, its day, its text and how much is left; its lines are shown where it is unfolded, as few are at "
    "first, and stay so when another material is looked at.",
)
def folded(trial):
    shop = open_shop(trial)
    send = sender(shop)
    send(**BARS, count=1)
    send(do="order", order="A-1", lines=[{**PIECES, "line": line, "count": 1} for line in range(1, 8)])
    send(do="order", order="B-1", lines=[{**PIECES, "line": line, "count": 2} for line in range(1, 6)])
    send(do="note", order="B-1", due=20261203, text="edges ground")
    heads = "[...document.querySelectorAll('#wanted .orderhead')].map(e => [e.querySelector('.unfold').textContent, e.querySelector('.quiet').textContent])"
    lines = "document.querySelectorAll('#wanted .demand').length"
    fold = "document.querySelector('#wanted [data-key=\"fold{}\"]')"
    with Terminal(trial, shop) as it:
        it.begin(7)
        it.view("tocut")
        it.material("tocut", "STEEL")
        it.until(f"{lines} === 12")
        it.until(f"JSON.stringify({heads}).includes('edges ground')")
        trial.equal(it.value(heads), [["B-1", "due Dec 03, 2026, edges ground, 10 left"], ["A-1", "7 left"]])
        it.click(fold.format("B-1"))
        it.until(f"{lines} === 7")
        trial.equal(it.value(f"[{fold.format('B-1')}.getAttribute('aria-expanded'), document.activeElement.dataset.key]"), ["false", "foldB-1"])
        it.material("tocut", "GLASS")
        it.material("tocut", "STEEL")
        trial.equal(it.value(lines), 7)
        send(do="order", order="C-1", lines=[PIECES])
        it.until(f"{lines} === 0")
        it.click(fold.format("A-1"))
        it.until(f"{lines} === 7")
        it.click("document.querySelector('#wanted [data-key=\"oB-1\"]')")
        it.until(f"{by_id('wanted')}.textContent.startsWith('5 kinds of pieces left out')")
        is_quiet(it)


@case(
    "bounds and buying under all materials",
    "Under all materials each tells what its plans come to, with the bound and how to search longer, what isn't planned, and what has to "
    "be bought of it, which is planned and received by its own size. A material without stock is told. What is left out drops the plans of "
    "its own material alone.",
)
def of_all(trial):
    shop = open_shop(trial)
    send = sender(shop)
    send(**BARS, count=1)
    send(do="order", order="A-1", lines=[PIECES, {**PIECES, "line": 2, "material": "GLASS", "w": 3000, "h": 2000, "count": 1}])
    asked = []

    def answer(question):
        asked.append(question)
        if question["material"] == "GLASS":
            return 200, plans([(["2/0"], 0, "x3000 y2000 p2 r r", 32100, 22500)], 32100 * 22500 * 100, 32100 * 22500 * 100, proved=True)
        if "buy" in question:
            return 200, plans([(["1/0"], 0, bar_of(5), 60000, 1), ([], 2, bar_of(5), 60000, 1)], 3 * COST, 3 * COST, proved=True)
        return 200, plans([(["1/0"], 0, bar_of(5), 60000, 1)], COST, COST, missing=7) | {"short": True}

    shown = "planList.innerText"
    with Terminal(trial, shop) as it:
        it.begin(7)
        it.value("void (location.hash = 'cut')")
        it.until(f"{shown}.startsWith('No stock of GLASS.')")
        it.click("planList.querySelector('button')")
        it.until("location.hash === '#stock/GLASS'")
        send(**SHEETS, count=1)
        it.value("void (location.hash = 'cut')")
        it.until(f"!{shown}.includes('No stock') && !{by_id('planAll')}.disabled")
        with answering(it, "/plans", answer):
            it.click(by_id("planAll"))
            it.until("!toCut.all && [...plansByMaterial.values()].filter(of => of.found && !of.planning).length === 2")
            told = it.value(shown)
            for words in ("GLASS · 1 sheet: proved best", "No plan takes fewer.", "STEEL · 1 bar, 7 pieces missing", "The stock doesn't suffice: no plan cuts all of it.", "Not planned", "7 × 1000.0\u00a0mm", "largest rest", "987.5\u00a0mm", "kerf and scrap", "pieces"):
                trial.holds(words in told, f"{words} isn't in {told}")
            trial.equal(it.value("[...planList.querySelectorAll('.buy')].map(e => e.open)"), [False, True])
            trial.equal(it.value("[...planList.querySelectorAll('button')].map(e => e.textContent)"), ["Plan with such to buy", "Search longer", "Plan with such to buy"])
            it.at_widths("to-cut-all-missing")
            it.type(by_id("buyWSTEEL"), "6000")
            it.key("Enter")
            it.until(f"{shown}.includes('2 bars of 6000.0\u00a0mm have to be bought.')")
            trial.equal(asked[-1]["buy"], [{"h": 1, "w": 60000}])
            trial.holds("GLASS · 1 sheet: proved best" in it.value(shown), "GLASS is planned anew")
            # (a line of STEEL that is left out drops the plans of STEEL alone)
            it.click("document.querySelector('#wanted [data-key=d1]')")
            it.until(f"!{shown}.includes('STEEL') && {shown}.includes('GLASS · ')")
            it.click("document.querySelector('#wanted [data-key=d1]')")
            it.click(by_id("planAll"))
            it.until(f"!toCut.all && {shown}.includes('7 pieces missing')")
            it.click("[...planList.querySelectorAll('button')].at(-1)")
            it.until(f"{shown}.includes('have to be bought')")
        it.click("[...planList.querySelectorAll('button')].find(e => e.textContent === 'Receive them')")
        it.until("location.hash === '#stock/STEEL'")
        trial.equal(it.value("['receiveMaterial', 'receiveW', 'receiveCount'].map(id => document.getElementById(id).value)"), ["STEEL", "6000.0", "2"])
        is_quiet(it)


@case(
    "plans of several questions at the page",
    "Plans of several questions count together only where nothing happened in the shop from before the first until behind the last: else "
    "the first one's stand alone, and that is told.",
)
def happened_meanwhile(trial):
    shop = open_shop(trial)
    send = sender(shop)
    send(**BARS, count=3)
    for number, lines in enumerate((20, 20, 20, 20, 20, 1)):
        send(do="order", order=f"A-{number}", lines=[{**PIECES, "line": line, "w": 1000, "count": 1} for line in range(1, lines + 1)])
    happens = []

    def answer(question):
        (part, *_), names = question["parts"], question["demands"][:1]
        if happens and len(question["demands"]) == 1:
            send(**happens.pop())
        return 200, plans([([part], 0, f"x1000 p{names[0]} r", 60000, 1)], COST, COST, proved=True)

    with Terminal(trial, shop) as it:
        it.begin(7)
        it.view("tocut")
        it.material("tocut", "STEEL")
        it.until("shop.demands.length === 101")
        for act, found, note in (
            (None, [["1/0"], ["1/1"]], ""),
            ({**BARS, "batch": "S-9", "count": 1}, [["1/0"]], "Something happened meanwhile: these are the most urgent 100 kinds alone."),
        ):
            happens[:] = [act] if act else []
            with answering(it, "/plans", answer):
                it.click(by_id("planAll"))
                it.planned()
            trial.equal(it.value("toCut.found.plans.map(plan => plan.parts)"), found)
            trial.holds(note in it.text("planWords") and bool(note) == ("happened" in it.text("planWords")), it.text("planWords"))
        is_quiet(it)
