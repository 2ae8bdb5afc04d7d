"""What the page asks and shows where a case answers in the shop's place: searches that find worse, what has to be bought, and
answers that are none."""

import json
import os
import re

from browser.terminal import TOP, Terminal, by_id, exchange, open_shop
from kit.case import case
from kit.page import is_quiet
from kit.page_answers import answering, bar_of, plans
from kit.page_plans import PIECES, bars
from kit.page_saw import sender


@case(
    "longer searches at the page that find worse",
    "What a longer search finds is shown only where it is better, with its own bound; how near it is is drawn, and told at the end, in "
    "bars, the bound rounded up. *Stop* ends a search whose answer doesn't come and keeps what was found, *Search longer* goes on.",
)
def worse(trial):
    shop, _ = bars(trial)
    row = lambda pieces, *parts: (list(parts), 0, bar_of(pieces), 60000, 1)
    cost = lambda bars: bars * 60000 * 100
    best = plans([row(5, "1/0", "1/1"), row(2, "1/2")], cost(3), cost(3) * 11 // 18)
    replies = [
        best,
        plans([row(3, "1/0", "1/1", "1/2", "1/3")], cost(4), cost(1)),
        plans([row(5, "1/0", "1/1")], cost(2), cost(1), missing=2),
    ]
    asked = []

    def answer(question):
        asked.append(question["calls"])
        return (200, replies[len(asked) - 1]) if len(asked) <= len(replies) else None

    progress = f"[{by_id('planNow')}.textContent, Math.round(18 * {by_id('planBar')}.value / {by_id('planBar')}.max)]"
    cards = "[...document.querySelectorAll('#planList .planned h3')].map(e => e.innerText.replace(/\\s+/g, ' ').trim())"
    heads = ["2 × 6000.0 mm 1/0 to 1/1", "6000.0 mm 1/2"]
    with Terminal(trial, shop) as it:
        it.begin(7)
        it.view("tocut")
        it.material("tocut", "STEEL")
        with answering(it, "/plans", answer):
            it.click(by_id("planAll"))
            for place, button in ((4, by_id("planAll")), (5, f"{by_id('boundSays')}.querySelector('button')")):
                if place == 5:
                    it.click(button)
                it.until(f"{by_id('planNow')}.textContent === '3 bars so far · searching on…'")
                for _ in range(200):
                    if len(asked) == place:
                        break
                    it.value("pause(20)")
                trial.equal(it.value(progress), ["3 bars so far · searching on…", 11])
                trial.equal([re.sub(r"\s", " ", text) for text in it.value(cards)], heads)
                it.click(by_id("stopPlan"))
                it.until(f"{by_id('planNow')}.textContent === '3 bars, at least 2'", 5)
                trial.equal([re.sub(r"\s", " ", text) for text in it.value(cards)], heads)
                trial.holds(it.text("boundSays").startswith("No plan takes fewer than 2."), it.text("boundSays"))
        trial.equal((len(asked), sorted(set(asked))), (5, asked))
        is_quiet(it)


with open(os.path.join(TOP, "docs", "shop.toml"), encoding="utf-8") as shop_file:
    SMALL_SHOP = shop_file.read()


@case(
    "plans at the page of what was ordered meanwhile",
    "A plan and a bound of an earlier answer count for a later one only where both are of the same pieces and parts. Where a piece is "
    "ordered elsewhere, *Search longer* shows the plan of all, 7 sheets, at least 6, and never one of another answer that is proved "
    "best by the later bound; where a part goes, no plan that needs it stays.",
)
def other_pieces(trial):
    shop = open_shop(trial, SMALL_SHOP)
    send = sender(shop)
    send(do="receive", material="GLASS", batch="G-1", w=60, h=40, count=12)
    line = {**PIECES, "material": "GLASS"}
    sizes = ((38, 10, 4), (22, 22, 5), (38, 13, 6))
    lines = [{**line, "line": number, "w": w, "h": h, "count": count} for number, (w, h, count) in enumerate(sizes, 1)]
    send(do="order", order="A-1", lines=lines)
    asked, told = [], {}

    def answer(question):
        # (the shop's own answer to a search that is held at 200 tables, so that it comes at once; of a longer one the same)
        asked.append(question)
        held = {**question, "calls": min(200, question["calls"])}
        key = (json.dumps(held), exchange(shop, "/terminal/8")["last"])
        if key not in told:
            told[key] = exchange(shop, "/plans", held)
        return 200, told[key]

    with Terminal(trial, shop) as it:
        it.begin(7)
        it.view("tocut")
        it.material("tocut", "GLASS")
        it.value("(new MutationObserver(() => (window.saidNow ??= []).push(planNow.textContent)).observe(planNow, {childList: true}), 0)")
        with answering(it, "/plans", answer):
            it.click(by_id("planAll"))
            it.planned()
            trial.equal(it.text("planNow"), "6 sheets, at least 5")
            send(do="order", order="B-1", lines=[{**line, "w": 60, "h": 40, "count": 1}])
            it.click(f"{by_id('boundSays')}.querySelector('button')")
            it.until("!toCut.planning && toCut.found.calls === MAX_CALLS")
            trial.equal(it.text("planNow"), "7 sheets, at least 6")
            trial.equal(it.value("[countOf(toCut.found.plans), toCut.found.missing.length]"), [16, 0])
            trial.holds(it.text("boundSays").startswith("No plan takes fewer than 6."), it.text("boundSays"))
            trial.holds(it.text("planWords").startswith("16 pieces of 4 kinds, 12 parts to cut from."), it.text("planWords"))
            said = it.value("window.saidNow")
            trial.holds(not [words for words in said if "proved best" in words], said)
            # (the parts that the plans need are named, so that each answer is known to be of these)
            gone = it.value("toCut.found.plans[0].parts[0]")
            send(do="scrap", part=gone)
            it.value("void searchOn()")
            it.until("!toCut.planning")
            trial.holds(gone not in asked[-1]["parts"] and len(asked[-1]["parts"]) == 11, asked[-1])
            trial.equal(it.value(f"toCut.found.plans.some(plan => plan.parts.includes('{gone}'))"), False)
        is_quiet(it)


@case(
    "over a hundred sheets to buy at the page",
    "The largest unit's sides are offered; by others it is asked what has to be bought, as length and width were typed. Of more "
    "than the 100 units of a receipt 100 are filled in, which *Receive* takes as they are.",
)
def many_to_buy(trial):
    shop = open_shop(trial)
    send = sender(shop)
    for w, h in ((6000, 4000), (12000, 8000), (5000, 4000)):
        send(do="receive", material="GLASS", batch="G-1", w=w, h=h, count=1)
    send(do="order", order="A-1", lines=[{**PIECES, "material": "GLASS", "w": 5000, "h": 3000, "count": 300}])
    tree, asked = "x5000 y3000 p1 y3000 p1 r r", []

    def answer(question):
        asked.append(question.get("buy"))
        stand = (["2/0"], 0, tree, 12000, 8000)
        if not asked[-1]:
            return 200, plans([stand], 12000 * 8000 * 100, 12000 * 8000 * 100, missing=298, step=24)
        cost = (12000 * 8000 + 149 * 13000 * 7005) * 100
        return 200, plans([stand, ([], 149, tree, 13000, 7005)], cost, cost, step=26, proved=True)

    with Terminal(trial, shop) as it:
        it.begin(7)
        it.view("tocut")
        it.material("tocut", "GLASS")
        with answering(it, "/plans", answer):
            it.click(by_id("planAll"))
            it.planned()
            trial.equal(it.text("planNow"), "1 sheet, 298 pieces missing")
            trial.equal(it.value(f"['buyW', 'buyH'].map(id => document.getElementById(id).value)"), ["1200.0", "800.0"])
            it.type(by_id("buyW"), "1300")
            it.type(by_id("buyH"), "700,5")
            it.key("Enter")
            it.until("toCut.found?.asked.buy")
            it.planned()
        trial.equal(asked[-1], [{"h": 7005, "w": 13000}])
        trial.equal(it.text("planNow"), "1 sheet, 149 sheets to buy: proved best")
        trial.holds(it.text("buyWords").startswith("149 sheets of 1300.0\u00a0×\u00a0700.5\u00a0mm have to be bought."), it.text("buyWords"))
        trial.equal(it.value(f"{by_id('buyWords')}.querySelector('button').textContent"), "Receive 100 of them")
        it.click(f"{by_id('buyWords')}.querySelector('button')")
        it.until("!document.getElementById('stock').hidden")
        it.type(by_id("receiveBatch"), "COIL-2026-000117")
        it.key("Enter")
        it.says("Receive 100 × GLASS 1300.0\u00a0×\u00a0700.5\u00a0mm: 100 units received, 4/0 to 4/99")
        part = it.ask("/trace/4/99")
        trial.equal([part[key] for key in ("w", "h", "batch")], [13000, 7005, "COIL-2026-000117"])
        is_quiet(it)


@case(
    "what is pressed goes before what the page reads by itself",
    "While the shop answers one request what was asked for by a person is sent before what a view reads, though it came later.",
)
def pressed_first(trial):
    with Terminal(trial, open_shop(trial)) as it:
        it.begin(7)
        it.until("!refresh.running && !queue.busy")
        it.value("(clearTimeout(refresh.timer), refreshPass = () => {}, 0)")
        it.requests.clear()
        asked = "request('/terminal/1', {calm: true}), request('/orders', {calm: true}), request('/terminal/2')"
        it.value(f"Promise.all([{asked}]).then(() => 0)")
        trial.equal([path.removeprefix(it.address) for path in it.requests], ["terminal/1", "terminal/2", "orders"])
        is_quiet(it)


@case(
    "answers of the shop that do nothing",
    "A message that is answered 503 waits, told with why, and is sent again under its number and done once; so is one that is answered "
    "403, which is told with where the page has to be opened.",
)
def none_done(trial):
    with Terminal(trial, open_shop(trial)) as it:
        it.begin(7)
        with answering(it, "/message", lambda _: (503, {"name": "StoreFault", "refused": 99})):
            it.receive("STEEL", "S-1", "6000", None, 2)
            it.until(f"{by_id('keptNotice')}.textContent.includes('(number 1)')")
            it.until(f"{by_id('keptNotice')}.textContent.includes(\"Last time the shop's store failed (99 StoreFault).\")")
            trial.equal(it.value("document.querySelectorAll('#lastNotice .notice').length"), 0)
        it.says("Receive 2 × STEEL 6000.0\u00a0mm: 2 units received, 1/0 to 1/1")
        with answering(it, "/message", lambda _: (403, "")):
            it.receive("STEEL", "S-2", "6000", None, 3)
            words = "Last time the shop takes this from its own page alone: open it at 127.0.0.1 or localhost (status 403)."
            it.until(f"{by_id('keptNotice')}.textContent.includes({json.dumps(words)})")
            trial.equal((it.value("terminal.kept().length"), it.text("link")), (1, "no connection"))
        it.says("Receive 3 × STEEL 6000.0\u00a0mm: 3 units received, 2/0 to 2/2")
        trial.equal((it.ask("/totals/STEEL")["received"], it.ask("/terminal/7")["last"]), (5 * 60000, 2))
