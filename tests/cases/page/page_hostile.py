"""What is typed or pasted into the page's fields that no shop can take: what the page's law and the formats want of it."""

import json
import re

from browser.terminal import Terminal, by_id
from kit.case import case
from kit.page import is_quiet
from kit.page_saw import shop_with_jobs

# 10 KB, markup, a control character that isn't ASCII, a tab, a number of a German spreadsheet, one of 40 digits, digits that aren't
# ASCII, numbers as programs write them, and letters whose capitals are others.
TEXTS = (
    "x" * 10240,
    "<img src=x onerror=window.ran=1>",
    "a\u0085b",
    "a\tb",
    "1.200,5",
    "9" * 40,
    "\uff11\uff12",
    "\u0663",
    "-5",
    "1e3",
    "0x10",
    "NaN",
    "Stra\u00dfe \u0131",
    "\u202e12",
)

# Each field by its address: how it is found, and the form or button that takes it. What stands beside it is good.
LINE = "document.querySelector('#orderLines [data-field={}]')"
FIELDS = (
    ("orders", by_id("orderCode"), "orderForm"),
    *(("orders", LINE.format(name), "orderForm") for name in ("length", "width", "count", "worth")),
    ("orders", by_id("findOrder"), "findForm"),
    ("orders", "orderList.querySelector('[data-key=w1]')", "form"),
    *(("stock/GLASS", by_id(f"receive{name}"), "receiveForm") for name in ("Batch", "W", "H", "Count")),
    ("stock/GLASS", by_id("tracePart"), "traceForm"),
    ("saw/4", by_id("jobNumber"), "jobForm"),
    ("happened", by_id("ofOrder"), "narrowForm"),
    ("cut/GLASS", by_id("buyW"), "buyForm"),
    ("cut/GLASS", by_id("buyH"), "buyForm"),
)
CODES = (by_id("orderCode"), by_id("receiveBatch"))
GOOD = (
    "(() => { fillOrder('A-9', [{material: 'GLASS', length: '600', width: '400', count: '2', worth: ''}]); fillReceipt(['GLASS', 'B-9', '600', '400', '1']);"
    " for (const [id, text] of [['buyW', '600'], ['buyH', '400']]) if (document.getElementById(id)) document.getElementById(id).value = text; })()"
)
FAULTS = (
    "[...document.querySelectorAll('main .fault, main [aria-invalid=true], #refusals .notice')].filter(e => e.getClientRects().length)"
    ".map(e => e.textContent.length)"
)


def put(it, find, text):
    it.value(f"(e => {{ e.value = {json.dumps(text)}; e.dispatchEvent(new Event('input', {{bubbles: true}})); }})({find})")


@case(
    "what no field of the page can take",
    "Into each field 10 KB, markup, a control character, a tab, `1.200,5`, 40 digits, digits that aren't ASCII and numbers as programs "
    "write them are put and sent: each is told as a fault, shortened, as text; nothing is sent and nothing scrolls sideways. What may be "
    "any text, an order's text and the shop's name, is shown as text.",
)
def hostile(trial):
    shop, send, _ = shop_with_jobs(trial)
    send(do="note", order="A-1", due=0, text="<img src=x onerror=window.ran=1> & <b>")
    with Terminal(trial, shop) as it:
        it.begin(7)
        it.size(400, 800)
        for address, find, form in FIELDS:
            it.value(f"void (location.hash = '{address}')")
            it.until(f"!refresh.running && ({find})")
            if address.startswith("cut"):
                it.value("void (buyPanel.hidden = false, buyPanel.open = true)")
            holder = f"({find}).form" if form == "form" else by_id(form)
            for text in TEXTS:
                if find in CODES and re.fullmatch("[A-Za-z0-9-]{1,16}", text):
                    continue
                it.value(GOOD)
                put(it, find, text)
                it.value(f"({holder}).requestSubmit()")
                what = f"{find}: {text[:20]!r}"
                it.until(f"{FAULTS}.length")
                trial.holds(max(it.value(FAULTS)) < 400, f"{what}: {max(it.value(FAULTS))} characters are told")
                trial.holds(it.value("document.documentElement.scrollWidth <= innerWidth"), f"{what}: scrolls sideways")
                put(it, find, "")
                it.value("(lastNotice.querySelectorAll('.notice').forEach(e => e.remove()), foldNotices(), jobFault.hidden = true, drawAllAnew(), showView())")
            trial.equal(it.value("terminal.messages().length"), 0, f"{find}: sent")
        it.value("void (location.hash = 'orders')")
        it.until("orderList.textContent.includes('<img src=x onerror=window.ran=1> & <b>')")
        it.value("(storage.write('cutshop.name', '<img src=x onerror=window.ran=1>'), showView())")
        trial.equal(it.text("shopTitle"), "<img src=x onerror=window.ran=1>")
        trial.equal(it.value("[window.ran, document.querySelectorAll('img').length]"), [None, 0])
        is_quiet(it)


@case(
    "what the page tells of a text that is too long",
    "While an order's text is typed the bytes that are left of 200 are told, each letter by its bytes; of a longer one how many are too "
    "many, never a number below 0.",
)
def too_long(trial):
    shop, _, _ = shop_with_jobs(trial)
    with Terminal(trial, shop) as it:
        it.begin(7)
        it.view("orders")
        text = "orderList.querySelector('[data-key=textA-1]')"
        it.until(text)
        for typed, told in (
            ("", "200 of 200 bytes left"),
            ("\u00fc" * 100, "0 of 200 bytes left"),
            ("\u00fc" * 100 + "x", "1 byte too long"),
            ("x" * 300, "100 bytes too long"),
            (" x ", "199 of 200 bytes left"),
        ):
            put(it, text, typed)
            trial.equal(it.value("orderList.querySelector('.noted .quiet').textContent"), told)
        is_quiet(it)
