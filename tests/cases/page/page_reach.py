"""Whether everything of the page is reached by keys, has a name and a place, and reads well: section 5 of the page's law."""

import json
import time

from browser.terminal import Terminal, by_id
from kit.case import case
from kit.page import is_quiet
from kit.page_saw import LINES, shop_with_jobs

VIEWS = ("cut", "cut/GLASS", "saw/4", "saw/3", "orders", "order/A-1", "stock/GLASS", "part/1/0", "part/9/9", "batch/G-1", "yield", "happened", "happened/order/A-1")
# A file of which three columns have a bad cell, and a material another name.
BAD = "Pos.;Werkstoff;Länge (cm);Breite (cm);Stück\n1.1;Float 8;79,7;59,7;3\n1.2;Float 8;x;597;8 Stk\n2.1;GLASS;120,05;y;viele\n"
ROWS = "Werkstoff;Länge (mm);Breite (mm);Stück;Preis\nGLASS;797;597;3;9\nGLASS;497;397;x;9\nFloat 4;497;397;2;9\n"

# What can't be told to somebody who doesn't see: a field, button, region or picture without a name, a table without heads or a head
# that isn't one of a row or a column, an id that stands twice, a reference that leads nowhere, a heading that skips a level.
UNNAMED = """(() => {
  const out = [], vis = e => e.checkVisibility({checkVisibilityCSS: true}) && e.getClientRects().length;
  const refs = (e, key) => (e.getAttribute(key) || '').split(' ').filter(Boolean);
  const isField = e => ['INPUT', 'SELECT', 'TEXTAREA'].includes(e.tagName);
  const named = e => (e.getAttribute('aria-label') || refs(e, 'aria-labelledby').map(id => document.getElementById(id)?.textContent).join('')
    || [...e.labels || []].map(label => label.textContent).join('') || (isField(e) ? '' : e.textContent)).trim();
  for (const e of document.querySelectorAll('button, a[href], input, select, summary, progress, dialog[open], section, [role=region], [role=group], svg[role=img]'))
    if (vis(e) && !named(e)) out.push(`no name: ${e.outerHTML.slice(0, 80)}`);
  for (const e of document.querySelectorAll('fieldset')) if (vis(e) && !e.querySelector('legend')?.textContent) out.push('a group without a legend');
  for (const e of document.querySelectorAll('table')) if (vis(e) && !e.querySelector('th')) out.push(`no heads: ${e.textContent.slice(0, 40)}`);
  for (const e of document.querySelectorAll('th')) if (vis(e) && !e.scope) out.push(`head of what: ${e.textContent}`);
  const ids = [...document.querySelectorAll('[id]')].map(e => e.id);
  out.push(...ids.filter((id, i) => ids.indexOf(id) !== i).map(id => `twice: ${id}`));
  for (const key of ['aria-describedby', 'aria-labelledby'])
    for (const e of document.querySelectorAll(`[${key}]`))
      for (const id of refs(e, key)) if (!document.getElementById(id)) out.push(`${key} leads nowhere: ${id}`);
  let level = 1;
  for (const e of document.querySelectorAll('h1, h2, h3, h4')) {
    if (!vis(e)) continue;
    if (Number(e.tagName[1]) > level + 1) out.push(`skips a level: ${e.textContent}`);
    level = Number(e.tagName[1]);
  }
  return out;
})()"""

# Sizes, lengths and areas that stand on two lines, and what is wider than its place.
BROKEN = r"""(() => {
  const out = [], vis = e => e.checkVisibility({checkVisibilityCSS: true}) && e.getClientRects().length;
  if (document.documentElement.scrollWidth > innerWidth) out.push('scrolls sideways');
  for (const e of document.querySelectorAll('.scroll')) if (vis(e) && e.scrollWidth > e.clientWidth) out.push(`a table scrolls sideways: ${e.textContent.slice(0, 40)}`);
  const walker = document.createTreeWalker(document.querySelector('main'), NodeFilter.SHOW_TEXT);
  for (let node; node = walker.nextNode();) {
    if (node.parentElement.closest('svg, option, .unseen') || !vis(node.parentElement)) continue;
    for (const found of node.data.matchAll(/\d+[.,]\d(\s×\s\d+[.,]\d)?(\smm²?|\sm²?)/g)) {
      const range = document.createRange();
      range.setStart(node, found.index);
      range.setEnd(node, found.index + found[0].length);
      if (new Set([...range.getClientRects()].map(r => Math.round(r.top / 8))).size > 1) out.push(found[0]);
    }
  }
  return out;
})()"""

# What can be pressed or typed into, in the order of the document; a group of radio buttons is one.
STOPS = (
    "[...document.querySelectorAll('button, a[href], input, select, summary, [tabindex=\"0\"]')].filter(e => e.checkVisibility({checkVisibilityCSS: true}) "
    "&& e.getClientRects().length && !e.disabled && getComputedStyle(e).pointerEvents !== 'none' && !(e.type === 'radio' && !e.checked))"
)


def shown(it, address):
    it.value(f"void (location.hash = '{address}')")
    it.until("!refresh.running && !refresh.again")
    time.sleep(0.3)
    it.until("!refresh.running && !refresh.again")


def with_all_states(trial):
    """A shop whose jobs are done, broken and waiting, with a line of long numbers."""
    shop, send, jobs = shop_with_jobs(trial)
    send(do="order", order="LIEFERUNG-2026-X", lines=[{**LINES[1], "w": 11970, "h": 7970, "count": 900}])
    send(do="note", order="LIEFERUNG-2026-X", due=20261203, text="edges ground, at gate 3 before noon")
    send(do="break", job=jobs[0], cuts=[0, 1], lost=2, rest=2000)
    return shop


@case(
    "names of all that is on the page",
    "In each view, in dialogs, at a file's preview and a break each field, button, group, table and picture has a name, each head is one of a "
    "row or a column, no id stands twice, and no heading skips a level.",
)
def names(trial):
    with Terminal(trial, with_all_states(trial)) as it:
        it.begin(7)
        for address in VIEWS:
            shown(it, address)
            trial.equal(it.value(UNNAMED), [], address)
        it.order_file("f-1", "file.csv", ROWS)
        trial.equal(it.value(UNNAMED), [], "a file")
        shown(it, "yield")
        it.click("document.querySelector('#yieldBars [data-key=ySTEEL]')")
        it.until("document.querySelector('#report table')")
        trial.equal(it.value(UNNAMED), [], "a report")
        shown(it, "saw/4")
        it.click(by_id("startBreak"))
        it.type(by_id("breakRest"), "99999")
        it.until("breakRest.getAttribute('aria-invalid') === 'true'")
        trial.equal(it.value("[breakRest.getAttribute('aria-describedby'), document.getElementById('breakWords').className]"), ["breakWords", "fault"])
        trial.equal(it.value(UNNAMED), [], "a break")
        it.click(by_id("terminalButton"))
        it.until(f"{by_id('terminalDialog')}.open")
        trial.equal(it.value(UNNAMED), [], "the terminal's dialog")
        is_quiet(it)


@case(
    "all of the page by Tab",
    "In each view Tab reaches everything that can be pressed or typed into, one behind another, and each shows that it has the focus.",
)
def by_tab(trial):
    with Terminal(trial, with_all_states(trial)) as it:
        it.begin(7)
        for address in ("cut/GLASS", "saw/4", "orders", "stock/GLASS", "yield", "happened"):
            shown(it, address)
            it.value("(clearTimeout(refresh.timer), document.activeElement.blur(), window.came = new Set(), window.bare = [])")
            every = it.value(f"{STOPS}.length")
            for _ in range(every + 25):
                it.key("Tab")
                it.value(
                    "(e => { came.add(e); const s = getComputedStyle(e); if (e !== document.body && e.type !== 'date' && (s.outlineStyle === 'none' || parseFloat(s.outlineWidth) < 2)) "
                    "bare.push(e.outerHTML.slice(0, 80)); })(document.activeElement)"
                )
            trial.equal(it.value(f"{STOPS}.filter(e => !came.has(e)).map(e => e.outerHTML.slice(0, 80))"), [], f"{address}: not reached")
            trial.equal(it.value("bare"), [], f"{address}: not seen")
        is_quiet(it)


@case(
    "numbers at the page that stay together",
    "At 1280, 1024, 768 and 400 pixels, in English and in German, no size, length or area stands on two lines in any view, no table is wider "
    "than its place, a file's preview and a report neither.",
)
def together(trial):
    shop = with_all_states(trial)
    for language in ("en", "de-DE"):
        with Terminal(trial, shop, language) as it:
            it.begin(7)
            for address in VIEWS:
                shown(it, address)
                for width in (1280, 1024, 768, 400):
                    it.size(width)
                    trial.equal(it.value(BROKEN), [], f"{address} at {width}, {language}")
            it.size(1280)
            for name, rows in (("file.csv", ROWS), ("bad.csv", BAD)):
                it.order_file("f-1", name, rows)
                it.until("csvPreview.querySelectorAll('tbody th').length === 3")
                for width in (1280, 1024, 768, 400):
                    it.size(width)
                    trial.equal(it.value(BROKEN), [], f"{name} at {width}, {language}")
                it.size(1280)
            shown(it, "yield")
            it.click("document.querySelector('#yieldBars [data-key=yGLASS]')")
            it.until("document.querySelector('#report table')")
            for width in (1280, 1024, 768, 400):
                it.size(width)
                trial.equal(it.value(BROKEN), [], f"a report at {width}, {language}")
            is_quiet(it)


@case(
    "views of the page on paper",
    "A view that is printed as it stands has the shop's name and the day on it, and neither buttons nor fields.",
)
def views_on_paper(trial):
    with Terminal(trial, with_all_states(trial)) as it:
        it.begin(7)
        it.value("(storage.write('cutshop.name', 'Metallbau Huber'), showView())")
        for address, words in (("order/A-1", "line 1: STEEL"), ("happened/order/A-1", "Order A-1"), ("stock/GLASS", "batch G-1"), ("cut/GLASS", "Plan of GLASS")):
            shown(it, address)
            it.value("(window.dispatchEvent(new Event('beforeprint')), 0)")
            it.call("Emulation.setEmulatedMedia", media="print")
            seen = "[...document.querySelectorAll('button:not(.unfold), input, select')].filter(e => e.getClientRects().length).map(e => e.outerHTML.slice(0, 60))"
            trial.equal(it.value(seen), [], f"{address} on paper")
            head = it.value("document.querySelector('main .pagehead').innerText")
            day = it.value("new Date().toLocaleDateString(navigator.language, {dateStyle: 'medium'})")
            trial.holds(head.startswith(f"Metallbau Huber · {day}"), f"{address}: {json.dumps(head)}")
            trial.holds(words in it.value("document.querySelector('main').innerText"), f"{address}: {words} isn't on paper")
            it.call("Emulation.setEmulatedMedia", media="")
        is_quiet(it)
