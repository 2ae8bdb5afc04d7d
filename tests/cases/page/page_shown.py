"""What each view of the page shows at which address, in what room, and how it is reached: its values are of the page's law."""

import time

from browser.chromium import Failed
from browser.terminal import Terminal, by_id, open_shop
from kit.case import case
from kit.gate import gate
from kit.page import is_quiet
from kit.page_answers import answering, plans
from kit.page_saw import BAR, LINES, sender, shop_with_jobs

HASH = "location.hash"
HAPPENED = "(document.getElementById('happened').hidden ? '' : happenedList.textContent)"


def opened(it, address):
    """Opens the page anew at an address behind #."""
    it.go("about:blank")
    it.go(f"{it.address}#{address}")


def shows(it, what):
    """Waits until what an address names is shown."""
    it.until(
        {
            "cut/GLASS": "!tocut.hidden && shop.material === 'GLASS'",
            "cut/STEEL": "!tocut.hidden && shop.material === 'STEEL'",
            "saw/4": "!saw.hidden && jobTitle.textContent.startsWith('Job 4')",
            "saw/5": "!saw.hidden && jobTitle.textContent.startsWith('Job 5')",
            "orders": "!orders.hidden && !foundOrder.textContent",
            "order/A-1": "!orders.hidden && foundOrder.textContent.includes('A-1')",
            "stock/STEEL": "!stock.hidden && stockTitle.textContent.startsWith('STEEL')",
            "stock/GLASS": "!stock.hidden && stockTitle.textContent.startsWith('GLASS')",
            "part/2/1": "!stock.hidden && document.getElementById('traceWords').textContent.includes('2/1') && tracePicture.querySelector('svg')",
            "batch/G-1": "!stock.hidden && document.getElementById('traceWords').textContent.includes('Batch G-1') && document.getElementById('traceWords').textContent.includes('2/0')",
            "yield": "!document.getElementById('yield').hidden",
            "happened": f"{HAPPENED}.includes('order A-1: 2 lines') && happenedTitle.textContent === 'What happened'",
            "happened/3": f"{HAPPENED}.includes('batch S-1') && !{HAPPENED}.includes('batch G-1')",
            "happened/order/A-1": "happenedTitle.textContent === 'What happened to order A-1'",
            "happened/job/4": f"{HAPPENED}.includes('1/1 reserved as job 4')",
            "happened/part/1/0": f"{HAPPENED}.includes('1/0 reserved as job 3')",
        }[what]
    )


@case(
    "addresses of the page",
    "Each view and each thing has an address, which a reload, Back and another tab show the same; tocut means cut, and an unknown one "
    "becomes cut. The keys 1 to 6 open the views, and a reload on a job opens that job.",
)
def addresses(trial):
    shop, _, _ = shop_with_jobs(trial)
    with Terminal(trial, shop) as it:
        it.begin(7)
        every = ("cut/GLASS", "cut/STEEL", "saw/5", "orders", "order/A-1", "stock/STEEL", "stock/GLASS", "part/2/1", "batch/G-1", "yield", "happened", "happened/3", "happened/order/A-1", "happened/job/4", "happened/part/1/0")
        for address in every:
            opened(it, address)
            shows(it, address)
            trial.equal(it.value(HASH), f"#{address}")
            it.call("Page.reload")
            it.until("document.readyState === 'complete' && shop.isKnown")
            shows(it, address)
            trial.equal(it.value(HASH), f"#{address}")
        opened(it, "yield")
        for address in every:
            it.value(f"void (location.hash = '{address}')")
            shows(it, address)
        for address in reversed(every[:-1]):
            it.value("history.back()")
            shows(it, address)
        for address, becomes in (("tocut", "cut"), ("nonsense", "cut"), ("saw/x", "cut"), ("order", "cut"), ("part/4", "cut"), ("", "cut")):
            opened(it, address)
            it.until(f"!tocut.hidden && {HASH} === '#{becomes}'")
        for key, view, address in (("2", "saw", "saw"), ("3", "orders", "orders"), ("4", "stock", "stock"), ("5", "yield", "yield"), ("6", "happened", "happened"), ("1", "tocut", "cut")):
            it.value("document.activeElement.blur()")
            it.key(key)
            it.until(f"!document.getElementById('{view}').hidden && {HASH}.startsWith('#{address}')")
        is_quiet(it)


@case(
    "what is chosen at the page has an address",
    "A job, an order, a part and a material that are chosen at the page are at their address: a reload on job 5 opens job 5. What is "
    "received is shown, also of another material than the one that was chosen.",
)
def chosen(trial):
    shop, _, jobs = shop_with_jobs(trial)
    with Terminal(trial, shop) as it:
        it.begin(7)
        it.view("saw")
        it.until(f"{HASH} === '#saw/{jobs[0]}'")
        it.type(by_id("jobNumber"), str(jobs[2]))
        it.key("Enter")
        it.until(f"{HASH} === '#saw/{jobs[2]}'")
        it.call("Page.reload")
        it.until("document.readyState === 'complete' && atSaw.told")
        trial.holds(it.text("jobTitle").startswith(f"Job {jobs[2]}:"), it.text("jobTitle"))
        it.value("history.back()")
        it.until(f"jobTitle.textContent.startsWith('Job {jobs[0]}:')")
        it.view("orders")
        it.type(by_id("findOrder"), "a-1")
        it.key("Enter")
        it.until(f"{HASH} === '#order/A-1'")
        it.view("stock")
        it.type(by_id("tracePart"), "2/1")
        it.key("Enter")
        it.until(f"{HASH} === '#part/2/1'")
        it.material("stock", "GLASS")
        trial.equal(it.value(HASH), "#stock/GLASS")
        it.receive("STEEL", "S-9", "5000", None, 2)
        it.says("2 units received")
        it.until(f"{HASH} === '#stock/STEEL' && stockList.textContent.includes('5000.0')")
        trial.holds(it.text("stockTitle").startswith("STEEL"), it.text("stockTitle"))
        is_quiet(it)


HEAD = "document.querySelector('header').getBoundingClientRect().height"
ONE_ROW = (
    "(() => { const rows = [...document.querySelectorAll('header h1, header nav button, #link, #terminalButton')]"
    ".filter(e => e.getClientRects().length).map(e => e.getBoundingClientRect()); const middle = r => (r.top + r.bottom) / 2;"
    " return rows.every(r => Math.abs(middle(r) - middle(rows[0])) < 12 && r.left >= 0 && r.right <= innerWidth + 1); })()"
)


@case(
    "the page's header is one row",
    "From 700 pixels of width on the header is one row of at most 64 pixels, in both languages, with a name of 30 letters, also without "
    "a connection. Narrower the views stand in a bar at the bottom of the window.",
)
def one_row(trial):
    shop, _, _ = shop_with_jobs(trial)
    for language in ("en", "de-DE"):
        with Terminal(trial, shop, language) as it:
            it.begin(4294967295)
            it.value("(storage.write('cutshop.name', 'Glaserei Obermaier und Toechter'.slice(0, 30)), showView())")
            for words in ("", "showLink(false), jobCount.textContent = '100+', jobCount.hidden = false"):
                for width in (700, 768, 999, 1000, 1024, 1280):
                    it.size(width)
                    it.value(words)
                    trial.holds(it.value(HEAD) <= 64, f"{language} {width} {words}: {it.value(HEAD)} pixels")
                    trial.holds(it.value(ONE_ROW), f"{language} {width} {words}: not one row")
                    it.shot(f"{width}-header-{language}")
            for width in (360, 400, 699):
                it.size(width)
                top, bottom, high = it.value(
                    "(() => { const r = document.querySelector('nav').getBoundingClientRect(); return [r.top, r.bottom, innerHeight]; })()"
                )
                trial.holds(top > high - 70 and bottom == high, f"{width}: the bar is at {top} to {bottom} of {high}")
            is_quiet(it)


def told(it, number):
    """Has one success told."""
    it.value(f"tell('Receive 1 × STEEL 6000.0 mm: 1 unit received, {number}/0', 'good')")


SHOWN = "[...document.querySelectorAll('#lastNotice .notice')].filter(e => e.getClientRects().length).map(e => e.querySelector('span').textContent)"


@case(
    "how long notices of the page stay",
    "A success goes after 8 seconds, but not while the pointer or the focus is on it; a refusal stays. Two are shown, and “3 more” "
    "unfolds. Three successes take at most 96 pixels of a phone.",
)
def notices(trial):
    shop = open_shop(trial)
    with Terminal(trial, shop) as it:
        it.begin(7)
        it.value("tell('no such part', 'refused')")
        told(it, 1)
        time.sleep(6)
        trial.equal(len(it.value(SHOWN)), 2, "it went before its time")
        it.until(f"{SHOWN}.length === 1", 4)
        trial.equal(it.value(SHOWN), ["✗ no such part"])
        told(it, 2)
        place = it.place("document.querySelector('#successes .notice span')")
        it.call("Input.dispatchMouseEvent", type="mouseMoved", x=place[0], y=place[1])
        time.sleep(10)
        trial.equal(len(it.value(SHOWN)), 2, "it went under the pointer")
        it.call("Input.dispatchMouseEvent", type="mouseMoved", x=600, y=700)
        it.until(f"{SHOWN}.length === 1", 5)
        told(it, 3)
        it.value("document.querySelector('#successes button').focus()")
        time.sleep(10)
        trial.equal(len(it.value(SHOWN)), 2, "it went with the focus")
        it.value("document.activeElement.blur()")
        it.until(f"{SHOWN}.length === 1", 5)
        it.value("document.querySelector('#refusals button').click()")
        for number in range(5):
            told(it, 10 + number)
        trial.equal(len(it.value(SHOWN)), 2)
        trial.equal(it.text("moreNotices"), "3 more")
        it.click(by_id("moreNotices"))
        trial.equal(len(it.value(SHOWN)), 5)
        it.until(f"{SHOWN}.length === 0", 15)
        it.size(400, 800)
        for number in range(3):
            told(it, 20 + number)
        high = it.value("document.getElementById('notices').getBoundingClientRect().height")
        trial.holds(0 < high <= 96, f"three successes take {high} pixels")
        it.shot("400-notices")
        is_quiet(it)


# What is pressed or typed into, and is seen: its sides have to be 48 pixels. A line of text that is a label is pressed with its box.
SMALL = (
    "[...document.querySelectorAll('button, input, select, summary, a[href], textarea')].filter(e => e.getClientRects().length && !e.disabled"
    " && e.closest('svg') === null && getComputedStyle(e).pointerEvents !== 'none').map(e => [e.id || e.className || e.textContent.slice(0, 20), "
    "e.getBoundingClientRect()]).filter(([, r]) => r.height < 47.5 || r.width < 47.5).map(([name, r]) => `${name} ${r.width} x ${r.height}`)"
)


@case(
    "targets of the page",
    "In each view, at 1280, 768 and 400 pixels, what is pressed or typed into is at least 48 pixels high and wide.",
)
def targets(trial):
    shop, send, jobs = shop_with_jobs(trial)
    send(do="done", job=jobs[0])
    with Terminal(trial, shop) as it:
        it.begin(7)
        it.plan_all("STEEL")
        for width in (1280, 768, 400):
            it.size(width, 800)
            for address in ("cut/STEEL", "saw/5", "orders", "order/A-1", "stock/STEEL", "part/2/1", "batch/G-1", "yield", "happened", "happened/order/A-1"):
                it.value(f"void (location.hash = '{address}')")
                it.until("!refresh.running")
                time.sleep(0.3)
                trial.equal(it.value(SMALL), [], f"{address} at {width}")
        it.value("openJob(5)")
        it.until("atSaw.told.job === 5")
        it.value("setBreaking(true)")
        trial.equal(it.value(SMALL), [], "a job that is broken off")
        is_quiet(it)


def in_sight(it, find):
    """Whether what an expression finds lies in the window as it is, and nothing over it."""
    return it.value(
        f"(() => {{ const e = {find}, r = e.getBoundingClientRect(), at = y => e.contains(document.elementFromPoint(r.left + r.width / 2, y));"
        " return r.top >= 0 && r.bottom <= innerHeight && at(r.top + 4) && at(r.bottom - 4); })()"
    )


@case(
    "the next cut and Done at the saw",
    "From key 2 at most three Tabs lead to *Done*. At 400 x 800 and at 1024 x 768 the next cut and *Done* are seen without scrolling, "
    "also behind cuts that are ticked, and the next cut is ticked there.",
)
def next_cut(trial):
    long = "x400 p3 " * 13 + "r"
    shop, send, _ = shop_with_jobs(trial, 0)
    send(do="order", order="B-1", lines=[{**LINES[0], "w": 400}])
    job = send(do="reserve", part="1/0", tree=long)["job"]
    for place in (1, 2):
        send(do="reserve", part=f"1/{place}", tree=BAR)
    with Terminal(trial, shop) as it:
        it.begin(7)
        it.view("saw")
        it.until(f"atSaw.told && atSaw.told.job === {job}")
        it.view("stock")
        it.value("document.activeElement.blur()")
        it.key("2")
        it.until("!saw.hidden")
        for tabs in range(5):
            if it.value("document.activeElement.id") == "done":
                break
            it.key("Tab")
        trial.holds(tabs <= 3, f"{tabs} Tabs to Done")
        for width, height in ((400, 800), (1024, 768)):
            it.size(width, height)
            it.value("scrollTo(0, 0)")
            time.sleep(0.3)
            for made in (0, 5):
                it.value(f"(ticks.set(atSaw.told, new Set(Array.from({{length: {made}}}, (_, i) => i))), showJob())")
                cut = "document.querySelector('#nextCut .cut')"
                trial.holds(f"Saw at 40.0 mm" in it.value(f"{cut}.textContent"), it.value(f"{cut}.textContent"))
                trial.equal(it.value(f"{cut}.querySelector('.mark').textContent"), str(made + 1))
                for find in (cut, by_id("done")):
                    trial.holds(in_sight(it, find), f"{find} isn't seen at {width} x {height} behind {made} cuts")
            it.click(cut)
            trial.equal(it.value(f"ticks.of({job}).has(5)"), True)
            it.shot(f"{width}-next-cut")
        is_quiet(it)


@case(
    "eight equal plans at the saw",
    "Equal plans are one row with the cuts and the jobs' numbers, and the ticket has the names of the rests of all; of one that is broken "
    "off it has that one's alone. *One done* opens the next of them and takes no press for a second; *All 7 done* asks once, and all are done.",
)
def eight(trial):
    shop, _, jobs = shop_with_jobs(trial, 8, "x4185 p1 r".replace("4185", "1000"))
    rows = "[...document.querySelectorAll('#jobList .row')].map(e => e.innerText.split('\\n'))"
    with Terminal(trial, shop) as it:
        it.begin(7)
        it.view("saw")
        it.until(f"{rows}.length === 1")
        trial.equal(it.value(rows), [["8 × 600.0: 100.0", f"STEEL, jobs {jobs[0]} to {jobs[-1]}"]])
        trial.equal([it.text("done"), it.text("allDone")], ["One done", "All 8 done"])
        names = f"{by_id('jobPieces')}.textContent.match(/label it (.*)/)[1]"
        trial.equal(it.value(names), ", ".join(f"{job}/2" for job in jobs))
        it.click(by_id("startBreak"))
        it.click("document.querySelector('#cutList .cut')")
        trial.equal(it.value(names), f"{jobs[0]}/0", "another job's rest is labelled where one is broken off")
        it.click(by_id("stopBreak"))
        it.click(by_id("done"))
        it.until(f"atSaw.told.job === {jobs[1]} && atSaw.deaf > performance.now()")
        it.value("done.click()")
        trial.equal(it.value(f"{by_id('confirm')}.open"), False, "a second press of the same hand is taken")
        it.until(f"allDone.textContent === 'All 7 done'")
        it.click(by_id("allDone"))
        it.confirm()
        it.until("!terminal.kept().length && shop.jobs.length === 0")
        trial.equal([it.ask(f"/job/{job}")["state"] for job in jobs], ["done"] * 8)
        is_quiet(it)


def settled(it):
    """Waits until the page asks nothing for a moment."""
    for _ in range(100):
        before = it.value("queue.sent")
        time.sleep(1)
        if it.value("queue.sent") == before and it.value("!refresh.running"):
            return
    raise Failed("\n  the page asks on and on")


def asked_by(it, way, act):
    """How many requests reach the shop from here on until the page asks nothing for a moment, beside those that look whether anything
    happened."""
    before = len(way.asked)
    act()
    settled(it)
    return len(way.since(before))


@case(
    "how many requests the page makes",
    "Beside `/shop` orders with 61 open ones take at most 6 requests, 69 parts that are reserved at most 75, and the saw with 69 jobs at "
    "most 8, whether they were reserved here or not.",
)
def requests(trial):
    shop = open_shop(trial)
    send = sender(shop)
    send(do="receive", material="STEEL", batch="S-1", w=60000, h=1, count=72)
    send(do="receive", material="GLASS", batch="G-1", w=12000, h=8000, count=2)
    line = {"line": 1, "material": "STEEL", "w": 10000, "h": 1, "turn": False, "count": 1, "worth": 1}
    send(do="order", order="BIG", lines=[{**line, "count": 69}])
    for number in range(60):
        send(do="order", order=f"HUBER-{number}", lines=[line])
    reply = plans([([f"1/{place}" for place in range(69)], 0, "x10000 p1 r", 60000, 1)], 69, 69, proved=True)
    with Terminal(trial, shop) as it, gate(it) as way:
        it.begin(7)
        it.view("yield")
        settled(it)

        def orders():
            it.view("orders")
            it.until("orderList.querySelectorAll('.ordered').length === 61")

        def reserve():
            it.click(by_id("reserve"))
            it.until("toCut.found.jobs.size === 69", 200)

        def saw():
            it.view("saw")
            it.until("atSaw.told && jobList.textContent.includes('69 ×')")

        asked = asked_by(it, way, orders)
        trial.holds(asked <= 6, f"orders with 61 open: {asked} requests")
        trial.equal(it.value("orderList.querySelector('.ordered').textContent.includes('69 left of 69')"), True)
        it.view("tocut")
        it.material("tocut", "STEEL")
        with answering(it, "/plans", lambda _: (200, reply)):
            it.click(by_id("planAll"))
            it.planned()
        settled(it)
        asked = asked_by(it, way, reserve)
        trial.holds(asked <= 75, f"69 parts: {asked} requests")
        trial.equal(it.ask("/demand/1")["reserved"], 69)
        asked = asked_by(it, way, saw)
        trial.holds(asked <= 8, f"the saw with 69 jobs: {asked} requests")
        it.value("void (location.hash = 'yield')")
        settled(it)
        it.call("Page.reload")
        it.until("document.readyState === 'complete' && shop.isKnown")
        settled(it)
        asked = asked_by(it, way, saw)
        trial.holds(asked <= 8, f"the saw with 69 jobs that another reserved: {asked} requests")
        is_quiet(it)


@case(
    "how often the page asks",
    "Seen and left alone each view asks the shop at most 30 times a minute.",
)
def left_alone(trial):
    shop, _, _ = shop_with_jobs(trial)
    with Terminal(trial, shop) as it, gate(it) as way:
        it.begin(7)
        for view in ("tocut", "saw", "orders", "stock", "yield", "happened"):
            it.view(view)
            settled(it)
            before, begin = len(way.asked), time.monotonic()
            time.sleep(20)
            asked, took = way.asked[before:], time.monotonic() - begin
            trial.holds(len(asked) <= took / 2 + 1, f"{view}: {len(asked)} requests in {took:.1f} seconds")
        is_quiet(it)


# Of each line of text in sight its contrast against what lies behind it, where that is under 4.5. (A picture's words have a rim of the
# paper's colour; what can't be pressed is no text to be read.)
FAINT = """(() => {
  const parse = text => (text.match(/[0-9.]+/g) || []).map(Number);
  const light = c => { const f = v => (v /= 255) <= 0.03928 ? v / 12.92 : ((v + 0.055) / 1.055) ** 2.4; return 0.2126 * f(c[0]) + 0.7152 * f(c[1]) + 0.0722 * f(c[2]); };
  const ground = e => { for (; e; e = e.parentElement) { const c = parse(getComputedStyle(e).backgroundColor); if (c.length === 3 || c[3] > 0) return c; } return [255, 255, 255]; };
  const faint = [], walker = document.createTreeWalker(document.body, NodeFilter.SHOW_TEXT);
  for (let node; node = walker.nextNode();) {
    const e = node.parentElement;
    if (!node.data.trim() || e.closest('script, svg, option') || !e.checkVisibility({visibilityProperty: true}) || e.closest(':disabled')) continue;
    const [a, b] = [light(parse(getComputedStyle(e).color)), light(ground(e))], contrast = (Math.max(a, b) + 0.05) / (Math.min(a, b) + 0.05);
    if (contrast < 4.5) faint.push(`${node.data.trim().slice(0, 30)}: ${contrast.toFixed(2)}`);
  }
  return faint;
})()"""
VIEWS = ("cut", "cut/STEEL", "saw/5", "orders", "order/A-1", "stock/STEEL", "part/2/1", "batch/G-1", "yield", "happened")


@case(
    "the page for all eyes",
    "In each view, light and dark, text has a contrast of at least 4.5; at 200 % of 1280 pixels nothing is scrolled sideways; below 1000 "
    "pixels panels stand in one column. No heading holds a button, and each picture has its text.",
)
def for_all_eyes(trial):
    shop, send, jobs = shop_with_jobs(trial)
    send(do="done", job=jobs[0])
    with Terminal(trial, shop) as it:
        it.begin(7)
        it.plan_all("STEEL")
        for theme in ("light", "dark"):
            it.call("Emulation.setEmulatedMedia", features=[{"name": "prefers-color-scheme", "value": theme}])
            for address in VIEWS:
                it.value(f"(tell('one', 'good'), tell('two', 'refused'), void (location.hash = '{address}'))")
                it.until("!refresh.running")
                trial.equal(it.value(FAINT), [], f"{address} {theme}")
        it.size(640, 400)
        for address in VIEWS:
            it.value(f"void (location.hash = '{address}')")
            it.until("!refresh.running")
            trial.equal(it.value("document.documentElement.scrollWidth - innerWidth <= 0"), True, f"{address} at 200 %")
            heads = it.value("document.querySelectorAll('h1 button, h2 button, h3 button, th button, :is(h1, h2, h3, th) input').length")
            trial.equal(heads, 0, f"{address}: a heading holds a button")
            bare = "[...document.querySelectorAll('svg')].filter(e => e.getAttribute('aria-hidden') !== 'true' && !e.getAttribute('aria-label')).length"
            trial.equal(it.value(bare), 0, f"{address}: a picture has no text")
        it.value("(storage.write('cutshop.name', 'Glaserei Obermaier und Toechter'), showView())")
        for width in (1024, 1280):
            it.size(width, 768)
            cut = "[...document.querySelectorAll('nav button, #terminalButton')].filter(e => e.scrollWidth > e.clientWidth || e.offsetHeight > 48)"
            trial.equal(it.value(f"{cut}.map(e => e.textContent)"), [], f"cut at {width} pixels for the shop's name")
        it.size(999, 800)
        for address in VIEWS:
            it.value(f"void (location.hash = '{address}')")
            it.until("!refresh.running")
            panels = "[...document.querySelectorAll('main .panel')].filter(e => e.getClientRects().length).map(e => e.getBoundingClientRect().left)"
            trial.equal(len(set(it.value(panels))), 1, f"{address} at 999 pixels")
        is_quiet(it)


@case(
    "a link past each list",
    "A link before a view's list, which is seen where it has the focus, leads to what stands behind the list.",
)
def past_lists(trial):
    shop, _, _ = shop_with_jobs(trial)
    with Terminal(trial, shop) as it:
        it.begin(7)
        for address, behind in (
            ("cut/STEEL", "planTitle"),
            ("saw/4", "jobTitle"),
            ("orders", "behindOrders"),
            ("stock/STEEL", "tracePart"),
            ("happened", "happenedPages"),
        ):
            it.value(f"void (location.hash = '{address}')")
            it.until("!refresh.running && !refresh.again")
            link = "[...document.querySelectorAll('[data-past]')].find(e => e.getClientRects().length)"
            trial.equal(it.value(f"getComputedStyle({link}).clipPath === 'none'"), False, f"{address}: it is seen")
            it.value(f"{link}.focus()")
            trial.equal(it.value(f"[{link}.textContent, getComputedStyle({link}).clipPath]"), ["Past the list", "none"], address)
            it.key("Enter")
            it.until(f"document.activeElement.id === '{behind}'")
            trial.equal(it.value(HASH), f"#{address}")
        is_quiet(it)


@case(
    "what is at hand at the page while it is drawn anew",
    "Where another terminal changes what is shown, the focus, the caret in what is typed, the scrolling of a table and the choice of a "
    "list stay where they were.",
)
def at_hand(trial):
    shop, send, _ = shop_with_jobs(trial)
    with Terminal(trial, shop) as it:
        it.begin(7)
        it.view("orders")
        text = "orderList.querySelector('[data-key=textA-1]')"
        it.until(text)
        it.type(text, "edges ground")
        it.value(f"{text}.setSelectionRange(3, 7)")
        send(do="amend", demand=1, wanted=41)
        it.until("orderList.textContent.includes('left of 41')")
        trial.equal(it.value(f"[{text} === document.activeElement, {text}.value, {text}.selectionStart, {text}.selectionEnd]"), [True, "edges ground", 3, 7])
        rows = "material,length,width,count\n" + "GLASS,600,400,x\n" * 60
        it.order_file("f-1", "file.csv", rows)
        scroll = "csvPreview.querySelector('.scroll')"
        it.value(f"void ({scroll}.scrollTop = 900)")
        field = "csvPreview.querySelector('[data-key=\"csv 40 count\"]')"
        it.type(field, "3")
        place = it.value(f"{scroll}.scrollTop")
        it.key("Enter")
        it.until(f"{field}.getAttribute('aria-invalid') === 'false'")
        trial.holds(place > 0 and it.value(f"{scroll}.scrollTop") == place, f"{place} became {it.value(scroll + '.scrollTop')}")
        is_quiet(it)


@case(
    "empty views of the page",
    "Where nothing is to cut, no job waits, nothing stands, no order is open, and where something has no entry, each view says so, with a "
    "button that leads on.",
)
def empty_views(trial):
    button = "[...{}.querySelectorAll('button')].find(e => e.textContent === '{}')"
    shop = open_shop(trial)
    with Terminal(trial, shop) as it:
        it.begin(7)
        for address, holder, words, text, leads in (
            ("cut", "wanted", "Nothing to cut.", "New order", f"{HASH} === '#orders'"),
            ("cut/STEEL", "cutFrom", "No stock of STEEL.", "Receive", f"{HASH} === '#stock/STEEL'"),
            ("saw", "jobList", "No job waits.", "Plan", "viewName() === 'tocut'"),
            ("stock/STEEL", "stockList", "Nothing stands.", "Receive", "document.activeElement.id === 'receiveBatch'"),
            ("orders", "orderList", "No order is open.", None, None),
        ):
            it.value(f"void (location.hash = '{address}')")
            it.until(f"{by_id(holder)}.textContent.includes('{words}')")
            if text:
                it.click(button.format(by_id(holder), text))
                it.until(leads)
        sender(shop)(do="order", order="A-1", lines=LINES[:1])
        with answering(it, "/story/order/A-1/0", lambda _: (200, {"entries": [], "more": False, "ok": "story"})):
            it.value("void (location.hash = 'happened/order/A-1')")
            it.until("happenedList.textContent === 'Before records began.'")
        is_quiet(it)
