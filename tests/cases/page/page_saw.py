"""The page's view of the saw, in a real browser where one is installed."""

import json
import re
import shutil
import signal
import subprocess

from browser.terminal import SHOP_FILE, Terminal, by_id, open_shop
from kit.case import case
from kit.page import is_quiet
from kit.page_answers import answering
from kit.page_saw import BAR, LINES, sender, shop_with_jobs

SHEET = "x4000 y3000 p2 r r"


def stocked(trial):
    """A shop with three bars, three sheets and an order, and what sends it messages."""
    shop = open_shop(trial)
    send = sender(shop)
    stock(send)
    return shop, send


def stock(send):
    """Three bars, three sheets and an order."""
    send(do="receive", material="STEEL", batch="S-1", w=6000, h=1, count=3)
    send(do="receive", material="GLASS", batch="G-1", w=12000, h=8000, count=3)
    send(do="order", order="A-1", lines=LINES)


def begin_at_saw(it, job):
    """Begins as terminal 7 at the saw, which shows this job."""
    it.begin(7)
    it.view("saw")
    it.until(f"atSaw.told && atSaw.told.job === {job}")


def open_job(it, job):
    """Opens any job by its number, by keys."""
    it.type(by_id("jobNumber"), str(job))
    it.key("Enter")
    it.until(f"atSaw.told && atSaw.told.job === {job} && document.querySelector('#jobPicture svg')")


def row(cut):
    return f"document.querySelectorAll('#cutList .cut')[{cut}]"


def says_what_is(it, job):
    """Each part that the ticket names stands, and each that stands of the job is named."""
    names = re.findall(rf"(?:kept|kept as|label it)\s({job}/\d+)", it.value("document.getElementById('jobPanel').innerText"))
    standing = [f"{job}/{node}" for node in range(9) if it.ask(f"/trace/{job}/{node}").get("state") == "standing"]
    it.trial.equal(sorted(set(names)), standing)


def figures(it):
    return it.value("[...document.querySelectorAll('#jobFigures div')].map(it => it.innerText.replace('\\n', ' '))")


@case(
    "what a job at the page came to",
    "Of a job that was broken off the ticket tells the cuts that were made, the pieces and the rests that there are, in the "
    "visit that broke it off, and in another by its entry, also where the saw takes nothing; of one that was released that "
    "nothing was cut.",
)
def outcome(trial):
    free = '\n[[material]]\ncode = "WIRE"\nkind = "bar"\nkerf = "0.0"\nmin_long = "10.0"\nmin_short = "0.1"\n'
    shop = open_shop(trial, SHOP_FILE + free)
    send = sender(shop)
    stock(send)
    send(do="receive", material="WIRE", batch="W-1", w=6000, h=1, count=1)
    send(do="order", order="B-1", lines=[{**LINES[0], "material": "WIRE"}])
    bar, sheet, wire, other = [
        send(do="reserve", part=part, tree=tree)["job"]
        for part, tree in (("1/0", BAR), ("2/0", SHEET), ("3/0", BAR.replace("p1", "p3")), ("1/1", BAR))
    ]
    with Terminal(trial, shop) as it:
        it.begin(7)
        it.view("saw")
        open_job(it, bar)
        trial.equal(figures(it)[2:4], ["4 cuts", "4 pieces"])
        it.click(by_id("startBreak"))
        it.click(row(0))
        it.click(row(0))
        trial.holds("uncut 497.5\u00a0mm, kept as" in it.text("cutList"), "what isn't cut further is kept whole")
        it.click("document.querySelector('[name=breakMode][value=lost]')")
        it.click(row(1))
        trial.equal(it.value(f"{row(3)}.innerText.includes('kept as')"), False, "a cut that wasn't made keeps nothing")
        trial.equal(figures(it)[2:4], ["1 of 4 cuts made", "1 piece"])
        it.click(by_id("sendBreak"))
        it.says(f"Break off job {bar}")
        it.until(f"{by_id('jobTitle')}.textContent.includes('broken off')")
        trial.equal(figures(it)[2:], ["1 of 4 cuts made", "1 piece", "broken off state"])
        trial.holds("✗ went wrong" in it.value(f"{row(1)}.innerText"), "the cut that went wrong isn't told")
        says_what_is(it, bar)
        it.shot("saw-broken")
        send(do="break", job=wire, cuts=2, lost=False)
        send(do="break", job=other, cuts=[0, 1], lost=2)
        send(do="release", job=sheet)
        it.call("Page.reload")
        it.until("atSaw && document.readyState === 'complete' && shop.materials.length")
        for job, made in ((bar, 1), (wire, 2), (other, 2)):
            open_job(it, job)
            it.until(f"{by_id('jobWords')}.textContent.endsWith('what was left.')")
            trial.equal(figures(it)[2:4], [f"{made} of 4 cuts made", "1 piece" if made == 1 else f"{made} pieces"])
            classes = it.value("[...document.querySelectorAll('#cutList .cut')].map(it => it.classList.contains('made'))")
            trial.equal(classes, [place < made for place in range(4)])
            drawn = it.value("document.querySelectorAll('#jobPicture > svg > rect.piece').length")
            trial.equal(drawn, made, "pieces in the picture")
            says_what_is(it, job)
        asked = len([address for address in it.requests if f"/story/job/{other}/" in address])
        it.view("stock")
        it.view("saw")
        for _ in range(2):
            it.value("refreshNow()")
            it.until("!refresh.running && !queue.busy")
        again = len([address for address in it.requests if f"/story/job/{other}/" in address])
        trial.equal((asked, again), (0, 0), "how it broke off is asked for, which is among the entries that were read")
        open_job(it, sheet)
        it.shot("saw-released")
        trial.equal(figures(it)[2:], ["0 of 2 cuts made", "given back state"])
        trial.equal(it.value("document.querySelectorAll('#jobPicture > svg > rect:is(.piece, .kept, .scrap, .kerf)').length"), 0)
        trial.holds("nothing was cut" in it.text("jobWords"), it.text("jobWords"))
        panel = it.value("document.getElementById('jobPanel').innerText")
        trial.equal(re.findall(r"kept|label|scrap", panel), [])
        trial.equal(it.faults, [])


@case(
    "a job's number at the page that isn't there",
    "A number without a job is told beside its field; the ticket that was shown stays, and the waiting jobs are drawn on.",
)
def unknown(trial):
    shop, send = stocked(trial)
    first = send(do="reserve", part="1/0", tree=BAR)["job"]
    with Terminal(trial, shop) as it:
        begin_at_saw(it, first)
        for text, wanted in (("999", "There is no job 999."), ("x", "A job's number is a whole number from 1 on.")):
            it.type(by_id("jobNumber"), text)
            it.key("Enter")
            it.until(f"{by_id('jobFault')}.textContent === \"{wanted}\"")
            trial.equal(it.value("document.activeElement.id"), "jobNumber")
        trial.holds(f"Job {first}:" in it.text("jobTitle") and it.value(f"!{by_id('jobPanel')}.hidden"), "the ticket is gone")
        second = send(do="reserve", part="1/1", tree=BAR)["job"]
        it.until(f"{by_id('jobList')}.textContent.includes('jobs {first} to {second}')")
        it.value("VIEWS.saw.read.unshift(() => ask('/job/999'))")
        third = send(do="reserve", part="1/2", tree=BAR)["job"]
        it.until(f"{by_id('jobList')}.textContent.includes('jobs {first} to {third}')")
        open_job(it, second)
        trial.equal(it.text("jobFault"), "")
        trial.equal(it.faults, [])


@case(
    "ticks of another plan at the page",
    "A store of before takes a job's place by one of the same number with another plan: none of its cuts is ticked, and "
    "nothing is offered as broken off; ticks of the same plan stay over a reload.",
)
def other_plan(trial):
    shop, send = stocked(trial)
    shop.kill(signal.SIGKILL)
    for end in ("", "-wal"):
        shutil.copy(shop.store + end, f"{shop.store}.before{end}")
    port, command = shop.port, shop.process.args

    def start():
        shop.process = subprocess.Popen(command, stdin=subprocess.DEVNULL, stdout=subprocess.PIPE, stderr=subprocess.PIPE)
        trial.equal(shop.process.stdout.readline(), f"listening on 127.0.0.1:{port}\n".encode())

    start()
    job = sender(shop, 101)(do="reserve", part="1/0", tree=BAR)["job"]
    with Terminal(trial, shop) as it:
        begin_at_saw(it, job)
        it.click(row(2))
        made = "[...document.querySelectorAll('#cutList .cut')].map(it => it.classList.contains('made'))"
        trial.equal(it.value(made), [True, True, True, False])
        it.call("Page.reload")
        it.until("document.readyState === 'complete' && document.querySelectorAll('#cutList .cut').length === 4")
        trial.equal(it.value(made), [True, True, True, False])
        shop.kill(signal.SIGKILL)
        for end in ("", "-wal"):
            shutil.copy(f"{shop.store}.before{end}", shop.store + end)
        start()
        trial.equal(sender(shop, 101)(do="reserve", part="1/1", tree="x1000 p1 x1000 p1 r")["job"], job)
        it.until("document.querySelectorAll('#cutList .cut').length === 2")
        trial.equal(it.value(made), [False, False])
        it.click(by_id("startBreak"))
        it.click(row(0))
        trial.holds("No cut is marked yet" in it.text("breakWords"), it.text("breakWords"))
        trial.holds(it.value(f"{by_id('sendBreak')}.disabled"), "a break that nobody marked can be sent")
        for cut in range(2):
            it.click(row(cut))
        trial.holds("All cuts are marked as made" in it.text("breakWords"), it.text("breakWords"))
        trial.holds(it.value(f"{by_id('sendBreak')}.disabled"), "work that is done can be sent as broken off")


@case(
    "a release at the page of a job that was begun",
    "Where cuts are ticked, *Give back* says so, names what is for that, and takes no Enter for a yes; where none is, the part "
    "stands again.",
)
def begun(trial):
    shop, send = stocked(trial)
    job = send(do="reserve", part="1/0", tree=BAR)["job"]
    with Terminal(trial, shop) as it:
        begin_at_saw(it, job)
        for cut, wanted in ((1, "2 of 4 cuts are marked as made, and “Broken off…” is for that."), (3, "“Done” is for that.")):
            it.click(row(cut))
            it.click(by_id("release"))
            it.until(f"{by_id('confirm')}.open")
            trial.holds(wanted in it.text("confirmWords"), it.text("confirmWords"))
            it.key("Enter")
            it.until(f"!{by_id('confirm')}.open")
            trial.equal(it.ask(f"/job/{job}")["state"], "waiting")
        it.click(row(0))
        it.click(by_id("release"))
        it.until(f"{by_id('confirm')}.open")
        trial.equal(it.text("confirmWords"), f"Give back job {job}, of which no cut was made? Its part 1/0 stands again, as it was.")
        it.confirm()
        it.says(f"Give back job {job}: done")
        trial.equal(it.ask("/trace/1/0")["state"], "standing")
        trial.equal(it.value("document.activeElement.id"), "jobTitle")
        trial.equal(it.faults, [])


@case(
    "a job's end at the page by Enter",
    "Enter, pressed again and again at *Done*, ends the job once and no other; the focus is at the result. While the shop is "
    "silent what was sent can't be followed by another end. Where a scrapped part's row is gone the focus is at the list's "
    "heading. A dialog has its question as its name.",
)
def ended(trial):
    shop, send = stocked(trial)
    first, second = [send(do="reserve", part=part, tree=tree)["job"] for part, tree in (("2/0", SHEET), ("1/0", BAR))]
    with Terminal(trial, shop) as it:
        begin_at_saw(it, first)
        it.value(f"{by_id('done')}.focus()")
        for _ in range(8):
            it.key("Enter")
        it.says(f"Job {first} done: pieces")
        it.until(f"{by_id('jobTitle')}.textContent.startsWith('Job {first}, done')")
        trial.equal(it.value("document.activeElement.id"), "jobTitle")
        trial.holds("Label what is kept" in it.told() and "refused" not in it.told(), it.told())
        trial.equal((it.ask("/terminal/7")["last"], it.ask(f"/job/{second}")["state"]), (1, "waiting"))
        it.click(by_id("nextJob"))
        it.until(f"atSaw.told.job === {second}")
        shop.process.send_signal(signal.SIGSTOP)
        it.click(by_id("release"))
        it.until(f"{by_id('confirm')}.open")
        names = it.value(
            "[...document.querySelectorAll('dialog')].map(it => document.getElementById(it.getAttribute('aria-labelledby'))"
            ".textContent.includes('?'))"
        )
        trial.equal(names, [True, True])
        it.confirm()
        it.until(f"{by_id('jobTitle')}.textContent.startsWith('Job {second}, given back, unanswered')")
        hidden = "['done', 'startBreak', 'release'].every(id => document.getElementById(id).hidden)"
        trial.holds(it.value(hidden), "a job whose end was sent can be ended again")
        shop.process.send_signal(signal.SIGCONT)
        it.says(f"Give back job {second}: done")
        it.until(f"{by_id('jobTitle')}.textContent.startsWith('Job {second}, given back:')")
        it.view("stock")
        it.material("stock", "STEEL")
        row_of = "document.querySelector('#stockList [data-key=\"ms1/0\"]')"
        it.until(row_of)
        it.value(f"{row_of}.focus()")
        it.key("Enter")
        it.confirm()
        it.says("Scrap 1/0: done")
        it.until("document.activeElement.id === 'stockTitle'")
        trial.equal(it.faults, [])


@case(
    "the saw at the page of a tablet",
    "At 1280, 768 and 400 pixels Tab goes as the eye does, from the jobs to the ticket; a job that is chosen from a long list "
    "has its ticket's head in sight and the focus there.",
)
def tablet(trial):
    shop, send = stocked(trial)
    send(do="receive", material="STEEL", batch="S-2", w=6000, h=1, count=12)
    send(do="order", order="B-1", lines=[{**LINES[0], "line": line, "w": 1000 + line} for line in range(1, 13)])
    jobs = [send(do="reserve", part=f"3/{place}", tree=f"x{1001 + place} p{3 + place} r")["job"] for place in range(12)]
    with Terminal(trial, shop) as it:
        it.begin(7)
        it.view("saw")
        for width, height in ((1280, 800), (768, 1000), (400, 800)):
            it.size(width, height)
            for job in (jobs[1], jobs[-1]):
                if not it.value(f"{by_id('jobsPanel')}.open"):
                    it.click(by_id("jobsFold"))
                it.click(f"document.querySelector('#jobList [data-key=j{job}]')")
                it.until(f"atSaw.told && atSaw.told.job === {job}")
                it.until("document.activeElement.id === 'jobTitle'")
                top, high = it.value("[document.getElementById('jobTitle').getBoundingClientRect().top, innerHeight]")
                trial.holds(60 < top < high / 2 + 1, f"{width}: the ticket of job {job} begins at {top} of {high}")
            it.shot(f"{width}-saw-of-many")
            it.value("(atSaw.isListed = true, foldJobs(), scrollTo(0, 0))")
            trial.equal(tab_order(it), ["jobMaterial", "jobNumber", "jobList", "done", "cutList"], width)
            trial.holds(it.value("document.documentElement.scrollWidth <= innerWidth"), f"wider than {width}")
        trial.equal(it.faults, [])


def tab_order(it):
    """Where Tab leads in the view, holder by holder, each of which lies below or right of the one before."""
    it.value("document.getElementById('jobMaterial').focus()")
    came, last = [], None
    for _ in range(80):
        name, top, left = it.value(
            "(() => { const at = document.activeElement, holder = at.closest('#jobList, #cutList') || at, "
            "box = holder.getBoundingClientRect(); return [holder.id, box.top + scrollY, box.left]; })()"
        )
        if name and name not in came:
            it.trial.holds(last is None or top >= last[0] or left > last[1], f"{name} stands above what came before: {came}")
            came, last = [*came, name], (top, left)
        if name == "cutList":
            break
        it.key("Tab")
    return [name for name in came if name in ("jobMaterial", "jobNumber", "jobList", "done", "cutList")]


@case(
    "equal plans at the saw",
    "Waiting jobs with the same plan are one row, with its cuts, how often and the jobs' numbers. Where *One done* is pressed by Enter "
    "the next of them opens, and what came of the first is told. A plan for another demand isn't the same.",
)
def equal_plans(trial):
    shop, send = stocked(trial)
    send(do="receive", material="STEEL", batch="S-2", w=6000, h=1, count=3)
    send(do="order", order="B-1", lines=[LINES[0]])
    other = BAR.replace("p1", "p3")
    jobs = [send(do="reserve", part=part, tree=tree)["job"] for part, tree in (("1/0", BAR), ("1/1", other), ("1/2", BAR), ("3/0", BAR))]
    rows = "[...document.querySelectorAll('#jobList .row')].map(e => e.innerText.split('\\n'))"
    with Terminal(trial, shop) as it:
        begin_at_saw(it, jobs[0])
        plan = "600.0: 100.0 | 100.0 | 100.0 | 100.0"
        together = [[f"3 × {plan}", f"STEEL, jobs {jobs[0]}, {jobs[2]} to {jobs[3]}"], [plan, f"STEEL, job {jobs[1]}"]]
        it.until(f"{rows}[0][0].startsWith('3 × ')")
        trial.equal(it.value(rows), together)
        trial.equal([it.text("done"), it.text("allDone")], ["One done", "All 3 done"])
        it.at_widths("saw-equal")
        it.value(f"{by_id('done')}.focus()")
        for _ in range(8):
            it.key("Enter")
        it.says(f"Job {jobs[0]} done: pieces 400.0\u00a0mm")
        it.until(f"atSaw.job === {jobs[2]}")
        trial.equal(it.value("document.activeElement.id"), "jobTitle")
        it.until(f"{rows}[0][0] === '2 × {plan}' || {rows}[1][0] === '2 × {plan}'")
        trial.equal([it.ask(f"/job/{job}")["state"] for job in jobs], ["done", "waiting", "waiting", "waiting"])
        it.until("performance.now() >= atSaw.deaf")
        for job, following in ((jobs[2], jobs[3]), (jobs[3], jobs[3])):
            it.until("performance.now() >= atSaw.deaf")
            it.click(by_id("done"))
            it.says(f"Job {job} done: pieces")
            it.until(f"atSaw.job === {following}")
        it.until("atSaw.told.state === 'done'")
        trial.equal(it.ask(f"/job/{jobs[1]}")["state"], "waiting", "another plan was taken for the same")
        trial.equal(it.faults, [])


# A sheet of 1200.0 by 800.0 mm: a turned piece of 300.0 by 400.0 mm at its left, one that isn't turned beside it, and a rest of
# 494.0 by 47.0 mm, which isn't kept. Its cuts are the nodes 0, 1, 4, 5 and 8.
TURNED = "x3000 y4000 p2t r x4000 y3000 p3 r y7500 r r"


def cells_told(words):
    """How many cells a text like “0.2400 m²” or “8382.00 mm²” is, and how much it may be off by its last digit."""
    number, unit = words.replace("\u202f", "").split("\u00a0")
    per = {"mm²": 100, "m²": 100000000}[unit]
    return float(number) * per, per * 10 ** -len(number.partition(".")[2]) / 2


@case(
    "a ticket of a sheet to the letter",
    "Of a sheet with a turned piece the ticket tells kerf and sides, each cut by its number in the list, in the picture and on paper, "
    "across or along, with what it gives, whose piece and whether turned; its pieces; the legend; and when it is done the cells and "
    "the names to write on what is kept.",
)
def to_the_letter(trial):
    shop = open_shop(trial)
    send = sender(shop)
    send(do="receive", material="GLASS", batch="G-1", w=12000, h=8000, count=1)
    send(do="order", order="A-1", lines=[LINES[0], {**LINES[1], "turn": True}, {**LINES[1], "line": 3}])
    job = send(do="reserve", part="1/0", tree=TURNED)["job"]
    with Terminal(trial, shop) as it:
        begin_at_saw(it, job)
        it.until("document.querySelector('#jobPicture svg')")
        trial.equal(figures(it), ["1200.0\u00a0×\u00a0800.0\u00a0mm part to cut", "3.0 mm kerf", "5 cuts", "2 pieces", "waits state"])
        cuts = it.value("[...document.querySelectorAll('#cutList .cut')].map(e => [...e.querySelectorAll('.mark, b, .quiet')].map(e => e.textContent))")
        trial.equal([row[0] for row in cuts], list("12345"))
        piece = "gives piece {} of A-1 line {}{}; rest {}, kept as {}/{}"
        trial.equal(
            [row[2] for row in cuts],
            [
                "",
                piece.format("300.0\u00a0×\u00a0400.0\u00a0mm", "2 (no. 2)", " turned", "300.0\u00a0×\u00a0397.0\u00a0mm", job, 3),
                "",
                piece.format("400.0\u00a0×\u00a0300.0\u00a0mm", "3 (no. 3)", "", "400.0\u00a0×\u00a0497.0\u00a0mm", job, 7),
                f"gives rest 494.0\u00a0×\u00a0750.0\u00a0mm, kept as {job}/9; rest 494.0\u00a0×\u00a047.0\u00a0mm, scrap",
            ],
        )
        marks = "[...document.querySelectorAll('#jobPicture .mark')].map(e => [e.textContent, e.classList[1]]).sort()"
        trial.equal(it.value(marks), [[str(place), "open"] for place in range(1, 6)])
        it.click(row(1))
        trial.equal(it.value(marks), [[str(place), "made" if place < 3 else "open"] for place in range(1, 6)])
        rulers = "[...document.querySelectorAll('#jobPicture .ruler')].map(e => [e.textContent, e.getAttribute('transform')?.includes('rotate') ?? false])"
        trial.equal(it.value(rulers), [["1200.0 mm", False], ["800.0 mm", True]])
        legend = "[...document.querySelectorAll('#jobPicture .legend li')].map(e => [e.querySelector('rect').classList[1], e.textContent])"
        wanted = {"piece": "piece", "kept": "rest kept", "scrap": "scrap", "kerf": "kerf 3.0 mm"}
        trial.equal(dict(it.value(legend)), wanted)
        pieces = it.value("[...document.querySelectorAll('#jobPieces tbody tr')].map(e => [...e.cells].map(e => e.textContent))")
        rests = ((3, "300.0\u00a0×\u00a0397.0\u00a0mm"), (7, "400.0\u00a0×\u00a0497.0\u00a0mm"), (9, "494.0\u00a0×\u00a0750.0\u00a0mm"))
        kept = [["rest", size, f"kept: label it {job}/{node}"] for node, size in rests]
        ordered = [["1 ×", "400.0\u00a0×\u00a0300.0\u00a0mm", f"order A-1, line {line} (no. {line})"] for line in (2, 3)]
        trial.equal(pieces, [*ordered, *kept])
        paper = it.value("[...document.querySelectorAll('#jobSheet p')].map(e => e.textContent)")
        trial.equal(
            paper,
            [
                "☐ 1 across 300.0 mm of 1200.0\u00a0×\u00a0800.0\u00a0mm",
                f"☐ 2 along 400.0 mm of 300.0\u00a0×\u00a0800.0\u00a0mm → A-1/2 ↻, keep {job}/3",
                "☐ 3 across 400.0 mm of 897.0\u00a0×\u00a0800.0\u00a0mm",
                f"☐ 4 along 300.0 mm of 400.0\u00a0×\u00a0800.0\u00a0mm → A-1/3, keep {job}/7",
                f"☐ 5 along 750.0 mm of 494.0\u00a0×\u00a0800.0\u00a0mm → keep {job}/9, scrap",
            ],
        )
        it.click(by_id("done"))
        it.until(f"{by_id('confirm')}.open")
        trial.equal(it.text("confirmWords"), "Only 2 of 5 cuts are ticked. Were all made?")
        it.confirm()
        it.says(f"Job {job} done: pieces")
        told = re.search(r"pieces ([^,]+), kept ([^,]+), kerf ([^,]+), scrap (.+?)\. Label what is kept: (.*?)(?:Take back|✕|$)", it.told())
        totals = it.ask("/totals/GLASS")
        for words, heap in zip(told.groups(), ("pieces", "rack", "kerf", "scrap")):
            number, off = cells_told(words)
            trial.holds(abs(number - totals[heap]) <= off, f"{heap}: {words} of {totals[heap]}")
        trial.equal(told[5], ", ".join(f"{job}/{node} ({size})" for node, size in rests))
        trial.equal(it.faults, [])


@case(
    "a break with many cuts that are ticked in any order",
    "Twelve cuts of a bar that are ticked from the last one on are told to the shop as they rise; that the first one went wrong is "
    "told too. On paper each cut has a mark for what became of it.",
)
def any_order(trial):
    shop, send = stocked(trial)
    many = "x400 p3 " * 13 + "r"
    send(do="order", order="B-1", lines=[{**LINES[0], "w": 400}])
    first, second = send(do="reserve", part="1/0", tree=many)["job"], send(do="reserve", part="1/1", tree=BAR)["job"]
    marks = "[...document.querySelectorAll('#jobSheet p')].map(e => e.textContent[0]).join('')"
    with Terminal(trial, shop) as it:
        begin_at_saw(it, first)
        it.click(by_id("startBreak"))
        it.click(row(11))
        it.click(by_id("sendBreak"))
        it.says(f"Break off job {first}: pieces 480.0\u00a0mm, kept 0.0\u00a0mm")
        trial.equal(it.ask("/demand/3")["made"], 12)
        it.until(f"atSaw.told.state === 'broken' && {marks} === '{'✓' * 12}–'")
        open_job(it, second)
        it.click(by_id("startBreak"))
        it.click(by_id("sendBreak"))
        it.says(f"Break off job {second}: pieces 0.0\u00a0mm, kept 0.0\u00a0mm, kerf 0.0\u00a0mm, scrap 600.0\u00a0mm")
        trial.equal(it.ask(f"/trace/{second}/0")["state"], "scrap")
        it.until(f"atSaw.told.state === 'broken' && {marks} === '✗–––'")
        trial.equal(it.faults, [])


@case(
    "jobs of one material at the saw",
    "Where a material is chosen its jobs alone are listed, opened by *Next job* and printed; a ticket of many jobs names all of them, "
    "and on each rest all of its names; a turned piece's label has its sides as they were ordered.",
)
def of_one_material(trial):
    shop = open_shop(trial)
    send = sender(shop)
    stock(send)
    send(do="order", order="B-1", lines=[{**LINES[1], "line": 1, "turn": True}])
    short = "x1000 p1 r"
    jobs = [send(do="reserve", part=part, tree=tree)["job"] for part, tree in (("1/0", short), ("2/0", "x3000 y4000 p3t r r"), ("1/1", short))]
    with Terminal(trial, shop) as it:
        begin_at_saw(it, jobs[0])
        listed = "[...document.querySelectorAll('#jobList .row')].map(e => e.innerText.split('\\n'))"
        it.until(f"{listed}.length === 2")
        trial.equal([row[1].split(",")[0] for row in it.value(listed)], ["GLASS", "STEEL"], "by material")
        it.choose(by_id("jobMaterial"), "STEEL")
        it.until(f"{listed}.length === 1")
        trial.equal(it.value(listed), [["2 × 600.0: 100.0", f"STEEL, jobs {jobs[0]}, {jobs[2]}"]])
        it.click(by_id("nextJob"))
        it.until(f"atSaw.job === {jobs[2]}")
        it.until(f"factOf('/job/{jobs[0]}') && factOf('/job/{jobs[2]}')")
        it.value("(window.print = () => { window.asked = (window.asked || 0) + 1; }, window.asked = 0)")
        sheet = (
            "[...document.querySelectorAll('#sheets .ticket')].map(e => [e.querySelector('h2'), e.querySelector('h2 + p'), "
            "...e.querySelectorAll('.pieces tr')].map(e => e.textContent))"
        )
        bar = "[...document.querySelectorAll('#sheets .barlist tbody tr')].map(e => [...e.cells].map(cell => cell.textContent))"
        labels = "[...document.querySelectorAll('#sheets .label')].map(e => [...e.children].map(it => it.textContent))"

        def printed(material):
            told = []
            it.choose(by_id("jobMaterial"), material)
            for button, what in (("printWaiting", bar if material == "STEEL" else sheet), ("labelWaiting", labels)):
                it.value("window.asked = 0")
                it.click(by_id(button))
                it.until("window.asked === 1")
                told.append(it.value(what))
            return tuple(told)

        names = f"{jobs[0]}/2, {jobs[2]}/2"
        steel = ["2 ×", "600.0: 100.0 A-1/1", f"497.5: label {names}", f"{jobs[0]}, {jobs[2]}", "☐ ☐"]
        rows = [["A-1", "line 1", "100.0\u00a0mm", f"piece {place + 1} of 40", f"job {job}"] for place, job in enumerate((jobs[0], jobs[2]))]
        trial.equal(printed("STEEL"), ([steel], rows))
        tickets, rows = printed("GLASS")
        trial.equal([ticket[1].strip() for ticket in tickets], [f"Job {jobs[1]} (2/0), 2 cuts  ☐"])
        trial.equal(rows, [["B-1", "line 1", "400.0\u00a0×\u00a0300.0\u00a0mm", "piece 1 of 9", f"job {jobs[1]}"]])
        trial.equal(it.faults, [])


@case(
    "a break at the page that is marked over a reload",
    "The panel of a break, its wrong cut and the rest that was typed stay over a reload, another job and another view, until the job is "
    "broken off or the panel is left. Where the shop refuses it they come back.",
)
def break_kept(trial):
    shop, send, jobs = shop_with_jobs(trial)
    panel = f"[!{by_id('breakPanel')}.hidden, atSaw.lost, {by_id('breakRest')}.value]"
    with Terminal(trial, shop) as it:
        it.begin(7)
        it.value(f"void (location.hash = 'saw/{jobs[0]}')")
        it.until(f"atSaw.told?.job === {jobs[0]}")
        it.click("document.querySelectorAll('#cutList .cut')[0]")
        it.click(by_id("startBreak"))
        it.click("document.querySelector('[name=breakMode][value=lost]')")
        it.click("document.querySelectorAll('#cutList .cut')[2]")
        it.type(by_id("breakRest"), "150,5")
        trial.equal(it.value(panel), [True, 2, "150,5"])
        it.call("Page.reload")
        it.until(f"document.readyState === 'complete' && atSaw.told?.job === {jobs[0]} && !{by_id('breakPanel')}.hidden && !refresh.running")
        trial.equal(it.value(panel), [True, 2, "150,5"])
        trial.equal(it.value(f"[...ticks.of({jobs[0]})]"), [0, 1])
        it.value(f"openJob({jobs[1]})")
        it.until(f"atSaw.told.job === {jobs[1]} && {by_id('breakPanel')}.hidden")
        it.view("yield")
        it.value(f"void (location.hash = 'saw/{jobs[0]}')")
        it.until(f"atSaw.told.job === {jobs[0]} && !{by_id('breakPanel')}.hidden")
        trial.equal(it.value(panel), [True, 2, "150,5"])
        # (a refusal, as the shop never gives one of what the page calls good)
        refusal = {"name": "BadCut", "refused": 72}
        with answering(it, "/message", lambda asked: (409, refusal)):
            it.click(by_id("sendBreak"))
            it.says("(72 BadCut)")
        it.until(f"!{by_id('breakPanel')}.hidden")
        trial.equal(it.value(panel), [True, 2, "150,5"])
        it.click(by_id("sendBreak"))
        it.until("atSaw.told.state === 'broken'")
        trial.equal(it.value(f"{by_id('breakPanel')}.hidden"), True)
        halted = next(row["message"] for row in it.ask(f"/story/job/{jobs[0]}/0")["entries"] if row["message"]["do"] == "break")
        trial.equal((halted["cuts"], halted["lost"], halted["rest"]), ([0, 1], 2, 1505))
        it.value(f"openJob({jobs[1]})")
        it.until(f"atSaw.told.job === {jobs[1]}")
        it.click(by_id("startBreak"))
        it.click(by_id("stopBreak"))
        it.call("Page.reload")
        it.until(f"document.readyState === 'complete' && atSaw.told?.job === {jobs[1]} && !refresh.running")
        trial.equal(it.value(f"{by_id('breakPanel')}.hidden"), True)
        is_quiet(it)


@case(
    "plans at the saw that differ",
    "The row of each waiting job tells its pieces, also of a job that has no equal and was never opened: they come from the entries that are "
    "read for what ended last, and which terminal has begun it stays known.",
)
def differing(trial):
    shop, send, _ = shop_with_jobs(trial, 0)
    jobs = [send(do="reserve", part=f"1/{place}", tree="x1000 p1 " * (place + 1) + "r")["job"] for place in range(3)]
    send(do="begin", job=jobs[1])
    rows = "[...document.querySelectorAll('#jobList .row b')].map(e => e.textContent)"
    with Terminal(trial, shop) as it:
        it.begin(7)
        it.view("saw")
        it.until(f"JSON.stringify({rows}) === {json.dumps(json.dumps(['600.0: ' + ' | '.join(['100.0'] * pieces) for pieces in (1, 2, 3)], separators=(',', ':')))}")
        it.value(f"void (location.hash = 'saw/{jobs[1]}')")
        it.until(f"atSaw.told?.job === {jobs[1]} && {by_id('jobFigures')}.textContent.includes('Terminal 8')")
        is_quiet(it)


@case(
    "the last ten that ended at the saw",
    "The last ten jobs that ended are listed, the last one first, however much happened behind them; one that is taken back is among them.",
)
def last_ten(trial):
    shop, send, jobs = shop_with_jobs(trial, 12, "x1000 p1 r")
    for job in jobs[:11]:
        send(do="done", job=job)
    for number in range(310):
        send(do="note", order="A-1", due=0, text=str(number))
    rows = "[...endedJobs.querySelectorAll('.row')].map(e => Number(e.value))"
    with Terminal(trial, shop) as it:
        it.begin(7)
        it.view("saw")
        it.until(f"{rows}.length === 10")
        trial.equal(it.value(rows), list(reversed(jobs[1:11])))
        send(do="done", job=jobs[11])
        it.until(f"{rows}[0] === {jobs[11]}")
        trial.equal(it.value(rows), list(reversed(jobs[2:12])))
        send(do="undo", job=jobs[4])
        it.until(f"{rows}[0] === {jobs[4]}")
        trial.holds("taken back" in it.text("endedJobs"), it.text("endedJobs"))
        trial.equal(len(it.value(rows)), 10)
        is_quiet(it)
