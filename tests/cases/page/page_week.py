"""A week at four pages of one shop: office, foreman and two technicians, each with its own storage, in one process of Chromium."""

import os

from browser.terminal import Terminal, by_id, exchange, open_shop
from kit.audits import audited
from kit.case import case
from kit.page import is_quiet, reach
from kit.page_answers import answering, plans
from kit.page_away import begun_again
from kit.page_plans import is_slow
from kit.page_saw import sender

# Each plan cuts four pieces, of four lines, of a bar of 6000.0 mm.
BARS_PLANNED = 8


def office_file(lines):
    rows = [f"{line},STEEL,{100 + line}.0,0.1,no,1,{line}" for line in range(1, lines + 1)]
    return "line,material,length,width,turn,count,worth\n" + "\n".join(rows) + "\n"


def tree_of(bar):
    """The plan of a bar: lines 4 n + 1 to 4 n + 4 of the order, one piece each."""
    demands = range(4 * bar + 1, 4 * bar + 5)
    return " ".join(f"x{(100 + it) * 10} p{it}" for it in demands) + " r"


class Pages:
    """Pages of one browser, each in a context of its own, by name."""

    def __init__(self, it):
        self.it, self.sessions = it, {}

    def open(self, name, number):
        it = self.it
        it.session = None
        context = it.call("Target.createBrowserContext")["browserContextId"]
        target = it.call("Target.createTarget", url="about:blank", browserContextId=context)["targetId"]
        self.sessions[name] = it.session = it.call("Target.attachToTarget", targetId=target, flatten=True)["sessionId"]
        for domain in ("Page", "Runtime", "Log", "DOM", "Network"):
            it.call(f"{domain}.enable")
        it.size(1280, 800)
        it.begin(number)
        it.until("shop.isKnown && !refresh.running")

    def at(self, name):
        self.it.session = self.sessions[name]
        self.it.call("Page.bringToFront")
        return self.it


def shows_what_is(trial, pages, shop):
    """What each page shows is what the shop says."""
    it = pages.at("office")
    told = it.ask("/shop")["entries"]
    jobs = [row["job"] for row in it.ask("/jobs/0")["jobs"]]
    left = sum(row["wanted"] - row["reserved"] - row["made"] for page in demand_pages(it) for row in page)
    standing = sum(row["state"] == "standing" for row in it.ask("/parts/STEEL")["parts"])
    for name in pages.sessions:
        it = pages.at(name)
        it.until(f"!terminal.kept().length && facts.last.entry === {told} && !refresh.running && !refresh.again")
        it.value("void (location.hash = 'cut/STEEL')")
        it.until(f"!refresh.running && shop.partsOf === 'STEEL' && demandsToCut().reduce((all, row) => all + leftOf(row), 0) === {left}")
        trial.equal(it.value("shop.jobs.map(row => row.job)"), jobs, name)
        trial.equal(it.value("shop.parts.filter(isFree).length"), standing, name)
        it.value("void (location.hash = 'happened')")
        it.until(f"happenedList.querySelector('.entries a')?.hash === '#happened/{told}'")
        it.until(f"{by_id('link')}.textContent === 'connected'")


def demand_pages(it):
    after, more = 0, True
    while more:
        reply = it.ask(f"/demands/{after}/STEEL")
        more = reply["more"]
        if reply["demands"]:
            after = reply["demands"][-1]["demand"]
        yield reply["demands"]


@case(
    "a week at four pages",
    "Office, foreman and two technicians in one Chromium: an order of 200 lines, plans of all, jobs that two want to end, a reload, a lost "
    "connection, a start of the program anew and a restored backup. Each message is done once, and at the end what each page shows is what "
    "the shop says, and an audit calls the store whole.",
)
def week(trial):
    os.mkdir(trial.path("backups"))
    shop = open_shop(trial, words=("--backup", trial.path("backups")))
    lines = 60 if is_slow(shop) else 200
    with Terminal(trial, shop) as it:
        pages = Pages(it)
        for number, name in enumerate(("office", "foreman", "first", "second"), 1):
            pages.open(name, number)
        # (Monday: stock and an order)
        pages.at("office")
        it.receive("STEEL", "S-1", "6000", None, BARS_PLANNED + 4)
        it.says(f"{BARS_PLANNED + 4} units received, 1/0 to 1/{BARS_PLANNED + 3}")
        it.order_file("WEEK-1", "week.csv", office_file(lines))
        it.click(by_id("sendCsv"))
        it.says(f"{lines} lines ordered, pieces wanted from no. 1 on")
        # (Tuesday: the foreman reserves, and loses the connection meanwhile)
        pages.at("foreman")
        it.material("tocut", "STEEL")
        it.until(f"shop.demands.length === {lines}")
        rows = [([f"1/{bar}"], 0, tree_of(bar), 60000, 1) for bar in range(BARS_PLANNED)]
        # (of over 100 lines the others are asked for by a question of their own)
        both = {True: plans(rows, BARS_PLANNED, BARS_PLANNED, proved=True), False: plans([], 0, 0, proved=True)}
        with answering(it, "/plans", lambda asked: (200, both[1 in asked["demands"]])):
            it.click(by_id("planAll"))
            it.until("!toCut.planning && toCut.found?.plans.length")
        it.click(by_id("reserve"))
        reach(it, False)
        it.until(f"{by_id('link')}.textContent === 'no connection'")
        reach(it, True)
        it.until("!terminal.kept().length")
        trial.equal(it.value("toCut.found.jobs.size"), BARS_PLANNED)
        jobs = sorted(row["job"] for row in it.ask("/jobs/0")["jobs"])
        trial.equal(len(jobs), BARS_PLANNED)
        # (Wednesday: two technicians at one job; one reloads)
        for name in ("first", "second"):
            pages.at(name)
            it.value(f"void (location.hash = 'saw/{jobs[0]}')")
            it.until(f"atSaw.told?.job === {jobs[0]} && !refresh.running")
        it.value("(clearTimeout(refresh.timer), window.pass = refreshPass, refreshPass = () => {}, 0)")
        pages.at("first")
        it.click(by_id("done"))
        it.until("!terminal.kept().length")
        pages.at("second")
        it.click(by_id("done"))
        it.says(f"Job {jobs[0]}: done by terminal 3, ")
        it.call("Page.reload")
        it.until("document.readyState === 'complete' && atSaw.told && !refresh.running")
        trial.equal(it.ask(f"/job/{jobs[0]}")["state"], "done")
        # (Thursday: the program is started anew while the office and a technician work on)
        shop.kill()
        it.value(f"void send({{do: 'done', job: {jobs[1]}}}, 'Job {jobs[1]} done')")
        pages.at("office")
        it.receive("GLASS", "G-1", "1200", "800", 2)
        begun_again(shop)
        it.says(": 2 units received")
        pages.at("second").until("!terminal.kept().length")
        trial.equal((it.ask(f"/job/{jobs[1]}")["state"], it.ask("/totals/GLASS")["received"]), ("done", 2 * 12000 * 8000))
        shows_what_is(trial, pages, shop)
        # (Friday: a backup is put in the place of the shop behind what another device did)
        trial.equal(exchange(shop, "/backup", {})["backup"], 1)
        pages.at("office").until(f"{by_id('link')}.textContent === 'connected' && !refresh.lost")
        it.receive("STEEL", "S-2", "5000", None, 1)
        it.says(": 1 unit received")
        sender(shop)(do="scrap", part=f"1/{BARS_PLANNED}")
        for name in pages.sessions:
            pages.at(name).until("facts.last?.entry === %d && !refresh.running" % it.ask("/shop")["entries"])
        shop.kill()
        trial.equal(trial.run("restore", "--store", "shop.db", "--from", "backups/1").status, 0)
        begun_again(shop)
        for name in pages.sessions:
            pages.at(name).says("What was shown is dropped and read anew.")
            trial.equal("It doesn't have: Receive 1 × STEEL" in it.told(), name == "office", name)
        shows_what_is(trial, pages, shop)
        is_quiet(it)
        entries = it.ask("/shop")["entries"]
    shop.kill()
    audited(trial, "shop.db", entries)
