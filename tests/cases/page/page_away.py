"""The page while its shop is away, and what else may answer at the shop's port: other programs, and other shops."""

import http.server
import json
import re
import threading
from contextlib import contextmanager

from browser.terminal import Terminal, by_id, open_shop
from kit.case import case
from kit.page import is_german, is_quiet
from kit.page_away import begun_again, copied, restored
from kit.page_saw import LINES, sender

RECEIVED = "Receive 3 × STEEL 6000.0\u00a0mm"


@contextmanager
def listening(port, answer):
    """A server at this port that answers each request by a function of it, which gives a status, a body and its kind."""

    class Answer(http.server.BaseHTTPRequestHandler):
        def answered(self):
            self.rfile.read(int(self.headers.get("Content-Length") or 0))
            status, body, kind = answer(self)
            self.send_response(status)
            self.send_header("Content-Type", kind)
            self.send_header("Content-Length", str(len(body)))
            self.end_headers()
            self.wfile.write(body)

        do_GET = do_POST = answered

        def log_message(self, *_):
            pass

    with http.server.ThreadingHTTPServer(("127.0.0.1", port), Answer) as server:
        threading.Thread(target=server.serve_forever, daemon=True).start()
        yield server
        server.shutdown()


# What other programs and proxies answer, and what isn't one object that says what was done.
STRANGE = (
    (404, b"not found", "text/plain"),
    (403, b"", "text/plain"),
    (405, b"", "text/plain"),
    (413, b"{}", "application/json"),
    (400, b"<html>Bad Request</html>", "text/html"),
    (502, b"<html>Bad Gateway</html>", "text/html"),
    (200, b"<html>Log in</html>", "text/html"),
    (200, b'[{"ok":"receive","act":1,"count":3}]', "application/json"),
    (409, b'"refused"', "application/json"),
    (200, b"null", "application/json"),
)


@case(
    "another program at the port of the page's shop",
    "What is typed while another program or a proxy answers in the shop's place is kept, whatever it answers; the page has no "
    "connection and tells what came. It is done once when the same shop is back.",
)
def other_program(trial):
    shop, said = open_shop(trial), [STRANGE[0]]
    with Terminal(trial, shop) as it:
        it.begin(7)
        it.view("stock")
        it.until("shop.materials.length === 2 && !refresh.running")
        shop.kill()
        with listening(shop.port, lambda _: said[0]):
            it.receive("STEEL", "S-1", "6000", None, 3)
            for said[0] in STRANGE:
                status = said[0][0]
                words = f"Last time status {status} came, which is no answer of the shop."
                if status == 403:
                    words = "Last time the shop takes this from its own page alone: open it at 127.0.0.1 or localhost (status 403)."
                it.value("sendKept()")
                it.until(f"{by_id('keptNotice')}.textContent.includes({json.dumps(words)})")
                trial.equal(it.value("terminal.kept().map(message => message.what)"), [RECEIVED], said[0])
                trial.equal((it.text("link"), it.value("document.querySelectorAll('#refusals .notice').length")), ("no connection", 0))
            it.at_widths("another-program")
        begun_again(shop)
        it.says(f"{RECEIVED}: 3 units received, 1/0 to 1/2")
        it.until(f"{by_id('link')}.textContent === 'connected' && !terminal.kept().length")
        trial.equal((it.ask("/totals/STEEL")["received"], it.ask("/terminal/7")["last"]), (3 * 60000, 1))
        # (a message whose number was kept before it was sent stays under it)
        with it.losing_answers():
            it.receive("STEEL", "S-2", "6000", None, 1)
            it.until(f"{by_id('keptNotice')}.textContent.includes('(number 2)')")
        shop.kill()
        with listening(shop.port, lambda _: (404, b"not found", "text/plain")):
            it.value("sendKept()")
            it.until(f"{by_id('keptNotice')}.textContent.includes('status 404 came')")
            trial.equal(it.value("terminal.kept().map(message => message.number)"), [2])
        begun_again(shop)
        it.until("!terminal.kept().length")
        trial.equal((it.ask("/totals/STEEL")["received"], it.ask("/terminal/7")["last"]), (4 * 60000, 2))
        is_quiet(it)


class Gate:
    """What stands before a shop: it tells a run at `/health` and answers 412 where a request names another one, as the program
    does, and hands on all else. Without a run it hands on everything. `lost`: whether answers to messages are lost; `seen`: the
    messages that came, each with the run that it named."""

    def __init__(self, shop, run):
        self.shop, self.run, self.lost, self.seen = shop, run, False, []

    def answer(self, asked, body):
        named = asked.headers.get_all("If-Match") or []
        if asked.path == "/message":
            self.seen.append((json.loads(body)["do"], named))
        if self.run and any(it != f'"{self.run}"' for it in named):
            return 412, b"", "text/plain"
        if self.run and asked.path == "/health":
            told = {"entries": 0, "ok": "health", "run": self.run, "version": "1.1.0"}
            return 200, json.dumps(told).encode(), "application/json"
        host = f"127.0.0.1:{self.shop.port}"
        try:
            there = http.client.HTTPConnection(host, timeout=60)
            there.request(asked.command, asked.path, body or None, {"Host": host, "Content-Length": str(len(body))})
            said = there.getresponse()
            return said.status, said.read(), said.headers.get("Content-Type", "text/plain")
        except OSError:
            return None


@contextmanager
def gate_before(shop, run):
    """A gate before a shop, with its port."""
    gate = Gate(shop, run)

    class Answer(http.server.BaseHTTPRequestHandler):
        def answered(self):
            body = self.rfile.read(int(self.headers.get("Content-Length") or 0))
            said = gate.answer(self, body)
            if said is None or (gate.lost and self.path == "/message"):
                self.close_connection = True
                return
            self.send_response(said[0])
            self.send_header("Content-Type", said[2])
            self.send_header("Content-Length", str(len(said[1])))
            self.end_headers()
            self.wfile.write(said[1])

        do_GET = do_POST = answered

        def log_message(self, *_):
            pass

    with http.server.ThreadingHTTPServer(("127.0.0.1", 0), Answer) as server:
        threading.Thread(target=server.serve_forever, daemon=True).start()
        gate.port = server.server_port
        yield gate
        server.shutdown()


RUNS = ("00c0ffee00c0ffee", "0123456789abcdef", "fedcba9876543210")
BARS = {"do": "receive", "material": "STEEL", "batch": "S-1", "w": 60000, "h": 1, "count": 3}
LINE = {"line": 1, "material": "STEEL", "w": 10000, "h": 1, "turn": False, "count": 3, "worth": 100}
TREE = "x10000 p1 x10000 p1 x10000 p1 r"
AWAY = "What was shown is dropped and read anew."
ASKED = "it isn't sure that it is the shop for which this was typed"
WAITING = "[...document.querySelectorAll('#keptNotice .waiting')]"


def order_and_job(shop, order):
    """By another terminal an order of three bars, demand 1 of the shop, and the job 2 that cuts them."""
    send = sender(shop, first=2)
    send(do="order", order=order, lines=[LINE])
    assert send(do="reserve", part="1/0", tree=TREE)["job"] == 2


def at_gate(it, gate):
    """Opens the page at a gate, as terminal 7."""
    it.address = f"http://127.0.0.1:{gate.port}/"
    it.begin(7)


def done(it, job):
    it.until(f"atSaw.told?.job === {job} && document.querySelector('#jobPicture svg')")
    it.click(by_id("done"))


def row_button(place, text):
    """A button of a message that is asked about."""
    return f"[...{WAITING}[{place}].querySelectorAll('button')].find(e => e.textContent === '{text}')"


@case(
    "a restored shop and what waits at the page",
    "A job is shown and ended while the shop is away. Where a copy from before that job is put in place, and another order's job has "
    "its number, the page drops what it showed and shows the other order, and asks a person before it sends what was typed, which "
    "leaves the other job as it is; thrown away it is gone. Where the shop is the same what waits is done, unasked, once.",
)
def other_shop(trial):
    shop = open_shop(trial)
    sender(shop)(**BARS)
    copied(shop)
    begun_again(shop)
    order_and_job(shop, "MUELLER-1")
    with Terminal(trial, shop) as it, gate_before(shop, RUNS[0]) as gate:
        at_gate(it, gate)
        it.view("saw")
        it.until(f"{by_id('jobPieces')}.textContent.includes('MUELLER-1')")
        shop.kill()
        done(it, 2)
        it.until(f"{by_id('keptNotice')}.textContent.includes('Job 2 done')")
        gate.run = RUNS[1]
        restored(shop)
        order_and_job(shop, "SCHMIDT-2")
        it.says(AWAY)
        it.until(f"{by_id('jobPieces')}.textContent.includes('SCHMIDT-2') && {by_id('keptNotice')}.textContent.includes({json.dumps(ASKED)})")
        trial.holds("MUELLER" not in it.value("document.body.innerText"), "another customer is shown")
        it.at_widths("another-shop")
        it.value("pause(4000)")
        trial.equal((it.ask("/job/2")["state"], it.ask("/demand/1")["made"], it.ask("/terminal/7")["last"]), ("waiting", 0, 0))
        trial.equal([run for do, run in gate.seen if do == "done" and run != [f'"{RUNS[0]}"']], [])
        trial.holds(it.value(f"!{by_id('done')}.hidden && !{by_id('jobTitle')}.textContent.includes('done')"), "the other job is shown as ended")
        # (what is typed meanwhile waits, too)
        it.receive("STEEL", "S-2", "6000", None, 1)
        it.until("terminal.kept().length === 2")
        it.value("pause(4000)")
        trial.equal(it.ask("/terminal/7")["last"], 0)
        it.click(row_button(1, "Throw away"))
        it.says("Receive 1 × STEEL 6000.0\u00a0mm: 1 unit received, 3/0")
        trial.equal((it.ask("/job/2")["state"], it.ask("/terminal/7")["last"], it.text("keptNotice")), ("waiting", 1, ""))
        # (the same shop, started again: what it showed is there as it was)
        shop.kill()
        it.view("saw")
        done(it, 2)
        it.until(f"{by_id('keptNotice')}.textContent.includes('Job 2 done')")
        gate.run = RUNS[2]
        begun_again(shop)
        it.says("Job 2 done: pieces")
        trial.equal((it.ask("/job/2")["state"], it.ask("/demand/1")["made"], it.ask("/terminal/7")["last"]), ("done", 3, 2))
        trial.equal(gate.seen[-1], ("done", [f'"{RUNS[2]}"']))
        is_quiet(it)


@case(
    "what waits at the page where nothing shows which shop answers",
    "What was typed when no entry of the shop was known is asked about, message by message or all, and those of one press as one. Sent "
    "it keeps its number, so that it is done once; in German it is asked in German.",
)
def unknown_shop(trial):
    shop = open_shop(trial)
    bar = lambda batch: {"do": "receive", "material": "STEEL", "batch": batch, "w": 60000, "h": 1, "count": 1}
    with Terminal(trial, shop, "de-DE") as it, gate_before(shop, RUNS[0]) as gate:
        at_gate(it, gate)
        it.view("stock")
        it.until("running.run && !refresh.running && shop.partsOf")
        it.value("(clearTimeout(refresh.timer), refreshPass = () => {}, facts.last = null, 0)")
        gate.lost = True
        it.value(f"void send({json.dumps(bar('N-1'))}, 'Eingang N-1')")
        it.until(f"{by_id('keptNotice')}.textContent.includes('(Nummer 1)')")
        while not it.ask("/terminal/7")["last"]:
            it.value("pause(100)")
        trial.equal(it.ask("/terminal/7")["last"], 1)
        shop.kill()
        for batch in ("N-2", "N-3"):
            it.value(f"void send({json.dumps(bar(batch))}, 'Eingang {batch}')")
        both = [[f"Eingang {batch}", bar(batch)] for batch in ("M-1", "M-2")]
        it.value(f"void sendMany('Eingang von zweien', {json.dumps(both)}, () => 0)")
        it.until("terminal.kept().length === 5")
        trial.equal(it.value("terminal.kept().map(message => [message.run, message.seen])"), [[RUNS[0], None]] * 5)
        gate.run, gate.lost = RUNS[1], False
        begun_again(shop)
        it.until(f"{WAITING}.length === 5")
        asked = f"{WAITING}.map(row => [row.firstChild.textContent.split(', eingegeben')[0].slice(0, 34), [...row.querySelectorAll('button')].map(e => e.textContent)])"
        each = ["Senden", "Wegwerfen"]
        heading = ["Das Programm wurde neu gestartet, ", ["Alle senden", "Alle wegwerfen"]]
        rows = [[f"Eingang {batch}", each] for batch in ("N-1", "N-2", "N-3")]
        trial.equal(it.value(asked), [heading, *rows, ["Eingang von zweien", each]])
        is_german(it, "another-shop")
        trial.equal((it.ask("/terminal/7")["last"], [run for _, run in gate.seen if run != [f'"{RUNS[0]}"']]), (1, []))
        it.click(row_button(2, "Wegwerfen"))
        it.until(f"{WAITING}.length === 4")
        it.click(row_button(3, "Wegwerfen"))
        it.says("Eingang von zweien: 0 von 2 erledigt; 2 verworfen")
        it.click(row_button(1, "Senden"))
        it.until(f"{WAITING}[2]?.textContent.startsWith('Eingang N-1 (Nummer 1)')")
        it.value("pause(4000)")
        trial.equal([run for _, run in gate.seen if run != [f'"{RUNS[0]}"']], [], "sent before all is said")
        it.click(row_button(1, "Senden"))
        it.says("Eingang N-3: 1 Stück eingegangen, 2/0")
        it.until("terminal.kept().length === 0")
        trial.equal([row["batch"] for row in it.ask("/parts/STEEL")["parts"]], ["N-1", "N-3"])
        trial.equal(it.ask("/terminal/7")["last"], 2)
        # (all by one press)
        for number, (text, last) in enumerate((("Alle senden", 4), ("Alle wegwerfen", 4))):
            gate.lost = True
            shop.kill()
            it.value("(facts.last = null, 0)")
            for batch in ("P-1", "P-2"):
                it.value(f"void send({json.dumps(bar(f'{batch}{number}'))}, 'Eingang {batch}')")
            it.until("terminal.kept().length === 2")
            trial.equal(it.value("terminal.kept().map(message => message.seen)"), [None, None])
            gate.run, gate.lost = RUNS[2 - 2 * number], False
            begun_again(shop)
            it.until(f"{WAITING}.length === 3")
            it.click(row_button(0, text))
            it.until("!terminal.kept().length")
            trial.equal(it.ask("/terminal/7")["last"], last)
        is_quiet(it)


@case(
    "another run of the program behind the page",
    "Where the program was started anew unseen, between two requests, the first answer of the other run is none: all that was shown "
    "is dropped, told and read anew, with lines, entries, jobs, the job at the saw, plans and numbers that were typed; what is typed "
    "into forms stays. What a program without runs showed is dropped where it was away.",
)
def other_run(trial):
    shop = open_shop(trial)
    sender(shop)(**BARS)
    copied(shop)
    begun_again(shop)
    order_and_job(shop, "MUELLER-1")
    known = (
        "[facts.lines.size, facts.by.size, facts.old.size, facts.orders.size, facts.entries.size, inOrders.typed.size, atSaw.told, "
        "toCut.found, owner.report]"
    )
    for run in (RUNS[0], ""):
        with Terminal(trial, shop) as it, gate_before(shop, run) as gate:
            at_gate(it, gate)
            it.view("orders")
            it.until("document.querySelector('#orderList [data-key=w1]')")
            it.type("document.querySelector('#orderList [data-key=w1]')", "9")
            it.type(by_id("orderCode"), "NEXT-1")
            it.view("saw")
            it.until(f"{by_id('jobPieces')}.textContent.includes('MUELLER-1')")
            it.until("!refresh.running")
            it.value("(clearTimeout(refresh.timer), toCut.found = {plans: []}, owner.report = {}, 0)")
            it.value("window.dropped = null, window.forgetBefore = forgetShop, forgetShop = () => { forgetBefore(); dropped = " + known + "; }, 0")
            shop.kill()
            if not run:
                it.value("ask('/shop').catch(() => 0)")
                it.until(f"{by_id('link')}.textContent === 'no connection'")
            gate.run = run and RUNS[1]
            restored(shop)
            order_and_job(shop, "SCHMIDT-2")
            it.value("refreshNow()")
            it.says(AWAY)
            it.until("dropped")
            trial.equal(it.value("dropped"), [0] * 6 + [None] * 3)
            it.until(f"{by_id('jobPieces')}.textContent.includes('SCHMIDT-2')")
            trial.holds("MUELLER" not in it.value("document.body.innerText"), "another customer is shown")
            it.view("orders")
            it.until("document.querySelector('#orderList [data-key=w1]')")
            trial.equal(it.value("[document.querySelector('#orderList [data-key=w1]').value, orderCode.value]"), ["3", "NEXT-1"])
            trial.equal(it.text("link"), "connected")
            is_quiet(it)
        shop.kill()
        restored(shop)
        order_and_job(shop, "MUELLER-1")


@case(
    "the page while its shop is away",
    "Since when there is no connection is told, with how many messages wait, and that what is shown is as it was then: it stays. Forms are "
    "emptied as ever, a message that wasn't sent can be dropped, and planning says why it can't.",
)
def away(trial):
    shop = open_shop(trial)
    send = sender(shop)
    send(do="receive", material="STEEL", batch="S-1", w=60000, h=1, count=2)
    send(do="order", order="A-1", lines=[LINES[0]])
    with Terminal(trial, shop) as it:
        it.begin(7)
        it.view("tocut")
        it.material("tocut", "STEEL")
        it.until(f"!{by_id('planAll')}.disabled")
        shop.kill()
        since = r"No connection since \d+:\d\d(\s[AP]M)?"
        it.until(f"{by_id('keptNotice')}.textContent.startsWith('No connection since ')")
        trial.holds(re.fullmatch(f"{since}\\. What is shown is as it was then\\.", it.text("keptNotice")), it.text("keptNotice"))
        trial.holds("A-1" in it.text("wanted") and "2 units" in it.text("cutFrom"), "what is known goes")
        it.click(by_id("planAll"))
        it.until(f"{by_id('planFault')}.textContent === 'No plan came: no answer came.'")
        for batch in ("S-2", "S-3"):
            it.receive("STEEL", batch, "6000", None, 1)
            it.until(f"!{by_id('receiveBatch')}.value")
        it.until(f"{by_id('keptNotice')}.textContent.includes('; 2 messages wait.')")
        it.click(f"[...{by_id('keptNotice')}.querySelectorAll('button')].at(-1)")
        it.until("terminal.kept().length === 1")
        begun_again(shop)
        it.says(": 1 unit received")
        it.until(f"{by_id('link')}.textContent === 'connected' && !{by_id('keptNotice')}.textContent")
        trial.equal(sorted(row["batch"] for row in it.ask("/parts/STEEL")["parts"]), ["S-1", "S-1", "S-2"])
