"""What people do at the terminal's page, as clicks and keys of a real browser."""

import http.server
import json
import os
import re
import threading
import time
from contextlib import contextmanager

from browser.chromium import Browser

TOP = os.path.join(os.path.dirname(os.path.abspath(__file__)), "..", "..")
PAGE = os.path.join(TOP, "page", "terminal.html")

# A bar and a sheet of a workshop's sizes, as README opens the shop with.
with open(os.path.join(TOP, "docs", "workshop.toml"), encoding="utf-8") as shop_file:
    SHOP_FILE = shop_file.read()

WIDTHS = (1280, 400)


def by_id(name):
    return f"document.getElementById({json.dumps(name)})"


def open_shop(trial, shop_file=SHOP_FILE, store="shop.db", words=()):
    """A shop that serves the page."""
    shop = trial.shop(store, shop_file=trial.write("shop.toml", shop_file), words=("--page", PAGE, *words))
    trial.holds(shop.is_open, "the shop doesn't open")
    return shop


def exchange(shop, path, message=None):
    """What a shop answers to a GET, or to a message of another terminal. (A shop with a page looks at the host's name.)"""
    body = b"" if message is None else json.dumps(message).encode()
    method = "GET" if message is None else "POST"
    head = f"{method} {path} HTTP/1.1\r\nHost: 127.0.0.1:{shop.port}\r\nContent-Length: {len(body)}\r\n\r\n"
    return json.loads(shop.exchange(head.encode() + body).partition(b"\r\n\r\n")[2])


@contextmanager
def other_site(page):
    """The port of a server of this machine that answers each GET with this page: another origin."""

    class Answer(http.server.BaseHTTPRequestHandler):
        def do_GET(self):
            self.send_response(200)
            self.send_header("Content-Type", "text/html")
            self.end_headers()
            self.wfile.write(page.encode())

        def log_message(self, *_):
            pass

    with http.server.ThreadingHTTPServer(("127.0.0.1", 0), Answer) as server:
        threading.Thread(target=server.serve_forever, daemon=True).start()
        yield server.server_port
        server.shutdown()


class Terminal(Browser):
    """A browser with the page of a shop, as one terminal."""

    def __init__(self, trial, shop, language="en"):
        super().__init__(language)
        self.trial, self.shop = trial, shop
        self.address = f"http://127.0.0.1:{shop.port}/"

    def begin(self, number):
        """Opens the page and chooses the terminal's number, by keys."""
        self.go(self.address)
        self.open_dialog()
        self.type(by_id("terminalNumber"), str(number))
        self.key("Enter")
        self.until(f"!{by_id('terminalDialog')}.open")

    def open_dialog(self):
        """Opens the dialog of the terminal's number, which isn't asked for before the first message."""
        self.value(f"{by_id('terminalButton')}.click()")
        self.until(f"{by_id('terminalDialog')}.open && {by_id('terminalWords')}.textContent")

    @contextmanager
    def losing_answers(self):
        """The shop's answers to messages are lost on their way to the page."""
        self.on_paused = lambda paused: self.post(
            "Fetch.failRequest", requestId=paused["requestId"], errorReason="ConnectionReset"
        )
        self.call("Fetch.enable", patterns=[{"urlPattern": "*/message", "requestStage": "Response"}])
        yield
        self.call("Fetch.disable")
        self.on_paused = None

    def ask(self, path):
        """What the shop answers to a GET, asked beside the page."""
        return exchange(self.shop, path)

    def view(self, name):
        self.click(f"document.querySelector('nav [data-view={name}]')")
        self.until(f"!{by_id(name)}.hidden")

    def material(self, view, code):
        find = f"[...document.querySelectorAll('#{view} .materials button')].find(it => it.textContent.startsWith('{code}'))"
        self.click(find)
        self.until(f"{find}.getAttribute('aria-pressed') === 'true' && shop.partsOf === '{code}'")

    def says(self, words):
        """Waits until a notice has these words."""
        self.until(f"{by_id('lastNotice')}.textContent.includes({json.dumps(words)})")

    def text(self, name):
        return self.value(f"{by_id(name)}.textContent")

    def confirm(self):
        self.until(f"{by_id('confirm')}.open")
        self.click(by_id("confirmYes"))

    def receive(self, code, batch, length, width, units):
        self.view("stock")
        self.choose(by_id("receiveMaterial"), code)
        self.type(by_id("receiveBatch"), batch)
        self.type(by_id("receiveW"), length)
        if width:
            self.type(by_id("receiveH"), width)
        self.type(by_id("receiveCount"), str(units))
        self.key("Enter")

    def order_file(self, code, name, content):
        """Picks a file for an order; it isn't sent."""
        self.view("orders")
        self.type(by_id("fileCode"), code)
        self.pick(by_id("csvFile"), self.trial.write(name, content))
        self.until(f"{by_id('csvPreview')}.querySelector('table')")

    def plan_all(self, code):
        """Has all that is open of a material planned, to the end of the search."""
        self.view("tocut")
        self.material("tocut", code)
        self.click(by_id("planAll"))
        self.planned()

    def planned(self):
        """Waits until the search for plans of all is over."""
        self.until("!toCut.planning && toCut.found && document.querySelector('#planList svg[role=img]')", 300)

    def propose(self, code):
        """Has the part planned alone that comes first in the list."""
        self.view("tocut")
        self.material("tocut", code)
        self.until(f"factOf('/demands/0/{code}') && {by_id('cutFrom')}.querySelector('button.small:not(:disabled)')")
        self.click(f"{by_id('cutFrom')}.querySelector('.row button')")
        self.until("!toCut.planning && chosenPlan() && document.querySelector('#planList svg[role=img]')", 300)

    def reserve(self):
        """Reserves the plan of one part that is shown, goes to the saw, and gives the job's number."""
        part = self.value("chosenPlan().part")
        self.click(by_id("reserve"))
        self.says(f"Reserve {part}: job ")
        job = int(re.search(rf"Reserve {part}: job (\d+),", self.told())[1])
        notice = f"[...document.querySelectorAll('#lastNotice .notice')].find(it => it.textContent.includes(': job {job},'))"
        self.click(f"{notice}.querySelector('button')")
        self.until(f"atSaw.told && atSaw.told.job === {job} && document.querySelector('#jobPicture svg')")
        return job

    def cut_mark(self, cut):
        """The number of a cut in the picture, where it found room, else its strip."""
        return f"[...document.querySelectorAll('#jobPicture [data-cut=\"{cut}\"]')].at(-1)"

    def at_widths(self, name):
        """Leaves a picture at each width; nothing is to be scrolled sideways."""
        for width in WIDTHS:
            self.size(width)
            time.sleep(0.2)
            self.shot(f"{width}-{name}")
            self.trial.holds(
                self.value("document.documentElement.scrollWidth <= innerWidth"), f"{name} is wider than {width} pixels"
            )
        self.size(WIDTHS[0])
        time.sleep(0.2)
