"""Headless Chromium, driven over its debugging pipe by Python's standard library alone."""

import base64
import json
import os
import select
import shutil
import subprocess
import tempfile
import time
from contextlib import suppress

from kit.case import Failed, Skipped

# What a page is to show comes within so many seconds.
SECONDS = 120

# So often it is looked whether what is to be clicked stays where it is, and nothing lies over it.
MAX_LOOKS = 100

# A click, a typed text and a key are Chromium's own input events, so that what can't be seen or reached isn't clicked.
KEYS = {"Enter": 13, "Tab": 9, "Escape": 27, " ": 32, "ArrowDown": 40, "ArrowUp": 38}

# Where screenshots are left to be looked at; no commit has it.
OUT = os.path.join(os.path.dirname(os.path.abspath(__file__)), "out")


def program():
    """The path of Chromium; a case is skipped where there is none."""
    found = shutil.which("chromium") or shutil.which("chromium-browser")
    if not found:
        raise Skipped("no chromium is installed (apt-get install chromium)")
    return found


class Browser:
    """A Chromium with one page. Messages are JSON texts that end in NUL, on its descriptors 3 and 4."""

    def __init__(self, language="en"):
        path = program()
        self.home = tempfile.mkdtemp(prefix="cutshop-browser-")
        down, self.write_end = os.pipe()
        self.read_end, up = os.pipe()

        def wire():
            # (high first, as 3 or 4 may be one of the pipes' own ends)
            high = [os.dup2(it, 50 + place) for place, it in enumerate((down, up))]
            os.dup2(high[0], 3)
            os.dup2(high[1], 4)

        words = ["--headless=new", "--no-sandbox", "--disable-gpu", "--disable-dev-shm-usage", "--no-first-run"]
        words += ["--disable-background-networking", "--disable-component-update", "--disable-sync"]
        words += [f"--lang={language}", f"--accept-lang={language}"]
        words += ["--remote-debugging-pipe", f"--user-data-dir={self.home}", "about:blank"]
        self.process = subprocess.Popen(
            [path, *words], preexec_fn=wire, close_fds=False, stdout=subprocess.DEVNULL, stderr=subprocess.DEVNULL
        )
        os.close(down)
        os.close(up)
        self.buffer, self.last, self.session = b"", 0, None
        # What the console told as a fault, the requests that left the page, and the answers' addresses with their status.
        self.faults, self.requests, self.answers, self.on_paused = [], [], [], None
        # How often somebody clicked, or picked a file.
        self.clicks = 0

    def __enter__(self):
        target = self.call("Target.createTarget", url="about:blank")["targetId"]
        self.session = self.call("Target.attachToTarget", targetId=target, flatten=True)["sessionId"]
        for domain in ("Page", "Runtime", "Log", "DOM", "Network"):
            self.call(f"{domain}.enable")
        self.size(1280, 800)
        return self

    def __exit__(self, *_):
        self.session = None
        with suppress(RuntimeError, OSError):
            self.call("Browser.close")
        try:
            self.process.wait(10)
        except subprocess.TimeoutExpired:
            self.process.kill()
            self.process.wait()
        os.close(self.read_end)
        os.close(self.write_end)
        shutil.rmtree(self.home, ignore_errors=True)

    def read(self):
        while b"\0" not in self.buffer:
            if not select.select([self.read_end], [], [], 2 * SECONDS)[0]:
                raise RuntimeError("chromium says nothing")
            came = os.read(self.read_end, 1 << 20)
            if not came:
                raise RuntimeError("chromium ended")
            self.buffer += came
        text, _, self.buffer = self.buffer.partition(b"\0")
        return json.loads(text)

    def post(self, method, **params):
        self.last += 1
        message = {"id": self.last, "method": method, "params": params}
        if self.session:
            message["sessionId"] = self.session
        data = json.dumps(message).encode() + b"\0"
        while data:
            data = data[os.write(self.write_end, data) :]
        return self.last

    def call(self, method, **params):
        number = self.post(method, **params)
        while True:
            got = self.read()
            if got.get("id") == number:
                if "error" in got:
                    raise RuntimeError(f"{method}: {got['error']}")
                return got["result"]
            self.note(got)

    def note(self, got):
        """Notes an event: what went wrong in the page, what it asked for, and what waits at the gate of `Fetch`."""
        method, params = got.get("method"), got.get("params", {})
        if method == "Runtime.exceptionThrown":
            self.faults.append(params["exceptionDetails"].get("exception", {}).get("description") or str(params))
        elif method == "Log.entryAdded" and params["entry"]["source"] in ("security", "javascript"):
            self.faults.append(params["entry"]["text"])
        elif method == "Runtime.consoleAPICalled" and params["type"] == "error":
            self.faults.append(str([it.get("value") or it.get("description") for it in params["args"]]))
        elif method == "Network.requestWillBeSent":
            self.requests.append(params["request"]["url"])
        elif method == "Network.responseReceived":
            self.answers.append((params["response"]["url"], params["response"]["status"]))
        elif method == "Fetch.requestPaused" and self.on_paused:
            self.on_paused(params)

    def size(self, width, height=800):
        """Gives the window this size, and waits until the page is drawn in it: a click before goes astray."""
        self.call("Emulation.setDeviceMetricsOverride", width=width, height=height, deviceScaleFactor=1, mobile=False)
        self.value("new Promise(done => requestAnimationFrame(() => requestAnimationFrame(() => done(true))))")

    def go(self, address):
        self.call("Page.navigate", url=address)
        self.until("document.readyState === 'complete'")

    def value(self, text):
        """What an expression of the page is worth."""
        got = self.call("Runtime.evaluate", expression=text, returnByValue=True, awaitPromise=True)
        if "exceptionDetails" in got:
            raise RuntimeError(f"{text}: {got['exceptionDetails'].get('exception', {}).get('description')}")
        return got["result"].get("value")

    def until(self, text, seconds=SECONDS):
        """Waits until an expression holds. (A node is an empty object where it is told by value, so it is made a truth.)"""
        end = time.monotonic() + seconds
        while time.monotonic() < end and not self.faults:
            with suppress(RuntimeError):
                if self.value(f"!!({text})"):
                    return
            time.sleep(0.05)
        self.shot("failed")
        raise Failed(f"\n  it never came: {text}\n  told: {self.told()}\n  faults: {self.faults[:2]}")

    def told(self):
        with suppress(RuntimeError):
            return self.value("document.getElementById('notices').textContent")

    def click(self, find):
        """A click in the middle of what an expression finds, once it can be clicked and stays where it is. Where it moved
        meanwhile, so that nothing was clicked, it is tried again."""
        self.clicks += 1
        end = time.monotonic() + SECONDS
        while not (self.press(find) and self.release()) and time.monotonic() < end:
            self.mouse("mouseReleased", 0, 0)

    def press(self, find):
        """Presses the mouse's button on what an expression finds, and tells whether that wasn't elsewhere by then."""
        self.until(f"(() => {{ const e = {find}; return e && !e.disabled && e.getBoundingClientRect().width > 0; }})()")
        place, is_seen = self.place(find), False
        for _ in range(MAX_LOOKS):
            time.sleep(0.02)
            before, place = place, self.place(find)
            is_seen = place == before and self.value(f"({find}).contains(document.elementFromPoint({place[0]}, {place[1]}))")
            if is_seen:
                break
        self.pressed = place
        self.value(
            f"window.isSeen = {json.dumps(is_seen)}; window.hit = true; if (isSeen) addEventListener('mousedown', event => {{ "
            f"window.held = {find}; window.hit = !!window.held && window.held.contains(event.target); }}, "
            "{ capture: true, once: true })"
        )
        self.mouse("mousePressed", *place)
        if not self.value("window.hit"):
            return False
        self.value(
            "if (window.isSeen) { window.hit = false; addEventListener('click', event => { "
            "window.hit = window.held.contains(event.target); }, { capture: true, once: true }); }"
        )
        return True

    def release(self):
        """Lets go of what was pressed, and tells whether it was clicked. (Where that opened another page nothing is known.)"""
        self.mouse("mouseReleased", *self.pressed)
        return self.value("window.hit") is not False

    def mouse(self, kind, x, y):
        self.call("Input.dispatchMouseEvent", type=kind, x=x, y=y, button="left", clickCount=1)

    def place(self, find):
        """The middle of what an expression finds, brought in sight."""
        return self.value(
            f"(() => {{ const e = {find}; e.scrollIntoView({{ block: 'center' }}); "
            "const r = e.getBoundingClientRect(); return [r.x + r.width / 2, r.y + r.height / 2]; })()"
        )

    def type(self, find, text):
        """Types a text into a field, over what it holds."""
        self.click(find)
        self.value(f"({find}).select && ({find}).select()")
        self.call("Input.insertText", text=text)

    def key(self, key, times=1):
        """Presses a key: one of KEYS, or a digit."""
        number = KEYS.get(key) or ord(key)
        typed = {"Enter": "\r"}.get(key, key if len(key) == 1 else None)
        for _ in range(times):
            for kind in ("rawKeyDown", "char", "keyUp") if typed else ("rawKeyDown", "keyUp"):
                more = {"text": typed} if kind == "char" else {}
                self.call("Input.dispatchKeyEvent", type=kind, key=key, windowsVirtualKeyCode=number, **more)

    def choose(self, find, value):
        """Chooses an option of a list, once it is there."""
        self.until(f"[...({find}).options].some(it => it.value === {json.dumps(value)})")
        self.value(f"(() => {{ const s = {find}; s.value = {json.dumps(value)}; s.dispatchEvent(new Event('change')); }})()")

    def pick(self, find, path):
        """Picks a file for a file field."""
        self.clicks += 1
        found = self.call("Runtime.evaluate", expression=find)["result"]["objectId"]
        self.call("DOM.setFileInputFiles", files=[os.path.realpath(path)], objectId=found)

    def downloaded(self, find, folder):
        """Clicks what saves a file, and gives the path of the file in this folder, once it is whole."""
        before = set(os.listdir(folder))
        self.call("Page.setDownloadBehavior", behavior="allow", downloadPath=folder)
        self.click(find)
        end = time.monotonic() + SECONDS
        while time.monotonic() < end:
            fresh = [it for it in os.listdir(folder) if it not in before]
            if fresh and not fresh[0].endswith(".crdownload"):
                return os.path.join(folder, fresh[0])
            self.value("0")
            time.sleep(0.05)
        self.shot("failed")
        raise Failed(f"\n  nothing was saved by {find}\n  told: {self.told()}")

    def shot(self, name):
        """Leaves a picture of the whole page in OUT."""
        os.makedirs(OUT, exist_ok=True)
        self.value("scrollTo(0, 0)")
        time.sleep(0.1)
        width, height = self.value("[innerWidth, Math.max(innerHeight, Math.min(4000, document.documentElement.scrollHeight))]")
        clip = {"x": 0, "y": 0, "width": width, "height": height, "scale": 1}
        data = self.call("Page.captureScreenshot", format="png", captureBeyondViewport=True, clip=clip)["data"]
        with open(os.path.join(OUT, f"{name}.png"), "wb") as file:
            file.write(base64.b64decode(data))

    def sheets(self, name):
        """How many sheets of A4 the page is printed on. Leaves the print in OUT."""
        data = base64.b64decode(self.call("Page.printToPDF", printBackground=False, preferCSSPageSize=True)["data"])
        os.makedirs(OUT, exist_ok=True)
        with open(os.path.join(OUT, f"{name}.pdf"), "wb") as file:
            file.write(data)
        return data.count(b"/Type /Page\n") + data.count(b"/Type /Page ")
