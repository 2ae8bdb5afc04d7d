"""Headless Firefox, driven over its own remote protocol (Marionette) by Python's standard library alone."""

import json
import os
import shutil
import socket
import subprocess
import tempfile
import time
from contextlib import suppress

from kit.case import Failed, Skipped

# What a page is to show comes within so many seconds; the browser itself may take longer to begin, the first time.
SECONDS, BEGIN_SECONDS = 120, 300

# The port is chosen by the browser; nothing is asked of another machine.
PREFERENCES = {
    "marionette.port": 0,
    "app.update.enabled": False,
    "browser.shell.checkDefaultBrowser": False,
    "datareporting.policy.dataSubmissionEnabled": False,
    "network.captive-portal-service.enabled": False,
    "network.connectivity-service.enabled": False,
    "extensions.getAddons.cache.enabled": False,
    "services.settings.server": "data:,",
    "toolkit.telemetry.enabled": False,
}

# What the console has of a page: faults and warnings of its scripts and styles.
CONSOLE = """
const told = Services.console.getMessageArray().filter(it => it instanceof Ci.nsIScriptError && it.sourceName.startsWith(arguments[0]));
return told.map(it => `${it.errorMessage} (${it.lineNumber})`);
"""

# What the page writes on its console as a fault from here on becomes one of its scripts.
THROWN = "void (console.error = (...words) => setTimeout(() => { throw new Error(words.join(' ')); }, 0))"

# An expression is tried by a script of the page's own, whose policy takes no other.
ASK = """
const script = document.createElement("script"), of = document.documentElement.dataset;
script.textContent = `try { document.documentElement.dataset.told = JSON.stringify(${arguments[0]}); } catch { document.documentElement.dataset.told = "[null]"; }`;
document.head.append(script);
script.remove();
return of.told;
"""


def program():
    """The path of Firefox; a case is skipped where there is none."""
    found = shutil.which("firefox-esr") or shutil.which("firefox")
    if not found:
        raise Skipped("no firefox is installed (apt-get install firefox-esr)")
    return found


class Firefox:
    """A Firefox with one page. A message is its length in bytes, a colon and a JSON text."""

    def __init__(self, language="en"):
        path = program()
        self.home = tempfile.mkdtemp(prefix="cutshop-firefox-")
        with open(os.path.join(self.home, "user.js"), "w", encoding="utf-8") as file:
            for name, value in {**PREFERENCES, "intl.accept_languages": language}.items():
                file.write(f"user_pref({json.dumps(name)}, {json.dumps(value)});\n")
        words = [path, "--headless", "--no-remote", "--marionette", "--remote-allow-system-access", "--profile", self.home]
        self.process = subprocess.Popen(
            words, stdin=subprocess.DEVNULL, stdout=subprocess.DEVNULL, stderr=subprocess.DEVNULL, env={**os.environ, "HOME": self.home}
        )
        self.last, self.buffer, self.socket = 0, b"", None

    def __enter__(self):
        try:
            self.begin()
        except BaseException:
            self.end(0)
            raise
        return self

    def begin(self):
        told, end = os.path.join(self.home, "MarionetteActivePort"), time.monotonic() + BEGIN_SECONDS
        while not (os.path.exists(told) and os.path.getsize(told)):
            if self.process.poll() is not None or time.monotonic() > end:
                raise RuntimeError(f"firefox doesn't begin, status {self.process.poll()}")
            time.sleep(0.1)
        with open(told, encoding="ascii") as file:
            self.socket = socket.create_connection(("127.0.0.1", int(file.read())), timeout=SECONDS)
        self.read()
        self.call("WebDriver:NewSession", capabilities={})

    def __exit__(self, *_):
        with suppress(RuntimeError, OSError, ValueError):
            self.call("Marionette:Quit", flags=["eForceQuit"])
        self.end(10)

    def end(self, seconds):
        """Waits until the browser has ended, at most so long."""
        if self.socket:
            self.socket.close()
        try:
            self.process.wait(seconds)
        except subprocess.TimeoutExpired:
            self.process.kill()
            self.process.wait()
        shutil.rmtree(self.home, ignore_errors=True)

    def read(self):
        while True:
            length, colon, rest = self.buffer.partition(b":")
            if colon and len(rest) >= int(length):
                self.buffer = rest[int(length) :]
                return json.loads(rest[: int(length)])
            came = self.socket.recv(1 << 16)
            if not came:
                raise RuntimeError("firefox ended")
            self.buffer += came

    def call(self, name, **given):
        self.last += 1
        data = json.dumps([0, self.last, name, given]).encode()
        self.socket.sendall(b"%d:%s" % (len(data), data))
        while True:
            _, number, fault, result = self.read()
            if number == self.last:
                if fault:
                    raise RuntimeError(f"{name}: {fault['error']}: {fault['message']}")
                return result

    def go(self, address):
        self.call("WebDriver:Navigate", url=address)
        self.value(THROWN)

    def size(self, width, height=800):
        self.call("WebDriver:SetWindowRect", width=width, height=height)

    def value(self, text):
        """What an expression of the page is worth, or None where it fails."""
        told = self.call("WebDriver:ExecuteScript", script=ASK, args=[f"[{text}]"])["value"]
        return json.loads(told)[0]

    def until(self, text):
        end = time.monotonic() + SECONDS
        while time.monotonic() < end:
            with suppress(RuntimeError):
                if self.value(f"!!({text})"):
                    return
            time.sleep(0.1)
        raise Failed(f"\n  it never came: {text}")

    def console(self, address):
        """What the console has of pages at an address."""
        self.call("Marionette:SetContext", value="chrome")
        told = self.call("WebDriver:ExecuteScript", script=CONSOLE, args=[address])["value"]
        self.call("Marionette:SetContext", value="content")
        return told
