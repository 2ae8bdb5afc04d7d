"""A shop that `cutshop serve` serves, and what terminals send to it over real sockets."""

import itertools
import json
import os
import re
import select
import signal
import socket
import subprocess
import threading
from contextlib import suppress

from kit import described

# A client waits this long for an answer.
SECONDS = 30

PHRASES = {
    200: "OK",
    400: "Bad Request",
    403: "Forbidden",
    404: "Not Found",
    405: "Method Not Allowed",
    409: "Conflict",
    411: "Length Required",
    412: "Precondition Failed",
    413: "Content Too Large",
    431: "Request Header Fields Too Large",
    503: "Service Unavailable",
}


def answer(status, body=b"", kind="application/json", allow=None):
    """The bytes of an answer over HTTP, as the formats have them."""
    body = body.encode() if isinstance(body, str) else body
    fields = [f"HTTP/1.1 {status} {PHRASES[status]}"]
    fields += [f"Content-Type: {kind}"] if body else []
    fields += [f"Allow: {allow}"] if allow else []
    fields += [f"Content-Length: {len(body)}", "Connection: close", "", ""]
    return "\r\n".join(fields).encode() + body


def status_of(line, reply):
    """The status with which a line's reply is answered: by its refusal, and whether it was a GET."""
    value = json.loads(reply)
    if "ok" in value:
        return 200
    number = value["refused"]
    if number == 10:
        return 400
    if number in (98, 99):
        return 503
    return 404 if number in (20, 42, 43, 50, 52, 70) and path_of(line) else 409


def value_of(line):
    try:
        value = json.loads(line)
    except (ValueError, RecursionError):
        return None
    return value if isinstance(value, dict) else None


# The path of the GET of each query that has one; the others are posted.
PATHS = (
    ("totals", "/totals/{material}"),
    ("rack", "/rack/{material}"),
    ("trace", "/trace/{part}"),
    ("demand", "/demand/{demand}"),
    ("materials", "/materials"),
    ("parts", "/parts/{material}/{after}"),
    ("demands", "/demands/{after}"),
    ("demands", "/demands/{after}/{material}"),
    ("jobs", "/jobs/{after}"),
    ("job", "/job/{job}"),
    ("terminal", "/terminal/{terminal}"),
    ("orders", "/orders/{after}"),
    ("lines", "/order/{order}"),
    ("shop", "/shop"),
    ("history", "/history/{after}"),
    ("story", "/story/order/{order}/{after}"),
    ("story", "/story/job/{job}/{after}"),
    ("story", "/story/part/{part}/{after}"),
    ("pieces", "/pieces/order/{order}/{after}"),
    ("pieces", "/pieces/batch/{batch}/{after}"),
    ("pieces", "/pieces/unit/{unit}/{after}"),
    ("steps", "/steps/{job}"),
)


def path_of(line):
    """The path of the GET that asks what a line asks, or None where it is posted."""
    value = value_of(line) or {}
    for word, path in PATHS:
        if value.get("ask") == word and sorted(value) == sorted(("ask", *re.findall(r"{(\w+)}", path))):
            return path.format(**value).replace("//", "/").rstrip("/")
    return None


def request_of(line, reply=None):
    """The request by which a line is sent: a GET, or a POST of its bytes to its route. A line that is refused 10 is posted
    as a message, whatever it asks."""
    line = line.encode() if isinstance(line, str) else line
    is_bad = reply is not None and json.loads(reply).get("refused") == 10
    path = None if is_bad else path_of(line)
    if path:
        return f"GET {path} HTTP/1.1\r\nHost: shop\r\n\r\n".encode()
    word = (value_of(line) or {}).get("ask")
    route = word if word in ("plan", "bound", "plans") and not is_bad else "message"
    return f"POST /{route} HTTP/1.1\r\nHost: shop\r\nContent-Length: {len(line)}\r\n\r\n".encode() + line


# Ports of shops, below those that the system gives to clients. Each run of the suite begins at another one.
FIRST_PORT, LAST_PORT = 10000, 32000
# The one of them that browsers open no page of.
REFUSED_PORT = 10080
PORTS = itertools.count(os.getpid() * 61)
LOCK = threading.Lock()


def free_port():
    """A port that nobody listens to, and that no other shop of this run has."""
    for _ in range(LAST_PORT - FIRST_PORT):
        with LOCK:
            port = FIRST_PORT + next(PORTS) % (LAST_PORT - FIRST_PORT)
        if port == REFUSED_PORT:
            continue
        with socket.socket() as it, suppress(OSError):
            it.setsockopt(socket.SOL_SOCKET, socket.SO_REUSEADDR, 1)
            it.bind(("127.0.0.1", port))
            return port
    raise OSError("no port is free")


# What a server reports of the requests that it answers, where no page is served and no name of it is given.
ANY_HOST = b"cutshop: Host isn't judged; with --host or --origin only requests for names of this shop are answered\n"

# What the program reports as its own version.
VERSION = "1.1.0"

# What stands behind it: of a program that was built without proofs, that it was.
MARK = {"suffix": ""}


def is_watched(program):
    """Whether a program is one that was built without proofs: it watches its memory."""
    with open(program, "rb") as file:
        return b"AddressSanitizer" in file.read()


def look_at(program):
    """Keeps in mind which program is tried, as it reports that behind its version."""
    MARK["suffix"] = " (unproved)" if is_watched(program) else ""


def version_told():
    """What the program that is tried reports as its version."""
    return VERSION + MARK["suffix"]


def begin_line(store, is_new=True, kept=0, is_named=False):
    """What a server of a store reports on standard error when it begins, where so many messages are kept; and where it serves no page
    and isn't named, that it answers whatever the host."""
    of = "a new store" if is_new else "a store that was there"
    output = f"cutshop {version_told()}: serving {store}, {of}, messages kept: {kept}\n".encode()
    return output + (b"" if is_named else ANY_HOST)


def end_line(store):
    """The line that it reports when it ends."""
    return f"cutshop {version_told()}: ended serving {store}\n".encode()


def busy(process):
    """For how many seconds a process had a processor so far."""
    with open(f"/proc/{process}/schedstat", encoding="ascii") as file:
        return int(file.read().split()[0]) / 1e9


class Shop:
    """A running `cutshop serve`. `limit` is the number of connections after which it ends by itself."""

    def __init__(self, trial, store, shop_file=None, limit=None, environment=None, prepare=None, words=()):
        self.trial, self.store = trial, trial.path(store)
        self.shop_file = shop_file or trial.write("empty.toml", "")
        for _ in range(20):
            self.port = free_port()
            command = [
                trial.program,
                "serve",
                "--port",
                str(self.port),
                "--store",
                self.store,
                "--shop",
                self.shop_file,
                *words,
            ]
            command += ["--limit", str(limit)] if limit else []
            self.process = subprocess.Popen(
                command,
                stdin=subprocess.DEVNULL,
                stdout=subprocess.PIPE,
                stderr=subprocess.PIPE,
                cwd=trial.folder,
                env={**os.environ, **(environment or {})},
                preexec_fn=prepare,
            )
            self.output = self.process.stdout.readline()
            if self.output == f"listening on 127.0.0.1:{self.port}\n".encode():
                return
            self.status = self.process.wait()
            self.errors = self.process.stderr.read()
            if not self.errors.startswith(b"fault port\n"):
                break
        self.port = None

    @property
    def is_open(self):
        """Whether it said that it listens. If not, `status`, `reported` and `errors` say how it ended."""
        return self.port is not None

    def connect(self):
        it = socket.create_connection(("127.0.0.1", self.port), timeout=SECONDS)
        it.setsockopt(socket.IPPROTO_TCP, socket.TCP_NODELAY, 1)
        return it

    def exchange(self, request, pieces=None, ends=None):
        """Sends a request, whole or in pieces of so many bytes, and gives all bytes of its answer. The sending side is ended behind
        it, but for a question for plans: there that would end the search."""
        if ends is None:
            ends = not request.startswith(b"POST /plans ")
        with self.connect() as it:
            try:
                for at in range(0, len(request), pieces or len(request) or 1):
                    it.sendall(request[at : at + (pieces or len(request))])
                if ends:
                    it.shutdown(socket.SHUT_WR)
            except (BrokenPipeError, ConnectionResetError, OSError):
                # (answered before all was sent)
                pass
            came = read_all(it)
        fault = described.fault_in(request, came)
        if fault:
            self.trial.undescribed.append(fault)
        return came

    def send(self, line, reply=None):
        """Sends a line, and gives the whole answer."""
        return self.exchange(request_of(line, reply))

    def reply(self, line):
        """The body of the answer to a line."""
        return self.send(line).partition(b"\r\n\r\n")[2]

    def get(self, path):
        return self.exchange(f"GET {path} HTTP/1.1\r\nHost: shop\r\n\r\n".encode())

    def busy(self):
        """For how many seconds it had a processor so far."""
        return busy(self.process.pid)

    def connections(self):
        """How many connections it has open, beside the socket that listens."""
        folder, opened = f"/proc/{self.process.pid}/fd", []
        for it in os.listdir(folder):
            # (it may be closed by now)
            with suppress(FileNotFoundError):
                opened.append(os.readlink(f"{folder}/{it}"))
        return sum(it.startswith("socket:") for it in opened) - 1

    def has_ended(self, seconds=0.2):
        """Whether it ended by itself, or does so soon."""
        try:
            self.process.wait(timeout=seconds)
        except subprocess.TimeoutExpired:
            return False
        return True

    def stand_still(self):
        """Has it do nothing more until it goes on. What is sent meanwhile waits."""
        self.process.send_signal(signal.SIGSTOP)

    def go_on(self):
        self.process.send_signal(signal.SIGCONT)

    def end(self):
        """Waits until it ends by itself, and gives its status and what it wrote on standard error."""
        out, errors = self.process.communicate(timeout=SECONDS)
        return self.process.returncode, self.output + out, errors

    def kill(self, number=signal.SIGKILL):
        """Stops it, if it still runs, and gives its status."""
        if self.process.poll() is None:
            self.process.send_signal(number)
        status = self.process.wait(timeout=SECONDS)
        for it in (self.process.stdout, self.process.stderr):
            it.close()
        return status


def read_all(connection):
    """All bytes up to the other side's end; those before a reset, where one comes."""
    came = b""
    while True:
        try:
            piece = connection.recv(65536)
        except ConnectionResetError:
            return came
        if not piece:
            return came
        came += piece


def is_silent(connection, seconds):
    """Whether nothing comes from a connection for so long."""
    return not select.select([connection], [], [], seconds)[0]
