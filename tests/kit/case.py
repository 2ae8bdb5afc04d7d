"""Cases: what one is, how it is named, and how what it saw is compared with what is wanted."""

import os
import shutil
import subprocess
import tempfile
from dataclasses import dataclass, field

from kit.shop import Shop, is_watched

# The repository's folder.
TOP = os.path.dirname(os.path.dirname(os.path.dirname(os.path.abspath(__file__))))

# No run of the program that ends by itself takes this long.
SECONDS = 120


class Failed(Exception):
    """What was seen isn't what is wanted. `at` is the file and line of the data, where that isn't the case's own."""

    def __init__(self, why, at=None):
        super().__init__(why)
        self.at = at


class Skipped(Exception):
    """The case can't be run here, and why."""


@dataclass
class Case:
    """A named check: the sentence that it shows, where it stands, and the function that runs it."""

    name: str
    says: str
    at: str
    body: object


@dataclass
class Ended:
    """How a run of the program ended, and what it wrote."""

    status: int
    out: bytes
    err: bytes


# All cases, in the order in which their files were read.
CASES = []


def place(code):
    return f"{os.path.relpath(code.co_filename)}:{code.co_firstlineno}"


def add(name, says, at, body):
    """Adds a case. Its name stands once."""
    if any(it.name == name for it in CASES):
        raise SystemExit(f"{at}: a second case has the name {name!r}")
    CASES.append(Case(name, says, at, body))


def case(name, says):
    """Adds the function below as the case of this name, which shows this sentence. It gets a `Trial`."""

    def named(body):
        add(name, says, place(body.__code__), body)
        return body

    return named


def short(value):
    """A value as a failure shows it."""
    text = value.decode(errors="backslashreplace") if isinstance(value, bytes) else str(value)
    return text if len(text) <= 2000 else f"{text[:1000]} .. {text[-900:]} ({len(text)} characters)"


# How the lines begin that a server writes of itself: when it begins, for an answer of 98 or 99, and when it ends.
OF_ITSELF = (b"cutshop ", b"cutshop: ")


# What stands behind the line of a fault where memory ran out to say why.
WITHOUT_WHY = b"  memory ran out; end other programs, or give this one more\n"


def fault_in(errors):
    """The line of a fault on standard error: what stands there without a server's lines of itself, and without the one line
    that begins with two spaces, where exactly one stands behind another. A fault without it isn't one of these lines, nor is
    one behind which lack of memory is reported that is none itself."""
    lines = [it for it in errors.splitlines(keepends=True) if not it.startswith(OF_ITSELF)]
    output = b"".join(lines)
    if not lines or lines[0].startswith((b"fault order ", b"error: ")):
        return output
    if len(lines) == 2 and lines[1] == WITHOUT_WHY and lines[0] != b"fault memory\n":
        return output + b"(and no lack of memory before)"
    if len(lines) == 2 and lines[1].startswith(b"  ") and lines[1].endswith(b"\n"):
        return lines[0]
    return output + b"(and no line that says why)"


@dataclass
class Trial:
    """What a case works with: the program, a folder of its own, and whether long sweeps run whole."""

    program: str
    whole: bool
    folder: str = ""
    shops: list = field(default_factory=list)
    # What of exchanges over HTTP wasn't as docs/openapi.json says.
    undescribed: list = field(default_factory=list)

    def __enter__(self):
        at = "/dev/shm" if os.access("/dev/shm", os.W_OK) else None
        self.folder = tempfile.mkdtemp(prefix="cutshop-", dir=at)
        return self

    def __exit__(self, kind, *_):
        for shop in self.shops:
            shop.kill()
        shutil.rmtree(self.folder, ignore_errors=True)
        if kind is None and self.undescribed:
            raise Failed(f"\n  docs/openapi.json says otherwise: {self.undescribed[0]}")

    def path(self, name):
        """The path of a file in the case's folder."""
        return os.path.join(self.folder, name)

    def write(self, name, content):
        """Writes a file in the case's folder, and gives its path."""
        path = self.path(name)
        with open(path, "wb") as file:
            file.write(content.encode() if isinstance(content, str) else content)
        return path

    def run(self, *words, given=b"", environment=None, prepare=None):
        """Runs the program in the case's folder on these words and this standard input, to its end. `prepare` runs in the
        new process before the program."""
        given = given.encode() if isinstance(given, str) else given
        ran = subprocess.run(
            [self.program, *words],
            input=given,
            capture_output=True,
            cwd=self.folder,
            env={**os.environ, **(environment or {})},
            preexec_fn=prepare,
            timeout=SECONDS,
        )
        return Ended(ran.returncode, ran.stdout, ran.stderr)

    def replay(self, lines, **named):
        """What `cutshop replay` answers to these lines."""
        text = lines if isinstance(lines, bytes) else "".join(f"{it}\n" for it in lines).encode()
        return self.run("replay", given=text, **named)

    def shop(self, store="shop.db", **named):
        """A shop that is served from this store file; it is stopped when the case ends."""
        shop = Shop(self, store, **named)
        self.shops.append(shop)
        return shop

    def is_watched(self):
        """Whether the program is one that was built without proofs: it watches its memory, and its calls take more of the stack."""
        return is_watched(self.program)

    def places(self, count, stride=7):
        """The numbers below `count`: all of them in a whole run, else each `stride`-th, and the first and last few."""
        if self.whole:
            return range(count)
        return sorted({it for it in range(count) if it % stride == 0 or it < 3 or it >= count - 3})

    def equal(self, got, wanted, sent="", at=None):
        """Fails unless the two are equal."""
        if got != wanted:
            sent = f"\n  sent:   {short(sent)}" if sent else ""
            raise Failed(f"{sent}\n  wanted: {short(wanted)}\n  got:    {short(got)}", at)

    def ended(self, ran, status, out=b"", err=b"", sent="", why=None):
        """Fails unless a run ended with this status and wrote exactly this; on standard error the line of a fault, and behind
        it the one that says why: this one where it is given."""
        wanted = Ended(status, *[it.encode() if isinstance(it, str) else it for it in (out, err)])
        if why is not None:
            self.equal(ran, Ended(status, wanted.out, wanted.err + f"  {why}\n".encode()), sent)
        self.equal(Ended(ran.status, ran.out, fault_in(ran.err)), wanted, sent)

    def holds(self, fact, why):
        """Fails unless this holds."""
        if not fact:
            raise Failed(f"\n  {short(why)}")
