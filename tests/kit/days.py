"""Days of a shop: messages of an example with their replies, and what the books hold behind each of them."""

import os
import subprocess
import threading
from contextlib import suppress
from dataclasses import dataclass

from kit import exchanges, tables
from kit.case import SECONDS
from kit.faults import Faults
from kit.shop import busy

QUESTIONS = [f'{{"ask":"totals","material":"{it}"}}' for it in ("STEEL", "GLASS")]
QUESTIONS += ['{"ask":"rack","material":"GLASS"}', '{"ask":"demand","demand":1}', '{"ask":"demand","demand":3}']
QUESTIONS += ['{"after":0,"ask":"demands"}', '{"after":"","ask":"orders"}', '{"ask":"lines","order":"A-1"}']
QUESTIONS += [f'{{"ask":"trace","part":"{it}"}}' for it in ("1/0", "2/0", "2/4", "3/1")]
QUESTIONS += ['{"after":0,"ask":"jobs"}', '{"ask":"job","job":2}', '{"ask":"steps","job":2}']

# The examples whose days are disturbed.
AMENDED = "amended order"
NAMES = ("two bars", "three pieces", "broken sheet", "remnant cut again", "released and repeated", "import twice", AMENDED)

# The example whose day has each command of the floor, which cases of its own disturb.
FLOOR = "a day on the floor"

# The day of all questions: “remnant cut again”, an order, and what is asked then.
ASKED = "all questions"
ORDER = (
    '{"do":"order","lines":[{"count":3,"h":2,"line":1,"material":"GLASS","turn":true,"w":2,"worth":4}],'
    '"number":90,"order":"A-9","terminal":9}'
)
PLANS = ['{"ask":"plan","demands":[4],"part":"3/2","step":1}', '{"ask":"plan","demands":[4],"part":"3/2","step":2}']
PLANS += ['{"ask":"bound","demands":[4],"h":8,"material":"GLASS","step":1,"w":10}']
HISTORY = ['{"ask":"shop"}', '{"after":0,"ask":"history"}', '{"after":1,"ask":"story","order":"A-1"}']
HISTORY += ['{"after":0,"ask":"story","job":3}', '{"after":0,"ask":"story","part":"2/4"}']

REFUSED = b'{"name":"NoMemory","refused":98}'

LOCK = threading.Lock()
KNOWN = {}


@dataclass
class Day:
    """The lines of an example with their replies; the answers to all questions before each line and behind the last; and
    the rows of the tables in the end."""

    lines: list
    replies: list
    states: list
    rows: dict

    def accepted(self, count=None):
        """The accepted messages among the first lines, with their replies."""
        pairs = list(zip(self.lines, self.replies))[:count]
        return [(line, reply) for line, reply in pairs if b'"do"' in line and b'"ok"' in reply]


def whole(day):
    """All lines of a day as bytes, and all replies."""
    return b"".join(it + b"\n" for it in day.lines), b"".join(it + b"\n" for it in day.replies)


def asked(shop, question):
    """The answer to a question; one that was refused for lack of memory, or got none, is asked again."""
    try:
        answer = shop.reply(question)
    except OSError:
        answer = b""
    return shop.reply(question) if answer in (b"", REFUSED) else answer


def questions_of(shop):
    return [asked(shop, it) for it in QUESTIONS]


def steps_of(name):
    """The lines of a day and the replies that its example wants."""
    steps = [(it.sent, it.wanted) for it in exchanges.EXCHANGES[NAMES[3] if name == ASKED else name].steps]
    return steps + ([(it.encode(), None) for it in (ORDER, *PLANS, *HISTORY, *QUESTIONS)] if name == ASKED else [])


def day_of(trial, name):
    """The day of an example, from a run that nothing disturbs."""
    with LOCK:
        if name not in KNOWN:
            # (its entries have the times of `replay`)
            shop = trial.shop(f"undisturbed {name}.db", environment=Faults(trial, date=0).environment)
            day = Day([], [], [], {})
            for line, wanted in steps_of(name):
                day.states.append(questions_of(shop))
                reply = shop.reply(line)
                trial.equal(reply, wanted or reply, line)
                trial.holds(wanted or b'"ok"' in reply or line.decode() in QUESTIONS, f"{line}: {reply}")
                day.lines.append(line)
                day.replies.append(reply)
            day.states.append(questions_of(shop))
            shop.kill()
            day.rows = tables.rows(shop.store)
            KNOWN[name] = day
    return KNOWN[name]


class Replay:
    """A `cutshop replay` that is sent one line after the other."""

    def __init__(self, trial, environment):
        self.process = subprocess.Popen(
            [trial.program, "replay"],
            stdin=subprocess.PIPE,
            stdout=subprocess.PIPE,
            stderr=subprocess.PIPE,
            cwd=trial.folder,
            env={**os.environ, **environment},
        )

    def reply(self, line):
        """The reply to a line, or nothing where the program ended."""
        line = line.encode() if isinstance(line, str) else line
        try:
            self.process.stdin.write(line + b"\n")
            self.process.stdin.flush()
        except BrokenPipeError:
            return b""
        return self.process.stdout.readline().removesuffix(b"\n")

    def replies(self, lines):
        """The replies to many lines, which are sent as fast as they are read."""
        text = b"".join((it.encode() if isinstance(it, str) else it) + b"\n" for it in lines)

        def write():
            with suppress(BrokenPipeError):
                self.process.stdin.write(text)
                self.process.stdin.flush()

        writer = threading.Thread(target=write)
        writer.start()
        output = [self.process.stdout.readline().removesuffix(b"\n") for _ in lines]
        writer.join()
        return output

    def busy(self):
        """For how many seconds it had a processor so far."""
        return busy(self.process.pid)

    def end(self):
        """Its status and what it wrote on standard error, behind the last line."""
        _, errors = self.process.communicate(timeout=SECONDS)
        return self.process.returncode, errors
