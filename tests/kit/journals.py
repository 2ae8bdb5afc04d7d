"""What the history of a shop is: of its accepted messages, in their order, the entries, what each is about, and what is reported of them.

All of it is reckoned by the rules of the formats from messages and replies alone."""

import json
import re
from dataclasses import dataclass, field

from kit.questions import compact

# As many entries an answer reports at most, and none behind the first with which it has so many bytes of texts.
MAX_LISTED, MAX_BYTES = 100, 1000000


def canonical(text):
    """A message or a reply as it is kept."""
    return json.dumps(json.loads(text), ensure_ascii=False, separators=(",", ":"), sort_keys=True)


@dataclass
class Entry:
    """An accepted message: its number, when it was accepted, its texts, and what it is about."""

    number: int
    at: int
    command: str
    reply: str
    row: tuple = ()
    orders: set = field(default_factory=set)
    jobs: set = field(default_factory=set)
    parts: set = field(default_factory=set)

    def as_answer(self):
        """It as an answer has it."""
        return {"at": self.at, "entry": self.number, "message": json.loads(self.command), "reply": json.loads(self.reply)}


class Journal:
    """The entries of the messages that a shop accepted."""

    def __init__(self):
        self.entries, self.uses = [], []
        # The order of each demand, of each job the part that it reserved and the orders of its plan, and what was imported.
        self.order_of, self.jobs, self.imports = {}, {}, set()

    def accept(self, line, reply, at=0):
        """Another message with its reply, accepted at a time."""
        message, output = json.loads(line), json.loads(reply)
        at = max(at, self.entries[-1].at if self.entries else 0)
        entry = Entry(len(self.entries) + 1, at, canonical(line), canonical(reply))
        word, order, act, job, part = message["do"], "", 0, 0, (0, 0)
        # A unit of a receipt is about it whatever its node; so is a part that the end of a job made.
        made = None
        if word == "receive":
            act = made = output["act"]
        elif word in ("order", "import"):
            order = message["order"]
            if order not in self.imports:
                act = output.get("act", 0)
                made = act or None
                self.order_of |= {output["first"] + it: order for it in range(output["count"])}
            if word == "import":
                self.imports.add(order)
        elif word == "amend":
            order = self.order_of[message["demand"]]
        elif word in ("note", "extend"):
            order = message["order"]
            self.order_of |= {output["first"] + it: order for it in range(output["count"])} if word == "extend" else {}
        elif word == "reserve":
            act = job = output["job"]
            part = tuple(int(it) for it in message["part"].split("/"))
            orders = {self.order_of[int(it)] for it in re.findall(r"\bp([0-9]+)", message["tree"])}
            self.jobs[job] = (message["part"], orders)
            self.uses += [(job, it) for it in sorted(orders)]
        elif word in ("begin", "done", "break", "release", "undo"):
            job = message["job"]
            made = job if word in ("done", "break", "undo") else None
        elif word in ("scrap", "return"):
            part = tuple(int(it) for it in message["part"].split("/"))
        entry.orders = {order} if order else set()
        if job:
            entry.jobs = {job}
            entry.parts = {self.jobs[job][0]}
            entry.orders |= self.jobs[job][1]
        if part != (0, 0):
            entry.parts.add(message["part"])
        if made:
            entry.parts.add(f"{made}/")
        entry.row = (entry.number, at, message["terminal"], message["number"], word, act, job, order, *part)
        self.entries.append(entry)
        return entry

    def rows(self, times=False):
        """The rows of the table of entries; with 0 in place of times, but where these are asked for."""
        return [it.row if times else (it.row[0], 0, *it.row[2:]) for it in self.entries]

    def used(self):
        """The rows of the table of the orders of jobs."""
        return sorted(self.uses)

    def about(self, order=None, job=None, part=None):
        """The entries about an order, a job or a part."""
        if order is not None:
            return [it for it in self.entries if order in it.orders]
        if job is not None:
            return [it for it in self.entries if job in it.jobs]
        # (what made a unit, or the parts of a job, made the one with this name)
        return [it for it in self.entries if part in it.parts or f"{part.partition('/')[0]}/" in it.parts]

    def shop(self):
        """The answer to `shop`."""
        times = [it.at for it in self.entries] or [0]
        return compact({"began": times[0], "entries": len(self.entries), "last": times[-1], "ok": "shop"})

    def answer(self, word, entries, after):
        """The answer to `history` or `story` that reports of these entries behind a number."""
        behind, shown, reached = [it for it in entries if it.number > after], [], 0
        for it in behind:
            if len(shown) == MAX_LISTED or reached >= MAX_BYTES:
                break
            shown.append(it.as_answer())
            reached += len(it.command.encode()) + len(it.reply.encode())
        more = len(shown) < len(behind)
        return json.dumps(
            {"entries": shown, "more": more, "ok": word}, ensure_ascii=False, separators=(",", ":"), sort_keys=True
        )

    def history(self, after=0):
        return self.answer("history", self.entries, after)

    def story(self, after=0, **about):
        return self.answer("story", self.about(**about), after)

    def lines(self, after=0):
        """What `cutshop history` prints."""
        output = [it.as_answer() for it in self.entries if it.number > after]
        return "".join(json.dumps(it, ensure_ascii=False, separators=(",", ":"), sort_keys=True) + "\n" for it in output)


def journal_of(exchanges, at=0):
    """The journal of messages with their replies that were all accepted, one behind the other, at a time."""
    journal, seen = Journal(), set()
    for line, reply in exchanges:
        message = json.loads(line)
        pair = message.get("terminal"), message.get("number")
        if "do" in message and "ok" in json.loads(reply) and pair not in seen:
            journal.accept(line, reply, at)
            seen.add(pair)
    return journal
