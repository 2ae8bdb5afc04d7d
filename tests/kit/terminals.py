"""Terminals that post at once, each to a material of its own."""

import ctypes
import json
import threading
import time

from kit import tables
from kit.shop import request_of

CAP_DAC_OVERRIDE, CAP_DAC_READ_SEARCH, PR_CAPBSET_DROP = 1, 2, 24


class Terminal:
    """A terminal with a material and orders of its own, whose effects are independent of what others send."""

    def __init__(self, number):
        self.number, self.code = number, f"M-{number}"
        # Of each of its messages the text and the reply that was read whole, or None.
        self.exchanges = []
        # How many seconds its slowest answer took.
        self.slowest = 0

    def message(self, index):
        """Its message of an index, of which later ones name the acts and demands that earlier replies gave."""
        replies = [json.loads(reply) for _, reply in self.exchanges]
        if index == 0:
            keys = {"do": "material", "kind": "sheet", "kerf": 1, "min_long": 5, "min_short": 4}
        else:
            kind, turn = (index - 1) % 4, (index - 1) // 4
            first = 1 + turn * 4
            if kind == 0:
                keys = {"do": "receive", "batch": f"B-{turn}", "count": 1, "w": 10, "h": 8}
            elif kind == 1:
                lines = [{"line": 1, "material": self.code, "w": 4, "h": 3, "turn": False, "count": 1, "worth": 12}]
                keys = {"do": "order", "order": f"A-{self.number}-{turn}", "lines": lines}
            elif kind == 2:
                demand = replies[first + 1]["first"]
                keys = {"do": "reserve", "part": f"{replies[first]['act']}/0", "tree": f"x4 y3 p{demand} r r"}
            else:
                keys = {"do": "done", "job": replies[first + 2]["job"]}
        if keys["do"] in ("material", "receive"):
            keys["material"] = self.code
        keys |= {"terminal": self.number, "number": index + 1}
        return json.dumps(keys, sort_keys=True, separators=(",", ":"))

    def send(self, shop, index):
        """Sends its message of an index. Whether a whole answer came, and what of it differs from an earlier one."""
        line = self.message(index)
        begin = time.monotonic()
        try:
            head, _, body = shop.exchange(request_of(line)).partition(b"\r\n\r\n")
        except OSError:
            return False, None
        self.slowest = max(self.slowest, time.monotonic() - begin)
        if f"Content-Length: {len(body)}".encode() not in head.split(b"\r\n") or not body:
            return False, None
        if b'"ok"' not in body:
            return True, f"{line} is answered {body}"
        if index == len(self.exchanges):
            self.exchanges.append((line, body.decode()))
        elif self.exchanges[index] != (line, body.decode()):
            return True, f"{line} was answered {self.exchanges[index][1]} and is answered {body}"
        return True, None

    def send_all(self, shop, count):
        """Sends its messages from the first on, and stops where no whole answer comes. Gives what of the answers differs
        from an earlier one."""
        for index in range(count):
            is_whole, fault = self.send(shop, index)
            if not is_whole or fault:
                return fault
        return None


def at_once(shop, terminals, count, stop=None):
    """Sends all terminals' messages from threads of their own; `stop` is called while they run."""
    faults = []
    threads = [threading.Thread(target=lambda it=it: faults.append(it.send_all(shop, count))) for it in terminals]
    for it in threads:
        it.start()
    if stop:
        stop()
    for it in threads:
        it.join()
    return [it for it in faults if it]


def independent(path):
    """The rows of a file with acts, jobs and demands named by their place among their material's own, however the
    terminals' messages came one between the other."""
    found = tables.rows(path)
    names = {}
    for act, _, material, *_ in found["parts"]:
        if ("act", act) not in names:
            names[("act", act)] = (material, sum(key[0] == "act" and it[0] == material for key, it in names.items()))
    for number, order, line, *_ in found["demands"]:
        names[("demand", number)] = (order, line)
    kind_of = {1: "act", 2: "act", 3: "demand"}
    parts = [
        (names[("act", it[0])], it[1], it[2], it[3], names[("act", it[4])], *it[5:11], names.get((kind_of.get(it[10]), it[11])))
        for it in found["parts"]
    ]
    jobs = [(names[("act", job)], names[("act", act)], node, state) for job, act, node, _, state in found["jobs"]]
    demands = [it[1:] for it in found["demands"]]
    kept = [it[:2] for it in found["kept"]]
    rest = [sorted(found[it]) for it in ("meta", "materials", "orders", "imports", "totals", "totals2")]
    return [sorted(it, key=repr) for it in (parts, jobs, demands, kept)] + rest


def stopped_at(shop, terminals, count, number):
    """A stop of the shop by a signal, as soon as so many answers were read."""

    def stop():
        limit = time.monotonic() + 60
        while sum(len(it.exchanges) for it in terminals) < count and time.monotonic() < limit:
            time.sleep(0.002)
        shop.kill(number)

    return stop


def judged_by_modes():
    """In a new process: gives up root's right to pass over the modes of files."""
    for right in (CAP_DAC_OVERRIDE, CAP_DAC_READ_SEARCH):
        ctypes.CDLL(None).prctl(PR_CAPBSET_DROP, right, 0, 0, 0)
