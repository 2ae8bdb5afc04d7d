#!/usr/bin/env python3
"""Runs `cutshop replay` on the lines of a busy shop, and reports its speed and its memory.

    bench/busy_shop.py [PROGRAM] [--seed N] [--lines N ..] [--million] [--runs N] [--beside PROGRAM] [--files]

PROGRAM is the built program, crates/cutshop/out/cutshop by default. The lines are made from a seed: materials, receipts
of 1 to 100 units, orders, reservations of bars in stock and of what is left of them, jobs that are done or released,
questions for totals, traces and demands, and messages that are sent again. A second mix has plenty of orders, whose
codes come in no order. A third is a whole day: every command and every question, among them scrap, returns, broken
jobs, order files, racks, lists and plans. The script runs the program on each number of lines (1000, 10000 and 100000
by default, and 1000000 with --million), and prints for each the lines a second, what a line costs in processor time,
and the peak memory; then the ratio of the cost of a line between the most lines and the fewest: 1.0 means that a line
costs the same however many came before. With --beside, another program takes the same lines in turn with the first, has
to answer the same, and the ratio of their costs is reported. With --files, bench/books.py goes on with the same numbers of
lines over books in files.
"""

import argparse
import hashlib
import json
import os
import random
import subprocess
import sys
import tempfile
import time

HERE = os.path.dirname(os.path.abspath(__file__))
PROGRAM = os.path.join(HERE, "..", "crates", "cutshop", "out", "cutshop")
MATERIALS = 20

# How many of the lines are of each kind; the others are questions.
BUSY = {"receive": 0.20, "order": 0.10, "reserve": 0.25, "end": 0.23, "again": 0.07}
ORDERS = {"receive": 0.05, "order": 0.60, "reserve": 0.10, "end": 0.08, "again": 0.07}
DAY = {
    "receive": 0.12, "order": 0.06, "read": 0.02, "reserve": 0.22, "end": 0.17, "halt": 0.02, "scrap": 0.01,
    "give_back": 0.01, "again": 0.06,
}

# How many of a whole day's questions are of each kind; the others are for totals.
QUESTIONS = {
    "trace": 0.20, "demand": 0.20, "rack": 0.04, "parts": 0.06, "demands": 0.08, "jobs": 0.08, "job": 0.06,
    "materials": 0.02, "terminal": 0.04, "plan": 0.06, "bound": 0.02,
}


def code(i):
    return f"M-{i:04}"


def compact(value):
    return json.dumps(value, sort_keys=True, separators=(",", ":"))


def material(i, number):
    sheet = i % 2 == 1
    return {
        "do": "material", "terminal": 1, "number": number, "material": code(i),
        "kind": "sheet" if sheet else "bar", "kerf": 3, "min_long": 20, "min_short": 4 if sheet else 1,
    }


def receipt(random, number):
    i = random.randrange(MATERIALS)
    return {
        "do": "receive", "terminal": 1 + random.randrange(8), "number": number, "material": code(i),
        "batch": f"B-{random.randrange(1000)}", "w": random.randint(100, 1000), "h": random.randint(10, 400) if i % 2 else 1,
        "count": random.randint(1, 100) if random.random() < 0.05 else random.randint(1, 3),
    }


class Shop:
    """What a shop's next messages may name: parts of bars that stand, open demands, and waiting jobs."""

    PIECE = 50
    KERF = 3

    def __init__(self, source, mixed, questions):
        self.source = source
        self.mixed = mixed
        self.questions = questions
        self.number = MATERIALS
        self.acts = 0
        self.demands = 0
        self.parts = []
        self.units = set()
        self.open = {}
        self.jobs = []

    def receive(self):
        self.number += 1
        message = receipt(self.source, self.number)
        self.acts += 1
        if message["h"] == 1:
            for node in range(message["count"]):
                self.parts.append((f"{self.acts}/{node}", message["material"], message["w"]))
                self.units.add(f"{self.acts}/{node}")
        return message

    def order(self):
        self.number += 1
        name = f"{self.source.randrange(16**8):08X}-{self.number}" if self.mixed else str(self.number)
        lines = []
        for line in range(1, self.source.randint(2, 6)):
            self.demands += 1
            material = code(2 * self.source.randrange(MATERIALS // 2))
            count = self.source.randint(10, 200)
            self.open.setdefault(material, []).append([self.demands, count])
            lines.append({"line": line, "material": material, "w": self.PIECE, "h": 1, "turn": False, "count": count, "worth": 50})
        return {"do": "order", "terminal": 1, "number": self.number, "order": f"A-{name}"[:16], "lines": lines}

    def reserve(self):
        if not self.parts:
            return None
        name, material, w = self.parts.pop(self.source.randrange(len(self.parts)))
        wanted = self.open.get(material, [])
        pieces = (w - 1) // (self.PIECE + self.KERF)
        if not wanted or pieces == 0:
            return None
        demand = wanted[-1]
        pieces = min(pieces, demand[1])
        demand[1] -= pieces
        if demand[1] == 0:
            wanted.pop()
        self.number += 1
        self.acts += 1
        self.jobs.append((self.acts, name, material, w, pieces, demand))
        tree = " ".join([f"x{self.PIECE} p{demand[0]}"] * pieces + ["r"])
        return {"do": "reserve", "terminal": 1, "number": self.number, "part": name, "tree": tree}

    def end(self):
        if not self.jobs:
            return None
        job, name, material, w, pieces, demand = self.jobs.pop(self.source.randrange(len(self.jobs)))
        self.number += 1
        if self.source.random() < 0.2:
            self.parts.append((name, material, w))
            return {"do": "release", "terminal": 1, "number": self.number, "job": job}
        rest = w - pieces * (self.PIECE + self.KERF)
        if rest >= 20:
            self.parts.append((f"{job}/{2 * pieces}", material, rest))
        return {"do": "done", "terminal": 1, "number": self.number, "job": job}

    def take(self, is_fit):
        """A part that stands and is fit, which stands no longer."""
        for _ in range(min(8, len(self.parts))):
            i = self.source.randrange(len(self.parts))
            if is_fit(self.parts[i]):
                return self.parts.pop(i)
        return None

    def read(self):
        """An order that comes as a file."""
        self.number += 1
        material = code(2 * self.source.randrange(MATERIALS // 2))
        rows = ["line,material,length,width,turn,count,worth"]
        for line in range(1, self.source.randint(2, 20)):
            self.demands += 1
            count = self.source.randint(10, 50)
            self.open.setdefault(material, []).append([self.demands, count])
            rows.append(f"{line},{material},{self.PIECE / 10:.1f},0.1,no,{count},50")
        text = "\n".join(rows) + "\n"
        return {"do": "import", "terminal": 1, "number": self.number, "order": f"F-{self.number}", "form": "csv", "text": text}

    def halt(self):
        """A job whose work ended early, behind some of its cuts."""
        if not self.jobs:
            return None
        job, _, _, _, pieces, _ = self.jobs.pop(self.source.randrange(len(self.jobs)))
        self.number += 1
        made = self.source.randrange(pieces)
        return {"do": "break", "terminal": 1, "number": self.number, "job": job, "cuts": made, "lost": made == 0}

    def scrap(self):
        part = self.take(lambda part: True)
        if part is None:
            return None
        self.number += 1
        return {"do": "scrap", "terminal": 1, "number": self.number, "part": part[0]}

    def give_back(self):
        part = self.take(lambda part: part[0] in self.units)
        if part is None:
            return None
        self.number += 1
        return {"do": "return", "terminal": 1, "number": self.number, "part": part[0]}

    def plan(self):
        """A question for a plan of a part that stands, or for a bound, where there are demands for it."""
        if not self.parts:
            return None
        part, material, w = self.source.choice(self.parts)
        wanted = self.open.get(material, [])
        if not wanted or w < self.PIECE:
            return None
        return part, material, w, [demand for demand, _ in wanted[-3:]]

    def ask_of(self, kind):
        if kind == "trace" and self.parts:
            return {"ask": "trace", "part": self.source.choice(self.parts)[0]}
        if kind == "demand" and self.demands:
            return {"ask": "demand", "demand": self.source.randint(1, self.demands)}
        if kind == "demands":
            return {"ask": "demands", "after": self.source.randint(0, self.demands)}
        if kind == "jobs":
            return {"ask": "jobs", "after": 0}
        if kind == "job" and self.jobs:
            return {"ask": "job", "job": self.source.choice(self.jobs)[0]}
        if kind == "materials":
            return {"ask": "materials"}
        if kind == "terminal":
            return {"ask": "terminal", "terminal": 1 + self.source.randrange(8)}
        if kind in ("plan", "bound") and (found := self.plan()):
            part, material, w, demands = found
            if kind == "plan":
                return {"ask": "plan", "part": part, "demands": demands, "step": 1}
            return {"ask": "bound", "material": material, "w": w, "h": 1, "demands": demands, "step": 1}
        material = code(self.source.randrange(MATERIALS))
        if kind == "parts":
            return {"ask": "parts", "material": material, "after": ""}
        return {"ask": "rack" if kind == "rack" else "totals", "material": material}

    def ask(self):
        return self.ask_of(chosen(self.source, self.questions))


# The questions of the first two mixes.
PLAIN = {"trace": 0.3, "demand": 0.3}


def chosen(source, shares):
    """A kind by its share, or None for the rest."""
    left = source.random()
    for kind, share in shares.items():
        left -= share
        if left < 0:
            return kind
    return None


def lines(count, seed, shares=BUSY):
    source = random.Random(seed)
    shop = Shop(source, shares is ORDERS, QUESTIONS if shares is DAY else PLAIN)
    made = [compact(material(i, i + 1)) for i in range(MATERIALS)]
    sent = list(made)
    while len(made) < count:
        kind = chosen(source, shares)
        if kind is None:
            made.append(compact(shop.ask()))
        elif kind == "again":
            made.append(source.choice(sent))
        elif (value := getattr(shop, kind)()) is not None:
            line = compact(value)
            sent.append(line)
            made.append(line)
    return made[:count]


def write(path, count, seed, shares):
    """Writes lines to a file, in a process of its own, since what this process takes counts as a program's least memory."""
    child = os.fork()
    if child == 0:
        with open(path, "w") as file:
            file.write("\n".join(lines(count, seed, shares)) + "\n")
        os._exit(0)
    if os.waitpid(child, 0)[1] != 0:
        sys.exit("the lines could not be written")


def run(program, path, count):
    """The seconds, the seconds of processor time and the peak memory in KiB of a run, and what was answered."""
    with open(path, "rb") as source, tempfile.TemporaryFile() as taken:
        begin = time.perf_counter()
        child = subprocess.Popen([program, "replay"], stdin=source, stdout=taken)
        _, status, usage = os.wait4(child.pid, 0)
        seconds = time.perf_counter() - begin
        if status != 0:
            sys.exit(f"{program} ended with status {status}")
        taken.seek(0)
        answered, refused, digest = 0, 0, hashlib.sha256()
        for line in taken:
            answered += 1
            refused += b'"refused"' in line
            digest.update(line)
    if refused:
        print(f"{refused} of {count} lines were refused")
    if answered != count:
        sys.exit(f"{count} lines were given and {answered} answered")
    return seconds, usage.ru_utime + usage.ru_stime, usage.ru_maxrss, digest.digest()


def row_of(name, count, runs):
    """Prints the least of some runs, and gives its processor time and its memory."""
    seconds, cost, memory = min(r[0] for r in runs), min(r[1] for r in runs), max(r[2] for r in runs)
    print(
        f"{name}, {count} lines: {count / seconds:.0f} a second, {cost / count * 1e6:.2f} us of processor time each, "
        f"peak memory {memory / 1024:.1f} MiB",
        flush=True,
    )
    return cost, memory


def measure(name, shares, given):
    costs = []
    for count in given.lines:
        programs = [given.program] + ([given.beside] if given.beside else [])
        with tempfile.TemporaryDirectory() as folder:
            path = os.path.join(folder, "lines")
            write(path, count, given.seed, shares)
            turns = [[run(program, path, count) for program in programs] for _ in range(given.runs)]
        cost, memory = row_of(name, count, [turn[0] for turn in turns])
        costs.append(cost / count)
        if given.beside:
            other, more = row_of(f"{name}, beside", count, [turn[1] for turn in turns])
            if len({answer for turn in turns for _, _, _, answer in turn}) != 1:
                sys.exit("the two programs don't answer the same")
            print(f"    ratio of costs {cost / other:.2f}, of memory {memory / more:.2f}", flush=True)
    print(f"{name}: cost of a line, {given.lines[-1]} lines to {given.lines[0]}: {costs[-1] / costs[0]:.2f}", flush=True)


def main():
    options = argparse.ArgumentParser(description=__doc__, formatter_class=argparse.RawDescriptionHelpFormatter)
    options.add_argument("program", nargs="?", default=PROGRAM)
    options.add_argument("--seed", type=int, default=1)
    options.add_argument("--lines", type=int, nargs="+", default=[1000, 10000, 100000])
    options.add_argument("--million", action="store_true")
    options.add_argument("--runs", type=int, default=3)
    options.add_argument("--beside")
    options.add_argument("--files", action="store_true")
    given = options.parse_args()
    if given.million:
        given.lines.append(1000000)
    measure("busy shop", BUSY, given)
    measure("plenty of orders", ORDERS, given)
    measure("whole day", DAY, given)
    if given.files:
        counts = [str(count) for count in given.lines]
        subprocess.run([sys.executable, os.path.join(HERE, "books.py"), "--memory", given.program, "--lines", *counts], check=True)


if __name__ == "__main__":
    main()
