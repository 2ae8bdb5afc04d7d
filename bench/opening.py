#!/usr/bin/env python3
"""Reports what the port of SQLite takes of a start: how long it takes to open a shop's file and to read one row.

    bench/opening.py [--program FILE] [--cutshop FILE] [--folder FOLDER] [--parts N ..] [--runs N]

The files are made by Python's own SQLite: the tables of a shop of one material with so many parts, pieces and kerf strips by
turns, one bar that is reserved for a job, and the messages of all that with their entries. The least time of some runs counts. With --cutshop, `cutshop ticket` on the
same file stands beside it: what it takes more is the one pass over the parts that an adopt makes, and the ticket.

Without --program, the program in bench/opening is proved and built by `rt run` in a repository of its own in a temporary
folder.
"""

import argparse
import json
import os
import re
import sqlite3
import subprocess
import tempfile
import time

from building import build

HERE = os.path.dirname(os.path.abspath(__file__))
ROOT = os.path.join(HERE, "..")
PIECE, KERF = 10, 1


def layout():
    """The statements that make the tables, as the program has them."""
    with open(os.path.join(ROOT, "crates", "shop_tables", "src", "laying.rt")) as file:
        return "".join(f"{it};\n" for it in re.findall(r'const \w+: &str =\s*"([^"]*)";', file.read()))


class Messages:
    """The messages of a shop of one terminal, with their replies and entries, as rows."""

    def __init__(self):
        self.kept, self.journal = [], []

    def accept(self, message, reply, act=0, job=0, part=0):
        number = len(self.kept) + 1
        texts = [json.dumps(it, sort_keys=True, separators=(",", ":")) for it in ({**message, "number": number, "terminal": 1}, reply)]
        self.kept.append((1, number, *texts))
        self.journal.append((number, number, 1, number, message["do"], act, job, "", part, 0))

    def receive(self, act, w):
        message = {"batch": "B", "count": 1, "do": "receive", "h": 1, "material": "STEEL", "w": w}
        self.accept(message, {"act": act, "count": 1, "ok": "receive"}, act)

    def reserve(self, job, part, tree):
        message = {"do": "reserve", "part": f"{part}/0", "tree": tree}
        self.accept(message, {"cuts": 1, "job": job, "ok": "reserve"}, job, job, part)

    def done(self, job):
        ended = {"job": job, "kerf": KERF, "ok": "done", "pieces": PIECE, "rack": 0, "scrap": 0}
        self.accept({"do": "done", "job": job}, ended, job=job)


def fill(path, parts):
    """A shop that cut bars into a piece and a kerf strip each, and has one more bar reserved."""
    messages = Messages()
    with sqlite3.connect(path) as shop:
        shop.executescript(layout())
        bars = parts // 3
        shop.execute("INSERT INTO materials VALUES ('STEEL', 0, ?, 20, 1)", (KERF,))
        row = "INSERT INTO parts VALUES (?, ?, 'STEEL', 'B', ?, 0, ?, 0, ?, 1, ?, ?)"
        for bar in range(1, 2 * bars, 2):
            shop.execute(row, (bar, 0, bar, 0, PIECE + KERF, 2, bar + 1))
            shop.execute(row, (bar + 1, 1, bar, 0, PIECE, 3, 1))
            shop.execute(row, (bar + 1, 2, bar, PIECE, KERF, 4, 0))
            messages.receive(bar, PIECE + KERF)
            messages.reserve(bar + 1, bar, "x10 p1")
            messages.done(bar + 1)
        last = 2 * bars + 1
        shop.execute(row, (last, 0, last, 0, 100, 1, last + 1))
        shop.execute("INSERT INTO jobs VALUES (?, ?, 0, 'x30 r r', 0)", (last + 1, last))
        sums = (bars * (PIECE + KERF) + 100, 100, 0, bars * PIECE, bars * KERF, 0)
        shop.execute("INSERT INTO totals2 VALUES ('STEEL', ?, ?, ?, ?, ?, ?, 0)", sums)
        shop.execute("UPDATE meta SET value = ? WHERE name = 'act'", (last + 1,))
        messages.receive(last, 100)
        messages.reserve(last + 1, last, "x30 r r")
        shop.executemany("INSERT INTO kept VALUES (?, ?, ?, ?)", messages.kept)
        shop.executemany("INSERT INTO journal VALUES (?, ?, ?, ?, ?, ?, ?, ?, ?, ?)", messages.journal)
    shop.close()
    # (a store has its log beside it)
    with open(f"{path}-wal", "wb"):
        pass
    return last + 1


def least(words, runs):
    """The least seconds of some runs."""
    took = []
    for _ in range(runs):
        begin = time.perf_counter()
        subprocess.run(words, stdout=subprocess.DEVNULL, check=True)
        took.append(time.perf_counter() - begin)
    return min(took)


def main():
    parser = argparse.ArgumentParser(description=__doc__, formatter_class=argparse.RawDescriptionHelpFormatter)
    parser.add_argument("--program")
    parser.add_argument("--cutshop")
    parser.add_argument("--folder", default="/dev/shm")
    parser.add_argument("--parts", type=int, nargs="+", default=[1000, 10000, 100000, 1000000])
    parser.add_argument("--runs", type=int, default=3)
    given = parser.parse_args()
    with tempfile.TemporaryDirectory() as room:
        program = given.program or build(room, ROOT, "opening", "opening_bench", ["sqlite"])
        for parts in given.parts:
            with tempfile.TemporaryDirectory(dir=given.folder) as folder:
                path = os.path.join(folder, "shop.db")
                job = fill(path, parts)
                opened = least([program, path], given.runs)
                print(f"{parts} parts: the port's open and one row {opened * 1e3:.1f} ms", end="")
                if given.cutshop:
                    ticket = least([given.cutshop, "ticket", "--store", path, str(job)], given.runs)
                    print(f", cutshop ticket {ticket * 1e3:.1f} ms", end="")
                print(flush=True)


if __name__ == "__main__":
    main()
