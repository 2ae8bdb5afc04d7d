#!/usr/bin/env python3
"""Times what a shop is asked by how much it did before: each question behind 1000 to 1000000 parts of history.

    bench/old_shop.py [PROGRAM] [--parts N ..] [--times N] [--folder FOLDER] [--memory] [--tables]

PROGRAM is the built program, crates/cutshop/out/cutshop by default. A shop's history is orders of 200 lines that are all
made, by bars that were cut into 200 pieces each: a part for each piece and each kerf strip. Beside it stand 100 bars, 100
remnants on the rack, 100 open demands and 100 waiting jobs. Each question is asked so many times (100 by default); it reports
what one takes, in microseconds, by the number of parts of history, and how often as long it takes behind the most parts as
behind the fewest.

Over the book in memory a question's time is that of so many at once to one `cutshop replay` that had the history before,
from the first byte to the last reply, by the least of five such runs. Over a book in a file `cutshop serve` is asked by HTTP, a connection each, and it reports the time from asking
to the last byte; `/totals` is asked too, whose cost is that of a look-up. It also reports how long the program takes
to its line `listening on`, `cutshop ticket` from its start to its end, and how much memory `serve` had at most behind all questions.
"""

import argparse
import json
import os
import socket
import statistics
import subprocess
import sys
import tempfile
import threading
import time

HERE = os.path.dirname(os.path.abspath(__file__))
PROGRAM = os.path.join(HERE, "..", "crates", "cutshop", "out", "cutshop")
PIECES = 200
STANDING = 100

QUESTIONS = {
    "totals": {"ask": "totals", "material": "STEEL"},
    "rack": {"ask": "rack", "material": "STEEL"},
    "parts": {"ask": "parts", "material": "STEEL", "after": ""},
    "demands": {"ask": "demands", "after": 0},
    "demands of a material": {"ask": "demands", "after": 0, "material": "STEEL"},
    "jobs": {"ask": "jobs", "after": 0},
    "orders": {"ask": "orders", "after": ""},
    "terminal": {"ask": "terminal", "terminal": 1},
    "materials": {"ask": "materials"},
    "shop": {"ask": "shop"},
    "history": {"ask": "history", "after": 0},
    "story of an order": {"ask": "story", "after": 0, "order": "A-1"},
    "story of a job": {"ask": "story", "after": 0, "job": 2},
    "story of a part": {"ask": "story", "after": 0, "part": "1/0"},
}

ROUTES = {
    "totals": "/totals/STEEL",
    "rack": "/rack/STEEL",
    "yield": "/yield/STEEL",
    "parts": "/parts/STEEL",
    "demands": "/demands/0",
    "demands of a material": "/demands/0/STEEL",
    "jobs": "/jobs/0",
    "orders": "/orders",
    "terminal": "/terminal/1",
    "materials": "/materials",
    "shop": "/shop",
    "history": "/history/0",
    "story of an order": "/story/order/A-1/0",
    "story of a job": "/story/job/2/0",
    "story of a part": "/story/part/1/0/0",
}


def compact(value):
    return json.dumps(value, sort_keys=True, separators=(",", ":"))


class Shop:
    """The messages of a shop, numbered, with the acts and the demands that they will have."""

    def __init__(self):
        self.messages = []
        self.acts = 0
        self.demands = 0

    def send(self, **command):
        self.messages.append({"terminal": 1, "number": len(self.messages) + 1, **command})

    def receive(self, w, count=1):
        self.send(do="receive", material="STEEL", batch="B", w=w, h=1, count=count)
        self.acts += 1
        return self.acts

    def order(self, lines, w, count=1):
        rows = [
            {"line": i + 1, "material": "STEEL", "w": w, "h": 1, "turn": False, "count": count, "worth": 1} for i in range(lines)
        ]
        self.send(do="order", order=f"A-{len(self.messages)}", lines=rows)
        self.demands += lines
        return self.demands - lines + 1

    def reserve(self, part, tree):
        self.send(do="reserve", part=part, tree=tree)
        self.acts += 1
        return self.acts


def shop_after(parts):
    """A shop in which so many parts, or a few more, were cut."""
    shop = Shop()
    shop.send(do="material", material="STEEL", kind="bar", kerf=1, min_long=20, min_short=1)
    done = 0
    while done < parts:
        first = shop.order(PIECES, 10)
        bar = shop.receive(11 * PIECES)
        tree = " ".join(f"x10 p{first + i}" for i in range(PIECES))
        shop.send(do="done", job=shop.reserve(f"{bar}/0", tree))
        done += 2 * PIECES
    demand = shop.order(STANDING, 30, 2)
    bars = shop.receive(100, STANDING)
    for i in range(STANDING):
        shop.send(do="done", job=shop.reserve(f"{bars}/{i}", f"x30 p{demand + i} r"))
    waiting = shop.receive(100, STANDING)
    for i in range(STANDING):
        shop.reserve(f"{waiting}/{i}", f"x30 p{demand + i} r")
    shop.order(STANDING, 40, 5)
    shop.receive(100, STANDING)
    return [compact(it) for it in shop.messages]


def asked(child, lines):
    """The replies to lines, and the seconds from their first byte to the last reply."""
    text = ("\n".join(lines) + "\n").encode()
    begin = time.perf_counter()
    writer = threading.Thread(target=lambda: (child.stdin.write(text), child.stdin.flush()))
    writer.start()
    replies = [child.stdout.readline() for _ in lines]
    writer.join()
    return replies, time.perf_counter() - begin


def over_memory(program, parts, times):
    """What each question takes behind so many parts, in microseconds."""
    with subprocess.Popen([program, "replay"], stdin=subprocess.PIPE, stdout=subprocess.PIPE) as child:
        refused = [it for it in asked(child, shop_after(parts))[0] if b"refused" in it]
        if refused:
            sys.exit(f"a message of the history was refused: {refused[0]}")
        took = {}
        for name, question in QUESTIONS.items():
            lines = [compact(question)] * times
            if b'"refused":10' not in asked(child, lines)[0][0]:
                took[name] = min(asked(child, lines)[1] for _ in range(5)) / times * 1e6
        child.stdin.close()
        return took


def answer_of(port, request):
    with socket.create_connection(("127.0.0.1", port)) as connection:
        connection.sendall(request)
        got = b""
        while piece := connection.recv(65536):
            got += piece
    return got


def served(program, folder, store):
    """The program, serving a store, its port, and the seconds until it listened."""
    with socket.socket() as listener:
        listener.bind(("127.0.0.1", 0))
        port = listener.getsockname()[1]
    shop = os.path.join(folder, "shop.toml")
    with open(shop, "w"):
        pass
    begin = time.perf_counter()
    words = [program, "serve", "--port", str(port), "--store", store, "--shop", shop]
    child = subprocess.Popen(words, stdout=subprocess.PIPE)
    child.stdout.readline()
    return child, port, time.perf_counter() - begin


def peak(process):
    """The most memory that a process had so far, in kB."""
    with open(f"/proc/{process}/status", encoding="ascii") as file:
        return next(int(it.split()[1]) for it in file if it.startswith("VmHWM:"))


def over_tables(program, parts, times, root):
    """What each question takes over a file behind so many parts, in microseconds, and the starts."""
    with tempfile.TemporaryDirectory(dir=root) as folder:
        store = os.path.join(folder, "shop.db")
        child, port, _ = served(program, folder, store)
        for text in shop_after(parts):
            head = f"POST /message HTTP/1.1\r\nHost: shop\r\nContent-Length: {len(text)}\r\n\r\n"
            got = answer_of(port, (head + text).encode())
            if not got.startswith(b"HTTP/1.1 200 "):
                sys.exit(f"{text[:200]} was answered {got!r}")
        child.kill()
        child.wait()
        child, port, start = served(program, folder, store)
        took = {"start of serve": start * 1e6}
        for name, route in ROUTES.items():
            request = f"GET {route} HTTP/1.0\r\n\r\n".encode()
            if answer_of(port, request).startswith(b"HTTP/1.1 200 "):
                each = []
                for _ in range(times):
                    begin = time.perf_counter()
                    answer_of(port, request)
                    each.append(time.perf_counter() - begin)
                took[name] = statistics.median(each) * 1e6
        took["most memory of serve, in kB"] = peak(child.pid)
        child.kill()
        child.wait()
        begin = time.perf_counter()
        subprocess.run([program, "ticket", "--store", store, "2"], stdout=subprocess.DEVNULL, check=True)
        took["cutshop ticket"] = (time.perf_counter() - begin) * 1e6
        return took


def print_table(title, counts, columns):
    print(f"\n{title}, microseconds\n")
    print("| Question | " + " | ".join(f"{it} parts" for it in counts) + " | Most beside fewest |")
    print("|---|" + "---|" * (len(counts) + 1))
    for name in columns[0]:
        row = [it[name] for it in columns]
        print(f"| {name} | " + " | ".join(f"{it:.0f}" for it in row) + f" | {row[-1] / max(row[0], 1):.1f} |")


def main():
    reader = argparse.ArgumentParser()
    reader.add_argument("program", nargs="?", default=PROGRAM)
    reader.add_argument("--parts", type=int, nargs="*", default=[1000, 10000, 100000, 1000000])
    reader.add_argument("--times", type=int, default=100)
    reader.add_argument("--folder", default="/dev/shm")
    reader.add_argument("--memory", action="store_true", help="the book in memory alone")
    reader.add_argument("--tables", action="store_true", help="the book in a file alone")
    words = reader.parse_args()
    if not words.tables:
        print_table("In memory", words.parts, [over_memory(words.program, it, words.times) for it in words.parts])
    if not words.memory:
        print_table("In a file", words.parts, [over_tables(words.program, it, words.times, words.folder) for it in words.parts])


if __name__ == "__main__":
    main()
