#!/usr/bin/env python3
"""Times eight terminals that post 1000 messages at once, alone and beside connections that hold something up or have the shop
think about plans; and questions.

    bench/crowds.py [PROGRAM] [--rounds N] [--questions N]

PROGRAM is the built program, crates/cutshop/out/cutshop by default (`rt run` in crates/cutshop makes it). Each row is a fresh
shop on tmpfs: the least and the greatest of the rounds' slowest answers, in milliseconds, and by how much the least is above
that without others. The questions for plans are of sheets of 500 steps and 40 kinds, and of bars; the shop thinks about them
while all is posted. Then how many questions a second are answered to 1, 8 and 64 clients, each a process, over a connection
for each question. The clients are in Python and take a part of the time.
"""

import argparse
import multiprocessing
import os
import select
import socket
import sys
import time
from contextlib import contextmanager, nullcontext

HERE = os.path.dirname(os.path.abspath(__file__))
sys.path.insert(0, os.path.join(HERE, "..", "tests"))
sys.dont_write_bytecode = True

from kit.stores import DAY, filled, many_parts  # noqa: E402
from kit.terminals import Terminal, at_once  # noqa: E402
from kit import crowds  # noqa: E402
from kit.case import Trial  # noqa: E402
from kit.shop import request_of  # noqa: E402
from kit.yards import Yard, question  # noqa: E402

PROGRAM = os.path.join(HERE, "..", "crates", "cutshop", "out", "cutshop")
CROWDS = {
    "nobody": lambda shop: nullcontext(),
    "50 that say nothing and one that sends a byte a second": lambda shop: crowds.dripping(shop, 50, 1),
    "one that never reads a report of 1 MB": lambda shop: crowds.unread(shop, "/yield/GLASS"),
    "300 that say nothing": lambda shop: crowds.silent(shop, 300),
    "one after the other that is reset": crowds.resetting,
    "50 that stop within their request": lambda shop: crowds.halves(shop, 50),
    "2000 quick questions": lambda shop: crowds.asking(shop, 2000, []),
    "8 questions for plans of sheets": lambda shop: thinking(shop, 8, crowds.large_yard(40, 10), SHEETS),
    "8 questions for plans of bars": lambda shop: thinking(shop, 8, bars(), BARS),
}
SHEETS = crowds.large_question(5000, 65, 10)
BARS = question("BARS", buy=[{"h": 1, "w": 60000}, {"h": 1, "w": 80000}], calls=5000)


def bars():
    """Steel of which 40 lengths are open."""
    yard = Yard(crowds.FILLER)
    yard.material("BARS", 30)
    yard.bars("BARS", *[(8000 + 913 * it % 37000, 1 + it * 7 % 50) for it in range(40)])
    return yard


@contextmanager
def thinking(shop, count, yard, asked):
    """So many questions to a yard that are thought about; it is reported if one was answered before the posts were."""
    for line in yard.lines:
        if b'"ok"' not in shop.reply(line):
            raise SystemExit(f"{line} is refused")
    with crowds.thinking(shop, count, asked) as held:
        time.sleep(0.5)
        yield held
        ready, _, _ = select.select(held, [], [], 0)
        if ready:
            print(f"({len(ready)} of {count} questions were answered before all posts were)", flush=True)


def slowest(program, crowd, count=125):
    """The slowest answer of eight terminals beside a crowd, in milliseconds."""
    with Trial(program, False) as trial:
        many_parts(filled(trial, exchanges=DAY[:2]), "GLASS", 40000, 5, 4, first_act=1000000)
        shop, terminals = trial.shop(), [Terminal(it) for it in range(2, 10)]
        with crowd(shop):
            faults = at_once(shop, terminals, count)
        if faults or [len(it.exchanges) for it in terminals] != [count] * len(terminals):
            raise SystemExit(f"not all was answered: {faults}")
        return max(it.slowest for it in terminals) * 1000


def ask(port, count, begin):
    request = request_of(crowds.QUESTION)
    begin.wait()
    for _ in range(count):
        with socket.create_connection(("127.0.0.1", port)) as it:
            it.sendall(request)
            while it.recv(65536):
                pass


def rate(program, clients, count):
    """How many questions a second are answered to so many clients."""
    with Trial(program, False) as trial:
        shop, begin = trial.shop(), multiprocessing.Barrier(clients + 1)
        workers = [multiprocessing.Process(target=ask, args=(shop.port, count // clients, begin)) for _ in range(clients)]
        for it in workers:
            it.start()
        begin.wait()
        start = time.perf_counter()
        for it in workers:
            it.join()
        seconds = time.perf_counter() - start
        if any(it.exitcode for it in workers):
            raise SystemExit("a question wasn't answered")
        return clients * (count // clients) / seconds


def main():
    parser = argparse.ArgumentParser(description=__doc__, formatter_class=argparse.RawDescriptionHelpFormatter)
    parser.add_argument("program", nargs="?", default=PROGRAM)
    parser.add_argument("--rounds", type=int, default=3)
    parser.add_argument("--questions", type=int, default=6400)
    given = parser.parse_args()
    program, alone = os.path.abspath(given.program), None
    for name, crowd in CROWDS.items():
        rounds = [slowest(program, crowd) for _ in range(given.rounds)]
        alone = min(rounds) if alone is None else alone
        print(f"beside {name}: slowest answer {min(rounds):.1f} to {max(rounds):.1f} ms, {min(rounds) - alone:+.1f} ms", flush=True)
    for clients in (1, 8, 64):
        print(f"{clients} clients: {rate(program, clients, given.questions):.0f} questions a second", flush=True)


if __name__ == "__main__":
    main()
