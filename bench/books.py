#!/usr/bin/env python3
"""Answers the lines of a busy shop over a book in a file of SQL tables, and reports what a line costs.

    bench/books.py [--program FILE] [--memory FILE] [--folder FOLDER ..] [--lines N ..] [--runs N] [--root FOLDER]

The lines are those of busy_shop.py. In each folder, one on a disk and one on tmpfs by default, a fresh file takes each
number of lines (1000, 10000 and 100000 by default), some runs of each; the least time counts. Printed: the lines a second,
the accepted messages a second, and what a line costs; then how long the same file takes to be opened again and asked for
one total, and how many parts it has. Beside them stand what a sync of the folder's disk costs, and the same lines over a
book in memory, by the program `cutshop` (crates/cutshop/out/cutshop, which `rt run` in crates/cutshop makes).

Without --program, the program in bench/books is proved and built by `rt run` in a repository of its own in a temporary
folder, with copies of the crates of FOLDER (by default of this repository).
"""

import argparse
import os
import subprocess
import tempfile
import time

import busy_shop
from building import build

HERE = os.path.dirname(os.path.abspath(__file__))


def timed(words, given):
    """The seconds of a run, and its answers."""
    begin = time.perf_counter()
    ran = subprocess.run(words, input=given, stdout=subprocess.PIPE, check=True)
    return time.perf_counter() - begin, ran.stdout.splitlines()


def fresh(folder):
    for name in ("shop.db", "shop.db-wal", "shop.db-journal"):
        if os.path.exists(os.path.join(folder, name)):
            os.remove(os.path.join(folder, name))
    return os.path.join(folder, "shop.db")


def sync_cost(folder):
    """The seconds of one fdatasync behind a written page, as a mean of 200."""
    with open(os.path.join(folder, "sync"), "wb", buffering=0) as file:
        begin = time.perf_counter()
        for _ in range(200):
            file.write(b"x" * 4096)
            os.fdatasync(file.fileno())
        return (time.perf_counter() - begin) / 200


def main():
    parser = argparse.ArgumentParser(description=__doc__, formatter_class=argparse.RawDescriptionHelpFormatter)
    parser.add_argument("--program")
    parser.add_argument("--memory", default=busy_shop.PROGRAM)
    parser.add_argument("--folder", nargs="+", default=["/var/tmp", "/dev/shm"])
    parser.add_argument("--lines", type=int, nargs="+", default=[1000, 10000, 100000])
    parser.add_argument("--runs", type=int, default=3)
    parser.add_argument("--root", default=os.path.join(HERE, ".."))
    given = parser.parse_args()
    with tempfile.TemporaryDirectory() as room:
        program = given.program or build(room, given.root, "books", "book_bench", ["shop_wire", "shop_text", "shop_store", "sqlite"])
        for count in given.lines:
            lines = busy_shop.lines(count, 1)
            text = ("\n".join(lines) + "\n").encode()
            messages = sum(1 for line in lines if '"do"' in line)
            wanted = None
            if os.path.exists(given.memory):
                runs = [timed([given.memory, "replay"], text) for _ in range(given.runs)]
                wanted = runs[0][1]
                seconds = min(run[0] for run in runs)
                print(f"{count:7} lines in memory: {count / seconds:9.0f} a second, {seconds / count * 1e6:7.1f} us each", flush=True)
            for place in given.folder:
                with tempfile.TemporaryDirectory(dir=place) as folder:
                    best = None
                    for _ in range(given.runs):
                        seconds, answers = timed([program, fresh(folder)], text)
                        if wanted is not None and answers != wanted:
                            raise SystemExit("the answers are not those of the book in memory")
                        best = seconds if best is None else min(best, seconds)
                    asked = b'{"ask":"totals","material":"M-0000"}\n'
                    again = min(timed([program, os.path.join(folder, "shop.db")], asked)[0] for _ in range(given.runs))
                    print(
                        f"{count:7} lines in {place}: {count / best:9.0f} a second, {messages / best:9.0f} messages a second, "
                        f"{best / count * 1e6:7.1f} us each; opened again {again * 1e3:.0f} ms; a sync {sync_cost(folder) * 1e6:.0f} us",
                        flush=True,
                    )


if __name__ == "__main__":
    main()
