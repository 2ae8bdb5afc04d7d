#!/usr/bin/env python3
"""Times transactions of the port of SQLite alone, to tell the least that a message over SQL tables can cost.

    bench/statements.py [--program FILE] [--folder FOLDER] [--transactions N] [--runs N]

Each case fills a fresh file in the folder (on tmpfs by default): so many transactions, each with some inserts of a row of two
numbers and two short texts, and some updates of one number. The least time of some runs counts. Printed: the case, and the
microseconds of a transaction, of the clock and of the processor.

Without --program, the program in bench/statements is proved and built by `rt run` in a repository of its own in a temporary
folder.
"""

import argparse
import os
import resource
import subprocess
import tempfile
import time

from building import build

HERE = os.path.dirname(os.path.abspath(__file__))

# inserts, then updates, of a transaction
CASES = [(1, 0), (1, 1), (2, 1), (5, 1), (9, 1), (0, 1)]


def run(program, count, case):
    """The seconds of one run, of the clock and of the processor."""
    with tempfile.TemporaryDirectory(dir=case[0]) as folder:
        words = [program, os.path.join(folder, "rows.db"), str(count), *(str(number) for number in case[1])]
        used = resource.getrusage(resource.RUSAGE_CHILDREN)
        begin = time.perf_counter()
        subprocess.run(words, check=True)
        seconds = time.perf_counter() - begin
        after = resource.getrusage(resource.RUSAGE_CHILDREN)
        return seconds, after.ru_utime + after.ru_stime - used.ru_utime - used.ru_stime


def main():
    parser = argparse.ArgumentParser(description=__doc__, formatter_class=argparse.RawDescriptionHelpFormatter)
    parser.add_argument("--program")
    parser.add_argument("--folder", default="/dev/shm")
    parser.add_argument("--transactions", type=int, default=20000)
    parser.add_argument("--runs", type=int, default=5)
    given = parser.parse_args()
    with tempfile.TemporaryDirectory() as room:
        program = given.program or build(room, os.path.join(HERE, ".."), "statements", "statement_bench", ["sqlite"])
        for case in CASES:
            runs = [run(program, given.transactions, (given.folder, case)) for _ in range(given.runs)]
            seconds, used = (min(run[at] for run in runs) / given.transactions * 1e6 for at in (0, 1))
            print(f"{case[0]} inserts, {case[1]} updates: {seconds:6.1f} us, {used:6.1f} us of the processor", flush=True)


if __name__ == "__main__":
    main()
