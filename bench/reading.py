#!/usr/bin/env python3
"""Times what no shop over these libraries can spare of a line: reading it as a value, taking the message or the query out of
that, printing the message, and printing a reply; then keeping both texts, too; and then what a shop does besides that judges
nothing: plans, rows found at their places and changed, and new rows.

    bench/reading.py [--program FILE] [--shop PROGRAM] [--before PROGRAM] [--lines N ..] [--runs N]

The program in bench/reading and the shop's (crates/cutshop/out/cutshop by default) take the lines of bench/busy_shop.py in
turn, and an earlier program of the shop's with them, where one is given. Printed for each number of lines: the least processor
time of a line of each, in microseconds, and the ratio to the shop's and to the earlier one's, of the least times and the
median of the runs in turn.

Without --program, the program in bench/reading is proved and built by `rt run` in a repository of its own in a temporary
folder.
"""

import argparse
import os
import resource
import statistics
import subprocess
import tempfile

import busy_shop
from building import build

HERE = os.path.dirname(os.path.abspath(__file__))
LIBRARIES = ["shop_messages", "shop_replies", "shop_forms", "shop_records", "cut_tree", "cut_measure", "serde_json", "anyhow"]


def run(words, path, output):
    """The seconds of the processor that a program takes for these lines."""
    before = resource.getrusage(resource.RUSAGE_CHILDREN)
    with open(path) as lines, open(output, "w") as told:
        subprocess.run(words, stdin=lines, stdout=told, check=True)
    after = resource.getrusage(resource.RUSAGE_CHILDREN)
    return after.ru_utime + after.ru_stime - before.ru_utime - before.ru_stime


def main():
    parser = argparse.ArgumentParser(description=__doc__, formatter_class=argparse.RawDescriptionHelpFormatter)
    parser.add_argument("--program")
    parser.add_argument("--shop", default=busy_shop.PROGRAM)
    parser.add_argument("--before")
    parser.add_argument("--lines", type=int, nargs="+", default=[10000, 100000])
    parser.add_argument("--runs", type=int, default=7)
    given = parser.parse_args()
    with tempfile.TemporaryDirectory() as room:
        program = given.program or build(room, os.path.join(HERE, ".."), "reading", "reading_bench", LIBRARIES)
        cases = {"read and printed": [program], "and kept": [program, "kept"], "and laid": [program, "laid"]}
        shops = {"the shop": given.shop, "the shop before": given.before}
        shops = {name: [shop, "replay"] for name, shop in shops.items() if shop}
        with tempfile.TemporaryDirectory(dir="/dev/shm") as folder:
            path, output = os.path.join(folder, "lines"), os.path.join(folder, "told")
            for count in given.lines:
                with open(path, "w") as file:
                    file.writelines(line + "\n" for line in busy_shop.lines(count, 1))
                turns = [{name: run(words, path, output) for name, words in (shops | cases).items()} for _ in range(given.runs)]
                for name in shops | cases:
                    least = min(turn[name] for turn in turns)
                    print(f"{count} lines, {name}: {least / count * 1e6:.2f} us", end="")
                    for shop in shops:
                        ratio = least / min(turn[shop] for turn in turns)
                        median = statistics.median(turn[name] / turn[shop] for turn in turns)
                        print(f", {ratio:.2f} of {shop}'s, {median:.2f}", end="")
                    print(flush=True)


if __name__ == "__main__":
    main()
