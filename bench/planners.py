#!/usr/bin/env python3
"""Times `plan_bar` and `plan_sheet`, and reports how each grows.

    bench/planners.py [--runs N] [--root FOLDER]

Makes a repository of its own in a temporary folder: copies of the crates of the planners (of FOLDER, by default this
repository) beside the program in bench/planners, which `rt run` proves and builds there. Each case is planned in a fresh
process, some runs a case; the least time counts. Printed: the case, milliseconds, and the worth (0 where there is no plan);
then how often the time is taken where the length, the wants or the side are doubled, or the wants are four times as many.
"""

import argparse
import os
import subprocess
import tempfile

from building import build

HERE = os.path.dirname(os.path.abspath(__file__))

# name, then width, height, kerf, step, wants, shortest side, spread of sides, unit of sides, left of each, factor of worths
CASES = [
    ("bar of 150000, 40 wants, few lengths", 150000, 1, 0, 1, 40, 10, 40, 1000, 10, 1),
    ("bar of 150000, 40 wants, some lengths", 150000, 1, 0, 1, 40, 20, 180, 50, 10, 1),
    ("bar of 150000, 40 wants, many lengths", 150000, 1, 3, 1, 40, 1000, 9000, 1, 10, 1),
    ("bar of 75000, 40 wants, many lengths", 75000, 1, 3, 1, 40, 500, 4500, 1, 10, 1),
    ("bar of 150000, 20 wants, many lengths", 150000, 1, 3, 1, 20, 1000, 9000, 1, 10, 1),
    ("bar of 150000, 1 want of 1, 150000 left", 150000, 1, 0, 1, 1, 1, 1, 1, 150000, 1),
    ("bar of 150000, 40 wants from 1, 150000 left", 150000, 1, 0, 1, 40, 1, 40, 1, 150000, 1),
    ("sheet of 500 by 500 steps, 40 wants", 500, 500, 0, 1, 40, 30, 200, 1, 3, 1),
    ("sheet of 250 by 250 steps, 40 wants", 250, 250, 0, 1, 40, 30, 100, 1, 3, 1),
    ("sheet of 500 by 500 steps, 40 wants, wide", 500, 500, 0, 1, 40, 30, 200, 1, 3, 18000),
    ("sheet of 500 by 500 steps, 10 wants", 500, 500, 0, 1, 10, 30, 200, 1, 3, 1),
]

# what grows, from one case to another
GROWTH = [
    ("bar, twice the length", "bar of 75000, 40 wants, many lengths", "bar of 150000, 40 wants, many lengths"),
    ("bar, twice the wants", "bar of 150000, 20 wants, many lengths", "bar of 150000, 40 wants, many lengths"),
    ("sheet, twice each side", "sheet of 250 by 250 steps, 40 wants", "sheet of 500 by 500 steps, 40 wants"),
    ("sheet, four times the wants", "sheet of 500 by 500 steps, 10 wants", "sheet of 500 by 500 steps, 40 wants"),
]


def main():
    parser = argparse.ArgumentParser()
    parser.add_argument("--runs", type=int, default=5)
    parser.add_argument("--root", default=os.path.join(HERE, ".."))
    arguments = parser.parse_args()
    with tempfile.TemporaryDirectory() as folder:
        program = build(folder, arguments.root, "planners", "planner_bench", ["cut_measure", "cut_plan", "anyhow"])
        times = {}
        for name, *numbers in CASES:
            words = [program] + [str(number) for number in numbers]
            runs = [subprocess.run(words, capture_output=True, text=True, check=True).stdout.split() for _ in range(arguments.runs)]
            least = min(int(run[0]) for run in runs)
            times[name] = least
            print(f"{name:48} {least / 1000:9.2f} ms   worth {runs[0][1]}", flush=True)
        for name, small, large in GROWTH:
            print(f"{name:48} {times[large] / max(times[small], 1):9.2f} times the time")


if __name__ == "__main__":
    main()
