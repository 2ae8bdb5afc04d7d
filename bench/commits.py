#!/usr/bin/env python3
"""Times commits of a book in memory by how many parts stand: jobs that end, each of which cuts a part and leaves another one.

    bench/commits.py [--program FILE] [--root FOLDER] [--materials N ..] [--parts N ..] [--ends N] [--runs N]

It reports what a commit takes of the processor, in microseconds, where so many parts stand of one material and of 20: the least
of some runs with so many jobs that end, less the least of as many without any.

Without --program, the program in bench/commits is proved and built by `rt run` in a repository of its own in a temporary
folder, with copies of the crates of FOLDER (by default of this repository).
"""

import argparse
import os
import resource
import subprocess
import tempfile

from building import build

HERE = os.path.dirname(os.path.abspath(__file__))


def used(words):
    """The seconds of processor time of a run."""
    before = resource.getrusage(resource.RUSAGE_CHILDREN)
    subprocess.run(words, check=True)
    after = resource.getrusage(resource.RUSAGE_CHILDREN)
    return after.ru_utime + after.ru_stime - before.ru_utime - before.ru_stime


def main():
    parser = argparse.ArgumentParser(description=__doc__, formatter_class=argparse.RawDescriptionHelpFormatter)
    parser.add_argument("--program")
    parser.add_argument("--root", default=os.path.join(HERE, ".."))
    parser.add_argument("--materials", type=int, nargs="+", default=[1, 20])
    parser.add_argument("--parts", type=int, nargs="+", default=[1000, 10000, 100000, 1000000])
    parser.add_argument("--ends", type=int, default=20000)
    parser.add_argument("--runs", type=int, default=3)
    given = parser.parse_args()
    with tempfile.TemporaryDirectory() as room:
        program = given.program or build(room, given.root, "commits", "commit_bench", ["shop_store", "shop_records", "cut_measure"])
        for materials in given.materials:
            for parts in given.parts:
                words = [program, str(materials), str(parts)]
                none = min(used([*words, "0"]) for _ in range(given.runs))
                some = min(used([*words, str(given.ends)]) for _ in range(given.runs))
                print(f"{materials} materials, {parts} parts: {(some - none) / given.ends * 1e6:.2f} us", flush=True)


if __name__ == "__main__":
    main()
