#!/usr/bin/env python3
"""Times backups of an open shop, and what eight terminals wait that post meanwhile.

    bench/backups.py [PROGRAM] [--parts N ..] [--rounds N] [--folder FOLDER ..]

PROGRAM is the built program, crates/cutshop/out/cutshop by default (`rt run` in crates/cutshop makes it). In each folder, one
on a disk and one on tmpfs by default, plain SQL makes a store behind so many parts (100000 and 1000000 by default), as many
jobs, orders and kept messages. Backups are made one after the other, so many rounds, and each is deleted before the next:
it reports what one takes, from asking to its answer, the least and the greatest, beside how many bytes are copied. Then eight
terminals post 1000 messages at once, with nothing beside them and then while backups are made, one 50 milliseconds behind
the other: it reports the slowest answer of either, the least and the greatest of the rounds, and how many backups were made.
"""

import argparse
import itertools
import os
import shutil
import sys
import tempfile
import time

HERE = os.path.dirname(os.path.abspath(__file__))
sys.path.insert(0, os.path.join(HERE, "..", "tests"))
sys.dont_write_bytecode = True

from kit.backups import REQUEST, open_shop, backup_answer  # noqa: E402
from kit.terminals import Terminal, at_once  # noqa: E402
from kit import aged, crowds, tables  # noqa: E402
from kit.case import Trial  # noqa: E402

PROGRAM = os.path.join(HERE, "..", "crates", "cutshop", "out", "cutshop")
PAUSE = 0.05


def made(path, count):
    """Makes a store of a standing bar, and so much history behind it."""
    rows = aged.book("STEEL", 0, 3, aged.HISTORY + count, aged.HISTORY + count, 100, **aged.history(count, "STEEL"))
    rows["parts"] = itertools.chain([(1, 0, "STEEL", "B", 1, 0, 0, 0, 100, 1, 0, 0)], rows["parts"])
    rows["totals2"] = [("STEEL", 100, 100, 0, 0, 0, 100 * count, 0)]
    tables.make(path, rows)


def backup(shop, folder):
    """The milliseconds of a backup, and the bytes that were copied; it is deleted then."""
    begin = time.perf_counter()
    answer = shop.exchange(REQUEST)
    took = 1000 * (time.perf_counter() - begin)
    if answer != backup_answer(1):
        raise RuntimeError(f"a backup was answered {answer}")
    copied = sum(it.stat().st_size for it in os.scandir(os.path.join(folder, "1")))
    shutil.rmtree(os.path.join(folder, "1"))
    return took, copied


def slowest(shop, numbers, count=125):
    """The slowest answer of eight terminals of these numbers, in milliseconds."""
    terminals = [Terminal(it) for it in numbers]
    faults = at_once(shop, terminals, count)
    if faults or [len(it.exchanges) for it in terminals] != [count] * len(terminals):
        raise SystemExit(f"not all was answered: {faults}")
    return 1000 * max(it.slowest for it in terminals)


def measured(shop, folder, rounds):
    """The times of backups and what was copied; the slowest answers with nothing beside them, and beside how many backups."""
    took, backups = [backup(shop, folder) for _ in range(rounds)], []

    def one_after_another(ends):
        while not ends.wait(PAUSE):
            backups.append(backup(shop, folder)[0])

    # (each round's terminals are new to the shop, whose history is another one's)
    numbers = itertools.count(aged.EARLIER + 1)
    alone = [slowest(shop, list(itertools.islice(numbers, 8))) for _ in range(rounds)]
    beside = []
    for _ in range(rounds):
        with crowds.beside(one_after_another):
            time.sleep(PAUSE)
            beside.append(slowest(shop, list(itertools.islice(numbers, 8))))
    return [it for it, _ in took], took[-1][1], alone, beside, len(backups)


def row_of(program, place, count, rounds):
    """What is reported of a store of so many parts in a folder."""
    with tempfile.TemporaryDirectory(dir=place) as under:
        made(os.path.join(under, "shop.db"), count)
        shop = open_shop(Trial(program, False, under))
        try:
            times, copied, alone, beside, backups = measured(shop, os.path.join(under, "backups"), rounds)
        finally:
            shop.kill()
    return (
        f"{place}, {count} parts, {copied / 1e6:.0f} MB: a backup takes {min(times):.0f} to {max(times):.0f} ms; the slowest answer"
        f" {min(alone):.0f} to {max(alone):.0f} ms, beside {backups} backups {min(beside):.0f} to {max(beside):.0f} ms"
    )


def main():
    parser = argparse.ArgumentParser(description=__doc__, formatter_class=argparse.RawDescriptionHelpFormatter)
    parser.add_argument("program", nargs="?", default=PROGRAM)
    parser.add_argument("--parts", nargs="+", type=int, default=[100000, 1000000])
    parser.add_argument("--rounds", type=int, default=5)
    parser.add_argument("--folder", nargs="+", default=["/var/tmp", "/dev/shm"])
    given = parser.parse_args()
    for place, count in itertools.product(given.folder, given.parts):
        print(row_of(os.path.abspath(given.program), place, count, given.rounds), flush=True)


if __name__ == "__main__":
    main()
