#!/usr/bin/env python3
"""Prints a label for each piece of the waiting jobs, as CSV: order, line, size, job, and which piece of how many.

    examples/labels.py [http://127.0.0.1:8017] > labels.csv
"""

import collections
import csv
import re
import sys

from shop_client import Shop

# A line of a ticket that names a piece, as `2 piece at 0.0 0.0 of 0.4 x 0.3 demand 1 A-1 line 1`.
PIECE = re.compile(r" *\d+ piece at .* of ([0-9.]+(?: x [0-9.]+)?) demand \d+ ([A-Z0-9-]+) line (\d+)(?: turned)?")


def waiting_jobs(shop):
    """The numbers of all waiting jobs, a page at a time."""
    page = {"jobs": [], "more": True}
    while page["more"]:
        after = page["jobs"][-1]["job"] if page["jobs"] else 0
        page = shop.ask(f"/jobs/{after}")
        yield from (row["job"] for row in page["jobs"])


def pieces(shop):
    """Each piece of a waiting job: order, line, size, job."""
    for job in waiting_jobs(shop):
        for line in shop.text(f"/ticket/{job}").splitlines():
            piece = PIECE.fullmatch(line)
            if piece:
                yield piece[2], int(piece[3]), piece[1], job


def main(base="http://127.0.0.1:8017"):
    found = sorted(pieces(Shop(base)))
    many = collections.Counter(row[:2] for row in found)
    seen = collections.Counter()
    table = csv.writer(sys.stdout)
    table.writerow(["order", "line", "size", "job", "piece", "of"])
    for row in found:
        seen[row[:2]] += 1
        table.writerow([*row, seen[row[:2]], many[row[:2]]])


if __name__ == "__main__":
    main(*sys.argv[1:])
