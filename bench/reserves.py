#!/usr/bin/env python3
"""Times reservations of many pieces, over both books: bench/reserves.py [PROGRAM] [--times N] [--folder FOLDER]

PROGRAM is the built program, crates/cutshop/out/cutshop by default. A bar is reserved for a plan of one demand and released
again, so many times (200 by default), once by plans of one piece and once by plans of 250. Over the book in memory they are
lines of one `cutshop replay`; over a book in a file they are posted to `cutshop serve`, a connection each. It reports the
microseconds of a pair of both messages, the least of five runs in memory and the median in a file.
"""

import argparse
import json
import os
import statistics
import subprocess
import tempfile
import time

from served import Served, posted

HERE = os.path.dirname(os.path.abspath(__file__))
PROGRAM = os.path.join(HERE, "..", "crates", "cutshop", "out", "cutshop")
PIECE = 100
KERF = 3


def beginning():
    """A material, a bar and an order of 250 pieces."""
    return [
        {"do": "material", "kerf": KERF, "kind": "bar", "material": "STEEL", "min_long": 20, "min_short": 1},
        {"do": "receive", "material": "STEEL", "batch": "B", "w": 60000, "h": 1, "count": 1},
        {"do": "order", "order": "A", "lines": [{"count": 250, "h": 1, "line": 1, "material": "STEEL", "turn": False, "w": PIECE, "worth": 1}]},
    ]


def pairs(pieces, times):
    """Reservations by a plan of so many pieces, each released again."""
    tree = " ".join([f"x{PIECE} p1"] * pieces + ["r"])
    for job in range(2, times + 2):
        yield {"do": "reserve", "part": "1/0", "tree": tree}
        yield {"do": "release", "job": job}


def lines(commands):
    """The commands as messages of terminal 1, by rising numbers."""
    return [json.dumps({**command, "terminal": 1, "number": number}) for number, command in enumerate(commands, 1)]


def replayed(program, given):
    """The seconds that one replay takes, each of whose replies is no refusal."""
    begin = time.monotonic()
    done = subprocess.run([program, "replay"], input="\n".join(given) + "\n", capture_output=True, text=True, check=True)
    took = time.monotonic() - begin
    assert "refused" not in done.stdout, done.stdout[:500]
    return took


def in_memory(program, pieces, times):
    """Microseconds of a pair over the book in memory."""
    rest = [*beginning(), *pairs(pieces, times)]
    return min(replayed(program, lines(rest)) - replayed(program, lines(beginning())) for _ in range(5)) / times * 1e6


def in_file(program, pieces, times, folder):
    """Microseconds of a pair over a book in a file."""
    with tempfile.TemporaryDirectory(dir=folder) as shop:
        open(f"{shop}/shop.toml", "w").close()
        served = Served(program, shop, "shop.db")
        served.start()
        took = []
        for line in lines([*beginning(), *pairs(pieces, times)]):
            begin = time.monotonic()
            status, reply = posted(served.port, line.encode())
            took.append(time.monotonic() - begin)
            assert b"refused" not in reply, (status, reply)
        served.kill()
    took = took[len(beginning()):]
    return statistics.median(a + b for a, b in zip(took[::2], took[1::2])) * 1e6


def main():
    reader = argparse.ArgumentParser(description=__doc__.split("\n\n", maxsplit=1)[0])
    reader.add_argument("program", nargs="?", default=PROGRAM)
    reader.add_argument("--times", type=int, default=200)
    reader.add_argument("--folder")
    asked = reader.parse_args()
    print("microseconds of a reservation and its release")
    for pieces in [1, 250]:
        memory, file = in_memory(asked.program, pieces, asked.times), in_file(asked.program, pieces, asked.times, asked.folder)
        print(f"{pieces:4} pieces: {memory:8.0f} in memory, {file:8.0f} in a file")


if __name__ == "__main__":
    main()
