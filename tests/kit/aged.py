"""Shops of many rows: their rows, for files that plain SQL makes, and the messages after which a shop in memory is old."""

import os
import tempfile
import threading

from kit.questions import compact

# The first act and demand of a history, and those of open work behind it.
HISTORY, WORK = 1000000, 3000000

# The terminal of a history's messages.
EARLIER = 8

LOCK = threading.Lock()
MADE = {}


def once(name, make):
    """The path of a file that is made once for a run of the suite, by what gets its path. Whoever changes it copies it first."""
    with LOCK:
        if name not in MADE:
            at = "/dev/shm" if os.access("/dev/shm", os.W_OK) else None
            folder = tempfile.TemporaryDirectory(prefix="cutshop-made-", dir=at)
            path = os.path.join(folder.name, name)
            make(path)
            MADE[name] = (path, folder)
        return MADE[name][0]


def book(code, kind, kerf, act, demand, stock, **more):
    """The rows of a shop with one material of such a stock, of bars (0) or sheets (1), and with these others."""
    return {
        "meta": [("act", act), ("demand", demand), ("version", 3)],
        "materials": [(code, kind, kerf, 5, 4 if kind else 1)],
        "totals2": [(code, stock, stock, 0, 0, 0, 0, 0)],
        **more,
    }


def scrapped(number):
    """A message of a history by its number, as it is kept, and its reply."""
    part = f"{HISTORY + number}/0"
    return compact({"do": "scrap", "number": number, "part": part, "terminal": EARLIER}), compact({"ok": "scrap", "part": part})


def history(count, code, first=1):
    """The rows of so many parts that were scrapped, with the messages and their entries from a number on, of jobs that are done, and of
    orders of a piece that is made: all of bars of 100 of a material."""
    return {
        "parts": ((HISTORY + it, 0, code, "B", 1, 0, 0, 0, 100, 1, 5, 0) for it in range(count)),
        "jobs": ((HISTORY + it, HISTORY + it, 0, "x30 p1 r", 1) for it in range(count)),
        "orders": ((f"OLD-{it}",) for it in range(count)),
        "demands": ((HISTORY + it, f"OLD-{it}", 1, code, 30, 1, 0, 1, 1, 0, 1) for it in range(count)),
        "kept": ((EARLIER, it, *scrapped(it)) for it in range(count)),
        "journal": ((first + it, 0, EARLIER, it, "scrap", 0, 0, "", HISTORY + it, 0) for it in range(count)),
        "uses": ((HISTORY + it, f"OLD-{it}") for it in range(count)),
    }


def open_work(count, code, w, h, act=1, demand=1, order="A"):
    """The rows of so many waiting jobs of as many units, each of a demand's one piece of two, and the first job's number."""
    names = [(act + it // 100, it % 100) for it in range(count)]
    first = act + (count + 99) // 100
    rows = {
        "orders": [(f"{order}-{it:03}",) for it in range((count + 199) // 200)],
        "parts": [(*it, code, "B", *it, 0, 0, w, h, 1, first + number) for number, it in enumerate(names)],
        "jobs": [(first + number, *it, f"p{demand + number}", 0) for number, it in enumerate(names)],
        "demands": [(demand + it, f"{order}-{it // 200:03}", it % 200 + 1, code, w, h, 0, 1, 2, 1, 0) for it in range(count)],
    }
    return rows, first


def units(count, code, w, h=1):
    """The rows of so many standing units, a hundred of each receipt."""
    names = [(1 + it // 100, it % 100) for it in range(count)]
    return [(*it, code, "B", *it, 0, 0, w, h, 0, 0) for it in names]


def cut_up(yard, code, count):
    """Bars of a material, whose kerf is 3, that are cut into so many parts, half of them pieces and half of them kerf."""
    for _ in range(count // 400):
        first = yard.bars(code, *[(10, 1)] * 200)
        yard.cut(yard.receive(code, 2600), " ".join(f"x10 p{first + it}" for it in range(200)))


def undone(yard, code, count, part):
    """So many orders of a piece of 30 that are cancelled, and reservations of a part for one that are released."""
    for _ in range(count):
        demand = yard.bars(code, (30, 1))
        yard.send(do="release", job=yard.reserve(part, f"x30 p{demand} r"))
        yard.amend(demand, 0)
