"""A day with each command, and what is asked of its history."""

import json

from kit.questions import compact
from kit.stores import ORDERS, PROBLEM

STEEL = {"kerf": 3, "kind": "bar", "material": "STEEL", "min_long": 20, "min_short": 1}
PANE = {"kerf": 1, "kind": "sheet", "material": "GLASS", "min_long": 5, "min_short": 4}
LINE = {"h": 1, "line": 1, "material": "STEEL", "turn": False, "worth": 1}


def received(batch, w, count):
    return {"batch": batch, "count": count, "do": "receive", "h": 1, "material": "STEEL", "w": w}


def reserved(part, tree):
    return {"do": "reserve", "part": part, "tree": tree}


def ordered(order, w, count):
    return {"do": "order", "lines": [{**LINE, "count": count, "w": w}], "order": order}


CSV = {"do": "import", "form": "csv", "order": "A-3", "text": ORDERS}
CGCUT = {"do": "import", "form": "cgcut", "material": "GLASS", "order": "CG-1", "text": PROBLEM}

# A day with each command, each message with its reply; its place here, from 1 on, is its entry's number.
DAY = [
    ({"do": "material", **STEEL}, {"material": "STEEL", "ok": "material"}),
    (received("B-1", 100, 2), {"act": 1, "count": 2, "ok": "receive"}),
    (ordered("A-1", 30, 3), {"count": 1, "first": 1, "ok": "order", "order": "A-1"}),
    (ordered("A-2", 20, 5), {"count": 1, "first": 2, "ok": "order", "order": "A-2"}),
    (reserved("1/0", "x30 p1 x30 p1 r"), {"cuts": 2, "job": 2, "ok": "reserve"}),
    (reserved("1/1", "x30 p1 x20 p2 r"), {"cuts": 2, "job": 3, "ok": "reserve"}),
    ({"do": "done", "job": 2}, {"job": 2, "kerf": 6, "ok": "done", "pieces": 60, "rack": 34, "scrap": 0}),
    ({"cuts": 1, "do": "break", "job": 3, "lost": False}, {"job": 3, "kerf": 3, "ok": "break", "pieces": 30, "rack": 67, "scrap": 0}),
    (reserved("2/4", "x20 p2 r"), {"cuts": 1, "job": 4, "ok": "reserve"}),
    ({"do": "release", "job": 4}, {"job": 4, "ok": "release"}),
    (reserved("2/4", "x20 p2 r"), {"cuts": 1, "job": 5, "ok": "reserve"}),
    ({"do": "done", "job": 5}, {"job": 5, "kerf": 3, "ok": "done", "pieces": 20, "rack": 0, "scrap": 11}),
    ({"do": "scrap", "part": "3/2"}, {"ok": "scrap", "part": "3/2"}),
    (received("B-2", 50, 1), {"act": 6, "count": 1, "ok": "receive"}),
    ({"do": "return", "part": "6/0"}, {"ok": "return", "part": "6/0"}),
    ({"demand": 2, "do": "amend", "wanted": 1}, {"demand": 2, "ok": "amend", "wanted": 1}),
    (CSV, {"act": 0, "count": 1, "first": 3, "ok": "import", "order": "A-3"}),
    (CSV, {"act": 0, "count": 1, "first": 3, "ok": "import", "order": "A-3"}),
    ({"demand": 3, "do": "amend", "wanted": 0}, {"demand": 3, "ok": "amend", "wanted": 0}),
    ({"do": "material", **PANE}, {"material": "GLASS", "ok": "material"}),
    (CGCUT, {"act": 7, "count": 2, "first": 4, "ok": "import", "order": "CG-1"}),
    (CGCUT, {"act": 7, "count": 2, "first": 4, "ok": "import", "order": "CG-1"}),
    (reserved("7/0", "x4 y3 p4 r r"), {"cuts": 2, "job": 8, "ok": "reserve"}),
]

# (each is sent by another terminal than the one before)
EXCHANGES = [(compact({**it, "number": at, "terminal": 1 + at % 3}), compact(reply)) for at, (it, reply) in enumerate(DAY, 1)]


def history(after=0):
    return compact({"after": after, "ask": "history"})


def all_entries(trial, shop):
    """All entries of a shop, page by page."""
    entries, after, more = [], 0, True
    while more:
        page = json.loads(shop.reply(history(after)))
        more = page["more"]
        trial.holds(page["entries"] or not more, f"no entry behind {after}, and more follow")
        entries += page["entries"]
        after = entries[-1]["entry"] if entries else 0
    return entries


STEEL_FILE = '[[material]]\ncode = "STEEL"\nkind = "bar"\nkerf = "0.3"\nmin_long = "2.0"\nmin_short = "0.1"\n'
GLASS_FILE = '[[material]]\ncode = "GLASS"\nkind = "sheet"\nkerf = "0.1"\nmin_long = "0.5"\nmin_short = "0.4"\n'
