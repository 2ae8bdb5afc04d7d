"""A store's file, row by row, after “remnant cut again”."""

import json

from kit import tables
from kit.case import SECONDS
from kit.glass import DONE, GLASS, ORDER, RESERVE, SHEET
from kit.shop import read_all

REMNANT = '{"do":"reserve","number":6,"part":"2/4","terminal":1,"tree":"y3 p3 r"}'
DONE_AGAIN = '{"do":"done","job":3,"number":7,"terminal":1}'

# “Remnant cut again”, each line with its reply.
DAY = [
    (GLASS, '{"material":"GLASS","ok":"material"}'),
    (SHEET, '{"act":1,"count":1,"ok":"receive"}'),
    (ORDER, '{"count":3,"first":1,"ok":"order","order":"A-1"}'),
    (RESERVE, '{"cuts":2,"job":2,"ok":"reserve"}'),
    (DONE, '{"job":2,"kerf":12,"ok":"done","pieces":28,"rack":40,"scrap":0}'),
    (REMNANT, '{"cuts":1,"job":3,"ok":"reserve"}'),
    (DONE_AGAIN, '{"job":3,"kerf":5,"ok":"done","pieces":15,"rack":20,"scrap":0}'),
]
TOTALS = '{"ask":"totals","material":"GLASS"}'
QUESTIONS = [TOTALS, '{"ask":"rack","material":"GLASS"}']
PARTS = "1/0 2/0 2/1 2/2 2/3 2/4 3/0 3/1 3/2 3/3".split()
QUESTIONS += [f'{{"ask":"trace","part":"{it}"}}' for it in PARTS]
QUESTIONS += [f'{{"ask":"demand","demand":{it}}}' for it in (1, 2, 3, 4)]
PLACE = ("GLASS", "B-1", 1, 0)

# The rows of each table after these messages.
ROWS = {
    "meta": [("act", 3), ("demand", 3), ("version", 3)],
    "materials": [("GLASS", 1, 1, 5, 4)],
    "parts": [
        (1, 0, *PLACE, 0, 0, 10, 8, 2, 2),
        (2, 0, *PLACE, 4, 0, 1, 8, 4, 0),
        (2, 1, *PLACE, 0, 3, 4, 1, 4, 0),
        (2, 2, *PLACE, 0, 0, 4, 3, 3, 1),
        (2, 3, *PLACE, 0, 4, 4, 4, 3, 2),
        (2, 4, *PLACE, 5, 0, 5, 8, 2, 3),
        (3, 0, *PLACE, 5, 3, 5, 1, 4, 0),
        (3, 1, *PLACE, 5, 0, 5, 3, 3, 3),
        (3, 2, *PLACE, 5, 4, 5, 4, 0, 0),
    ],
    "jobs": [(2, 1, 0, "x4 y3 p1 p2 r", 1), (3, 2, 4, "y3 p3 r", 1)],
    "orders": [("A-1",)],
    "demands": [
        (1, "A-1", 1, "GLASS", 4, 3, 0, 12, 1, 0, 1),
        (2, "A-1", 2, "GLASS", 4, 4, 0, 16, 1, 0, 1),
        (3, "A-1", 3, "GLASS", 5, 3, 0, 15, 1, 0, 1),
    ],
    "kept": [(1, number, line, reply) for number, (line, reply) in enumerate(DAY, 1)],
    "imports": [],
    "totals": [],
    "totals2": [("GLASS", 80, 0, 20, 43, 17, 0, 0)],
    # (with 0 in place of the times)
    "journal": [
        (1, 0, 1, 1, "material", 0, 0, "", 0, 0),
        (2, 0, 1, 2, "receive", 1, 0, "", 0, 0),
        (3, 0, 1, 3, "order", 0, 0, "A-1", 0, 0),
        (4, 0, 1, 4, "reserve", 2, 2, "", 1, 0),
        (5, 0, 1, 5, "done", 0, 2, "", 0, 0),
        (6, 0, 1, 6, "reserve", 3, 3, "", 2, 4),
        (7, 0, 1, 7, "done", 0, 3, "", 0, 0),
    ],
    "uses": [(2, "A-1"), (3, "A-1")],
    "notes": [],
    "begun": [],
    "halts": [],
}


def sent(trial, shop, exchanges=DAY):
    for line, reply in exchanges:
        trial.equal(shop.reply(line).decode(), reply, line)


def filled(trial, store="shop.db", exchanges=DAY):
    """The path of a store in which these messages were handled."""
    shop = trial.shop(store, limit=len(exchanges))
    sent(trial, shop, exchanges)
    trial.equal(shop.end()[0], 0)
    return shop.store


def received(material, w, h, act, count=1, number=2, batch="B-1"):
    line = {"batch": batch, "count": count, "do": "receive", "h": h, "material": material, "w": w}
    line |= {"number": number, "terminal": 1}
    return json.dumps(line), json.dumps({"act": act, "count": count, "ok": "receive"}, separators=(",", ":"))


PROBLEM = "  2 10 8\r\n4 3 2 66\r\n5 8 1 40\r\n"
ORDERS = "line,material,length,width,turn,count,worth\n1,STEEL,3.0,0.1,no,3,30\n"


def numbers(path, name, value):
    tables.change(path, f"UPDATE meta SET value = {value} WHERE name = '{name}'")


def many_parts(path, material, count, w, h, first_act=10, state=0):
    """Puts standing parts of a job's name into a file, and their cells into the rack's total."""
    rows = ",".join(f"({first_act}, {it}, '{material}', 'B-9', 1, 0, 0, 0, {w}, {h}, {state}, 0)" for it in range(count))
    cells = count * w * h
    sums = f"UPDATE totals2 SET rack = rack + {cells} WHERE material = '{material}'"
    tables.change(path, f"INSERT INTO parts VALUES {rows}; {sums}")


def long_answer(shop, path):
    """The body of an answer for which the client waits as long as for a run of the program."""
    with shop.connect() as connection:
        connection.settimeout(SECONDS)
        connection.sendall(f"GET {path} HTTP/1.1\r\nHost: shop\r\n\r\n".encode())
        return read_all(connection).partition(b"\r\n\r\n")[2]


NO_ROW = "a row stands for nothing that a shop has; put a copy of it and its log in its place: "
