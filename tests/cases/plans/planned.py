"""Plans of sheets, of which any best one may be reported: what it is worth, that it is reserved, and that its cells add up."""

import json

from kit.case import case
from kit.lines import compact, material, refused


def asked(part="1/0", demands=(1,), step=1):
    return compact({"ask": "plan", "demands": list(demands), "part": part, "step": step})


def sheet(w, h, kerf, lines, kind="sheet"):
    """The lines of a shop with one unit of these sides and an order of these pieces (sides, number, worth, turn)."""
    wanted = [
        {"count": count, "h": height, "line": number, "material": "S", "turn": turn, "w": width, "worth": worth}
        for number, (width, height, count, worth, turn) in enumerate(lines, 1)
    ]
    least = (5, 4) if kind == "sheet" else (1, 1)
    unit = {"batch": "B-1", "count": 1, "do": "receive", "h": h, "material": "S", "number": 2, "terminal": 1, "w": w}
    order = {"do": "order", "lines": wanted, "number": 3, "order": "A-1", "terminal": 1}
    return [material("S", 1, kind, kerf, *least), compact(unit), compact(order)]


def planned(trial, lines, wanted, **question):
    """Asks for a plan in a shop with these lines, and wants this worth, ceiling and number dropped. The tree is reserved and
    cut, and the cells add up to what was received."""
    plan = json.loads(trial.replay([*lines, asked(**question)]).out.split(b"\n")[-2])
    trial.equal((plan["worth"], plan["ceiling"], plan["dropped"]), wanted, asked(**question))
    reserve = compact({"do": "reserve", "number": 4, "part": "1/0", "terminal": 1, "tree": plan["tree"]})
    done = compact({"do": "done", "job": 2, "number": 5, "terminal": 1})
    out = trial.replay([*lines, reserve, done, compact({"ask": "totals", "material": "S"})]).out.split(b"\n")[-4:-1]
    output, ended, totals = (json.loads(it) for it in out)
    if plan["worth"] == 0:
        trial.equal(out[0].decode(), refused(60, "BadTree"), reserve)
        return
    trial.equal((output.get("job"), ended.get("ok")), (2, "done"), reserve)
    cells = sum(totals[it] for it in ("stock", "rack", "pieces", "kerf", "scrap", "returned"))
    trial.equal((cells, totals["stock"]), (totals["received"], 0), reserve)


@case(
    "plans of sheets, as queries",
    "A sheet of 10 by 8, kerf 1, pieces of 4 by 3: worth 48 at step 1, 24 with a ceiling of 48 at step 2, turned as "
    "much. Two of 5 by 5 drop two, two small ones 98. Each tree is reserved and cut.",
)
def sheets(trial):
    pieces = sheet(10, 8, 1, [(4, 3, 10, 12, False)])
    planned(trial, pieces, (48, 48, 0))
    planned(trial, pieces, (24, 48, 0), step=2)
    planned(trial, sheet(10, 8, 1, [(3, 4, 10, 12, True)]), (48, 48, 0))
    planned(trial, sheet(10, 10, 0, [(5, 5, 2, 25, False)]), (50, 100, 2))
    planned(trial, sheet(100, 100, 0, [(10, 10, 2, 1, False)]), (2, 100, 98))
    planned(trial, sheet(10, 10, 0, [(1, 1, 85, 1, False)]), (85, 100, 15))
    planned(trial, sheet(10, 10, 0, [(1, 1, 100, 1, False)]), (100, 100, 0))
    planned(trial, sheet(4, 3, 0, [(4, 3, 1, 12, False)]), (0, 12, 0), step=3)


@case("plans of 256 and 257 pieces on a bar", "256 pieces that fill a bar take 255 cuts and are planned; 257 are refused 91.")
def bars(trial):
    for count, wanted in ((256, (256, 256, 0)), (257, None)):
        lines = sheet(500 * count, 1, 0, [(500, 1, 1000, 1, False)], "bar")
        if wanted:
            planned(trial, lines, wanted, step=0)
        else:
            reply = trial.replay([*lines, asked(step=0)]).out.split(b"\n")[-2]
            trial.equal(reply.decode(), refused(91, "TableTooLarge"))


@case(
    "a sheet of 256 pieces and more",
    "16 by 16 pieces that fill a sheet take 255 cuts and are planned; 16 by 17 are refused 91.",
)
def many(trial):
    planned(trial, sheet(16, 16, 0, [(1, 1, 256, 1, False)]), (256, 256, 0))
    lines = sheet(16, 17, 0, [(1, 1, 1000, 1, False)])
    trial.equal(trial.replay([*lines, asked()]).out.split(b"\n")[-2].decode(), refused(91, "TableTooLarge"))
