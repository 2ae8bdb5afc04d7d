"""Which steps the planner of sheets takes, as docs/PLANNING.md reports them."""

import json

from kit.case import case

# A sheet of 1200.0 by 800.0 mm, a kerf of 3.0 mm, and one demand that nothing of is dropped.
SHEET = [
    {"do": "material", "kerf": 30, "kind": "sheet", "material": "G", "min_long": 3000, "min_short": 1000, "number": 1},
    {"batch": "B", "count": 1, "do": "receive", "h": 8000, "material": "G", "number": 2, "w": 12000},
]


def planned(trial, w, h, steps):
    """What is answered to plans of the sheet for pieces of these sides, by these steps."""
    line = {"count": 1000, "h": h, "line": 1, "material": "G", "turn": False, "w": w, "worth": 7}
    lines = [*SHEET, {"do": "order", "lines": [line], "number": 3, "order": "A"}]
    asked = [{"ask": "plan", "demands": [1], "part": "1/0", "step": it} for it in steps]
    ran = trial.replay([json.dumps({**it, "terminal": 1}) for it in lines] + [json.dumps(it) for it in asked])
    return [json.loads(it) for it in ran.out.split(b"\n")[len(lines) : -1]]


@case(
    "the least and the greatest step",
    "The planner takes the step `floor((w + k) / 501) + 1` of a sheet's longer side and none under it, 91; and a "
    "side of the piece with the kerf, and none over it, 92.",
)
def limits(trial):
    least, under, greatest, over = planned(trial, 4005, 3000, [25, 24, 3030, 3031])
    trial.equal((under["refused"], over["refused"]), (91, 92))
    trial.equal((least["ok"], greatest["ok"]), ("plan", "plan"))


@case(
    "an exact step",
    "By an exact step a plan of which nothing is dropped is worth the ceiling; by the least step its ceiling is no "
    "lower.",
)
def exact(trial):
    best, least = planned(trial, 3970, 2970, [500, 25])
    trial.equal((best["worth"], best["dropped"]), (best["ceiling"], 0))
    trial.holds(least["ceiling"] >= best["worth"] >= least["worth"], f"{best} {least}")
