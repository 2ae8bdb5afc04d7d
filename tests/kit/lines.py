"""Lines that are sent to `replay` and to `serve`, and their refusals."""

import json

from kit import exchanges

# A plan of 255 cuts, without a kerf, and its ticket.
LONGEST = " ".join(["x1 p1"] * 255 + ["p1"])


def over_both(trial, steps):
    """Sends lines to `replay` and to `serve`; each is given with its reply."""
    steps = [
        exchanges.Step(
            "", it.encode() if isinstance(it, str) else it, False, reply.encode() if isinstance(reply, str) else reply
        )
        for it, reply in steps
    ]
    exchanges.replay(trial, steps)
    exchanges.serve(trial, steps)


def compact(value):
    return json.dumps(value, sort_keys=True, separators=(",", ":"))


def refused(number, name):
    return compact({"name": name, "refused": number})


def material(code, number, kind="sheet", kerf=1, long=5, short=4):
    return compact(
        {
            "do": "material",
            "kerf": kerf,
            "kind": kind,
            "material": code,
            "min_long": long,
            "min_short": short,
            "number": number,
            "terminal": 1,
        }
    )


def added(code):
    return compact({"material": code, "ok": "material"})


def imported(number, order, form, text, **more):
    return compact({"do": "import", "form": form, "number": number, "order": order, "terminal": 1, "text": text, **more})
