"""Each key of the messages and queries of the floor: left out, beside another one, and with values of another type or form."""

import json

from kit.case import case
from kit.floor import refused
from kit.keys import BAD, CODE, FLAGS, LINES, NAME, NAMES, NUMBER, NUMBERS, PAIR, TEXT, bad_lines, goods, written
from kit.lines import over_both

# (an `after` may be empty)
AFTER = ('"9/9"', [it for it in NAMES if it != '""'])
CUTS = ("1", [it for it in NUMBERS if it != "[1]"])
DOES = {
    "note": {"order": CODE, "due": ("0", NUMBERS), "text": TEXT},
    "extend": {"order": CODE, "lines": LINES},
    "begin": {"job": NUMBER},
    "undo": {"job": NUMBER},
}
# A break with a rest: a number beside a number of cuts, and beside a list. (Without one it is in the other cases.)
RESTS = [
    {"job": NUMBER, "cuts": CUTS, "lost": ("true", FLAGS), "rest": NUMBER},
    {"job": NUMBER, "cuts": ("[0]", ["{}", "null", '"1"', "true", "[-1]", "[1.0]", "[null]"]), "lost": ("1", ["true", "null", '"1"', "[]", "-1", "1.0"]), "rest": NUMBER},
]
ASKS = [("pieces", {kind: value, "after": AFTER}) for kind, value in (("order", CODE), ("batch", CODE), ("unit", NAME))]
ASKS += [("steps", {"job": NUMBER})]


def no_break(line):
    """Whether a line is none of a break: without `rest` it is one, and so is a list with no cut lost."""
    value = json.loads(line)
    return "rest" in value


@case(
    "every key of every message of the floor",
    "Each key of `note`, `extend`, `begin`, `undo` and of a `break` with `rest` left out, with each value of another type or "
    "form, and another key beside them: 10.",
)
def every_message(trial):
    bad = list(bad_lines("do", DOES, PAIR))
    for form in RESTS:
        bad += [it for it in bad_lines("do", {"break": form}, PAIR) if no_break(it)]
    bad += [written({"ask": f'"{name}"', **goods({**form, **PAIR})}) for name, form in DOES.items()]
    # (no other message has a rest, and a break's rest stands in it alone)
    bad += [written({"do": f'"{it}"', "job": "1", "rest": "1", **goods(PAIR)}) for it in ("done", "release", "begin", "undo")]
    over_both(trial, [(it, BAD) for it in bad])


@case(
    "every key of every query of the floor",
    "The same of `pieces`, by each of its three kinds, of two of them at once and of none, and of `steps`; and of their keys "
    "beside those of a message.",
)
def every_query(trial):
    bad = []
    for name, form in ASKS:
        bad += bad_lines("ask", {name: form}, {})
        bad += [written({"do": f'"{name}"', **goods(form)}), written({"do": f'"{name}"', **goods({**PAIR, **form})})]
    kinds = [{"order": '"A"'}, {"batch": '"A"'}, {"unit": '"9/9"'}]
    for first in kinds:
        bad += [written({"ask": '"pieces"', "after": '""', **first, **other}) for other in kinds if other != first]
        bad += [written({"ask": '"pieces"', "after": it, **first}) for it in ("0", "null", '"A"', '"9"', '"9/"')]
    bad += [written({"ask": '"pieces"', "after": '""'}), written({"ask": '"pieces"', "after": '""', "material": '"A"'})]
    over_both(trial, [(it, BAD) for it in bad])


@case(
    "forms of the floor that are good to the letter",
    "With its good values each message and query of the floor is read, and refused for what isn't there or answered: never 10. "
    "A key that comes twice counts with its last value.",
)
def good_forms(trial):
    steps = [(written({"do": f'"{name}"', **goods({**form, **PAIR})}), refused(43 if name in ("note", "extend") else 70, "NoOrder" if name in ("note", "extend") else "NoJob")) for name, form in DOES.items()]
    steps += [(written({"do": '"break"', **goods({**form, **PAIR})}), refused(70, "NoJob")) for form in RESTS]
    none = '{"more":false,"ok":"pieces","pieces":[]}'
    output = [refused(43, "NoOrder"), none, refused(50, "NoPart"), refused(70, "NoJob")]
    steps += [(written({"ask": f'"{name}"', **goods(form)}), reply) for (name, form), reply in zip(ASKS, output)]
    steps += [('{"after":"1","after":"","ask":"pieces","batch":"a","batch":"A"}', none)]
    steps += [('{"do":"begin","job":"1","job":1,"number":1,"terminal":1}', refused(70, "NoJob"))]
    steps += [('{"do":"break","cuts":1,"job":1,"lost":true,"rest":null,"rest":4294967295,"number":1,"terminal":1}', refused(70, "NoJob"))]
    over_both(trial, steps)
