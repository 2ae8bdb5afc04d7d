"""Each key of each message and query: left out, beside another one, and with values of another type or form."""

import json

from kit.case import case
from kit.keys import BAD, CODE, CODES, FLAGS, FORM, KIND, LINES, LIST, NAME, NAMES, NUMBER, NUMBERS, PAIR, TEXT, bad_lines, goods, written
from kit.lines import over_both, refused

DOES = {
    "material": {"material": CODE, "kind": KIND, "kerf": NUMBER, "min_long": NUMBER, "min_short": NUMBER},
    "receive": {"material": CODE, "batch": CODE, "w": NUMBER, "h": NUMBER, "count": NUMBER},
    "order": {"order": CODE, "lines": LINES},
    "reserve": {"part": NAME, "tree": TEXT},
    "done": {"job": NUMBER},
    "release": {"job": NUMBER},
    "break": {"job": NUMBER, "cuts": ("1", [it for it in NUMBERS if it != "[1]"]), "lost": ("false", FLAGS)},
    "scrap": {"part": NAME},
    "return": {"part": NAME},
    "import": {"order": CODE, "form": ('"cgcut"', ['"csv"', *FORM]), "text": TEXT, "material": CODE},
    "amend": {"demand": NUMBER, "wanted": NUMBER},
}
ASKS = {
    "totals": {"material": CODE},
    "rack": {"material": CODE},
    "trace": {"part": NAME},
    "demand": {"demand": NUMBER},
    "plan": {"part": NAME, "step": NUMBER, "demands": LIST},
    "bound": {"material": CODE, "w": NUMBER, "h": NUMBER, "step": NUMBER, "demands": LIST},
    "materials": {},
    "parts": {"material": CODE, "after": ('"9/9"', [it for it in NAMES if it != '""'])},
    "demands": {"after": NUMBER},
    "jobs": {"after": NUMBER},
    "job": {"job": NUMBER},
    "terminal": {"terminal": NUMBER},
    "orders": {"after": ('"A"', [it for it in CODES if it != '""'])},
    "lines": {"order": CODE},
}


@case(
    "every key of every message",
    "Each key of each message left out, with each value of another type or form, and another key beside them: 10.",
)
def every_message(trial):
    bad = list(bad_lines("do", DOES, PAIR))
    bad += [written({"ask": f'"{name}"', **goods({**form, **PAIR})}) for name, form in DOES.items()]
    # (a file of lines has no material)
    bad += [written({"do": '"import"', **goods({**DOES["import"], **PAIR}), "form": '"csv"'})]
    for it in bad:
        json.loads(it)
    over_both(trial, [(it, BAD) for it in bad])


@case(
    "every key of every query",
    "The same of each query, and of its keys beside those of a message.",
)
def every_query(trial):
    bad = list(bad_lines("ask", ASKS, {}))
    bad += [written({"do": f'"{name}"', **goods(form)}) for name, form in ASKS.items()]
    bad += [written({"do": f'"{name}"', **goods({**PAIR, **form})}) for name, form in ASKS.items() if name != "material"]
    bad += [written({"ask": '"demands"', "after": "0", "material": it}) for it in CODES]
    for it in bad:
        json.loads(it)
    over_both(trial, [(it, BAD) for it in bad])


@case(
    "forms that are good to the letter",
    "With its good values each message and query is read, and refused for what isn't there or answered: never 10.",
)
def good_forms(trial):
    nothing = {
        "material": '{"material":"A","ok":"material"}',
        "receive": '{"act":1,"count":1,"ok":"receive"}',
        "order": '{"count":1,"first":1,"ok":"order","order":"A"}',
        "reserve": refused(50, "NoPart"),
        "done": refused(70, "NoJob"),
        "release": refused(70, "NoJob"),
        "break": refused(70, "NoJob"),
        "scrap": refused(50, "NoPart"),
        "return": refused(50, "NoPart"),
        "import": refused(40, "OrderExists"),
        "amend": '{"demand":1,"ok":"amend","wanted":1}',
    }
    steps = []
    for number, (name, form) in enumerate(DOES.items(), 1):
        steps.append((written({"do": f'"{name}"', **goods({**form, **PAIR}), "number": str(number)}), nothing[name]))
    output = {
        "rack": '{"material":"A","ok":"rack","parts":[]}',
        "trace": refused(50, "NoPart"),
        "job": refused(70, "NoJob"),
        "jobs": '{"jobs":[],"more":false,"ok":"jobs"}',
        "parts": '{"material":"A","more":false,"ok":"parts","parts":[]}',
        "demands": '{"demands":[],"more":false,"ok":"demands"}',
        "orders": '{"more":false,"ok":"orders","orders":[]}',
        "plan": refused(50, "NoPart"),
        "bound": '{"best":1,"ok":"bound","units":1}',
        "terminal": '{"last":11,"ok":"terminal","terminal":1}',
    }
    # (the import was refused, and the amend is the last that was kept)
    steps += [(written({"ask": f'"{name}"', **goods(ASKS[name])}), reply) for name, reply in output.items()]
    over_both(trial, steps)
