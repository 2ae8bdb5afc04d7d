"""Lines at their limits: lengths, ends, bytes that aren't UTF-8, levels, and the greatest values of messages."""

from kit.case import case
from kit.lines import added, compact, imported, material, over_both, refused

BAD = b'{"name":"BadMessage","refused":10}'
UNKNOWN = b'{"name":"NoMaterial","refused":20}'
TOTALS = b'{"ask":"totals","material":"STEEL"}'


@case("lines at their longest", "A line of 131072 bytes is read, a longer one is refused 10, and the next line is answered.")
def longest(trial):
    for length, reply in ((131072, UNKNOWN), (131073, BAD), (400000, BAD)):
        ran = trial.replay(TOTALS.ljust(length) + b"\n" + TOTALS + b"\n")
        trial.ended(ran, 0, reply + b"\n" + UNKNOWN + b"\n", sent=f"a line of {length} bytes")


@case("lines that aren't UTF-8", "Bytes that aren't UTF-8, in a line and in a body, are refused 10.")
def not_utf8(trial):
    for line in (
        b"\xff",
        b'{"ask":"totals","material":"\xc3"}',
        b'{"ask":"totals","material":"\xed\xa0\x80"}',
        b"\xef\xbb\xbf" + TOTALS,
    ):
        over_both(trial, [(line, BAD), (TOTALS, UNKNOWN)])


@case("levels of JSON", "A text of 200 levels and one of 128 are refused 10, as is one of 127 that is no message.")
def levels(trial):
    steps = [("[" * count + "]" * count, BAD) for count in (127, 128, 200, 10000)]
    over_both(trial, [*steps, (TOTALS, UNKNOWN)])


@case(
    "ends of lines",
    "Spaces, tabs and CR round a value are white space, so a line may end in CR LF; anything else behind the value is refused "
    "10.",
)
def ends(trial):
    over_both(
        trial, [(TOTALS + b"\r", UNKNOWN), (b" \t" + TOTALS + b" \t\r", UNKNOWN), (TOTALS + b"\x0b", BAD), (TOTALS + b"x", BAD)]
    )


@case(
    "kerfs and limits of rests",
    "A kerf of 200 is taken and 201 refused 22; least sides go from 1 to 200000, the short one at most the long one, "
    "and 1 for a bar.",
)
def limits_of_materials(trial):
    steps, bad = [], refused(22, "BadMaterial")
    rows = [("bar", 200, 20, 1, True), ("bar", 201, 20, 1, False), ("sheet", 200, 5, 4, True), ("sheet", 201, 5, 4, False)]
    rows += [
        ("sheet", 0, 200000, 200000, True),
        ("sheet", 0, 200001, 1, False),
        ("sheet", 0, 4, 5, False),
        ("sheet", 0, 5, 0, False),
    ]
    rows += [("bar", 0, 5, 2, False), ("bar", 0, 1, 1, True), ("bar", 0, 0, 0, False), ("sheet", 4294967295, 5, 4, False)]
    for number, (kind, kerf, long, short, is_good) in enumerate(rows, 1):
        steps.append((material(f"M-{number}", number, kind, kerf, long, short), added(f"M-{number}") if is_good else bad))
    over_both(trial, steps)


@case(
    "both sides of a sheet over 500 steps",
    "A sheet of which each side and a kerf have 500 steps is planned, and one of 501 along either side is refused 91.",
)
def steps_of_sheets(trial):
    steps = [(material("S", 1, kerf=0), added("S"))]
    line = {"count": 1, "h": 1, "line": 1, "material": "S", "turn": False, "w": 1, "worth": 1}
    steps.append(
        (
            compact({"do": "order", "lines": [line], "number": 2, "order": "A", "terminal": 1}),
            compact({"count": 1, "first": 1, "ok": "order", "order": "A"}),
        )
    )
    for w, h in ((501, 1), (1, 501), (1001, 1002)):
        asked = compact({"ask": "bound", "demands": [1], "h": h, "material": "S", "step": 1, "w": w})
        steps.append((asked, refused(91, "TableTooLarge")))
    asked = compact({"ask": "bound", "demands": [1], "h": 500, "material": "S", "step": 1, "w": 500})
    steps.append((asked, compact({"best": 250000, "ok": "bound", "units": 1})))
    over_both(trial, steps)


def ordered(trial, lines):
    """Sends an order of each line alone; a line that is none is refused 41."""
    steps, first = [(material("S", 1), added("S"))], 1
    for number, (line, is_good) in enumerate(lines, 2):
        order = compact({"do": "order", "lines": [line], "number": number, "order": f"A-{number}", "terminal": 1})
        reply = compact({"count": 1, "first": first, "ok": "order", "order": f"A-{number}"})
        steps.append((order, reply if is_good else refused(41, "BadLine")))
        first += is_good
    over_both(trial, steps)


@case(
    "counts and worths of a line at their limits",
    "A count goes from 1 to 1000000 and a worth from 1 to 1000000000; others are refused 41.",
)
def limits_of_orders(trial):
    lines = []
    rows = [
        (1, 1, True),
        (0, 1, False),
        (1000000, 1, True),
        (1000001, 1, False),
        (1, 1000000000, True),
        (1, 1000000001, False),
        (1, 0, False),
    ]
    for count, worth, is_good in rows:
        line = {"count": count, "h": 1, "line": 4294967295, "material": "S", "turn": False, "w": 1, "worth": worth}
        lines.append((line, is_good))
    ordered(trial, lines)


@case(
    "sides of pieces at their limits",
    "A piece of 200000 by 60000 is ordered; one more along either side, and a side of 0, is refused 41.",
)
def sides(trial):
    lines = []
    rows = [(200000, 60000, True), (200001, 1, False), (1, 60001, False), (0, 1, False), (1, 0, False)]
    for w, h, is_good in rows:
        line = {"count": 1, "h": h, "line": 1, "material": "S", "turn": True, "w": w, "worth": 1}
        lines.append((line, is_good))
    ordered(trial, lines)


@case(
    "texts of imports at their longest",
    "A problem and an order file of 65536 bytes are imported; one of 65537, with a good header, is refused 80.",
)
def texts(trial):
    code, problem = "ABCDEFGHIJ-01234", "1 10 8 4 3 2 66"
    rows = [f"{it:010},{code},000003.0,000000.1,yes,0000000003,0000000030\n" for it in range(1, 201)]
    orders = "".join(["line,material,length,width,turn,count,worth\n", *rows])
    steps = [(material(code, 1), added(code))]
    for number, (length, is_good) in enumerate(((65536, True), (65537, False)), 1):
        reply = (
            compact({"act": 0, "count": 200, "first": 1, "ok": "import", "order": "C-1"}) if is_good else refused(80, "BadText")
        )
        steps.append((imported(10 + number, f"C-{number}", "csv", orders.ljust(length, "\n")), reply))
        reply = (
            compact({"act": 1, "count": 1, "first": 201, "ok": "import", "order": "P-1"}) if is_good else refused(80, "BadText")
        )
        steps.append((imported(20 + number, f"P-{number}", "cgcut", problem.ljust(length), material=code), reply))
    over_both(trial, steps)


@case("records of an order file", "An order file of 200 records is imported, and one of 201 is refused 80.")
def records(trial):
    header = "line,material,length,width,turn,count,worth\n"
    steps = [(material("S", 1), added("S"))]
    for count, reply in (
        (200, compact({"act": 0, "count": 200, "first": 1, "ok": "import", "order": "C-200"})),
        (201, refused(80, "BadText")),
    ):
        rows = "".join(f"{it},S,3.0,0.1,no,3,30\n" for it in range(1, count + 1))
        steps.append((imported(count, f"C-{count}", "csv", header + rows), reply))
    over_both(trial, steps)


@case("demands of a plan at their most", "40 demands are planned and 41 are refused 93, of a bound as of a plan.")
def demands(trial):
    bar = material("B", 1, "bar", 0, 1, 1)
    lines = [{"count": 1, "h": 1, "line": it, "material": "B", "turn": False, "w": 10, "worth": 1} for it in range(1, 42)]
    steps = [
        (bar, added("B")),
        (
            compact({"do": "order", "lines": lines, "number": 2, "order": "A", "terminal": 1}),
            compact({"count": 41, "first": 1, "ok": "order", "order": "A"}),
        ),
    ]
    for count, reply in (
        (40, compact({"best": 10, "ok": "bound", "units": 4})),
        (41, refused(93, "BadWant")),
        (0, refused(93, "BadWant")),
    ):
        steps.append(
            (
                compact({"ask": "bound", "demands": list(range(1, count + 1)), "h": 1, "material": "B", "step": 0, "w": 100}),
                reply,
            )
        )
    over_both(trial, steps)


@case("a kept text of over 64 KiB", "An import whose text is long is accepted, and sent again it gets its kept reply.")
def long_text(trial):
    text = "1 10 8 4 3 2 66".ljust(65536)
    line = imported(2, "P-1", "cgcut", text, material="S")
    reply = compact({"act": 1, "count": 1, "first": 1, "ok": "import", "order": "P-1"})
    over_both(
        trial,
        [(material("S", 1), added("S")), (line, reply), (line, reply), (line.replace("66", "67"), refused(11, "NumberReused"))],
    )
