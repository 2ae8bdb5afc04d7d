"""`plan --whole --shop`: the lines that an order file has of a material, from as many units of some sizes as it takes. Every
answer is checked by itself, over the trees of `kit/plans.py`; of how little the search finds only what anybody plans at sight is
wanted here."""

import random
import re
from collections import Counter
from dataclasses import dataclass

from kit.case import case
from kit.commands import all_mistaken, mistaken, over
from kit.faults import Faults
from kit.order_files import HEADER, JUDGED, NO_ROW, OF_FIELD, SHOP
from kit.plans import MAX_UNITS, NUMBER, Problem, cut_from, wrong

LENGTH = r"[0-9]+\.[0-9]"

# The kerfs of the shop file's materials.
KERFS = {"STEEL": 3, "GLASS": 1}


@dataclass
class Line:
    """A line of an order file: its sides in tenths of a millimetre, how many pieces, whether they may turn, and its material."""

    w: int
    h: int
    count: int
    turn: bool = False
    material: str = "GLASS"


def mm(length):
    return f"{length // 10}.{length % 10}"


def file_of(lines):
    """The order file of lines, each piece worth its cells."""
    rows = [
        f"{number},{it.material},{mm(it.w)},{mm(it.h)},{'yes' if it.turn else 'no'},{it.count},{it.w * it.h}\n"
        for number, it in enumerate(lines, 1)
    ]
    return HEADER + "".join(rows)


def bars(*kinds):
    """Lines of bars: of each its length and how many."""
    return [Line(length, 1, count, False, "STEEL") for length, count in kinds]


def size_of(sides):
    """How the program writes a unit's size."""
    return "x".join(mm(it) for it in sides if sides[1] > 1 or it > 1)


def words_of(material, sizes):
    """The words that ask for a plan from these sizes, or from these texts of sizes."""
    texts = [it if isinstance(it, str) else size_of(it) for it in sizes]
    return ["--whole", "--shop", "shop.toml", "--material", material, *[it for text in texts for it in ("--size", text)]]


def asked(trial, lines, material, sizes, *words):
    """Runs the plan of lines, or of a text, on the shop file of both materials."""
    trial.write("shop.toml", SHOP)
    trial.write("orders.csv", lines if isinstance(lines, str) else file_of(lines))
    return trial.run("plan", "orders.csv", *words_of(material, sizes), *map(str, words))


def plans_in(rows, sizes):
    """The place of the size, the number and the tree of each line: by the place, then by falling number, then by the text."""
    texts, plans = [size_of(it) for it in sizes], []
    form = f"({NUMBER}) (.+)" if len(sizes) == 1 else f"({LENGTH}(?:x{LENGTH})?) ({NUMBER}) (.+)"
    for row in rows:
        read = re.fullmatch(form, row)
        if not read or len(sizes) > 1 and read[1] not in texts:
            wrong(f"no plan of units: {row}")
        *size, times, tree = read.groups()
        plans.append((texts.index(size[0]) if size else 0, -int(times), tree.encode()))
    if plans != sorted(plans) or len({(place, tree) for place, _, tree in plans}) < len(plans):
        wrong(f"the plans aren't in their order, or one comes twice: {rows}")
    return [(place, -times, tree.decode()) for place, times, tree in plans]


def fits(line, sides):
    """Whether a unit holds a piece of a line."""
    return line.w <= sides[0] and line.h <= sides[1] or line.turn and line.h <= sides[0] and line.w <= sides[1]


def head_of(text, sizes):
    """The units, the bound, whether it is proved, the pieces missing and the cost that a text reports, and its other lines."""
    cost = "" if len(sizes) == 1 else r"\ncost ([0-9]+)"
    said = re.match(rf"units ([0-9]+)\nbound ([0-9]+)\nproved (yes|no)\nmissing ([0-9]+){cost}\n", text)
    if not said or not text.endswith("\n"):
        wrong(f"no answer of plans: {text[:200]}")
    units, bound, proved, missing, *cost = said.groups()
    if any(it != str(int(it)) for it in (units, bound, missing, *cost)):
        wrong(f"leading zeros: {said[0]}")
    numbers = int(units), int(bound), proved == "yes", int(missing), int(cost[0]) if cost else int(units)
    return numbers, text[said.end() :].split("\n")[:-1]


def planned(trial, lines, material, sizes, *words):
    """What is reported of a plan, of which everything holds that the formats say, whatever was found: its units, its cost, its bound
    and how many pieces are missing; and its plans."""
    ran = asked(trial, lines, material, sizes, *words)
    trial.equal((ran.status, ran.err), (0, b""), f"{lines} {sizes} {words}")
    (units, bound, proved, missing, cost), rows = head_of(ran.out.decode(), sizes)
    plans, own = plans_in(rows, sizes), [it for it in lines if it.material == material]
    demands = {number: (it.w, it.h, it.turn) for number, it in enumerate(own, 1)}
    counts = Counter()
    for place, times, tree in plans:
        pieces = cut_from(*sizes[place], KERFS[material], demands, tree)
        if not pieces:
            wrong(f"a plan without a piece: {tree}")
        for demand, count in pieces.items():
            counts[demand] += times * count
    unfit = sum(it.count for it in own if not any(fits(it, sides) for sides in sizes))
    for number, it in enumerate(own, 1):
        trial.holds(counts[number] <= it.count, f"{counts[number]} pieces of line {number}, of which {it.count} are wanted")
    costs = [1 if len(sizes) == 1 else w * h for w, h in sizes]
    trial.equal(units, sum(times for _, times, _ in plans), "units")
    trial.equal(cost, sum(times * costs[place] for place, times, _ in plans), "cost")
    trial.equal(sum(counts.values()) + missing, sum(it.count for it in own), "pieces")
    trial.holds(missing == unfit or units == MAX_UNITS, f"{missing} pieces are missing, {unfit} don't fit")
    trial.holds(missing or bound <= cost, f"the bound {bound} is over {cost}")
    trial.equal(proved, not missing and bound == cost, f"proved, of {cost}, bound {bound}, missing {missing}")
    return (units, cost, bound, missing), plans


def prints(trial, lines, material, sizes, wanted, *words):
    """Wants these units, this cost, this bound and this number of pieces missing."""
    numbers, plans = planned(trial, lines, material, sizes, *words)
    trial.equal(numbers, wanted, f"{lines} {sizes}")
    return plans


def refused(trial, lines, material, sizes, line, why=None):
    trial.ended(asked(trial, lines, material, sizes), 1, err=f"{line}\n", why=why, sent=f"{lines} {sizes}")


@case(
    "order files planned from one size",
    "The lines of an order file from units of one size are reported as the plans of the same pieces in a problem file are, to the byte, "
    "with the kerf of the material; a piece as large as its unit is `1 p1`, and turned `1 p1t`.",
)
def one_size(trial):
    for lines, material, sides in (
        (bars((30, 10)), "STEEL", (100, 1)),
        (bars((1203, 5), (887, 9), (2310, 4)), "STEEL", (6000, 1)),
        ([Line(4, 3, 10), Line(5, 2, 3)], "GLASS", (10, 8)),
    ):
        problem = Problem(*sides, [(it.w, it.h, it.count, it.w * it.h) for it in lines])
        kerf = str(KERFS[material])
        ran = trial.run("plan", trial.write("p.txt", problem.text()), "--whole", "--kerf", kerf)
        trial.ended(asked(trial, lines, material, [sides]), 0, ran.out, sent=lines)
        planned(trial, lines, material, [sides])
    whole = "units 1\nbound 1\nproved yes\nmissing 0\n1 {}\n"
    trial.ended(asked(trial, bars((100, 1)), "STEEL", [(100, 1)]), 0, whole.format("p1"))
    trial.ended(asked(trial, [Line(4, 3, 1)], "GLASS", [(4, 3)]), 0, whole.format("p1"))
    trial.ended(asked(trial, [Line(3, 4, 1, True)], "GLASS", [(4, 3)]), 0, whole.format("p1t"))
    refused(trial, [Line(3, 4, 1)], "GLASS", [(4, 3)], "refused 90 NothingFits")
    prints(trial, bars((30, 10)), "STEEL", [(100, 1)], (4, 4, 4, 0))
    prints(trial, bars((30, 3), (101, 2)), "STEEL", [(98, 1)], (1, 1, 1, 2), "--calls", 9)


@case(
    "order files planned from several sizes",
    "From several sizes bound and cost are in cells, a line reports the cost, and each plan has its size before it, by the place at which "
    "that was given. Pieces that one size holds alone take units of it, and what no size holds is missing.",
)
def several_sizes(trial):
    text = "units 1\nbound {0}\nproved yes\nmissing 0\ncost {0}\n{1} 1 p1\n"
    for sizes in ([(100, 1), (60, 1)], [(60, 1), (100, 1)], [(20, 1), (100, 1), (50, 1)]):
        trial.ended(asked(trial, bars((100, 1)), "STEEL", sizes), 0, text.format(100, "10.0"), sent=sizes)
    for sizes in ([(10, 8), (4, 3)], [(4, 3), (10, 8)]):
        trial.ended(asked(trial, [Line(10, 8, 1)], "GLASS", sizes), 0, text.format(80, "1.0x0.8"), sent=sizes)
    numbers, plans = planned(trial, bars((60, 2), (100, 1)), "STEEL", [(60, 1), (100, 1)])
    trial.equal((numbers[:2], plans), ((3, 220), [(0, 2, "p1"), (1, 1, "p2")]))
    numbers, plans = planned(trial, bars((60, 2), (100, 1)), "STEEL", [(100, 1), (60, 1)])
    trial.equal((numbers[:2], plans), ((3, 220), [(0, 1, "p2"), (1, 2, "p1")]))
    numbers, plans = planned(trial, [Line(10, 8, 1), Line(4, 3, 1)], "GLASS", [(10, 8), (4, 3)])
    trial.equal((numbers[:2], plans), ((2, 92), [(0, 1, "p1"), (1, 1, "p2")]))
    numbers, _ = planned(trial, bars((100, 1), (101, 5)), "STEEL", [(100, 1), (60, 1)])
    trial.equal((numbers[:2], numbers[3]), ((1, 100), 5))
    refused(trial, bars((101, 5)), "STEEL", [(100, 1), (60, 1)], "refused 90 NothingFits")


@case(
    "order files of many lines",
    "Orders of bars and of sheets, with turns, from one to ten sizes: legal plans, no piece too many, none missing that fits, and numbers "
    "that agree.",
)
def many_lines(trial):
    dice = random.Random(5)
    for number in range(24 if trial.whole else 8):
        count = (1, 2, 3, 10)[number % 4]
        if number % 2:
            sizes = [(w, 1) for w in dice.sample(range(2000, 7000), count)]
            lines = bars(*[(dice.randint(100, 2500), dice.randint(1, 30)) for _ in range(dice.randint(1, 12))])
            planned(trial, lines, "STEEL", sizes, "--calls", 40)
        else:
            sizes = [(dice.randint(200, 900), dice.randint(200, 700)) for _ in range(count)]
            lines = [Line(dice.randint(20, 190), dice.randint(20, 190), dice.randint(1, 9), dice.random() < 0.5) for _ in range(8)]
            planned(trial, lines, "GLASS", sizes, "--calls", 10)


@case(
    "order files with lines of other materials",
    "Only the lines of the material are planned: `pN` is the N-th of these. 100 of them are planned among 200, and 101 are `refused 93`.",
)
def other_materials(trial):
    lines = [*bars((30, 7)), Line(9, 9, 4), *bars((50, 1)), Line(10, 8, 2), Line(9, 8, 1)]
    planned(trial, lines, "STEEL", [(100, 1)])
    numbers, plans = planned(trial, lines, "GLASS", [(10, 8)])
    trial.equal((numbers[0], numbers[3], {tree for _, _, tree in plans} >= {"p2"}), (3, 4, True), plans)
    hundred = [it for number in range(100) for it in (Line(4, 3, 1), *bars((30 + number, 1)))]
    planned(trial, hundred, "STEEL", [(6000, 1)], "--calls", 3)
    planned(trial, hundred, "GLASS", [(100, 80)], "--calls", 3)
    refused(trial, [*hundred[:-1], Line(4, 3, 1)], "GLASS", [(100, 80)], "refused 93 BadWant")


@case(
    "sizes of an order file's plan",
    "A size is a length for a bar, two with an `x` between them for a sheet, each with one decimal or none; up to the largest unit. What "
    "is none is `refused 30`, a size that comes twice, however it is written, `refused 93`.",
)
def sizes_read(trial):
    for text in ("10", "10.0", "000010.0"):
        trial.ended(asked(trial, bars((100, 1)), "STEEL", [text]), 0, "units 1\nbound 1\nproved yes\nmissing 0\n1 p1\n", sent=text)
    for text in ("1x0.8", "1.0x0.8", "0001x000000.8"):
        trial.ended(asked(trial, [Line(10, 8, 1)], "GLASS", [text]), 0, "units 1\nbound 1\nproved yes\nmissing 0\n1 p1\n", sent=text)
    planned(trial, [Line(10, 8, 1)], "GLASS", [(200000, 60000)], "--calls", 1)
    planned(trial, bars((100, 1)), "STEEL", [(150000, 1)], "--calls", 1)
    why = "orders.csv: a size is 0.1x0.1 to 20000.0x6000.0 in millimetres, and of a bar 0.1 to 20000.0"
    for text in ("", "0", "0.0", "20000.1", "10.0x0.1", "10,0", "10.00", ".5", "1.", "1e1", "x", "1234567", " 10"):
        refused(trial, bars((100, 1)), "STEEL", [text], "refused 30 BadSize", why)
        refused(trial, bars((100, 1)), "STEEL", ["10.0", text], "refused 30 BadSize", why)
    for text in ("", "1.0", "1.0x", "x0.8", "x", "1.0x0.0", "0x0.8", "1.0x6000.1", "20000.1x0.8", "1.0X0.8", "1.0x0.8x1.0", "1.0 x 0.8", "1,0x0,8"):
        refused(trial, [Line(10, 8, 1)], "GLASS", [text], "refused 30 BadSize", why)
    for sizes in (["10", "10.0"], ["6.0", "10.0", "6"], ["10.0"] * 10):
        refused(trial, bars((100, 1)), "STEEL", sizes, "refused 93 BadWant")
    refused(trial, [Line(10, 8, 1)], "GLASS", ["1x0.8", "1.0x0.8"], "refused 93 BadWant")
    planned(trial, [Line(10, 8, 1)], "GLASS", [(10, 8), (8, 10)])


@case(
    "faults of an order file's plan in order",
    "First come the words, then the order file, what can't be read in it and what is judged, then the shop file and its entries, then 20, "
    "30, 93, 91 and 90; each with a second line that names the file.",
)
def faults_in_order(trial):
    bad_shop = SHOP.replace('"0.3"', '"20.1"')
    both = SHOP + "[[material]]\n" + SHOP.partition("[[material]]\n")[2].replace('"2.0"', '"3.0"')
    long = bars((200000, 1))
    lines = "orders.csv: it has no line of the material, or over 100; or a bar's that isn't 0.1 wide or may be turned; or a size stands twice"
    steps = [
        # the order file, or None; the shop file, or None; the material; the size; the fault; its second line
        (None, None, "IRON", "x", "fault file", "orders.csv: there is no such file"),
        (HEADER + "1,a,1,1,no,1,1\n", None, "IRON", "x", f"fault order row 1 field 1: {OF_FIELD[1]}", None),
        (HEADER, None, "IRON", "x", f"fault order row 1 field 7: {NO_ROW}", None),
        (HEADER + "0,A,1,1,no,1,1\n", None, "IRON", "x", f"fault order row 1 field 0: {JUDGED[0]}", None),
        (HEADER + "1,A,1,1,no,1,0\n", None, "IRON", "x", f"fault order row 1 field 6: {JUDGED[6]}", None),
        (HEADER + "1,A,1,1,no,1,1\n", None, "IRON", "x", "fault file", "shop.toml: there is no such file"),
        (HEADER + "1,A,1,1,no,1,1\n", "x = 1\n", "IRON", "x", "fault shop text", "shop.toml, line 1: write [[material]] above each material, and no key named x"),
        (HEADER + "1,A,1,1,no,1,1\n", SHOP.replace("bar", "rod"), "IRON", "x", "fault shop entry 1", 'shop.toml, line 4: the kind is "bar" or "sheet"'),
        (HEADER + "1,A,1,1,no,1,1\n", bad_shop, "IRON", "x", "shop entry 1 refused 22 BadMaterial", "shop.toml, material 1: the kerf or a limit is out of its range for this kind"),
        (HEADER + "1,A,1,1,no,1,1\n", both, "IRON", "x", "shop entry 3 refused 21 MaterialExists", "shop.toml, material 3: the store has this material with another kind, kerf or limits"),
        (HEADER + "1,A,1,1,no,1,1\n", SHOP, "IRON", "x", "refused 20 NoMaterial", "shop.toml: it has no such material"),
        (HEADER + "1,A,1,1,no,1,1\n", SHOP, "steel", "x", "refused 20 NoMaterial", "shop.toml: it has no such material"),
        (HEADER + "1,A,1,1,no,1,1\n", SHOP, "STEEL", "x", "refused 30 BadSize", None),
        (HEADER + "1,A,1,1,no,1,1\n", SHOP, "STEEL", "15000.1", "refused 93 BadWant", lines),
        (HEADER + "1,STEEL,1,1,no,1,1\n", SHOP, "STEEL", "15000.1", "refused 93 BadWant", lines),
        (HEADER + "1,STEEL,1,0.1,yes,1,1\n", SHOP, "STEEL", "15000.1", "refused 93 BadWant", lines),
        (file_of(long), SHOP, "STEEL", "15000.1", "refused 91 TableTooLarge", "orders.csv: a bar is at most 15000.0 mm long"),
        (file_of(long), SHOP, "STEEL", "15000.0", "refused 90 NothingFits", "orders.csv: no piece fits a unit of these sizes"),
    ]
    for order, shop, material, size, line, why in steps:
        for name, text in (("orders.csv", order), ("shop.toml", shop)):
            if text is not None:
                trial.write(name, text)
        ran = trial.run("plan", "orders.csv", *words_of(material, [size]))
        trial.ended(ran, 1, err=f"{line}\n", why=why, sent=(order, material, size))
        mistaken(trial, ("plan", "orders.csv", *words_of(material, [size]), "--calls", "0"), "--calls <N>")
    # an entry that comes again with the same values is taken, and the first of a code counts
    trial.write("shop.toml", SHOP + SHOP)
    trial.write("orders.csv", file_of(bars((30, 10))))
    trial.equal(trial.run("plan", "orders.csv", *words_of("STEEL", ["10.0"])).status, 0)


MISTAKES = """
plan a.csv --whole --shop a.toml --material A --size 1.0 --size = '--size <WxH>'
plan a.csv --whole --shop a.toml --material --size 1.0 = '--material <CODE>'
plan a.csv --whole --shop a.toml --material A --material B --size 1.0 = '--material <CODE>'
plan a.csv --whole --shop a.toml --material A --size 1.0 --calls 5001 = '5001' for '--calls <N>'
plan a.csv --whole --shop a.toml --material A --size 1.0 --stages 1 = '1' for '--stages <N>'
plan a.csv --whole --shop a.toml --material A --size 1.0 --stages 256 = '256' for '--stages <N>'
plan a.csv --whole --shop a.toml --material A --size 1.0 --kerf 201 = '201' for '--kerf <N>'
plan a.csv --kerf 1 --shop a.toml --material A --size 1.0 = '--whole' is missing
plan a.csv --whole --kerf 1 --step 1 --shop a.toml --material A --size 1.0 = '--kerf <N>' may not be given with '--shop'
plan a.csv b.csv --whole --shop a.toml --material A --size 1.0 = 'b.csv'
plan --whole --shop a.toml --material A --size 1.0 = <FILE>
orders a.csv --size 1.0 = '--size'
"""


@case(
    "words of an order file's plan",
    "Its words stand in any order; `--calls` and `--stages` may be given, kerf and step not; what lacks and what is there twice is a mistake.",
)
def words(trial):
    wanted = asked(trial, bars((30, 10)), "STEEL", ["10.0"], "--calls", 7).out
    for line in (
        "--size 10.0 --material STEEL --shop shop.toml --whole --calls 7 orders.csv",
        "--whole orders.csv --size=10 --calls=007 --shop=shop.toml --material=STEEL",
        "--whole orders.csv --stages 2 --size=10 --calls=7 --shop=shop.toml --material=STEEL",
        "--stages=255 --whole orders.csv --size=10 --calls=7 --shop=shop.toml --material=STEEL",
    ):
        trial.ended(trial.run("plan", *line.split(" ")), 0, wanted, sent=line)
    all_mistaken(trial, MISTAKES)


@case(
    "streams of an order file's plan that fail",
    "Each read of the order file and of the shop file fails in turn, `fault file`; a full output is `fault write`.",
)
def streams(trial):
    text = asked(trial, bars((30, 10)), "STEEL", ["10.0"], "--calls", 5).out
    path, shop = trial.path("orders.csv"), trial.path("shop.toml")
    words = ("plan", path, "--whole", "--shop", shop, "--material", "STEEL", "--size", "10.0", "--calls", "5")
    trial.ended(trial.run(*words, environment=Faults(trial, by=1, under="").environment), 0, text, sent="a byte at a time")
    trial.equal(over(trial, *words, out="/dev/full"), (1, b"fault write\n"), words)
    reads = len(file_of(bars((30, 10)))) + len(SHOP)
    for at in trial.places(reads, 11):
        ran = trial.run(*words, environment=Faults(trial, "read", at=at + 1, by=1, under="").environment)
        trial.ended(ran, 1, b"", b"fault file\n", sent=f"read {at + 1}")


@case(
    "what helps where a plan is too large or its step bad",
    "A rectangle of height 1 is planned with `--whole`; where a step between two numbers serves these are reported; where none does, or none "
    "was given, `--whole` without a step; a bar that is too long is reported so.",
)
def what_helps(trial):
    whole, longest = "plan it with --whole, and without --step", "a bar is at most 15000.0 mm long"
    for text, words, line, why in (
        ("1 501 1 1 1 1 1", "--kerf 0 --step 1", "91 TableTooLarge", whole),
        ("1 501 1 1 1 1 1", "--kerf 0 --step 0", "92 BadStep", whole),
        ("1 200000 1 1 1 1 1", "--kerf 0 --step 1", "91 TableTooLarge", whole),
        ("1 150001 1 1 1 1 1", "--kerf 0 --whole", "91 TableTooLarge", longest),
        ("1 150001 1 1 1 1 1", "--kerf 0 --step 7 --whole", "91 TableTooLarge", longest),
        # sides of 501 take steps from 2 on, and pieces of 2 by 100 steps up to 2 and the kerf
        ("1 501 2 100 2 3 1", "--kerf 0 --step 1", "91 TableTooLarge", "a step is 2 to 2"),
        ("1 501 2 100 2 3 1", "--kerf 0 --step 1 --whole", "91 TableTooLarge", "a step is 2 to 2"),
        ("1 501 2 100 2 3 1", "--kerf 0 --step 3", "92 BadStep", "a step is 2 to 2"),
        ("1 501 2 100 2 3 1", "--kerf 5 --step 0 --whole", "92 BadStep", "a step is 2 to 7"),
        ("1 500 2 100 2 3 1", "--kerf 0 --step 0", "92 BadStep", "a step is 1 to 2"),
        ("2 1003 700 334 350 7 1 200 233 4 1", "--kerf 2 --step 1", "91 TableTooLarge", "a step is 3 to 202"),
        ("1 200000 60000 200000 60000 1 1", "--kerf 200 --step 1", "91 TableTooLarge", "a step is 400 to 60200"),
        # the long side takes steps from 6 on, and the piece none over 1
        ("1 3000 20 1 1 5 1", "--kerf 0 --step 1", "91 TableTooLarge", whole),
        ("1 3000 20 1 1 5 1", "--kerf 0 --step 6 --whole", "92 BadStep", whole),
    ):
        trial.write("p.txt", text)
        ran = trial.run("plan", "p.txt", *words.split(" "))
        trial.ended(ran, 1, err=f"refused {line}\n", why=f"p.txt: {why}", sent=f"{text} {words}")
