"""What is asked and done costs in shops whose stock is large, that are opened again, and that grew old while they were open.

No specification has these limits: they lie between what was measured and what a wrong body is reckoned to take."""

from kit import aged, tables
from kit.case import Skipped, case
from kit.days import Replay
from kit.old_shops import HISTORIES, asked_costs, at_most_thrice, begun, old_store, work
from kit.questions import compact
from kit.yards import Yard

# What is found by the names of the parts that stand, by its name.
OF_PARTS = {
    "parts": '{"after":"","ask":"parts","material":"STEEL"}',
    "parts behind": '{"after":"15/0","ask":"parts","material":"STEEL"}',
    "rack": '{"ask":"rack","material":"STEEL"}',
    "plans of all": '{"ask":"plans","calls":1,"material":"STEEL"}',
}

# What makes a file of version 2 of one of version 3, and a file of version 1 of one of version 3, of whose material nothing was returned.
TO_VERSION_2 = """
DROP TABLE journal; DROP TABLE uses; DROP TABLE notes; DROP TABLE begun; DROP TABLE halts;
UPDATE meta SET value = 2 WHERE name = 'version';
"""
TO_VERSION_1 = f"""{TO_VERSION_2}
INSERT INTO totals SELECT material, received, stock, rack, pieces, kerf, scrap FROM totals2; DROP TABLE totals2;
UPDATE meta SET value = 1 WHERE name = 'version';
"""


@case(
    "an old shop that is opened again",
    "Of a shop with remnants, units and parts reserved behind 100000 of history the lists of parts, the rack, plans and the "
    "report take at most three times the processor time that they take behind 1000, also where it is opened again, of version 3, "
    "then of version 2, and then of version 1.",
)
def opened_again(trial):
    output = {"": [], TO_VERSION_2: [], TO_VERSION_1: []}
    for count in HISTORIES:
        shop = old_store(trial, count)
        for changes, seconds in output.items():
            shop.kill()
            tables.change(shop.store, changes)
            shop = trial.shop(shop.store)
            trial.holds(shop.is_open, getattr(shop, "errors", b""))
            seconds.append(asked_costs(trial, shop, OF_PARTS | {"yield": "/yield/STEEL"}))
        shop.kill()
    for seconds in output.values():
        at_most_thrice(trial, *seconds, HISTORIES)


# Parts that are cut up while a shop is open: of few and of many.
CUT_UP = (4000, 40000)


@case(
    "a shop that grew old while it was open",
    "Of a shop in which 40000 parts were cut up since it was opened as a new one the lists of parts, the rack and plans take at "
    "most three times the processor time that they take behind 4000.",
)
def grown(trial):
    output = []
    for count in CUT_UP:
        yard = begun()
        old = yard.then(5)
        aged.cut_up(old, "STEEL", count)
        last = old.then(2)
        work(last)
        shop = trial.shop(f"grown-{count}.db")
        for it in (yard, old, last):
            it.fill(trial, shop)
        output.append(asked_costs(trial, shop, OF_PARTS))
        shop.kill()
    at_most_thrice(trial, *output, CUT_UP)


# Units that stand, and open demands: few and many of both.
STOCKS = (2000, 60000)


def stocked(count):
    """A yard with so many units that stand, and so many open demands."""
    yard = Yard()
    yard.material("STEEL", 3)
    for _ in range(count // 100):
        yard.receive("STEEL", 100, 1, 100)
    for _ in range(count // 200):
        yard.bars("STEEL", *[(30, 1)] * 200)
    return yard


def stocked_file(trial, count):
    """A file with the same."""
    orders = [(f"A-{it:04}",) for it in range(count // 200)]
    demands = [(1 + it, *orders[it // 200], 1 + it % 200, "STEEL", 30, 1, 0, 1, 1, 0, 0) for it in range(count)]
    rows = {"parts": aged.units(count, "STEEL", 100), "orders": orders, "demands": demands}
    return tables.make(trial.path(f"{count}.db"), aged.book("STEEL", 0, 3, count // 100, count, 100 * count, **rows))


@case(
    "pages of a large stock",
    "Where 60000 units stand and 60000 demands are open the first page of either, and plans of a demand, take at most three times the "
    "processor time that they take where these are 2000, over a file and in memory; in memory a page from the middle on does, too. Plans "
    "without a choice look at the day of each open demand, and take at most forty times as long for these thirty times as many.",
)
def pages(trial):
    first = {
        "parts": '{"after":"","ask":"parts","material":"STEEL"}',
        "demands": '{"after":0,"ask":"demands"}',
        "demands of a material": '{"after":0,"ask":"demands","material":"STEEL"}',
        "plans": '{"ask":"plans","calls":1,"demands":[1],"material":"STEEL"}',
    }
    chosen = {"plans without a choice": '{"ask":"plans","calls":1,"material":"STEEL"}'}
    in_file, in_memory, by_day = [], [], []
    for count in STOCKS:
        middle = {
            "parts behind": compact({"after": f"{count // 200}/0", "ask": "parts", "material": "STEEL"}),
            "demands behind": compact({"after": count // 2, "ask": "demands"}),
        }
        shop = trial.shop(stocked_file(trial, count))
        in_file.append(asked_costs(trial, shop, first))
        by_day.append(asked_costs(trial, shop, chosen))
        shop.kill()
        shop = Replay(trial, {})
        trial.equal([it for it in shop.replies(stocked(count).lines) if b'"ok"' not in it], [])
        in_memory.append(asked_costs(trial, shop, first | middle))
        trial.equal(shop.end(), (0, b""))
    at_most_thrice(trial, *in_file, STOCKS)
    at_most_thrice(trial, *in_memory, STOCKS)
    for name, seconds in by_day[1].items():
        trial.holds(seconds <= 40 * by_day[0][name], f"{name}: {seconds} and {by_day[0][name]} seconds")


@case(
    "a bar in 400 parts among 100000 others",
    "In `replay` a bar that was received first is cut into 400 parts, with 100000 parts of later names, in at most forty times "
    "the processor time that it takes to cut one into three.",
)
def many_parts_at_once(trial):
    yard, jobs = Yard(), {}
    yard.material("STEEL", 3)
    yard.receive("STEEL", 2600, 1, 100)
    demand = yard.bars("STEEL", (10, 100000))
    for name, count in (("three parts", 1), ("400 parts", 200)):
        tree = " ".join(f"x10 p{demand}" for _ in range(count)) + (" r" if count == 1 else "")
        jobs[name] = [yard.reserve(f"1/{50 * len(jobs) + it}", tree) for it in range(50)]
    later = yard.then(5)
    aged.cut_up(later, "STEEL", 100000)
    shop, seconds, last = Replay(trial, {}), {}, later.then(2)
    trial.equal([it for it in shop.replies([*yard.lines, *later.lines]) if b'"ok"' not in it], [])
    for name, numbers in jobs.items():
        before, sent = shop.busy(), len(last.lines)
        for it in numbers:
            last.send(do="done", job=it)
        trial.equal([it for it in shop.replies(last.lines[sent:]) if b'"ok"' not in it], [])
        seconds[name] = shop.busy() - before
    trial.holds(seconds["400 parts"] <= 40 * seconds["three parts"], f"{seconds}")
    trial.equal(shop.end(), (0, b""))


# Units that are received in `replay`: so many before its memory is looked at, and so many then.
BEFORE, THEN = 100000, 100000

# Bytes that each of them may take: its row has 44, and its message and its entry, which it shares with 99 others, some 8.
EACH = 68


def memory_of(process):
    """How many bytes of memory a process has."""
    with open(f"/proc/{process}/status", encoding="ascii") as file:
        return next(int(it.split()[1]) * 1024 for it in file if it.startswith("VmRSS:"))


@case(
    "memory of a part",
    "In `replay` 100000 units more, behind 100000 of the same batch, take at most 68 bytes of memory each.",
)
def memory(trial):
    if trial.is_watched():
        raise Skipped("the program was built without proofs, and takes many times as much of the memory")
    yard, held = Yard(), []
    yard.material("STEEL", 3)
    shop = Replay(trial, {})
    for count in (BEFORE, THEN):
        sent = len(yard.lines)
        for _ in range(count // 100):
            yard.receive("STEEL", 100, 1, 100)
        replies = shop.replies(yard.lines[sent:] if held else yard.lines)
        trial.equal([it for it in replies if b'"ok"' not in it], [])
        held.append(memory_of(shop.process.pid))
    each = (held[1] - held[0]) / THEN
    trial.holds(each <= EACH, f"{each:.1f} bytes for each of {THEN} units")
    trial.equal(shop.end(), (0, b""))
