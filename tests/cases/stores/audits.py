"""`cutshop audit`: a store whose entries' messages give its rows is whole, and what is found of one of which that isn't so."""

import os

from kit import audits, tables
from kit.audits import audited, changed, left_out, of_entry, other_reply
from kit.case import case
from kit.copies import killed
from kit.earlier import NEXT, made
from kit.faults import Faults
from kit.full_day import EXCHANGES, GLASS_FILE, STEEL_FILE
from kit.lines import LONGEST
from kit.stores import DAY, NO_ROW, sent
from kit.yards import Yard

# When the day of each command is, whose clock stands; and how many entries it has.
DATE = 1000
COUNT = len(EXCHANGES)


def day(trial, name="day.db"):
    """The path of a store after a day with each command."""
    return audits.kept_day(trial, name, EXCHANGES, Faults(trial, date=DATE).environment)


# ---- stores that are whole


@case(
    "an audit of a whole store",
    "A store after each command, one without a message, one that a stop left with all messages in its log, and one that was opened again are "
    "whole, each with as many entries as it accepted messages, with `--read-only` and without; both files stay byte for byte.",
)
def whole(trial):
    shop = trial.shop("none.db")
    shop.kill()
    killed(trial, "stopped.db")
    for name, entries in ((os.path.basename(day(trial)), COUNT), ("none.db", 0), ("stopped.db", len(DAY))):
        for words in ((), ("--read-only",)):
            audited(trial, name, entries, words=words)
    shop = trial.shop("stopped.db")
    sent(trial, shop)
    trial.equal(shop.reply(NEXT[0]).decode(), NEXT[1])
    shop.kill()
    audited(trial, "stopped.db", len(DAY) + 1)


@case(
    "an audit of a shop file's materials",
    "Entries of terminal 0 are done anew as others are: with the materials of two starts the store is whole, and a material that was changed in "
    "its message is found.",
)
def of_shop_file(trial):
    for text in (STEEL_FILE, STEEL_FILE + GLASS_FILE):
        shop = trial.shop(shop_file=trial.write("shop.toml", text))
        trial.holds(shop.is_open, "the shop doesn't open")
        shop.kill()
    audited(trial, "shop.db", 2)
    change = f"UPDATE kept SET command = replace(command, '\"kerf\":3', '\"kerf\":4') WHERE {of_entry(1)}"
    audited(trial, changed(trial, shop.store, "other.db", change), 2, "materials: STEEL differs")
    audited(trial, changed(trial, shop.store, "reply.db", other_reply(2)), 2, "entry 2: another reply")


@case(
    "an audit of tables by plain SQL",
    "A store of version 3 that plain SQL made is whole; one of version 1 or 2 has no entries: its messages were kept before they began, and "
    "without a message it is whole. None is brought to another version.",
)
def by_plain_sql(trial):
    made(trial, "3.db", 3)
    audited(trial, "3.db", len(DAY))
    for version in (1, 2):
        name = f"{version}.db"
        path = made(trial, name, version)
        for words in ((), ("--read-only",)):
            audited(trial, name, 0, f"{len(DAY)} messages were kept before entries began", words=words)
        trial.equal(tables.select(path, "SELECT value FROM meta WHERE name = 'version'"), [(version,)])
        empty = {"meta": [("act", 0), ("demand", 0), ("version", version)]}
        tables.make(trial.path(f"empty-{name}"), empty, version)
        audited(trial, f"empty-{name}", 0)


@case(
    "an audit of a store that was taken over",
    "A store of version 1 or 2 that was brought to version 3 has the entries of the messages since then, and those before are reported.",
)
def taken_over(trial):
    for version in (1, 2):
        name = f"{version}.db"
        made(trial, name, version)
        trial.equal(trial.run("yield", "--store", name, "GLASS").status, 0)
        audited(trial, name, 0, f"{len(DAY)} messages were kept before entries began")
        shop = trial.shop(name)
        trial.equal(shop.reply(NEXT[0]).decode(), NEXT[1])
        shop.kill()
        audited(trial, name, 1, f"{len(DAY)} messages were kept before entries began")


# ---- rows that differ

# Of each table that an audit compares, by falling name, a change of a row, and what is reported of it.
CHANGES = [
    ("UPDATE parts SET batch = 'B-9' WHERE act = 7 AND node = 0", "parts: 7/0 differs"),
    ("UPDATE parts SET batch = 'B-9' WHERE act = 2 AND node = 4", "parts: 2/4 differs"),
    ("INSERT INTO orders VALUES ('A-9')", "orders: A-9 differs"),
    ("UPDATE meta SET value = value + 1 WHERE name = 'demand'", "meta: demand differs"),
    ("UPDATE meta SET value = value + 1 WHERE name = 'act'", "meta: act differs"),
    ("UPDATE materials SET min_long = min_long + 1 WHERE code = 'STEEL'", "materials: STEEL differs"),
    ("UPDATE materials SET min_long = min_long + 1 WHERE code = 'GLASS'", "materials: GLASS differs"),
    (f"UPDATE kept SET command = command || ' ' WHERE {of_entry(12)}", "kept: 1/12 differs"),
    (f"UPDATE kept SET command = ' ' || command WHERE {of_entry(9)}", "kept: 1/9 differs"),
    ("UPDATE journal SET part_node = 1 WHERE entry = 15", "journal: 15 differs"),
    ("UPDATE journal SET word = 'return' WHERE entry = 13", "journal: 13 differs"),
    ("UPDATE journal SET job = 0, act = 3 WHERE entry = 8", "journal: 8 differs"),
    ("UPDATE jobs SET tree = 'x21 p2 r' WHERE job = 4", "jobs: 4 differs"),
    ("DELETE FROM imports WHERE ord = 'CG-1'", "imports: CG-1 differs"),
    ("UPDATE imports SET body = body || ' ' WHERE ord = 'A-3'", "imports: A-3 differs"),
    ("UPDATE imports SET form = 9 WHERE ord = 'A-3'", "imports: A-3 differs"),
    ("UPDATE demands SET worth = worth + 1 WHERE number = 3", "demands: 3 differs"),
]


@case(
    "an audit of a changed row",
    "A row that SQLite's own shell changed, added or took away is reported with its table and its key, of each table in turn that a book is read from.",
)
def changed_rows(trial):
    path = day(trial)
    for change, torn in CHANGES:
        audited(trial, changed(trial, path, "changed.db", change), COUNT, torn, sent=change)


# What is told of a row of the orders of jobs that names none.
NO_USE = "uses: a job or an order that isn't there differs"


@case(
    "an audit of the orders of jobs",
    "A row that is missing in the table of the orders of jobs, or is there beside those of their plans, is told with its job and its order: "
    "the first one, jobs as numbers; one whose job or order can't be one is told as such. Of a job with more rows than any plan has pieces, too.",
)
def changed_uses(trial):
    path = day(trial)
    rows = tables.rows(path)["uses"]
    for job, order in rows:
        audited(trial, changed(trial, path, "changed.db", f"DELETE FROM uses WHERE job = {job} AND ord = '{order}'"), COUNT, f"uses: {job}/{order} differs")
    (first, code), (last, _) = rows[0], rows[-1]
    for change, torn in (
        (f"INSERT INTO uses VALUES ({last}, 'ZZ-9')", f"uses: {last}/ZZ-9 differs"),
        (f"INSERT INTO uses VALUES ({first}, 'A')", f"uses: {first}/A differs"),
        (f"UPDATE uses SET ord = 'A' WHERE job = {first} AND ord = '{code}'", f"uses: {first}/A differs"),
        (f"UPDATE uses SET ord = 'ZZ-9' WHERE job = {first} AND ord = '{code}'", f"uses: {first}/{code} differs"),
        ("DELETE FROM uses", f"uses: {first}/{code} differs"),
        (f"INSERT INTO uses VALUES ({last + 7}, 'A-1')", f"uses: {last + 7}/A-1 differs"),
        (f"INSERT INTO uses VALUES (0, 'A-1'), ({first}, 'A')", "uses: 0/A-1 differs"),
        ("INSERT INTO uses VALUES (-1, 'A-1')", NO_USE),
        ("INSERT INTO uses VALUES (1099511627776, 'A-1')", NO_USE),
        (f"INSERT INTO uses VALUES ({first}, '')", NO_USE),
        (many(first, 1500), f"uses: {first}/A0 differs"),
        (many(last, 1500) + f"; DELETE FROM uses WHERE job = {first}", f"uses: {first}/{code} differs"),
    ):
        audited(trial, changed(trial, path, "changed.db", change), COUNT, torn, sent=change)


def many(job, count):
    """Adds so many orders to a job: A0, A1 and so on."""
    numbers = f"WITH RECURSIVE n(i) AS (SELECT 0 UNION ALL SELECT i + 1 FROM n WHERE i < {count - 1})"
    return f"{numbers} INSERT INTO uses SELECT {job}, 'A' || i FROM n"


# So many orders of a piece each, and so many jobs with a piece of each of them: more rows than are read at once.
ORDERS, JOBS = 150, 7


@case(
    "an audit of over 1000 orders of jobs",
    "A store of seven jobs, each with a piece of each of 150 orders, is whole; where the last of these 1050 rows is missing, or the first "
    "one behind the 1000th, it is told with its job and its order.",
)
def many_uses(trial):
    yard = Yard()
    yard.material("STEEL")
    tree = " ".join(f"x1 p{yard.bars('STEEL', (1, JOBS))}" for _ in range(ORDERS))
    part = yard.receive("STEEL", ORDERS + 1, 1, JOBS)
    for node in range(JOBS):
        yard.reserve(part.replace("/0", f"/{node}"), f"{tree} r")
    shop = yard.serve(trial)
    shop.kill()
    entries, rows = len(yard.lines), tables.rows(shop.store)["uses"]
    trial.equal(len(rows), ORDERS * JOBS, "the orders of the jobs")
    audited(trial, "shop.db", entries)
    for job, order in (rows[1000], rows[-1]):
        change = f"DELETE FROM uses WHERE job = {job} AND ord = '{order}'"
        name = changed(trial, shop.store, "changed.db", change)
        audited(trial, name, entries, f"uses: {job}/{order} differs", sent=change)


@case(
    "an audit of a job of 255 cuts",
    "Of the parts of a job of 255 cuts the one that was changed is told by its name: one before node 256, one behind it, and the last.",
)
def many_cuts(trial):
    yard = Yard()
    yard.material("STEEL")
    yard.bars("STEEL", (1, 256))
    job = yard.cut(yard.receive("STEEL", 256), LONGEST)
    shop = yard.serve(trial)
    shop.kill()
    audited(trial, "shop.db", len(yard.lines))
    # (a cut without a kerf becomes no part: the pieces are the nodes behind each cut, and the last one)
    nodes = [node for act, node, *_ in tables.rows(shop.store)["parts"] if act == job]
    trial.equal(nodes, [*range(1, 510, 2), 510], "the parts of the job")
    for node in (253, 255, 257, 383, 509, 510):
        change = f"UPDATE parts SET batch = 'B-9' WHERE act = {job} AND node = {node}"
        name = changed(trial, shop.store, "changed.db", change)
        audited(trial, name, len(yard.lines), f"parts: {job}/{node} differs", sent=change)


@case(
    "the first of several rows that differ",
    "Of many rows that were changed the one is reported whose table's name stands first, and in the table the one whose key does, numbers as numbers; a reply "
    "comes before rows, the first entry's before others, and messages without an entry before all.",
)
def first_of_several(trial):
    path = day(trial)
    for change, torn in CHANGES:
        tables.change(path, change)
        audited(trial, "day.db", COUNT, torn, sent=change)
    for number in (20, 9, 2):
        tables.change(path, other_reply(number))
        audited(trial, "day.db", COUNT, f"entry {number}: another reply")
    for count in (1, 2):
        tables.change(path, f"INSERT INTO kept VALUES (9, {count}, '{{}}', '{{}}')")
        audited(trial, "day.db", COUNT, f"{count} messages were kept before entries began")


# A piece that became scrap, with the sums that follow from it.
FORGED = (
    "UPDATE parts SET state = 5, detail = 0 WHERE act = 3 AND node = 1; "
    "UPDATE totals2 SET pieces = pieces - 30, scrap = scrap + 30 WHERE material = 'STEEL';"
)


@case(
    "an audit of sums",
    "A part that was changed together with its sums is found by the messages; sums that aren't those of the parts, and rows in `totals`, are "
    "`fault version`, as for each command.",
)
def sums(trial):
    path = day(trial)
    audited(trial, changed(trial, path, "forged.db", FORGED), COUNT, "parts: 3/1 differs")
    changes = [f"UPDATE totals2 SET {it} = {it} + 1 WHERE material = 'GLASS'" for it in tables.COLUMNS["totals2"].split()[1:]]
    for change in (*changes, "INSERT INTO totals SELECT material, received, stock, rack, pieces, kerf, scrap FROM totals2"):
        ran = audits.run(trial, "audit", changed(trial, path, "sums.db", change))
        trial.ended(ran, 1, err="fault version\n", sent=change)


# ---- entries that were changed


@case(
    "an entry that was left out",
    "Where an entry is left out and those behind it are numbered anew, its part or demand differs, or a later message gets another reply; where "
    "the last one is left out its message has none.",
)
def without_entry(trial):
    path = day(trial)
    # (the receipt of the first bars, a scrapped part, the amended demand, and the last reservation)
    wanted = ((2, "entry 4: another reply"), (13, "parts: 3/2 differs"), (16, "demands: 2 differs"), (23, "demands: 4 differs"))
    for number, torn in wanted:
        audited(trial, changed(trial, path, f"{number}.db", left_out(number, COUNT)), COUNT - 1, torn)
    for count in (1, 3):
        name = changed(trial, path, f"last-{count}.db", f"DELETE FROM journal WHERE entry > {COUNT - count}")
        audited(trial, name, COUNT - count, f"{count} messages were kept before entries began")
    name = changed(trial, path, "gap.db", "DELETE FROM journal WHERE entry = 4")
    output = f"gap.db: {NO_ROW}journal {COUNT}"
    trial.ended(audits.run(trial, "audit", name), 1, err="fault version\n", why=output)


@case(
    "times of entries that were changed",
    "An entry's time that is below the one before it, or above the one behind it, is found at the entry whose time falls; times that don't fall are taken as they "
    "are, since nothing else reports them.",
)
def changed_times(trial):
    path = day(trial)
    for number, at, torn in ((5, DATE - 1, "journal: 5 differs"), (5, DATE + 1, "journal: 6 differs"), (1, DATE - 1, None), (COUNT, DATE + 9, None)):
        name = changed(trial, path, f"{number}-{at}.db", f"UPDATE journal SET at = {at} WHERE entry = {number}")
        audited(trial, name, COUNT, torn)


# How many entries stores have: each side of one, two and three hundred.
LENGTHS = (99, 100, 101, 200, 201, 301)


@case(
    "audits of hundreds of entries",
    "Stores of 99 to 301 entries are whole; where the reply of an entry was changed, of the first, the last, or one on either side of a "
    "hundred, it is told by its number, and so is another word in its entry.",
)
def hundreds(trial):
    for count in LENGTHS:
        yard = Yard()
        yard.material("STEEL")
        for _ in range(count - 1):
            yard.receive("STEEL", 1)
        shop = yard.serve(trial, f"{count}.db")
        shop.kill()
        trial.equal(len(yard.lines), count, "the messages")
        audited(trial, f"{count}.db", count)
        for number in (1, 99, 100, 101, 200, 201, count):
            if number > count:
                continue
            audited(trial, changed(trial, shop.store, "reply.db", other_reply(number)), count, f"entry {number}: another reply")
            later = f"UPDATE journal SET word = 'scrap' WHERE entry = {number}"
            audited(trial, changed(trial, shop.store, "word.db", later), count, f"journal: {number} differs")


# ---- stores that others write


# ---- stores that can't be read


@case(
    "an audit and a history of no store",
    "A store that isn't there is `fault file` for `audit` and `history`, with `--read-only` `fault store`; none is made.",
)
def no_store(trial):
    for command in ("audit", "history"):
        for words, fault in (((), "fault file\n"), (("--read-only",), "fault store\n")):
            why = "none.db: there is no such " + ("file" if fault == "fault file\n" else "store")
            trial.ended(audits.run(trial, command, "none.db", *words), 1, err=fault, why=why, sent=f"{command} {words}")
    trial.equal(os.listdir(trial.folder), [])
