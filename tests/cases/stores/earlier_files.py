"""Store files that plain SQL made, of version 1, 2 and 3."""

import json

from kit import tables
from kit.case import case
from kit.earlier import FOUND, NEXT, REPORT, made
from kit.shop import begin_line
from kit.stores import DAY, DONE_AGAIN, NO_ROW, QUESTIONS, ROWS, sent

TICKET = (
    b"job 3 done\npart 2/4 GLASS 0.5 x 0.8 kerf 0.1\n   0 cut y 0.3 at 0.0 0.0 of 0.5 x 0.8\n"
    b"   1 piece at 0.0 0.0 of 0.5 x 0.3 demand 3 A-1 line 3\n   2 rest at 0.0 0.4 of 0.5 x 0.4\ncuts 1 pieces 1\n"
)
BEHIND = {1: tables.renewed(ROWS), 2: tables.renewed(ROWS), 3: ROWS}


def refused(trial, version, changes):
    """Wants `fault version` over a file after each of these changes, of each command in turn, and its tables and rows as they were."""
    serve = ("serve", "--port", "1", "--shop", trial.write("empty.toml", ""))
    commands = [(*serve, "--store", "{}"), ("ticket", "--store", "{}", "2"), ("yield", "--store", "{}", "GLASS")]
    for number, change in enumerate(changes):
        path = made(trial, f"changed-{version}-{number}.db", version, change)
        before = tables.dump(path)
        words = [it.format(path) for it in commands[number % len(commands)]]
        trial.ended(trial.run(*words), 1, err="fault version\n", sent=f"{words[0]}: {change}")
        trial.equal(tables.dump(path), before, change)


def served(trial, version):
    """Wants the answers, kept replies and rows of “remnant cut again” from a file of this version."""
    path = made(trial, "shop.db", version)
    wanted = trial.replay([*[it for it, _ in DAY], *QUESTIONS]).out.split(b"\n")[len(DAY) : -1]
    shop = trial.shop()
    trial.equal(shop.reply(DONE_AGAIN).decode(), DAY[-1][1])
    sent(trial, shop)
    trial.equal([shop.reply(it) for it in QUESTIONS], wanted)
    entries = len(BEHIND[version]["journal"])
    trial.equal(json.loads(shop.reply('{"ask":"shop"}'))["entries"], entries)
    shop.kill()
    trial.equal(tables.rows(path), BEHIND[version])
    for name in tables.COLUMNS:
        trial.equal(tables.columns_of(path, name), tables.wanted_columns(name), name)


@case(
    "version 1 by plain SQL",
    "A file of version 1 that plain SQL made, after “remnant cut again”, is served with the same answers, kept "
    "replies and 0 returned, and is then of version 3, without an entry, all other rows as they were.",
)
def version_1(trial):
    served(trial, 1)


@case(
    "version 1 beside tables of others",
    "A file of version 1 or 2 with a table, an index and a view of others, in front of its own or behind them, is served as one "
    "of version 3; those of others stay, with their rows.",
)
def beside(trial):
    theirs = "SELECT type, name, sql FROM sqlite_schema WHERE tbl_name IN ('other', 'shown') ORDER BY name"
    for version in (1, 2):
        for name, before, behind in (("front", tables.OTHERS, ""), ("behind", "", tables.OTHERS)):
            name = f"{name}-{version}.db"
            path = trial.path(name)
            tables.change(path, before)
            tables.make(path, FOUND[version], version)
            tables.change(path, behind)
            others = tables.select(path, theirs)
            shop = trial.shop(name)
            sent(trial, shop)
            shop.kill()
            trial.equal(tables.rows(path), BEHIND[version], name)
            trial.equal(tables.select(path, "SELECT x FROM shown"), [(7,)], name)
            trial.equal(tables.select(path, theirs), others, name)


@case(
    "version 2 by plain SQL",
    "A file of version 2 that plain SQL made is served with the same answers and kept replies, and is then of version 3, without an "
    "entry, all other rows as they were.",
)
def version_2(trial):
    served(trial, 2)


@case(
    "version 3 by plain SQL",
    "A file of version 3 that plain SQL made is served as one that the program made, and its rows stay.",
)
def version_3(trial):
    served(trial, 3)


@case(
    "a report of an earlier version",
    "`yield` and `ticket` print a file of version 1 or 2 as one of version 3, and it is of version 3 then.",
)
def reports(trial):
    for version in (1, 2):
        for name, word, text in (("yield", "GLASS", REPORT), ("ticket", "3", TICKET)):
            path = made(trial, f"{name}-{version}.db", version)
            trial.ended(trial.run(name, "--store", path, word), 0, text)
            trial.equal(tables.rows(path), BEHIND[version], name)


@case(
    "texts of an earlier version",
    "What a file of version 1 or 2 keeps stays byte for byte, texts and replies in a form that the program doesn't write among it; the first "
    "message behind is entry 1, and `meta` names version 3.",
)
def texts(trial):
    for version in (1, 2):
        path = made(trial, f"{version}.db", version)
        tables.change(path, "UPDATE kept SET command = command || ' ', reply = ' ' || reply WHERE number IN (2, 5)")
        before = tables.select(path, "SELECT * FROM kept ORDER BY number")
        for _ in range(2):
            shop = trial.shop(f"{version}.db")
            trial.equal(shop.reply(NEXT[0]).decode(), NEXT[1])
            trial.equal(json.loads(shop.reply('{"after":0,"ask":"history"}'))["entries"][0]["message"], json.loads(NEXT[0]))
            shop.kill()
            trial.equal(tables.select(path, "SELECT * FROM kept ORDER BY number"), [*before, (1, 8, *NEXT)])
            trial.equal(tables.rows(path)["journal"], [(1, 0, 1, 8, "receive", 4, 0, "", 0, 0)])
        trial.equal(tables.select(path, "SELECT value FROM meta WHERE name = 'version'"), [(3,)])


@case(
    "messages of an earlier version, counted",
    "A server of a file of version 1, 2 or 3 reports at its start how many messages are kept, those from before entries began among them; "
    "so it does behind the first entry.",
)
def counted(trial):
    for version in (1, 2, 3):
        made(trial, f"{version}.db", version)
        for kept in (len(DAY), len(DAY) + 1):
            shop = trial.shop(f"{version}.db", limit=1)
            trial.equal(shop.reply(NEXT[0]).decode(), NEXT[1])
            begin = begin_line(shop.store, is_new=False, kept=kept)
            trial.equal(shop.end()[2][: len(begin)], begin, f"version {version}, {kept} messages")


@case(
    "version 1 that is none",
    "Nine tables marked 2 or 3, version 1 without `totals` or `kept`, with a total one more than its sum, a part of "
    "state 7 or a job of state 4, or with a table that came later are `fault version`; the file stays as it was.",
)
def no_version_1(trial):
    changes = [f"UPDATE meta SET value = {it} WHERE name = 'version'" for it in (2, 3)]
    changes += ["DROP TABLE totals", "DROP TABLE kept", "DELETE FROM totals"]
    changes += ["UPDATE totals SET kerf = kerf + 1", *NO_STATES, tables.VERSION_2, tables.VERSION_3]
    refused(trial, 1, changes)


# A part that is undone, and a job: states that came behind version 2.
NO_STATES = ("UPDATE parts SET state = 7, detail = 3 WHERE act = 3 AND node = 2", "UPDATE jobs SET state = 4 WHERE job = 3")


@case(
    "version 2 that is none",
    "Ten tables marked 1 or 3, version 2 without `totals2`, `totals` or `kept`, with a row in `totals`, a part of state 7 or a job of "
    "state 4, or with one of the tables that came later, are `fault version`; the file stays as it was.",
)
def no_version_2(trial):
    changes = [f"UPDATE meta SET value = {it} WHERE name = 'version'" for it in (1, 3)]
    changes += [f"DROP TABLE {it}" for it in ("totals2", "totals", "kept")]
    changes += ["INSERT INTO totals VALUES ('GLASS', 80, 0, 20, 43, 17, 0)", *NO_STATES]
    changes += [f"CREATE TABLE {it} (x INTEGER NOT NULL) STRICT" for it in tables.LAST]
    changes += ["CREATE TABLE a (x INTEGER NOT NULL); CREATE INDEX notes ON a (x)"]
    refused(trial, 2, changes)


@case(
    "version 3 that is none",
    "Fifteen tables marked 1 or 2, and version 3 without one of its tables, are `fault version`; the file stays as it was.",
)
def no_version_3(trial):
    changes = [f"UPDATE meta SET value = {it} WHERE name = 'version'" for it in (1, 2)]
    refused(trial, 3, [*changes, *[f"DROP TABLE {it}" for it in ("totals2", *tables.LAST)]])


# What has a journal not to be the entries from 1 on: a gap at its beginning, in it, before its last, and numbers below 1; and the row
# that is named: the first below 1, or else above how many there are.
GAPS = (
    ("DELETE FROM journal WHERE entry = 1", 7),
    ("DELETE FROM journal WHERE entry = 4", 7),
    ("DELETE FROM journal WHERE entry IN (2, 3)", 6),
    ("UPDATE journal SET entry = 9 WHERE entry = 7", 9),
    ("DELETE FROM journal WHERE entry < 7", 7),
    ("UPDATE journal SET entry = 0 WHERE entry = 1", 0),
    ("UPDATE journal SET entry = -3 WHERE entry = 7", -3),
)


@case(
    "a journal with a gap",
    "Where entries aren't numbered from 1 on without a gap the file is `fault version`, and the second line names the table and an entry that has "
    "another number; the file stays as it was. Without its last entries it is a shop that has fewer.",
)
def gaps(trial):
    for number, (change, named) in enumerate(GAPS):
        path = made(trial, f"gap-{number}.db", 3, change)
        before = tables.dump(path)
        for words in (("ticket", "--store", path, "2"), ("yield", "--store", path, "GLASS")):
            output = trial.run(*words)
            trial.ended(output, 1, err="fault version\n", why=f"{path}: {NO_ROW}journal {named}", sent=f"{change}: {words[0]}")
        trial.equal(tables.dump(path), before, change)
    made(trial, "fewer.db", 3, "DELETE FROM journal WHERE entry > 5")
    shop = trial.shop("fewer.db")
    trial.equal(json.loads(shop.reply('{"ask":"shop"}'))["entries"], 5)


@case(
    "totals of each kind",
    "A total one more than its sum, of each of the seven, is `fault version` in a file of version 2 and of version 3, and it stays as it "
    "was.",
)
def each_total(trial):
    for version in (2, 3):
        refused(trial, version, [f"UPDATE totals2 SET {it} = {it} + 1" for it in tables.COLUMNS["totals2"].split()[1:]])
