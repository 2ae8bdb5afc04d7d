"""The tables of a store file, read and changed by Python's own SQLite."""

import shutil
import sqlite3
from contextlib import closing, contextmanager

# The columns of each table, in order, as the formats have them.
COLUMNS = {
    "meta": "name value",
    "materials": "code kind kerf min_long min_short",
    "parts": "act node material batch root_act root_node x y w h state detail",
    "jobs": "job part_act part_node tree state",
    "orders": "ord",
    "demands": "number ord line material w h turn worth wanted reserved made",
    "kept": "terminal number command reply",
    "imports": "ord form material body reply",
    "totals": "material received stock rack pieces kerf scrap",
    "totals2": "material received stock rack pieces kerf scrap returned",
    "journal": "entry at terminal number word act job ord part_act part_node",
    "uses": "job ord",
    "notes": "ord due body",
    "begun": "job terminal",
    "halts": "job body",
}
# The tables that version 3 brought.
LAST = ("journal", "uses", "notes", "begun", "halts")
KEYS = {
    "meta": "name",
    "materials": "code",
    "parts": "act node",
    "jobs": "job",
    "orders": "ord",
    "demands": "number",
    "kept": "terminal number",
    "imports": "ord",
    "totals": "material",
    "totals2": "material",
    "journal": "entry",
    "uses": "job ord",
    "notes": "ord",
    "begun": "job",
    "halts": "job",
}
TEXTS = {"name", "code", "material", "batch", "tree", "ord", "command", "reply", "body", "word"}


@contextmanager
def opened(path):
    """The file, opened by SQLite, which takes its log away at the end: an empty one is put there, as the program wants one."""
    with closing(sqlite3.connect(path)) as book:
        yield book
    with open(f"{path}-wal", "ab"):
        pass


def copy(path, to):
    """Copies a file and its log, and gives the path of the copy."""
    for end in ("", "-wal"):
        shutil.copy(path + end, to + end)
    return to


def rows(path, times=False):
    """All rows of all tables that are there, by table, each in the order of its key. An entry has 0 in place of when it was accepted,
    but where times are asked for: they differ from one run to the next."""
    with opened(path) as book:
        there = {name for (name,) in book.execute("SELECT name FROM sqlite_schema WHERE type = 'table'")}
        by = {name: keys.replace(" ", ", ") for name, keys in KEYS.items() if name in there}
        found = {name: book.execute(f"SELECT * FROM {name} ORDER BY {by[name]}").fetchall() for name in COLUMNS if name in there}
    if not times and "journal" in found:
        found["journal"] = [(entry, 0, *rest) for entry, _, *rest in found["journal"]]
    return found


def select(path, statement):
    with opened(path) as book:
        return book.execute(statement).fetchall()


def change(path, statements):
    """Runs statements in the file, which nobody else has open."""
    with opened(path) as book:
        book.executescript(statements)
        book.commit()


def columns_of(path, name):
    """Of each column its name, its type, whether it is NOT NULL, and its place in the primary key."""
    return [(it[1], it[2], it[3], it[5]) for it in select(path, f"PRAGMA table_info({name})")]


def wanted_columns(name):
    keys = KEYS[name].split()
    places = {it: keys.index(it) + 1 for it in keys}
    return [(it, "TEXT" if it in TEXTS else "INTEGER", 1, places.get(it, 0)) for it in COLUMNS[name].split()]


def check(trial, path, wanted):
    """A file's tables have the columns of the formats, STRICT, and those that are named exactly these rows."""
    for name in COLUMNS:
        trial.equal(columns_of(path, name), wanted_columns(name), name)
        ((statement,),) = select(path, f"SELECT sql FROM sqlite_schema WHERE name = '{name}'")
        trial.holds(statement.rstrip().endswith("STRICT"), statement)
    found = rows(path)
    for name, it in wanted.items():
        trial.equal(found[name], it, name)


# The tables of version 1, as plain SQL, the one that version 2 adds, and those that version 3 adds.
VERSION_1 = """
CREATE TABLE meta (name TEXT NOT NULL, value INTEGER NOT NULL, PRIMARY KEY (name)) STRICT;
CREATE TABLE materials (
    code TEXT NOT NULL, kind INTEGER NOT NULL, kerf INTEGER NOT NULL, min_long INTEGER NOT NULL,
    min_short INTEGER NOT NULL, PRIMARY KEY (code)) STRICT;
CREATE TABLE parts (
    act INTEGER NOT NULL, node INTEGER NOT NULL, material TEXT NOT NULL REFERENCES materials (code), batch TEXT NOT NULL,
    root_act INTEGER NOT NULL, root_node INTEGER NOT NULL, x INTEGER NOT NULL, y INTEGER NOT NULL, w INTEGER NOT NULL,
    h INTEGER NOT NULL, state INTEGER NOT NULL, detail INTEGER NOT NULL, PRIMARY KEY (act, node)) STRICT;
CREATE TABLE jobs (
    job INTEGER NOT NULL PRIMARY KEY, part_act INTEGER NOT NULL, part_node INTEGER NOT NULL, tree TEXT NOT NULL,
    state INTEGER NOT NULL, FOREIGN KEY (part_act, part_node) REFERENCES parts (act, node)) STRICT;
CREATE TABLE orders (ord TEXT NOT NULL, PRIMARY KEY (ord)) STRICT;
CREATE TABLE demands (
    number INTEGER NOT NULL PRIMARY KEY, ord TEXT NOT NULL REFERENCES orders (ord), line INTEGER NOT NULL,
    material TEXT NOT NULL REFERENCES materials (code), w INTEGER NOT NULL, h INTEGER NOT NULL, turn INTEGER NOT NULL,
    worth INTEGER NOT NULL, wanted INTEGER NOT NULL, reserved INTEGER NOT NULL, made INTEGER NOT NULL,
    UNIQUE (ord, line), CHECK (reserved + made <= wanted)) STRICT;
CREATE TABLE kept (
    terminal INTEGER NOT NULL, number INTEGER NOT NULL, command TEXT NOT NULL, reply TEXT NOT NULL,
    PRIMARY KEY (terminal, number)) STRICT;
CREATE TABLE imports (
    ord TEXT NOT NULL PRIMARY KEY REFERENCES orders (ord), form INTEGER NOT NULL, material TEXT NOT NULL,
    body TEXT NOT NULL, reply TEXT NOT NULL) STRICT;
CREATE TABLE totals (
    material TEXT NOT NULL PRIMARY KEY REFERENCES materials (code), received INTEGER NOT NULL, stock INTEGER NOT NULL,
    rack INTEGER NOT NULL, pieces INTEGER NOT NULL, kerf INTEGER NOT NULL, scrap INTEGER NOT NULL) STRICT;
"""
VERSION_2 = """
CREATE TABLE totals2 (
    material TEXT NOT NULL PRIMARY KEY REFERENCES materials (code), received INTEGER NOT NULL, stock INTEGER NOT NULL,
    rack INTEGER NOT NULL, pieces INTEGER NOT NULL, kerf INTEGER NOT NULL, scrap INTEGER NOT NULL,
    returned INTEGER NOT NULL) STRICT;
"""
VERSION_3 = """
CREATE TABLE journal (
    entry INTEGER NOT NULL PRIMARY KEY, at INTEGER NOT NULL, terminal INTEGER NOT NULL, number INTEGER NOT NULL,
    word TEXT NOT NULL, act INTEGER NOT NULL, job INTEGER NOT NULL, ord TEXT NOT NULL, part_act INTEGER NOT NULL,
    part_node INTEGER NOT NULL) STRICT;
CREATE TABLE uses (job INTEGER NOT NULL, ord TEXT NOT NULL, PRIMARY KEY (job, ord)) STRICT;
CREATE TABLE notes (
    ord TEXT NOT NULL PRIMARY KEY REFERENCES orders (ord), due INTEGER NOT NULL, body TEXT NOT NULL) STRICT;
CREATE TABLE begun (job INTEGER NOT NULL PRIMARY KEY REFERENCES jobs (job), terminal INTEGER NOT NULL) STRICT;
CREATE TABLE halts (job INTEGER NOT NULL PRIMARY KEY REFERENCES jobs (job), body TEXT NOT NULL) STRICT;
"""
# The statements that make the tables of each version.
VERSIONS = {1: VERSION_1, 2: VERSION_1 + VERSION_2, 3: VERSION_1 + VERSION_2 + VERSION_3}

# A table, an index and a view of others.
OTHERS = """
CREATE TABLE other (x INTEGER NOT NULL) STRICT; CREATE INDEX at ON other (x); CREATE VIEW shown AS SELECT x FROM other;
INSERT INTO other VALUES (7);
"""


def make(path, found, version=3):
    """Makes a file with the tables of a version by plain SQL, and these rows in them."""
    with opened(path) as book:
        book.executescript(VERSIONS[version])
    insert(path, found)
    return path


def insert(path, found):
    """Puts rows into the tables of a file, which nobody else has open; by table, as tuples or anything that gives them."""
    with opened(path) as book:
        # (a table without rows needn't be there)
        for name in [it for it in COLUMNS if found.get(it)]:
            places = ", ".join("?" * len(COLUMNS[name].split()))
            book.executemany(f"INSERT INTO {name} VALUES ({places})", found[name])
        book.commit()


def dump(path):
    """All tables, views and indexes of a file and all their rows, as the statements that make them."""
    with opened(path) as book:
        return list(book.iterdump())


def earlier(found, version):
    """The rows of version 3 as those of an earlier version, which has no entries; of version 1 none of whose material was returned."""
    rows = {name: list(it) for name, it in found.items() if name not in LAST}
    rows["meta"] = [(name, version if name == "version" else value) for name, value in rows["meta"]]
    if version == 1:
        rows |= {"totals": [it[:-1] for it in rows["totals2"]], "totals2": []}
    return rows


def renewed(found):
    """The rows of version 3 that an open makes of those of an earlier version of a content: all but its entries."""
    return dict(found, journal=[], uses=[])
