"""Files that a shop takes over or not: tables of others, other versions, and rows that are no values."""

from kit import tables
from kit.case import case, fault_in
from kit.stores import DAY, filled, sent


def opens(trial, store):
    """Whether a store is taken over; if not, it has to be reported as of another version."""
    ran = trial.run("ticket", "--store", store, "2147483647")
    if fault_in(ran.err) == b"refused 70 NoJob\n":
        return True
    trial.ended(ran, 1, err="fault version\n", sent=store)
    return False


def refused_as_it_was(trial, path, why):
    """A file that is reported as of another version stays as it was."""
    before = tables.dump(path)
    trial.equal((opens(trial, path), why), (False, why))
    trial.equal(tables.dump(path), before, why)


@case(
    "a file of another version",
    "Versions 0, 1, 2, 4, 7, -2 and 4294967299 in the tables of version 3, and none, are `fault version`; the file "
    "stays as it was.",
)
def versions(trial):
    path = filled(trial, exchanges=DAY[:3])
    for version in (0, 1, 2, 4, 7, -2, 4294967299):
        tables.change(path, f"UPDATE meta SET value = {version} WHERE name = 'version'")
        refused_as_it_was(trial, path, f"version {version}")
    tables.change(path, "DELETE FROM meta WHERE name = 'version'")
    refused_as_it_was(trial, path, "no version")
    tables.change(path, "INSERT INTO meta VALUES ('version', 3)")
    trial.holds(opens(trial, path), "version 3 is taken again")


@case(
    "tables of others beside ours",
    "A shop is made beside a table, an index and a view of others, which stay; and they may be made beside a shop.",
)
def beside(trial):
    for store, exchanges in (("first.db", None), ("later.db", DAY)):
        path = filled(trial, store, exchanges) if exchanges else trial.path(store)
        tables.change(path, tables.OTHERS)
        shop = trial.shop(store)
        sent(trial, shop)
        shop.kill()
        trial.equal(tables.select(path, "SELECT x FROM shown"), [(7,)])


@case(
    "names that others have",
    "Where a table, an index or a view of others has one of our names, the file is `fault version` and stays as it was.",
)
def names_taken(trial):
    makes = [
        "CREATE TABLE parts (x INTEGER NOT NULL) STRICT",
        "CREATE TABLE a (x INTEGER NOT NULL); CREATE INDEX meta ON a (x)",
    ]
    makes += ["CREATE TABLE a (x INTEGER NOT NULL); CREATE VIEW totals2 AS SELECT x FROM a"]
    makes += ["CREATE TABLE a (x INTEGER NOT NULL); CREATE VIEW journal AS SELECT x FROM a"]
    makes += [f"CREATE TABLE {it} (x INTEGER NOT NULL) STRICT" for it in tables.LAST]
    makes += ["CREATE TABLE meta (word TEXT NOT NULL, text TEXT NOT NULL) STRICT; INSERT INTO meta VALUES ('version', '3')"]
    for number, make in enumerate(makes):
        path = trial.path(f"taken-{number}.db")
        tables.change(path, make)
        refused_as_it_was(trial, path, make)


@case("a table that isn't there", "A shop without one of its tables is `fault version`, and stays as it was.")
def lacking(trial):
    for name in ("imports", "totals", "totals2", "kept", *tables.LAST):
        path = filled(trial, f"{name}.db", DAY[:1])
        tables.change(path, f"DROP TABLE {name}")
        refused_as_it_was(trial, path, name)


@case(
    "a version that can't be read",
    "Where fifteen tables have our names and `meta` has other columns no version can be read: `fault store`; the file "
    "stays as it was.",
)
def unread(trial):
    for number, change in enumerate(("value TO amount", "name TO word")):
        path = filled(trial, f"unread-{number}.db", DAY[:1])
        tables.change(path, f"ALTER TABLE meta RENAME COLUMN {change}")
        before = tables.dump(path)
        trial.ended(trial.run("ticket", "--store", path, "2147483647"), 1, err="fault store\n", sent=change)
        trial.equal(tables.dump(path), before, change)


# What makes a part or a total no value of its type, and what makes it one again.
STRANGE = [
    ("parts", "state", ("8", "-1"), "0"),
    ("parts", "detail", ("4", "-1"), "0"),
    ("parts", "x", ("-1", "4294967296"), "0"),
    ("parts", "y", ("-1", "5000000000"), "0"),
    ("parts", "node", ("-1", "4294967296"), "0"),
    ("parts", "act", ("0", "-1", "2147483648"), "1"),
    ("parts", "root_act", ("0", "2147483648"), "1"),
    ("parts", "root_node", ("-1", "4294967296"), "0"),
    ("parts", "w", ("0", "200001", "9", "-10"), "10"),
    ("parts", "h", ("0", "60001", "7"), "8"),
    ("parts", "batch", ("''", "'b-1'", "'ABCDEFGHIJKLMNOPQ'"), "'B-1'"),
    ("parts", "state = 3, detail", ("-1", "4294967296"), "0; UPDATE parts SET state = 0"),
    ("totals2", "stock", ("79", "-80", "81"), "80"),
    ("totals2", "returned", ("1",), "0"),
    ("totals2", "received", ("0",), "80"),
]


@case(
    "parts and totals that are no values",
    "A part whose act, node, root, place, side, batch, state or detail is out of range, and totals that aren't the "
    "sums, are `fault version`; the file stays as it was.",
)
def strange(trial):
    path = filled(trial, exchanges=DAY[:2])
    for table, column, values, good in STRANGE:
        for value in values:
            tables.change(path, f"UPDATE {table} SET {column} = {value}")
            refused_as_it_was(trial, path, f"{table} {column} {value}")
        tables.change(path, f"UPDATE {table} SET {column} = {good}")
    tables.change(path, "DELETE FROM totals2")
    refused_as_it_was(trial, path, "no totals")
    tables.change(path, "INSERT INTO totals2 VALUES ('GLASS', 80, 80, 0, 0, 0, 0, 0)")
    trial.holds(opens(trial, path), "the good values are taken again")


# What a column without a type may hold that is no number and no text; and what is no material's code, or another one's.
UNTYPED, NO_MATERIAL = ("NULL", "1.5", "x'474C415353'"), ("''", "'glass'", "'ABCDEFGHIJKLMNOPQ'", "'STEEL'")


@case(
    "parts and totals of other types",
    "Where tables with our names have columns without types and without references, a part or a total with nothing, a fraction, "
    "bytes, a text in place of a number, a number in place of a code or another material is `fault version`, and so is a version "
    "that is no number; the file stays as it was.",
)
def other_types(trial):
    for table, only in (("parts", ""), ("totals2", ""), ("meta", "WHERE name = 'version'")):
        path, columns = filled(trial, f"{table}.db", exchanges=DAY[:2]), tables.COLUMNS[table].split()
        names, key = ", ".join(columns), ", ".join(tables.KEYS[table].split())
        made = f"CREATE TABLE loose ({names}, PRIMARY KEY ({key})); INSERT INTO loose SELECT * FROM {table}"
        tables.change(path, f"{made}; DROP TABLE {table}; ALTER TABLE loose RENAME TO {table}")
        for column in columns[1:] if only else columns:
            ((good,),) = tables.select(path, f"SELECT quote({column}) FROM {table} {only}")
            others = NO_MATERIAL if column == "material" else ()
            for value in (*UNTYPED, *others, "7" if column in tables.TEXTS else "'7'"):
                tables.change(path, f"UPDATE {table} SET {column} = {value} {only}")
                refused_as_it_was(trial, path, f"{table} {column} {value}")
            tables.change(path, f"UPDATE {table} SET {column} = {good} {only}")
        trial.holds(opens(trial, path), f"{table} with its values again")


@case(
    "rows in the totals of version 1",
    "A file of version 3 with a row in `totals` is `fault version` and stays as it was; without the row it is taken again.",
)
def old_totals(trial):
    path = filled(trial, exchanges=DAY[:2])
    tables.change(path, "INSERT INTO totals VALUES ('GLASS', 80, 80, 0, 0, 0, 0)")
    refused_as_it_was(trial, path, "a row in totals")
    tables.change(path, "DELETE FROM totals")
    trial.holds(opens(trial, path), "no row in totals")


@case(
    "parts of the greatest values",
    "Acts of 2147483647, nodes and places of 4294967295 and a batch of 16 characters are taken.",
)
def greatest(trial):
    path = filled(trial, exchanges=DAY[:2])
    tables.change(path, "UPDATE parts SET node = 4294967295, root_node = 4294967295, x = 4294967295, y = 4294967295")
    trial.holds(opens(trial, path), "the greatest node and place")
    tables.change(path, "UPDATE parts SET act = 2147483647, root_act = 2147483647, batch = 'ABCDEFGHIJ-01234'")
    trial.holds(opens(trial, path), "the greatest act and the longest batch")


@case("a shop goes on behind its last act", "Where the last act is 7 the next receipt is act 8.")
def goes_on(trial):
    path = filled(trial, exchanges=DAY[:1])
    tables.change(path, "UPDATE meta SET value = 7 WHERE name = 'act'")
    shop = trial.shop()
    line, reply = DAY[1][0], '{"act":8,"count":1,"ok":"receive"}'
    trial.equal(shop.reply(line).decode(), reply, line)
