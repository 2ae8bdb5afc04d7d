"""`cutshop audit` of stores that have notes, begun jobs, kept halts and undone jobs, whole and changed."""

from kit import audits, tables
from kit.audits import audited, changed, left_out, of_entry, other_reply
from kit.case import case
from kit.faults import Faults
from kit.floor import day

DATE = 1000
COUNT = 18


def floor(trial, name="floor.db"):
    """The path of a store after the day on the floor."""
    return audits.kept_day(trial, name, day(), Faults(trial, date=DATE).environment)


@case(
    "an audit of a day on the floor",
    "A store after notes, an extend, begun jobs, breaks with rests and an undo is whole, with `--read-only` and without; both "
    "files stay byte for byte.",
)
def whole(trial):
    floor(trial)
    for words in ((), ("--read-only",)):
        audited(trial, "floor.db", COUNT, words=words)


# Of each table of the floor, and of states 7 and 4, changes of a row, and what is reported of it; by falling name of the table.
CHANGES = [
    ("UPDATE parts SET state = 4, detail = 0 WHERE act = 2 AND node = 0; UPDATE totals2 SET kerf = kerf + 8", "parts: 2/0 differs"),
    ("UPDATE parts SET detail = 4 WHERE act = 2 AND node = 1", "parts: 2/1 differs"),
    ("UPDATE parts SET w = 3 WHERE act = 2 AND node = 2", "parts: 2/2 differs"),
    ("DELETE FROM notes", "notes: A-1 differs"),
    ("UPDATE notes SET due = 20261203", "notes: A-1 differs"),
    ("UPDATE notes SET due = 0", "notes: A-1 differs"),
    ("UPDATE notes SET body = 'Mueller'", "notes: A-1 differs"),
    ("UPDATE notes SET body = ''", "notes: A-1 differs"),
    ("UPDATE jobs SET state = 2 WHERE job = 2", "jobs: 2 differs"),
    ("UPDATE jobs SET state = 3 WHERE job = 2", "jobs: 2 differs"),
    ("UPDATE jobs SET state = 4 WHERE job = 4", "jobs: 4 differs"),
    ("DELETE FROM halts WHERE job = 5", "halts: 5 differs"),
    ("DELETE FROM halts WHERE job = 2", "halts: 2 differs"),
    ("UPDATE halts SET body = '{\"cuts\":[0,2],\"lost\":1,\"rest\":4}' WHERE job = 2", "halts: 2 differs"),
    ("UPDATE halts SET body = '{\"cuts\":[0,2],\"lost\":1}' WHERE job = 2", "halts: 2 differs"),
    ("UPDATE halts SET body = 'x' WHERE job = 5", "halts: 5 differs"),
    ("UPDATE halts SET body = '' WHERE job = 2", "halts: 2 differs"),
    ("INSERT INTO halts VALUES (4, '{\"cuts\":1,\"lost\":false}')", "halts: 4 differs"),
    ("UPDATE demands SET wanted = 3 WHERE number = 4", "demands: 4 differs"),
    ("DELETE FROM begun WHERE job = 5", "begun: 5 differs"),
    ("UPDATE begun SET terminal = 1 WHERE job = 2", "begun: 2 differs"),
    ("INSERT INTO begun VALUES (4, 1)", "begun: 4 differs"),
]


@case(
    "an audit of a changed row of the floor",
    "A note, a begun job, a kept halt, an undone part or job, or a line that was added, that SQLite's own shell changed, added "
    "or took away is reported with its table and its key.",
)
def changed_rows(trial):
    path = floor(trial)
    for change, torn in CHANGES:
        audited(trial, changed(trial, path, "changed.db", change), COUNT, torn, sent=change)


# Entries that are left out, and what is found then.
WITHOUT = [
    # (the first begin: the second reports another before; both notes; the break: its rest isn't there; the extend: its demand isn't)
    (5, None),
    (6, "entry 6: another reply"),
    (7, "begun: 2 differs"),
    (8, "entry 9: another reply"),
    (9, "entry 9: another reply"),
    # (the release: the rest stays reserved; the undo: the unit stays cut)
    (11, "entry 11: another reply"),
    (12, "entry 13: another reply"),
    (13, "notes: A-1 differs"),
    (17, "begun: 5 differs"),
    (18, "demands: 4 differs"),
]


@case(
    "an entry of the floor that was left out",
    "Where a begin, a break, an extend, a release, an undo or the last note is left out and those behind are numbered anew, a "
    "later message gets another reply or a row differs; an earlier "
    "note, of which nothing is left, isn't missed.",
)
def without_entry(trial):
    path = floor(trial)
    for number, torn in WITHOUT:
        audited(trial, changed(trial, path, f"{number}.db", left_out(number, COUNT)), COUNT - 1, torn, sent=f"without entry {number}")


@case(
    "messages of the floor that were changed",
    "A note, a begin, an undo or a break's rest that was changed in its message, with the reply as it was, is found: at its "
    "entry, at a later one, or in the rows.",
)
def changed_messages(trial):
    path = floor(trial)
    for number, old, new, torn in (
        (13, '"due":20261201', '"due":20261202', "notes: A-1 differs"),
        (13, '"due":20261201', '"due":20261131', "entry 13: another reply"),
        (8, '"rest":5', '"rest":6', "entry 8: another reply"),
        (8, '"rest":5', '"rest":8', "entry 8: another reply"),
        (12, '"job":2', '"job":3', "entry 12: another reply"),
        (17, '"job":5', '"job":4', "entry 17: another reply"),
        (9, '"line":4', '"line":3', "entry 9: another reply"),
        (9, '"count":2', '"count":3', "demands: 4 differs"),
    ):
        change = f"UPDATE kept SET command = replace(command, '{old}', '{new}') WHERE {of_entry(number)}"
        audited(trial, changed(trial, path, f"{number}.db", change), COUNT, torn, sent=change)
    for number in (5, 6, 9, 12):
        audited(trial, changed(trial, path, f"reply-{number}.db", other_reply(number)), COUNT, f"entry {number}: another reply")
    trial.equal(tables.select(path, "SELECT count(*) FROM journal"), [(COUNT,)])
