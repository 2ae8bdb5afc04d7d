"""Tables of notes, begun jobs and kept halts, and states 7 and 4, as SQLite's own shell reads them; files of each version that have them or not."""

import json
import shutil
import subprocess

from kit import tables
from kit.case import Skipped, case, fault_in
from kit.earlier import made
from kit.faults import Faults
from kit.floor import GLASS, day, line, message, numbered, received, refused, answers
from kit.paper import Paper
from kit.questions import compact
from kit.weeks import questions

PLACE = ("GLASS", "B-1", 1, 0)
TREE = "x4 y3 p1 p2 y3 p3 r"
# The rows behind the day on the floor, but for those of messages and entries.
ROWS = {
    "meta": [("act", 5), ("demand", 4), ("version", 3)],
    "materials": [("GLASS", 1, 1, 5, 4)],
    "parts": [
        (1, 0, *PLACE, 0, 0, 10, 8, 2, 4),
        # Undone: what job 2 had left; of its lost cut 4 by 3 under node 1, and a rest of 4 by 5 under node 2.
        (2, 0, *PLACE, 4, 0, 1, 8, 7, 2),
        (2, 1, *PLACE, 0, 0, 4, 3, 7, 2),
        (2, 2, *PLACE, 0, 3, 4, 5, 7, 2),
        (2, 4, *PLACE, 5, 3, 5, 1, 7, 2),
        (2, 5, *PLACE, 5, 0, 5, 3, 7, 2),
        (2, 6, *PLACE, 5, 4, 5, 4, 7, 2),
        # What job 4 made of the same sheet.
        (4, 0, *PLACE, 4, 0, 1, 8, 4, 0),
        (4, 1, *PLACE, 0, 3, 4, 1, 4, 0),
        (4, 2, *PLACE, 0, 0, 4, 3, 3, 1),
        (4, 3, *PLACE, 0, 4, 4, 4, 3, 2),
        (4, 4, *PLACE, 5, 3, 5, 1, 4, 0),
        (4, 5, *PLACE, 5, 0, 5, 3, 3, 3),
        (4, 6, *PLACE, 5, 4, 5, 4, 2, 5),
        # Of its rest what job 5 lost, and a rest of 4 by 4 that is too short to be kept.
        (5, 0, *PLACE, 5, 4, 1, 4, 5, 0),
        (5, 1, *PLACE, 6, 4, 4, 4, 5, 0),
    ],
    "jobs": [(2, 1, 0, TREE, 4), (3, 2, 2, "y4 p4", 3), (4, 1, 0, TREE, 1), (5, 4, 6, "x4 p4", 2)],
    "orders": [("A-1",)],
    "demands": [
        (1, "A-1", 1, "GLASS", 4, 3, 0, 1, 1, 0, 1),
        (2, "A-1", 2, "GLASS", 4, 4, 0, 1, 1, 0, 1),
        (3, "A-1", 3, "GLASS", 5, 3, 0, 1, 1, 0, 1),
        (4, "A-1", 4, "GLASS", 4, 4, 0, 1, 2, 0, 0),
    ],
    "imports": [],
    "totals": [],
    # (43 of pieces, 17 of kerf, 20 of scrap: an undone part counts nowhere)
    "totals2": [("GLASS", 80, 0, 0, 43, 17, 20, 0)],
    "uses": [(2, "A-1"), (3, "A-1"), (4, "A-1"), (5, "A-1")],
    # The last note; who begun a job last, also of one that is undone; how a job broke off, also of one that is undone.
    "notes": [("A-1", 20261201, "Müller")],
    "begun": [(2, 2), (5, 3)],
    "halts": [(2, '{"cuts":[0,2],"lost":1,"rest":5}'), (5, '{"cuts":0,"lost":true,"rest":4}')],
}


def filled(trial, name="shop.db", exchanges=None):
    """The path of a store in which these messages were handled, by a clock that stands at 0."""
    shop = trial.shop(name, environment=Faults(trial, date=0).environment)
    for sent, reply in day() if exchanges is None else exchanges:
        answers(trial, shop, sent, reply)
    shop.kill()
    return shop.store


@case(
    "tables of the floor row by row",
    "After the day on the floor the tables have the columns and references of the formats, and exactly the rows of the books: "
    "the last note, "
    "who began each job last, the kept halts with their rests, undone parts "
    "in state 7 of their job, and the undone job in state 4.",
)
def row_by_row(trial):
    path = filled(trial)
    tables.check(trial, path, ROWS)
    for name, column, to in (("notes", "ord", "orders"), ("begun", "job", "jobs"), ("halts", "job", "jobs")):
        keys = [(it[2], it[3]) for it in tables.select(path, f"PRAGMA foreign_key_list({name})")]
        trial.equal(keys, [(to, column)], f"what {name} references")
    paper = Paper()
    for sent, reply in day():
        trial.equal(paper.reply(sent), reply, sent)
    trial.equal(tables.rows(path), paper.rows())
    trial.equal(tables.select(path, "PRAGMA integrity_check"), [("ok",)])
    trial.equal(tables.select(path, "PRAGMA foreign_key_check"), [])


# What SQLite's shell reports of a copy, with its usual bars between columns.
ASKED = [
    ("SELECT * FROM notes", "A-1|20261201|Müller"),
    ("SELECT * FROM begun ORDER BY job", "2|2\n5|3"),
    ("SELECT job, body FROM halts ORDER BY job", '2|{"cuts":[0,2],"lost":1,"rest":5}\n5|{"cuts":0,"lost":true,"rest":4}'),
    ("SELECT job, state FROM jobs ORDER BY job", "2|4\n3|3\n4|1\n5|2"),
    ("SELECT node, detail FROM parts WHERE state = 7 ORDER BY node", "0|2\n1|2\n2|2\n4|2\n5|2\n6|2"),
    ("SELECT sum(w * h) FROM parts WHERE state NOT IN (2, 7)", "80"),
    ("SELECT entry, word, job, ord FROM journal WHERE word IN ('note', 'extend', 'begin', 'undo') ORDER BY entry",
     "5|note|0|A-1\n6|begin|2|\n7|begin|2|\n9|extend|0|A-1\n12|undo|2|\n13|note|0|A-1\n17|begin|5|"),
    ("SELECT json_extract(body, '$.rest') FROM halts ORDER BY job", "5\n4"),
]


@case(
    "SQLite's shell reads the tables of the floor",
    "The shell `sqlite3` reports of a copy, while it is only read, the notes, who began which job, how jobs broke off, undone "
    "jobs and parts, and the entries of the floor's words.",
)
def by_shell(trial):
    if not shutil.which("sqlite3"):
        raise Skipped("there is no sqlite3 here")
    copy = tables.copy(filled(trial), trial.path("copy.db"))
    for asked, wanted in ASKED:
        ran = subprocess.run(["sqlite3", copy, asked], capture_output=True, encoding="utf-8", timeout=60)
        trial.equal((ran.returncode, ran.stdout, ran.stderr), (0, f"{wanted}\n", ""), asked)


@case(
    "a store of the floor by plain SQL",
    "A file with the rows of the day on the floor that plain SQL made is served as one that the program made: each message gets "
    "its kept reply, each question its answer, and the day goes on.",
)
def by_plain_sql(trial):
    paper = Paper()
    for sent, reply in day():
        trial.equal(paper.reply(sent), reply, sent)
    path = tables.make(trial.path("shop.db"), paper.rows())
    shop = trial.shop(environment=Faults(trial, date=0).environment)
    for sent, reply in day():
        answers(trial, shop, sent, reply)
    for asked in questions(paper):
        answers(trial, shop, asked, paper.reply(asked))
    more = [{"do": "undo", "job": 4}, {"do": "undo", "job": 5}, {"do": "undo", "job": 4}, {"do": "begin", "job": 2}, {"do": "note", "order": "A-1", "due": 0, "text": ""}]
    more += [{"do": "reserve", "part": "1/0", "tree": TREE}, {"do": "begin", "job": 6}, {"do": "done", "job": 6}]
    for at, it in enumerate(more):
        sent = message(100 + at, **it)
        answers(trial, shop, sent, paper.reply(sent))
    shop.kill()
    trial.equal(tables.rows(path), paper.rows())


@case(
    "a shop of the floor that is opened again",
    "Behind each message of the day on the floor the shop is stopped and opened again: each list, trace, story, step and piece "
    "is as before.",
)
def opened_again(trial):
    paper = Paper()
    for sent, reply in day():
        shop = trial.shop(environment=Faults(trial, date=0).environment)
        answers(trial, shop, sent, reply)
        trial.equal(paper.reply(sent), reply, sent)
        shop.kill()
        shop = trial.shop(environment=Faults(trial, date=0).environment)
        for asked in questions(paper):
            answers(trial, shop, asked, paper.reply(asked))
        shop.kill()


@case(
    "a note that says nothing",
    "An order of which nothing was said has no row in `notes`; one whose day and text were taken away has one of 0 and an empty text.",
)
def notes(trial):
    lines = [GLASS, *({"do": "order", "order": it, "lines": [line(1, 4, 3, 1)]} for it in ("A-1", "A-2", "A-3"))]
    lines += [{"do": "note", "order": "A-1", "due": 20261203, "text": "x"}, {"do": "note", "order": "A-1", "due": 0, "text": ""}]
    lines += [{"do": "note", "order": "A-3", "due": 0, "text": "a\u00a0b \"c\" \U0001f600"}]
    paper = Paper()
    path = filled(trial, exchanges=[(it, paper.reply(it)) for it in numbered(lines)])
    trial.equal(tables.select(path, "SELECT * FROM notes ORDER BY ord"), [("A-1", 0, ""), ("A-3", 0, "a\u00a0b \"c\" \U0001f600")])


# ---- earlier versions

# A part of state 7 or a job of state 4, with sums that are those of the other parts.
UNDONE = [
    "UPDATE parts SET state = 7, detail = 3 WHERE act = 3 AND node = 2; UPDATE {} SET rack = rack - 20",
    "UPDATE parts SET state = 7, detail = 2 WHERE act = 2 AND node = 0; UPDATE {} SET kerf = kerf - 8",
    "UPDATE parts SET state = 7, detail = 2 WHERE act = 2 AND node = 2; UPDATE {} SET pieces = pieces - 12",
    "UPDATE jobs SET state = 4 WHERE job = 2",
    "UPDATE jobs SET state = 4 WHERE job = 3",
    "UPDATE jobs SET state = 4",
]


@case(
    "undone parts and jobs in an earlier version",
    "A part of state 7 or a job of state 4 in a file of version 1 or 2, though its sums are those of its other parts, is `fault "
    "version`, and the file stays as it was; in one of version 3 it isn't refused.",
)
def no_earlier(trial):
    for version, sums in ((1, "totals"), (2, "totals2"), (3, "totals2")):
        for number, change in enumerate(UNDONE):
            path = made(trial, f"{version}-{number}.db", version, change.format(sums))
            before = tables.dump(path)
            ran = trial.run("ticket", "--store", path, "2147483647")
            if version == 3:
                trial.equal((ran.status, fault_in(ran.err)), (1, b"refused 70 NoJob\n"), f"version 3: {change}")
                continue
            trial.ended(ran, 1, err="fault version\n", sent=f"version {version}: {change}")
            trial.equal(tables.dump(path), before, change)


@case(
    "states that no version has",
    "A part of state 8 or -1 and a job of state 5 or -1 are `fault version` in each version; the file stays as it was.",
)
def no_state(trial):
    changes = [f"UPDATE parts SET state = {it} WHERE act = 2 AND node = 0" for it in (8, -1)]
    changes += [f"UPDATE jobs SET state = {it} WHERE job = 3" for it in (5, -1)]
    for version in (1, 2, 3):
        for number, change in enumerate(changes):
            path = made(trial, f"{version}-{number}.db", version, change)
            before = tables.dump(path)
            trial.ended(trial.run("ticket", "--store", path, "2147483647"), 1, err="fault version\n", sent=f"version {version}: {change}")
            trial.equal(tables.dump(path), before, change)


# “Remnant cut again” with its last job broken off in its only cut, before halts were kept: 40 cells are lost.
BROKEN = """
DELETE FROM parts WHERE act = 3;
INSERT INTO parts VALUES (3, 0, 'GLASS', 'B-1', 1, 0, 5, 0, 5, 8, 5, 0);
UPDATE jobs SET state = 2 WHERE job = 3;
UPDATE demands SET made = 0 WHERE number = 3;
UPDATE {} SET rack = 0, pieces = 28, kerf = 12, scrap = 40;
UPDATE kept SET command = '{{"cuts":0,"do":"break","job":3,"lost":true,"number":7,"terminal":1}}', reply = '{{"job":3,"kerf":0,"ok":"break","pieces":0,"rack":0,"scrap":40}}'
WHERE number = 7;
"""


@case(
    "undo of jobs of an earlier version",
    "A job that was done in version 1 or 2 is undone as others are; one that was broken then has no kept halt, and is refused "
    "73. Its ticket reports how many pieces it made, and its steps what became of them.",
)
def undone_earlier(trial):
    for version, sums in ((1, "totals"), (2, "totals2")):
        made(trial, f"done-{version}.db", version)
        shop = trial.shop(f"done-{version}.db")
        answers(trial, shop, message(8, do="undo", job=2), refused(74, "PartsMoved"))
        answers(trial, shop, message(8, do="undo", job=3), '{"job":3,"ok":"undo","part":"2/4"}')
        answers(trial, shop, message(9, do="undo", job=2), '{"job":2,"ok":"undo","part":"1/0"}')
        totals = {"kerf": 0, "material": "GLASS", "ok": "totals", "pieces": 0, "rack": 0, "received": 80, "returned": 0, "scrap": 0, "stock": 80}
        answers(trial, shop, {"ask": "totals", "material": "GLASS"}, totals)
        answers(trial, shop, {"ask": "demand", "demand": 3}, {"demand": 3, "line": 3, "made": 0, "material": "GLASS", "ok": "demand", "order": "A-1", "reserved": 0, "wanted": 1})
        shop.kill()
        found = tables.rows(shop.store)
        states = {(it[0], it[1]): it[10:] for it in found["parts"]}
        trial.equal(states, {key: (0, 0) if key == (1, 0) else (7, key[0]) for key in states})
        trial.equal(([it[4] for it in found["jobs"]], found["halts"], [it[4] for it in found["journal"]]), ([4, 4], [], ["undo", "undo"]))
        made(trial, f"broken-{version}.db", version, BROKEN.format(sums))
        shop = trial.shop(f"broken-{version}.db")
        answers(trial, shop, message(8, do="undo", job=3), refused(73, "NotOver"))
        answers(trial, shop, message(8, do="undo", job=2), refused(74, "PartsMoved"))
        ticket = shop.get("/ticket/3").partition(b"\r\n\r\n")[2].decode()
        trial.equal(ticket.split("\n")[0], "job 3 broken")
        trial.equal(ticket.split("\n")[-3:], ["made 0 pieces", "cuts 1 pieces 1", ""])
        steps = json.loads(shop.reply('{"ask":"steps","job":3}'))
        trial.equal((steps["state"], [(it["part"], it["state"]) for it in steps["steps"]]), ("broken", [("3/0", "scrap"), ("", ""), ("", "")]))
        shop.kill()
        trial.equal(tables.rows(shop.store)["halts"], [])


@case(
    "an earlier version without anything of the floor",
    "A file of version 1 or 2 is brought to version 3 with empty tables of notes, begun jobs and halts: its orders have no day "
    "and no text, its jobs were begun by nobody.",
)
def empty_tables(trial):
    waiting = "UPDATE parts SET state = 1, detail = 3 WHERE act = 2 AND node = 4; DELETE FROM parts WHERE act = 3"
    waiting += "; UPDATE jobs SET state = 0 WHERE job = 3; UPDATE demands SET made = 0, reserved = 1 WHERE number = 3; DELETE FROM kept WHERE number = 7"
    for version, sums in ((1, "totals"), (2, "totals2")):
        path = made(trial, f"{version}.db", version, f"{waiting}; UPDATE {sums} SET rack = 40, pieces = 28, kerf = 12")
        shop = trial.shop(f"{version}.db")
        order = {"due": 0, "lines": 3, "made": 2, "order": "A-1", "reserved": 1, "text": "", "wanted": 3}
        answers(trial, shop, {"after": "", "ask": "orders"}, {"more": False, "ok": "orders", "orders": [order]})
        job = {"begun": 0, "cuts": 1, "due": 0, "h": 8, "job": 3, "material": "GLASS", "part": "2/4", "w": 5}
        answers(trial, shop, {"after": 0, "ask": "jobs"}, {"jobs": [job], "more": False, "ok": "jobs"})
        shop.kill()
        found = tables.rows(path)
        trial.equal([found[it] for it in ("notes", "begun", "halts", "journal", "uses")], [[]] * 5)
        # (what is said and done then is kept)
        shop = trial.shop(f"{version}.db")
        answers(trial, shop, message(8, do="note", order="A-1", due=20261203, text="x"), '{"ok":"note","order":"A-1"}')
        answers(trial, shop, message(1, 2, do="begin", job=3), '{"before":0,"job":3,"ok":"begin"}')
        answers(trial, shop, message(9, cuts=0, do="break", job=3, lost=True, rest=4), '{"job":3,"kerf":0,"ok":"break","pieces":0,"rack":20,"scrap":20}')
        answers(trial, shop, message(10, do="undo", job=3), '{"job":3,"ok":"undo","part":"2/4"}')
        shop.kill()
        found = tables.rows(path)
        wanted = [[("A-1", 20261203, "x")], [(3, 2)], [(3, '{"cuts":0,"lost":true,"rest":4}')]]
        trial.equal([found[it] for it in ("notes", "begun", "halts")], wanted)


# ---- rows that no history gives


@case(
    "halts and parts that no history gives",
    "A broken job whose kept halt is gone, or isn't one of its plan, is refused 73; one whose part another job cut, or whose "
    "parts aren't those that it left, is refused 74; nothing changes.",
)
def no_history(trial):
    lines = [GLASS, received(2), {"do": "order", "order": "A-1", "lines": [line(1, 4, 3, 9), line(2, 4, 4, 9), line(3, 5, 3, 9)]}]
    lines += [{"do": "reserve", "part": "1/0", "tree": TREE}, {"do": "break", "job": 2, "cuts": [0, 2], "lost": 1, "rest": 5}]
    lines += [{"do": "reserve", "part": "1/1", "tree": TREE}, {"do": "done", "job": 3}]
    paper = Paper()
    path = filled(trial, "first.db", [(it, paper.reply(it)) for it in numbered(lines)])
    body = "UPDATE halts SET body = '{}' WHERE job = 2"
    changes = [
        ("DELETE FROM halts", 73, "NotOver"),
        (body.format('{"cuts":3,"lost":false}'), 73, "NotOver"),
        (body.format('{"cuts":9,"lost":true}'), 73, "NotOver"),
        (body.format('{"cuts":[0,2],"lost":1,"rest":8}'), 73, "NotOver"),
        (body.format('{"cuts":[0,2],"lost":1,"rest":0}'), 73, "NotOver"),
        (body.format('{"cuts":[0,2],"lost":false,"rest":5}'), 73, "NotOver"),
        (body.format('{"cuts":[1],"lost":false}'), 73, "NotOver"),
        # (halts of the plan that would have left other parts)
        (body.format('{"cuts":[0,2],"lost":1,"rest":6}'), 74, "PartsMoved"),
        (body.format('{"cuts":[0,2],"lost":1}'), 74, "PartsMoved"),
        (body.format('{"cuts":2,"lost":false}'), 74, "PartsMoved"),
        # (its part, cut by the other job)
        ("UPDATE parts SET detail = 3 WHERE act = 1 AND node = 0", 74, "PartsMoved"),
        # (a part that it left, at another place, of other sides that count as much, of another node, or gone)
        ("UPDATE parts SET x = 1 WHERE act = 2 AND node = 2", 74, "PartsMoved"),
        ("UPDATE parts SET w = 5, h = 4 WHERE act = 2 AND node = 2", 74, "PartsMoved"),
        ("UPDATE parts SET node = 3 WHERE act = 2 AND node = 2", 74, "PartsMoved"),
        ("DELETE FROM parts WHERE act = 2 AND node = 2; UPDATE totals2 SET rack = rack - 20", 74, "PartsMoved"),
        ("INSERT INTO parts VALUES (2, 3, 'GLASS', 'B-1', 1, 0, 0, 0, 1, 1, 5, 0); UPDATE totals2 SET scrap = scrap + 1", 74, "PartsMoved"),
    ]
    for number, (change, refusal, name) in enumerate(changes):
        copy = tables.copy(path, trial.path(f"{number}.db"))
        tables.change(copy, change)
        before = tables.rows(copy, times=True)
        shop = trial.shop(f"{number}.db")
        trial.holds(shop.is_open, f"{change}: {getattr(shop, 'errors', b'')}")
        answers(trial, shop, message(50, do="undo", job=2), compact({"name": name, "refused": refusal}))
        shop.kill()
        trial.equal(tables.rows(copy, times=True), before, change)
