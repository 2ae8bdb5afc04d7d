"""Entries of the commands of the floor, and what each is about."""

import json

from kit import tables
from kit.audits import printed
from kit.case import case
from kit.days import Replay
from kit.faults import Faults
from kit.floor import GLASS, day, line, message, numbered, over_each, received, answers
from kit.journals import Journal, journal_of
from kit.paper import Paper
from kit.questions import compact
from kit.weeks import Week

# Of each subject of the day on the floor the numbers of the entries about it.
ABOUT = [
    ({"order": "A-1"}, tuple(range(3, 19))),
    ({"job": 2}, (4, 6, 7, 8, 12)),
    ({"job": 3}, (10, 11)),
    ({"job": 4}, (14, 15)),
    ({"job": 5}, (16, 17, 18)),
    ({"part": "1/0"}, (2, 4, 6, 7, 8, 12, 14, 15)),
    ({"part": "2/0"}, (8, 12)),
    ({"part": "2/1"}, (8, 12)),
    ({"part": "2/2"}, (8, 10, 11, 12)),
    ({"part": "2/6"}, (8, 12)),
    ({"part": "4/2"}, (15,)),
    ({"part": "4/6"}, (15, 16, 17, 18)),
    ({"part": "5/0"}, (18,)),
    ({"part": "5/1"}, (18,)),
]
# Nodes behind a lost cut, a released job's, and numbers beyond the last have no story.
NOT_THERE = [({"part": it}, (50, "NoPart")) for it in ("2/3", "3/0", "3/1", "4/7", "5/2", "6/0")]
NOT_THERE += [({"job": 1}, (70, "NoJob")), ({"job": 6}, (70, "NoJob")), ({"order": "A-2"}, (43, "NoOrder"))]
# The words and columns of their entries: word, act, job, order, part.
ROWS = [("material", 0, 0, "", 0, 0), ("receive", 1, 0, "", 0, 0), ("order", 0, 0, "A-1", 0, 0), ("reserve", 2, 2, "", 1, 0)]
ROWS += [("note", 0, 0, "A-1", 0, 0), ("begin", 0, 2, "", 0, 0), ("begin", 0, 2, "", 0, 0), ("break", 0, 2, "", 0, 0)]
ROWS += [("extend", 0, 0, "A-1", 0, 0), ("reserve", 3, 3, "", 2, 2), ("release", 0, 3, "", 0, 0), ("undo", 0, 2, "", 0, 0)]
ROWS += [("note", 0, 0, "A-1", 0, 0), ("reserve", 4, 4, "", 1, 0), ("done", 0, 4, "", 0, 0), ("reserve", 5, 5, "", 4, 6)]
ROWS += [("begin", 0, 5, "", 0, 0), ("break", 0, 5, "", 0, 0)]


def story(after=0, **about):
    return compact({"after": after, "ask": "story", **about})


def answer_of(numbers, word="story"):
    """What `story` or `history` reports of these entries of the day, at 0."""
    found = [{"at": 0, "entry": it, "message": json.loads(day()[it - 1][0]), "reply": json.loads(day()[it - 1][1])} for it in numbers]
    return {"entries": found, "more": False, "ok": word}


@case(
    "what an entry of the floor is about",
    "Of a day on the floor the story of each order, job and part has exactly the messages about it, behind any number: a note "
    "and an extend are about their order, "
    "a begin and an undo about their job, its orders and its part, and an undo about the parts that the job made, too.",
)
def subjects(trial):
    def check(shop):
        answers(trial, shop, '{"ask":"shop"}', {"began": 0, "entries": 18, "last": 0, "ok": "shop"})
        answers(trial, shop, {"after": 0, "ask": "history"}, answer_of(range(1, 19), "history"))
        for about, numbers in ABOUT:
            for after in (0, numbers[0] - 1, numbers[0], numbers[-1] - 1, numbers[-1]):
                answers(trial, shop, story(after, **about), answer_of([it for it in numbers if it > after]))
        for about, (number, name) in NOT_THERE:
            answers(trial, shop, story(**about), {"name": name, "refused": number})

    path = over_each(trial, day(), check)
    # (the kit reckons the same entries, by rules of its own, for other cases)
    journal = journal_of(day())
    trial.equal([(about, tuple(it.number for it in journal.about(**about))) for about, _ in ABOUT], ABOUT)
    found = tables.rows(path)
    trial.equal([it[4:] for it in found["journal"]], ROWS)
    trial.equal(found["journal"], journal.rows())
    trial.equal(found["uses"], [(it, "A-1") for it in (2, 3, 4, 5)])
    trial.equal(printed(trial, "shop.db"), journal.lines())


@case(
    "orders of jobs on the floor",
    "A note and an extend are about their own order alone; a begin and an undo of a job about each order that has a piece in "
    "its plan, one that was "
    "extended among them, and about no other one.",
)
def orders(trial):
    lines = [{**GLASS, "kerf": 0}, received(2), *({"do": "order", "order": f"A-{it}", "lines": [line(1, 2, 8, 9)]} for it in (1, 2, 3))]
    lines += [{"do": "extend", "order": "A-3", "lines": [line(2, 3, 8, 9)]}, {"do": "note", "order": "A-2", "due": 20261203, "text": ""}]
    lines += [{"do": "reserve", "part": "1/0", "tree": "x2 p1 x2 p2 r"}, {"do": "reserve", "part": "1/1", "tree": "x2 p1 x3 p4 r"}]
    lines += [{"do": "begin", "job": 2}, {"do": "begin", "job": 3}, {"do": "done", "job": 3}, {"do": "undo", "job": 3}, {"do": "break", "job": 2, "cuts": 1, "lost": True, "rest": 5}]
    lines += [{"do": "undo", "job": 2}, {"do": "amend", "demand": 4, "wanted": 1}]
    paper, sent = Paper(), numbered(lines)
    wanted = {"A-1": [3, 8, 9, 10, 11, 12, 13, 14, 15], "A-2": [4, 7, 8, 10, 14, 15], "A-3": [5, 6, 9, 11, 12, 13, 16]}

    def check(shop):
        for order, numbers in wanted.items():
            found = json.loads(shop.reply(story(order=order)))["entries"]
            trial.equal([it["entry"] for it in found], numbers, order)

    path = over_each(trial, [(it, paper.reply(it)) for it in sent], check)
    trial.equal(tables.rows(path)["uses"], [(2, "A-1"), (2, "A-2"), (3, "A-1"), (3, "A-3")])


@case(
    "what makes no entry on the floor",
    "A note, an extend, a begin, an undo and a break with a rest that are refused, or come again, make no entry; nor do "
    "questions for pieces and steps.",
)
def no_entry(trial):
    # (as text behind one another, so that the terminal's last number is theirs)
    wrong = [{"do": "note", "order": "A-9", "due": 0, "text": ""}, {"do": "note", "order": "A-1", "due": 1, "text": ""}]
    wrong += [{"do": "extend", "order": "A-9", "lines": []}, {"do": "extend", "order": "A-1", "lines": [line(4, 1, 1, 1)]}]
    wrong += [{"do": "begin", "job": 4}, {"do": "begin", "job": 9}, {"do": "undo", "job": 9}, {"do": "undo", "job": 2}, {"do": "undo", "job": 3}]
    wrong += [{"do": "break", "job": 5, "cuts": 0, "lost": True, "rest": 4}, {"do": "break", "job": 9, "cuts": 0, "lost": True, "rest": 4}]
    questions = [{"after": "", "ask": "pieces", "order": "A-1"}, {"after": "", "ask": "pieces", "unit": "2/1"}, {"ask": "steps", "job": 2}]

    def check(shop):
        before = [shop.reply(it) for it in ('{"ask":"shop"}', '{"after":0,"ask":"history"}')]
        for it in [*numbered(wrong, 9), *(it for it, _ in day()), *map(compact, questions)]:
            shop.reply(it)
            trial.equal([shop.reply(ask) for ask in ('{"ask":"shop"}', '{"after":0,"ask":"history"}')], before, it)
        for it in numbered(wrong, 9):
            trial.holds(b'"refused"' in shop.reply(it), it)

    over_each(trial, day(), check)


@case(
    "texts of entries on the floor",
    "An entry has its message as its canonical text has it: a note's text with its letters, a break with `rest` only where one "
    "was reported, and keys in their order.",
)
def texts(trial):
    sent = [message(number, **it) for number, it in enumerate([GLASS, received(3), {"do": "order", "order": "A-1", "lines": [line(1, 4, 8, 9)]}], 1)]
    sent.append('{"text":"\\u00fc \\"a\\" \\\\ \\ud83d\\ude00","due":20261203,"order":"A-1","do":"note","terminal":1,"number":4}')
    sent += [message(5 + it, do="reserve", part=f"1/{it}", tree="x4 p1 r") for it in range(3)]
    sent.append(' { "rest" : 4, "lost" : true , "do" : "break" , "cuts" : 0 , "job" : 2 , "terminal" : 1 , "number" : 8 } ')
    sent.append('{"rest":4,"lost":0,"do":"break","cuts":[],"job":3,"terminal":1,"number":9}')
    sent.append('{"lost":0,"do":"break","cuts":[],"job":4,"terminal":1,"number":10}')
    wanted = [
        '{"do":"note","due":20261203,"number":4,"order":"A-1","terminal":1,"text":"ü \\"a\\" \\\\ 😀"}',
        '{"cuts":0,"do":"break","job":2,"lost":true,"number":8,"rest":4,"terminal":1}',
        '{"cuts":[],"do":"break","job":3,"lost":0,"number":9,"rest":4,"terminal":1}',
        '{"cuts":[],"do":"break","job":4,"lost":0,"number":10,"terminal":1}',
    ]
    shop = Replay(trial, {})
    replies = [shop.reply(it).decode() for it in sent]
    trial.equal([it for it in replies if '"ok"' not in it], [])
    journal = Journal()
    for it, reply in zip(sent, replies):
        journal.accept(it, reply)
    trial.equal([it.command for it in journal.entries if it.number in (4, 8, 9, 10)], wanted, "the case's own texts")
    answers(trial, shop, '{"after":0,"ask":"history"}', journal.history())
    trial.equal(shop.end(), (0, b""))
    served = trial.shop(environment=Faults(trial, date=0).environment)
    trial.equal([served.reply(it).decode() for it in sent], replies)
    served.kill()
    trial.equal([it[2] for it in tables.rows(served.store)["kept"] if it[1] in (4, 8, 9, 10)], wanted)
    halts = [(2, '{"cuts":0,"lost":true,"rest":4}'), (3, '{"cuts":[],"lost":0,"rest":4}'), (4, '{"cuts":[],"lost":0}')]
    trial.equal(tables.rows(served.store)["halts"], halts)


@case(
    "times decide nothing on the floor",
    "Under a clock that stands at 0, one that goes and one that is set back a week of messages by chance gets the same replies, "
    "and all rows but for times are equal.",
)
def times_decide_nothing(trial):
    week, found = Week(11).work(12), []
    for name, step in (("stands", 0), ("goes", 997), ("back", -997)):
        clock = Faults(trial, date=1000000 if step < 0 else 0)
        shop = trial.shop(f"{name}.db", environment=clock.environment)
        for at, (_, it, reply) in enumerate(week.sent):
            clock.set_date(max(0, (1000000 if step < 0 else 0) + at * step))
            answers(trial, shop, it, reply)
        shop.kill()
        found.append(tables.rows(shop.store))
    trial.equal(found[1:], found[:1] * 2)
    trial.equal(found[0], week.paper.rows())
