"""Weeks of a small workshop by chance: what is answered, what its tables hold, and whose each cell is, counted one by one from outside."""

import json

from kit import owners, tables
from kit.audits import audited
from kit.case import case
from kit.days import Replay
from kit.faults import Faults
from kit.floor import answers
from kit.owners import Owners
from kit.paper import key_of
from kit.weeks import MATERIALS, Week, questions

# The weeks, by what they are made of; and how many messages a day they have. (A whole run takes more of them.)
SEEDS, MORE, A_DAY = (1, 2, 3), range(4, 40), 40


def weeks(trial):
    return [Week(it).work(A_DAY) for it in (*SEEDS, *(MORE if trial.whole else ()))]


@case(
    "a week by chance, in memory",
    "Messages of four terminals by chance, accepted and refused, with orders that are noted and extended, jobs that are begun, "
    "broken with and without rests, and undone: each reply, and "
    "in the end each list, trace, story, step and piece is what a shop on paper reports.",
)
def in_memory(trial):
    for week in weeks(trial):
        shop = Replay(trial, {})
        # (`replay` gives no time)
        timeless = Week(week.seed).work(A_DAY, 0)
        for _, line, reply in timeless.sent:
            answers(trial, shop, line, reply)
        for line in questions(timeless.paper):
            answers(trial, shop, line, timeless.paper.reply(line))
        trial.equal(shop.end(), (0, b""))


@case(
    "a week by chance, cell by cell",
    "Over a file the same: behind each day each cell of each unit, followed down the plans of the accepted messages, is in "
    "exactly one part that is neither cut nor undone, "
    "with its owner's name, state, sides and place; totals and pieces made are the counts; and all rows are those of a shop on "
    "paper. `cutshop audit` calls it whole.",
)
def cell_by_cell(trial):
    for week in weeks(trial):
        clock, owned, name = Faults(trial, date=0), Owners(), f"{week.seed}.db"
        shop = trial.shop(name, environment=clock.environment)
        for at in sorted({it[0] for it in week.sent}):
            clock.set_date(at)
            for line, reply in [it[1:] for it in week.sent if it[0] == at]:
                answers(trial, shop, line, reply)
                # (one that came again isn't done again)
                if '"ok"' in reply and not owned_already(owned, line):
                    owned.accept(line, reply)
            shop.kill()
            owners.check(trial, tables.rows(shop.store), owned)
            for code, counts in owned.totals().items():
                ran = trial.run("yield", "--store", name, code).out.decode()
                counted = {line.split()[0]: int(line.split()[1]) for line in ran.splitlines()[1:8]}
                trial.equal(counted, counts, f"week {week.seed}, {code}")
            shop = trial.shop(name, environment=clock.environment)
        shop.kill()
        trial.equal(tables.rows(shop.store), week.paper.rows(), f"week {week.seed}")
        trial.equal(tables.rows(shop.store, times=True)["journal"], week.paper.journal.rows(True), f"week {week.seed}")
        trial.equal(tables.select(shop.store, "PRAGMA foreign_key_check"), [])
        audited(trial, name, len(week.paper.journal.entries))


def owned_already(owned, line):
    """Whether a message was accepted before, by its pair."""
    message = json.loads(line)
    pair = message["terminal"], message["number"]
    is_known = pair in owned.accepted
    owned.accepted.add(pair)
    return is_known


@case(
    "a week by chance over HTTP",
    "Behind a week by chance each question of a line and each ticket over HTTP is what a shop on paper reports, also when the "
    "shop is opened again.",
)
def over_http(trial):
    week = Week(SEEDS[0]).work(A_DAY)
    clock = Faults(trial, date=0)
    shop = trial.shop(environment=clock.environment)
    for at, line, reply in week.sent:
        clock.set_date(at)
        answers(trial, shop, line, reply)
    for _ in range(2):
        for line in questions(week.paper):
            answers(trial, shop, line, week.paper.reply(line))
        for job in week.paper.jobs:
            text = shop.get(f"/ticket/{job}").partition(b"\r\n\r\n")[2].decode()
            trial.equal(text, week.paper.ticket(job), job)
        shop.kill()
        shop = trial.shop(environment=clock.environment)


@case(
    "the weeks by chance have everything",
    "In the weeks each command of the floor is accepted, and refused for each of its reasons but full orders and spent numbers; "
    "jobs and parts come to each state, breaks have rests that are kept and "
    "rests that aren't, and undone are jobs of remnants, too.",
)
def everything(trial):
    seen, states, rests, undone = set(), set(), set(), set()
    for seed in SEEDS:
        week = Week(seed).work(A_DAY)
        for _, line, reply in week.sent:
            message, told_ = json.loads(line), json.loads(reply)
            seen.add((message["do"], told_.get("refused", 0)))
            if message["do"] == "break" and "rest" in message and "ok" in told_:
                rests.add(told_["rack"] > 0)
            if message["do"] == "undo" and "ok" in told_:
                undone.add(week.paper.is_unit(key_of(told_["part"])))
        states |= {("part", it.state) for it in week.paper.parts.values()} | {("job", it.state) for it in week.paper.jobs.values()}
    wanted = {("note", it) for it in (0, 43, 44)} | {("extend", it) for it in (0, 41)} | {("begin", it) for it in (0, 70)}
    wanted |= {("undo", it) for it in (0, 70, 73, 74)} | {("break", it) for it in (0, 70, 72)} | {(it, 0) for it in ("done", "release", "amend", "scrap", "return")}
    trial.equal(sorted(wanted - seen), [], "replies that don't come")
    parts = {"standing", "reserved", "cut", "piece", "kerf", "scrap", "returned", "undone"}
    jobs = {"waiting", "done", "broken", "released", "undone"}
    trial.equal(states, {("part", it) for it in parts} | {("job", it) for it in jobs})
    trial.equal((rests, undone, len(MATERIALS)), ({True, False}, {True, False}, 3))
