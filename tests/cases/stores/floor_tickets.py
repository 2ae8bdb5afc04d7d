"""Tickets of jobs of each state, and yield reports behind them, over HTTP and by the commands."""

from kit.case import case
from kit.faults import Faults
from kit.floor import day, answers
from kit.paper import JOB_STATES, Paper
from kit.weeks import Week

# The sums behind the day on the floor.
REPORT = ["received               80", "stock                   0", "rack                    0", "pieces                 43"]
REPORT += ["kerf                   17", "scrap                  20", "returned                0", "yield 53.7 %"]


@case(
    "tickets of each state by the command",
    "`cutshop ticket` prints of waiting, begun, done, broken, released and undone jobs what the shop reports over HTTP, with "
    "`--read-only` and without: those of broken and undone ones with how many "
    "pieces were made.",
)
def of_each_state(trial):
    paper, states = Paper(), set()
    for sent, reply in day():
        trial.equal(paper.reply(sent), reply, sent)
    week = Week(1).work(40)
    for name, exchanges, of in (("day.db", day(), paper), ("week.db", [it[1:] for it in week.sent], week.paper)):
        shop = trial.shop(name, environment=Faults(trial, date=0).environment)
        for sent, reply in exchanges:
            answers(trial, shop, sent, reply)
        # (of a week one job of each state will do)
        chosen = {it.state: number for number, it in of.jobs.items()}
        chosen |= {f"{it.state}, begun": number for number, it in of.jobs.items() if it.begun}
        for number in chosen.values():
            trial.equal(shop.get(f"/ticket/{number}").partition(b"\r\n\r\n")[2].decode(), of.ticket(number), f"{name}, job {number}")
        shop.kill()
        for number in chosen.values():
            for words in ((), ("--read-only",)):
                trial.ended(trial.run("ticket", "--store", name, *words, str(number)), 0, of.ticket(number), sent=f"{name}, job {number} {words}")
            states.add(of.jobs[number].state)
    trial.equal(states, set(JOB_STATES))


@case(
    "reports of the floor by the command",
    "`cutshop yield` prints behind a day and a week with undone jobs and kept rests of lost cuts what the shop reports over HTTP: "
    "undone parts count nowhere, and no such part is reported.",
)
def reports(trial):
    paper = Paper()
    for sent, reply in day():
        trial.equal(paper.reply(sent), reply, sent)
    trial.equal(paper.report("GLASS").split("\n")[1:9], REPORT, "the case's own report")
    week = Week(2).work(40)
    for name, exchanges, of in (("day.db", day(), paper), ("week.db", [it[1:] for it in week.sent], week.paper)):
        shop = trial.shop(name)
        for sent, reply in exchanges:
            answers(trial, shop, sent, reply)
        for code in of.materials:
            trial.equal(shop.get(f"/yield/{code}").partition(b"\r\n\r\n")[2].decode(), of.report(code), f"{name}, {code}")
        shop.kill()
        for code in of.materials:
            for words in ((), ("--read-only",)):
                trial.ended(trial.run("yield", "--store", name, *words, code), 0, of.report(code), sent=f"{name}, {code} {words}")
