"""Requests for memory that are refused while the commands and questions of the floor are handled."""

from kit.case import case
from kit.days import FLOOR, REFUSED, Replay, day_of
from kit.floor import day, answers
from kit.memory import replayed, served, sweep, texts_refused


@case(
    "memory refused in replay on the floor",
    "Each request for memory of “a day on the floor” is refused in turn: 98 and nothing changed, and sent again its reply, or "
    "`fault memory`.",
)
def in_replay(trial):
    found = day_of(trial, FLOOR)
    sweep(trial, lambda it: replayed(trial, found, it), 11)


@case(
    "memory refused in serve on the floor",
    "The same of “a day on the floor” over a store file: the tables in the end are those of an undisturbed run.",
)
def in_serve(trial):
    found = day_of(trial, FLOOR)
    sweep(trial, lambda it: served(trial, found, it), 61)


# Questions behind the day, by line and by path; and tickets.
LINES = ['{"after":"","ask":"pieces","order":"A-1"}', '{"after":"","ask":"pieces","batch":"B-1"}', '{"after":"4/2","ask":"pieces","unit":"1/0"}']
LINES += ['{"ask":"steps","job":2}', '{"ask":"steps","job":5}', '{"after":0,"ask":"jobs"}', '{"after":"","ask":"orders"}', '{"after":0,"ask":"story","part":"2/2"}']
PATHS = ["/pieces/order/A-1", "/pieces/batch/B-1", "/pieces/unit/1/0/4/2", "/steps/2", "/ticket/2", "/ticket/5"]


@case(
    "memory refused in questions on the floor",
    "Each request for memory of questions for pieces and steps, of lists and of tickets behind “a day on the floor” is refused "
    "in turn: the whole answer, or 98, or nothing, and "
    "asked again the answer.",
)
def questions(trial):
    lines = [it for it, _ in day()]

    def filled():
        shop = Replay(trial, {})
        for line, reply in day():
            answers(trial, shop, line, reply)
        return shop

    shop = filled()
    wanted = [shop.reply(it) for it in LINES]
    trial.equal([it for it in wanted if b'"ok"' not in it], [])
    shop.end()

    def in_memory(faults):
        shop = Replay(trial, faults.environment)
        for line in lines:
            # (what is refused is sent again)
            if shop.reply(line) == REFUSED:
                shop.reply(line)
        first = faults.calls()
        for line, reply in zip(LINES, wanted):
            got = shop.reply(line)
            if got == REFUSED:
                got = shop.reply(line)
            if not got:
                break
            trial.equal(got, reply, line)
        shop.end()
        return first

    sweep(trial, in_memory, 7)

    store = trial.shop("made.db")
    for line, reply in day():
        answers(trial, store, line, reply)
    store.kill()
    texts_refused(trial, store.store, PATHS, 7)
