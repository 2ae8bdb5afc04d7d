"""Requests for memory that are refused while a whole order is planned: 98 or `fault memory`, nothing is lost, and asked again
it is answered."""

import os

from kit import tables
from kit.case import case, fault_in
from kit.days import REFUSED, Replay
from kit.faults import Faults
from kit.memory import opened, sent, sweep
from kit.whole_orders import SMALL, planned, yard_of

# So many places of a sweep are tried where it isn't whole.
PLACES = 40


def spread(trial, run):
    """A sweep over so few of the requests that it takes seconds."""
    counted = Faults(trial, "memory")
    first = run(counted) or 0
    sweep(trial, run, max((counted.calls() - first) // PLACES, 1))


@case(
    "memory refused in a whole order",
    "Each request for memory of `plan --whole`, of bars and of sheets, is refused in turn: the whole text, or nothing and "
    "`fault memory`.",
)
def whole_orders(trial):
    for problem in SMALL:
        text = planned(trial, problem, 1, "--calls", 4)[0].encode()
        words = ("plan", trial.path("order.txt"), "--whole", "--kerf", "1", "--calls", "4")

        def run(faults, words=words, text=text):
            ran = trial.run(*words, environment=faults.environment)
            output = (ran.status, ran.out, fault_in(ran.err))
            trial.equal(output in ((0, text, b""), (1, b"", b"fault memory\n")), True, f"{words}, request {faults.at}: {output}")

        spread(trial, run)


def lines_case(kind):
    @case(
        f"memory refused in plans of {kind}s, in lines",
        "Each request for memory of a question for plans is refused in turn: 98, and asked again its answer; or `fault "
        "memory`.",
    )
    def body(trial):
        yard, asked = yard_of(kind)
        undisturbed = yard.replay(trial)
        wanted = [undisturbed.reply(it) for it in asked]
        trial.holds(all(it.startswith(b'{"bound":') for it in wanted), wanted)

        def run(faults):
            shop = Replay(trial, faults.environment)
            yard.fill(trial, shop)
            first = faults.calls()
            for line, answer in zip(asked, wanted):
                got = shop.reply(line)
                if got == REFUSED:
                    got = shop.reply(line)
                if not got:
                    status, errors = shop.end()
                    trial.equal((status, fault_in(errors)), (1, b"fault memory\n"), line)
                    return first
                trial.equal(got, answer, f"{line}, request {faults.at}")
            trial.equal(shop.end()[0] in (0, 1), True, "the end")
            return first

        spread(trial, run)


def served_case(kind):
    @case(
        f"memory refused in plans of {kind}s, served",
        "The same over a store file, where a connection may also end without an answer: the tables stay as they were.",
    )
    def body(trial):
        yard, asked = yard_of(kind)
        undisturbed = yard.serve(trial, "undisturbed.db")
        wanted = [undisturbed.reply(it) for it in asked]
        undisturbed.kill()
        rows = tables.rows(undisturbed.store)

        def run(faults):
            # (a longer name would take more requests)
            shop = opened(trial, f"{faults.at:06}.db", faults)
            yard.fill(trial, shop)
            first = faults.calls()
            for line, answer in zip(asked, wanted):
                got = sent(shop.reply, line)
                if got in (b"", REFUSED) and shop.has_ended(0.05):
                    status, _, errors = shop.end()
                    trial.equal((status, fault_in(errors)), (1, b"fault memory\n"), line)
                    shop = trial.shop(f"{faults.at:06}.db")
                got = shop.reply(line) if got in (b"", REFUSED) else got
                trial.equal(got, answer, f"{line}, request {faults.at}")
            shop.kill()
            trial.equal(tables.rows(shop.store), rows, f"request {faults.at}")
            os.remove(shop.store)
            return first

        spread(trial, run)


for KIND in ("bar", "sheet"):
    lines_case(KIND)
    served_case(KIND)
