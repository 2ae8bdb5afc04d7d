"""Requests for memory that are refused, one after the other."""

import os
from concurrent.futures import ThreadPoolExecutor

from kit import tables
from kit.case import Skipped, fault_in
from kit.days import REFUSED, Replay, questions_of
from kit.faults import Faults
from kit.shop import answer


def sweep(trial, run, stride):
    """Runs with no request refused, then with each in turn, or with each of a stride, two at a time. A run may report how many
    requests come before the first that is refused."""
    whole = Faults(trial, "memory", date=0)
    first = run(whole) or 0
    count = whole.calls() - first
    if not count and trial.is_watched():
        raise Skipped("the program was built without proofs, and its requests for memory can't be refused")
    trial.holds(count > 0, "no request for memory was seen")

    def disturbed(place):
        faults = Faults(trial, "memory", at=first + place + 1, date=0)
        run(faults)
        faults.end()

    with ThreadPoolExecutor(2) as pool:
        list(pool.map(disturbed, trial.places(count, stride)))


def sent(ask, what):
    """What is answered, or nothing where the connection ended without an answer."""
    try:
        return ask(what)
    except OSError:
        return b""


def opened(trial, store, faults):
    """A shop with a request that is refused, or one that nothing disturbs where its start was refused."""
    shop = trial.shop(store, environment=faults.environment)
    if shop.is_open:
        return shop
    trial.equal((shop.status, fault_in(shop.errors)), (1, b"fault memory\n"), f"the start, request {faults.at}")
    shop.kill()
    return trial.shop(store)


def is_as_before(trial, shop, day, number):
    """Behind a refusal of a line the books and the kept replies are as before it."""
    trial.equal(questions_of(shop), day.states[number], f"after 98 to {day.lines[number].decode()}")
    for line, reply in day.accepted(number)[-1:]:
        trial.equal(shop.reply(line), reply, f"{line.decode()} after 98 to {day.lines[number].decode()}")


def replayed(trial, day, faults):
    """Sends a day's lines to `replay`. One that is refused 98 changes nothing, and gets its reply when it is sent again; where
    the program ends it reports `fault memory`. In the end all that was accepted has its kept reply."""
    shop = Replay(trial, faults.environment)
    for number, (line, reply) in enumerate(zip(day.lines, day.replies)):
        got = shop.reply(line)
        if got == REFUSED:
            is_as_before(trial, shop, day, number)
            got = shop.reply(line)
        if not got:
            status, errors = shop.end()
            trial.equal((status, fault_in(errors)), (1, b"fault memory\n"), line)
            return
        trial.equal(got, reply, line)
    again = [(line, shop.reply(line), reply) for line, reply in day.accepted()]
    status, errors = shop.end()
    if status:
        trial.equal((status, fault_in(errors)), (1, b"fault memory\n"))
        again = [it for it in again if it[1]]
    for line, got, reply in again:
        trial.equal(got == REFUSED or got == reply, True, f"{line.decode()}, sent again: {got}")


def ended_for_memory(trial, shop, sent):
    status, _, errors = shop.end()
    trial.equal((status, fault_in(errors)), (1, b"fault memory\n"), sent)


def texts_refused(trial, store, paths, stride):
    """Asks a store's shop for texts with each request for memory refused in turn: the whole text, or 98 with 503, or nothing, and
    asked again the text."""
    shop = trial.shop(tables.copy(store, trial.path("asked.db")))
    wanted = [shop.get(it) for it in paths]
    shop.kill()
    trial.equal([it.partition(b"\r\n")[0] for it in wanted], [b"HTTP/1.1 200 OK"] * len(paths))

    def run(faults):
        # (each run has a store of its own)
        copy = tables.copy(store, trial.path(f"{faults.at:06}.db"))
        shop = opened(trial, copy, faults)
        first = faults.calls()
        for path, text in zip(paths, wanted):
            got = sent(shop.get, path)
            trial.equal(got in (text, answer(503, REFUSED), b""), True, f"{path}, request {faults.at}: {got}")
            if not got and shop.has_ended():
                ended_for_memory(trial, shop, path)
                break
            if got != text:
                trial.equal(shop.get(path), text, f"{path}, request {faults.at}")
        shop.kill()
        os.remove(copy)
        return first

    sweep(trial, run, stride)


def served(trial, day, faults):
    """The same over `serve` behind its start, where a connection may also end without an answer; where the program ends it is
    opened again. How many requests its start makes."""
    # (a longer name would take more requests)
    store = f"{faults.at:06}.db"
    shop = opened(trial, store, faults)
    first = faults.calls()
    for number, (line, reply) in enumerate(zip(day.lines, day.replies)):
        got = sent(shop.reply, line)
        if got == REFUSED:
            is_as_before(trial, shop, day, number)
            got = sent(shop.reply, line)
        if not got:
            if shop.has_ended():
                ended_for_memory(trial, shop, line)
                shop = trial.shop(store)
            got = sent(shop.reply, line)
        trial.equal(got, reply, line)
    trial.equal(questions_of(shop), day.states[-1])
    shop.kill()
    trial.equal(tables.rows(shop.store), day.rows)
    os.remove(shop.store)
    return first
