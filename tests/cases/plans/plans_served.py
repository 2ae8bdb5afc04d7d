"""Questions for plans that are being thought about hold up nobody, and are answered; whoever goes away ends the thinking."""

import json
import random
import signal
import socket
import time

from kit import crowds, tables
from kit.beside import SOON, TERMINALS, work, work_alone
from kit.case import case
from kit.questions import checked_answer, compact, content_of
from kit.searches import all_answered, answers_of, endless, goes_on, is_idle, small
from kit.shop import is_silent, read_all, request_of
from kit.terminals import Terminal, at_once, independent, stopped_at
from kit.yards import Yard, question, reservations


@case(
    "eight terminals beside eight questions",
    "While eight questions for plans of sheets are thought about, eight terminals have their 1000 answers at once, and the "
    "tables of one after the other; then all eight are answered, alike.",
)
def eight(trial):
    yard = crowds.large_yard()
    shop, alone = yard.serve(trial), yard.serve(trial, "alone.db")
    asked = crowds.large_question(60, crowds.fitting_step(shop))
    with crowds.thinking(shop, 8, asked) as held:
        work(trial, shop)
        all_answered(trial, shop, held, asked)
    work_alone(trial, alone)
    for it in (shop, alone):
        it.kill()
    trial.equal(independent(shop.store), independent(alone.store))


@case(
    "nine questions at once",
    "Nine questions, and three more that ask something else, are answered each, and the shop ends with its limit of "
    "connections.",
)
def nine(trial):
    yard, asked = crowds.large_yard(9), crowds.large_question(12, 200)
    other, little = small()
    lines = len(yard.lines) + len(other.lines)
    counted = yard.replay(trial)
    other.fill(trial, counted)
    wanted = [counted.reply(compact(it)) for it in (asked, little)]
    shop = yard.serve(trial, limit=lines + 12)
    other.fill(trial, shop)
    with crowds.thinking(shop, 9, asked) as held, crowds.thinking(shop, 3, little) as more:
        trial.equal(answers_of(more), wanted[1:] * 3)
        trial.equal(answers_of(held), wanted[:1] * 9)
    trial.equal(shop.end()[0], 0)


@case(
    "a small question beside large ones",
    "Questions share the time: one that takes a few tables is answered soon beside seven that think long, with its sending "
    "side ended right behind it and without.",
)
def fair(trial):
    yard, asked = small()
    shop = crowds.large_yard().serve(trial)
    yard.fill(trial, shop)
    content = content_of(shop.reply, "SMALL")
    with crowds.thinking(shop, 7, endless(shop)):
        for ends in (True, False):
            begin = time.monotonic()
            body = shop.exchange(request_of(compact(asked)), ends=ends).partition(b"\r\n\r\n")[2]
            seconds = time.monotonic() - begin
            checked_answer(content, asked, body.decode())
            trial.holds(seconds < 2 * SOON, f"the answer took {seconds:.2f} seconds")


@case(
    "a question in front of large ones",
    "One that takes a few tables, and was read before seven that think long, is answered soon all the same.",
)
def in_front(trial):
    yard, asked = small()
    shop = crowds.large_yard().serve(trial)
    yard.fill(trial, shop)
    content, large = content_of(shop.reply, "SMALL"), endless(shop)
    shop.stand_still()
    with crowds.thinking(shop, 1, asked) as (first,), crowds.thinking(shop, 7, large):
        begin = time.monotonic()
        shop.go_on()
        body = read_all(first).partition(b"\r\n\r\n")[2]
        seconds = time.monotonic() - begin
        checked_answer(content, asked, body.decode())
        trial.holds(seconds < 2 * SOON, f"the answer took {seconds:.2f} seconds")


@case(
    "a ninth question",
    "Eight are thought about at once. A ninth waits, so that it is closed for another connection, and the eight aren't.",
)
def ninth(trial):
    shop = crowds.large_yard().serve(trial)
    large = endless(shop)
    with crowds.thinking(shop, 8, large) as held:
        # (so long that each was thought about once, and not so often that one is answered for the ninth)
        time.sleep(1)
        with crowds.thinking(shop, 1, large) as (last,):
            # (so long that its question was read)
            time.sleep(0.5)
            with crowds.silent(shop, 260) as others:
                trial.equal(read_all(last), b"", "the ninth")
                trial.equal([it for it in held if not is_silent(it, 0)], [], "those of the eight that are closed")
                trial.equal(is_silent(others[-1], 0), True, "the last connection")


@case(
    "clients that go away from their questions",
    "Eight clients ask for what takes minutes, and close a second later, some of them by a reset: the shop rests, the next "
    "question is answered soon, and so are eight that come at once.",
)
def go_away(trial):
    yard, asked = small()
    shop = crowds.large_yard().serve(trial)
    yard.fill(trial, shop)
    with crowds.thinking(shop, 8, endless(shop)) as held:
        time.sleep(1)
        trial.holds(goes_on(shop, 2 * SOON), "nothing is thought about")
        for it in held[::2]:
            it.setsockopt(socket.SOL_SOCKET, socket.SO_LINGER, b"\1\0\0\0\0\0\0\0")
            it.close()
    begin = time.monotonic()
    shop.reply(compact(asked))
    seconds = time.monotonic() - begin
    trial.holds(seconds < SOON, f"the next answer took {seconds:.2f} seconds")
    trial.holds(is_idle(shop, 2 * SOON), "the shop goes on thinking")
    with crowds.thinking(shop, 8, asked) as held:
        all_answered(trial, shop, held, asked)


@case(
    "a question whose sender ends later",
    "A client that ends its sending side a second behind its question, or at once, is reported what was found so far.",
)
def ends_later(trial):
    shop = crowds.large_yard().serve(trial)
    asked = endless(shop)
    content = content_of(shop.reply, asked["material"])
    for wait in (1, 0):
        with crowds.thinking(shop, 1, asked) as (it,):
            time.sleep(wait)
            it.shutdown(socket.SHUT_WR)
            begin = time.monotonic()
            bodies = answers_of([it])
            seconds = time.monotonic() - begin
            trial.holds(seconds < SOON, f"answered after {seconds:.2f} seconds")
        checked_answer(content, asked, bodies[0].decode())
    trial.holds(is_idle(shop, 2 * SOON), "the shop goes on thinking")


@case(
    "questions and three hundred connections",
    "Connections that say nothing are closed to make room, and those with a question among the first eight aren't: all are "
    "answered.",
)
def crowded(trial):
    shop, asked = crowds.large_yard(9).serve(trial), crowds.large_question(20, 200)
    with crowds.thinking(shop, 8, asked) as held:
        # (so long that each was thought about once)
        time.sleep(1)
        with crowds.silent(shop, 300):
            shop.reply(crowds.QUESTION)
            all_answered(trial, shop, held, asked)


@case(
    "a shop that changes while it thinks",
    "A question is answered as the shop was when it was read: parts that were scrapped and demands that came since change "
    "nothing, and the next question sees them.",
)
def changes(trial):
    yard = crowds.large_yard(12)
    yard.receive(crowds.LARGE, crowds.LARGE_W, crowds.LARGE_H, 3)
    lines, shop = yard.replay(trial), yard.serve(trial)
    asked = question(crowds.LARGE, calls=60, step=crowds.fitting_step(shop))
    wanted = lines.reply(compact(asked))
    news = Yard(97)
    for node in range(3):
        news.send(do="scrap", part=f"1/{node}")
    news.receive(crowds.LARGE, 2000, 2000)
    news.order(crowds.LARGE, (500, 600, 3, False))
    with crowds.thinking(shop, 2, asked) as held:
        # (so long that both were read)
        time.sleep(0.2)
        news.fill(trial, shop)
        trial.equal(answers_of(held), [wanted] * 2)
    news.fill(trial, lines)
    trial.equal(shop.reply(compact(asked)), lines.reply(compact(asked)))


@case(
    "stops while it thinks",
    "Eight terminals post beside questions that are thought about; the shop is stopped by SIGKILL and SIGTERM and started "
    "again: each acknowledged message sent again gets its reply, and the tables are those of a run without a stop.",
)
def stops(trial):
    count, terminals, yard = 9, [Terminal(it) for it in TERMINALS], crowds.large_yard()
    shop = yard.serve(trial)
    asked = endless(shop)
    for answers, number in ((15, signal.SIGKILL), (40, signal.SIGTERM)):
        with crowds.thinking(shop, 3, asked):
            trial.equal(at_once(shop, terminals, count, stopped_at(shop, terminals, answers, number)), [])
        trial.equal(shop.process.returncode, -number)
        shop = trial.shop()
        trial.holds(shop.is_open, "the shop doesn't open again")
    trial.equal(at_once(shop, terminals, count), [])
    trial.equal([len(it.exchanges) for it in terminals], [count] * len(terminals))
    shop.kill()
    alone = yard.serve(trial, "alone.db")
    work_alone(trial, alone, count)
    alone.kill()
    trial.equal(independent(shop.store), independent(alone.store))
    kept = {(it[0], it[1]): it[2:] for it in tables.rows(shop.store)["kept"] if it[0] != crowds.FILLER}
    trial.equal(kept, {(it.number, index): step for it in terminals for index, step in enumerate(it.exchanges, 1)})


@case(
    "plans told beside each other are reserved",
    "The plans of two questions of two materials, thought about at once, are reserved in an order by chance.",
)
def reserved(trial):
    dice, lines = random.Random(4), []
    yard, asked = small()
    glass = crowds.large_yard(6)
    glass.receive(crowds.LARGE, crowds.LARGE_W, crowds.LARGE_H, 9)
    shop = glass.serve(trial)
    yard.fill(trial, shop)
    other = question(crowds.LARGE, calls=20, step=200)
    with crowds.thinking(shop, 1, other) as first, crowds.thinking(shop, 1, asked) as second:
        for held in (first, second):
            (body,) = answers_of(held)
            lines += reservations(json.loads(body), dice, 1 + len(lines))
    dice.shuffle(lines)
    for line in lines:
        trial.holds(b'"ok":"reserve"' in shop.reply(line), line)
