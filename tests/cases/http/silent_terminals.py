"""Connections that hold up nobody: silent ones, slow ones, ones that go away, and many at once."""

import os
import time
from contextlib import suppress

from kit import crowds
from kit.beside import SOON, work, work_alone
from kit.case import case
from kit.glass import GLASS, TOTALS
from kit.shop import answer, read_all
from kit.stores import DAY, filled, many_parts
from kit.terminals import independent

REQUEST_SECONDS = 10


def same_tables(trial, shop, count=125):
    """What eight terminals did is what they do one after the other."""
    shop.kill()
    alone = trial.shop("alone.db")
    work_alone(trial, alone, count)
    alone.kill()
    trial.equal(independent(shop.store), independent(alone.store))


@case(
    "fifty silent connections and one that drips",
    "Beside 50 silent connections and one that sends a byte now and then eight terminals have their 1000 answers at "
    "once, and the tables of one after the other.",
)
def fifty(trial):
    shop = trial.shop()
    with crowds.dripping(shop, 50):
        work(trial, shop)
    same_tables(trial, shop)


@case(
    "half a request and silence",
    "Beside connections that stop within their request eight terminals have their 1000 answers at once; those are "
    "closed after ten seconds, and nothing of theirs is done.",
)
def half(trial):
    shop = trial.shop()
    begin = time.monotonic()
    with crowds.silent(shop, 1) as nothing, crowds.halves(shop, 5, GLASS) as parts:
        work(trial, shop)
        for it in [*nothing, *parts]:
            trial.equal(read_all(it), b"")
            seconds = time.monotonic() - begin
            trial.holds(REQUEST_SECONDS - 1 < seconds < REQUEST_SECONDS + 8, f"closed after {seconds:.1f} seconds")
    same_tables(trial, shop)


# So many descriptors a shop has, and as many connections say nothing.
SCARCE = 60


@case(
    "silent connections and few descriptors",
    "Where silent connections take all descriptors the oldest are closed, and a terminal has its 200 answers at once; the youngest "
    "stay open. Behind them all answers come as before, and a backup is made.",
)
def silent_and_few(trial):
    os.mkdir(trial.path("backups"))
    shop = trial.shop(prepare=crowds.few_descriptors(SCARCE), words=("--backup", "backups"))
    with crowds.silent(shop, 2 * SCARCE) as held:
        for _ in range(200):
            begin = time.monotonic()
            trial.equal(shop.reply(TOTALS), b'{"name":"NoMaterial","refused":20}')
            seconds = time.monotonic() - begin
            trial.holds(seconds < SOON, f"an answer took {seconds:.2f} seconds")
        for it in held[:SCARCE]:
            it.settimeout(SOON)
            trial.equal(it.recv(1), b"", "an old one stays open")
        held[-1].settimeout(0.2)
        with suppress(TimeoutError):
            trial.equal(held[-1].recv(1), None, "the youngest is closed")
    trial.equal(shop.exchange(b"POST /backup HTTP/1.1\r\nHost: shop\r\nContent-Length: 0\r\n\r\n"), answer(200, '{"backup":1,"ok":"backup"}'))


@case(
    "three hundred connections at once",
    "Where over 256 connections say nothing the oldest are closed, and eight terminals have their 1000 answers at "
    "once.",
)
def three_hundred(trial):
    shop = trial.shop()
    with crowds.silent(shop, 300) as held:
        begin = time.monotonic()
        trial.equal(shop.reply(TOTALS), b'{"name":"NoMaterial","refused":20}')
        seconds = time.monotonic() - begin
        trial.holds(seconds < SOON, f"the answer took {seconds:.2f} seconds")
        closed = 0
        for it in held[:44]:
            it.settimeout(SOON)
            closed += it.recv(1) == b""
        trial.equal(closed, 44)
        for it in held[60:]:
            it.settimeout(0)
            try:
                trial.equal(it.recv(1), None, "a younger one is closed")
            except BlockingIOError:
                pass
        work(trial, shop)
    same_tables(trial, shop)


@case(
    "two thousand quick requests",
    "2000 requests, each over a connection of its own, are answered one after the other, and beside them eight "
    "terminals have their 1000 answers.",
)
def quick(trial):
    shop, answers = trial.shop(limit=3000), []
    with crowds.asking(shop, 2000, answers):
        work(trial, shop)
    trial.equal((shop.end()[0], len(answers)), (0, 2000))
    trial.equal([it for it in answers if not it.startswith(b"HTTP/1.1 200 OK\r\n") or not it.endswith(b"}")], [])
    same_tables(trial, shop)


@case(
    "a client that resets",
    "Connections that are reset, before their request, within it and behind it, end alone: beside them eight terminals have "
    "their 1000 answers.",
)
def resets(trial):
    shop = trial.shop()
    with crowds.resetting(shop):
        work(trial, shop)
    same_tables(trial, shop)


@case(
    "faults before a body was read",
    "A POST that is refused for its path, its length or its coding gets its whole answer, also where its body still comes.",
)
def early_faults(trial):
    shop = trial.shop()
    heads = [
        ("/nowhere", "Content-Length: 100000", 100000, answer(404)),
        ("/totals/A", "Content-Length: 100000", 100000, answer(405, allow="GET")),
    ]
    heads += [
        ("/message", "Content-Length: 2000000", 2000000, answer(413)),
        ("/message", "Transfer-Encoding: chunked", 50000, answer(411)),
    ]
    for path, field, length, wanted in heads * 5:
        request = f"POST {path} HTTP/1.1\r\nHost: shop\r\n{field}\r\n\r\n".encode() + b"x" * length
        trial.equal(shop.exchange(request), wanted, f"{path} {field}")


@case(
    "a report that is never read",
    "Beside a terminal that never reads a report of over a megabyte eight terminals have their 1000 answers at once.",
)
def unread(trial):
    stores = [filled(trial, it, DAY[:2]) for it in ("shop.db", "alone.db")]
    for it in stores:
        many_parts(it, "GLASS", 40000, 5, 4, first_act=1000000)
    shop = trial.shop()
    with crowds.unread(shop, "/yield/GLASS"):
        work(trial, shop)
    report = shop.get("/yield/GLASS")
    trial.equal((len(report) > 1 << 20, report[-5:]), (True, b"\nend\n"))
    same_tables(trial, shop)
