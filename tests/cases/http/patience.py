"""How long a connection has: ten seconds for its request, and ten for its answer."""

import select
import threading
import time
from contextlib import ExitStack

from kit import crowds
from kit.case import case
from kit.glass import GLASS, TOTALS, reserved
from kit.questions import compact
from kit.shop import answer, read_all, request_of
from kit.sockets import let_go
from kit.stores import DAY, filled, many_parts

# How long a connection has for its request, and then for its answer.
PATIENCE = 10


def seconds_until_closed(connections, since):
    """When each of these connections was closed, in seconds since then."""
    closed = {}
    while len(closed) < len(connections):
        left = [it for it in connections if it not in closed]
        ready, _, _ = select.select(left, [], [], 3 * PATIENCE)
        if not ready:
            break
        for it in ready:
            read_all(it)
            closed[it] = time.monotonic() - since
    return [closed.get(it) for it in connections]


def is_patience(seconds):
    """Whether a connection had its ten seconds and not twice as many."""
    return seconds is not None and PATIENCE - 1 < seconds < PATIENCE + 5


@case(
    "a byte every nine seconds",
    "The ten seconds of a request count from when its connection was accepted: one that sends a byte at once and the "
    "next after nine seconds is closed after ten, and nothing of it is done.",
)
def a_byte_now_and_then(trial):
    shop = trial.shop()
    begin = time.monotonic()
    with shop.connect() as it:
        it.sendall(request_of(GLASS)[:1])
        time.sleep(PATIENCE - 1)
        it.sendall(request_of(GLASS)[1:2])
        seconds = seconds_until_closed([it], begin)[0]
    trial.holds(is_patience(seconds), f"closed after {seconds} seconds")
    trial.equal(shop.reply(TOTALS), b'{"name":"NoMaterial","refused":20}')


# A request that takes a while: a plan of the finest step of a large sheet.
LARGE = (
    '{"batch":"B-9","count":1,"do":"receive","h":5000,"material":"GLASS","number":12,"terminal":1,"w":5000}',
    '{"do":"order","lines":[' + ",".join(
        f'{{"count":9,"h":{301 + 17 * it},"line":{it + 1},"material":"GLASS","turn":true,"w":{401 + 23 * it},"worth":{50 + it}}}'
        for it in range(40)
    ) + '],"number":13,"order":"L-1","terminal":1}',
)
LARGE_PLAN = compact({"ask": "plan", "demands": list(range(4, 44)), "part": "3/0", "step": 10})


@case(
    "a terminal behind long work of others",
    "Time in which others are answered isn't counted against a terminal: it sends a part of its request, the shop works on "
    "plans for others for over ten seconds, and when the rest comes it is answered.",
)
def behind_others(trial):
    shop, faults = reserved(trial), []
    for line in LARGE:
        trial.holds(b'"ok"' in shop.reply(line), line)
    trial.holds(b'"ok":"plan"' in shop.reply(LARGE_PLAN), LARGE_PLAN)
    ends = time.monotonic() + PATIENCE + 2

    def work():
        while time.monotonic() < ends:
            got = shop.reply(LARGE_PLAN)
            if b'"ok":"plan"' not in got:
                faults.append(got)

    with shop.connect() as it:
        it.sendall(request_of(GLASS)[:20])
        others = [threading.Thread(target=work) for _ in range(4)]
        for other in others:
            other.start()
        for other in others:
            other.join()
        it.sendall(request_of(GLASS)[20:])
        trial.equal(read_all(it), answer(200, '{"material":"GLASS","ok":"material"}'))
    trial.equal(faults, [])


def closed_in_time(trial, connection, begin, words):
    """A silent connection is closed when its ten seconds are over, and not much later."""
    seconds = seconds_until_closed([connection], begin)[0]
    trial.holds(is_patience(seconds), f"{words}: closed after {seconds} seconds")


@case(
    "a silent connection behind one answer",
    "Where one request was answered and none comes behind it, connections that say nothing, from before it and from behind it, are "
    "closed after ten seconds.",
)
def behind_one_answer(trial):
    shop, begin = trial.shop(), time.monotonic()
    with shop.connect() as before:
        time.sleep(0.2)
        trial.equal(shop.reply(GLASS), b'{"material":"GLASS","ok":"material"}')
        time.sleep(0.2)
        behind = time.monotonic()
        with shop.connect() as after:
            closed_in_time(trial, before, begin, "from before the answer")
            closed_in_time(trial, after, behind, "from behind the answer")


# How long others rest between their requests.
REST = 0.05


@case(
    "a silent connection beside others that rest",
    "Time in which nobody is answered counts: where others ask something short every 50 milliseconds a connection that says nothing, "
    "and one that stops within its request, are closed after ten seconds.",
)
def beside_rests(trial):
    shop = trial.shop()

    def work(ends):
        while not ends.wait(REST):
            shop.reply(crowds.QUESTION)

    with crowds.beside(work), shop.connect() as nothing, shop.connect() as part:
        begin = time.monotonic()
        part.sendall(request_of(GLASS)[:20])
        for seconds in seconds_until_closed([nothing, part], begin):
            trial.holds(is_patience(seconds), f"closed after {seconds} seconds")


# Parts of a rack that takes more bytes than the system holds for a connection.
MANY = 120000


def long_rack(trial, **named):
    """A shop with a rack of 8 MB."""
    path = filled(trial, exchanges=DAY[:2])
    many_parts(path, "GLASS", MANY, 200000, 60000, first_act=2000000000)
    return trial.shop(**named)


@case(
    "an answer that nobody reads",
    "A terminal that never reads its answer of 8 MB is closed ten seconds behind it, with the rest untold, and a shop with a "
    "limit of one connection ends then.",
)
def nobody_reads(trial):
    shop = long_rack(trial, limit=1)
    with crowds.unread(shop, "/rack/GLASS", 1 << 16) as it:
        trial.holds(select.select([it], [], [], 3 * PATIENCE)[0], "no answer comes")
        begin = time.monotonic()
        trial.equal(shop.end()[0], 0)
        seconds = time.monotonic() - begin
        trial.holds(is_patience(seconds), f"ended after {seconds} seconds")
        head, _, body = read_all(it).partition(b"\r\n\r\n")
    length = int(head.split(b"Content-Length: ")[1].split(b"\r\n")[0])
    trial.holds(len(body) < length and length > 60 * MANY, f"{len(body)} of {length} bytes came")


@case(
    "a long answer that is read late",
    "An answer of 8 MB, more than the system holds for a connection, arrives whole at a terminal that begins to read it two seconds "
    "late, and rests for two seconds within it.",
)
def read_late(trial):
    shop = long_rack(trial)
    rows = ",".join(f'{{"h":60000,"part":"2000000000/{it}","state":"standing","w":200000}}' for it in range(MANY))
    wanted = f'{{"material":"GLASS","ok":"rack","parts":[{rows}]}}'.encode()
    with crowds.unread(shop, "/rack/GLASS", 1 << 16) as it:
        trial.holds(select.select([it], [], [], 3 * PATIENCE)[0], "no answer comes")
        time.sleep(2)
        came = it.recv(1 << 20)
        time.sleep(2)
        head, _, body = (came + read_all(it)).partition(b"\r\n\r\n")
    trial.holds(f"Content-Length: {len(wanted)}".encode() in head.split(b"\r\n"), head)
    trial.holds(body == wanted, f"{len(body)} of {len(wanted)} bytes came")


# So many descriptors a shop has.
SCARCE = 24


def whole_answer(connection):
    """Reads an answer to its end, and returns how many bytes its body has and was to have."""
    came = b""
    while b"\r\n\r\n" not in came:
        came += connection.recv(65536)
    head, _, body = came.partition(b"\r\n\r\n")
    length, count = int(head.split(b"Content-Length: ")[1].split(b"\r\n")[0]), len(body)
    while count < length and (piece := connection.recv(1 << 20)):
        count += len(piece)
    return count, length


@case(
    "answers on their way and few descriptors",
    "Where each connection that the descriptors allow has an answer of 8 MB on its way, none of them is closed for the next one. This "
    "waits, and has its answer once one of the others was read.",
)
def answers_and_few(trial):
    shop = long_rack(trial, prepare=crowds.few_descriptors(SCARCE))
    with ExitStack() as stack:
        held = []
        for _ in range(SCARCE):
            held.append(stack.enter_context(crowds.unread(shop, "/rack/GLASS", 1 << 16)))
            if not select.select(held[-1:], [], [], 1)[0]:
                break
        *served, last = held
        trial.holds(1 < len(served) < SCARCE - 1, f"{len(served)} connections are answered at once")
        for it in served:
            count, length = whole_answer(it)
            trial.equal(count, length, "an answer is cut off")
            trial.holds(select.select([last], [], [], 3)[0], "the next one has no answer")
        count, length = whole_answer(last)
        trial.equal(count, length, "the last answer is cut off")


@case(
    "an answer whose reader goes away",
    "A terminal that closes within its answer of 8 MB is let go at once.",
)
def reader_gone(trial):
    shop = long_rack(trial)
    with crowds.unread(shop, "/rack/GLASS", 1 << 16) as it:
        trial.holds(select.select([it], [], [], 3 * PATIENCE)[0], "no answer comes")
        trial.equal(shop.connections(), 1)
    let_go(trial, shop, "whose reader went away")
