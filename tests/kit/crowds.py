"""Connections beside which terminals work: silent ones, slow ones, ones that go away, and many at once."""

import resource
import socket
import struct
import threading
import time
from contextlib import ExitStack, contextmanager, suppress

from kit.questions import compact
from kit.shop import request_of
from kit.yards import Yard, question

QUESTION = '{"ask":"materials"}'


def few_descriptors(count):
    """What a shop has to `prepare` so that it has only so many descriptors."""
    return lambda: resource.setrlimit(resource.RLIMIT_NOFILE, (count, count))


@contextmanager
def silent(shop, count):
    """So many connections that say nothing."""
    with ExitStack() as stack:
        yield [stack.enter_context(shop.connect()) for _ in range(count)]


@contextmanager
def halves(shop, count, line=QUESTION):
    """So many connections that stop within their request, by which this line is sent."""
    with silent(shop, count) as held:
        for it in held:
            it.sendall(request_of(line)[:-5])
        yield held


@contextmanager
def beside(work):
    """Works in a thread of its own until it is done, or the event that it gets is set."""
    ends = threading.Event()
    thread = threading.Thread(target=work, args=(ends,))
    thread.start()
    try:
        yield
    finally:
        ends.set()
        thread.join()


@contextmanager
def dripping(shop, count, pause=0.1):
    """So many silent connections, and one that sends a byte now and then."""

    def drip(ends):
        with shop.connect() as it, suppress(OSError):
            for byte in request_of(QUESTION):
                if ends.wait(pause):
                    return
                it.sendall(bytes([byte]))

    with silent(shop, count), beside(drip):
        yield


@contextmanager
def unread(shop, path, room=4096):
    """A connection that asks for what is at a path and never reads it, with so many bytes of room for what comes."""
    with shop.connect() as it:
        it.setsockopt(socket.SOL_SOCKET, socket.SO_RCVBUF, room)
        it.sendall(f"GET {path} HTTP/1.1\r\nHost: shop\r\n\r\n".encode())
        yield it


@contextmanager
def resetting(shop):
    """One connection after the other that is reset, before its request, within it and behind it."""

    def reset(ends):
        while not ends.is_set():
            for end in (0, 10, None):
                it = shop.connect()
                it.setsockopt(socket.SOL_SOCKET, socket.SO_LINGER, struct.pack("ii", 1, 0))
                it.sendall(request_of(QUESTION)[:end])
                it.close()
            ends.wait(0.001)

    with beside(reset):
        yield


@contextmanager
def asking(shop, count, answers):
    """So many questions one after the other, each over a connection of its own, and all of them are asked. Their answers
    are added to `answers`."""

    def ask(_):
        for _ in range(count):
            answers.append(shop.exchange(request_of(QUESTION)))

    with beside(ask):
        yield


# A terminal that only fills shops for questions, its material, and the sides of a sheet of it.
FILLER, LARGE = 99, "LARGE"
LARGE_W, LARGE_H = 3210, 2250


def large_yard(kinds=40, scale=1):
    """Sheets of 321 by 225 mm, or so many times as large, of which so many kinds of pieces are open; half of them may turn."""
    yard = Yard(FILLER)
    yard.material(LARGE, 3 * scale, "sheet")
    lines = [
        (scale * (250 + 173 * it % 701), scale * (230 + 257 * it % 503), 1 + it * 7 % 9, it % 2 == 0) for it in range(kinds)
    ]
    yard.order(LARGE, *lines)
    return yard


def large_question(calls, step, scale=1):
    """What takes so many tables by a step, of which 7 is the least without a scale, and 233 the greatest."""
    return question(LARGE, buy=[{"h": scale * LARGE_H, "w": scale * LARGE_W}], calls=calls, step=step)


def fitting_step(shop):
    """The longest step by which a few tables take tenths of a second, however fast the program is."""
    for step in (200, 65, 32, 13):
        begin = time.monotonic()
        shop.reply(compact(large_question(20, step)))
        if time.monotonic() - begin > 0.3:
            return step
    return 7


@contextmanager
def thinking(shop, count, asked):
    """So many connections that have asked a question for plans and wait. (Whoever closes one ends the thinking.)"""
    with silent(shop, count) as held:
        for it in held:
            it.sendall(request_of(compact(asked)))
        yield held
