"""Questions for plans whose search takes long, beside others."""

import time

from kit import crowds
from kit.questions import checked_answer, compact, content_of
from kit.shop import answer, read_all
from kit.yards import Yard, question


def endless(shop):
    """A question that keeps the shop busy for minutes, where eight ask it."""
    return crowds.large_question(5000, crowds.fitting_step(shop))


def answers_of(held):
    """The bodies of the answers that come over connections, each of them 200."""
    came = [read_all(it).partition(b"\r\n\r\n") for it in held]
    return [body if answer(200, body) == head + end + body else head for head, end, body in came]


def all_answered(trial, shop, held, asked):
    """Each connection gets the same answer, which has everything that holds of one."""
    content = content_of(shop.reply, asked["material"])
    bodies = answers_of(held)
    trial.equal(bodies, bodies[:1] * len(held), compact(asked))
    checked_answer(content, asked, bodies[0].decode())


def small():
    """A yard of three bars for seven pieces, and a question that a few tables answer."""
    yard = Yard(98)
    yard.material("SMALL", 3)
    yard.receive("SMALL", 100, 1, 3)
    yard.bars("SMALL", (30, 4), (45, 3))
    return yard, question("SMALL", calls=6)


def is_idle(shop, seconds):
    """Whether the shop comes to rest within so many seconds."""
    limit = time.monotonic() + seconds
    while time.monotonic() < limit:
        before = shop.busy()
        time.sleep(0.5)
        if shop.busy() - before < 0.05:
            return True
    return False


def goes_on(shop, seconds):
    """Whether the shop thinks: it takes a fifth of a second of a processor within so many seconds, few as they are beside others."""
    begin, limit = shop.busy(), time.monotonic() + seconds
    while time.monotonic() < limit:
        time.sleep(0.1)
        if shop.busy() - begin > 0.2:
            return True
    return False
