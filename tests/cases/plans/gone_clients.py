"""Questions of clients that went away, or that only wait, hold up nobody else's question for long."""

import select
import socket
import time

from kit import crowds
from kit.case import case
from kit.questions import checked_answer, compact, content_of
from kit.searches import all_answered, endless, goes_on, is_idle, small
from kit.shop import request_of

# A question behind others is answered within so many seconds.
BEHIND = 5
PLACES = 8
# So many calls a question has, where others wait.
CALLS = 200
STEP = 32


def asked_behind(trial, shop, asked, seconds, words):
    """A small question is answered soon, and as ever."""
    begin = time.monotonic()
    body = shop.reply(compact(asked))
    took = time.monotonic() - begin
    checked_answer(content_of(shop.reply, asked["material"]), asked, body.decode())
    trial.holds(took < seconds, f"{words}: the answer took {took:.2f} seconds")


def time_of(shop, calls):
    """How long so many calls of a large question take."""
    begin = time.monotonic()
    shop.reply(compact(crowds.large_question(calls, STEP)))
    return time.monotonic() - begin


@case(
    "a ninth question behind eight clients that went away at once",
    "Eight clients ask for what takes minutes, and close at once, or end their sending side and close, or only end their sending "
    "side: the ninth question is answered within five seconds, and the shop comes to rest.",
)
def gone_at_once(trial):
    yard, asked = small()
    shop = crowds.large_yard().serve(trial)
    yard.fill(trial, shop)
    large = request_of(compact(endless(shop)))
    for words in ("closed", "ended and closed", "ended"):
        held = []
        for _ in range(PLACES):
            it = shop.connect()
            it.sendall(large)
            if words != "closed":
                it.shutdown(socket.SHUT_WR)
            held.append(it)
            if words != "ended":
                it.close()
        asked_behind(trial, shop, asked, BEHIND, words)
        trial.holds(is_idle(shop, BEHIND), f"{words}: the shop goes on thinking")
        for it in held:
            it.close()


@case(
    "a ninth question behind eight clients that never read",
    "Eight clients ask for what takes minutes and are silent: once each had 200 calls it is reported what was found, and the ninth "
    "question is answered. Without a ninth the eight go on.",
)
def silent_ones(trial):
    yard, asked = small()
    shop = crowds.large_yard().serve(trial)
    yard.fill(trial, shop)
    large, alone = crowds.large_question(5000, STEP), PLACES * time_of(shop, CALLS)
    with crowds.thinking(shop, PLACES, large) as held:
        time.sleep(1.2 * alone)
        trial.holds(goes_on(shop, BEHIND), "nothing is thought about, though no question waits")
        trial.equal(select.select(held, [], [], 0)[0], [], "which of the eight were told what was found, though no question waits")
        asked_behind(trial, shop, asked, BEHIND, "behind eight that had their calls")
        came = select.select(held, [], [], BEHIND)[0]
        trial.holds(came, "none of the eight was told what was found")
        all_answered(trial, shop, came[:1], large)
