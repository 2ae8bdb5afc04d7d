"""Connections that are watched until something is so."""

import time

# A client that reads to the end has it at once; where an answer isn't ended it comes when the ten seconds are over. (A busy
# machine may take a part of a second for an answer.)
SOON = 5


def soon(trial, shop, request, wanted):
    """Sends a request without ending its side, and wants these bytes and their end soon."""
    begin = time.monotonic()
    trial.equal(shop.exchange(request, ends=False), wanted, request)
    seconds = time.monotonic() - begin
    trial.holds(seconds < SOON, f"{request[:60]}: the end came after {seconds:.1f} seconds")


def let_go(trial, shop, says):
    """The shop has no connection open soon."""
    limit = time.monotonic() + SOON
    while shop.connections() and time.monotonic() < limit:
        time.sleep(0.02)
    trial.equal(shop.connections(), 0, f"connections that are open {says}")
