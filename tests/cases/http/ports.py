"""Calls by which connections come that fail: which of them end the shop, and which pass."""

import errno
import time

from kit.case import case
from kit.commands import serving
from kit.faults import Faults
from kit.glass import GLASS, TOTALS
from kit.shop import begin_line, free_port, read_all, request_of

REFUSES = "the system refuses it, or accepts no connection any more"
NONE_YET = b'{"name":"NoMaterial","refused":20}'

# An accept is tried so often where those that waited went away.
TRIES = 1000

# By these accept(2) reports that it was interrupted, or that the connection that waited went away or failed on its network.
AGAIN = (
    errno.EINTR,
    errno.ECONNABORTED,
    errno.EPROTO,
    errno.EOPNOTSUPP,
    errno.ENOPROTOOPT,
    errno.ENETDOWN,
    errno.ENETUNREACH,
    errno.EHOSTDOWN,
    errno.EHOSTUNREACH,
    errno.ENONET,
)

# A turn takes a second at most where nothing comes.
SOON = 4


def listening(port):
    return f"listening on 127.0.0.1:{port}\n".encode()


@case(
    "why a port can't be listened to",
    "Where the port's socket can't be made, had or listened to, that is `fault port`, and nothing is reported on standard output: in use, "
    "not for this account, or refused by the system.",
)
def not_listened_to(trial):
    in_use = "another program listens to it; end that one, or take another port"
    not_allowed = "this account may not listen to it; take one from 1024 on"
    shop_file = trial.write("shop.toml", "")
    for at, error, why in (
        (1, errno.EMFILE, REFUSES),
        (2, errno.EACCES, not_allowed),
        (2, errno.EADDRINUSE, in_use),
        (2, errno.EADDRNOTAVAIL, REFUSES),
        (3, errno.EADDRINUSE, in_use),
    ):
        port, faults = free_port(), Faults(trial, "port", at=at, error=error)
        ran = serving(trial, port, "shop.db", shop_file, environment=faults.environment)
        trial.ended(ran, 1, err="fault port\n", why=f"port {port}: {why}", sent=f"call {at}, error {error}")


@case(
    "a port that can't be watched",
    "Where the system reports nothing of the port, at the start or at last, the shop ends with `fault port` behind the lines of its start.",
)
def not_watched(trial):
    shop_file = trial.write("shop.toml", "")
    for of, at, on in (("watch", 1, False), ("watch", 2, False), ("wait", 1, False), ("wait", 2, True)):
        port, faults = free_port(), Faults(trial, of, at=at, on=on, error=errno.EBADF)
        store = f"{of}-{at}.db"
        ran = serving(trial, port, store, shop_file, environment=faults.environment)
        output = begin_line(store) + f"fault port\n  port {port}: {REFUSES}\n".encode()
        trial.equal((ran.status, ran.out, ran.err), (1, listening(port), output), f"{of} {at}")


@case(
    "a clock that can't be read",
    "Where the clock can't be read at the start the shop ends with `fault port`; where it can't be read later, for a while or from then "
    "on, connections are answered, also one that sends its request in two pieces.",
)
def no_clock(trial):
    shop_file, port, store = trial.write("shop.toml", ""), free_port(), "first.db"
    ran = serving(trial, port, store, shop_file, environment=Faults(trial, "clock", at=1, on=True).environment)
    output = begin_line(store) + f"fault port\n  port {port}: {REFUSES}\n".encode()
    trial.equal((ran.status, ran.out, ran.err), (1, listening(port), output))
    request, counted = request_of(TOTALS), Faults(trial, "clock")
    trial.equal(trial.shop("counted.db", environment=counted.environment).reply(TOTALS), NONE_YET)
    # (a start that takes longer reads it some times more)
    at = counted.calls() + 3
    for on in (True, False):
        shop = trial.shop(f"{on}.db", environment=Faults(trial, "clock", at=at, on=on).environment)
        for _ in range(3):
            with shop.connect() as it:
                it.sendall(request[:9])
                time.sleep(0.2)
                trial.equal(shop.reply(TOTALS), NONE_YET, f"on: {on}")
                it.sendall(request[9:])
                trial.equal(read_all(it).partition(b"\r\n\r\n")[2], NONE_YET, f"on: {on}, in two pieces")
        shop.kill()


@case("a wait that is interrupted", "The shop goes on, and the next connection is answered.")
def interrupted_wait(trial):
    for at in (1, 2):
        shop = trial.shop(f"{at}.db", environment=Faults(trial, "wait", at=at, error=errno.EINTR).environment)
        for _ in range(3):
            trial.equal(shop.reply(TOTALS), NONE_YET, f"wait {at}")


@case(
    "a connection that can't be watched",
    "It is closed without an answer, and counts; the next one is answered.",
)
def unwatched(trial):
    shop = trial.shop(limit=2, environment=Faults(trial, "watch", at=3, error=errno.ENOSPC).environment)
    trial.equal(shop.exchange(request_of(GLASS), ends=False), b"")
    trial.equal(shop.reply(TOTALS), NONE_YET)
    trial.equal(shop.end()[0], 0)


@case(
    "an accept that fails for good",
    "Where the listener itself is no listener any more the shop ends with `fault port`, and doesn't report that it ended by its limit.",
)
def gone(trial):
    shop_file = trial.write("shop.toml", "")
    for error in (errno.EBADF, errno.EINVAL, errno.ENOTSOCK):
        port, faults = free_port(), Faults(trial, "accept", at=1, error=error)
        store = f"{error}.db"
        ran = serving(trial, port, store, shop_file, environment=faults.environment)
        output = begin_line(store) + f"fault port\n  port {port}: {REFUSES}\n".encode()
        trial.equal((ran.status, ran.out, ran.err), (1, listening(port), output), errno.errorcode[error])


@case(
    "an accept that fails and passes",
    "Where descriptors or memory are wanting, or a connection is bad, the shop goes on: the connections that wait are answered soon.",
)
def passes(trial):
    for error in (errno.EMFILE, errno.ENFILE, errno.ENOMEM, errno.ENOBUFS, errno.EPERM, *AGAIN):
        shop = trial.shop(f"{error}.db", environment=Faults(trial, "accept", at=1, error=error).environment)
        for _ in range(2):
            begin = time.monotonic()
            trial.equal(shop.reply(TOTALS), NONE_YET, errno.errorcode[error])
            seconds = time.monotonic() - begin
            trial.holds(seconds < SOON, f"{errno.errorcode[error]}: the answer took {seconds:.1f} seconds")
        shop.kill()


@case(
    "an accept that is made again",
    "Where it is interrupted, or the connection that waited went away or failed on the network, it is made again at once, 1000 times in a "
    "row, and the shop goes on.",
)
def again(trial):
    for error in AGAIN:
        says = errno.errorcode[error]
        faults = Faults(trial, "accept", at=2, on=True, error=error)
        shop = trial.shop(f"{error}.db", environment=faults.environment)
        limit = time.monotonic() + 5 * SOON
        with shop.connect(), shop.connect():
            while faults.calls() <= TRIES and time.monotonic() < limit:
                time.sleep(0.05)
        trial.holds(faults.calls() > TRIES, f"{says}: {faults.calls()} calls")
        trial.equal(shop.has_ended(0), False, says)
        shop.kill()
