"""Connections to a shop that is served: pieces, prefixes, silence, repeats, and where it listens."""

import os
import socket
import time

from kit.case import case
from kit.faults import Faults
from kit.glass import DONE, DONE_REPLY, GLASS, SHEET, TOTALS, reserved, totals
from kit.shop import answer, begin_line, end_line, is_silent, read_all, request_of


@case(
    "every prefix of a post",
    "A POST of Done that ends early is answered 400, or nothing where no byte came, and changes nothing; the whole "
    "one gets its reply.",
)
def prefixes(trial):
    shop = reserved(trial)
    request = request_of(DONE)
    for end in trial.places(len(request), 3):
        wanted = answer(400) if end else b""
        trial.equal(shop.exchange(request[:end]), wanted, request[:end])
        trial.equal(shop.reply(TOTALS), totals(80, 0, 0, 0), request[:end])
    trial.equal(shop.exchange(request), answer(200, DONE_REPLY), request)
    trial.equal(shop.reply(TOTALS), totals(0, 40, 28, 12), request)


@case("a post byte by byte", "A message that comes byte by byte is answered as one that comes whole, and so is its repeat.")
def bytes_alone(trial):
    shop = reserved(trial)
    for size in (1, None, 2, 3, 64):
        trial.equal(shop.exchange(request_of(DONE), size), answer(200, DONE_REPLY), f"in pieces of {size}")
    trial.equal(shop.reply(TOTALS), totals(0, 40, 28, 12))


@case("a connection that says nothing", "Where no byte comes nothing is written, and the next terminal is served.")
def silence(trial):
    shop = trial.shop(limit=3)
    trial.equal(shop.exchange(b""), b"")
    shop.connect().close()
    trial.equal(shop.reply(TOTALS), b'{"name":"NoMaterial","refused":20}')
    trial.equal(shop.end()[0], 0)


@case("listens on this machine alone", "The port is reached at 127.0.0.1 and at no other address of the machine.")
def listening(trial):
    shop = trial.shop()
    others = {"127.0.0.2", *[it[4][0] for it in socket.getaddrinfo(socket.gethostname(), None, socket.AF_INET)]} - {"127.0.0.1"}
    for address in others:
        try:
            socket.create_connection((address, shop.port), timeout=5).close()
            reached = True
        except OSError:
            reached = False
        trial.equal((address, reached), (address, False))
    rows = []
    for name in ("/proc/net/tcp", "/proc/net/tcp6"):
        if os.path.exists(name):
            with open(name, encoding="ascii") as file:
                rows += [it.split() for it in file.readlines()[1:]]
    listens = [it[1] for it in rows if it[3] == "0A" and it[1].endswith(f":{shop.port:04X}")]
    trial.equal(listens, [f"0100007F:{shop.port:04X}"])


@case(
    "a limit of connections",
    "The shop ends with status 0 after as many connections as its limit says, and what was accepted is in its file.",
)
def limited(trial):
    shop = trial.shop(limit=2)
    trial.equal(
        (shop.reply(GLASS), shop.reply(SHEET)), (b'{"material":"GLASS","ok":"material"}', b'{"act":1,"count":1,"ok":"receive"}')
    )
    log = begin_line(shop.store) + end_line(shop.store)
    trial.equal(shop.end(), (0, f"listening on 127.0.0.1:{shop.port}\n".encode(), log))
    again = trial.shop(limit=1)
    trial.equal(again.reply(TOTALS), totals(80, 0, 0, 0))


@case(
    "a limit is exact",
    "Connections that say nothing, end early or are refused count, and as long as fewer than the limit were served the shop "
    "goes on; behind the last one nothing listens to the port any more.",
)
def exact(trial):
    shop = trial.shop(limit=5)
    wanted = [(b"", b""), (request_of(TOTALS)[:9], answer(400)), (b"GET /nowhere HTTP/1.1\r\nHost: x\r\n\r\n", answer(404))]
    wanted += [(request_of(GLASS), answer(200, '{"material":"GLASS","ok":"material"}'))]
    for request, output in wanted:
        trial.equal(shop.exchange(request), output, request)
        trial.equal(shop.has_ended(), False, request)
    trial.equal(shop.exchange(request_of(TOTALS)), answer(200, totals(0, 0, 0, 0).replace(b":80,", b":0,")))
    trial.equal(shop.end()[0], 0)
    try:
        shop.connect().close()
        trial.holds(False, "a sixth connection is taken")
    except ConnectionRefusedError:
        pass


@case(
    "connections over the limit",
    "Of three connections that are open at once a shop with a limit of two serves the first two, however early the third one "
    "asks, and ends then.",
)
def over_limit(trial):
    shop = trial.shop(limit=2)
    with shop.connect() as first, shop.connect() as second, shop.connect() as third:
        third.sendall(request_of(SHEET))
        second.sendall(request_of(GLASS))
        trial.equal(read_all(second), answer(200, '{"material":"GLASS","ok":"material"}'))
        trial.equal((is_silent(third, 0.3), shop.has_ended(0)), (True, False), "the third one, before the first one asked")
        first.sendall(request_of(TOTALS))
        trial.equal(read_all(first), answer(200, totals(0, 0, 0, 0).replace(b":80,", b":0,")))
        trial.equal((shop.end()[0], read_all(third)), (0, b""))


@case(
    "a shop that waits rests",
    "While the connections that are open say nothing a shop wakes about once a second, be its limit reached or not.",
)
def rests(trial):
    for limit in (2, 3):
        faults = Faults(trial, "wait")
        shop = trial.shop(f"{limit}.db", limit=limit, environment=faults.environment)
        with shop.connect(), shop.connect():
            time.sleep(0.5)
            before = faults.calls()
            time.sleep(2)
            trial.holds(faults.calls() - before <= 4, f"{faults.calls() - before} waits in two seconds, with a limit of {limit}")
        shop.kill()


@case("terminals at both ends", "Terminals 1 and 4294967295 are served, and 0 is refused 10, for it is the shop file's.")
def terminals(trial):
    shop = trial.shop()
    for terminal, status in ((0, 400), (1, 200), (4294967295, 200), (4294967296, 400)):
        line = GLASS.replace('"terminal":1', f'"terminal":{terminal}')
        reply = '{"material":"GLASS","ok":"material"}' if status == 200 else '{"name":"BadMessage","refused":10}'
        trial.equal(shop.send(line), answer(status, reply), line)


@case(
    "a client that goes away",
    "A terminal that closes before its answer is read has its message done, and its repeat gets the kept reply.",
)
def gone(trial):
    shop = reserved(trial)
    with shop.connect() as it:
        it.sendall(request_of(DONE))
    trial.equal(shop.exchange(request_of(DONE)), answer(200, DONE_REPLY))
    trial.equal(shop.reply(TOTALS), totals(0, 40, 28, 12))


@case(
    "heads and bodies at their limits",
    "A head of 8192 bytes and a body of 131072 are read; a head of 8193 is 431, a body of 131073 is 413.",
)
def limits(trial):
    shop = trial.shop()
    for length, status in ((8192, 404), (8193, 431)):
        begin, end = b"GET /rack/A HTTP/1.1\r\nHost: x\r\nA:", b"b\r\n\r\n"
        request = begin + b" " * (length - len(begin) - len(end)) + end
        wanted = answer(404, '{"name":"NoMaterial","refused":20}') if status == 404 else answer(431)
        trial.equal(shop.exchange(request), wanted, request)
    for length, wanted in ((131072, answer(200, '{"material":"GLASS","ok":"material"}')), (131073, answer(413))):
        body = GLASS.encode().ljust(131072)
        request = f"POST /message HTTP/1.1\r\nHost: x\r\nContent-Length: {length}\r\n\r\n".encode() + (
            body if length == 131072 else b""
        )
        trial.equal(shop.exchange(request), wanted, f"a body of {length}")


@case("a request in slow pieces", "A request whose pieces come with pauses is answered when it is whole.")
def slow(trial):
    shop = reserved(trial)
    request = request_of(DONE)
    with shop.connect() as it:
        for piece in (request[:7], request[7:60], request[60:-1], request[-1:]):
            it.sendall(piece)
            it.settimeout(0.05)
            try:
                it.recv(1, socket.MSG_PEEK)
            except TimeoutError:
                pass
            it.settimeout(30)
        trial.equal(read_all(it), answer(200, DONE_REPLY))
