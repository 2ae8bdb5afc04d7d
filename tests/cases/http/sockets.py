"""Which connection an answer goes to, that it ends, and that it comes whole: over real sockets, as clients use them that end
nothing by themselves."""

import socket
import struct
import time
from concurrent.futures import ThreadPoolExecutor

from kit import crowds
from kit.browsers import page_answer
from kit.case import case
from kit.glass import GLASS, SHEET
from kit.lines import added, material
from kit.shop import answer, read_all, request_of
from kit.sockets import SOON, let_go, soon

UNKNOWN = '{"name":"NoMaterial","refused":20}'
HOST = "Host: localhost\r\n"


def pieces_of(request):
    """A request in three pieces, the first one within its head."""
    return request[:9], request[9:-7], request[-7:]


@case(
    "requests in pieces beside 200 silent connections",
    "Of 200 connections that are open the first, the last, those about the 64th, 128th and 192nd, and one more send their "
    "messages in three pieces each, by turns: each gets its own answer, and the others stay open.",
)
def in_pieces(trial):
    shop = trial.shop()
    with crowds.silent(shop, 200) as held, shop.connect() as last:
        chosen = [held[it] for it in (0, 1, 63, 64, 126, 127, 128, 129, 191, 192, 198, 199)] + [last]
        sent = [pieces_of(request_of(material(f"M-{it}", it))) for it in range(len(chosen))]
        for pieces in zip(*sent):
            for it, piece in reversed(list(zip(chosen, pieces))):
                it.sendall(piece)
            time.sleep(0.05)
        for number, it in enumerate(chosen):
            trial.equal(read_all(it), answer(200, added(f"M-{number}")), f"connection {number} of those that asked")
        for it in held[2:60]:
            it.settimeout(0)
            try:
                trial.equal(it.recv(1), None, "a silent one is closed")
            except BlockingIOError:
                pass
    listed = shop.get("/materials")
    trial.equal([listed.count(b'"M-%d"' % it) for it in range(len(chosen))], [1] * len(chosen))


@case(
    "clients that end nothing",
    "A client that sends its request, keeps its side open and reads to the end has the whole answer and its end soon, whatever "
    "the status is: a message, a question, a page, each refusal and each fault.",
)
def ends(trial):
    page = b"<p>a page</p>"
    shop = trial.shop(words=("--page", trial.write("page.html", page)))
    posted = "POST /message HTTP/1.1\r\n" + HOST
    answers = [
        (request_of(GLASS).replace(b"Host: shop", b"Host: localhost"), answer(200, '{"material":"GLASS","ok":"material"}')),
        (request_of(SHEET).replace(b"Host: shop", b"Host: localhost"), answer(200, '{"act":1,"count":1,"ok":"receive"}')),
        (f"GET / HTTP/1.1\r\n{HOST}\r\n".encode(), page_answer(page)),
        (f"GET /totals/IRON HTTP/1.1\r\n{HOST}\r\n".encode(), answer(404, UNKNOWN)),
        (f"GET /nowhere HTTP/1.1\r\n{HOST}\r\n".encode(), answer(404)),
        (f"PUT /message HTTP/1.1\r\n{HOST}\r\n".encode(), answer(405, allow="POST")),
        (f"{posted}Content-Length: 2\r\n\r\n{{}}".encode(), answer(400, '{"name":"BadMessage","refused":10}')),
        (f"{posted}\r\n".encode(), answer(411)),
        (f"{posted}Content-Length: 131073\r\n\r\n".encode(), answer(413)),
        (b"GET /materials HTTP/1.1\r\n\r\n", answer(400)),
        (b"no request\r\n\r\n", answer(400)),
        (f"GET / HTTP/1.1\r\n{HOST}A: {'b' * 9000}\r\n\r\n".encode(), answer(431)),
        (f"GET / HTTP/1.1\r\n{HOST}Sec-Fetch-Site: cross-site\r\n\r\n".encode(), answer(403)),
    ]
    for request, wanted in answers:
        soon(trial, shop, request, wanted)
    with ThreadPoolExecutor(len(answers)) as pool:
        list(pool.map(lambda it: soon(trial, shop, *it), answers))


@case(
    "large bodies that are refused",
    "A client that sends a body of 4 MB to its last byte, reads nothing meanwhile and ends nothing gets its whole answer, for a "
    "path of nothing, another method, a body too large, one without a length, and a page of another site.",
)
def large_bodies(trial):
    shop = trial.shop()
    body = b"x" * 4000000
    heads = [
        ("POST /nowhere", "Content-Length: 4000000", answer(404)),
        ("POST /totals/A", "Content-Length: 4000000", answer(405, allow="GET")),
        ("POST /message", "Content-Length: 4000000", answer(413)),
        ("POST /message", "Transfer-Encoding: chunked", answer(411)),
        ("POST /message", "Content-Length: 4000000\r\nOrigin: http://example.org", answer(403)),
        ("GET /totals/A", "Content-Length: 4000000", answer(404, UNKNOWN)),
    ]
    for line, fields, wanted in heads:
        with shop.connect() as it:
            it.sendall(f"{line} HTTP/1.1\r\nHost: shop\r\n{fields}\r\n\r\n".encode() + body)
            trial.equal(read_all(it), wanted, f"{line} {fields}")
    trial.equal(shop.reply(GLASS), b'{"material":"GLASS","ok":"material"}')


# The pieces in which a refused body comes, and how long one comes behind the other.
BODY_PIECES, PAUSE = 5, 0.4


def in_five_pieces(trial, shop, line, fields, wanted):
    """Sends a request that is refused by its head, and its body in pieces with pauses: each piece is taken, and the answer is read
    behind the last."""
    words = f"{line} {fields}"
    with shop.connect() as it:
        try:
            it.sendall(f"{line} HTTP/1.1\r\nHost: shop\r\n{fields}\r\n\r\n".encode())
            for _ in range(BODY_PIECES):
                time.sleep(PAUSE)
                it.sendall(b"x" * 2000)
            it.settimeout(SOON)
            came = it.recv(65536)
        except OSError as error:
            came = str(error)
        trial.equal(came, wanted, words)


@case(
    "a refused body in pieces with pauses",
    "A client that sends a body in five pieces, 0.4 seconds apart, to a request that is refused by its head can send each of them, and "
    "has its answer behind the last: for a path of nothing, another method, a body too large, one without a length, and a page of "
    "another site.",
)
def refused_in_pieces(trial):
    shop, length = trial.shop(), 2000 * BODY_PIECES
    heads = [
        ("POST /nowhere", f"Content-Length: {length}", answer(404)),
        ("POST /totals/A", f"Content-Length: {length}", answer(405, allow="GET")),
        ("POST /message", "Content-Length: 131073", answer(413)),
        ("POST /message", "Transfer-Encoding: chunked", answer(411)),
        ("POST /message", f"Content-Length: {length}\r\nOrigin: http://example.org", answer(403)),
        ("POST /message", f"Content-Length: {length}\r\nIf-Match: \"1\"", answer(412)),
        ("GET /totals/A", f"Content-Length: {length}", answer(404, UNKNOWN)),
    ]
    with ThreadPoolExecutor(len(heads)) as pool:
        list(pool.map(lambda it: in_five_pieces(trial, shop, *it), heads))
    trial.equal(shop.reply(GLASS), b'{"material":"GLASS","ok":"material"}')


@case(
    "answers of over 64 KB",
    "Pages of 65535 bytes to 1 MiB come whole, with their end, to clients that read at once, behind a second, and slowly by a "
    "small window, whether they end their side or not.",
)
def large_answers(trial):
    for length in (65535, 65536, 65537, 131073, 1048576):
        page = b"".join(b"%07d\n" % it for it in range(length // 8 + 1))[:length]
        shop = trial.shop(f"{length}.db", words=("--page", trial.write(f"{length}.html", page)))
        request = f"GET / HTTP/1.1\r\n{HOST}\r\n".encode()
        for is_ended in (True, False):
            trial.equal(shop.exchange(request, ends=is_ended), page_answer(page), f"{length} bytes")
        with shop.connect() as late, socket.socket() as slow:
            slow.setsockopt(socket.SOL_SOCKET, socket.SO_RCVBUF, 4096)
            slow.settimeout(30)
            slow.connect(("127.0.0.1", shop.port))
            for it in (slow, late):
                it.sendall(request)
            time.sleep(1)
            trial.equal(read_all(late), page_answer(page), f"{length} bytes behind a second")
            came = b""
            while piece := slow.recv(3000):
                came += piece
            trial.equal(came, page_answer(page), f"{length} bytes by a small window")
        shop.kill()


def resets(it):
    """Closes a connection by a reset."""
    it.setsockopt(socket.SOL_SOCKET, socket.SO_LINGER, struct.pack("ii", 1, 0))
    it.close()


# A request that is refused before its body came.
REFUSED = b"POST /nowhere HTTP/1.1\r\nHost: shop\r\nContent-Length: 9\r\n\r\n"


@case(
    "connections that are done with",
    "A connection is let go at once where it has its answer 200, also while its client keeps its side open; where it is reset before, "
    "within or behind its request; and where its client ends behind another answer, before which it stays.",
)
def done_with(trial):
    shop = trial.shop()
    for begins in (b"", b"G", b"GET /materials HTTP/1.1\r\nHost: shop\r\n"):
        it = shop.connect()
        it.sendall(begins)
        time.sleep(0.2)
        trial.equal(shop.connections(), 1, begins)
        resets(it)
        let_go(trial, shop, f"where one was reset behind {begins}")
    with shop.connect() as it:
        it.sendall(b"GET /materials HTTP/1.1\r\nHost: shop\r\n\r\n")
        trial.equal(read_all(it), answer(200, '{"materials":[],"ok":"materials"}'))
        let_go(trial, shop, "behind an answer 200")
    for end in (socket.socket.close, resets):
        it = shop.connect()
        it.sendall(REFUSED)
        trial.equal(read_all(it), answer(404))
        time.sleep(0.2)
        trial.equal(shop.connections(), 1, "while more of a refused request may come")
        end(it)
        let_go(trial, shop, "behind a refused one")


# Connections that come while the shop stands still: far more than it accepts before it services others.
WAITING = 500


@case(
    "connections that come all at once",
    "Of 500 requests that came while the shop stood still each is answered at once when it goes on.",
)
def all_at_once(trial):
    shop = trial.shop()
    shop.stand_still()
    with crowds.silent(shop, WAITING) as held:
        for it in held:
            it.sendall(request_of(crowds.QUESTION))
        begin = time.monotonic()
        shop.go_on()
        for it in held:
            trial.equal(read_all(it), answer(200, '{"materials":[],"ok":"materials"}'))
        seconds = time.monotonic() - begin
    trial.holds(seconds < SOON, f"{WAITING} answers took {seconds:.1f} seconds")
