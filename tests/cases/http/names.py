"""Under which names a shop is reached: the hosts and origins that are its own, and a proxy that stands before it."""

import http.server
import threading
from contextlib import contextmanager

from kit.browsers import FORBIDDEN, asked, page_answer
from kit.case import case
from kit.glass import GLASS
from kit.shop import ANY_HOST, answer, begin_line

NONE = answer(404, '{"name":"NoMaterial","refused":20}')
LOCAL = ("127.0.0.1", "localhost", "[::1]")
STRANGE = ("shop", "evil.example", "LOCALHOST", "127.0.0.2", "localhost:", "localhost.", "[::2]", "::1", "[::1", "", "Shop.Example")
SITE = "https://shop.example"
PORTS = ("https://shop.example:8443", "http://[fd00::1]:81", "http://bare.example")


def judged(trial, shop, own, others):
    """Requests under these hosts are answered, and under the others 403."""
    for host in own:
        trial.equal(shop.exchange(asked("/rack/A", host=host)), NONE, host)
    for host in others:
        trial.equal(shop.exchange(asked("/rack/A", host=host)), FORBIDDEN, host)


def with_ports(shop, *names):
    return [f"{name}{port}" for name in names for port in ("", f":{shop.port}")]


def strange(shop, *names):
    """Hosts of others: other names, and these with another port."""
    return [*STRANGE, *(f"{name}:{port}" for name in (*names, "shop") for port in (shop.port + 1, f"0{shop.port}", 80))]


@case(
    "names that a shop is given",
    "With `--host` a Host is a name of this machine or one that was given, alone or with the port that is served; another is answered "
    "403. Without `--page`, `--host` and `--origin` each is answered, and the start says so.",
)
def hosts(trial):
    names = ("shop.example", "saw", "192.168.1.7", "[fd00::1]")
    words = [word for name in names for word in ("--host", name)]
    shop = trial.shop("a.db", words=words)
    judged(trial, shop, with_ports(shop, *LOCAL, *names), strange(shop, *LOCAL, *names))
    trial.equal(shop.exchange(asked("/rack/A", host=None, version="HTTP/1.0")), NONE, "no Host in HTTP/1.0")
    for origin in ("http://shop.example", f"http://shop.example:{shop.port}", "http://saw"):
        trial.equal(shop.exchange(asked("/rack/A", f"Origin: {origin}", host="saw")), FORBIDDEN, origin)
    ten = trial.shop("b.db", words=[word for at in range(10) for word in ("--host", f"n{at}")])
    judged(trial, ten, with_ports(ten, *LOCAL, *(f"n{at}" for at in range(10))), ["n10", *strange(ten)])
    any_host = trial.shop("c.db", limit=1 + len(STRANGE))
    judged(trial, any_host, [*STRANGE, "shop"], [])
    trial.holds(any_host.end()[2].startswith(begin_line(any_host.store)), "it says that it judges no host")
    for shop in (shop, ten):
        shop.process.terminate()
        trial.equal(shop.process.communicate()[1], begin_line(shop.store, is_named=True), "it doesn't say that")


@case(
    "origins that a shop is given",
    "With `--origin` it is taken in Origin, to the letter, and its host with its own port, the port that is served, or none, in Host; "
    "with a page and without.",
)
def origins(trial):
    words = [word for origin in (SITE, *PORTS) for word in ("--origin", origin)]
    page = trial.write("page.html", "<p>a page</p>")
    for more in ((), ("--page", page)):
        shop = trial.shop(f"{len(more)}.db", words=[*words, *more])
        own = with_ports(shop, *LOCAL, "shop.example", "[fd00::1]", "bare.example") + ["shop.example:8443", "[fd00::1]:81"]
        judged(trial, shop, own, strange(shop, *LOCAL, "bare.example"))
        local = [f"http://{name}:{shop.port}" for name in ("127.0.0.1", "localhost")]
        for origin in (SITE, *PORTS, *local):
            request = asked("/rack/A", f"Origin: {origin}", "Sec-Fetch-Site: same-origin", host="shop.example")
            trial.equal(shop.exchange(request), NONE, origin)
        others = [f"{SITE}/", f"{SITE}:443", f"{SITE}.evil", "http://shop.example", "HTTPS://shop.example", f"{SITE}, {SITE}", "null", "shop.example"]
        others += ["http://[fd00::1]", f"http://bare.example:{shop.port}", f"http://[::1]:{shop.port}"]
        for origin in others:
            trial.equal(shop.exchange(asked("/rack/A", f"Origin: {origin}", host="shop.example")), FORBIDDEN, origin)
        crossed = asked("/rack/A", f"Origin: {SITE}", "Sec-Fetch-Site: cross-site", host="shop.example")
        trial.equal(shop.exchange(crossed), FORBIDDEN)
        if more:
            trial.equal(shop.exchange(asked("/", host="shop.example")), page_answer(b"<p>a page</p>"))
        shop.process.terminate()
        trial.holds(ANY_HOST not in shop.process.communicate()[1], "its hosts are judged")


def proxy_of(port):
    """What hands requests on to a shop as nginx does with `proxy_set_header Host $host`: Host without a port, other fields as they
    came."""

    class Proxy(http.server.BaseHTTPRequestHandler):
        def hand_on(self):
            body = self.rfile.read(int(self.headers.get("Content-Length", 0)))
            fields = {name: value for name, value in self.headers.items() if name.lower() not in ("host", "connection")}
            fields |= {"Host": self.headers["Host"].partition(":")[0], "Connection": "close"}
            shop = http.client.HTTPConnection("127.0.0.1", port, timeout=30)
            shop.request(self.command, self.path, body=body or None, headers=fields)
            output = shop.getresponse()
            text = output.read()
            self.send_response_only(output.status)
            for name, value in output.getheaders():
                self.send_header(name, value)
            self.end_headers()
            self.wfile.write(text)

        do_GET = do_POST = hand_on

        def log_message(self, *_):
            pass

    return Proxy


@contextmanager
def proxied(port):
    """The port of a proxy before a shop."""
    with http.server.ThreadingHTTPServer(("127.0.0.1", 0), proxy_of(port)) as server:
        threading.Thread(target=server.serve_forever, daemon=True).start()
        try:
            yield server.server_address[1]
        finally:
            server.shutdown()


def sent(port, request):
    """The status and the body that a proxy answers."""
    output = http.client.HTTPConnection("127.0.0.1", port, timeout=30)
    method, path, fields, body = request
    output.request(method, path, body=body, headers=fields)
    got = output.getresponse()
    return got.status, got.read()


@case(
    "a proxy before a shop",
    "A proxy that hands on Host and Origin as a browser sent them for `https://shop.example` serves the page, its questions and its "
    "messages with `--origin https://shop.example`; a page of another site gets 403 through it.",
)
def proxy(trial):
    page = trial.write("page.html", "<p>a page</p>")
    shop = trial.shop(words=("--page", page, "--origin", SITE))
    own = {"Host": "shop.example", "Origin": SITE, "Sec-Fetch-Site": "same-origin", "Content-Type": "application/json"}
    with proxied(shop.port) as port:
        top = {"Host": "shop.example", "Sec-Fetch-Site": "none"}
        trial.equal(sent(port, ("GET", "/", top, None)), (200, b"<p>a page</p>"))
        trial.equal(sent(port, ("GET", "/materials", own, None))[0], 200)
        trial.equal(sent(port, ("POST", "/message", own, GLASS)), (200, b'{"material":"GLASS","ok":"material"}'))
        for fields in ({**own, "Origin": "https://evil.example"}, {**own, "Sec-Fetch-Site": "cross-site"}, {**own, "Host": "evil.example"}):
            trial.equal(sent(port, ("GET", "/materials", fields, None)), (403, b""), fields)
            trial.equal(sent(port, ("POST", "/message", fields, GLASS)), (403, b""), fields)
