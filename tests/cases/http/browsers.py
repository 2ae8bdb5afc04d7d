"""What browsers send to a shop: requests for pages of other sites, which are answered 403, and the page that is served."""

import os

from kit.browsers import FORBIDDEN, asked, page_answer, with_fields
from kit.case import case
from kit.glass import GLASS, SHEET, TOTALS, totals
from kit.shop import answer, request_of

NO_PAGE = b"HTTP/1.1 405 Method Not Allowed\r\nAllow: GET\r\nContent-Length: 0\r\nConnection: close\r\n\r\n"

SCRAP = '{"do":"scrap","number":7,"part":"1/0","terminal":3}'


def filled(trial, **named):
    """A shop with a standing sheet."""
    shop = trial.shop(**named)
    for line in (GLASS, SHEET):
        trial.holds(b'"ok"' in shop.reply(line), line)
    return shop


def strange_fields(port):
    sites = ("cross-site", "same-site", "", "Same-Origin", "none, none", "same-origin;")
    names = ("http://127.0.0.1", "http://localhost", "http://[::1]")
    origins = [f"{name}:{number}" for name in names for number in (port + 1, f"0{port}", f"{port}/")]
    origins += [*names, "null", "", f"https://127.0.0.1:{port}", f"http://evil:{port}", f"HTTP://localhost:{port}"]
    origins += [f"http://localhost:{port}.evil", f"x http://localhost:{port}", f"127.0.0.1:{port}", f"http://127.0.0.2:{port}"]
    origins += [f"http://[::1]:{port}"]
    return [f"Sec-Fetch-Site: {it}" for it in sites] + [f"Origin: {it}" for it in origins]


def own_fields(port):
    fields = [f"Sec-Fetch-Site: {it}" for it in ("same-origin", "none")]
    fields += [f"Origin: http://{name}:{port}" for name in ("127.0.0.1", "localhost")]
    return fields + ["sec-fetch-site:none", f"ORIGIN: \t http://localhost:{port} \t", "X-Origin: http://evil", "Sec-Fetch-Mode: cors"]


@case(
    "requests of other sites",
    "Each `Sec-Fetch-Site` but `same-origin` and `none`, and each `Origin` but the two of the port, is answered 403 "
    "and does nothing, with a page and without.",
)
def other_sites(trial):
    for words in ((), ("--page", trial.write("page.html", "<p>"))):
        store = f"{len(words)}.db"
        trial.equal(filled(trial, store=store, limit=2).end()[0], 0)
        shop = trial.shop(store, words=words)
        host = "localhost" if words else "shop"
        for field in strange_fields(shop.port):
            request = request_of(SCRAP).replace(b"Host: shop", f"Host: {host}".encode())
            trial.equal(shop.exchange(with_fields(request, field)), FORBIDDEN, field)
            trial.equal(shop.exchange(asked("/totals/GLASS", field, host=host)), FORBIDDEN, field)
        for field in own_fields(shop.port):
            request = asked("/totals/GLASS", field, host=host)
            trial.equal(shop.exchange(request), answer(200, totals(80, 0, 0, 0)), field)
        request = request_of(SCRAP).replace(b"Host: shop", f"Host: {host}".encode())
        done = answer(200, '{"cells":80,"ok":"scrap","part":"1/0"}')
        got = shop.exchange(with_fields(request, "Sec-Fetch-Site: same-origin", f"Origin: http://127.0.0.1:{shop.port}"))
        trial.equal(got[:15], done[:15], got)


@case(
    "a page of another site that posts a scrap",
    "Its requests, as a browser sends them, are answered 403, and the part stands as before; the same message is done "
    "when a terminal sends it.",
)
def other_page(trial):
    shop = filled(trial)
    before = shop.get("/trace/1/0")
    fields = ("Sec-Fetch-Site: cross-site", "Sec-Fetch-Mode: no-cors", "Origin: http://evil.example", "Content-Type: text/plain")
    trial.equal(shop.exchange(with_fields(request_of(SCRAP), *fields)), FORBIDDEN)
    trial.equal(shop.exchange(with_fields(request_of(SCRAP), *fields), 1), FORBIDDEN, "byte by byte")
    trial.equal(shop.exchange(asked("/message", "Content-Length: 9", *fields, method="POST")), FORBIDDEN, "without its body")
    trial.equal((shop.get("/trace/1/0"), shop.reply(TOTALS)), (before, totals(80, 0, 0, 0)))
    trial.holds(b'"ok":"scrap"' in shop.reply(SCRAP), "the terminal's own")


@case(
    "which fields are looked at",
    "Names of fields count without regard to capitals, spaces around a value don't, and of several fields of a name any "
    "strange one suffices.",
)
def which_fields(trial):
    shop = filled(trial)
    own = f"http://localhost:{shop.port}"
    strange = [("SEC-FETCH-SITE: cross-site",), ("oRiGiN: null",), ("sec-fetch-site:cross-site",), ("Origin: \t null \t",)]
    strange += [("Origin: null", f"Origin: {own}"), (f"Origin: {own}", "Origin: null"), (f"Origin: {own}, {own}",)]
    strange += [("Sec-Fetch-Site: none", "Sec-Fetch-Site: cross-site"), ("Sec-Fetch-Site: none", "Origin: null")]
    for fields in strange:
        trial.equal(shop.exchange(asked("/totals/GLASS", *fields)), FORBIDDEN, " | ".join(fields))
    own_twice = [f"Origin: {own}"] * 2 + ["Sec-Fetch-Site: none", "Sec-Fetch-Site: same-origin"]
    trial.equal(shop.exchange(asked("/totals/GLASS", *own_twice)), answer(200, totals(80, 0, 0, 0)))


@case(
    "a strange request beside other faults",
    "A bad head, two hosts, a coding and bad lengths come before 403, and 403 before the route, the method and the "
    "faults of a body.",
)
def beside_faults(trial):
    shop = filled(trial)
    strange = "Origin: null"
    for request, status in (
        (asked("/totals/GLASS", strange, host=None), 400),
        (asked("/totals/GLASS", strange, "Host: b"), 400),
        (b"GET  /totals/GLASS HTTP/1.1\r\nHost: a\r\nOrigin: null\r\n\r\n", 400),
        (b"GET /totals/GLASS HTTP/1.1\r\nHost: a\r\nOrigin: null\r\n", 400),
        (asked("/totals/GLASS", strange, f"A: {'b' * 8192}"), 431),
        (asked("/message", strange, "Transfer-Encoding: chunked", method="POST"), 411),
        (asked("/message", strange, "Content-Length: x", method="POST"), 400),
        (asked("/message", strange, "Content-Length: 1", "Content-Length: 1", method="POST"), 400),
    ):
        trial.equal(shop.exchange(request), answer(status), request)
    for request in (
        asked("/", strange),
        asked("/nowhere", strange),
        asked("/totals/GLASS", strange, method="PUT"),
        asked("/message", strange, method="POST"),
        asked("/message", strange, "Content-Length: 131073", method="POST"),
        asked("/message", strange, "Content-Length: 5", method="POST"),
        asked("/totals/GLASS", strange, host=None, version="HTTP/1.0"),
    ):
        trial.equal(shop.exchange(request), FORBIDDEN, request)


@case(
    "names of this machine",
    "With a page a Host is `127.0.0.1`, `localhost` or `[::1]`, with the port or without, and another is answered 403; "
    "without a page each is served.",
)
def hosts(trial):
    page = trial.write("page.html", "<p>a page</p>")
    for words in ((), ("--page", page)):
        shop = trial.shop(f"{len(words)}.db", words=words)
        own = [f"{name}{port}" for name in ("127.0.0.1", "localhost", "[::1]") for port in ("", f":{shop.port}")]
        others = ["shop", "evil.example", f"evil.example:{shop.port}", f"localhost:{shop.port + 1}", "127.0.0.1:80", ""]
        others += ["LOCALHOST", "127.0.0.2", "localhost:", f"localhost.:{shop.port}", "::1", f"[::1]:{shop.port + 1}", f"localhost:0{shop.port}"]
        for host in own + others:
            refused = words and host not in own
            wanted = FORBIDDEN if refused else answer(404, '{"name":"NoMaterial","refused":20}')
            trial.equal(shop.exchange(asked("/rack/A", host=host)), wanted, f"{host} {words}")
            if words:
                trial.equal(shop.exchange(asked("/", host=host)), FORBIDDEN if refused else page_answer(b"<p>a page</p>"), host)
        nowhere = asked("/rack/A", host=None, version="HTTP/1.0")
        trial.equal(shop.exchange(nowhere), answer(404, '{"name":"NoMaterial","refused":20}'), "no Host in HTTP/1.0")


@case(
    "the page",
    "`GET /`, with whatever behind a `?`, gives the file's bytes as they were at the start, with their fields; "
    "another method is 405, and without the option there is no route.",
)
def page(trial):
    text = b"<!doctype html>\r\n<p>caf\xc3\xa9 \x00\xff</p>\n"
    path = trial.write("page.html", text)
    shop = trial.shop(words=("--page", path))
    trial.write("page.html", "another")
    for target in ("/", "/?", "/?x", "/?/totals/GLASS", "/?a=1&b=2?c"):
        trial.equal(shop.exchange(asked(target, host="localhost")), page_answer(text), target)
    trial.equal(shop.exchange(asked("/", host="localhost"), 1), page_answer(text), "byte by byte")
    trial.equal(shop.exchange(asked("/", host=None, version="HTTP/1.0")), page_answer(text), "HTTP/1.0")
    trial.equal(shop.exchange(asked("/", "Content-Length: 9", host="localhost")), page_answer(text), "a body that isn't read")
    for method in ("POST", "PUT", "HEAD", "OPTIONS", "get", "DELETE"):
        trial.equal(shop.exchange(asked("/", host="localhost", method=method)), NO_PAGE, method)
        trial.equal(shop.exchange(asked("/?x", "Content-Length: 3", host="localhost", method=method)), NO_PAGE, method)
    for target in ("//", "/index.html", "/.", "/%2F"):
        trial.equal(shop.exchange(asked(target, host="localhost")), answer(404), target)
    trial.equal(shop.exchange(asked("/", "Content-Length: x", host="localhost")), answer(400))
    trial.equal(shop.exchange(asked("/", "Origin: null", host="localhost")), FORBIDDEN)
    bare = trial.shop("bare.db")
    for method in ("GET", "POST"):
        trial.equal(bare.exchange(asked("/", host="localhost", method=method)), answer(404), method)


@case(
    "page files at their limits",
    "An empty page and one of 1048576 bytes are served; one byte more, a folder and no file are `fault file`, behind "
    "the shop file and before the store.",
)
def page_files(trial):
    for text in (b"", b"a" * 1048576):
        shop = trial.shop(f"{len(text)}.db", words=("--page", trial.write("page.html", text)))
        trial.equal(shop.exchange(asked("/", host="127.0.0.1")), page_answer(text), f"{len(text)} bytes")
    trial.write("long.html", b"a" * 1048577)
    trial.write("text.toml", "material = 1")
    trial.write("shop.toml", "")
    with open(trial.path("huge.html"), "wb") as file:
        file.truncate(1 << 36)
    for shop_file, name, line in (
        ("shop.toml", "long.html", "fault file"),
        ("shop.toml", "huge.html", "fault file"),
        ("shop.toml", "no.html", "fault file"),
        ("shop.toml", ".", "fault file"),
        ("text.toml", "no.html", "fault shop text"),
        ("shop.toml", "page.html", "fault store"),
    ):
        for store in (".",) if line == "fault store" else (".", "new.db"):
            ran = trial.run("serve", "--port", "1", "--store", store, "--shop", shop_file, "--page", name)
            trial.ended(ran, 1, err=f"{line}\n", sent=f"{shop_file} {name} {store}")
    trial.holds(not os.path.exists(trial.path("new.db")), "no store is made")
