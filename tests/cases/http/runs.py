"""The run of a server: what reports it, requests that are for another one, and what reports how its store is."""

import errno
import json
import os
import re

from kit.browsers import FORBIDDEN, asked, with_fields
from kit.case import case
from kit.commands import STEEL
from kit.earlier import NEXT, made
from kit.faults import Faults
from kit.glass import GLASS, SHEET, TOTALS, totals
from kit.shop import answer, request_of

OTHER_RUN = b"HTTP/1.1 412 Precondition Failed\r\nContent-Length: 0\r\nConnection: close\r\n\r\n"
FAULT = '{"name":"StoreFault","refused":99}'
ONLY_GET = answer(405, allow="GET")


def body_of(output):
    return output.partition(b"\r\n\r\n")[2].decode()


def run_of(trial, shop, entries=0):
    """The run that a server reports, and the whole answer, as the formats have it, where there are so many entries."""
    output = shop.get("/health")
    version = trial.run("--version").out.decode().removeprefix("cutshop ").rstrip("\n")
    run = json.loads(body_of(output))["run"]
    trial.equal(output, answer(200, f'{{"entries":{entries},"ok":"health","run":"{run}","version":"{version}"}}'))
    trial.holds(re.fullmatch("[0-9a-f]{16}", run), run)
    return run


@case(
    "the run of a server",
    "Each start has another run, of 16 hexadecimal digits, which stays while it serves; `/health` reports it beside the version, by GET "
    "alone, with a page and without.",
)
def runs(trial):
    page = ("--page", trial.write("page.html", "<p>a page</p>"))
    seen = []
    for words in ((), (), page):
        shop = trial.shop(words=words)
        host = "localhost" if words else "shop"
        output = shop.exchange(asked("/health", host=host))
        seen.append(json.loads(body_of(output))["run"])
        for request in (asked("/health?x", host=host), asked("/health", host=host)):
            trial.equal(shop.exchange(request), output, request)
        if not words:
            trial.equal(run_of(trial, shop), seen[-1])
        for method in ("POST", "PUT", "HEAD"):
            trial.equal(shop.exchange(asked("/health", host=host, method=method)), ONLY_GET, method)
        for path in ("/health/", "/healt", "//health", "/health/x"):
            trial.equal(shop.exchange(asked(path, host=host)), answer(404), path)
        trial.equal(shop.exchange(asked("/health", "Origin: null", host=host)), FORBIDDEN)
        trial.equal(shop.exchange(asked("/health", "Content-Length: x", host=host)), answer(400))
        shop.kill()
    trial.equal(len(set(seen)), 3, seen)


@case(
    "entries that health tells",
    "`/health` reports how many entries there are: one more behind each accepted message, none more behind a repeat, a refused message and a query, also "
    "behind a stop; of a store of an earlier version those since it was taken over.",
)
def entries(trial):
    shop = trial.shop(shop_file=trial.write("shop.toml", STEEL))
    run_of(trial, shop, 1)
    for number, line in enumerate((GLASS, SHEET), 2):
        for it in (line, line, line.replace("GLASS", "NO"), TOTALS):
            shop.reply(it)
        run_of(trial, shop, number)
    shop.kill()
    shop = trial.shop(shop_file=shop.shop_file)
    run_of(trial, shop, 3)
    shop.kill()
    for version in (1, 2):
        made(trial, f"{version}.db", version)
        shop = trial.shop(f"{version}.db")
        run_of(trial, shop)
        trial.equal(shop.reply(NEXT[0]).decode(), NEXT[1])
        run_of(trial, shop, 1)


@case(
    "requests of another run",
    "A request with a field `If-Match` that isn't the run in quotes is answered 412, and nothing is done; each of several such fields "
    "has to be it. One of the run that serves is done.",
)
def others(trial):
    shop = trial.shop()
    before = run_of(trial, shop)
    trial.holds(b'"ok"' in shop.reply(GLASS), "a material")
    shop.kill()
    shop = trial.shop()
    run = run_of(trial, shop, 1)
    own = f'If-Match: "{run}"'
    others = [f'"{before}"', run, "*", "", f'W/"{run}"', f'"{run}', f"'{run}'", f'"{run.upper()}x"', f'"{run}", "{run}"', f'"{run}" x', '""']
    others += [f'"{run[:-1]}"', f'"0{run}"']
    for fields in [(f"If-Match: {it}",) for it in others] + [(own, f'If-Match: "{before}"'), ("IF-MATCH: *", own)]:
        trial.equal(shop.exchange(with_fields(request_of(SHEET), *fields)), OTHER_RUN, fields)
        trial.equal(shop.exchange(with_fields(request_of(SHEET), *fields), 1), OTHER_RUN, f"{fields}, byte by byte")
        trial.equal(shop.exchange(asked("/totals/GLASS", *fields)), OTHER_RUN, fields)
        trial.equal(shop.exchange(asked("/health", *fields)), OTHER_RUN, fields)
    trial.equal(shop.reply(TOTALS), totals(0, 0, 0, 0).replace(b":80,", b":0,"), "nothing was done")
    for fields in ((own,), (own, own), (f'if-match:  "{run}" \t',), ("If-None-Match: *",)):
        trial.equal(shop.exchange(asked("/health", *fields))[:15], b"HTTP/1.1 200 OK", fields)
    trial.equal(shop.exchange(with_fields(request_of(SHEET), own)), answer(200, '{"act":1,"count":1,"ok":"receive"}'))
    trial.equal(shop.reply(TOTALS), totals(80, 0, 0, 0), "it was done once")


@case(
    "a request of another run beside other faults",
    "A bad head and a request of another site come before 412, and 412 before the route, the method and the faults of a body.",
)
def beside(trial):
    shop = trial.shop()
    other = 'If-Match: "0123456789abcdef"'
    for request, wanted in (
        (asked("/totals/GLASS", other, host=None), answer(400)),
        (asked("/message", other, "Transfer-Encoding: chunked", method="POST"), answer(411)),
        (asked("/message", other, "Content-Length: x", method="POST"), answer(400)),
        (asked("/totals/GLASS", other, "Origin: null"), FORBIDDEN),
        (asked("/totals/GLASS", other, "Sec-Fetch-Site: cross-site"), FORBIDDEN),
    ):
        trial.equal(shop.exchange(request), wanted, request)
    for request in (
        asked("/", other),
        asked("/nowhere", other),
        asked("/totals/GLASS", other, method="PUT"),
        asked("/message", other, method="POST"),
        asked("/message", other, "Content-Length: 131073", method="POST"),
        asked("/backup", other, "Content-Length: 0", method="POST"),
        asked("/totals/GLASS", other, host=None, version="HTTP/1.0"),
    ):
        trial.equal(shop.exchange(request), OTHER_RUN, request)


@case(
    "the health of a store that fails",
    "From a message that the store couldn't take to the next that it takes `/health` is answered 503; what is asked meanwhile, and a "
    "message that is refused for what it says, change nothing.",
)
def failing(trial):
    counted = Faults(trial, "files")
    shop = trial.shop("a.db", environment=counted.environment)
    shop.reply(GLASS)
    calls = counted.calls()
    shop.kill()
    faults = Faults(trial, "files", at=calls + 1, error=errno.ENOSPC)
    shop = trial.shop("b.db", environment=faults.environment)
    trial.holds(b'"ok"' in shop.reply(GLASS), "a material")
    run_of(trial, shop, 1)
    trial.equal(shop.reply(SHEET), FAULT.encode())
    for _ in range(2):
        trial.equal(shop.get("/health"), answer(503, FAULT))
        trial.equal(shop.get("/materials")[:15], b"HTTP/1.1 200 OK")
        trial.equal(json.loads(shop.reply(SHEET.replace("GLASS", "NONE"))), {"name": "NoMaterial", "refused": 20})
    trial.equal(shop.get("/health"), answer(503, FAULT))
    trial.holds(b'"ok"' in shop.reply(SHEET), "with room it is taken")
    run_of(trial, shop, 2)


@case("a backup that fails", "A backup that couldn't be made says nothing of the store: `/health` is answered 200.")
def backup_failed(trial):
    os.mkdir(trial.path("backups"))
    shop = trial.shop(words=("--backup", "backups"))
    os.rmdir(trial.path("backups"))
    trial.equal(shop.exchange(asked("/backup", "Content-Length: 0", method="POST")), answer(503, FAULT))
    run_of(trial, shop)
