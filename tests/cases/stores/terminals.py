"""Stores and terminals under stress: stops in the middle of posts, a store in use, paths that are none, and a full disk."""

import os
import resource
import signal

from kit import tables
from kit.case import case, fault_in
from kit.earlier import REPORT
from kit.stores import DAY, sent
from kit.terminals import Terminal, at_once, independent, judged_by_modes, stopped_at


@case(
    "stops in the middle of posts",
    "Eight terminals post at once; the shop is stopped by SIGKILL, SIGTERM and SIGKILL and started again: each "
    "acknowledged message sent again gets its reply, and the tables are those of a run without a stop.",
)
def stops(trial):
    count, terminals = 9, [Terminal(it) for it in range(1, 9)]
    for answers, number in ((8, signal.SIGKILL), (26, signal.SIGTERM), (45, signal.SIGKILL)):
        shop = trial.shop()
        trial.holds(shop.is_open, "the shop doesn't open again")
        trial.equal(at_once(shop, terminals, count, stopped_at(shop, terminals, answers, number)), [])
        trial.equal(shop.process.returncode, -number)
    shop = trial.shop()
    trial.equal(at_once(shop, terminals, count), [])
    trial.equal([len(it.exchanges) for it in terminals], [count] * len(terminals))
    shop.kill()
    whole, others = trial.shop("whole.db"), [Terminal(it) for it in range(1, 9)]
    for it in others:
        trial.equal(it.send_all(whole, count), None)
    whole.kill()
    trial.equal(independent(shop.store), independent(whole.store))
    kept = {(it[0], it[1]): it[2:] for it in tables.rows(shop.store)["kept"]}
    output = {(it.number, index): step for it in terminals for index, step in enumerate(it.exchanges, 1)}
    trial.equal(kept, output)
    trial.equal(tables.select(shop.store, "PRAGMA integrity_check"), [("ok",)])


@case(
    "a store in use",
    "A store that is served is `fault store` to a second `serve`, `ticket` and `yield`, and the first goes on.",
)
def in_use(trial):
    shop = trial.shop()
    sent(trial, shop, DAY[:3])
    second = trial.shop()
    trial.equal((second.is_open, second.status, second.output, fault_in(second.errors)), (False, 1, b"", b"fault store\n"))
    for words in (("ticket", "2"), ("yield", "GLASS")):
        trial.ended(trial.run(words[0], "--store", shop.store, words[1]), 1, err="fault store\n", sent=words[0])
    sent(trial, shop)
    shop.kill()
    trial.ended(trial.run("yield", "--store", shop.store, "GLASS"), 0, REPORT)


@case(
    "paths that are no store",
    "A store in a folder that isn't there, a folder, and a file that is no database are `fault store`; the file "
    "stays byte for byte.",
)
def no_store(trial):
    os.mkdir(trial.path("folder"))
    texts = {"short": b"hello\n", "text": b"no database, but a text of some length\n" * 200, "zeros": bytes(8192)}
    for name, content in texts.items():
        trial.write(name, content)
    for name in ("nowhere/shop.db", "folder", *texts):
        for words in (("ticket", "2"), ("yield", "GLASS")):
            trial.ended(trial.run(words[0], "--store", name, words[1]), 1, err="fault store\n", sent=f"{name} {words}")
        shop = trial.shop(name)
        trial.equal((shop.is_open, shop.status, fault_in(shop.errors)), (False, 1, b"fault store\n"), name)
    for name, content in texts.items():
        with open(trial.path(name), "rb") as file:
            trial.equal(file.read(), content, name)
    trial.equal((os.listdir(trial.path("folder")), os.path.exists(trial.path("nowhere"))), ([], False))


@case(
    "a store that can't be written",
    "A file and a folder that may only be read are `fault store`, and the file stays byte for byte.",
)
def read_only(trial):
    path = tables.make(trial.path("shop.db"), {})
    os.mkdir(trial.path("folder"), 0o500)
    os.chmod(path, 0o400)
    with open(path, "rb") as file:
        before = file.read()
    for name in ("shop.db", "folder/shop.db"):
        ran = trial.run("yield", "--store", name, "GLASS", prepare=judged_by_modes)
        trial.ended(ran, 1, err="fault store\n", sent=name)
        shop = trial.shop(name, prepare=judged_by_modes)
        trial.equal((shop.is_open, shop.status, fault_in(shop.errors)), (False, 1, b"fault store\n"), name)
    with open(path, "rb") as file:
        trial.equal(file.read(), before)
    trial.equal(os.listdir(trial.path("folder")), [])


def small_files(size):
    """In a new process: no file grows over a size, and a write that would fails."""

    def prepare():
        signal.signal(signal.SIGXFSZ, signal.SIG_IGN)
        resource.setrlimit(resource.RLIMIT_FSIZE, (size, size))

    return prepare


@case(
    "a full disk",
    "Where the store's files can't grow a message is refused 99 and changes nothing; with room what was acknowledged "
    "is there, and the refused message is accepted.",
)
def full_disk(trial):
    trial.shop(limit=1).kill()
    terminal, shop = Terminal(1), trial.shop(prepare=small_files(400 * 1024))
    trial.holds(shop.is_open, "the shop doesn't open under the limit")
    refused = None
    while refused is None and len(terminal.exchanges) < 400:
        line = terminal.message(len(terminal.exchanges))
        head, _, body = shop.send(line).partition(b"\r\n\r\n")
        if b'"ok"' in body:
            terminal.exchanges.append((line, body.decode()))
        else:
            refused = line
            trial.equal(body, b'{"name":"StoreFault","refused":99}', line)
            trial.equal(head.split(b"\r\n")[0], b"HTTP/1.1 503 Service Unavailable", line)
    trial.holds(refused, "no message meets the limit")
    shop.kill()
    trial.equal([it[2:] for it in tables.rows(shop.store)["kept"]], terminal.exchanges)
    again = trial.shop()
    trial.equal(terminal.send_all(again, len(terminal.exchanges) + 1), None)
    trial.equal(terminal.exchanges[-1][0], refused)
    again.kill()
    trial.equal(tables.select(shop.store, "PRAGMA integrity_check"), [("ok",)])
