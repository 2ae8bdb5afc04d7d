"""Backups that an open shop makes, what each has, and folders of them."""

import json
import os
import shutil
from contextlib import ExitStack, contextmanager

from kit import crowds, tables
from kit.shop import answer
from kit.terminals import Terminal

FAULT = b'{"name":"StoreFault","refused":99}'
REQUEST = b"POST /backup HTTP/1.1\r\nHost: shop\r\nContent-Length: 0\r\n\r\n"
FAILED = "cutshop: answered 99 StoreFault; no backup was made in "


def backup_answer(number):
    """The answer that reports a backup's number."""
    return answer(200, f'{{"backup":{number},"ok":"backup"}}')


def open_shop(trial, store="shop.db", folder="backups", **named):
    """A shop with a folder of backups, which is made where it isn't there."""
    os.makedirs(trial.path(folder), exist_ok=True)
    shop = trial.shop(store, words=("--backup", folder), **named)
    trial.holds(shop.is_open, f"the shop doesn't open: {getattr(shop, 'errors', b'')}")
    return shop


def content(path):
    with open(path, "rb") as file:
        return file.read()


def rows_of(path):
    """The rows that a copy has, read from a copy of it."""
    again = f"{path}-read"
    for end in ("", "-wal"):
        shutil.copy(path + end, again + end)
    rows = tables.rows(again)
    for end in ("", "-wal", "-shm"):
        if os.path.exists(again + end):
            os.remove(again + end)
    return rows


def has_done(trial, rows, terminal, path):
    """How many messages of a terminal a copy has: the first ones, as they were answered, and the rows that they make."""
    found = [it for it in rows["kept"] if it[0] == terminal.number]
    trial.equal(found, [(terminal.number, number, *it) for number, it in enumerate(terminal.exchanges[: len(found)], 1)], path)
    # (a material, and then by turns a unit, an order, a job, and the two strips and three parts that it leaves)
    units, orders, jobs, cut = [max(len(found) + it, 0) // 4 for it in (2, 1, 0, -1)]
    parts = sum(it[2] == terminal.code for it in rows["parts"])
    made = {it[0] for it in rows["parts"] if it[2] == terminal.code}
    output = (parts, sum(it[3] == terminal.code for it in rows["demands"]), sum(it[1] in made for it in rows["jobs"]))
    trial.equal(output, (units + 5 * cut, orders, jobs), f"{path}: the parts, demands and jobs of {len(found)} messages")
    return len(found)


def names(trial, folder="backups"):
    return sorted(os.listdir(trial.path(folder)))


def is_whole(trial, path, terminals):
    """A copy has the rows of the messages that are kept in it and opens; its messages, sent again, of many the first and the last
    few, get the replies that they got; those behind are new to it. How many it has of each terminal."""
    rows = rows_of(path)
    shop = trial.shop(path)
    trial.holds(shop.is_open, f"the copy {path} doesn't open: {getattr(shop, 'errors', b'')}")
    counts = []
    for it in terminals:
        count = has_done(trial, rows, it, path)
        again = it.exchanges[:count] if count <= 12 else it.exchanges[:1] + it.exchanges[count - 3 : count]
        trial.equal([(line, shop.reply(line).decode()) for line, _ in again], again, path)
        last = json.loads(shop.get(f"/terminal/{it.number}").partition(b"\r\n\r\n")[2])["last"]
        trial.equal(last, count, path)
        counts.append(count)
    shop.kill()
    trial.equal(tables.select(path, "PRAGMA integrity_check"), [("ok",)], path)
    return counts


@contextmanager
def posting(shop, terminals, pause=0.005):
    """Terminals that send one message after the other meanwhile. What of the answers isn't as it has to be is given as a list."""
    faults = []

    def post(it, ends):
        while not ends.wait(pause):
            is_whole_answer, fault = it.send(shop, len(it.exchanges))
            if fault or not is_whole_answer:
                faults.append(f"terminal {it.number}, message {len(it.exchanges) + 1}: {fault}")
                return

    with ExitStack() as stack:
        for it in terminals:
            stack.enter_context(crowds.beside(lambda ends, it=it: post(it, ends)))
        yield faults


def day_of(trial):
    """A terminal whose messages all were answered."""
    shop, day = trial.shop("day.db"), Terminal(1)
    trial.equal(day.send_all(shop, 3), None)
    shop.kill()
    return day


def fill(trial, folder, **files):
    """A folder with files of these names, each with what is given for it: bytes, a link's path, or None for a folder."""
    path = trial.path(folder)
    os.makedirs(path, 0o700)
    for name, what in files.items():
        name = os.path.join(path, name.replace("_", "."))
        if what is None:
            os.mkdir(name)
        elif isinstance(what, str):
            os.symlink(what, name)
        else:
            with open(name, "wb") as file:
                file.write(what)


def tree(path):
    """All that is below a folder, with the bytes of each file and the path of each link."""
    found = {}
    for root, folders, files in os.walk(path):
        for name in folders + files:
            it = os.path.join(root, name)
            found[it] = os.readlink(it) if os.path.islink(it) else content(it) if os.path.isfile(it) else None
    return found
