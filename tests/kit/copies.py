"""Copies of a store and its log, and why one is refused."""

import json
import os

from kit import tables
from kit.stores import sent

NO_LOG = "its log isn't beside it; put both files of a copy in place, or an empty file FILE-wal where there is none"
LONE_LOG = "a log lies there without its store; put the store beside it"
DAMAGED = "its log is damaged; put a copy of it and its log in its place"
OTHER_FORM = "it is a database of another form than cutshop's; name another file"
BOUND = "it has a trigger or a view on the shop's tables; take it away with sqlite3"
NO_DATABASE = "it is no SQLite database; name another file"
ENDS = ("", "-wal")


def both(path):
    """What a store and its log hold; of one that isn't there, None."""
    found = []
    for end in ENDS:
        found.append(None)
        if os.path.lexists(path + end):
            with open(path + end, "rb") as file:
                found[-1] = file.read()
    return found


def put(path, store, log):
    """Puts files in place of a store and its log; None: no file."""
    for end, content in zip(ENDS, (store, log)):
        if content is not None:
            with open(path + end, "wb") as file:
                file.write(content)
        elif os.path.exists(path + end):
            os.remove(path + end)


def killed(trial, name="day.db"):
    """The files of a shop that was killed after “remnant cut again”: all its messages are in the log."""
    shop = trial.shop(name)
    sent(trial, shop)
    shop.kill()
    store, log = both(shop.store)
    trial.equal(len(store), 4096, "the store's file before the first merge")
    return store, log


def plain(line):
    """A message as a store keeps it."""
    return json.dumps(json.loads(line), separators=(",", ":"), sort_keys=True)


def kept(trial, name):
    """The messages that a store keeps, with their replies."""
    return [it[2:] for it in tables.rows(trial.path(name))["kept"]]


TRIGGER = "CREATE TRIGGER again AFTER INSERT ON kept BEGIN DELETE FROM kept; END"


def frames_of(log):
    """Where each frame of a log begins, and whether it ends a commit."""
    size = int.from_bytes(log[8:12])
    return [(at, log[at + 4 : at + 8] != bytes(4)) for at in range(32, len(log) - size - 23, 24 + size)]


def last_commit(log):
    """Where the last commit of a log begins and ends; what lies behind it has other salts, or none."""
    size, begin, ends = int.from_bytes(log[8:12]), 32, []
    for at, is_end in frames_of(log):
        if log[at + 8 : at + 16] != log[16:24]:
            break
        if is_end:
            ends.append((begin, at + 24 + size))
            begin = at + 24 + size
    return ends[-1]


def flipped(content, at):
    return content[:at] + bytes([content[at] ^ 1]) + content[at + 1 :]


TOLD = "fault store\n  {}: other files have its names now; start this program anew\n"
