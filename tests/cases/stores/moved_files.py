"""A store whose files get other names, or whose names get other files, isn't served on."""

import os
import shutil

from kit.case import case
from kit.copies import TOLD
from kit.yards import Yard


def yard_of(count):
    """A yard that got so many bars."""
    yard = Yard(7)
    yard.material("STEEL", 3)
    yard.receive("STEEL", 60000, 1, count)
    return yard


def stock(shop):
    """What a shop answers of the bars that it has."""
    return shop.get("/totals/STEEL").partition(b"\r\n\r\n")[2]


def bytes_of(store):
    """What the two files of a store hold."""
    held = []
    for path in (store, store + "-wal"):
        with open(path, "rb") as file:
            held.append(file.read())
    return held


def ended(trial, shop, yard, words):
    """A message that comes now isn't taken, and the shop ends by itself and says why."""
    before = len(yard.lines)
    yard.receive("STEEL", 60000, 1, 50)
    try:
        came = shop.send(yard.lines[before])
    except OSError:
        came = b""
    trial.equal(came, b"", words)
    status, _, errors = shop.end()
    trial.equal(status, 1, words)
    # (behind the two lines of its start)
    output = errors.decode().splitlines(keepends=True)[2:]
    trial.equal("".join(output), TOLD.format(shop.store), words)


def moved_whole(store):
    """Both files get into another folder."""
    folder = os.path.join(os.path.dirname(store), "away")
    os.mkdir(folder)
    for path in (store, store + "-wal"):
        shutil.move(path, folder)
    return os.path.join(folder, os.path.basename(store))


def moved_log(store):
    """The log alone gets another name; it is put back for the look at what the store holds."""
    os.rename(store + "-wal", store + "-away")
    return store


@case(
    "files that are moved away while they are served",
    "Both files are moved into another folder, or the log alone: the shop ends with status 1 and says that other files have its "
    "names, a message that comes then isn't done, and the files have all that was answered before.",
)
def moved_away(trial):
    for name, move in (("whole.db", moved_whole), ("log.db", moved_log)):
        yard = yard_of(2)
        shop = yard.serve(trial, name)
        before = stock(shop)
        shop.stand_still()
        there = move(shop.store)
        shop.go_on()
        ended(trial, shop, yard, name)
        if move is moved_log:
            os.rename(shop.store + "-away", shop.store + "-wal")
        again = Yard(8).serve(trial, os.path.relpath(there, trial.folder))
        trial.equal(stock(again), before, name)
        again.kill()


@case(
    "names that get other files while they are served",
    "A copy of another store is renamed over both files, or a link that is the store's name is laid anew: the shop ends, and the "
    "other files aren't changed by a byte.",
)
def other_files(trial):
    other = yard_of(1).serve(trial, "other.db")
    other.kill()
    held = bytes_of(other.store)

    yard = yard_of(3)
    shop = yard.serve(trial, "shop.db")
    for end in ("", "-wal"):
        shutil.copy(other.store + end, shop.store + ".new" + end)
    shop.stand_still()
    for end in ("-wal", ""):
        os.replace(shop.store + ".new" + end, shop.store + end)
    shop.go_on()
    ended(trial, shop, yard, "renamed over both")
    trial.equal(bytes_of(shop.store), held, "renamed over both")

    os.mkdir(trial.path("under"))
    yard = yard_of(3)
    first = yard.serve(trial, "under/first.db")
    first.kill()
    link = trial.path("link.db")
    os.symlink(first.store, link)
    linked = Yard(9).serve(trial, "link.db")
    linked.stand_still()
    os.remove(link)
    os.symlink(other.store, link)
    linked.go_on()
    ended(trial, linked, yard, "a link that is laid anew")
    trial.equal(bytes_of(other.store), held, "a link that is laid anew")
