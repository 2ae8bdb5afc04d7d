"""Backups of which only so many are kept, and folders of backups that others change meanwhile: nothing but old backups goes."""

import errno
import os
import shutil
import signal
import threading
import time
from functools import partial

from kit.backups import FAILED, FAULT, REQUEST, day_of, fill, is_whole, names, open_shop, backup_answer, tree
from kit.case import case
from kit.faults import Faults, sweep
from kit.shop import answer
from kit.terminals import Terminal


def stays(number, folder="backups"):
    """The line that reports of an old backup that couldn't be taken away."""
    return f"cutshop: backup {number} in {folder} wasn't taken away; look what is in it\n".encode()


def keeping(trial, keep, store="shop.db", folder="backups", **named):
    os.makedirs(trial.path(folder), 0o700, exist_ok=True)
    shop = trial.shop(store, words=("--backup", folder, "--keep", str(keep)), **named)
    trial.holds(shop.is_open, f"the shop doesn't open: {getattr(shop, 'errors', b'')}")
    return shop


@case(
    "the newest backups stay",
    "With `--keep K` the K newest numbers stay behind each backup, from 1 on; each of them is whole. Those before are gone, also of an "
    "earlier run that kept all.",
)
def newest(trial):
    shop, terminal = open_shop(trial), Terminal(1)
    for number in (1, 2, 3):
        trial.equal(terminal.send_all(shop, number), None)
        trial.equal(shop.exchange(REQUEST), backup_answer(number))
    shop.kill()
    shop = keeping(trial, 2)
    trial.equal(names(trial), ["1", "2", "3"])
    for number in (4, 5):
        trial.equal(terminal.send_all(shop, number), None)
        trial.equal(shop.exchange(REQUEST), backup_answer(number))
        trial.equal(names(trial), [str(number - 1), str(number)])
    shop.kill()
    for number in (4, 5):
        trial.equal(is_whole(trial, trial.path(f"backups/{number}/shop.db"), [terminal]), [number])
    shop = keeping(trial, 1)
    trial.equal(shop.exchange(REQUEST), backup_answer(6))
    trial.equal([it for it in names(trial) if it.isdigit()], ["6"])


@case(
    "what isn't an old backup stays",
    "With `--keep 1` a link, a file, a folder with a file more, with one less, with a folder or a link in the place of a file, with none, and "
    "one whose name for a part is taken stay byte for byte, and where the links lead, too; each is reported in a line. A part stays, and isn't reported.",
)
def others_stay(trial):
    fill(trial, "else", **{"shop.db": b"s", "shop.db-wal": b"l"})
    fill(trial, "backups/1", **{"shop.db": b"s", "shop.db-wal": b"l"})
    os.symlink("../else", trial.path("backups/2"))
    fill(trial, "backups/3", **{"shop.db": b"s", "shop.db-wal": b"l", "note.txt": b"n"})
    fill(trial, "backups/4", **{"shop.db": None, "shop.db-wal": b"l"})
    trial.write("backups/5", "x")
    fill(trial, "backups/6.part", **{"shop.db": b"s", "shop.db-wal": b"l"})
    fill(trial, "backups/7")
    fill(trial, "backups/8", **{"shop.db": b"s"})
    fill(trial, "backups/9", **{"shop.db": "../../else/shop.db", "shop.db-wal": b"l"})
    fill(trial, "backups/10", **{"other.db": b"s", "other.db-wal": b"l"})
    fill(trial, "backups/11", **{"shop.db": b"s", "shop.db-wal": b"l"})
    fill(trial, "backups/11.part")
    os.chmod(trial.path("backups"), 0o700)
    before = {**tree(trial.path("backups")), **tree(trial.path("else"))}
    shop = keeping(trial, 1, limit=2)
    trial.equal(shop.exchange(REQUEST), backup_answer(12))
    shop.get("/materials")
    errors = shop.end()[2]
    after = {**tree(trial.path("backups")), **tree(trial.path("else"))}
    gone = trial.path("backups/1")
    wanted = {path: it for path, it in before.items() if path != gone and not path.startswith(f"{gone}/")}
    trial.equal({path: it for path, it in after.items() if not path.startswith(trial.path("backups/12"))}, wanted)
    lines = [it for it in errors.splitlines(keepends=True) if b"taken away" in it]
    trial.equal(lines, [stays(it) for it in (2, 3, 4, 5, 7, 8, 9, 10, 11)])


@case(
    "a store that lies in a folder of backups",
    "A shop that serves a store from `backups/1`, or one of the same file by another name, never takes that away as an old backup.",
)
def store_within(trial):
    for folder, store in (("inner", "inner/1/shop.db"), ("linked", "linked.db")):
        os.makedirs(trial.path(f"{folder}/1"), 0o700)
        os.chmod(trial.path(folder), 0o700)
        shop, terminal = keeping(trial, 1, store, folder), Terminal(1)
        trial.equal(terminal.send_all(shop, 3), None)
        if folder == "linked":
            for end in ("", "-wal"):
                os.link(trial.path(f"{store}{end}"), trial.path(f"{folder}/1/{store}{end}"))
        trial.equal(shop.exchange(REQUEST), backup_answer(2))
        trial.equal(names(trial, folder), ["1", "2"])
        trial.equal(sorted(os.listdir(trial.path(f"{folder}/1"))), [os.path.basename(store), f"{os.path.basename(store)}-wal"])
        trial.equal(terminal.send_all(shop, 4), None)
        shop.kill()
        trial.equal(is_whole(trial, trial.path(f"{folder}/2/{os.path.basename(store)}"), [terminal]), [3])


@case(
    "no old backup goes where none was made",
    "Where a backup is refused 99 the old ones stay, whatever `--keep` says.",
)
def refused(trial):
    shop = keeping(trial, 1, limit=3)
    trial.equal(shop.exchange(REQUEST), backup_answer(1))
    os.rename(trial.path("shop.db"), trial.path("away.db"))
    # The shop may have seen already that its file is away, and have ended.
    try:
        got = shop.exchange(REQUEST)
    except ConnectionError:
        got = b""
    os.rename(trial.path("away.db"), trial.path("shop.db"))
    trial.equal((got in (answer(503, FAULT), b""), names(trial)), (True, ["1"]), got)


@case(
    "another folder of backups than at the start",
    "Where another folder has the name a backup is refused 99, that is reported, and nothing is made in it or taken away; with the old one back "
    "one is made. So where others may write in it meanwhile, and at the start.",
)
def another(trial):
    shop = keeping(trial, 1, limit=4)
    trial.equal(shop.exchange(REQUEST), backup_answer(1))
    os.rename(trial.path("backups"), trial.path("else"))
    shutil.copytree(trial.path("else"), trial.path("backups"))
    os.chmod(trial.path("backups"), 0o700)
    before = tree(trial.path("backups"))
    trial.equal(shop.exchange(REQUEST), answer(503, FAULT))
    trial.equal(tree(trial.path("backups")), before)
    shutil.rmtree(trial.path("backups"))
    os.rename(trial.path("else"), trial.path("backups"))
    os.chmod(trial.path("backups"), 0o720)
    trial.equal(shop.exchange(REQUEST), answer(503, FAULT))
    trial.equal(names(trial), ["1"])
    os.chmod(trial.path("backups"), 0o700)
    trial.equal(shop.exchange(REQUEST), backup_answer(2))
    errors = shop.end()[2].decode()
    for why in ("the folder is another than at the start; is its disk mounted?", "others may write in it"):
        trial.equal(errors.count(f"{FAILED}backups: {why}\n"), 1, errors)
    trial.write("shop.toml", "")
    for mode in (0o720, 0o702, 0o777, 0o1777):
        os.chmod(trial.path("backups"), mode)
        ran = trial.run("serve", "--port", "1", "--store", "new.db", "--shop", "shop.toml", "--backup", "backups")
        trial.ended(ran, 1, err="fault backup\n", why="backups: others may write in it", sent=oct(mode))
    trial.equal(os.path.exists(trial.path("new.db")), False)
    os.chmod(trial.path("backups"), 0o700)


@case(
    "a folder that anybody made doesn't stop the shop",
    "A folder `0.part` with something in it, or a file, is let alone: the shop starts, and makes backups.",
)
def taken_name(trial):
    fill(trial, "backups/0.part", x=b"x")
    trial.write("backups/0.1.part", "y")
    os.chmod(trial.path("backups"), 0o700)
    before = tree(trial.path("backups"))
    shop = open_shop(trial)
    trial.equal(tree(trial.path("backups")), before)
    trial.equal(shop.exchange(REQUEST), backup_answer(1))


# ---- a folder that is swapped


def wait_until_halted(process):
    """Whether a process stands still soon."""
    limit = time.monotonic() + 60
    while time.monotonic() < limit and process.poll() is None:
        with open(f"/proc/{process.pid}/stat", encoding="ascii") as file:
            if file.read().rpartition(")")[2].split()[0] == "T":
                return True
        time.sleep(0.002)
    return False


def swap(folder, away, store):
    """Puts each folder of a backup elsewhere, and a link to the store's folder in its place."""
    for name in os.listdir(folder):
        path = os.path.join(folder, name)
        if os.path.isdir(path) and not os.path.islink(path):
            os.rename(path, os.path.join(away, name))
            os.symlink(store, path)


def swapped_at(trial, day, at, **named):
    """A second backup, of which one is kept, with all folders of backups swapped for links to the store's at a call. How many calls
    it made."""
    place = trial.path(f"swap-{at}")
    folder, store, away = (os.path.join(place, it) for it in ("backups", "store", "away"))
    for it in (folder, store, away):
        os.makedirs(it, 0o700)
    faults = Faults(trial, "files", at=at, stop="halted", under=os.path.realpath(folder))
    shop = keeping(trial, 1, f"{store}/shop.db", folder, environment=faults.environment)
    trial.equal(shop.reply(day.exchanges[0][0]).decode(), day.exchanges[0][1])
    trial.equal(shop.exchange(REQUEST), backup_answer(1))
    begin, got = faults.calls(), []
    asking = threading.Thread(target=lambda: got.append(shop.exchange(REQUEST)))
    asking.start()
    if at:
        trial.holds(wait_until_halted(shop.process), f"call {at}: the program doesn't stand still")
        before = tree(store)
        swap(folder, away, store)
        os.kill(shop.process.pid, signal.SIGCONT)
    asking.join(60)
    if at:
        trial.equal(tree(store), before, f"call {at}: {got}")
    trial.equal(shop.reply(day.exchanges[1][0]).decode(), day.exchanges[1][1], f"call {at}")
    end = faults.calls()
    shop.kill()
    faults.end()
    shutil.rmtree(place)
    return begin, end


@case(
    "a folder of backups that is swapped for the store's",
    "At each call that a backup makes in its folder, and at each by which it takes an old one away, all folders of backups are swapped for "
    "links to the store's own: both live files stay, byte for byte, and the shop goes on.",
)
def swapped(trial):
    day = day_of(trial)
    begin, end = swapped_at(trial, day, 0)
    trial.holds(end - begin >= 15, f"{end - begin} calls were seen")
    sweep(trial, 1, lambda at, **named: swapped_at(trial, day, begin + at) if at else end - begin, {})


# ---- each call in turn


def disturbed(trial, day, at, stop="", on=False, **named):
    """Three backups, of which one is kept, with a fault at a call in the folder, and what is there behind it. How many calls there were."""
    name = f"{at}-{stop}-{on}-{named.get('error', 0)}"
    folder, store = trial.path(f"backups-{name}"), f"shop-{name}.db"
    os.mkdir(folder, 0o700)
    faults = Faults(trial, "files", at=at, stop=stop, on=on, under=os.path.realpath(folder), **named)
    shop = trial.shop(store, words=("--backup", folder, "--keep", "1"), environment=faults.environment)
    last = 0
    for count in range(3 if shop.is_open else 0):
        try:
            shop.reply(day.exchanges[count][0])
            got = shop.exchange(REQUEST)
        except OSError:
            break
        if got.startswith(b"HTTP/1.1 200 OK\r\n"):
            last = int(got.rpartition(b"{")[2].partition(b":")[2].partition(b",")[0])
            trial.equal(got, backup_answer(last), name)
    shop.kill()
    found = sorted(int(it) for it in os.listdir(folder) if it.isdigit())
    trial.holds(last <= max(found, default=0), f"{name}: {last} was told, and there are {found}")
    for number in found:
        is_whole(trial, f"{folder}/{number}/{store}", [day])
    calls = faults.calls()
    faults.end()
    shutil.rmtree(folder)
    return calls


def sweep_kept(trial, *faults):
    sweep(trial, 5, partial(disturbed, trial, day_of(trial)), *faults, more_than=30)


@case(
    "a call in a folder of backups that are taken away fails",
    "Each call that changes the folder fails in turn, once or from then on: whatever has the name of a backup is whole, and one is "
    "there that is no older than the last that was reported.",
)
def fails(trial):
    sweep_kept(trial, {"error": errno.EIO}, {"error": errno.ENOSPC, "on": True})


@case(
    "stopped while old backups are taken away",
    "Stopped at each call that changes the folder, with all that was written or only what was synced: whatever has the name of a backup is "
    "whole, and one is there that is no older than the last that was reported.",
)
def stopped(trial):
    sweep_kept(trial, {"stop": "kept"}, {"stop": "dropped"})
