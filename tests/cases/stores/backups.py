"""Backups of an open shop: what a copy has, its number, when none is made, and that no half one is taken for one."""

import errno
import json
import os
import shutil
import sqlite3
import stat
import time
from concurrent.futures import ThreadPoolExecutor
from functools import partial
from itertools import product

from kit.backups import FAILED, FAULT, REQUEST, content, day_of, is_whole, names, open_shop, posting, backup_answer
from kit.case import case, fault_in
from kit.commands import STEEL
from kit.copies import TOLD
from kit.faults import Faults, sweep
from kit.shop import answer, begin_line, end_line
from kit.sockets import soon
from kit.terminals import Terminal, judged_by_modes

NO_MEMORY = b'{"name":"NoMemory","refused":98}'
DISK = b"cutshop: backups lie on the store's own disk\n"


@case(
    "a backup of an open shop",
    "Each backup is a folder of the next number with both files under their own names, for their owner alone, as they are between "
    "two requests: it has each message that was answered before, and none behind.",
)
def one_after_another(trial):
    shop, terminal = open_shop(trial), Terminal(1)
    for number in range(1, 4):
        trial.equal(terminal.send_all(shop, 3 * number), None)
        trial.equal(shop.exchange(REQUEST), backup_answer(number))
        folder = trial.path(f"backups/{number}")
        trial.equal(sorted(os.listdir(folder)), ["shop.db", "shop.db-wal"])
        trial.equal(stat.S_IMODE(os.stat(folder).st_mode), 0o700)
        for name in ("shop.db", "shop.db-wal"):
            trial.equal(content(f"{folder}/{name}"), content(trial.path(name)), name)
            trial.equal(stat.S_IMODE(os.stat(f"{folder}/{name}").st_mode), 0o600, name)
    trial.equal(names(trial), ["1", "2", "3"])
    trial.equal(terminal.send_all(shop, 12), None)
    shop.kill()
    for number in range(1, 4):
        trial.equal(is_whole(trial, trial.path(f"backups/{number}/shop.db"), [terminal]), [3 * number])


@case(
    "backups of a shop that is new and one that was there",
    "A store without a message is copied, too, and one that was opened again; each backup and the folder are reported on standard error.",
)
def noted(trial):
    for number, is_new in ((1, True), (2, False)):
        shop = open_shop(trial, limit=2)
        trial.equal(shop.exchange(REQUEST), backup_answer(number))
        shop.get("/materials")
        status, _, errors = shop.end()
        trial.equal(status, 0)
        lines = begin_line(shop.store, is_new) + DISK + f"cutshop: made backup {number} in backups\n".encode()
        trial.equal(errors[: len(lines)], lines)
        trial.equal(is_whole(trial, trial.path(f"backups/{number}/shop.db"), []), [])


@case(
    "the number of a backup",
    "It is one more than the greatest that something has up to 1000000, be it a folder, a file, a link, or the part of another try.",
)
def numbers(trial):
    shop = open_shop(trial)
    os.mkdir(trial.path("backups/1"))
    os.mkdir(trial.path("backups/2.part"))
    trial.write("backups/4", "")
    trial.write("backups/5.part", "")
    os.symlink("nowhere", trial.path("backups/6"))
    for name in ("0.part", "007", "+9", "9.parts", "1000001", "x"):
        trial.write(f"backups/{name}", "")
    for number in (7, 8):
        trial.equal(shop.exchange(REQUEST), backup_answer(number))
    os.rmdir(trial.path("backups/1"))
    trial.equal(shop.exchange(REQUEST), backup_answer(9))


@case(
    "what is posted for a backup",
    "The body says nothing; it is read as any other, and the faults of the request are those of other routes.",
)
def bodies(trial):
    shop, head = open_shop(trial), "POST /backup HTTP/1.1\r\nHost: shop\r\n"
    number = 0
    for body in (b"", b"{}", b'{"do":"receive"}', b"\xff" * 131072):
        number += 1
        request = f"{head}Content-Length: {len(body)}\r\n\r\n".encode() + body
        trial.equal(shop.exchange(request, pieces=4096), backup_answer(number), body[:20])
    trial.equal(shop.exchange(b"\r\nPOST /backup?now HTTP/1.0\r\nContent-Length: 0\r\n\r\n"), backup_answer(number + 1))
    wanted = [
        (f"GET /backup HTTP/1.1\r\nHost: shop\r\n\r\n", answer(405, allow="POST")),
        (f"{head}\r\n", answer(411)),
        (f"{head}Content-Length: 131073\r\n\r\n", answer(413)),
        (f"{head}Content-Length: 2\r\n\r\n1", answer(400)),
        (f"{head}Content-Length: 0\r\nSec-Fetch-Site: cross-site\r\n\r\n", answer(403)),
        ("POST /backup/ HTTP/1.1\r\nHost: shop\r\nContent-Length: 0\r\n\r\n", answer(404)),
        ("POST /backups HTTP/1.1\r\nHost: shop\r\nContent-Length: 0\r\n\r\n", answer(404)),
    ]
    for request, want in wanted:
        trial.equal(shop.exchange(request.encode()), want, request)
    trial.equal(names(trial), [str(it) for it in range(1, number + 2)])


@case(
    "backups to clients that end nothing",
    "A client that asks for a backup, keeps its side open and reads to the end has the whole answer and its end soon, of one that is "
    "made and of one that can't be.",
)
def ends(trial):
    shop = open_shop(trial)
    for number in (1, 2):
        soon(trial, shop, REQUEST, backup_answer(number))
    os.rename(trial.path("backups"), trial.path("away"))
    soon(trial, shop, REQUEST, answer(503, FAULT))


@case("no backups without a folder for them", "Without `--backup` there is no route, whatever the method and the body.")
def no_route(trial):
    shop = trial.shop()
    for request in (REQUEST, b"GET /backup HTTP/1.1\r\nHost: shop\r\n\r\n", b"POST /backup HTTP/1.1\r\nHost: shop\r\n\r\n"):
        trial.equal(shop.exchange(request), answer(404), request)
    refused = REQUEST.replace(b"\r\n\r\n", b"\r\nOrigin: http://else.example\r\n\r\n")
    trial.equal(shop.exchange(refused), answer(403))


@case(
    "100 backups while terminals post",
    "Eight terminals post at once, and 100 backups are made meanwhile: each copy opens, has what was answered before it was asked "
    "for, and nothing that was sent behind its answer; its rows are those of its messages.",
)
def beside_posts(trial):
    shop, terminals, bounds = open_shop(trial), [Terminal(it) for it in range(1, 9)], []
    with posting(shop, terminals) as faults:
        for number in range(1, 101):
            limit, last = time.monotonic() + 30, bounds[-1][1] if bounds else [0]
            # (each has at least one message more)
            while sum(len(it.exchanges) for it in terminals) < sum(last) - len(last) + 1 and time.monotonic() < limit:
                time.sleep(0.001)
            before = [len(it.exchanges) for it in terminals]
            trial.equal(shop.exchange(REQUEST), backup_answer(number))
            bounds.append((before, [len(it.exchanges) + 1 for it in terminals]))
    trial.equal(faults, [])
    shop.kill()
    trial.holds(all(first < last for first, last in zip(bounds[0][1], bounds[-1][0])), f"a terminal is silent: {bounds}")

    def check(number):
        before, behind = bounds[number - 1]
        counts = is_whole(trial, trial.path(f"backups/{number}/shop.db"), terminals)
        fits = all(least <= it <= most for least, it, most in zip(before, counts, behind))
        trial.holds(fits, f"backup {number}: {before}, {counts}, {behind}")
        return sum(counts)

    with ThreadPoolExecutor(2) as pool:
        found = list(pool.map(check, range(1, 101)))
    trial.equal(found, sorted(found))


@case(
    "a store in use stays so behind a backup",
    "Behind backups the store is in use for every other program, and the shop goes on.",
)
def stays_in_use(trial):
    shop, terminal = open_shop(trial), Terminal(1)
    for number in (1, 2):
        trial.equal(terminal.send_all(shop, 4 * number), None)
        trial.equal(shop.exchange(REQUEST), backup_answer(number))
        ran = trial.run("yield", "--store", shop.store, "M-1")
        trial.ended(ran, 1, err="fault store\n", why=f"{shop.store}: another program has it open")
    # (its own programs find it locked, too)
    trial.equal(tables_are_locked(shop.store), True)


def tables_are_locked(path):
    try:
        with sqlite3.connect(path, timeout=0) as it:
            it.execute("SELECT * FROM meta").fetchall()
    except sqlite3.OperationalError:
        return True
    return False


@case(
    "a backup of a store behind a link",
    "The files have the names that they have where the link leads.",
)
def linked(trial):
    os.mkdir(trial.path("disk"))
    os.symlink("disk/real.db", trial.path("shop.db"))
    trial.write("disk/real.db", "")
    shop, terminal = open_shop(trial), Terminal(1)
    trial.equal(terminal.send_all(shop, 5), None)
    trial.equal(shop.exchange(REQUEST), backup_answer(1))
    trial.equal(names(trial, "backups/1"), ["real.db", "real.db-wal"])
    shop.kill()
    trial.equal(is_whole(trial, trial.path("backups/1/real.db"), [terminal]), [5])


def ended_by_itself(trial, shop, words):
    """A shop that is asked for a backup, and ends in place of an answer, since other files have its names; or makes none and then ends,
    where they got them since it looked."""
    try:
        came = shop.exchange(REQUEST)
    except OSError:
        came = b""
    trial.holds(came in (b"", answer(503, FAULT)), f"{words}: {came}")
    status, _, errors = shop.end()
    trial.equal(status, 1, words)
    trial.holds(errors.endswith(TOLD.format(shop.store).encode()), f"{words}: {errors}")


@case(
    "a store that was moved away",
    "Where another file has the name of the store or of its log, or none has, no backup is made of it: the shop ends, and says why.",
)
def moved(trial):
    for number, (end, is_copied) in enumerate(product(("", "-wal"), (False, True))):
        where, folder = (end, is_copied), f"backups {number}"
        shop = open_shop(trial, f"{number}.db", folder)
        trial.equal(shop.exchange(REQUEST), backup_answer(1), where)
        os.rename(shop.store + end, trial.path("away"))
        if is_copied:
            shutil.copy(trial.path("away"), shop.store + end)
        ended_by_itself(trial, shop, where)
        trial.equal(names(trial, folder), ["1"], where)


WHY = {
    "nowhere": "it isn't there; make it first",
    "file": "it is no folder; name one",
    "file/in": "it is no folder; name one",
    "": "it isn't there; make it first",
}


@case(
    "folders in which no backup can be made",
    "A folder that isn't there, a file, and a folder in which this account may not write or that it may not read are `fault backup` at "
    "the start, behind the page and before the store.",
)
def no_folder(trial):
    trial.write("file", "")
    trial.write("shop.toml", STEEL)
    trial.write("text.toml", "material = 1")
    serve = ("serve", "--port", "1", "--store", "nowhere/shop.db")
    for folder, why in WHY.items():
        ran = trial.run(*serve, "--shop", "shop.toml", "--backup", folder)
        trial.ended(ran, 1, err="fault backup\n", why=f"{folder}: {why}", sent=folder)
    ran = trial.run(*serve, "--shop", "text.toml", "--backup", "nowhere")
    trial.ended(ran, 1, err="fault shop text\n")
    ran = trial.run(*serve, "--shop", "shop.toml", "--page", "no.html", "--backup", "nowhere")
    trial.ended(ran, 1, err="fault file\n")
    os.mkdir(trial.path("backups"))
    ran = trial.run(*serve, "--shop", "shop.toml", "--backup", "backups")
    trial.ended(ran, 1, err="fault store\n")
    trial.equal((os.path.exists(trial.path("nowhere")), names(trial)), (False, []))
    for mode in (0o500, 0o300, 0o000):
        os.chmod(trial.path("backups"), mode)
        ran = trial.run(*serve, "--shop", "shop.toml", "--backup", "backups", prepare=judged_by_modes)
        why = "backups: this account may not read it and make files in it"
        trial.ended(ran, 1, err="fault backup\n", why=why, sent=oct(mode))
    os.chmod(trial.path("backups"), 0o700)


@case(
    "a folder that goes away",
    "Where the folder is taken away, can't be written any more or becomes a file a backup is refused 99 and its cause reported; the shop goes on.",
)
def goes_away(trial):
    shop, terminal = open_shop(trial, limit=9, prepare=judged_by_modes), Terminal(1)
    trial.equal(shop.exchange(REQUEST), backup_answer(1))
    os.rename(trial.path("backups"), trial.path("else"))
    trial.equal(shop.exchange(REQUEST), answer(503, FAULT))
    trial.write("backups", "")
    trial.equal(shop.exchange(REQUEST), answer(503, FAULT))
    os.remove(trial.path("backups"))
    os.rename(trial.path("else"), trial.path("backups"))
    os.chmod(trial.path("backups"), 0o500)
    trial.equal(shop.exchange(REQUEST), answer(503, FAULT))
    os.chmod(trial.path("backups"), 0o700)
    trial.equal(terminal.send_all(shop, 4), None)
    trial.equal(shop.exchange(REQUEST), backup_answer(2))
    errors = shop.end()[2].decode()
    for why in ("it isn't there; make it first", "it is no folder; name one", "this account may not read it and make files in it"):
        trial.equal(errors.count(f"{FAILED}backups: {why}\n"), 1, errors)
    trial.equal(is_whole(trial, trial.path("backups/2/shop.db"), [terminal]), [4])


# The calls that change the folder: three at the start, the folder of a backup, its first file, and then that file's bytes.
FIRST_WRITE = 6


@case(
    "a backup to a full disk",
    "Where its files can't be written it is refused 99, what was made of it is taken away, and the shop goes on; with room one is made.",
)
def full(trial):
    folder = os.path.realpath(trial.path("backups"))
    faults = Faults(trial, "files", at=FIRST_WRITE, error=errno.ENOSPC, under=folder)
    shop, terminal = open_shop(trial, folder=folder, environment=faults.environment, limit=6), Terminal(1)
    trial.equal(shop.exchange(REQUEST), answer(503, FAULT))
    trial.equal(names(trial), [])
    trial.equal(terminal.send_all(shop, 3), None)
    trial.equal(shop.exchange(REQUEST), backup_answer(1))
    shop.get("/materials")
    errors = shop.end()[2].decode()
    trial.equal(errors.count(f"{FAILED}{folder}: its disk is full; make room\n"), 1, errors)
    trial.equal(is_whole(trial, trial.path("backups/1/shop.db"), [terminal]), [3])


@case(
    "writes of a backup that are interrupted",
    "A write that is interrupted once is made again, and the backup is made; 1000 times in a row it is refused 99.",
)
def interrupted(trial):
    for on, wanted in ((False, backup_answer(1)), (True, answer(503, FAULT))):
        folder = os.path.realpath(trial.path(f"backups-{on}"))
        faults = Faults(trial, "files", at=FIRST_WRITE, on=on, error=errno.EINTR, under=folder)
        shop = open_shop(trial, f"{on}.db", folder=folder, environment=faults.environment)
        trial.equal(shop.exchange(REQUEST), wanted, f"on: {on}")
        trial.holds(on == (faults.calls() > 1000), f"on: {on}, {faults.calls()} calls")
        shop.kill()


@case(
    "a start in a folder of backups that was stopped",
    "What a start that was stopped left in the folder is taken away by the next one.",
)
def left_over(trial):
    os.makedirs(trial.path("backups/0.part"))
    shop = open_shop(trial)
    trial.equal(names(trial), [])
    trial.equal(shop.exchange(REQUEST), backup_answer(1))


@case(
    "a store that can't be read for a backup",
    "Where a file of the store can't be opened for it a backup is refused 99 and that is reported; the shop goes on, and then one is made.",
)
def unread(trial):
    os.mkdir(trial.path("data"))
    under = os.path.realpath(trial.path("data"))
    counted = Faults(trial, "looks", under=under)
    shop = open_shop(trial, f"{under}/a.db", environment=counted.environment)
    calls = counted.calls()
    shop.kill()
    faults = Faults(trial, "looks", at=calls + 1, under=under)
    shop = open_shop(trial, f"{under}/b.db", environment=faults.environment, limit=2)
    trial.equal(shop.exchange(REQUEST), answer(503, FAULT))
    trial.equal(names(trial), [])
    trial.equal(shop.exchange(REQUEST), backup_answer(1))
    errors = shop.end()[2].decode()
    trial.equal(errors.count(f"{FAILED}backups: the store and its log can't be read\n"), 1, errors)


@case(
    "a folder in which the last number of a backup is taken",
    "Where 1000000 is taken a backup is refused 99 and that is reported; a greater number is no backup's.",
)
def each_number(trial):
    folder = os.path.realpath(trial.path("backups"))
    os.makedirs(os.path.join(folder, "999999.part"), 0o700)
    os.mkdir(os.path.join(folder, "1000001"))
    shop = open_shop(trial, folder=folder, limit=2)
    trial.equal(shop.exchange(REQUEST), backup_answer(1000000))
    trial.equal(shop.exchange(REQUEST), answer(503, FAULT))
    errors = shop.end()[2].decode()
    trial.equal(errors.count(f"{FAILED}{folder}: each number up to 1000000 is taken; name another folder\n"), 1, errors)


@case(
    "a backup whose name can't be had on the disk",
    "Where the last step of a backup fails, by which its name is on the disk, it is refused 99, none has its name, and the next one "
    "is made under it; standard error has one line for each.",
)
def unnamed(trial):
    folder = os.path.realpath(trial.path("backups"))

    def asked(store, at):
        faults, terminal = Faults(trial, "files", at=at, under=folder), Terminal(1)
        shop = open_shop(trial, store, folder, environment=faults.environment, limit=5)
        trial.equal(terminal.send_all(shop, 2), None)
        return shop, terminal, shop.exchange(REQUEST), faults.calls()

    shop, _, got, calls = asked("a.db", 0)
    trial.equal(got, backup_answer(1))
    shop.kill()
    shutil.rmtree(folder)
    shop, terminal, got, last = asked("b.db", calls)
    # (behind the one that fails its name is taken back, and what was made of it is taken away)
    trial.equal((got, last > calls), (answer(503, FAULT), True))
    trial.equal(names(trial), [])
    trial.equal(shop.exchange(REQUEST), backup_answer(1))
    shop.get("/materials")
    lines = f"{FAILED}{folder}: files can't be made in it\ncutshop: made backup 1 in {folder}\n".encode()
    trial.equal(shop.end()[2], begin_line(shop.store) + DISK + lines + end_line(shop.store))
    trial.equal(is_whole(trial, trial.path("backups/1/b.db"), [terminal]), [2])


@case(
    "a store on another disk",
    "Where under the name of the store, or of its log, lies a file of another disk, be its number there the same, no backup is made: the "
    "shop ends, and says why.",
)
def other_disk(trial):
    os.mkdir(trial.path("data"))
    under = os.path.realpath(trial.path("data"))
    counted = Faults(trial, "disk", under=under)
    shop = open_shop(trial, f"{under}/a.db", environment=counted.environment)
    calls = counted.calls()
    shop.kill()
    # (in each turn it looks at the store, and then at its log)
    for number, half in enumerate(("store", "log"), 1):
        faults = Faults(trial, "disk", at=calls + number, under=under)
        shop = open_shop(trial, f"{under}/{half}.db", environment=faults.environment)
        ended_by_itself(trial, shop, half)
    trial.equal(names(trial), [])


@case(
    "a store that can't be read to its end for a backup",
    "Where a read of the store, or of its log, fails while it is copied a backup is refused 99, it is reported that they can't be read, "
    "and what was made of it is taken away; the shop goes on, and then one is made.",
)
def unread_to_its_end(trial):
    def asked(at):
        # (a request is read by some calls, too: it is asked for again)
        faults = Faults(trial, "read", at=at, under=os.path.realpath(trial.path("backups")))
        shop = open_shop(trial, f"{at}.db", environment=faults.environment, limit=2)
        first = faults.calls()
        got = shop.exchange(REQUEST)
        last = faults.calls()
        again = shop.exchange(REQUEST)
        return first, last, got, again, shop.end()[2].decode()

    first, last, got, _, _ = asked(0)
    trial.equal(got, backup_answer(1))
    shutil.rmtree(trial.path("backups"))
    refused = 0
    for at in range(first + 1, last + 1):
        _, _, got, again, errors = asked(at)
        count = errors.count(f"{FAILED}backups: the store and its log can't be read\n")
        if got == answer(503, FAULT):
            refused += 1
            trial.equal((count, again, names(trial)), (1, backup_answer(1), ["1"]), f"read {at}: {errors}")
        else:
            # (the read of a request, or the one behind it)
            trial.holds(count == 0 and got in (b"", backup_answer(1)), f"read {at}: {got}, {errors}")
        shutil.rmtree(trial.path("backups"))
    # (of each file a read or more bring its bytes, and one its end)
    trial.holds(refused >= 4, f"{refused} of {last - first} reads are told")


# ---- each call in turn


def disturbed(trial, day, at, of, stop="", on=False, **named):
    """Backups between messages, with a fault at a call in the folder, and what is found behind it. How many calls there were."""
    name = f"{of}-{at}-{stop}-{on}-{named.get('seed', 0)}-{named.get('error', 0)}"
    folder, store = trial.path(f"backups-{name}"), f"shop-{name}.db"
    os.mkdir(folder)
    faults = Faults(trial, of, at=at, stop=stop, on=on, under=os.path.realpath(folder), **named)
    shop = trial.shop(store, words=("--backup", folder), environment=faults.environment)
    acknowledged = []
    if shop.is_open:
        acknowledged = backed_up(trial, shop, day, bool(stop), on)
    elif not stop:
        trial.equal((shop.status, fault_in(shop.errors)), (1, b"fault backup\n"), name)
    if stop and at:
        trial.equal(shop.kill() if shop.is_open else shop.status, 9 if faults.calls() >= at else -9, name)
    shop.kill()
    check_folder(trial, folder, store, day, acknowledged)
    calls = faults.calls()
    faults.end()
    shutil.rmtree(folder)
    return calls


def backed_up(trial, shop, day, stops, on):
    """Sends a message and asks for a backup, three times. The numbers of those that were reported, each with how many messages were
    answered before. Where the program doesn't stop each message is accepted."""
    found = []
    for count in range(1, 4):
        try:
            reply = shop.reply(day.exchanges[count - 1][0]).decode()
            got = shop.exchange(REQUEST)
        except OSError:
            reply, got = "", b""
        if not stops:
            trial.equal(reply, day.exchanges[count - 1][1])
            trial.holds(got == answer(503, FAULT) or got.startswith(b"HTTP/1.1 200 OK\r\n"), f"the answer {got}")
        if got.startswith(b"HTTP/1.1 200 OK\r\n"):
            number = json.loads(got.partition(b"\r\n\r\n")[2])["backup"]
            trial.equal(got, backup_answer(number))
            found.append((number, count))
    return found


def check_folder(trial, folder, store, day, acknowledged):
    """Each folder with the name of a backup is a whole one, those that were reported are there with what was answered before, and a
    start behind it makes more of them."""
    wholes = sorted(int(it) for it in os.listdir(folder) if it.isdigit() and it != "0")
    trial.equal([it for it, _ in acknowledged if it not in wholes], [], f"{folder}: {wholes}")
    counts = dict(acknowledged)
    for number in wholes:
        (count,) = is_whole(trial, f"{folder}/{number}/{store}", [day])
        trial.holds(counts.get(number, count) == count, f"{folder}/{number} has {count}, and not {counts.get(number)}")
    shop = trial.shop(store, words=("--backup", folder))
    trial.holds(shop.is_open, f"{folder}: no start behind it: {getattr(shop, 'errors', b'')}")
    got = shop.exchange(REQUEST)
    number = json.loads(got.partition(b"\r\n\r\n")[2])["backup"]
    trial.equal(got, backup_answer(number))
    trial.holds(number not in wholes, f"{folder}: backup {number} was there")
    shop.kill()
    is_whole(trial, f"{folder}/{number}/{store}", [day])


def sweep_backups(trial, *faults):
    """Disturbs the backups by each of these faults at each call that changes their folder, or at each third."""
    sweep(trial, 3, partial(disturbed, trial, day_of(trial), of="files"), *faults, more_than=20)


@case(
    "a call in the folder of backups fails",
    "Each call that changes the folder of backups fails in turn, once or from then on: `fault backup` at the start, else 99; the shop goes "
    "on, each backup that was reported is whole, and nothing else has the name of one.",
)
def fails(trial):
    sweep_backups(trial, {"error": errno.EIO}, {"error": errno.ENOSPC, "on": True})


@case(
    "a file of a backup can't be opened",
    "Each call that opens what is in the folder of backups fails in turn: `fault backup` at the start, else 99, and no half backup.",
)
def looks_fail(trial):
    day = day_of(trial)
    count = disturbed(trial, day, 0, "looks")
    for at in range(1, count + 1):
        disturbed(trial, day, at, "looks", error=errno.EIO)


def stopped(how, says, seeds=(0,)):
    @case(
        f"stopped within a backup, unsynced writes {how}",
        f"Stopped at each call that changes the folder of backups, {says}: each folder with a backup's name is a whole one, each that "
        "was told is there, and the next start makes more.",
    )
    def body(trial):
        sweep_backups(trial, *[{"stop": how, "seed": it} for it in (seeds if trial.whole else seeds[:2])])


stopped("kept", "and all that was written stays")
stopped("dropped", "and what wasn't synced is lost, new files, folders and names too")
stopped("torn", "and of what wasn't synced some sectors of 512 bytes stay", range(4))


@case(
    "no memory for a backup",
    "Each request for memory of a shop that makes backups fails in turn: 98, no answer or none of the start; no half backup is left, and "
    "the shop goes on.",
)
def memory(trial):
    day = day_of(trial)
    folder = trial.path("backups")
    os.mkdir(folder)

    def run(at):
        faults = Faults(trial, "memory", at=at)
        shop = trial.shop(f"memory-{at}.db", words=("--backup", folder), environment=faults.environment)
        answers = []
        if shop.is_open:
            shop.reply(day.exchanges[0][0])
            begin = faults.calls()
            answers = [shop.exchange(REQUEST) for _ in range(2)]
            calls = (begin, faults.calls())
        else:
            calls = (0, 0)
        shop.kill()
        faults.end()
        return calls, answers

    (begin, end), answers = run(0)
    trial.equal(answers, [backup_answer(1), backup_answer(2)])
    shutil.rmtree(folder)
    for at in trial.places(end - begin, 5):
        os.mkdir(folder)
        _, answers = run(begin + at + 1)
        good = [it for it in answers if it.startswith(b"HTTP/1.1 200 OK\r\n")]
        for it in answers:
            known = (b"", answer(503, NO_MEMORY), *[backup_answer(number) for number in (1, 2)])
            trial.holds(it in known, f"at request {begin + at + 1}: {it}")
        trial.holds(good, f"at request {begin + at + 1}: {answers}")
        wholes = [it for it in os.listdir(folder) if it.isdigit()]
        trial.equal([it for it in os.listdir(folder) if it.endswith(".part")], [], f"at request {begin + at + 1}")
        for number in wholes:
            is_whole(trial, f"{folder}/{number}/memory-{begin + at + 1}.db", [])
        shutil.rmtree(folder)
