"""Tickets and reports of a store whose files are only read (`--read-only`): neither changes by a byte."""

import os
import shutil
import subprocess

from kit import tables
from kit.case import case
from kit.copies import BOUND, DAMAGED, LONE_LOG, NO_LOG, OTHER_FORM, TRIGGER, both, flipped, killed, last_commit, put
from kit.earlier import made
from kit.stores import DAY, filled

TEXTS = (("ticket", "2"), ("ticket", "3"), ("yield", "GLASS"))


def names(trial):
    return sorted(os.listdir(trial.folder))


def ask(trial, store, text, *words, **named):
    """Has a ticket or a report printed."""
    command, of = text
    return trial.run(command, "--store", store, *words, of, **named)


def plainly(trial, store, copy):
    """What a copy of a store prints without the option, each as its status, output and errors."""
    for end in ("", "-wal"):
        shutil.copy(trial.path(store) + end, trial.path(copy) + end)
    printed = [ask(trial, copy, text) for text in TEXTS]
    trial.equal([it.status for it in printed], [0] * len(TEXTS), copy)
    return printed


def only_read(trial, store, wanted):
    """Wants the texts of a store, read only, and both files and the names in the folder as they were."""
    before = both(trial.path(store)), names(trial)
    for text, printed in zip(TEXTS, wanted):
        trial.equal(ask(trial, store, text, "--read-only"), printed, f"{store}: {text}")
        trial.equal((both(trial.path(store)), names(trial)), before, f"{store}: {text}")


def refused(trial, store, why, sent=""):
    """Wants each command, read only, refused by this second line, and all as it was."""
    before = names(trial), [both(trial.path(store))]
    for text in TEXTS:
        output = {"err": "fault store\n", "why": f"{store}: {why}", "sent": sent or store}
        trial.ended(ask(trial, store, text, "--read-only"), 1, **output)
    trial.equal((names(trial), [both(trial.path(store))]), before, sent or store)


@case(
    "a store that is only read",
    "With `--read-only` tickets and reports are those of the store, of what its log alone has, too; both files stay byte for byte, and "
    "nothing is made beside them; an empty log, and one that was cut within its last commit, are read as an open reads them.",
)
def read(trial):
    store, log = killed(trial)
    wanted = plainly(trial, "day.db", "plain.db")
    only_read(trial, "day.db", wanted)
    merged, _ = both(trial.path("plain.db"))
    put(trial.path("merged.db"), merged, b"")
    only_read(trial, "merged.db", wanted)
    put(trial.path("cut.db"), store, log[: last_commit(log)[1] - 1])
    only_read(trial, "cut.db", plainly(trial, "cut.db", "plain-cut.db"))


@case(
    "an earlier store that is only read",
    "A file of version 1 or 2 prints the same tickets and reports as behind its renewal, and stays of its version, byte for byte.",
)
def earlier(trial):
    for version in (1, 2):
        path = made(trial, f"earlier-{version}.db", version)
        if not os.path.exists(path + "-wal"):
            trial.write(f"earlier-{version}.db-wal", "")
        wanted = plainly(trial, f"earlier-{version}.db", f"renewed-{version}.db")
        only_read(trial, f"earlier-{version}.db", wanted)
        trial.equal(tables.select(path, "SELECT value FROM meta WHERE name = 'version'"), [(version,)])


@case(
    "files that can't be written",
    "Files of mode 0444 in a folder of mode 0555 are read with `--read-only`, and stay; whoever may write them all the same (root) reads "
    "them on a disk that is read-only, where one can be mounted here.",
)
def unwritable(trial):
    killed(trial)
    wanted = plainly(trial, "day.db", "plain.db")
    os.mkdir(trial.path("kept"))
    for end in ("", "-wal"):
        shutil.copy(trial.path("day.db") + end, trial.path("kept/day.db") + end)
        os.chmod(trial.path("kept/day.db") + end, 0o444)
    os.chmod(trial.path("kept"), 0o555)
    try:
        only_read(trial, "kept/day.db", wanted)
        mounted = os.geteuid() == 0 and not subprocess.run(
            ["unshare", "-m", "sh", "-c", 'mount --bind kept kept && mount -o remount,ro,bind kept && exec "$@"', "sh", "true"],
            cwd=trial.folder,
            stderr=subprocess.DEVNULL,
            check=False,
        ).returncode
        for text, printed in zip(TEXTS, wanted if mounted else ()):
            command, of = text
            ran = subprocess.run(
                ["unshare", "-m", "sh", "-c", 'mount --bind kept kept && mount -o remount,ro,bind kept && exec "$@"', "sh"]
                + [trial.program, command, "--store", "kept/day.db", "--read-only", of],
                cwd=trial.folder,
                capture_output=True,
                check=False,
            )
            trial.equal((ran.returncode, ran.stdout, ran.stderr), (printed.status, printed.out, printed.err), f"{text}, on a read-only disk")
    finally:
        os.chmod(trial.path("kept"), 0o755)


@case(
    "a store that can't be read only",
    "With `--read-only` a store that isn't there is refused, and none is made; so are one that another program has open, a store or a log "
    "alone, a damaged log, a database of another form, a link to nothing, and a trigger on a shop's table; all stays as it was.",
)
def unreadable(trial):
    refused(trial, "none.db", "there is no such store")
    store, log = killed(trial)
    put(trial.path("alone.db"), store, None)
    refused(trial, "alone.db", NO_LOG)
    put(trial.path("lone.db"), None, log)
    refused(trial, "lone.db", LONE_LOG)
    put(trial.path("damaged.db"), store, flipped(log, 40))
    refused(trial, "damaged.db", DAMAGED)
    put(trial.path("empty.db"), b"", log)
    refused(trial, "empty.db", DAMAGED)
    os.symlink("nothere.db", trial.path("link.db"))
    output = "link.db: it is a link to a file that isn't there"
    trial.ended(ask(trial, "link.db", TEXTS[0], "--read-only"), 1, err="fault store\n", why=output)
    tables.change(filled(trial, "bound.db"), TRIGGER)
    refused(trial, "bound.db", BOUND)
    tables.change(trial.path("vacuum.db"), "PRAGMA auto_vacuum = 1; CREATE TABLE a (b)")
    refused(trial, "vacuum.db", OTHER_FORM)
    trial.write("junk.db", "no database, but a text")
    refused(trial, "junk.db", "it is no SQLite database; name another file")
    shop = trial.shop("day.db")
    trial.equal(shop.reply(DAY[0][0]).decode(), DAY[0][1])
    output = "day.db: another program has it open"
    trial.ended(ask(trial, "day.db", TEXTS[0], "--read-only"), 1, err="fault store\n", why=output)
    shop.kill()
