"""A large store is opened: what a terminal is shown meanwhile."""

import os

from kit import tables
from kit.case import case
from kit.full_day import EXCHANGES
from kit.stores import filled
from kit.ttys import at_terminal

MEGABYTE, PAGE = 1 << 20, 4096
LARGE = 16 * MEGABYTE
# A terminal's number that the day doesn't have.
OTHER = 4000000000


def grown_to(path, size):
    """Makes a store's file this long by kept messages with long texts, whatever they say: no command that is run here reads them."""
    while (missing := size - os.path.getsize(path)) > 0:
        length = min(missing // PAGE * (PAGE - 4) - PAGE // 2, MEGABYTE) if missing > 2 * PAGE else PAGE
        number = f"(SELECT coalesce(max(number), 0) + 1 FROM kept WHERE terminal = {OTHER})"
        tables.change(path, f"INSERT INTO kept VALUES ({OTHER}, {number}, hex(zeroblob({length // 2})), 'x')")
    return os.path.getsize(path)


def shown(trial, *words, terminal="stderr"):
    """What comes to a terminal that is one of a command's outputs, the status aside."""
    _, _, seen, _ = at_terminal([trial.program, *words], terminal, trial.folder)
    return seen.decode().replace("\r\n", "\n")


@case(
    "a large store is opened",
    "If standard error is a terminal, a command that opens a store of 16 MiB or more first writes its name and its size there. It writes "
    "nothing of a smaller store, and nothing if standard error is no terminal.",
)
def large(trial):
    path = filled(trial, exchanges=EXCHANGES[:2])
    commands = [("yield", "--store", "shop.db", "STEEL"), ("yield", "--store", "shop.db", "--read-only", "STEEL"), ("history", "--store", "shop.db")]
    trial.equal(grown_to(path, LARGE - PAGE), LARGE - PAGE)
    for words in commands:
        trial.equal(shown(trial, *words), "", words)
    trial.equal(grown_to(path, LARGE), LARGE)
    for words in commands:
        trial.equal(shown(trial, *words), "cutshop: opening shop.db, 16 MB\n", words)
        trial.holds("opening" not in shown(trial, *words, terminal="stdout"), words)
        trial.equal(trial.run(*words).err, b"", words)
