"""Stores of each version that plain SQL made."""

from kit import tables
from kit.stores import ROWS

REPORT = (
    b"yield GLASS sheet\nreceived               80\nstock                   0\nrack                   20\n"
    b"pieces                 43\nkerf                   17\nscrap                   0\nreturned                0\n"
    b"yield 53.7 %\npart 3/2 0.5 x 0.4 standing\nend\n"
)

# The rows of each version, and those that a file of it has behind its first start.
FOUND = {version: tables.earlier(ROWS, version) for version in (1, 2)} | {3: ROWS}


def made(trial, name, version, statements=""):
    """The path of a file after “remnant cut again”, changed by these statements."""
    path = tables.make(trial.path(name), FOUND[version], version)
    tables.change(path, statements)
    return path


# A message behind those of the day, and its reply.
NEXT = ('{"batch":"B-2","count":1,"do":"receive","h":8,"material":"GLASS","number":8,"terminal":1,"w":10}', '{"act":4,"count":1,"ok":"receive"}')
