"""Runs of the program's commands, and mistakes in their words."""

import os
import socket
import subprocess
from contextlib import contextmanager

from kit.case import fault_in

STEEL = '[[material]]\ncode = "STEEL"\nkind = "bar"\nkerf = "0.3"\nmin_long = "2.0"\nmin_short = "0.1"\n'
GLASS = '[[material]]\ncode = "GLASS"\nkind = "sheet"\nkerf = "0.1"\nmin_long = "0.5"\nmin_short = "0.4"\n'

# The words of clap's mistakes stand in one line of this beginning.
MISTAKE = b"error: "


def planned(trial, text, wanted, kerf="0", step="1"):
    """Plans this problem, and wants these lines, or this line of a fault."""
    path = trial.write("problem.txt", text)
    ran = trial.run("plan", path, "--kerf", kerf, "--step", step)
    if wanted.startswith("worth"):
        trial.ended(ran, 0, wanted, sent=text)
    else:
        trial.ended(ran, 1, err=f"{wanted}\n", sent=text)


def plan_output(worth, ceiling, dropped, tree):
    return f"worth {worth}\nceiling {ceiling}\ndropped {dropped}\ntree {tree}\n"


def over(trial, *words, given=None, out=None):
    """Runs the program over files, and gives its status and what it wrote on standard error."""
    source = os.open(given or os.devnull, os.O_RDONLY)
    sink = os.open(out or os.devnull, os.O_WRONLY)
    try:
        ran = subprocess.run([trial.program, *words], stdin=source, stdout=sink, stderr=subprocess.PIPE, cwd=trial.folder)
    finally:
        os.close(source)
        os.close(sink)
    return ran.returncode, fault_in(ran.stderr)


@contextmanager
def taken_port():
    """A port that somebody else listens to."""
    with socket.socket() as taken:
        taken.bind(("127.0.0.1", 0))
        taken.listen()
        yield taken.getsockname()[1]


def serving(trial, port, store, shop, **named):
    return trial.run("serve", "--port", str(port), "--store", store, "--shop", shop, "--limit", "1", **named)


def mistaken(trial, words, named=""):
    """Wants status 2 of these words, nothing on standard output, and an error that names this before it reports the usage."""
    ran = trial.run(*words)
    output = ran.err.decode().partition("\n\nUsage: ")[0]
    trial.equal((ran.status, ran.out, output[: len(MISTAKE)].encode()), (2, b"", MISTAKE), " ".join(words))
    trial.holds(named in output, f"{' '.join(words)}: {named} isn't named by {output}")


def all_mistaken(trial, lines):
    """The same of lines of words, each with what is named behind an equals sign."""
    for line in lines.strip().split("\n"):
        words, _, named = line.partition(" = ")
        mistaken(trial, words.split(" "), named)
