"""How the suite itself is run: what `tests/run` prints."""

import glob
import os
import re
import subprocess
import sys

from kit.case import SECONDS, TOP, case
from kit.ttys import at_terminal

RUN = os.path.join(TOP, "tests", "run")
# Cases that ask nothing of a program.
WORDS = ("what the description has", "1 passed, 0 failed\n")


@case("cases import no other one", "What cases of several files share stands in tests/kit: no file of cases imports another.")
def imports(trial):
    paths = glob.glob(os.path.join(TOP, "tests", "cases", "*", "*.py"))
    trial.holds(len(paths) > 50, f"{len(paths)} files")
    for path in paths:
        with open(path, encoding="utf-8") as file:
            found = re.findall(r"^\s*(?:from|import) cases\b.*", file.read(), re.MULTILINE)
        trial.equal(found, [], path)


@case(
    "how far the suite is",
    "On a terminal `tests/run` shows below its other lines how many cases of how many have ended, the seconds so far and the name of one that runs; "
    "elsewhere it prints its lines alone. The last line is the same.",
)
def how_far(trial):
    words = [sys.executable, RUN, "--program", trial.program, WORDS[0]]
    ran = subprocess.run(words, capture_output=True, text=True, cwd=trial.folder, timeout=SECONDS)
    lines = [it for it in ran.stdout.splitlines(keepends=True) if not it.startswith("passed: ")]
    trial.equal((ran.returncode, "".join(lines), ran.stderr), (0, WORDS[1], ""), "no terminal")
    status, errors, output, _ = at_terminal(words, "stdout", trial.folder)
    text = output.decode().replace("\r\n", "\n")
    trial.equal((status, errors, text.rpartition("\x1b[K")[2]), (0, b"", WORDS[1]), text)
    shown = re.findall(rf"\r\x1b\[K([01]) of 1, [0-9]+ s, {WORDS[0]}", text)
    trial.equal(shown[:1], ["0"], text)
    ended = [it for it in text.split("\r\x1b[K") if it.startswith("1 of 1")]
    trial.equal(ended, [], "nothing is drawn after the last case")
