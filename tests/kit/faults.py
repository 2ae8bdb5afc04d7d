"""Runs of the program in which calls of the system fail, by a library that is loaded before the C library."""

import errno
import os
import shutil
import subprocess
import tempfile
import threading
from concurrent.futures import ThreadPoolExecutor
from contextlib import suppress

from kit.case import Failed

SOURCE = os.path.join(os.path.dirname(os.path.abspath(__file__)), "faults.c")
COMPILERS = ("gcc", "cc", "clang", "/opt/rattle/toolchain/bin/clang")
LOCK = threading.Lock()
BUILT = []


def build(compiler, path):
    """Builds the library; it stands alone, so nothing of a compiler's folders is needed."""
    words = [compiler, "-O1", "-shared", "-fPIC", "-nostdlib", "-o", path, SOURCE]
    if compiler.startswith("/"):
        words.append(f"-fuse-ld={os.path.dirname(compiler)}/ld.lld")
    ran = subprocess.run(words, capture_output=True, text=True)
    return ran.returncode == 0, f"{' '.join(words)}\n{ran.stderr}"


def library():
    """The path of the library, which is built once for a run of the suite."""
    with LOCK:
        if not BUILT:
            compiler = next((it for it in COMPILERS if shutil.which(it)), None)
            if not compiler:
                raise Failed(f"\n  none of {', '.join(COMPILERS)} is here, to build {SOURCE}")
            folder = tempfile.TemporaryDirectory(prefix="cutshop-faults-")
            path = os.path.join(folder.name, "faults.so")
            is_built, output = build(compiler, path)
            if not is_built:
                raise Failed(f"\n  {output}")
            BUILT.append((path, folder))
        return BUILT[0][0]


class Faults:
    """Which calls fail: `of` memory, read, write, files, looks, glances, port, accept, watch, wait, clock, date or disk, as faults.c says; the
    `at`-th, from 1 (0: none); once or from then `on`; with this error. Streams take at most `by` bytes a call. `stop`: the
    program ends there, with what wasn't synced kept, dropped or torn by a `seed`, or stands still there until it is told to go on
    (halted). `under` is the folder of the files, the case's own where none is given. `date`: the seconds since 1970 that the clock
    reports, which stand still; `tick`: the milliseconds by which its other clock goes on at each look, standing still else."""

    def __init__(self, trial, of="", at=0, on=False, error=errno.EIO, by=0, stop="", seed=0, under=None, date=None, tick=0):
        # (each run has its own count)
        number, self.count_path = tempfile.mkstemp(dir=trial.folder, prefix="calls-")
        os.truncate(number, 4096)
        os.close(number)
        if date is not None:
            self.set_date(date)
        self.at = at
        self.environment = {
            "LD_PRELOAD": library(),
            "FAULT_OF": of,
            "FAULT_AT": str(at),
            "FAULT_ON": "on" if on else "once",
            "FAULT_ERROR": str(error),
            "FAULT_BY": str(by),
            "FAULT_STOP": stop,
            "FAULT_SEED": str(seed),
            "FAULT_TICK": str(tick),
            "FAULT_UNDER": os.path.realpath(trial.folder) if under is None else under,
            "FAULT_COUNT": self.count_path,
        }

    def calls(self):
        """How many calls of the kind the program that was started last made so far."""
        with open(self.count_path, "rb") as file:
            return int.from_bytes(file.read(8), "little")

    def set_ahead(self, seconds):
        """Has the clock of the program report a time so many seconds ahead from now on."""
        with open(self.count_path, "r+b") as file:
            file.seek(8)
            file.write(seconds.to_bytes(8, "little"))

    def set_date(self, seconds):
        """Has the clock of the program report so many seconds since 1970 from now on, below 0 before it."""
        with open(self.count_path, "r+b") as file:
            file.seek(16)
            file.write((1).to_bytes(8, "little") + seconds.to_bytes(8, "little", signed=True))

    def count_anew(self):
        """Counts the calls from 0 again: the next one that fails is so many behind."""
        with open(self.count_path, "r+b") as file:
            file.write(bytes(8))

    def end(self):
        """Takes its count away."""
        with suppress(FileNotFoundError):
            os.remove(self.count_path)


def sweep(trial, stride, disturbed, *faults, more_than=0):
    """Has `disturbed` run with each of these faults at each call, or at each of a stride, two at a time. It gets the number of
    the call, 0 for none, and the fault by name, and reports how many calls there were."""
    count = disturbed(0)
    trial.holds(count > more_than, f"{count} calls were seen")
    runs = [(at + 1, named) for named in faults for at in trial.places(count, stride)]
    with ThreadPoolExecutor(2) as pool:
        list(pool.map(lambda it: disturbed(it[0], **it[1]), runs))
