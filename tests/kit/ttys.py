"""Programs that are run at a terminal."""

import os
import pty
import subprocess
import time

from kit.case import SECONDS


def at_terminal(words, stream, folder, environment=None):
    """Runs a program with a terminal as its standard output or its standard error: its status, what it wrote on the other one, what came to the
    terminal, and its seconds."""
    ours, theirs = pty.openpty()
    began = time.monotonic()
    streams = {"stdout": subprocess.PIPE, "stderr": subprocess.PIPE, stream: theirs}
    process = subprocess.Popen(words, stdin=subprocess.DEVNULL, cwd=folder, env={**os.environ, **(environment or {})}, **streams)
    os.close(theirs)
    output = b""
    try:
        while piece := os.read(ours, 65536):
            output += piece
    except OSError:
        # (the other side is closed)
        pass
    os.close(ours)
    out, errors = process.communicate(timeout=SECONDS)
    return process.returncode, out if stream == "stderr" else errors, output, time.monotonic() - began
