"""The source of the crates, as rules over it read it."""

import glob
import os
import re
from functools import cache

from kit.case import TOP

def blanked(text):
    """A source without its comments, and with the texts in it made blank."""
    text = re.sub(r"//[^\n]*", "", text)
    text = re.sub(r'"(?:\\.|[^"\\])*"', lambda it: '"' + " " * (len(it[0]) - 2) + '"', text)
    return re.sub(r"b?'(?:\\.|[^'\\\n])'", "0", text)


def closing(text, at):
    """Where the bracket that opens at a place closes."""
    depth = 0
    for place in range(at, len(text)):
        depth += {"{": 1, "}": -1}.get(text[place], 0)
        if not depth:
            return place
    raise ValueError(f"no bracket closes behind {text[at : at + 80]}")


def code_of(text):
    """A source without its contracts and other ghosts."""
    text = re.sub(r"\bghost use [^;]*;", "", blanked(text))
    parts, at = [], 0
    for found in re.finditer(r"(?m)^\s*(?:requires|ensures|maintains|ghost)\b[^{;]*\{", text):
        if found.start() >= at:
            parts.append(text[at : found.start()])
            at = closing(text, found.end() - 1) + 1
    return "".join([*parts, text[at:]])


@cache
def sources():
    """The code of each source of the crates, by its path below crates/."""
    found = sorted(glob.glob(f"{TOP}/crates/*/src/**/*.rt", recursive=True))
    coded = {}
    for path in found:
        with open(path, encoding="utf-8") as file:
            coded[os.path.relpath(path, f"{TOP}/crates")] = code_of(file.read())
    return coded
