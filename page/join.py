#!/usr/bin/env python3
"""Joins the files of page/src to page/terminal.html, which the program serves: document.html, in which each line {{NAME}} stands
for the file of that name, without indents and blank lines, a script's without its comments, scripts and styles without spaces
that separate nothing."""

import os
import re

HERE = os.path.dirname(os.path.abspath(__file__))


def source(name):
    with open(os.path.join(HERE, "src", name), encoding="utf-8", newline="") as file:
        return file.read()


# A text, a template (whose holes may have braces, texts and templates), or a pattern: in a script these stay as they are.
TEXT = r"\"(?:\\.|[^\"\\\n])*\"|'(?:\\.|[^'\\\n])*'"
PATTERN = r"(?:(?<=[(,=:!&|?\[>;])|(?<=return))\s*/(?![/*])(?:\\.|\[(?:\\.|[^\]\\\n])*\]|[^/\\\[\n])+/[a-z]*"
FIXED = re.compile(rf"{TEXT}|{PATTERN}|`")


def template_end(text, place):
    """The place behind a template that begins at a place."""
    depth, place = 0, place + 1
    while text[place] != "`" or depth:
        if text[place] == "\\":
            place += 2
        elif depth and text[place] == "`":
            place = template_end(text, place)
        elif depth and text[place] in "\"'":
            place += len(re.match(TEXT, text[place:])[0])
        else:
            depth += 1 if text.startswith("${", place) or (depth and text[place] == "{") else -1 if depth and text[place] == "}" else 0
            place += 2 if text.startswith("${", place) else 1
    return place + 1


def tight(code):
    """Code without spaces and semicolons that separate nothing, whose constants are declared by the shorter word."""
    code = re.sub(r"\s*([][(){},;:?<>*=+|&!])\s*", r"\1", code).replace(";}", "}")
    return re.sub(r" ([-/]) (?![-/])", r"\1", re.sub(r"\bconst\b", "let", code))


def split_script(text):
    """What changes of a script and what stays as it is, by turns."""
    parts, at = [], 0
    while found := FIXED.search(text, at):
        end = template_end(text, found.start()) if found[0] == "`" else found.end()
        parts += [text[at : found.start()], text[found.start() : end]]
        at = end
    return [*parts, text[at:]]


def tight_script(text):
    return "".join(it if i % 2 else tight(it) for i, it in enumerate(split_script(text)))


def part(name):
    text = source(name)
    if name.endswith(".js"):
        text = tight_script(re.sub(r"(?m)^ *//.*\n|  // .*$", "", text))
    if name.endswith(".css"):
        text = re.sub(r"\s*([{};:,>])\s+", r"\1", text).replace(";}", "}")
    return re.sub(r"(?m)^ +|^\n", "", text)


# Names that cases call in a browser, and of what browsers keep: these stay.
CALLED = set(
    """adaptLines addOrderLine areaText askCalmly atSaw chosenDemands drawAllAnew dropNotices fillOrder fillReceipt chosenPlan clickCut codeOfName countOf csvForm cutsOf
    demandsToCut factOf faultWords foldJobs foldNotices forgetRead forgetShop importsOf inOrders isFree isLost isOld isStaleBy keyOf
    leftOf lineFaults lookAtShop makeBackup metresText momentText openJob pauseOf piecesOf planAgain planAll
    planWords plansByMaterial plansQuestion MAX_CALLS problemFault readJobCells readOrderFile readReply readShown readTickets
    refreshNow refreshPass searchOn sendBreak sendCsv sendKept sendMany setBreaking showJob showLink showView stopPlan
    terminalWords textOf toCut undoJob viewName waitForPass whenAccepted""".split()
)
NAME = re.compile(r"[A-Za-z_$][\w$]*")
# What stands before and behind a word that is a property, a key or a text.
BEFORE, BEHIND = set(".'\"#-`"), set(":\"'-`")


def own_names(script):
    """Names that a script declares, that are names wherever they stand, and that are long for how often they stand; the best first."""
    declared = set(re.findall(r"(?:(?<=function )|(?<=const ))\w+|\b[A-Z]+_[A-Z_]+\b", script))
    in_texts = {word for text in split_script(script)[1::2] if text[0] in "\"'" for word in NAME.findall(text)}
    counts = {}
    for found in NAME.finditer(script):
        is_name = script[found.start() - 1] not in BEFORE and script[found.end()] not in BEHIND
        counts[found[0]] = counts.get(found[0], 0) + 1 if is_name and counts.get(found[0], 0) >= 0 else -1
    own = [it for it in declared - in_texts - CALLED if re.match("[a-z]+[A-Z]|[A-Z]+_[A-Z]", it) and counts[it] > 0]
    return sorted(own, key=lambda it: (-(len(it) - 3) * counts[it], it))


def short_names(names, mark):
    """A short name for each of these, behind a mark."""
    letters = "abcdefghijklmnopqrstuvwxyzABCDEFGHIJKLMNOPQRSTUVWXYZ"
    return {name: mark + (letters[i] if i < 52 else letters[i // 52 - 1] + letters[i % 52]) for i, name in enumerate(names)}


def shortened(page):
    """A page whose script and style have short names in place of their own long ones."""
    head, script, end = re.split(r"(?s)(?<=<script>)(.*)(?=</script>)", page)
    short = short_names(own_names(script), "_")
    of_style = short_names(sorted(set(re.findall(r"--[a-z][a-z-]*(?=:)", head))), "--")
    head = re.sub(r"--[a-z][a-z-]*", lambda found: of_style.get(found[0], found[0]), head)
    return head + NAME.sub(lambda found: short.get(found[0], found[0]), script) + end


def joined():
    return shortened(re.sub(r"(?m)^\{\{(.+)\}\}\n", lambda line: part(line[1]), part("document.html")))


if __name__ == "__main__":
    made = joined()
    with open(os.path.join(HERE, "terminal.html"), "w", encoding="utf-8", newline="") as file:
        file.write(made)
