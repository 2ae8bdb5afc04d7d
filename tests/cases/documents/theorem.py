"""What docs/THEOREM.md quotes stands so in the sources."""

import os
import re

from kit.case import TOP, case

QUOTE = re.compile(r"^From `([^`]+)`:\n\n```\n(.*?)\n```\n", re.M | re.S)
# A reader has ten minutes.
MAX_WORDS = 1500


@case("the theorem's quotations", "Each definition that docs/THEOREM.md quotes stands in the file that it names, line for line; the page has at most 1500 words.")
def quotations(trial):
    with open(os.path.join(TOP, "docs", "THEOREM.md"), encoding="utf-8") as file:
        page = file.read()
    trial.equal(len(page.split()) <= MAX_WORDS, True, f"{len(page.split())} words")
    quotes = QUOTE.findall(page)
    trial.equal(len(quotes), page.count("```") // 2, "each block names its file")
    for path, text in quotes:
        with open(os.path.join(TOP, path), encoding="utf-8") as file:
            trial.equal(f"\n{text}\n" in f"\n{file.read()}", True, f"{path}: {text.splitlines()[0]}")
