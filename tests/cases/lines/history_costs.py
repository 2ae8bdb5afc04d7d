"""What `shop` and `history` cost in shops of few and of many entries: what they report and a search for where to begin.

The specification says what a cost may depend on; the factors lie between what was measured and what a wrong body is reckoned to take."""

import json

from kit.case import case
from kit.faults import Faults
from kit.old_shops import HISTORIES, old_store
from kit.questions import compact


def history(after):
    return compact({"after": after, "ask": "history"})


def entries_of(shop):
    return json.loads(shop.reply('{"ask":"shop"}'))["entries"]


def pages(count):
    """The pages of a history of so many entries: the first, one in the middle, the last, and what is behind it."""
    return {
        "shop": '{"ask":"shop"}',
        "history": history(0),
        "history in the middle": history(count // 2),
        "history at its end": history(count - 100),
        "history behind its end": history(count),
    }


@case(
    "reads for a history",
    "Of a store that was just opened a page from the middle of 100000 entries takes at most twice the reads of the store's files that one of "
    "1000 takes, and so do the last page and `shop`.",
)
def reads(trial):
    output = []
    for count in HISTORIES:
        shop = old_store(trial, count)
        entries = entries_of(shop)
        shop.kill()
        found = {}
        for name, line in pages(entries).items():
            counted = Faults(trial, "looks")
            again = trial.shop(shop.store, environment=counted.environment)
            again.reply('{"ask":"materials"}')
            before = counted.calls()
            # (a look at the store's names may stand beside it)
            again.reply('{"ask":"materials"}')
            beside = counted.calls() - before
            before = counted.calls()
            trial.holds(b'"ok"' in again.reply(line), line)
            found[name] = counted.calls() - before - beside
            again.kill()
        output.append(found)
    few, many = output
    for name in few:
        trial.holds(many[name] <= 2 * few[name] + 10, f"{name}: {few[name]} reads behind {HISTORIES[0]}, {many[name]} behind {HISTORIES[1]}")
