"""Who may read a store, and whose each cell is."""

import os
import stat
from collections import Counter

from kit import tables
from kit.case import case
from kit.full_day import EXCHANGES

# The states of a part that is cut, and of those that stand; and the total in which the cells of each other state are.
CUT, STANDING = 2, (0, 1)
TOTAL_OF = {3: "pieces", 4: "kerf", 5: "scrap", 6: "returned"}


@case("a store is its owner's", "A new store and its log may be read and written by their owner alone.")
def owners(trial):
    shop = trial.shop()
    for path in (shop.store, f"{shop.store}-wal"):
        trial.equal(stat.S_IMODE(os.stat(path).st_mode), 0o600, path)


def counted(parts):
    """How many parts that aren't cut have each cell of each unit; and of each material its cells, one by one, by their totals."""
    owned, totals = Counter(), {}
    for act, node, material, _, root_act, root_node, x, y, w, h, state, _ in parts:
        is_unit = (act, node) == (root_act, root_node)
        cells = [(root_act, root_node, x + right, y + down) for right in range(w) for down in range(h)]
        found = totals.setdefault(material, Counter())
        if is_unit:
            owned.update({it: 0 for it in cells})
            found["received"] += len(cells)
        if state != CUT:
            owned.update(cells)
            found[("stock" if is_unit else "rack") if state in STANDING else TOTAL_OF[state]] += len(cells)
    return owned, totals


@case(
    "each cell has one owner",
    "After a day with each command each cell of each unit, counted one by one, is in exactly one part that isn't cut, and in no part is a cell of no unit; the totals "
    "are these counts.",
)
def cells(trial):
    shop = trial.shop()
    for line, reply in EXCHANGES:
        trial.equal(shop.reply(line).decode(), reply, line)
    shop.kill()
    found = tables.rows(shop.store)
    owned, totals = counted(found["parts"])
    units = [it for it in found["parts"] if it[:2] == it[4:6]]
    trial.equal(len(owned), sum(it[8] * it[9] for it in units), "the cells of units")
    trial.equal([(cell, count) for cell, count in owned.items() if count != 1], [])
    names = tables.COLUMNS["totals2"].split()[1:]
    trial.equal(found["totals2"], [(code, *[totals[code][it] for it in names]) for code in sorted(totals)])
