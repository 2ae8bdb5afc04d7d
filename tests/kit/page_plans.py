"""Plans at the terminal's page."""

from browser.terminal import open_shop
from kit.page_saw import sender
from kit.shop import is_watched

# Bars of 6000.0 mm whose saw takes 2.5 mm hold five pieces of 1000.0 mm.
BARS = {"do": "receive", "material": "STEEL", "batch": "S-1", "w": 60000, "h": 1}
PIECES = {"line": 1, "material": "STEEL", "w": 10000, "h": 1, "turn": False, "count": 12, "worth": 100}
SHEETS = {"do": "receive", "material": "GLASS", "batch": "G-1", "w": 32100, "h": 22500}
ALL_ANSWERED = "toCut.found?.sent && toCut.found.jobs.size + toCut.found.refused.length === toCut.found.sent.size"


def bars(trial, count=4):
    """A shop with bars and an order of 12 pieces, and what sends it messages."""
    shop = open_shop(trial)
    send = sender(shop)
    send(**BARS, count=count)
    send(do="order", order="A-1", lines=[PIECES])
    return shop, send


def is_slow(shop):
    """Whether the program was built without a proof, whose searches take some hundred times as long as the gate's."""
    return is_watched(shop.process.args[0])


ROWS = "[...document.querySelectorAll('#sheets .barlist tbody tr')].map(e => [...e.cells].map(cell => cell.textContent))"
