"""The saw at the terminal's page."""

from browser.terminal import exchange, open_shop

# Four pieces of 100.0 mm of a bar of 600.0 mm, whose saw takes 2.5 mm; a piece of 400.0 by 300.0 mm of a sheet of 1200.0 by
# 800.0 mm, whose saw takes 3.0 mm. Rests of a bar are kept from 300.0 mm, those of the sheet both.
BAR = "x1000 p1 x1000 p1 x1000 p1 x1000 p1 r"
LINES = [
    {"line": 1, "material": "STEEL", "w": 1000, "h": 1, "turn": False, "count": 40, "worth": 1000},
    {"line": 2, "material": "GLASS", "w": 4000, "h": 3000, "turn": False, "count": 9, "worth": 12000},
]


def sender(shop, first=1):
    """Sends messages of a terminal of its own, each of which has to be accepted; gives the reply."""
    last = iter(range(first, first + 1000))

    def send(**keys):
        reply = exchange(shop, "/message", {**keys, "number": next(last), "terminal": 8})
        assert "ok" in reply, (keys, reply)
        return reply

    return send


def shop_with_jobs(trial, count=3, tree=BAR):
    """A shop with bars, two sheets, the order A-1 and so many waiting jobs of one plan: 3, 4 and so on."""
    shop = open_shop(trial)
    send = sender(shop)
    send(do="receive", material="STEEL", batch="S-1", w=6000, h=1, count=count + 3)
    send(do="receive", material="GLASS", batch="G-1", w=12000, h=8000, count=2)
    send(do="order", order="A-1", lines=LINES)
    jobs = [send(do="reserve", part=f"1/{place}", tree=tree)["job"] for place in range(count)]
    return shop, send, jobs
