"""Days on the floor: messages with their replies, sent to `replay` and to `serve`, and a sheet that is cut again and again."""

import json

from kit import exchanges
from kit.days import FLOOR, Replay
from kit.faults import Faults
from kit.questions import compact


def day():
    """The accepted messages of the day on the floor, with their replies."""
    steps = [(it.sent.decode(), it.wanted.decode()) for it in exchanges.EXCHANGES[FLOOR].steps]
    return [(line, reply) for line, reply in steps if '"do"' in line and '"ok"' in reply]


def message(number, terminal=1, **command):
    """A message as a line."""
    return compact({**command, "number": number, "terminal": terminal})


def numbered(commands, terminal=1):
    """Commands as lines of a terminal, numbered from 1 on."""
    return [message(number, terminal, **it) for number, it in enumerate(commands, 1)]


def line(number, w, h, count, material="GLASS", turn=False):
    """A line of an order."""
    return {"count": count, "h": h, "line": number, "material": material, "turn": turn, "w": w, "worth": 1}


GLASS = {"do": "material", "kerf": 1, "kind": "sheet", "material": "GLASS", "min_long": 5, "min_short": 4}


def received(count, w=10, h=8, material="GLASS", batch="B-1"):
    return {"batch": batch, "count": count, "do": "receive", "h": h, "material": material, "w": w}


def answers(trial, shop, sent, wanted):
    """Sends a line, or what is one as an object, and wants this reply, as text or as an object."""
    sent = sent if isinstance(sent, str) else compact(sent)
    wanted = wanted if isinstance(wanted, str) else json.dumps(wanted, ensure_ascii=False, separators=(",", ":"), sort_keys=True)
    trial.equal(shop.reply(sent).decode(), wanted, sent)


def refused(number, name):
    return compact({"name": name, "refused": number})


def over_each(trial, lines, check):
    """Sends lines with their replies to `replay` and to `serve`, whose clock stands at 0, and checks each shop; that of `serve` once more
    when it was opened again, where each message gets its kept reply. The path of the store."""
    shop = Replay(trial, {})
    for sent, reply in lines:
        answers(trial, shop, sent, reply)
    check(shop)
    trial.equal(shop.end(), (0, b""))
    for is_again in (False, True):
        shop = trial.shop(environment=Faults(trial, date=0).environment)
        for sent, reply in lines:
            if not is_again or '"ok"' in reply and '"do"' in sent:
                answers(trial, shop, sent, reply)
        check(shop)
        shop.kill()
    return shop.store
