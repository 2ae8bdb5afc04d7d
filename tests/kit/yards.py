"""Messages that fill a shop, with the acts and the demands that they are given, and questions `plans` to it."""

from kit.days import Replay
from kit.questions import checked_answer, compact, content_of


class Yard:
    """A shop's messages of one terminal, numbered from 1 on."""

    def __init__(self, terminal=1):
        self.terminal, self.lines, self.acts, self.demands = terminal, [], 0, 0

    def then(self, terminal):
        """A yard of another terminal, whose messages come behind."""
        yard = Yard(terminal)
        yard.acts, yard.demands = self.acts, self.demands
        return yard

    def send(self, **command):
        self.lines.append(compact({"terminal": self.terminal, "number": len(self.lines) + 1, **command}))

    def material(self, code, kerf=0, kind="bar", long=1, short=1):
        """Every rest of it is kept, or those with such sides."""
        self.send(do="material", material=code, kind=kind, kerf=kerf, min_long=long, min_short=short)

    def receive(self, code, w, h=1, count=1):
        """Receives units, and gives the name of the first."""
        self.send(do="receive", material=code, batch="B", w=w, h=h, count=count)
        self.acts += 1
        return f"{self.acts}/0"

    def order(self, code, *lines):
        """Orders pieces of (w, h, count, turn), and gives the number of the first demand."""
        rows = [
            {"count": count, "h": h, "line": line, "material": code, "turn": turn, "w": w, "worth": 1}
            for line, (w, h, count, turn) in enumerate(lines, 1)
        ]
        self.send(do="order", order=f"A-{self.terminal}-{len(self.lines)}", lines=rows)
        self.demands += len(rows)
        return self.demands - len(rows) + 1

    def bars(self, code, *lines):
        """Orders bars of (length, count)."""
        return self.order(code, *[(length, 1, count, False) for length, count in lines])

    def amend(self, demand, wanted):
        """So many pieces of a demand are wanted from now on."""
        self.send(do="amend", demand=demand, wanted=wanted)

    def reserve(self, part, tree):
        """Reserves a part, and gives the job."""
        self.send(do="reserve", part=part, tree=tree)
        self.acts += 1
        return self.acts

    def cut(self, part, tree):
        """Has a part cut, and gives the job."""
        job = self.reserve(part, tree)
        self.send(do="done", job=job)
        return job

    def remnant(self, code, kerf, w, h=1):
        """A remnant of these sides, behind a piece of width 1 that is ordered for it. Its name."""
        demand = self.order(code, (1, h, 1, False))
        return f"{self.cut(self.receive(code, w + kerf + 1, h), f'x1 p{demand} r')}/2"

    def replay(self, trial):
        """A `cutshop replay` that was sent all lines, each of which is accepted."""
        shop = Replay(trial, {})
        self.fill(trial, shop)
        return shop

    def serve(self, trial, store="shop.db", **named):
        """A `cutshop serve` to which all lines were posted."""
        shop = trial.shop(store, **named)
        self.fill(trial, shop)
        return shop

    def fill(self, trial, shop):
        for line in self.lines:
            reply = shop.reply(line)
            trial.holds(b'"ok"' in reply, f"{line}: {reply}")


def question(material, **keys):
    return {"ask": "plans", "material": material, **keys}


def answered(trial, shop, asked, content=None):
    """The answer to a question, checked against what the shop reports of the material, or reported before."""
    content = content or content_of(shop.reply, asked["material"])
    text = shop.reply(compact(asked)).decode()
    trial.holds(text.startswith('{"bound":'), f"{compact(asked)}: {text}")
    return checked_answer(content, asked, text)


def reservations(output, dice, number, terminal=9):
    """Messages that reserve each part of an answer for its plan, in an order by chance."""
    plans = [(part, entry["tree"]) for entry in output["plans"] for part in entry["parts"]]
    dice.shuffle(plans)
    return [
        compact({"do": "reserve", "number": number + at, "part": part, "terminal": terminal, "tree": tree})
        for at, (part, tree) in enumerate(plans)
    ]
