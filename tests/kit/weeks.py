"""Weeks of a small workshop by chance: messages of several terminals, accepted and refused, with what a shop on paper replies."""

import random
from dataclasses import dataclass, field

from kit.owners import Owners
from kit.paper import Paper, allows, name_of
from kit.questions import compact

# Small sheets and bars, so that each cell may be looked at: kind, kerf, the least sides of a kept rest, and units' sides.
MATERIALS = {
    "GLASS": ("sheet", 1, 4, 2, (8, 12), (5, 9)),
    "PANE": ("sheet", 0, 3, 1, (6, 9), (4, 7)),
    "STEEL": ("bar", 2, 6, 1, (20, 36), (1, 1)),
}
TERMINALS = (1, 2, 3, 4)
DAYS = (20261201, 20261203, 20261224, 20270105, 0)
TEXTS = ("", "edges ground", "Müller & Söhne, Tür links", 'a "b" \\ c', "ring before delivery")


@dataclass
class Week:
    """Messages with their replies and when they were sent, in order; and the shop and the owners of cells behind them."""

    seed: int
    paper: Paper = field(default_factory=Paper)
    owners: Owners = field(default_factory=Owners)
    sent: list = field(default_factory=list)
    at: int = 0

    def __post_init__(self):
        self.dice = random.Random(self.seed)
        self.numbers = dict.fromkeys(TERMINALS, 0)

    def send(self, **command):
        """Sends a message of some terminal; what was refused leaves its number free. Its reply."""
        terminal = self.dice.choice(TERMINALS)
        line = compact({**command, "number": self.numbers[terminal] + 1, "terminal": terminal})
        reply = self.paper.reply(line, self.at)
        if '"ok"' in reply:
            self.numbers[terminal] += 1
            self.owners.accept(line, reply)
        self.sent.append((self.at, line, reply))
        return reply

    def again(self):
        """Sends an accepted message again, or another one under its number."""
        line, reply = self.dice.choice([it[1:] for it in self.sent if '"ok"' in it[2]])
        self.sent.append((self.at, line, self.paper.reply(line, self.at)))

    # ---- what a shop does

    def receive(self):
        code = self.dice.choice(list(MATERIALS))
        w, h = [self.dice.randint(*it) for it in MATERIALS[code][4:]]
        self.send(do="receive", material=code, batch=f"B-{self.dice.randint(1, 4)}", w=w, h=h, count=self.dice.randint(1, 3))

    def lines(self, first):
        found = []
        for line in range(first, first + self.dice.randint(1, 3)):
            code = self.dice.choice(list(MATERIALS))
            is_bar = MATERIALS[code][0] == "bar"
            sides = {"h": 1, "w": self.dice.randint(3, 12)} if is_bar else {"h": self.dice.randint(1, 4), "w": self.dice.randint(2, 5)}
            turn = not is_bar and self.dice.random() < 0.4
            found.append({"count": self.dice.randint(1, 6), "line": line, "material": code, "turn": turn, "worth": 1, **sides})
        return found

    def order(self):
        self.send(do="order", order=f"A-{len(self.paper.orders) + 1}", lines=self.lines(1))

    def extend(self):
        if self.paper.orders:
            order = self.dice.choice(list(self.paper.orders))
            last = self.paper.demands[self.paper.orders[order][-1]].line
            self.send(do="extend", order=order, lines=self.lines(last + self.dice.choice((0, 1, 1, 1, 3))))

    def note(self):
        order = self.dice.choice([*self.paper.orders, "A-0"])
        due = self.dice.choice((*DAYS, 20261131))
        self.send(do="note", order=order, due=due, text=self.dice.choice(TEXTS))

    def amend(self):
        if self.paper.demands:
            number = self.dice.choice(list(self.paper.demands))
            it = self.paper.demands[number]
            self.send(do="amend", demand=number, wanted=max(0, it.reserved + it.made + self.dice.randint(-1, 3)))

    def tree(self, part, depth=3):
        """A plan of a part by chance, with a piece of an open demand wherever one has its sides."""
        kerf, left = self.paper.materials[part.material].kerf, {}
        for number, it in self.paper.demands.items():
            if it.material == part.material and it.wanted > it.reserved + it.made:
                left[number] = it.wanted - it.reserved - it.made

        def grown(w, h, depth):
            for number in left:
                it = self.paper.demands[number]
                for mark, sides in (("", (it.w, it.h)), ("t", (it.h, it.w))):
                    if sides == (w, h) and left[number] and (not mark or it.turn):
                        left[number] -= 1
                        return f"p{number}{mark}"
            if not depth or self.dice.random() < 0.15:
                return "r"
            places = [("x", self.paper.demands[it].w) for it in left] + [("y", self.paper.demands[it].h) for it in left]
            places += [("x", it[1]) for it in places if it[0] == "y"] + [("y", it[1]) for it in places if it[0] == "x"]
            places = [(axis, at) for axis, at in places if at < (w if axis == "x" else h)]
            if not places:
                return "r"
            axis, at = self.dice.choice(places)
            side = w if axis == "x" else h
            first = grown(at, h, depth - 1) if axis == "x" else grown(w, at, depth - 1)
            if side - at - kerf <= 0:
                return f"{axis}{at} {first}"
            second = grown(side - at - kerf, h, depth - 1) if axis == "x" else grown(w, side - at - kerf, depth - 1)
            return f"{axis}{at} {first} {second}"

        return grown(part.w, part.h, depth)

    def reserve(self):
        standing = [(key, it) for key, it in self.paper.parts.items() if it.state == "standing"]
        if not standing:
            return
        key, part = self.dice.choice(standing)
        for _ in range(20):
            tree = self.tree(part)
            if "p" in tree:
                break
        self.send(do="reserve", part=name_of(key), tree=tree)

    def some_job(self, *states):
        found = [number for number, it in self.paper.jobs.items() if it.state in states]
        return self.dice.choice(found) if found and self.dice.random() < 0.9 else self.dice.randint(1, self.paper.act + 1)

    def begin(self):
        self.send(do="begin", job=self.some_job("waiting"))

    def done(self):
        self.send(do="done", job=self.some_job("waiting"))

    def broken(self):
        number = self.some_job("waiting")
        cuts = self.paper.jobs[number].cuts() if number in self.paper.jobs else 1
        for _ in range(30):
            if self.dice.random() < 0.5:
                halt = {"cuts": self.dice.randint(0, cuts), "lost": self.dice.random() < 0.6}
            else:
                halt = {"cuts": sorted(self.dice.sample(range(cuts), self.dice.randint(0, cuts))), "lost": False}
                halt["lost"] = self.dice.choice((False, self.dice.randint(0, cuts), self.dice.randint(0, cuts)))
            if halt["lost"] is not False and self.dice.random() < 0.7:
                halt["rest"] = self.dice.randint(0 if self.dice.random() < 0.1 else 1, 12)
            if number in self.paper.jobs and allows(self.paper.jobs[number].nodes, halt):
                break
        self.send(do="break", job=number, **halt)

    def release(self):
        self.send(do="release", job=self.some_job("waiting"))

    def undo(self):
        self.send(do="undo", job=self.some_job("done", "broken"))

    def scrap(self):
        keys = list(self.paper.parts)
        self.send(do="scrap", part=name_of(self.dice.choice(keys)) if keys else "1/0")

    def give_back(self):
        keys = [it for it in self.paper.parts if self.paper.is_unit(it)]
        self.send(do="return", part=name_of(self.dice.choice(keys)) if keys else "1/0")

    def work(self, count, seconds=86400):
        """So many messages a day for seven days, one day behind the other."""
        for code, (kind, kerf, long, short, _, _) in MATERIALS.items():
            self.send(do="material", material=code, kind=kind, kerf=kerf, min_long=long, min_short=short)
        deeds = [self.receive] * 3 + [self.order] * 2 + [self.extend, self.note, self.amend] + [self.reserve] * 8
        deeds += [self.begin] * 2 + [self.done] * 3 + [self.broken] * 3 + [self.release] + [self.undo] * 3 + [self.scrap, self.give_back, self.again]
        for day in range(1, 8):
            self.at = day * seconds
            for _ in range(count):
                self.dice.choice(deeds)()
        return self


def questions(paper):
    """Queries of all that a shop on paper has, and of what it hasn't."""
    found = [{"ask": "materials"}, {"after": 0, "ask": "jobs"}, {"after": 0, "ask": "demands"}, {"after": "", "ask": "orders"}]
    for code in [*paper.materials, "IRON"]:
        found += [{"ask": "totals", "material": code}, {"ask": "rack", "material": code}, {"after": "", "ask": "parts", "material": code}]
        found += [{"after": 0, "ask": "demands", "material": code}]
    for job in [*paper.jobs, paper.act + 1]:
        found += [{"ask": "job", "job": job}, {"ask": "steps", "job": job}, {"after": 0, "ask": "story", "job": job}]
    for order in [*paper.orders, "A-0"]:
        found += [{"ask": "lines", "order": order}, {"after": "", "ask": "pieces", "order": order}, {"after": 0, "ask": "story", "order": order}]
    for batch in ("B-1", "B-2", "B-9"):
        found.append({"after": "", "ask": "pieces", "batch": batch})
    for key in [*paper.parts, (paper.act + 1, 0)]:
        found += [{"ask": "trace", "part": name_of(key)}, {"after": 0, "ask": "story", "part": name_of(key)}]
        found.append({"after": "", "ask": "pieces", "unit": name_of(key)})
    return [compact(it) for it in found]
