"""Whose each cell of each unit is, followed cell by cell down the plans of accepted messages, by the formats alone: no rectangle is added up here."""

import json
import re
from collections import Counter
from dataclasses import dataclass

# States of parts that own no cell, by their numbers in the tables; and the total of each other one that isn't of what stands.
GONE, STANDING = (2, 7), (0, 1)
TOTAL_OF = {3: "pieces", 4: "kerf", 5: "scrap", 6: "returned"}
SUMS = ("received", "stock", "rack", "pieces", "kerf", "scrap", "returned")


@dataclass(frozen=True)
class Owner:
    """A cell's owner: its state (3 with a demand, as the tables number them), the part's name and sides, and the cell's place in it."""

    state: int
    of: int
    name: tuple
    w: int
    h: int
    x: int
    y: int


@dataclass
class Tree:
    """A node of a plan: its number, its cut's number if it is a cut, and its two parts, the second of which may be missing."""

    node: int
    word: str
    cut: int = -1
    first: object = None
    second: object = None


def read_tree(text, w, h, kerf):
    words, counts = iter(text.split(" ")), [0, 0]

    def read(w, h):
        it = Tree(counts[0], next(words))
        counts[0] += 1
        if it.word[0] not in "xy":
            return it
        it.cut, at = counts[1], int(it.word[1:])
        counts[1] += 1
        it.first = read(at, h) if it.word[0] == "x" else read(w, at)
        behind = (w if it.word[0] == "x" else h) - at - kerf
        if behind > 0:
            it.second = read(behind, h) if it.word[0] == "x" else read(w, behind)
        return it

    return read(w, h)


def outcome_of(message):
    """Of a cut's number whether it was made, left, lost, or lost with a rest of so much behind it."""
    if message["do"] == "done":
        return lambda _: "made"
    cuts, lost, rest = message["cuts"], message["lost"], message.get("rest", 0)
    made, wrong = (cuts, -1 if lost is False else lost) if isinstance(cuts, list) else (range(cuts), cuts if lost else -1)
    return lambda cut: "made" if cut in made else rest or "lost" if cut == wrong else "left"


def spot(tree, w, h, kerf, outcome, x, y):
    """Where a cell of a rectangle comes to: a node, what that is, its sides, and the cell's place in them."""
    while tree.cut >= 0:
        at, is_across = int(tree.word[1:]), tree.word[0] == "x"
        side, place = (w, x) if is_across else (h, y)
        how = outcome(tree.cut)
        if how == "left":
            return tree.node, "rest", w, h, x, y
        if how == "lost":
            return tree.node, "lost", w, h, x, y
        if how != "made":
            lost = side - how
            if place < lost:
                return (tree.node, "lost", lost, h, x, y) if is_across else (tree.node, "lost", w, lost, x, y)
            return (tree.node + 1, "rest", how, h, x - lost, y) if is_across else (tree.node + 1, "rest", w, how, x, y - lost)
        strip = min(kerf, side - at)
        if at <= place < at + strip:
            return (tree.node, "kerf", strip, h, x - at, y) if is_across else (tree.node, "kerf", w, strip, x, y - at)
        tree, side, place = (tree.first, at, place) if place < at else (tree.second, side - at - kerf, place - at - kerf)
        w, h, x, y = (side, h, place, y) if is_across else (w, side, x, place)
    return tree.node, tree.word, w, h, x, y


class Owners:
    """The owners of all cells behind accepted messages."""

    def __init__(self):
        # Of each material its kerf and limits, of each cell (unit, x, y) its owner, of each unit its material.
        self.materials, self.cells, self.units = {}, {}, {}
        # Of each job its part and its plan; and the owners of its part's cells before it ended.
        self.jobs, self.before = {}, {}
        # The pairs of messages that were accepted, for whoever sends some again.
        self.accepted = set()

    def accept(self, line, reply):
        message, output = json.loads(line), json.loads(reply)
        word = message["do"]
        if word == "material":
            self.materials[message["material"]] = message
        elif word == "receive":
            self.receive(message["material"], output["act"], message["count"], message["w"], message["h"])
        elif word == "import" and output["act"] and (output["act"], 0) not in self.units:
            self.receive(message["material"], output["act"], 1, *[int(it) for it in message["text"].split()[1:3]])
        elif word == "reserve":
            self.jobs[output["job"]] = (tuple(int(it) for it in message["part"].split("/")), message["tree"])
        elif word in ("done", "break"):
            self.end(message["job"], outcome_of(message))
        elif word == "undo":
            for cell, owner in self.cells.items():
                if owner.name[0] == message["job"] and owner.name not in self.units:
                    self.cells[cell] = self.before[message["job"]][cell]
        elif word in ("scrap", "return"):
            name = tuple(int(it) for it in message["part"].split("/"))
            for cell, it in self.cells.items():
                if it.name == name and it.state == 0:
                    self.cells[cell] = Owner(5 if word == "scrap" else 6, 0, it.name, it.w, it.h, it.x, it.y)

    def receive(self, material, act, count, w, h):
        for node in range(count):
            self.units[act, node] = material
            for x in range(w):
                for y in range(h):
                    self.cells[(act, node), x, y] = Owner(0, 0, (act, node), w, h, x, y)

    def end(self, job, outcome):
        part, text = self.jobs[job]
        before, tree = self.before.setdefault(job, {}), None
        for cell, it in self.cells.items():
            if it.name != part or it.state != 0:
                continue
            material = self.materials[self.units[cell[0]]]
            tree = tree or read_tree(text, it.w, it.h, material["kerf"])
            node, what, w, h, x, y = spot(tree, it.w, it.h, material["kerf"], outcome, it.x, it.y)
            is_kept = max(w, h) >= material["min_long"] and min(w, h) >= material["min_short"]
            piece = re.fullmatch("p([0-9]+)t?", what)
            state = 3 if piece else 4 if what == "kerf" else 0 if what in ("rest", "r") and is_kept else 5
            before[cell] = it
            self.cells[cell] = Owner(state, int(piece[1]) if piece else 0, (job, node), w, h, x, y)

    def totals(self):
        """Of each material its totals, each cell counted."""
        counts = {it: Counter() for it in self.materials}
        for (unit, _, _), it in self.cells.items():
            lies = "stock" if it.name in self.units else "rack"
            counts[self.units[unit]].update(("received", TOTAL_OF.get(it.state, lies)))
        return {code: {it: count[it] for it in SUMS} for code, count in counts.items()}

    def made(self):
        """How many pieces are made of each demand."""
        return Counter(of for of, _ in {(it.of, it.name) for it in self.cells.values() if it.state == 3})


def check(trial, rows, owners):
    """Each cell of each unit is in exactly one part that is neither cut nor undone, with its owner's name, state, sides and place; and
    the totals, and what is made, are the counts."""
    found = {}
    for act, node, _, _, root_act, root_node, x, y, w, h, state, detail in rows["parts"]:
        if state in GONE:
            continue
        for right in range(w):
            for down in range(h):
                cell = (root_act, root_node), x + right, y + down
                trial.holds(cell not in found, f"the cell {cell} has two owners, one of them {act}/{node}")
                standing = 0 if state in STANDING else state
                found[cell] = Owner(standing, detail if state == 3 else 0, (act, node), w, h, right, down)
    lost = [(cell, it, found.get(cell)) for cell, it in owners.cells.items() if found.get(cell) != it]
    trial.equal(lost[:3], [], "cells with their owners, and those that the tables tell")
    trial.equal(len(found), len(owners.cells), "cells of units")
    wanted = [(code, *counts.values()) for code, counts in sorted(owners.totals().items())]
    trial.equal(rows["totals2"], wanted, "the totals")
    made = owners.made()
    trial.equal([(it[0], it[10]) for it in rows["demands"]], [(it[0], made[it[0]]) for it in rows["demands"]], "pieces made")
