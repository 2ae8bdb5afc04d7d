"""A shop on paper: what it answers to messages and queries, and its rows, reckoned by the rules of the formats alone, part by part.

It judges no forms (10), and plans nothing. Whose each cell is is reckoned another way, cell by cell, in `owners.py`."""

import json
import re
from collections import Counter
from dataclasses import dataclass, field, replace

from kit.journals import Journal, canonical
from kit.questions import compact
from kit.tables import COLUMNS

NAMES = {
    11: "NumberReused",
    20: "NoMaterial",
    21: "MaterialExists",
    22: "BadMaterial",
    30: "BadSize",
    31: "BadCount",
    32: "TooMuch",
    33: "NumbersSpent",
    40: "OrderExists",
    41: "BadLine",
    42: "NoDemand",
    43: "NoOrder",
    44: "BadNote",
    50: "NoPart",
    51: "NotStanding",
    52: "NotWhole",
    60: "BadTree",
    61: "WrongMaterial",
    62: "WrongSize",
    63: "TooMany",
    70: "NoJob",
    71: "JobOver",
    72: "BadCut",
    73: "NotOver",
    74: "PartsMoved",
    80: "BadText",
}
# States of a part and of a job, each at the place of its number in the tables.
STATES = ("standing", "reserved", "cut", "piece", "kerf", "scrap", "returned", "undone")
JOB_STATES = ("waiting", "done", "broken", "released", "undone")
SUMS = ("stock", "rack", "pieces", "kerf", "scrap", "returned")
MAX_NUMBER, MAX_CELLS, MAX_PIECES, MAX_WORTH = 2147483647, 10**15, 10**6, 10**9
MAX_LINES, MAX_CUTS, MAX_NOTE, PAGE = 200, 255, 200, 100


class Refused(Exception):
    """A refusal, by its number."""


def name_of(key):
    return f"{key[0]}/{key[1]}"


def key_of(name):
    return tuple(int(it) for it in name.split("/"))


def is_day(due):
    """Whether a number is a day of the calendar, as 20261203, from 1970 to 9999."""
    year, month, day = due // 10000, due // 100 % 100, due % 100
    is_leap = year % 4 == 0 and (year % 100 != 0 or year % 400 == 0)
    days = (31, 29 if is_leap else 28, 31, 30, 31, 30, 31, 31, 30, 31, 30, 31)
    return 1970 <= year <= 9999 and 1 <= month <= 12 and 1 <= day <= days[month - 1]


def is_said(text):
    """Whether a note may have this text."""
    controls = any(ord(it) < 0x20 or 0x7F <= ord(it) <= 0x9F for it in text)
    return len(text.encode()) <= MAX_NOTE and not controls


def has_sides(kind, w, h):
    return 1 <= w <= 200000 and 1 <= h <= (1 if kind == "bar" else 60000)


@dataclass
class Material:
    kind: str
    kerf: int
    min_long: int
    min_short: int

    def fate(self, w, h):
        """What becomes of a rest of these sides."""
        return "standing" if max(w, h) >= self.min_long and min(w, h) >= self.min_short else "scrap"


@dataclass
class Part:
    material: str
    batch: str
    root: tuple
    x: int
    y: int
    w: int
    h: int
    state: str = "standing"
    of: int = 0


@dataclass
class Demand:
    order: str
    line: int
    material: str
    w: int
    h: int
    turn: bool
    worth: int
    wanted: int
    reserved: int = 0
    made: int = 0


@dataclass
class Node:
    """A node of a plan: its rectangle in the part that is cut, and what it is; of a cut also its number among the cuts."""

    x: int
    y: int
    w: int
    h: int
    what: str
    place: int = 0
    demand: int = 0
    turned: bool = False
    cut: int = -1
    parts: tuple = ()


@dataclass
class Job:
    part: tuple
    tree: str
    nodes: list
    state: str = "waiting"
    # How it broke off, where that is kept: its `cuts`, `lost` and, where one was reported, `rest`.
    halt: dict = None
    begun: int = 0
    pieces: Counter = field(default_factory=Counter)

    def cuts(self):
        return sum(it.cut >= 0 for it in self.nodes)


def nodes_of(tree, w, h, kerf):
    """The nodes of a plan's text on these sides, in order; None where it is none."""
    nodes, words = [], tree.split(" ")

    def read(x, y, w, h):
        if len(nodes) >= len(words):
            return None
        word, number = words[len(nodes)], len(nodes)
        if found := re.fullmatch("p([1-9][0-9]{0,9})(t?)", word):
            if int(found[1]) > MAX_NUMBER:
                return None
            nodes.append(Node(x, y, w, h, "piece", demand=int(found[1]), turned=bool(found[2])))
            return number
        if word == "r":
            nodes.append(Node(x, y, w, h, "rest"))
            return number
        found = re.fullmatch("([xy])([1-9][0-9]{0,9})", word)
        cut = sum(it.cut >= 0 for it in nodes)
        if not found or cut == MAX_CUTS:
            return None
        at, side = int(found[2]), w if found[1] == "x" else h
        if at >= side:
            return None
        nodes.append(Node(x, y, w, h, f"cut {found[1]}", at, cut=cut))
        is_across, behind = found[1] == "x", side - at - kerf
        first = read(x, y, at, h) if is_across else read(x, y, w, at)
        second = True
        if behind > 0:
            second = read(x + at + kerf, y, behind, h) if is_across else read(x, y + at + kerf, w, behind)
        if first is None or second is None:
            return None
        nodes[number].parts = (first,) if second is True else (first, second)
        return number

    return nodes if read(0, 0, w, h) is not None and len(nodes) == len(words) else None


def halted(halt):
    """The numbers of the cuts that were made, the one that went wrong, and the rest that was reported; of None, of all cuts."""
    if halt is None:
        return None, None, 0
    cuts, lost = halt["cuts"], halt["lost"]
    if isinstance(cuts, list):
        return set(cuts), None if lost is False else lost, halt.get("rest", 0)
    return set(range(cuts)), cuts if lost else None, halt.get("rest", 0)


def allows(nodes, halt):
    """Whether work on a plan halts so."""
    cuts, (made, lost, rest) = [it for it in nodes if it.cut >= 0], halted(halt)
    above = {nodes[part].cut: it.cut for it in cuts for part in it.parts if nodes[part].cut >= 0}
    if isinstance(halt["cuts"], list):
        rising = all(a < b for a, b in zip(halt["cuts"], halt["cuts"][1:]))
        if not rising or any(it >= len(cuts) for it in made) or len(made) == len(cuts):
            return False
        if any(it in above and above[it] not in made for it in made):
            return False
        if lost is not None and (lost >= len(cuts) or lost in made or lost in above and above[lost] not in made):
            return False
    elif halt["cuts"] >= len(cuts):
        return False
    if not made and lost is None:
        return False
    if "rest" in halt:
        if lost is None:
            return False
        (node,) = [it for it in cuts if it.cut == lost]
        return 0 < rest < (node.w if node.what == "cut x" else node.h)
    return True


def laid(nodes, kerf, halt=None):
    """What becomes of a part that is cut by a plan, all of it or up to a halt: of each node that has cells its number, its rectangle,
    what it is (`piece`, `kerf`, `rest` or `lost`), and the demand of a piece; by rising number."""
    made, lost, rest = halted(halt)
    rows = []

    def lay(number):
        it = nodes[number]
        if it.cut < 0:
            rows.append((number, it.x, it.y, it.w, it.h, it.what, it.demand))
            return
        is_across = it.what == "cut x"
        if made is None or it.cut in made:
            strip = min(kerf, (it.w if is_across else it.h) - it.place)
            if strip:
                row = (it.x + it.place, it.y, strip, it.h) if is_across else (it.x, it.y + it.place, it.w, strip)
                rows.append((number, *row, "kerf", 0))
            for part in it.parts:
                lay(part)
        elif it.cut == lost and rest:
            w, h = (it.w - rest, it.h) if is_across else (it.w, it.h - rest)
            rows.append((number, it.x, it.y, w, h, "lost", 0))
            row = (it.x + w, it.y, rest, it.h) if is_across else (it.x, it.y + h, it.w, rest)
            rows.append((number + 1, *row, "rest", 0))
        else:
            rows.append((number, it.x, it.y, it.w, it.h, "lost" if it.cut == lost else "rest", 0))

    lay(0)
    return rows


class Paper:
    """A shop: its rows, and what it answers."""

    def __init__(self):
        self.materials, self.parts, self.demands, self.orders, self.jobs = {}, {}, {}, {}, {}
        self.notes, self.kept, self.imports, self.journal = {}, {}, {}, Journal()
        self.act = self.demand = 0
        # When the end of a job was accepted, by the job.
        self.ends = {}

    def reply(self, line, at=0):
        """The reply to a line, as text. A message is accepted at a time."""
        line = line.decode() if isinstance(line, bytes) else line
        value = json.loads(line)
        try:
            if "ask" in value:
                output = getattr(self, f"ask_{value['ask']}")(value)
                return output if isinstance(output, str) else self.reply_text(value["ask"], output)
            pair, text = (value["terminal"], value["number"]), canonical(line)
            if pair in self.kept:
                if self.kept[pair][0] != text:
                    raise Refused(11)
                return self.kept[pair][1]
            output = self.reply_text(value["do"], getattr(self, f"do_{value['do']}")(value))
        except Refused as why:
            return compact({"name": NAMES[why.args[0]], "refused": why.args[0]})
        self.kept[pair] = (text, output)
        entry = self.journal.accept(line, output, at)
        if value["do"] in ("done", "break"):
            self.ends[value["job"]] = entry.at
        return output

    def reply_text(self, word, reply):
        return json.dumps({"ok": word, **reply}, ensure_ascii=False, separators=(",", ":"), sort_keys=True)

    # ---- what there is, or a refusal

    def of_material(self, code):
        if code not in self.materials:
            raise Refused(20)
        return self.materials[code]

    def of_part(self, name):
        if key_of(name) not in self.parts:
            raise Refused(50)
        return self.parts[key_of(name)]

    def of_standing(self, name):
        part = self.of_part(name)
        if part.state != "standing":
            raise Refused(51)
        return part

    def of_job(self, number):
        if number not in self.jobs:
            raise Refused(70)
        return self.jobs[number]

    def of_waiting(self, number):
        job = self.of_job(number)
        if job.state != "waiting":
            raise Refused(71)
        return job

    def of_demand(self, number):
        if number not in self.demands:
            raise Refused(42)
        return self.demands[number]

    def of_order(self, code):
        if code not in self.orders:
            raise Refused(43)
        return self.orders[code]

    def is_unit(self, key):
        return self.parts[key].root == key

    def named_after(self, job):
        """The parts that are named after a job, by rising node."""
        return {key: it for key, it in sorted(self.parts.items()) if key[0] == job and not self.is_unit(key)}

    def next_act(self):
        if self.act == MAX_NUMBER:
            raise Refused(33)
        return self.act + 1

    # ---- messages

    def do_material(self, output):
        code = output["material"]
        new = Material(output["kind"], output["kerf"], output["min_long"], output["min_short"])
        is_bar = new.kind == "bar"
        if not (new.kerf <= 200 and 1 <= new.min_short <= new.min_long <= 200000) or is_bar and new.min_short != 1:
            raise Refused(22)
        if self.materials.get(code, new) != new:
            raise Refused(21)
        self.materials[code] = new
        return {"material": code}

    def received(self, material):
        return sum(it.w * it.h for key, it in self.parts.items() if it.material == material and self.is_unit(key))

    def do_receive(self, output):
        material, w, h, count = self.of_material(output["material"]), output["w"], output["h"], output["count"]
        if not has_sides(material.kind, w, h):
            raise Refused(30)
        if not 1 <= count <= 100:
            raise Refused(31)
        if self.received(output["material"]) + count * w * h > MAX_CELLS:
            raise Refused(32)
        self.act = self.next_act()
        for node in range(count):
            self.parts[self.act, node] = Part(output["material"], output["batch"], (self.act, node), 0, 0, w, h)
        return {"act": self.act, "count": count}

    def judged(self, lines, last):
        """Refuses lines of an order whose last line has this number."""
        for it in lines:
            kind = self.of_material(it["material"]).kind
            is_good = it["line"] > last and has_sides(kind, it["w"], it["h"]) and not (kind == "bar" and it["turn"])
            if not is_good or not 1 <= it["count"] <= MAX_PIECES or not 1 <= it["worth"] <= MAX_WORTH:
                raise Refused(41)
            last = it["line"]
        if self.demand + len(lines) > MAX_NUMBER:
            raise Refused(33)

    def wanted(self, order, lines):
        """Adds lines to an order, and gives the number of the first."""
        for it in lines:
            self.demand += 1
            sides = (it["w"], it["h"], it["turn"])
            self.demands[self.demand] = Demand(order, it["line"], it["material"], *sides, it["worth"], it["count"])
            self.orders.setdefault(order, []).append(self.demand)
        return self.demand - len(lines) + 1

    def do_order(self, output):
        lines = output["lines"]
        if output["order"] in self.orders:
            raise Refused(40)
        if not 1 <= len(lines) <= MAX_LINES:
            raise Refused(41)
        self.judged(lines, 0)
        return {"count": len(lines), "first": self.wanted(output["order"], lines), "order": output["order"]}

    def do_extend(self, output):
        there, lines = self.of_order(output["order"]), output["lines"]
        if not lines or len(there) + len(lines) > MAX_LINES:
            raise Refused(41)
        self.judged(lines, self.demands[there[-1]].line)
        return {"count": len(lines), "first": self.wanted(output["order"], lines), "order": output["order"]}

    def do_note(self, output):
        self.of_order(output["order"])
        if output["due"] and not is_day(output["due"]) or not is_said(output["text"]):
            raise Refused(44)
        self.notes[output["order"]] = (output["due"], output["text"])
        return {"order": output["order"]}

    def do_import(self, output):
        order, asked = output["order"], (output["form"], output.get("material", ""), output["text"])
        if order in self.imports and self.imports[order][0] == asked:
            return self.imports[order][1]
        if order in self.orders:
            raise Refused(40)
        act = 0
        if output["form"] == "csv":
            rows = [it.split(",") for it in output["text"].split() if it][1:]
            sides = [(round(float(it[2]) * 10), round(float(it[3]) * 10)) for it in rows]
            lines = [
                {"count": int(it[5]), "h": h, "line": int(it[0]), "material": it[1], "turn": it[4] == "yes", "w": w, "worth": int(it[6])}
                for it, (w, h) in zip(rows, sides)
            ]
        else:
            self.of_material(output["material"])
            numbers = [int(it) for it in output["text"].split()]
            line = {"material": output["material"], "turn": False}
            pieces = [numbers[3 + 4 * it : 7 + 4 * it] for it in range(numbers[0])]
            lines = [{**line, "count": count, "h": h, "line": at, "w": w, "worth": worth} for at, (w, h, count, worth) in enumerate(pieces, 1)]
        self.judged(lines, 0)
        if output["form"] == "cgcut":
            act = self.act = self.next_act()
            self.parts[act, 0] = Part(output["material"], order, (act, 0), 0, 0, *numbers[1:3])
        reply = {"act": act, "count": len(lines), "first": self.wanted(order, lines), "order": order}
        self.imports[order] = (asked, reply)
        return reply

    def do_amend(self, output):
        demand = self.of_demand(output["demand"])
        if output["wanted"] > MAX_PIECES:
            raise Refused(41)
        if output["wanted"] < demand.reserved + demand.made:
            raise Refused(63)
        demand.wanted = output["wanted"]
        return {"demand": output["demand"], "wanted": output["wanted"]}

    def do_reserve(self, output):
        part = self.of_standing(output["part"])
        nodes = nodes_of(output["tree"], part.w, part.h, self.materials[part.material].kerf)
        pieces = [it for it in nodes or [] if it.what == "piece"]
        if not pieces:
            raise Refused(60)
        for it in pieces:
            demand = self.of_demand(it.demand)
            if demand.material != part.material:
                raise Refused(61)
            sides = (demand.h, demand.w) if it.turned else (demand.w, demand.h)
            if sides != (it.w, it.h) or it.turned and not demand.turn:
                raise Refused(62)
        counts = Counter(it.demand for it in pieces)
        if any(self.demands[it].reserved + self.demands[it].made + count > self.demands[it].wanted for it, count in counts.items()):
            raise Refused(63)
        self.act = self.next_act()
        for it, count in counts.items():
            self.demands[it].reserved += count
        job = self.jobs[self.act] = Job(key_of(output["part"]), output["tree"], nodes, pieces=counts)
        part.state, part.of = "reserved", self.act
        return {"cuts": job.cuts(), "job": self.act}

    def do_begin(self, output):
        job = self.of_waiting(output["job"])
        before, job.begun = job.begun, output["terminal"]
        return {"before": before, "job": output["job"]}

    def left_by(self, number, halt):
        """The parts that a job leaves, all cuts made or up to a halt."""
        job = self.jobs[number]
        part = self.parts[job.part]
        material, found = self.materials[part.material], {}
        for node, x, y, w, h, what, demand in laid(job.nodes, material.kerf, halt):
            state = {"piece": "piece", "kerf": "kerf", "lost": "scrap"}.get(what) or material.fate(w, h)
            found[number, node] = Part(part.material, part.batch, part.root, part.x + x, part.y + y, w, h, state, demand)
        return found

    def end(self, number, state, halt):
        job = self.jobs[number]
        found = self.left_by(number, halt)
        for demand, count in job.pieces.items():
            self.demands[demand].reserved -= count
        for it in found.values():
            if it.state == "piece":
                self.demands[it.of].made += 1
        self.parts |= found
        self.parts[job.part].state = "cut"
        job.state, job.halt = state, halt
        cells = Counter()
        for it in found.values():
            cells["rack" if it.state == "standing" else it.state] += it.w * it.h
        return {"job": number, "kerf": cells["kerf"], "pieces": cells["piece"], "rack": cells["rack"], "scrap": cells["scrap"]}

    def do_done(self, output):
        self.of_waiting(output["job"])
        return self.end(output["job"], "done", None)

    def do_break(self, output):
        job = self.of_waiting(output["job"])
        halt = {key: output[key] for key in ("cuts", "lost", "rest") if key in output}
        if not allows(job.nodes, halt):
            raise Refused(72)
        return self.end(output["job"], "broken", halt)

    def do_release(self, output):
        job = self.of_waiting(output["job"])
        for demand, count in job.pieces.items():
            self.demands[demand].reserved -= count
        part = self.parts[job.part]
        part.state, part.of, job.state = "standing", 0, "released"
        return {"job": output["job"]}

    def do_undo(self, output):
        number = output["job"]
        job = self.of_job(number)
        is_over = job.state == "done" or job.state == "broken" and job.halt is not None and allows(job.nodes, job.halt)
        if not is_over:
            raise Refused(73)
        part, found = self.parts[job.part], self.named_after(number)
        # (a done job has no halt; one that broke off keeps its own when it is undone)
        if (part.state, part.of) != ("cut", number) or found != self.left_by(number, job.halt):
            raise Refused(74)
        for key, it in found.items():
            if it.state == "piece":
                self.demands[it.of].made -= 1
            self.parts[key] = replace(it, state="undone", of=number)
        part.state, part.of, job.state = "standing", 0, "undone"
        return {"job": number, "part": name_of(job.part)}

    def do_scrap(self, output):
        self.of_standing(output["part"]).state = "scrap"
        return {"part": output["part"]}

    def do_return(self, output):
        part = self.of_standing(output["part"])
        if not self.is_unit(key_of(output["part"])):
            raise Refused(52)
        part.state = "returned"
        return {"part": output["part"]}

    # ---- queries

    def sums(self, material):
        cells = Counter(received=0)
        for key, it in self.parts.items():
            if it.material == material:
                lies = "stock" if self.is_unit(key) else "rack"
                column = {"standing": lies, "reserved": lies, "piece": "pieces", "cut": None, "undone": None}.get(it.state, it.state)
                cells[column] += it.w * it.h
                cells["received"] += it.w * it.h if self.is_unit(key) else 0
        return {it: cells[it] for it in ("received", *SUMS)}

    def ask_totals(self, output):
        self.of_material(output["material"])
        return {"material": output["material"], **self.sums(output["material"])}

    def lying(self, material):
        """The parts of a material that stand or are reserved, by rising name."""
        return [(key, it) for key, it in sorted(self.parts.items()) if it.material == material and it.state in STATES[:2]]

    def ask_rack(self, output):
        self.of_material(output["material"])
        rows = [(key, it) for key, it in self.lying(output["material"]) if not self.is_unit(key)]
        parts = [{"h": it.h, "part": name_of(key), "state": it.state, "w": it.w} for key, it in rows]
        return {"material": output["material"], "parts": parts}

    def part_row(self, key):
        it = self.parts[key]
        return {"batch": it.batch, "h": it.h, "of": it.of, "part": name_of(key), "root": name_of(it.root), "state": it.state, "w": it.w}

    def ask_trace(self, output):
        part = self.of_part(output["part"])
        return {**self.part_row(key_of(output["part"])), "x": part.x, "y": part.y}

    def page(self, word, rows):
        return {"more": len(rows) > PAGE, word: rows[:PAGE]}

    def ask_parts(self, output):
        self.of_material(output["material"])
        after = key_of(output["after"]) if output["after"] else (0, 0)
        rows = [self.part_row(key) for key, _ in self.lying(output["material"]) if key > after]
        return {"material": output["material"], **self.page("parts", rows)}

    def ask_materials(self, _):
        rows = [
            {"kerf": it.kerf, "kind": it.kind, "material": code, "min_long": it.min_long, "min_short": it.min_short}
            for code, it in sorted(self.materials.items())
        ]
        return {"materials": rows}

    def ask_demand(self, output):
        it = self.of_demand(output["demand"])
        keys = ("line", "made", "material", "order", "reserved", "wanted")
        return {"demand": output["demand"], **{key: getattr(it, key) for key in keys}}

    def due(self, order):
        return self.notes.get(order, (0, ""))[0]

    def demand_row(self, number):
        it = self.demands[number]
        return {"demand": number, "due": self.due(it.order), **vars(it)}

    def ask_demands(self, output):
        material = output.get("material")
        if material is not None:
            self.of_material(material)
        open_ones = [number for number, it in self.demands.items() if it.made < it.wanted and material in (None, it.material)]
        return self.page("demands", [self.demand_row(it) for it in open_ones if it > output["after"]])

    def ask_orders(self, output):
        rows = []
        for code in sorted(it for it in self.orders if it > output["after"]):
            lines = [self.demands[it] for it in self.orders[code]]
            sums = {key: sum(getattr(it, key) for it in lines) for key in ("made", "reserved", "wanted")}
            due, text = self.notes.get(code, (0, ""))
            rows.append({"due": due, "lines": len(lines), "order": code, "text": text, **sums})
        return self.page("orders", rows)

    def ask_lines(self, output):
        return {"lines": [self.demand_row(it) for it in self.of_order(output["order"])], "order": output["order"]}

    def orders_of(self, job):
        return {self.demands[it].order for it in job.pieces}

    def head(self, number):
        job = self.jobs[number]
        part = self.parts[job.part]
        sides = {"cuts": job.cuts(), "h": part.h, "material": part.material, "part": name_of(job.part), "w": part.w}
        return {"begun": job.begun, "job": number, **sides}

    def ask_jobs(self, output):
        rows = []
        for number, job in self.jobs.items():
            if job.state == "waiting" and number > output["after"]:
                days = [self.due(it) for it in self.orders_of(job) if self.due(it)]
                rows.append({**self.head(number), "due": min(days, default=0)})
        return self.page("jobs", rows)

    def ask_job(self, output):
        job = self.of_job(output["job"])
        head = self.head(output["job"])
        return {**head, "kerf": self.materials[head["material"]].kerf, "state": job.state, "tree": job.tree}

    def ask_terminal(self, output):
        return {"last": max((it[1] for it in self.kept if it[0] == output["terminal"]), default=0), "terminal": output["terminal"]}

    def piece_row(self, key):
        it = self.parts[key]
        demand = self.demands[it.of]
        of = {"demand": it.of, "line": demand.line, "order": demand.order}
        output = {"at": self.ends.get(key[0], 0), "batch": it.batch, "material": it.material, "part": name_of(key), "root": name_of(it.root)}
        return {**output, **of, "h": it.h, "w": it.w}

    def ask_pieces(self, output):
        after = key_of(output["after"]) if output["after"] else (0, 0)
        if "order" in output:
            self.of_order(output["order"])
        if "unit" in output:
            self.of_part(output["unit"])
            if not self.is_unit(key_of(output["unit"])):
                raise Refused(52)
        rows = []
        for key, it in sorted(self.parts.items()):
            if it.state == "piece" and key > after:
                chosen = {"order": self.demands[it.of].order, "batch": it.batch, "unit": name_of(it.root)}
                if all(chosen[kind] == output[kind] for kind in chosen if kind in output):
                    rows.append(self.piece_row(key))
        return self.page("pieces", rows)

    def ask_steps(self, output):
        number = output["job"]
        job = self.of_job(number)
        head, steps = self.head(number), []
        for at, it in enumerate(job.nodes):
            made, demand = self.parts.get((number, at)), self.demands.get(it.demand)
            steps.append(
                {
                    "demand": it.demand,
                    "h": it.h,
                    "line": demand.line if demand else 0,
                    "node": at,
                    "order": demand.order if demand else "",
                    "part": name_of((number, at)) if made else "",
                    "place": it.place,
                    "state": made.state if made else "",
                    "turned": it.turned,
                    "w": it.w,
                    "what": it.what,
                    "x": it.x,
                    "y": it.y,
                }
            )
        output = {it: head[it] for it in ("job", "material", "part")}
        return {**output, "kerf": self.materials[head["material"]].kerf, "state": job.state, "steps": steps}

    def ask_shop(self, _):
        return self.journal.shop()

    def ask_history(self, output):
        return self.journal.history(output["after"])

    def ask_story(self, output):
        if "order" in output:
            self.of_order(output["order"])
        elif "job" in output:
            self.of_job(output["job"])
        else:
            self.of_part(output["part"])
        return self.journal.story(**{key: output[key] for key in ("after", "order", "job", "part") if key in output})

    # ---- texts

    def ticket(self, number):
        """The ticket of a job."""
        job = self.jobs[number]
        part = self.parts[job.part]
        material = self.materials[part.material]
        is_bar = material.kind == "bar"

        def mm(length):
            return f"{length // 10}.{length % 10}"

        def size(it):
            return mm(it.w) if is_bar else f"{mm(it.w)} x {mm(it.h)}"

        def place(it):
            return mm(it.x) if is_bar else f"{mm(it.x)} {mm(it.y)}"

        lines = [f"job {number} {job.state}", f"part {name_of(job.part)} {part.material} {size(part)} kerf {mm(material.kerf)}"]
        for at, it in enumerate(job.nodes):
            said = f"{at:4} {it.what}{f' {mm(it.place)}' if it.cut >= 0 else ''} at {place(it)} of {size(it)}"
            if it.demand:
                demand = self.demands[it.demand]
                said += f" demand {it.demand} {demand.order} line {demand.line}{' turned' * it.turned}"
            lines.append(said)
        if job.state in ("broken", "undone"):
            made = sum(it.state == "piece" for it in self.named_after(number).values())
            lines.append(f"made {made} pieces")
        lines.append(f"cuts {job.cuts()} pieces {sum(job.pieces.values())}")
        return "".join(f"{it}\n" for it in lines)

    def report(self, code):
        """The yield report of a material."""
        material, sums = self.materials[code], self.sums(code)
        used = sums["received"] - sums["returned"]
        per_mille = sums["pieces"] * 1000 // used if used else 0
        lines = [f"yield {code} {material.kind}", *(f"{name:8}{cells:17}" for name, cells in sums.items())]
        lines.append(f"yield {per_mille // 10}.{per_mille % 10} %")
        for key, it in self.lying(code):
            sides = [f"{side // 10}.{side % 10}" for side in ((it.w,) if material.kind == "bar" else (it.w, it.h))]
            lines.append(f"part {name_of(key)} {' x '.join(sides)} {it.state}{f' {it.of}' if it.state == 'reserved' else ''}")
        return "".join(f"{it}\n" for it in [*lines, "end"])

    # ---- tables

    def rows(self):
        """The rows of its tables, by table, each in the order of its key; with 0 in place of times."""
        kinds, forms = ("bar", "sheet"), ("csv", "cgcut")
        kept = sorted((*pair, *texts) for pair, texts in self.kept.items())
        found = {
            "meta": [("act", self.act), ("demand", self.demand), ("version", 3)],
            "materials": [(code, kinds.index(it.kind), it.kerf, it.min_long, it.min_short) for code, it in self.materials.items()],
            "parts": [
                (*key, it.material, it.batch, *it.root, it.x, it.y, it.w, it.h, STATES.index(it.state), it.of)
                for key, it in self.parts.items()
            ],
            "jobs": [(number, *it.part, it.tree, JOB_STATES.index(it.state)) for number, it in self.jobs.items()],
            "orders": [(it,) for it in self.orders],
            "demands": [
                (number, it.order, it.line, it.material, it.w, it.h, int(it.turn), it.worth, it.wanted, it.reserved, it.made)
                for number, it in self.demands.items()
            ],
            "kept": kept,
            "imports": [
                (order, forms.index(form), material, text, self.reply_text("import", reply))
                for order, ((form, material, text), reply) in self.imports.items()
            ],
            "totals": [],
            "totals2": [(code, *self.sums(code).values()) for code in self.materials],
            "journal": self.journal.rows(),
            "uses": self.journal.used(),
            "notes": [(order, *said) for order, said in self.notes.items()],
            "begun": [(number, it.begun) for number, it in self.jobs.items() if it.begun],
            "halts": [(number, compact(it.halt)) for number, it in self.jobs.items() if it.halt is not None],
        }
        return {name: sorted(found[name]) for name in COLUMNS}
