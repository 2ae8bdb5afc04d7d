"""What the terminal's page judges by itself, beside what the shop tells: how plans by chance lie, what is kept of them, and
which steps there are."""

import json
import random
import re
from dataclasses import dataclass

from browser.terminal import Terminal, by_id, exchange, open_shop
from kit.case import case
from kit.page import is_quiet
from kit.page_plans import is_slow
from kit.page_saw import sender
from kit.yards import Yard


@dataclass
class Stuff:
    """A material: its kind, what its saw takes, and the least sides of a rest that is kept."""

    code: str
    kind: str
    kerf: int
    min_long: int
    min_short: int

    def entry(self):
        """Its entry in a shop file."""
        rows = {"code": self.code, "kind": self.kind}
        rows |= {key: mm(getattr(self, key)) for key in ("kerf", "min_long", "min_short")}
        return "[[material]]\n" + "".join(f'{key} = "{value}"\n' for key, value in rows.items())

    def size(self, w, h):
        """A size as the page shows it."""
        return f"{mm(w)}\u00a0mm" if self.kind == "bar" else f"{mm(w)}\u00a0×\u00a0{mm(h)}\u00a0mm"


def mm(tenths):
    return f"{tenths // 10}.{tenths % 10}"


STUFF = [
    Stuff("B-0", "bar", 0, 300, 1),
    Stuff("B-7", "bar", 7, 150, 1),
    Stuff("B-31", "bar", 31, 90, 1),
    Stuff("S-0", "sheet", 0, 120, 60),
    Stuff("S-3", "sheet", 3, 90, 90),
    Stuff("S-28", "sheet", 28, 100, 40),
]


def open_by_chance(trial):
    return open_shop(trial, "".join(it.entry() for it in STUFF))


def fill(trial, shop, yard):
    """Posts a yard's messages to a shop with the page."""
    for line in yard.lines:
        reply = exchange(shop, "/message", json.loads(line))
        trial.holds("ok" in reply, f"{line}: {reply}")


# Plans by chance.


def sides_by_chance(dice, stuff, least, most):
    """Sides of a unit or a piece, as parts of a hundred of the longest."""
    part = lambda of: max(1, of * dice.randint(least, most) // 100)
    return (part(2000), 1) if stuff.kind == "bar" else (part(600), part(450))


def aimed_at(dice, wants, w, h):
    """A want that a rectangle holds, turned or not, as (words of its piece, width, height), or nothing."""
    held = [(f"p{number}", *it[:2]) for number, it in wants.items()]
    held += [(f"p{number}t", it[1], it[0]) for number, it in wants.items() if it[3]]
    held = [it for it in held if it[1] <= w and it[2] <= h]
    return dice.choice(held) if held else None


def cut_by_chance(dice, stuff, w, h):
    """A cut of a rectangle anywhere, or so near to its end that the saw leaves nothing or almost nothing behind it, or one that
    takes off a rest that is just kept or just not; and whether it is such a one."""
    axis = "y" if h > 1 and (w == 1 or dice.random() < 0.5) else "x"
    side = w if axis == "x" else h
    if side == 1:
        return None
    edge = dice.choice((stuff.min_long, stuff.min_short if h > 1 else stuff.min_long)) - dice.randint(0, 1)
    near = max(1, side - dice.randint(1, stuff.kerf + 2))
    if edge < side and dice.random() < 0.7:
        return axis, edge, True
    return axis, dice.choice((near, dice.randint(1, side - 1))), False


def words_by_chance(dice, stuff, wants, w, h, room, aim=None):
    """The words of a plan of a rectangle by chance. `room` is a list of one number: how many cuts it may still have; `aim` is
    the piece that is to be its first corner."""
    aim = aim or (aimed_at(dice, wants, w, h) if dice.random() < 0.7 else None)
    if aim and aim[1:] == (w, h):
        return [aim[0]]
    aimed = aim and (("x", aim[1], False) if aim[1] < w else ("y", aim[2], False))
    cut = aimed or cut_by_chance(dice, stuff, w, h)
    if not cut or room[0] == 0:
        return ["r"]
    room[0] -= 1
    axis, at, is_rest = cut
    behind = (w if axis == "x" else h) - at - stuff.kerf
    first, second = ((at, h), (behind, h)) if axis == "x" else ((w, at), (w, behind))
    words = [f"{axis}{at}", *(["r"] if is_rest else words_by_chance(dice, stuff, wants, *first, room, aim))]
    return words + (words_by_chance(dice, stuff, wants, *second, room) if behind > 0 else [])


def tree_by_chance(dice, stuff, wants, w, h):
    """A plan by chance with a piece and a cut, or nothing where none came."""
    for _ in range(50):
        words = words_by_chance(dice, stuff, wants, w, h, [dice.randint(1, 12)])
        if len(words) > 1 and any(word[0] == "p" for word in words):
            return " ".join(words)
    return None


def planned(dice, shop, stuff, wants, part, w, h):
    """A plan of a part by the shop's planner, on a step by chance, or nothing where it has none."""
    least = max(w, h) // 60 + 1
    most = min(min(it[:2]) for it in wants.values()) + stuff.kerf
    step = 0 if stuff.kind == "bar" else dice.randint(min(least, most), most)
    return exchange(shop, "/plan", {"ask": "plan", "demands": sorted(wants), "part": part, "step": step}).get("tree")


# What a shop tells.

NODE = re.compile(
    r" *(?P<node>\d+) (?:cut (?P<axis>[xy]) (?P<cut>[\d.]+)|(?P<kind>piece|rest)) at (?P<place>[\d. ]+) of (?P<size>[\d. x]+?)"
    r"(?: demand (?P<demand>\d+) (?P<order>\S+) line (?P<line>\d+)(?P<turned> turned)?)?"
)


def tenths(text):
    return int(text.replace(".", ""))


def pair(text, between, other):
    """A place or a size of a ticket; that of a bar is one number."""
    numbers = [tenths(it) for it in text.split(between)]
    return tuple(numbers) if len(numbers) == 2 else (numbers[0], other)


def ticket_of(trial, shop, job):
    """The nodes of a job's ticket: of each its number, place and sides, and what it is."""
    head = f"GET /ticket/{job} HTTP/1.1\r\nHost: 127.0.0.1:{shop.port}\r\n\r\n"
    lines = shop.exchange(head.encode()).partition(b"\r\n\r\n")[2].decode().splitlines()
    nodes = []
    for line in lines[2:-1]:
        read = NODE.fullmatch(line)
        trial.holds(read, f"no line of a ticket: {line}")
        nodes.append({**read.groupdict(), "at": pair(read["place"], " ", 0), "sides": pair(read["size"], " x ", 1)})
    return nodes


def told_boxes(stuff, nodes):
    """The rectangles that a ticket tells, each with what it is and its sides as the page shows them: pieces, rests, and what
    the saw takes at a cut."""
    boxes = []
    for node in nodes:
        (x, y), (w, h) = node["at"], node["sides"]
        if node["cut"]:
            at, side = tenths(node["cut"]), w if node["axis"] == "x" else h
            saw = min(stuff.kerf, side - at)
            strip = (x + at, y, saw, h) if node["axis"] == "x" else (x, y + at, w, saw)
            boxes += [("kerf", *strip, f"kerf {mm(stuff.kerf)} mm")] if saw else []
        elif node["kind"] == "piece":
            turned = " ↻" if node["turned"] else ""
            boxes.append(("piece", x, y, w, h, f"{node['demand']} · {node['order']}{turned}, {stuff.size(w, h)}"))
        else:
            boxes.append(("rest", x, y, w, h, stuff.size(w, h)))
    return sorted(boxes)


FATES = {"piece": "piece", "kerf": "kerf", "standing": "kept", "scrap": "scrap"}


def traced_boxes(it, job, nodes, corner):
    """The rectangles that a job left, as its traces tell them, each with what became of it, and whose piece or which rest it
    is."""
    boxes = []
    for node in nodes:
        part = it.ask(f"/trace/{job}/{node['node']}")
        if part.get("refused") == 50:
            continue
        fate = FATES[part["state"]]
        name = part["of"] if fate == "piece" else part["part"] if fate == "kept" else ""
        boxes.append((fate, part["x"] - corner[0], part["y"] - corner[1], part["w"], part["h"], str(name)))
    return sorted(boxes)


# What the page shows.

DRAWN = """(() => {
  const {scale, high, left, top, svg} = atSaw.canvas, shown = [...svg.querySelectorAll(':scope > rect.box:not(.open)')];
  const numbers = e => ['x', 'y', 'width', 'height'].map(name => Number(e.getAttribute(name)));
  return [scale, high, shown.map(e => [e.classList[1], ...numbers(e), e.textContent]).map(([fate, x, y, w, h, title]) =>
    [fate, (x - left) / scale, (y - top) / high, w / scale, h / high, title])];
})()"""
CUTS = "[...document.querySelectorAll('#cutList .cut b')].map(e => [e.textContent, e.nextSibling.textContent])"

# What the saw takes is drawn at least so many pixels wide.
THINNEST = 1.2


def drawn_boxes(it, told):
    """The rectangles of the job's picture, in tenths, each with its form and its title. What the saw takes is told, as a strip
    that is too thin is drawn wider."""
    strips = {box[1:3]: box[3:5] for box in told if box[0] == "kerf"}
    *scales, rows = it.value(DRAWN)
    boxes = []
    for fate, x, y, *sides, title in rows:
        corner = round(x), round(y)
        wanted = strips.get(corner, (0, 0)) if fate == "kerf" else [round(side) for side in sides]
        drawn = [max(side, THINNEST / per) if fate == "kerf" else side for side, per in zip(wanted, scales)]
        off = max(abs(a - b) for a, b in zip((*corner, *drawn), (x, y, *sides)))
        it.trial.holds(off < 1e-6, f"{fate} at {x} {y} isn't drawn to scale: {sides}, {wanted} is told")
        boxes.append((fate, *corner, *wanted, title))
    return sorted(boxes)


def as_told(boxes, stuff):
    """Drawn rectangles as a ticket tells them: kept and scrapped rests are rests, with their sides alone."""
    rest = lambda box: ("rest", *box[1:5], stuff.size(*box[3:5]))
    return sorted(box if box[0] in ("piece", "kerf") else rest(box) for box in boxes)


def as_traced(boxes):
    """Drawn rectangles as traces tell them: what was lost is scrap, a piece has its demand, and a kept rest its name."""
    names = {"piece": r"(\d+)", "kept": r"(?:uncut, )?kept (\d+/\d+),"}
    rows = []
    for fate, *sides, title in boxes:
        name = re.match(names[fate], title)[1] if fate in names else ""
        rows.append(("scrap" if fate == "lost" else fate, *sides, name))
    return sorted(rows)


def cuts_told(stuff, nodes):
    """The cuts of a ticket, as the page's list has them."""
    saw = {"x": "Saw across", "y": "Saw along"} if stuff.kind == "sheet" else {"x": "Saw"}
    come = {"x": " from the left", "y": " from the top"} if stuff.kind == "sheet" else {"x": ""}
    cuts = [node for node in nodes if node["cut"]]
    return [[f"{saw[it['axis']]} at {it['cut']} mm", f"{come[it['axis']]} of {stuff.size(*it['sides'])}"] for it in cuts]


def show(it, job):
    it.value(f"openJob({job})")
    it.until(f"atSaw.told?.job === {job} && document.querySelector('#jobPicture svg') && !{by_id('jobPanel')}.hidden")


def halt_by_chance(it, dice):
    """Marks a halt by chance at the page: cuts that were made, each with those above it, and perhaps one that went wrong. False
    where nothing is marked."""
    above = it.value("cutsOf(atSaw.told.root).map(cut => cut.above)")
    made = set()
    for cut, over in enumerate(above):
        if set(over) <= made and dice.random() < 0.7 and len(made) < len(above) - 1:
            made.add(cut)
    open_cuts = [cut for cut, over in enumerate(above) if cut not in made and set(over) <= made]
    lost = dice.choice([None, *open_cuts])
    if not made and lost is None:
        return False
    it.value("setBreaking(true)")
    # (the first cut is taken for the wrong one, and a click clears that)
    it.trial.equal(it.value("atSaw.lost"), 0)
    it.value("clickCut(0)")
    for cut in sorted(made):
        it.value(f"ticks.of(atSaw.job).has({cut}) || clickCut({cut})")
    if lost is not None:
        it.value(f"atSaw.lost === {lost} || (document.querySelector('[name=breakMode][value=lost]').checked = true, clickCut({lost}))")
    it.trial.equal(it.value("[[...ticks.of(atSaw.job)].sort((a, b) => a - b), atSaw.lost]"), [sorted(made), lost])
    return True


def lays_out(it, dice, send, stuff, job, part):
    """A waiting job's picture and cuts are those of its ticket; it is done or broken off, and what was drawn is what came."""
    root = it.ask(f"/trace/{part}")
    nodes = ticket_of(it.trial, it.shop, job)
    told = told_boxes(stuff, nodes)
    show(it, job)
    drawn = drawn_boxes(it, told)
    it.trial.equal(as_told(drawn, stuff), told, f"job {job}")
    it.trial.equal(it.value(CUTS), cuts_told(stuff, nodes), f"cuts of job {job}")
    is_broken = len(it.value(CUTS)) > 1 and dice.random() < 0.5 and halt_by_chance(it, dice)
    if is_broken:
        drawn = drawn_boxes(it, told)
        it.value("sendBreak()")
        it.until(f"!terminal.kept().length && atSaw.told.job === {job} && atSaw.told.state === 'broken'")
    else:
        send(do="done", job=job)
    came = traced_boxes(it, job, nodes, (root["x"], root["y"]))
    it.trial.equal(as_traced(drawn), came, f"what came of job {job}")
    if is_broken:
        it.value("(facts.entries.clear(), facts.old = new Map(facts.by), facts.by.clear(), readShown().then(showView))")
        it.until(f"{by_id('jobWords')}.textContent.endsWith('what was left.') && document.querySelector('#jobPicture svg')")
        it.trial.equal(as_traced(drawn_boxes(it, told)), came, f"what the traces of job {job} tell")


@case(
    "plans by chance that the page lays out",
    "Of bars and sheets by chance, whose saws take nothing, little or much, each plan, of the planner on steps by chance or by "
    "chance itself, lies in the picture and in the list of cuts as in its ticket; what the picture keeps, scraps and names, "
    "done or broken off at cuts by chance, is what the traces tell then. So it is with remnants that are cut again.",
)
def by_chance(trial):
    dice, shop = random.Random(27), open_by_chance(trial)
    yard, send, units, times = Yard(9), sender(shop), {}, 1 if is_slow(shop) else 3
    for stuff in STUFF:
        sides = [sides_by_chance(dice, stuff, 40, 100) for _ in range(times)]
        may_turn = lambda: stuff.kind == "sheet" and dice.random() < 0.5
        lines = [(*sides_by_chance(dice, stuff, 8, 35), 100000, may_turn()) for _ in range(5)]
        names = [yard.receive(stuff.code, *it) for it in sides]
        units[stuff.code] = list(zip(names, sides)), dict(enumerate(lines, yard.order(stuff.code, *lines)))
    fill(trial, shop, yard)
    with Terminal(trial, shop) as it:
        it.begin(7)
        it.until("shop.materials.length")
        laid = 0
        for stuff in STUFF:
            parts, wants = units[stuff.code]
            for number, (part, sides) in enumerate(parts):
                tree = planned(dice, shop, stuff, wants, part, *sides) if number % 2 else None
                laid += cut(it, dice, send, stuff, part, tree or tree_by_chance(dice, stuff, wants, *sides))
            rests = [row for row in it.ask(f"/parts/{stuff.code}")["parts"] if row["part"] != row["root"]]
            for row in dice.sample(rests, min(len(rests), times)):
                laid += cut(it, dice, send, stuff, row["part"], tree_by_chance(dice, stuff, wants, row["w"], row["h"]))
        trial.holds(laid > 6 * times, f"only {laid} plans")
        is_quiet(it)


def cut(it, dice, send, stuff, part, tree):
    """Reserves a part for a plan, where there is one, and looks how the page lays it out. How many plans that are."""
    if not tree:
        return 0
    lays_out(it, dice, send, stuff, send(do="reserve", part=part, tree=tree)["job"], part)
    return 1
