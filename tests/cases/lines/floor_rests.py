"""Rests of lost cuts at the limits of their material, of cuts across and along."""

from kit.case import case
from kit.days import Replay
from kit.floor import line, message, received, refused, answers
from kit.lines import material

# Rests of a lost cut on a whole sheet, of whose material sides of 9 and 4 are kept: the sheet's sides, and the least rest that is kept of a
# cut across; a rest below it is scrap. (The longer side has to be 9, the shorter 4.)
SHEETS = [
    # The other side is long enough: the rest's own has to be 4.
    ((14, 9), 4),
    ((14, 10), 4),
    # It is too short to be the longer one: the rest's own has to be 9.
    ((14, 8), 9),
    ((14, 5), 9),
    ((14, 4), 9),
    # It is too short to be the shorter one: nothing is kept.
    ((14, 3), None),
    ((14, 1), None),
]
LONG, SHORT = 9, 4


def reply_of(job, lost, rest, is_kept):
    rack, scrap = (rest, lost) if is_kept else (0, lost + rest)
    return {"job": job, "kerf": 0, "ok": "break", "pieces": 0, "rack": rack, "scrap": scrap}


@case(
    "rests of lost cuts at their limits",
    "Of a cut across and one along a rest whose sides equal the least ones is kept, and one of a tenth less isn't, whichever "
    "side is the longer "
    "one; the rest's place is at the end of what was to be divided, and 1 and one below the side are rests, too.",
)
def at_limits(trial):
    for axis in ("x", "y"):
        shop, number, act, orders = Replay(trial, {}), 1, 0, 0
        answers(trial, shop, material("GLASS", number, "sheet", 1, LONG, SHORT), {"material": "GLASS", "ok": "material"})
        for sides, least in SHEETS:
            w, h = sides if axis == "x" else sides[::-1]
            number, orders = number + 1, orders + 1
            lines = [line(1, *((1, h) if axis == "x" else (w, 1)), 99)]
            reply = {"count": 1, "first": orders, "ok": "order", "order": f"A-{orders}"}
            answers(trial, shop, message(number, do="order", order=f"A-{orders}", lines=lines), reply)
            for rest in (1, SHORT - 1, SHORT, SHORT + 1, LONG - 1, LONG, LONG + 1, sides[0] - 1):
                number, act = number + 1, act + 1
                answers(trial, shop, message(number, **received(1, w, h)), {"act": act, "count": 1, "ok": "receive"})
                reserve = message(number + 1, do="reserve", part=f"{act}/0", tree=f"{axis}1 p{orders} r")
                answers(trial, shop, reserve, {"cuts": 1, "job": act + 1, "ok": "reserve"})
                number, act = number + 2, act + 1
                is_kept, lost = least is not None and rest >= least, sides[0] - rest
                broken = message(number, cuts=0, do="break", job=act, lost=True, rest=rest)
                answers(trial, shop, broken, reply_of(act, lost * sides[1], rest * sides[1], is_kept))
                kept = {"batch": "B-1", "of": 0, "ok": "trace", "part": f"{act}/1", "root": f"{act - 1}/0"}
                kept |= {"h": h, "w": rest, "x": lost, "y": 0} if axis == "x" else {"h": rest, "w": w, "x": 0, "y": lost}
                answers(trial, shop, {"ask": "trace", "part": f"{act}/1"}, {**kept, "state": "standing" if is_kept else "scrap"})
                gone = {**kept, "part": f"{act}/0", "x": 0, "y": 0, **({"w": lost} if axis == "x" else {"h": lost})}
                answers(trial, shop, {"ask": "trace", "part": f"{act}/0"}, {**gone, "state": "scrap"})
        trial.equal(shop.end(), (0, b""))


@case(
    "rests that are no rests at their limits",
    "Of a lost cut across and one along a rest of 0, of the side that it was to divide, and of more is refused 72; one below "
    "that side is left. "
    "The side is that of the cut's own rectangle, and not the part's.",
)
def none_at_limits(trial):
    for axis in ("x", "y"):
        shop = Replay(trial, {})
        answers(trial, shop, material("GLASS", 1, "sheet", 1, 1, 1), {"material": "GLASS", "ok": "material"})
        answers(trial, shop, message(2, **received(1, 20, 20)), {"act": 1, "count": 1, "ok": "receive"})
        sides = (2, 20) if axis == "x" else (20, 2)
        order = message(3, do="order", order="A-1", lines=[line(1, *sides, 9)])
        answers(trial, shop, order, {"count": 1, "first": 1, "ok": "order", "order": "A-1"})
        # Cut 0 divides 20, cut 1 the 17 behind a piece and a kerf, cut 2 the first 12 of these, and cut 3 the 9 behind a piece of them.
        answers(trial, shop, message(4, do="reserve", part="1/0", tree=f"{axis}2 p1 {axis}12 {axis}2 p1 {axis}2 p1 r r"), {"cuts": 4, "job": 2, "ok": "reserve"})
        wrong = [({"cuts": 0, "lost": True}, 20), ({"cuts": 1, "lost": True}, 17), ({"cuts": 2, "lost": True}, 12), ({"cuts": 3, "lost": True}, 9)]
        wrong += [({"cuts": [], "lost": 0}, 20), ({"cuts": [0], "lost": 1}, 17), ({"cuts": [0, 1], "lost": 2}, 12), ({"cuts": [0, 1, 2], "lost": 3}, 9)]
        number, job, part = 5, 2, "1/0"
        for halt, side in wrong:
            for rest in (0, side, side + 1, 4294967295):
                answers(trial, shop, message(number, do="break", job=job, rest=rest, **halt), refused(72, "BadCut"))
            for rest in (1, side - 1):
                reply = shop.reply(message(number, do="break", job=job, rest=rest, **halt)).decode()
                trial.holds('"ok":"break"' in reply, f"{halt} {rest}: {reply}")
                answers(trial, shop, message(number + 1, do="undo", job=job), {"job": job, "ok": "undo", "part": part})
                again = message(number + 2, do="reserve", part=part, tree=f"{axis}2 p1 {axis}12 {axis}2 p1 {axis}2 p1 r r")
                answers(trial, shop, again, {"cuts": 4, "job": job + 1, "ok": "reserve"})
                number, job = number + 3, job + 1
        trial.equal(shop.end(), (0, b""))
