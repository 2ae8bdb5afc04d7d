"""The stack: which functions call themselves, how deep each goes, and the hardest questions with little of it."""

import json
import re
import resource
from collections import defaultdict

from kit.case import Skipped, case
from kit.questions import compact
from kit.sources import closing, sources
from kit.yards import Yard

# No logic knows a stack, so each function that calls itself is listed here, with how deep it goes and why.
TREE = "a tree of at most 255 cuts, by `MAX_CUTS`"
DEPTHS = {
    "cut_bars/src/bar.rt fill_counts": (10, "halves of at most 1000 wants"),
    "cut_bound/src/divisors.rt common_divisor": (48, "Euclid's method on two numbers of 32 bits"),
    "cut_bound/src/stages.rt stages_below": (256, TREE),
    "cut_lines/src/lines.rt write_blocks": (10, "the sizes of an order file's plan"),
    "cut_order/src/found.rt cuts_within": (256, TREE),
    "cut_order/src/found.rt has_demands": (256, TREE),
    "cut_order/src/found.rt is_shaped": (256, TREE),
    "cut_order/src/rests.rt largest_rest": (256, TREE),
    "cut_sheets/src/keep.rt keep_first": (20, "each call has at most half of a side, and both sides have at most 500 steps"),
    "cut_sheets/src/place.rt place": (256, "a tree of at most 256 pieces, as `keep` gives"),
    "cut_tree/src/bars.rt bar_node": (256, "a bar's pieces, each with a cut, of which a plan has at most 255"),
    "cut_tree/src/halts.rt are_closed": (256, TREE),
    "cut_tree/src/lay.rt lay_node": (256, TREE),
    "cut_tree/src/leaves.rt add_leaves": (256, TREE),
    "cut_tree/src/node.rt count_cuts": (512, "a tree that is judged before it is a plan: of 256 pieces, or of a text of 511 words"),
    "cut_tree/src/node.rt count_nodes": (256, TREE),
    "cut_tree/src/node.rt count_pieces": (256, TREE),
    "cut_tree/src/node.rt is_same": (256, TREE),
    "cut_tree/src/read.rt read_node": (512, "a word of the text for each node, of which 511 are read"),
    "cut_tree/src/saved.rt cut_side": (256, TREE),
    "cut_tree/src/steps.rt step_node": (256, TREE),
    "cut_tree/src/write.rt write_node": (256, TREE),
    "shop_answers/src/planning.rt demands_refusal": (100, "the demands of a question"),
    "shop_answers/src/planning.rt stands_twice": (100, "the demands of a question"),
    "shop_book/src/due_jobs.rt due_among": (256, "the leaves of a tree"),
    "shop_commands/src/faults.rt from": (2, "a fault of lines that is one of a plan"),
    "shop_desk/src/decided.rt last_of": (200, "the lines of an order"),
    "shop_machine/src/ending.rt are_reserved": (256, "the leaves of a tree"),
    "shop_machine/src/ordering.rt lines_refusal": (200, "the lines of an order"),
    "shop_machine/src/reserving.rt is_too_many": (256, "the leaves of a tree"),
    "shop_machine/src/reserving.rt leaves_refusal": (256, "the leaves of a tree"),
    "shop_machine/src/undoing.rt are_made": (256, "the leaves of a tree"),
    "shop_machine/src/undoing.rt same_parts": (512, "what a plan lays: a row for each cut and for each leaf, and one of a rest"),
    "shop_planning/src/posing.rt sizes_refusal": (10, "the sizes to be bought"),
    "shop_problems/src/steps.rt shortest": (200, "the pieces of a problem"),
    "shop_problems/src/stock.rt has_twice": (10, "the sizes of an order file's plan"),
    "shop_records/src/notes.rt has_control": (200, "the bytes of a note, which was measured before"),
    "shop_request/src/fields.rt values_named": (64, "the fields of a head"),
    "shop_request/src/addresses.rt put_hosts": (10, "the names that a server is given"),
    "shop_request/src/addresses.rt put_origins_hosts": (10, "the origins that a server is given"),
    "shop_request/src/addresses.rt put_texts": (10, "the origins that a server is given"),
    "shop_request/src/guards.rt has_foreign": (64, "the fields of a head"),
    "shop_request/src/routes.rt add_all": (100, "the routes"),
    "shop_serve/src/lines.rt due_of": (256, "the lines of which it is known when they were written"),
    "shop_statements/src/halt_texts.rt see_cuts": (255, "the cuts of a plan, of which a text is read for no more"),
    "shop_statements/src/halt_texts.rt write_more": (255, "the cuts of a plan, of which a text is read for no more"),
    "shop_tables/src/changing.rt is_ordered": (256, "the demands of a plan, one for each of its leaves at most"),
    "shop_tables/src/changing.rt uses_of": (256, "the demands of a plan, one for each of its leaves at most"),
    "shop_tables/src/laying.rt run_all": (100, "the statements that make the tables"),
    "shop_tables/src/writing.rt write_all": (10, "halves of the rows that one message writes, at most 1000"),
}


def defined(crate):
    """The functions of a crate: their file, their type or trait, and their name, with the body of each."""
    found = {}
    for path, code in sources().items():
        if not path.startswith(f"{crate}/"):
            continue
        blocks = [
            (it.end(), closing(code, it.end() - 1), it[1])
            for it in re.finditer(r"\b(?:impl|trait)\b[^{;]*?(\w+)(?:<[^{;]*>)?\s*\{", code)
        ]
        for it in re.finditer(r"\bfn (\w+)[^{};]*\{", code):
            of = [name for begin, end, name in blocks if begin <= it.start() < end]
            body = code[it.end() : closing(code, it.end() - 1)]
            found.setdefault((path, of[0] if of else None, it[1]), "")
            found[path, of[0] if of else None, it[1]] += body
    return found


def callees(known, caller, body):
    """The functions of a crate that a body names in a call: plain ones by their name or their module's, those of a type by
    its name or on `self`. What is called on another value is another type's: no type but a tree's node has one of its own."""
    for it in re.finditer(r"(?:\b(\w+)(?:::<[^()]*?>)?::)?(\bself\.)?(\.)?\b(\w+)(?:::<[^()]*?>)?\(", body):
        of, on_self, on_other, name = it.groups()
        for path, own, other in known:
            module = path.rpartition("/")[2].removesuffix(".rt")
            is_plain = own is None and not on_self and not on_other and of in (None, module)
            is_own = own is not None and (of in (own, "Self") and own in (of, caller[1]) or on_self and own == caller[1])
            if other == name and (is_plain or is_own):
                yield path, own, other


def circles(known):
    """The functions that come to be called again before they return."""
    calls = {it: set(callees(known, it, body)) for it, body in known.items()}
    reached = defaultdict(set)
    for it in known:
        todo = list(calls[it])
        while todo:
            if (next_one := todo.pop()) not in reached[it]:
                reached[it].add(next_one)
                todo += calls[next_one]
    return {it for it in known if it in reached[it]}


@case(
    "what calls itself has a depth",
    "In the source of the crates the functions that call themselves, directly or through others, are those of a list, each with "
    "the depth that its data have at most.",
)
def depths(trial):
    found = set()
    for crate in sorted({it.partition("/")[0] for it in sources()}):
        found |= {f"{path} {name}" for path, _, name in circles(defined(crate))}
    trial.equal(sorted(found), sorted(DEPTHS))
    trial.holds(max(depth for depth, _ in DEPTHS.values()) <= 600, "a depth of over 600")


# Sheets of 20 by 6 metres, and pieces of fractions of a millimetre, of which a strip holds thousands.
NARROW = [
    '{"do":"material","kerf":2,"kind":"sheet","material":"GLASS","min_long":20,"min_short":3,"number":0,"terminal":4294967295}',
    '{"batch":"B-1","count":1,"do":"receive","h":60000,"material":"GLASS","number":0,"terminal":3,"w":200000}',
    '{"do":"order","lines":[{"count":1000000,"h":11,"line":3,"material":"GLASS","turn":false,"w":13,"worth":1},{"count":3,"h":2,"line":6,"material":"GLASS","turn":false,"w":6,"worth":1000000000},{"count":1,"h":2,"line":7,"material":"GLASS","turn":true,"w":3,"worth":1},{"count":1000000,"h":2,"line":8,"material":"GLASS","turn":false,"w":2,"worth":6}],"number":1,"order":"A-1","terminal":3}',
    '{"do":"import","form":"csv","number":3,"order":"A-2","terminal":4294967295,"text":"line,material,length,width,turn,count,worth\\n\\n1,\\"GLASS\\",7.2,1.3,no,3,1\\n\\n2,GLASS,4.3,0.6,yes,5,1\\n\\n3,GLASS,0.2,0.2,yes,1000000,4\\n\\n4,GLASS,0.2,0.1,yes,5,2"}',
    '{"do":"import","form":"csv","number":2,"order":"A-4","terminal":3,"text":"line,material,length,width,turn,count,worth\\n\\n1,\\"GLASS\\",0.5,0.2,no,2,1\\n\\n2,GLASS,5.7,0.1,no,1000000,1\\n\\n3,GLASS,7.5,0.6,yes,2,450\\n\\n6,GLASS,5.1,0.1,no,1000000,36\\n\\n"}',
    '{"do":"import","form":"cgcut","material":"GLASS","number":5,"order":"A-5","terminal":1,"text":"1 9 9 3 4 3 12"}',
    '{"do":"material","kerf":3,"kind":"sheet","material":"0123456789ABCDE-","min_long":5,"min_short":3,"number":7,"terminal":1}',
    '{"do":"order","lines":[{"count":5,"h":2,"line":2,"material":"GLASS","turn":false,"w":6,"worth":45},{"count":3,"h":5,"line":4,"material":"0123456789ABCDE-","turn":true,"w":3,"worth":1},{"count":5,"h":2,"line":7,"material":"GLASS","turn":false,"w":2,"worth":4},{"count":3,"h":5,"line":8,"material":"0123456789ABCDE-","turn":true,"w":2,"worth":1}],"number":8,"order":"A-7","terminal":1}',
    '{"ask":"plans","buy":[{"h":18,"w":11}],"calls":20,"demands":[16,11,6,4,12],"material":"GLASS"}',
]


@case(
    "strips of many thousand pieces",
    "A question for plans of a sheet of 20 by 6 metres, of whose strips each could hold thousands of pieces, is answered.",
)
def strips(trial):
    answered(trial, trial.replay(NARROW), len(NARROW))


def answered(trial, ran, count):
    """So many lines were answered, none of them by a refusal."""
    output = [json.loads(it) for it in ran.out.split(b"\n")[:-1]]
    trial.equal((ran.status, ran.err), (0, b""))
    trial.equal(len(output), count)
    trial.equal([it for it in output if "ok" not in it], [])
    return output


def least():
    """Gives the new process a stack of 256 KiB, a thirty-second of what systems give."""
    resource.setrlimit(resource.RLIMIT_STACK, (256 * 1024, 256 * 1024))


def compiled(trial):
    """Skips a program that was built without proofs."""
    if trial.is_watched():
        raise Skipped("the program was built without proofs, and takes many times as much of the stack")


@case("strips with little stack", "So is that question, with a stack of 256 KiB.")
def little_strips(trial):
    compiled(trial)
    answered(trial, trial.replay(NARROW, prepare=least), len(NARROW))


def comb(pieces):
    """A tree of so many pieces of the first demand, each cut off the rest of the one before."""
    return " ".join(["x1 p1"] * (pieces - 1) + ["p1"])


@case(
    "deep trees with little stack",
    "With a stack of 256 KiB a bar is cut by a tree of 255 cuts, each in what the one before left, and a sheet of 500 by 500 steps "
    "is planned, of whose table the best tree cuts off one step at a time. 100000 brackets are refused.",
)
def deep(trial):
    compiled(trial)
    yard = Yard()
    yard.material("BAR", 0)
    yard.material("GLASS", 0, "sheet")
    yard.bars("BAR", (1, 1000))
    job = yard.cut(yard.receive("BAR", 256), comb(256))
    trace = compact({"ask": "trace", "part": f"{job}/510"})
    answered(trial, trial.replay([*yard.lines, trace], prepare=least), len(yard.lines) + 1)
    brackets = trial.replay([*yard.lines, "[" * 100000], prepare=least)
    trial.equal((brackets.status, json.loads(brackets.out.split(b"\n")[-2])["refused"]), (0, 10))
    sheet = yard.receive("GLASS", 500, 500)
    demand = yard.order("GLASS", (1, 1, 1000000, False))
    plans = [{"ask": "plans", "calls": 20, "demands": [demand], "material": "GLASS", **more} for more in ({"step": 1}, {"parts": [sheet]})]
    lines = [*yard.lines, *map(compact, plans)]
    answered(trial, trial.replay(lines, prepare=least), len(lines))
    plan = compact({"ask": "plan", "demands": [demand], "part": sheet, "step": 1})
    output = trial.replay([*yard.lines, plan], prepare=least)
    trial.equal((output.status, json.loads(output.out.split(b"\n")[-2])["refused"]), (0, 91))


@case(
    "many parts and lines with little stack",
    "With a stack of 256 KiB an order of 200 lines is taken, and a question for plans names 100 demands and 1000 parts.",
)
def many(trial):
    compiled(trial)
    yard = Yard()
    yard.material("BAR", 1)
    first = yard.bars("BAR", *[(100 + it, 3) for it in range(200)])
    units = [yard.receive("BAR", 6000, count=100).partition("/")[0] for _ in range(10)]
    asked = {
        "ask": "plans",
        "calls": 20,
        "demands": list(range(first, first + 100)),
        "material": "BAR",
        "parts": [f"{act}/{it}" for act in units for it in range(100)],
    }
    lines = [*yard.lines, compact(asked)]
    answered(trial, trial.replay(lines, prepare=least), len(lines))
