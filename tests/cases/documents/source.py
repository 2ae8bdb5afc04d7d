"""What the source itself shows: where lack of memory and a failed store are reported, and which constants a law names."""

import glob
import re
from collections import Counter
from functools import cache

from kit.case import Failed, case
from kit.sources import TOP, closing, sources

# Lack of memory, by any of its names.
NAMED = re.compile(r"\b(?:NoMemory|AllocError|OutOfMemory|is_memory)\b")

# Calls of std and of ported crates whose only Err is lack of memory.
OF_STD = {"push", "extend_from_slice", "Vec::with_capacity", "Vec::from_slice", "Box::new"}

# Places that report lack of memory otherwise than as the Err of a call that has no other, or as what another value names;
# and why there is one behind it.
LISTED = {
    "cut_order/src/answer.rt want_of_memory": "the check of units that are a plan of the order, whose only fault then is this one, by its contract",
    "shop_audit/src/compared.rt have_same_imports": "as many orders as the greatest number: no memory holds so many codes",
    "shop_desk/src/asking.rt known_rack": "the taker of a rack stops where its list has no room",
    "shop_desk/src/desk_calls.rt entered": "an entry behind the last of all numbers of 64 bits: a store's end before, and no memory holds so many",
    "shop_desk/src/history.rt reported_last": "4294967295 entries were read, and no memory holds so many",
    "shop_desk/src/nodes.rt row_of_step": "a job's row under a number that no job has, which no history makes",
    "shop_files/src/orders.rt next_row": "a record of a slice, of any length: the reader has no other error",
    "shop_forms/src/writing.rt value_of": "a text that was written by the port's own writer: only lack of memory keeps it from being read",
    "shop_opening/src/apart.rt apart_fault": "files in memory, whose writes fail for nothing else",
    "shop_opening/src/before.rt given": "the same",
    "shop_opening/src/before.rt memory_of": "the same",
    "shop_planning/src/task.rt want_of_memory": "a search for what was judged before, whose only fault then is this one, by its contract",
    "shop_request/src/routes.rt new": "only lack of memory keeps the router from taking the routes, which are constants",
    "shop_rows/src/part_rows.rt reserve": "a number of origins of 32 bits: acts end at 2147483647, and each begins one at most",
    "shop_serve/src/answers.rt note_want": "what the watch told of a backup is asked for, to be noted",
    "shop_serve/src/clients.rt ask": "there is no answer where memory is wanting for it",
    "shop_store/src/entries.rt find_trail": "more steps than there are entries",
    "shop_store/src/uses.rt list_uses": "more steps than there are rows",
    "shop_store/src/ledger_book.rt out_of_range": "a number, a sum or two lines of an order that no history makes, over a storage whose only fault is lack of memory, by its contract",
    "shop_store/src/stories.rt scan": "more steps than there are entries",
    "shop_store/src/loading_parts.rt stopped": "the loader of parts says whether it stopped for lack of memory",
    "shop_text/src/yields.rt report_text": "the taker of a report's lines stops where its text has no room",
    "shop_wire/src/serving.rt write_made": "the text is handed over as it was made, or the lack of memory",
    "shop_wire/src/response.rt plans_refused": "the server asks for it where the text of an answer, or the answer of it, isn't made because memory ran out",
}


def functions(code):
    """The name, the head and the body of each function."""
    for found in re.finditer(r"\bfn (\w+)[^{};]*\{", code):
        end = closing(code, found.end() - 1)
        yield found[1], found[0], code[found.end() : end]


def named(code):
    """The name of each function, with its type before it where it is one's, and what stands before its body."""
    impls = []
    for found in re.finditer(r"\bimpl\b[^{;]*?(\w+)(?:<[^{;]*>)?\s*\{", code):
        impls.append((found.end(), closing(code, found.end() - 1), found[1]))
    for found in re.finditer(r"\bfn (\w+)[^{};]*", code):
        of = [name for begin, end, name in impls if begin <= found.start() < end]
        yield f"{of[0]}::{found[1]}" if of else found[1], found[0]


@cache
def wanting():
    """The names of functions of each crate, those of types without them too: whether their only Err is lack of memory."""
    known = {}
    for path, code in sources().items():
        for name, head in named(code):
            is_wanting = bool(re.search(r"-> *Result<.*\bAllocError>\s*$", head, re.DOTALL))
            for it in {name, name.rpartition("::")[2]}:
                known.setdefault((path.partition("/")[0], it), set()).add(is_wanting)
    return known


def around(body, at):
    """The blocks around a place, from the innermost one outward: what stands before each, and what stands in it up to the
    place, without the blocks that are closed there."""
    opened = []
    for place in range(at):
        if body[place] == "{":
            opened.append(place)
        elif body[place] == "}":
            opened.pop()
    end = at
    for place in [*reversed(opened), -1]:
        yield flat(body[: max(place, 0)]).rpartition(";")[2], flat(body[place + 1 : end]).replace(";", ",")
        end = place


def flat(text):
    """The end of a text, from its last open block on, with a semicolon for each closed block and a word for each value."""
    while (less := re.sub(r"([A-Z]\w*)\s*\{[^{}]*\}", r"\1", text)) != text or (less := re.sub(r"\{[^{}]*\}", ";", text)) != text:
        text = less
    return text.rpartition("{")[2]


def is_wanting(call, crate):
    """Whether the Err of what an expression calls last is lack of memory and nothing else: of that crate's own function of
    this name, or else of all crates' functions of it."""
    while (bare := re.sub(r"\([^()]*\)", "", call)) != call:
        call = bare
    name = re.sub(r"\s", "", call).rpartition(".")[2]
    own = wanting().get((crate, name))
    everywhere = set().union(*[it for (_, other), it in wanting().items() if other == name])
    return name in OF_STD or (own or everywhere) == {True}


def is_alone(expression):
    """Whether nothing is joined to an expression, within its brackets either, and nothing in it is negated or another way."""
    return not re.search(r"\||&&|!|\b(?:if|match)\b", expression)


def is_behind(body, at, crate):
    """Whether what is reported at a place is the lack of memory of something else: that of a pattern or a condition around it, or
    the Err of a call that has no other; and of nothing beside it."""
    for before, within in around(body, at):
        matched, arms = re.search(r"\bmatch\b(.*)", before, re.DOTALL), within.rpartition("=>")
        pattern = arms[0].rpartition(",")[2].strip()
        condition = re.search(r"\bif\b(.*)", before, re.DOTALL)
        let = re.search(r"\blet Ok\(.*?\)\s*=(.*)\belse\s*$", before, re.DOTALL)
        if matched and NAMED.search(pattern):
            return is_alone(re.sub(r"^(.*?)\bif\b", r"\1", pattern, flags=re.DOTALL))
        if condition and NAMED.search(condition[1]):
            return is_alone(condition[1])
        if matched and pattern == "Err(_)":
            return is_wanting(matched[1], crate)
        if let:
            return is_wanting(let[1], crate)
        if condition and condition[1].strip().endswith(".is_err()"):
            return is_alone(condition[1]) and is_wanting(condition[1].strip().removesuffix(".is_err()"), crate)
    return False


def reports():
    """The places that report lack of memory: the file with the function, and whether the rule takes the report."""
    for path, code in sources().items():
        if re.search(r"\b(?:const|static)\s+\w+\s*:[^;{]*=[^;{]*\b(?:NoMemory|AllocError)\b|\b(?:NoMemory|AllocError)\s+as\b", code):
            yield f"{path}, by another name", False
        for name, head, body in functions(code):
            if name == "from" and "AllocError" in head:
                continue
            for found in re.finditer(r"(?:\b\w+::)?\b(?:NoMemory|AllocError)\b", body):
                behind = body[found.end() :]
                is_type = re.match(r"\s*>", behind)
                is_pattern = re.match(r"[\s)}]*(?:=>|\|)", behind) or re.search(r"[=!]=\s*$", body[: found.start()])
                if not is_type and not is_pattern:
                    yield f"{path} {name}", is_behind(body, found.start(), path.partition("/")[0])


@case(
    "lack of memory is never invented",
    "The source of the crates reports lack of memory only behind another report of it, or behind a call that fails for nothing else, "
    "and nothing else stands in the condition or the pattern. A list has the other places with their reasons, and each of them is "
    "there.",
)
def never_made(trial):
    output = list(reports())
    trial.holds(len(output) > 50, f"{len(output)} places")
    trial.equal(sorted(place for place, is_behind in output if not is_behind), sorted(LISTED))


# Bodies that report lack of memory, and whether the rule takes the report.
TELLING = (
    ("if list.push(row).is_err() { return Err(F::NoMemory); }", True),
    ("if is_full || list.push(row).is_err() { return Err(F::NoMemory); }", False),
    ("if is_full && list.push(row).is_err() { return Err(F::NoMemory); }", False),
    ("if !(is_full == list.push(row).is_err()) { return Err(F::NoMemory); }", False),
    ("if (is_full || row.is_bad()).then(work).is_err() { return Err(F::NoMemory); }", False),
    ("if list.push(row).or(other).is_err() { return Err(F::NoMemory); }", False),
    ("if list.push(row).is_err() || is_full { return Err(F::NoMemory); }", False),
    ("if list.push(if is_full { one } else { two }).is_err() { return Err(F::NoMemory); }", False),
    ("if work(row).is_err() { return Err(F::NoMemory); }", False),
    ("if list.push(row).is_ok() { Ok(()) } else { Err(F::NoMemory) }", False),
    ("if error.is_memory() { return F::NoMemory; }", True),
    ("if is_full || error.is_memory() { return F::NoMemory; }", False),
    ("if !error.is_memory() { return F::NoMemory; }", False),
    ("match work(row) { Err(F::NoMemory) => G::NoMemory, Err(_) => G::Other }", True),
    ("match work(row) { Err(F::NoMemory | F::Other) => G::NoMemory, Err(_) => G::Other }", False),
    ("match work(row) { Err(F::NoMemory) | Err(F::Other) => G::NoMemory, Err(_) => G::Other }", False),
    ("match work(row) { Err(it) if it.kind() == OutOfMemory => G::NoMemory, Err(_) => G::Other }", True),
    ("match work(row) { Err(it) if is_full || it.kind() == OutOfMemory => G::NoMemory, Err(_) => G::Other }", False),
    ("match list.push(row) { Ok(()) => Ok(()), Err(_) => Err(F::NoMemory) }", True),
    ("match work(row) { Ok(()) => Ok(()), Err(_) => Err(F::NoMemory) }", False),
    ("let Ok(()) = list.push(row) else { return Err(F::NoMemory); };", True),
    ("let Ok(()) = work(row) else { return Err(F::NoMemory); };", False),
)


@case(
    "wrong reports of lack of memory",
    "In bodies made by hand, the rule over the source takes a report of lack of memory behind a condition, a pattern or a call that "
    "stands for nothing else, and refuses it if more stands in the condition or the pattern, or the call fails for something else.",
)
def wrong_reports(trial):
    for body, is_right in TELLING:
        output = "G::NoMemory" if "G::NoMemory" in body else "F::NoMemory"
        trial.equal(is_behind(body, body.index(output), "shop_files"), is_right, body)


# Takers whose stop is reported as lack of memory, by the file in which each stands.
TAKERS = ("shop_desk/src/racks.rt", "shop_text/src/yields.rt")


@case(
    "takers stop for lack of memory alone",
    "A taker of parts whose stop is reported as lack of memory stops only if a call fails that fails for nothing else, and an answer "
    "that isn't made is one whose making failed.",
)
def takers(trial):
    for path in TAKERS:
        bodies = [body.strip() for name, _, body in functions(sources()[path]) if name == "part"]
        trial.equal(len(bodies), 1, path)
        last = bodies[0].rpartition("||")[2].strip()
        is_plain = not re.search(r"&&|[;{}!]", bodies[0]) and last.endswith(".is_ok()")
        trial.holds(is_plain and is_wanting(last.removesuffix(".is_ok()"), path.partition("/")[0]), f"{path}: {bodies[0]}")
    code = re.sub(r"\bNone => None,|\blet Ok\([^;]*?\belse \{\s*return None;", "", sources()["shop_serve/src/answers.rt"])
    trial.equal(len(re.findall(r"\bNone\b(?!\))", code)), len(re.findall(r"Err\(_\) => None,", code)), "answers that aren't made")


# A failed store, or tables of another version, by any name of the tables, of a book or of a refusal.
FAILED = re.compile(r"\b(?:TableFault|AdoptFault|BookFault|Refusal)::(Store|StoreFault|WrongVersion)\b")

# The places that report one where none is handed on, how many each function has, and what is so there.
FAULTED = {
    "shop_book/src/books.rt from StoreFault": (2, "hands on a book's fault"),
    "shop_desk/src/desk_calls.rt answer_again StoreFault": (1, "the kept reply is none"),
    "shop_machine/src/ending.rt work_of StoreFault": (3, "a job without its part or its material, or rows that don't bear its end, by its contract"),
    "shop_machine/src/importing.rt decide_again StoreFault": (1, "the reply of an import is none, by its contract"),
    "shop_machine/src/receiving.rt decide_receive StoreFault": (1, "more cells in stock than were received, by its contract"),
    "shop_machine/src/reserving.rt decide_reserve StoreFault": (1, "a part without its material, by its contract"),
    "shop_machine/src/retiring.rt decide_give_back StoreFault": (1, "totals below the part's cells, by its contract"),
    "shop_machine/src/retiring.rt decide_scrap StoreFault": (1, "totals below the part's cells, by its contract"),
    "shop_machine/src/undoing.rt decide_undo StoreFault": (2, "totals below the cells of what a job left, or demands of fewer pieces than it made, by its contract"),
    "shop_machine/src/undoing.rt find_over StoreFault": (3, "a job without its part or its material, or a part that its plan doesn't fit, by its contract"),
    "shop_serve/src/answers.rt health_answer StoreFault": (1, "the state of a server whose last message met a failed store"),
    "shop_serve/src/clocks.rt back_up StoreFault": (2, "no backup is made"),
    "shop_tables/src/kept_counts.rt count_kept Store": (1, "a count without its row"),
    "shop_statements/src/columns.rt code_in Store": (1, "a text that is no code"),
    "shop_statements/src/columns.rt counted Store": (1, "a count of 2^63 or more"),
    "shop_statements/src/columns.rt form_in Store": (1, "a form that is none"),
    "shop_statements/src/columns.rt kind_in Store": (1, "a kind that is none"),
    "shop_statements/src/columns.rt limits_in Store": (1, "limits that the kind can't have"),
    "shop_statements/src/columns.rt name_in Store": (1, "an act that is out of its range"),
    "shop_statements/src/columns.rt size_in Store": (1, "sides that are out of their range"),
    "shop_statements/src/columns.rt state_in Store": (1, "a state that is none"),
    "shop_statements/src/columns.rt turn_in Store": (1, "a turn that is none"),
    "shop_statements/src/columns.rt word_in Store": (2, "no text, or bytes that are no UTF-8"),
    "shop_statements/src/faults.rt from Store": (1, "hands on a fault of `sqlite`, by its contract"),
    "shop_statements/src/halt_texts.rt candidate Store": (1, "a text that isn't of the three keys"),
    "shop_statements/src/halt_texts.rt list_of Store": (1, "more cuts than a plan has"),
    "shop_statements/src/halt_texts.rt listed_of Store": (1, "a list without its end"),
    "shop_statements/src/halt_texts.rt number_of Store": (1, "no number of 32 bits"),
    "shop_statements/src/halt_texts.rt read_back Store": (1, "a text that isn't written as its halt is"),
    "shop_statements/src/numbers.rt number_of Store": (1, "a last number that isn't there"),
    "shop_machine/src/entering.rt enter StoreFault": (1, "an entry behind the last of all numbers of 64 bits"),
    "shop_statements/src/columns.rt order_of_text Store": (1, "a text that is no code"),
    "shop_statements/src/columns.rt word_of_entry Store": (1, "a text that is no word of a command"),
    "shop_store/src/entries.rt find_remembered Store": (1, "hands on a fault of the tables, unless a row is no entry's"),
    "shop_store/src/ledger_book.rt fault Store": (1, "numbers or totals that a ledger can't hold, by its contract"),
    "shop_store/src/loading.rt load_orders Store": (1, "more orders than a shop has"),
    "shop_store/src/numbered.rt load_numbered Store": (1, "more rows than a table of numbers has"),
    "shop_store/src/sql.rt checked WrongVersion": (2, "totals that aren't the sums, or a row that is none, by its contract"),
    "shop_store/src/sql.rt counted WrongVersion": (1, "a last entry whose number isn't how many there are, by its contract"),
    "shop_store/src/sql.rt extend WrongVersion": (2, "totals that aren't the sums, or a row that is none, by its contract"),
    "shop_store/src/sql.rt fault_of_adopt Store": (1, "hands on a fault of the tables, by its contract"),
    "shop_store/src/sql.rt fault_of_adopt WrongVersion": (1, "hands on a fault of the tables, by its contract"),
    "shop_store/src/sql.rt fault_of_tables Store": (1, "hands on a fault of the tables, by its contract"),
    "shop_store/src/sql.rt renew WrongVersion": (2, "totals that aren't the sums, or a row that is none, by its contract"),
    "shop_tables/src/adopting.rt adopt_found WrongVersion": (1, "rows in the totals of version 1"),
    "shop_tables/src/adopting.rt adopt_early WrongVersion": (1, "an undone job or part in version 1 or 2"),
    "shop_tables/src/adopting.rt adopt_taken WrongVersion": (1, "a name of ours is taken, and the tables aren't there"),
    "shop_tables/src/adopting.rt adopt_totals WrongVersion": (1, "rows in the totals of version 1"),
    "shop_tables/src/adopting.rt adopt_version WrongVersion": (2, "another version, or none"),
    "shop_tables/src/adopting.rt from Store": (1, "hands on a fault of `sqlite`, by its contract"),
    "shop_tables/src/entries.rt behind Store": (2, "a number behind which a statement can't ask"),
    "shop_tables/src/entries.rt counted Store": (2, "no number, or more entries than a table has"),
    "shop_tables/src/visiting.rt visit_rows Store": (1, "more rows than a table has"),
    "shop_tables/src/listed_rows.rt at_most Store": (1, "so many rows that a statement can't say it"),
    "shop_tables/src/listed_rows.rt up_to Store": (1, "so many rows that a statement can't say it"),
    "shop_tables/src/valid_rows.rt plan_of_row Store": (1, "bytes that are no UTF-8"),
    "shop_text/src/tickets.rt push_what StoreFault": (1, "a piece without its demand, by its contract"),
    "shop_text/src/tickets.rt ticket_text StoreFault": (2, "a job without its part, or a part without its material, by its contract"),
}


def failures():
    """The places that report a failed store or another version where none is handed on by its name: the file with the function and
    the fault, and whether an Err of any kind is reported so that may be lack of memory."""
    for path, code in sources().items():
        if re.search(r"\b(?:TableFault|AdoptFault|BookFault|Refusal|Store|StoreFault|WrongVersion)\s+as\b", code):
            yield f"{path}, by another name", False
        for name, _, body in functions(code):
            for found in FAILED.finditer(body):
                behind, before = body[found.end() :], body[: found.start()]
                if re.match(r"[\s)}]*(?:=>|\|)", behind) or re.search(r"[=!]=\s*(?:Err\()?$", before):
                    continue
                _, within = next(around(body, found.start()))
                arms = within.rpartition("=>")
                is_any = arms[0].rpartition(",")[2].strip() == "Err(_)" and not NAMED.search(arms[0])
                is_mapped = re.search(r"map_err\(\|_\w*\|\s*$", before)
                is_conversion = re.search(r"\b(?:try_from|from_utf8)\([^;]*$", before)
                yield f"{path} {name} {found[1]}", (is_any or is_mapped) and not is_conversion


@case(
    "a failed store is never invented",
    "The source of the crates reports a failed store, or tables of another version, only where it hands one on, and at the places of a "
    "list, each as often as the list says. None of them takes for it an Err that may be lack of memory.",
)
def never_failed(trial):
    output = list(failures())
    trial.equal([place for place, is_memory in output if is_memory], [])
    trial.equal(Counter(place for place, _ in output), {place: count for place, (count, _) in FAULTED.items()})


def read(path):
    with open(path, encoding="utf-8") as file:
        return re.sub(r"--.*", "", file.read())


def cited(text):
    """The constants of the code that a definition's text cites: crate, module and name of each, by the name that it has there."""
    found, mentions = {}, 0
    for crate, module, names in re.findall(r"Rattle\.(\w+)\.specs\.declared\.([\w.]+)\.TheConstants\.\{([A-Z_0-9,\s]*)\}", text):
        found |= {name: f"{crate} {module} {name}" for name in re.split(r"[,\s]+", names.strip())}
        mentions += 1
    for crate, module, short in re.findall(r"Rattle\.(\w+)\.specs\.declared\.([\w.]+)\.TheConstants as (\w+)", text):
        used = re.findall(rf"\b{short}\.([A-Z_0-9]+)\b", text)
        found |= {f"{short}.{name}": f"{crate} {module} {name}" for name in used}
        mentions += 1
    if mentions != len(re.findall(r"\bTheConstants\b", text)):
        raise Failed(f"\n  constants are cited in another form: {re.findall('.*TheConstants.*', text)}")
    return found


# a number, or a text
NUMBER = r'(?:[0-9]+(?: \^ [0-9]+)?|codes "[^"]*")'


def texts(kind):
    """The text of each file of the crates of a kind: definitions, or sources with their contracts."""
    folder, ending = {"definitions": ("specs", "antt"), "sources": ("src", "rt")}[kind]
    return [read(it) for it in sorted(glob.glob(f"{TOP}/crates/*/{folder}/**/*.{ending}", recursive=True))]


def equations(text):
    """The names that a text says to be a number, or to be a text."""
    return re.findall(rf"[:{{]\s*([\w.]+?)(?:\.now)?\s*≡\s*{NUMBER}\s*(?:\}}|$)", text, re.MULTILINE)


def statements(text):
    """The names of the statements of which a text says what they do."""
    return re.findall(r"\{\s*(?:Adds|Does) S\.Store (\w+)\.now\b", text)


def lawful(text, laws):
    """The names that a definition's text says to be a number, in a record that is one of these laws."""
    records = re.findall(r"(?m)^(?:pub )?record (\w+)[^\n]*\n((?:[ \t][^\n]*\n|\n)*)", text)
    return [it for record, body in records if record in laws for it in equations(body)]


@cache
def numbered():
    """The constants that a definition or a contract cites, and those whose number a law has."""
    definitions, sources = texts("definitions"), texts("sources")
    # (a law that is a record is a clause with nothing but its name)
    laws = {it for text in sources for it in re.findall(r"\bensures \w+ \{ (\w+) \}", text)}
    every, known, stated = set(), set(), set()
    said = [*[(it, lawful(it, laws)) for it in definitions], *[(it, equations(it) + statements(it)) for it in sources]]
    for text, equal in said:
        by_name = cited(text)
        every |= set(by_name.values())
        known |= {by_name[it] for it in equal if it in by_name}
        stated |= set(equal)
    for text in definitions:
        by_name = cited(text)
        known |= {by_name[it] for name, it in re.findall(r"(?m)^(\w+) = ([\w.]+)$", text) if name in stated and it in by_name}
    return every, known


@case(
    "constants have their numbers in a law",
    "Each constant of the code that a definition or a contract cites has its number, its text or, of a statement, what it does "
    "in a law, as in `limits_have_numbers`, by its own name or by that of the definition that is it.",
)
def numbers(trial):
    every, known = numbered()
    trial.holds(len(every) > 20, f"{len(every)} constants")
    trial.equal(sorted(every - known), [])


# Crates whose answers are hints, and programs of the gate: what limits them is promised to nobody.
HINTING = {"cut_search", "cut_search_bars", "cut_master", "cut_fill_bars", "cut_fill_sheets", "shop_examples", "cut_example"}

# The number of each other constant that no law has, the functions that use it, and what it would change that no clause says.
LAWLESS = {
    "shop_audit again ENTRIES_AT_ONCE": ("100", "page_size", "how many entries are read at a time"),
    "shop_audit naming MAX_NODES": ("1024", "first_part_of", "more than an act's parts: a part behind would not be told as the first row that differs"),
    "cut_classes choice MIN_POINTS": ("4", "points_along", "the fewest points of an axis that are asked for: fewer give a higher bound of what a sheet is worth"),
    "cut_classes choice MAX_NARROW": ("500", "points_along", "a side that an axis has room for more often, and more often than it has points, is not counted: that lowers a bound of costs"),
    "cut_classes pairs MAX_POINTS": ("65536", "is_usable_grid pairs_of usable_points", "the definition `IsUsableGrid` has the number"),
    "cut_tree read MAX_WORDS": ("512", "words_of", "one word more than a tree of 255 cuts has: the contract has the first fault at one of these"),
    "shop_book entry_index LAST_NUMBER": ("4294967295", "filed_number next_about", "the definition `filed_number` has the number"),
    "shop_backup backing MAX_BACKUPS": ("1000000", "begin_behind number_of", "the greatest number of a backup, as the formats have it"),
    "shop_backup backing BUFFER_SIZE": ("65536", "copy_piece", "how much of a file is in memory at once"),
    "shop_backup folders MAX_TRIES": ("1000", "try_in write", "how often an interrupted call is made again, and how many names are tried"),
    "shop_backup folders WRITE_OF_OTHERS": ("0o022", "folder_at", "the permission of others to write, as the system has it"),
    "shop_backup held NAMES_SIZE": ("4096", "", "how much of a folder's names is in memory at once"),
    "shop_backup held MAX_READS": ("1000", "", "how often the names of a folder of two files are read on"),
    "shop_desk history MAX_READ": ("4294967295", "reported_last", "entries read at once where one's message isn't kept: more than memory holds, and no more than a store's statement takes"),
    "shop_opening before HEAD": ("100", "head_of is_database", "the bytes of a database's head, as SQLite has it"),
    "shop_opening logs HEAD": ("32", "walk", "the bytes of a log's head, as SQLite has it"),
    "shop_opening logs FRAME_HEAD": ("24", "is_good walk", "the bytes before the page of a log's frame, as SQLite has it"),
    "shop_opening logs NO_FRAME": ("41", "log_state", "the bytes of a log that an end leaves"),
    "shop_planning asking ALL_ROWS": ("MAX_NUMBERS as usize", "left_demands planned_parts", "all rows of a list, of which none has a greater number"),
    "shop_planning asking FIRST_ROWS": ("2000", "planned_parts", "so many rows are read first; where these don't suffice all are"),
    "shop_problems wholes DEFAULT_CALLS": ("500", "plan_from plan_order", "tables of a search where the words say no number, as the formats have it"),
    "shop_commands memory MIN_MEGABYTES": ("16", "wanted_megabytes", "what the program takes without a store, by the second line: the definition `wanted_megabytes` has the number"),
    "shop_commands progress PAUSE": ("500", "is_early", "milliseconds between two lines that say how far a work is: the definition `is_early` has the number"),
    "shop_commands progress MEGABYTE": ("1048576", "note_opening", "the unit of a size in the line of a large store: the case “a large store is opened” has the size"),
    "shop_commands progress LARGE_STORE": ("16777216", "note_opening", "from so many bytes on the line of a large store is written: the case “a large store is opened” has both sides of it"),
    "shop_request fields MAX_BODY_LEN": ("131072", "short_number", "the definition `most_body` has the number"),
    "shop_request heads MAX_HEAD_LEN": ("8192", "least_bytes part_fault prefix_of", "the definition `most_head` has the number"),
    "shop_request heads MAX_FIELDS": ("64", "new read", "the definition `most_fields` has the number"),
    "shop_request pieces BUFFER_SIZE": ("8192", "read_piece", "how much a read of a request brings at most"),
    "shop_rows sums TOO_LARGE": ("18446744073709551616", "narrow wide_column", "sums that 64 bits don't hold are no totals"),
    "shop_serve connections MAX_TRIES": ("1000", "read_some write_some", "how often an interrupted call is made again"),
    "shop_serve dates HOUR": ("3600", "is_behind", "by how many seconds the clock may be behind the last entry before a line tells it"),
    "shop_serve lines STANDARD_ERROR": ("2", "takes", "the descriptor of standard error"),
    "shop_serve lines MAX_BYTES": ("4096", "takes", "what a pipe that takes anything takes at once"),
    "shop_serve lines MAX_KNOWN": ("256", "forget_oldest", "different lines of which it is known when they were written"),
    "shop_serve lines MINUTE": ("60", "due_at", "seconds after which an equal line is written again"),
    "shop_serve ports MAX_EVENTS": ("256", "new", "how many connections are reported at once; others are in the next report"),
    "shop_serve ports MAX_TRIES": ("1000", "next_stream", "how often it is tried to accept one, where those that waited went away"),
    "shop_serve serving MAX_ACCEPTED": ("64", "accept_waiting", "how many are accepted before others are serviced"),
    "shop_serve serving MAX_WAIT": ("1", "accept_waiting serve_port", "seconds between looks at those that had their time"),
    "shop_serve searching MAX_PLAN_TASKS": ("8", "is_crowded next_task", "`plans` queries that are searched at once; others wait"),
    "shop_serve transfers MAX_BYTES": ("150000", "take_bytes", "more bytes than come of any request that is read"),
    "shop_serve transfers MAX_DROPS": ("1024", "drop_rest", "reads at once of what is dropped: more than a socket keeps"),
    "shop_serve transfers BUFFER_SIZE": ("8192", "drop_rest take_piece", "how much a read of a connection brings at most"),
    "shop_store loading MAX_ORDERS": ("4294967295", "load_orders", "more orders than a shop has, as acts have 32 bits"),
    "shop_store loading_parts PARTS_AT_ONCE": ("4096", "flush_many", "how many parts that were read wait before they are put into a ledger"),
    "shop_store numbered MAX_CHUNKS": ("4294967296", "load_numbered", "more times than a table has rows of different numbers of 32 bits"),
    "shop_store numbered ROWS_AT_ONCE": ("1000", "load_numbered", "how many rows of jobs or demands are in memory at once while a ledger is loaded"),
    "shop_tables entries MAX_CHUNKS": ("1000000000", "invalid_entry", "more times than the journal's rows are read, some at once, to find one that is no entry's"),
    "shop_tables entries ROWS_AT_ONCE": ("1000", "invalid_row_from", "how many rows of the journal are in memory at once while one that is no entry's is looked for"),
    "shop_store entries ENTRIES_AT_ONCE": ("1000", "step", "how many entries are in memory at once while a store is opened"),
    "shop_store stories MAX_STEPS": ("18446744073709551615", "find_trail list_uses scan", "more times than there are entries, or rows of orders of jobs"),
    "shop_store uses ROWS_AT_ONCE": ("1000", "push_rows", "how many rows of orders of jobs an audit reads at once, as its query has it"),
    "shop_tables entries MAX_ENTRIES": ("9223372036854775807", "counted", "more entries than a table has, as its numbers have 63 bits"),
    "shop_streams counted MAX_TRIES": ("1000", "read write", "how often an interrupted call is made again"),
}


def used_in(crate, module, name):
    """The functions that use a constant, in its own file and in those that name it in front."""
    for path, code in sources().items():
        top = "crate" if path.startswith(f"{crate}/") else crate
        is_own = path == f"{crate}/src/{module.replace('.', '/')}.rt"
        if is_own or re.search(rf"\buse {top}::[^;]*\b{name}\b", code):
            yield from (of for of, _, body in functions(code) if re.search(rf"\b{name}\b", body))


@case(
    "numbers that no law has",
    "Each other whole number that is a constant of the code stands in a list, with its number, the functions that use it, and "
    "what it would change that no clause says, but those of crates that give hints alone; and each of the list is one.",
)
def lawless(trial):
    _, known = numbered()
    found = {}
    for path, code in sources().items():
        crate, _, file = path.partition("/src/")
        module = file.removesuffix(".rt").replace("/", ".")
        for name, value in re.findall(r"\bconst (\w+): (?:[iu]\d+|[iu]size) =\s*([^;]+);", code):
            if crate not in HINTING and f"{crate} {module} {name}" not in known:
                number = value.replace("_", "") if value[0].isdigit() else value
                found[f"{crate} {module} {name}"] = (number, " ".join(sorted(used_in(crate, module, name))))
    trial.equal(found, {name: listed[:2] for name, listed in LAWLESS.items()})


# The crates above a book by which a shop changes it, and those of each whose functions it may call.
ABOVE = {
    "shop_desk": (),
    "shop_wire": ("shop_desk",),
    "shop_opening": ("shop_desk",),
    "shop_serve": ("shop_wire", "shop_desk"),
    "shop_commands": ("shop_serve", "shop_opening", "shop_wire", "shop_desk"),
}

# The functions there that change a book: by `commit`, or by a call of one that does. What each calls for it, it calls at one place.
CHANGING = {
    "shop_desk handle_new": "commit",
    "shop_desk handle_message": "handle_new",
    "shop_desk handle_with_text_at": "handle_message",
    "shop_desk handle_with_text": "handle_with_text_at",
    "shop_desk handle_at": "handle_with_text_at",
    "shop_desk handle": "handle_at",
    "shop_desk run_at": "handle_at",
    "shop_desk run": "run_at",
    "shop_wire value_reported": "handle_with_text",
    "shop_wire answer": "value_reported",
    "shop_wire hold_answer": "answer",
    "shop_wire answer_lines": "hold_answer",
    "shop_wire replay": "answer_lines",
    "shop_wire message_reply": "handle_with_text_at",
    "shop_wire message_reported": "message_reply",
    "shop_wire respond": "message_reported",
    "shop_wire answer_request": "respond",
    "shop_wire answer_inbound": "answer_request",
    "shop_wire begin_inbound": "answer_inbound",
    "shop_wire begin_request": "begin_inbound",
    "shop_wire serve_request": "answer_inbound",
    "shop_wire serve_one": "serve_request",
    "shop_opening add_shop": "run_at",
    "shop_serve routed_answer": "begin_inbound",
    "shop_serve answer_of": "routed_answer",
    "shop_serve made_of": "answer_of",
    "shop_serve ask": "made_of",
    "shop_serve service": "ask",
    "shop_serve service_once": "service",
    "shop_serve service_at": "service_once",
    "shop_serve service_reported": "service_at",
    "shop_serve step_search": "service_at",
    "shop_serve serve_round": "service_reported step_search",
    "shop_serve serve_port": "serve_round",
    "shop_serve serve_on": "serve_port",
    "shop_commands replay_fresh": "replay",
    "shop_commands add_entries": "add_shop",
    "shop_commands serve_connections": "serve_on",
    "shop_commands serve_book": "add_entries serve_connections",
    "shop_commands serve": "serve_book",
    "shop_commands do_request": "replay_fresh serve",
    "shop_commands perform": "do_request",
    "shop_commands run": "perform",
}

# The crates that write tables, and the calls by which they do.
WRITING, WRITES = {"shop_statements", "shop_tables"}, r"\.(?:execute|execute_batch|transaction)\("


def calls_above():
    """What each function of these crates calls of theirs, or of a book to change it, as often as it does."""
    bodies = {}
    for path, code in sources().items():
        crate = path.partition("/")[0]
        for name, _, body in functions(code) if crate in ABOVE else ():
            bodies.setdefault((crate, name), []).append(body)
    for crate, name in bodies:
        calls = []
        for body in bodies[crate, name]:
            calls += [("", "commit")] * body.count(".commit(")
            for called in re.findall(r"(?<![\w.])(?:\w+::)*(\w+)(?:::<[^()]*>)?\(", body):
                calls += [(it, called) for it in (crate, *ABOVE[crate]) if (it, called) in bodies][:1]
        yield (crate, name), calls


@case(
    "what changes a book",
    "In the source of the crates that handle messages and serve them a book is changed by one `commit`, and by the calls that lead to it: "
    "each function with such a call stands in a list, and makes each of them at one place. Statements that write run in the crates of "
    "tables alone.",
)
def changing(trial):
    calls, changing = dict(calls_above()), {("", "commit")}
    while more := {it for it, called in calls.items() if changing.intersection(called)} - changing:
        changing |= more
    found = {" ".join(it): " ".join(sorted(name for of, name in called if (of, name) in changing)) for it, called in calls.items()}
    trial.equal({it: called for it, called in found.items() if called}, CHANGING)
    trial.equal({path.partition("/")[0] for path, code in sources().items() if re.search(WRITES, code)}, WRITING)
