"""What the documents name is there: cases, files, edits, names of the code, crates, and clauses."""

import functools
import glob
import os
import re

import __main__
from kit.case import CASES, TOP, case

# Names in backticks that look like code of the crates and are the toolchain's, or patterns of names.
NOT_CODE = {"Lts", "RT_JOBS", "StemDecision", "StemStep", "StemEffect"}

# Traits of std that the crates' types meet.
OF_STD = {"Display", "From"}


@functools.cache
def text_of(name):
    with open(os.path.join(TOP, name), encoding="utf-8") as file:
        return file.read()


def documents():
    return [os.path.relpath(it, TOP) for it in [*glob.glob(f"{TOP}/*.md"), *glob.glob(f"{TOP}/docs/*.md")]]


def file_names():
    """The names of the files of the crates and of tests/, without their folders."""
    paths = [it for kind in ("src", "specs", "proofs") for it in glob.glob(f"{TOP}/crates/*/{kind}/**/*.*", recursive=True)]
    return {os.path.basename(it) for it in [*paths, *glob.glob(f"{TOP}/tests/*/**/*.*", recursive=True)]}


def is_there(name):
    """Whether a file has this name, below the top, docs/ or crates/, or at the end of a path in a crate."""
    return any(
        glob.glob(os.path.join(TOP, it, name)) for it in ("", "docs", "crates", "crates/*", "crates/*/src", "crates/*/specs")
    )


@case(
    "each case has a name of its own",
    "`tests/run --table` prints the name and the sentence of each case once, and no other row.",
)
def names(trial):
    rows = re.findall(r"^\| (.+?) \| (.+) \|$", "\n".join(__main__.table(CASES)), re.MULTILINE)
    output = [it for it in rows if it != ("Name", "What it shows")]
    trial.equal(output, [(it.name, it.says.replace("|", "\\|")) for it in CASES])
    trial.equal(len({name for name, _ in output}), len(output))


def cited_cases(text):
    """The cases that a document cites: in a table whose last column is “the case”, and behind the word case."""
    rows = "".join(re.findall(r"^\|[^\n]*the case ?\|\n((?:\|.*\n)+)", text, re.MULTILINE))
    return re.findall(r"“([^”]+)”", rows) + re.findall(r"\bcases? “([^”]+)”", text)


@case("cited cases are there", "Each case that a document cites is in the suite, and words behind `tests/run` choose one.")
def cases(trial):
    there = [it.name for it in CASES]
    named = [(it, cited) for it in documents() for cited in cited_cases(text_of(it))]
    words = [(it, cited) for it in documents() for cited in re.findall(r"tests/run ([a-z][a-z' ]*[a-z])(?![/a-z])", text_of(it))]
    trial.holds(len(named) > 30 and len(words) > 2, f"{len(named)} cases and {len(words)} words are cited")
    trial.equal([it for it in named if it[1] not in there], [])
    trial.equal([it for it in words if not any(it[1] in name for name in there)], [])


@case("cited files are there", "Each file that a document cites is in the repository.")
def files(trial):
    lost = []
    there = file_names()
    for document in documents():
        bare = re.findall(r"`(\w+\.(?:rt|antt|py))`", text_of(document))
        lost += [f"{document}: {it}" for it in bare if it not in there]
        cited = re.findall(r"`([\w./-]+/[\w.-]+\.(?:rt|antt|py|md|edit|toml|txt|c))`", text_of(document))
        cited += [it for it in re.findall(r"\]\(([^)#:]+)(?:#[^)]*)?\)", text_of(document)) if not it.startswith("http")]
        lost += [f"{document}: {it}" for it in cited if not is_there(it)]
    trial.equal(lost, [])


@case(
    "cited edits are there",
    "Each edit that docs/PROMISES.md reports as refused is in must-fail/ or more-edits/, and each of must-fail/ is reported there.",
)
def edits(trial):
    cited = set()
    for passage in re.findall(r"Refused[^\n]*", text_of("docs/PROMISES.md")):
        cited |= {it for it in re.findall(r"`([a-z_0-9]+)`", passage) if "_" in it}
    crates = set(os.listdir(f"{TOP}/crates"))
    trial.equal(sorted(cited - edit_names() - crates), [])
    trial.equal(sorted(edit_names("must-fail") - cited), [])
    # A crate that has any is proved twice.
    proved_twice = {it.split("/")[-3] for it in glob.glob(f"{TOP}/crates/*/must-fail/*.edit")}
    trial.holds(len(proved_twice) <= 8, f"{len(proved_twice)} crates have edits in must-fail/, each of which is proved twice for them")


def edited(path):
    """Applies an edit to the files that it names. The first line that it can't apply, or None."""
    texts, name = {}, None
    with open(path, encoding="utf-8") as file:
        lines = [it.rstrip("\n").partition(": ") for it in file]
    for (kind, _, output), (_, _, new) in zip(lines, [*lines[1:], ("", "", "")]):
        if kind == "file":
            name = os.path.join(os.path.dirname(path), "..", output)
            if not os.path.exists(name):
                return output
            texts.setdefault(name, text_of(name))
        elif kind == "old":
            if texts[name].count(output) != 1:
                return output
            texts[name] = texts[name].replace(output, new)
    return None


@case(
    "edits change what is there",
    "Each edit, of must-fail/ or more-edits/, names files that are there, and each text that it changes stands once.",
)
def applied(trial):
    paths = sorted(glob.glob(f"{TOP}/crates/*/m*/*.edit"))
    lost = [(os.path.relpath(it, TOP), why) for it in paths if (why := edited(it)) is not None]
    trial.holds(len(paths) > 500, f"{len(paths)} edits")
    trial.equal(lost, [])


def code_of(crate, kinds="src specs proofs"):
    """The text of a crate, or of all crates for '*', without its comments."""
    paths = [it for kind in kinds.split() for it in glob.glob(f"{TOP}/crates/{crate}/{kind}/**/*.*t*", recursive=True)]
    return re.sub(r"(?://|--).*", "", "\n".join(text_of(it) for it in paths))


def edit_names(folder="m*"):
    return {os.path.basename(it).removesuffix(".edit") for it in glob.glob(f"{TOP}/crates/*/{folder}/*.edit")}


def names_in(span):
    """The names in a span of code that look like the code's own: with a bar below, or with a capital and a small letter."""
    if re.fullmatch(r"[A-Za-z_]\w*(::\w+)*( [\w. ]+)?", span):
        return [it for it in re.findall(r"\w+", span) if "_" in it or re.match(r"[A-Z]+[a-z]", it)]
    return []


@case(
    "cited names are there",
    "Each function, clause, definition, type and crate that a document names stands in the code of a crate.",
)
def words(trial):
    there = set(re.findall(r"\w+", code_of("*"))) | set(os.listdir(f"{TOP}/crates")) | edit_names() | NOT_CODE
    lost = []
    for document in documents():
        prose = re.sub(r"(?ms)^```.*?^```", "", text_of(document))
        cited = {it for span in re.findall(r"`([^`\n]+)`", prose) for it in names_in(span)}
        lost += [f"{document}: {it}" for it in sorted(cited - there)]
    trial.equal(lost, [])


@case(
    "cited crates have what is cited",
    "Where a document names functions or definitions with their crate behind them, that crate has them or hands them on.",
)
def crates_of_names(trial):
    there = {it: set(re.findall(r"\w+", code_of(it, "src specs"))) for it in os.listdir(f"{TOP}/crates")}
    lost = []
    for document in documents():
        for names, crate in re.findall(r"((?:`[\w:]+`(?:, | and | or )?)+) \(`(\w+)`\)", text_of(document)):
            output = set(re.findall(r"(\w+)`", names))
            lost += [f"{document}: {it} in {crate}" for it in sorted(output - there.get(crate, output))]
    trial.equal(lost, [])


@case(
    "cited definitions are where they are said to be",
    "In an item of docs/DEFINITIONS.md each name behind the files is defined in one of them.",
)
def definitions(trial):
    rows = re.findall(r"^- .*?: (`[^:]*\.antt`): (.*)$", text_of("docs/DEFINITIONS.md"), re.MULTILINE)
    lost = []
    for files, names in rows:
        text = "\n".join(text_of(f"crates/{it}") for it in re.findall(r"`([^`]+\.antt)`", files))
        defined = set(re.findall(r"^ *(?:(?:abbrev|unfoldable|pub|record|data) +)+(\w+)", text, re.MULTILINE))
        lost += [f"{it} in {files}" for it in re.findall(r"`(\w+)`", names) if it not in defined]
    trial.holds(len(rows) > 50, f"{len(rows)} rows")
    trial.equal(lost, [])


def contracts_of(crates):
    """What the crates declare: each name of a function, a type or a trait with the names of the clauses under it."""
    output = {}
    for crate in crates:
        parts = re.split(r"\b(?:fn|struct|enum|trait|type) (\w+)", code_of(crate, "src"))
        for name, text in zip(parts[1::2], parts[2::2]):
            output.setdefault(name, set()).update(re.findall(r"^ *(?:ensures|requires) (\w+) ", text, re.MULTILINE))
    return output


def promises():
    """The items of docs/PROMISES.md that report of calls: a section's crates, the calls, and their contract."""
    for head, body in re.findall(r"(?ms)^## ([^\n]*)\n(.*?)(?=^## |\Z)", text_of("docs/PROMISES.md")):
        own = re.findall(r"`(\w+)`", head)
        for first, second in re.findall(r"^- ((?:laws? )?`.*?): (.*)$", body if own else "", re.MULTILINE):
            yield own, first, second


@case(
    "cited contracts are there",
    "In docs/PROMISES.md the calls of an item are declared in the crates of its section, and the clauses that it names stand "
    "under one of them.",
)
def contracts(trial):
    crates = set(os.listdir(f"{TOP}/crates"))
    output = {}
    lost = []
    for own, first, second in promises():
        named = [it for it in re.findall(r"\(`(\w+)`\)", first) if it in crates] or own
        there = output.setdefault(tuple(named), contracts_of(named))
        calls = set(re.findall(r"`(?:\w+::)?(\w+)`", re.sub(r"\([^)]*\)", "", first))) - OF_STD
        lost += [f"{first}: {it} in {named}" for it in sorted(calls - there.keys())]
        clauses = re.findall(r"(?:^|[;.] )`([a-z_]+)`(?: \([^)]*\))?:", second)
        met = set().union(*(there.get(it, set()) for it in calls))
        lost += [f"{first}: clause {it}" for it in clauses if it not in met]
    trial.equal(lost, [])


@case(
    "the library's page quotes its files",
    "The program in docs/LIBRARY.md is, to the byte, the file of `cut_example` that is named before it, which the gate proves, "
    "compiles and runs, and each contract there stands in one of its files.",
)
def quoted(trial):
    shown = re.findall(r"`(crates/[\w/]+\.rt)`:\n\n```rust\n(.*?)```", text_of("docs/LIBRARY.md"), re.DOTALL)
    trial.equal(len(shown), text_of("docs/LIBRARY.md").count("```rust"))
    trial.holds(len(shown) >= 1, shown)
    for path, text in shown:
        trial.equal(text, text_of(path), path)
    code = "\n".join(text_of(it) for it in glob.glob(f"{TOP}/crates/cut_example/src/*.rt"))
    contracts = re.findall(r"```\n((?:pub )?fn .*?)```", text_of("docs/LIBRARY.md"), re.DOTALL)
    trial.holds(len(contracts) >= 1, contracts)
    trial.equal([it for it in contracts if it not in code], [])


# Texts of docs/errors.txt in which the code fills something in.
FILLED_IN = ("entry 812: ", "parts: 2/4 ", "invalid value '", "a step is ", "materials GLASS", " and begin with no ", "memory ran out; end other programs, or give this one more; ")


@case(
    "the texts of errors are there",
    "Each text of docs/errors.txt stands in the code of a crate, but for those in which the code fills something in.",
)
def error_texts(trial):
    paths = [it for kind in ("src/**/*.rt", "specs/**/*.antt") for it in glob.glob(f"{TOP}/crates/*/{kind}", recursive=True)]
    code = "\n".join(text_of(it) for it in paths).replace('\\"', '"')
    lines = [it.strip() for it in text_of("docs/errors.txt").split("\n") if it.startswith("    ")]
    output = [text for it in lines for text in (re.findall(r"`([^`]{12,})`", it) or ([] if "`" in it else [it]))]
    trial.holds(len(output) > 100, f"{len(output)} texts")
    trial.equal([it for it in output if it.strip() not in code and not it.startswith(FILLED_IN)], [])
