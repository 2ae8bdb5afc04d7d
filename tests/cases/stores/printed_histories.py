"""`cutshop history`: the entries of a store as lines; and how far it and an audit are, as reported on a terminal."""

import json

from kit import aged, audits, tables
from kit.audits import printed
from kit.case import case
from kit.earlier import NEXT, made
from kit.faults import Faults
from kit.full_day import DAY, EXCHANGES, STEEL_FILE, all_entries, history
from kit.journals import Journal, journal_of
from kit.questions import compact
from kit.ttys import at_terminal

# When the day of each command is; an entry behind each other one, so many seconds later.
DATE, STEP = 1000, 7


def day(trial, name="day.db"):
    """The path of a store after a day with each command, whose clock goes, and its entries."""
    clock, journal = Faults(trial, date=DATE), Journal()
    shop = trial.shop(name, environment=clock.environment)
    for number, (line, reply) in enumerate(EXCHANGES):
        clock.set_date(DATE + STEP * number)
        trial.equal(shop.reply(line).decode(), reply, line)
        journal.accept(line, reply, DATE + STEP * number)
    shop.kill()
    return shop.store, journal


@case(
    "a history as lines",
    "`cutshop history` prints each entry of a store as the object that the query `history` reports, one a line, rising, with its number, its time, "
    "its message and its reply; with `--read-only`, too, and both files stay byte for byte.",
)
def lines(trial):
    path, journal = day(trial)
    wanted = journal.lines()
    trial.equal(len(wanted.splitlines()), len(DAY), "the case's own lines")
    for words in ((), ("--read-only",)):
        trial.equal(printed(trial, "day.db", *words), wanted, words)
    shop = trial.shop("day.db")
    output = shop.reply(history()).decode()
    trial.equal(output, '{"entries":[' + ",".join(wanted.splitlines()) + '],"more":false,"ok":"history"}', "what the query tells")
    shop.kill()
    trial.equal(printed(trial, "day.db"), wanted, path)


@case(
    "a history behind an entry",
    "With `--after N` entries with greater numbers are printed, none behind the last one or beyond it; a number that is none is a mistake in the words.",
)
def after(trial):
    _, journal = day(trial)
    for number in (0, 1, 5, len(DAY) - 1, len(DAY), len(DAY) + 1, 1000, 2147483647):
        for words in (("--after", str(number)), (f"--after={number}", "--read-only")):
            trial.equal(printed(trial, "day.db", *words), journal.lines(number), words)
    for word in ("x", "-1", "1.0", ""):
        ran = trial.run("history", "--store", "day.db", "--after", word)
        trial.equal((ran.status, ran.out, ran.err[:7]), (2, b"", b"error: "), word)


# Entries that the query reports on several pages.
MANY = 250
LINE = {"count": 1, "h": 1, "line": 1, "material": "STEEL", "turn": False, "w": 30, "worth": 1}


def amended(trial, name, count):
    """The path of a store of so many entries that plain SQL made once: a material, an order, and amends of its line; and its entries."""
    messages = [{"do": "material", "kerf": 3, "kind": "bar", "material": "STEEL", "min_long": 20, "min_short": 1}]
    messages += [{"do": "order", "lines": [LINE], "order": "A-1"}]
    messages += [{"demand": 1, "do": "amend", "wanted": 1 + it % 1000} for it in range(count - 2)]
    replies = [{"material": "STEEL", "ok": "material"}, {"count": 1, "first": 1, "ok": "order", "order": "A-1"}]
    replies += [{"demand": 1, "ok": "amend", "wanted": it["wanted"]} for it in messages[2:]]
    journal, kept = Journal(), []
    for number, (message, reply) in enumerate(zip(messages, replies), 1):
        entry = journal.accept(compact({**message, "number": number, "terminal": 1}), compact(reply), DATE + number)
        kept.append((1, number, entry.command, entry.reply))
    rows = {
        "meta": [("act", 0), ("demand", 1), ("version", 3)],
        "materials": [("STEEL", 0, 3, 20, 1)],
        "orders": [("A-1",)],
        "demands": [(1, "A-1", 1, "STEEL", 30, 1, 0, 1, messages[-1]["wanted"], 0, 0)],
        "kept": kept,
        "totals2": [("STEEL", 0, 0, 0, 0, 0, 0, 0)],
        "journal": journal.rows(times=True),
    }
    return tables.copy(aged.once(f"amended-{count}.db", lambda path: tables.make(path, rows)), trial.path(name)), journal


@case(
    "a long history as lines",
    "Of 250 entries, which the query reports on three pages, `cutshop history` prints all at once, and those behind any number.",
)
def long(trial):
    _, journal = amended(trial, "many.db", MANY)
    for number in (0, 1, 99, 100, 101, 200, MANY - 1, MANY):
        trial.equal(printed(trial, "many.db", "--after", str(number)), journal.lines(number), number)
    audits.audited(trial, "many.db", MANY)
    shop = trial.shop("many.db")
    output = "".join(f"{compact(it)}\n" for it in all_entries(trial, shop))
    shop.kill()
    trial.equal(output, journal.lines(), "what the query tells")


@case(
    "the histories of a shop file, of no message and of earlier versions",
    "Materials of a shop file are reported with terminal 0; of a store without a message nothing is printed; of one of version 1 or 2 nothing, with `--read-only` "
    "neither file changes, and what is accepted behind is its first entry.",
)
def others(trial):
    shop = trial.shop(shop_file=trial.write("shop.toml", STEEL_FILE), environment=Faults(trial, date=DATE).environment)
    shop.kill()
    material = {"do": "material", "kerf": 3, "kind": "bar", "material": "STEEL", "min_long": 20, "min_short": 1}
    entry = {"at": DATE, "entry": 1, "message": {**material, "number": 1, "terminal": 0}, "reply": {"material": "STEEL", "ok": "material"}}
    trial.equal(printed(trial, "shop.db"), compact(entry) + "\n")
    trial.shop("none.db").kill()
    trial.equal(printed(trial, "none.db"), "")
    for version in (1, 2):
        name = f"{version}.db"
        made(trial, name, version)
        trial.equal(printed(trial, name, "--read-only"), "", name)
        shop = trial.shop(name, environment=Faults(trial, date=DATE).environment)
        trial.equal(shop.reply(NEXT[0]).decode(), NEXT[1])
        shop.kill()
        journal = journal_of([NEXT], DATE)
        trial.equal(printed(trial, name), journal.lines(), name)


@case(
    "texts of entries as lines",
    "An import's text stands in its line with its line feeds escaped, a byte order mark as it is, and cuts in the form in which they were sent.",
)
def texts(trial):
    glass = "line,material,length,width,turn,count,worth\r\n1,GLASS,0.4,0.3,yes,2,12\r\n"
    messages = [{"do": "material", "kerf": 1, "kind": "sheet", "material": "GLASS", "min_long": 5, "min_short": 4}]
    messages += [{"batch": "B-1", "count": 1, "do": "receive", "h": 8, "material": "GLASS", "w": 10}]
    messages += [{"do": "import", "form": "csv", "order": "A-1", "text": "\ufeff" + glass}]
    messages += [{"do": "reserve", "part": "1/0", "tree": "x4 y3 p1 r r"}, {"cuts": [0], "do": "break", "job": 2, "lost": False}]
    sent = [json.dumps({**it, "number": number, "terminal": 1}) for number, it in enumerate(messages, 1)]
    shop = trial.shop(environment=Faults(trial, date=0).environment)
    replies = [shop.reply(it).decode() for it in sent]
    trial.equal([it for it in replies if '"ok"' not in it], [])
    shop.kill()
    trial.equal(printed(trial, "shop.db"), journal_of(zip(sent, replies)).lines())
    audits.audited(trial, "shop.db", len(sent))


# ---- how far it is

# By how many milliseconds a clock goes on at each look, and at every how manieth entry half a second went by since the line before.
TICKS = ((1, 500), (99, 6), (100, 5), (166, 4), (167, 3), (249, 3), (250, 2), (499, 2), (500, 1), (1999, 1))


def lines_of(count, every):
    return "".join(f"cutshop: {done} of {count} entries\n" for done in range(every, count + 1, every))


def reported(trial, command, words, tick, terminal="stderr"):
    """What a command with a terminal as one of its outputs writes on the other one, and on the terminal, and its status."""
    faults = Faults(trial, tick=tick)
    status, other, seen, _ = at_terminal([trial.program, command, *words], terminal, trial.folder, faults.environment)
    faults.end()
    return status, other.decode(), seen.decode().replace("\r\n", "\n")


@case(
    "how far an audit and a history are",
    "If standard error is a terminal, `audit` and `history` report there how many entries are done, of all or of those behind a number, one line "
    "each half second at most and none before, and print what they print otherwise; the fault of a store that isn't whole stands behind these lines.",
)
def how_far(trial):
    path, journal = day(trial)
    count = len(DAY)
    torn = audits.changed(trial, path, "torn.db", audits.other_reply(count))
    for tick, every in TICKS if not trial.is_watched() else TICKS[2::6]:
        so_far = lines_of(count, every)
        for words in ((), ("--read-only",)):
            whole = reported(trial, "audit", ("--store", "day.db", *words), tick)
            trial.equal(whole, (0, f"entries {count}\nwhole\n", so_far), f"audit, {tick} ms a look")
            printed_so = reported(trial, "history", ("--store", "day.db", *words), tick)
            trial.equal(printed_so, (0, journal.lines(), so_far), f"history, {tick} ms a look")
        for last in (1, count - 7, count - 1, count, count + 1):
            printed_so = reported(trial, "history", ("--store", "day.db", "--after", str(last)), tick)
            trial.equal(printed_so, (0, journal.lines(last), lines_of(max(count - last, 0), every)), f"behind {last}, {tick} ms a look")
        fault = f"fault audit\n  entry {count}: another reply\n"
        seen = reported(trial, "audit", ("--store", torn), tick)
        trial.equal(seen, (1, f"entries {count}\n", lines_of(count, every).replace(lines_of(count, count), "") + fault), f"{tick} ms a look")


@case(
    "no terminal is told how far it is",
    "If standard error is no terminal, `audit` and `history` write nothing there however long they take, even if standard output is one. On a terminal "
    "nothing is reported in the first half second, of a store without entries, or if the clock can't be read.",
)
def no_terminal(trial):
    _, journal = day(trial)
    count = len(DAY)
    whole = f"entries {count}\nwhole\n"
    for command, wanted in (("audit", whole), ("history", journal.lines())):
        trial.equal(reported(trial, command, ("--store", "day.db"), 600, "stdout"), (0, "", wanted), command)
        ran = trial.run(command, "--store", "day.db", environment=Faults(trial, tick=600).environment)
        trial.equal((ran.status, ran.out.decode(), ran.err), (0, wanted, b""), command)
        trial.equal(reported(trial, command, ("--store", "day.db"), 499 // count), (0, wanted, ""), f"{command}, all in less than half a second")
        blind = Faults(trial, "clock", at=1, on=True)
        ran = at_terminal([trial.program, command, "--store", "day.db"], "stderr", trial.folder, blind.environment)
        trial.equal((ran[0], ran[1].decode(), ran[2]), (0, wanted, b""), f"{command} without a clock")
    trial.shop("none.db").kill()
    trial.equal(reported(trial, "audit", ("--store", "none.db"), 600), (0, "entries 0\nwhole\n", ""))
    trial.equal(reported(trial, "history", ("--store", "none.db"), 600), (0, "", ""))


@case(
    "a history with a message that isn't kept",
    "Of 250 entries, of which one's message was taken away, the query `history` reports 100 others at once and that more follow, page by page, and the order's story "
    "the same of its entries.",
)
def without_message(trial):
    path, journal = amended(trial, "missing.db", MANY)
    tables.change(path, "DELETE FROM kept WHERE number = 3")
    rest = [json.loads(line) for line in journal.lines().splitlines()]
    rest = [it for it in rest if it["entry"] != 3]
    shop = trial.shop("missing.db")
    for query, entries in (({"ask": "history"}, rest), ({"ask": "story", "order": "A-1"}, [it for it in rest if it["entry"] > 1])):
        for page in range(0, len(entries), 100):
            after, shown = entries[page - 1]["entry"] if page else 0, entries[page : page + 100]
            reply = json.loads(shop.reply(compact({**query, "after": after})))
            trial.equal((reply["entries"], reply["more"]), (shown, page + 100 < len(entries)), (query, after))
    shop.kill()
