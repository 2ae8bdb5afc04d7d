"""Shops that did much before, and what a question costs there."""

from kit import aged, tables
from kit.yards import Yard

# The least of so many rounds counts, in each of which each thing is done so many times.
ROUNDS, TIMES = 4, 25

# A demand of which many pieces are wanted, and one whose wanted pieces are said anew.
PLENTY, SAID = 39, 40


def begun():
    """A yard with 20 units of three bars and an order of 40 open demands."""
    yard = Yard()
    yard.material("STEEL", 3)
    yard.bars("STEEL", *[(30, 9)] * 40)
    yard.amend(PLENTY, 1000000)
    for _ in range(20):
        yard.receive("STEEL", 100, 1, 3)
    return yard


def work(yard):
    """Cuts a bar of each unit, of which a remnant is left, and reserves another one."""
    for act in range(1, 21):
        yard.cut(f"{act}/0", f"x30 p{act} r")
        yard.reserve(f"{act}/1", f"x30 p{act} r")


def history_file(trial, count):
    """A store with such units and demands, and so much history behind them; it is made once."""

    def make(path):
        yard = begun()
        shop = yard.serve(trial, path, limit=len(yard.lines))
        trial.equal(shop.end()[0], 0)
        # (behind the entries of the messages before, in the same second)
        ((entries, last),) = tables.select(path, "SELECT max(entry), max(at) FROM journal")
        tables.insert(path, aged.history(count, "STEEL", entries + 1))
        tables.change(path, f"UPDATE journal SET at = {last}")
        tables.change(path, f"UPDATE totals2 SET scrap = scrap + {100 * count}")

    return aged.once(f"history-{count}.db", make)


def old_store(trial, count, more=0):
    """A shop over a file with such units and demands, so much history, and then such remnants and jobs; where `more` is said also
    so many waiting jobs and open demands between."""
    path = tables.copy(history_file(trial, count), trial.path(f"old-{count}.db"))
    rows, first = aged.open_work(more, "STEEL", 100, 1, aged.WORK, aged.WORK, "WORK")
    tables.insert(path, rows)
    yard = begun().then(2)
    yard.acts = yard.demands = first + more if more else aged.HISTORY + count
    sums = f"received = received + {100 * more}, stock = stock + {100 * more}"
    tables.change(path, f"UPDATE totals2 SET {sums}; UPDATE meta SET value = {yard.acts} WHERE name <> 'version'")
    work(yard)
    shop = trial.shop(path)
    yard.fill(trial, shop)
    return shop


def ask(trial, shop, asked):
    """Asks what a line asks, or a path."""
    output = shop.get(asked) if asked.startswith("/") else shop.reply(asked)
    trial.holds(output.startswith(b"HTTP/1.1 200 OK") if asked.startswith("/") else b'"ok"' in output, f"{asked}: {output[:200]}")
    return output


def measured(shop, deeds):
    """How many seconds of a processor each of these takes, by its name; the least of some rounds."""
    output = {}
    for _ in range(ROUNDS):
        for name, deed in deeds.items():
            before = shop.busy()
            for _ in range(TIMES):
                deed()
            output.setdefault(name, []).append(shop.busy() - before)
    return {name: min(its) for name, its in output.items()}


def asked_costs(trial, shop, asked):
    """The same of questions alone."""
    return measured(shop, {name: lambda line=line: ask(trial, shop, line) for name, line in asked.items()})


def at_most_thrice(trial, few, many, counts):
    """Each thing takes at most three times the processor time that it takes behind less history."""
    for name, seconds in many.items():
        behind = [f"{1e6 * it / TIMES:.0f} microseconds behind {count}" for it, count in zip((few[name], seconds), counts)]
        trial.holds(seconds <= 3 * few[name], f"{name}: {' and '.join(behind)}")


# How much history: of few and of many parts.
HISTORIES = (1000, 100000)
