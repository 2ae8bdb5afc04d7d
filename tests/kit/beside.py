"""Terminals that work beside other connections."""

from kit.terminals import Terminal, at_once

# While nobody waits for anybody an answer comes in milliseconds; where one silent connection is waited for it takes ten
# seconds. (A busy machine alone may take a part of a second; bench/crowds.py measures it.)
SOON = 3
TERMINALS = range(2, 10)


def work(trial, shop, count=125):
    """Has eight terminals post so many messages each at once: each is accepted, soon."""
    terminals = [Terminal(it) for it in TERMINALS]
    trial.equal(at_once(shop, terminals, count), [])
    trial.equal([len(it.exchanges) for it in terminals], [count] * len(terminals))
    slowest = max(it.slowest for it in terminals)
    trial.holds(slowest < SOON, f"the slowest answer took {slowest:.2f} seconds")


def work_alone(trial, shop, count=125):
    """Has the same terminals post the same messages one terminal after the other."""
    for it in TERMINALS:
        terminal = Terminal(it)
        trial.equal((terminal.send_all(shop, count), len(terminal.exchanges)), (None, count))
