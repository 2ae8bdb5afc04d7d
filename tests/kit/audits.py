"""What `cutshop audit` and `cutshop history` print of a store, and changes of its rows that an audit finds."""

import os
import shutil

from kit import aged, tables
from kit.case import fault_in

ENDS = ("", "-wal")


def lies_there(path):
    """What a store and its log hold, and the names beside them."""
    found = [sorted(os.listdir(os.path.dirname(path)))]
    for end in ENDS:
        if os.path.exists(path + end):
            with open(path + end, "rb") as file:
                found.append(file.read())
    return found


def run(trial, command, store, *words):
    """Runs a command on a store, and wants both files as they were, and no other one."""
    path = os.path.join(trial.folder, store)
    before = lies_there(path)
    ran = trial.run(command, "--store", store, *words)
    trial.equal(lies_there(path) == before, True, f"{command} {store}: both files as they were, and no other one")
    return ran


def audited(trial, store, entries, torn=None, sent="", words=()):
    """Audits a store: it has so many entries, and is whole, or this is what the second line reports."""
    ran = run(trial, "audit", store, *words)
    if torn is None:
        trial.ended(ran, 0, f"entries {entries}\nwhole\n", sent=sent or store)
    else:
        trial.ended(ran, 1, f"entries {entries}\n", "fault audit\n", sent=sent or store, why=torn)


def torn_line(trial, store, entries, sent=""):
    """What the second line reports of a store that isn't whole and has so many entries."""
    ran = run(trial, "audit", store)
    line = ran.err.decode().partition("\n")[2]
    trial.ended(ran, 1, f"entries {entries}\n", "fault audit\n", sent=sent)
    return line.strip()


def is_torn(trial, store, sent=""):
    """Wants a store not to be called whole: a fault reports what of it was found, at its opening or behind it."""
    ran = run(trial, "audit", store)
    is_fault = fault_in(ran.err).startswith((b"fault ", b"refused 99 ")) and not fault_in(ran.err).startswith(b"fault file")
    trial.holds(ran.status == 1 and is_fault and b"whole" not in ran.out, f"{sent}: {ran}")


def printed(trial, store, *words):
    """The lines that `cutshop history` prints of a store. Where it only reads the files both stay as they were."""
    if "--read-only" in words:
        ran = run(trial, "history", store, *words)
    else:
        ran = trial.run("history", "--store", store, *words)
    trial.equal((ran.status, ran.err), (0, b""), f"{store} {words}")
    return ran.out.decode()


def changed(trial, path, name, statements):
    """A copy of a store under another name, changed by SQLite's own shell."""
    copy = tables.copy(path, trial.path(name))
    tables.change(copy, statements)
    return name


def dropped(trial, name):
    """Takes a store of the case's folder away."""
    for end in ENDS:
        os.remove(trial.path(name) + end)


def kept_day(trial, name, exchanges, environment):
    """A store of a day of messages with their replies, served once for a run of the suite; the path of a copy."""

    def make(path):
        shop = trial.shop(f"made-{name}", environment=environment)
        for line, reply in exchanges:
            trial.equal(shop.reply(line).decode(), reply, line)
        shop.kill()
        for end in ENDS:
            shutil.copy(shop.store + end, path + end)

    return tables.copy(aged.once(f"audited-{name}", make), trial.path(name))


# ---- changes of rows


def exchanged(one, other):
    """The statements that exchange two entries."""
    return (
        f"UPDATE journal SET entry = -1 WHERE entry = {one}; UPDATE journal SET entry = {one} WHERE entry = {other}; "
        f"UPDATE journal SET entry = {other} WHERE entry = -1;"
    )


def left_out(number, count):
    """The statements that leave an entry of so many out, with its message, and number those behind it anew."""
    pair = f"(SELECT terminal, number FROM journal WHERE entry = {number})"
    later = "".join(f"UPDATE journal SET entry = {it - 1} WHERE entry = {it};" for it in range(number + 1, count + 1))
    return f"DELETE FROM kept WHERE (terminal, number) = {pair}; DELETE FROM journal WHERE entry = {number}; {later}"


def of_entry(number):
    """What chooses the kept message of an entry."""
    return f"(terminal, number) = (SELECT terminal, number FROM journal WHERE entry = {number})"


def other_reply(number):
    """The statement that changes the kept reply of an entry."""
    return f"UPDATE kept SET reply = replace(reply, '\"ok\"', '\"yes\"') WHERE {of_entry(number)};"


def each_value(path):
    """The statements that change a value of a store's rows, each one of one row, by one or by a letter."""
    found = tables.rows(path, times=True)
    for name, rows in found.items():
        columns, keys = tables.COLUMNS[name].split(), tables.KEYS[name].split()
        for row in rows:
            row = dict(zip(columns, row))
            chosen = " AND ".join(f"{it} = {quoted(row[it])}" for it in keys)
            for column in columns:
                value = quoted(row[column] + ("X" if isinstance(row[column], str) else 1))
                yield name, column, f"UPDATE {name} SET {column} = {value} WHERE {chosen};"


def quoted(value):
    return str(value) if isinstance(value, int) else "'" + value.replace("'", "''") + "'"
