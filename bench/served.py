#!/usr/bin/env python3
"""Sends messages from eight terminals at once to `cutshop serve`, kills it in the middle, and compares the tables.

    bench/served.py [PROGRAM] [--folder FOLDER ..] [--rounds N]

PROGRAM is the built program, crates/cutshop/out/cutshop by default (`rt run` in crates/cutshop makes it). In each folder,
one on a disk and one on tmpfs by default, it is started twice over a fresh store and a shop file of eight materials. Eight
terminals send rounds of six messages each over HTTP, every one over a connection of its own, each terminal in its material:
bars are received, ordered, reserved for a plan, cut, scrapped and returned. Each tenth message is sent twice. All the
while a yield report is asked for.

The first run goes through. In the second the program is killed (-9) when a third of the messages was answered, and started
again; who got no answer sends the message again. Then every message of both runs is sent once more: the answer has to be
the one that it got before. Last, the tables of the two stores have to be the same, but for the numbers of acts and demands,
which depend on which terminal came first: each is read as the message that it was given to.

Printed: requests a second, how many reports were read, and what was compared. It ends with status 1 where something differs.
"""

import argparse
import json
import multiprocessing
import os
import signal
import socket
import sqlite3
import subprocess
import sys
import tempfile
import time

HERE = os.path.dirname(os.path.abspath(__file__))
PROGRAM = os.path.join(HERE, "..", "crates", "cutshop", "out", "cutshop")
TERMINALS = 8


def free_port():
    with socket.socket() as listener:
        listener.bind(("127.0.0.1", 0))
        return listener.getsockname()[1]


def asked(port, head, body=b""):
    """The status and the body of an answer, or nothing where the connection broke before its end."""
    try:
        with socket.create_connection(("127.0.0.1", port), timeout=20) as connection:
            connection.sendall(head + body)
            got = b""
            while piece := connection.recv(65536):
                got += piece
    except OSError:
        return None
    front, end, rest = got.partition(b"\r\n\r\n")
    if not end:
        return None
    fields = dict(line.split(b": ", 1) for line in front.split(b"\r\n")[1:])
    if len(rest) != int(fields[b"Content-Length"]):
        return None
    return int(front.split()[1]), rest


def posted(port, text):
    """Posts a message until it is answered."""
    head = f"POST /message HTTP/1.1\r\nHost: shop\r\nContent-Length: {len(text)}\r\n\r\n".encode()
    for _ in range(2000):
        answer = asked(port, head, text)
        if answer is not None:
            return answer
        time.sleep(0.01)
    raise SystemExit("no answer in 20 seconds")


def round_of(terminal, number):
    """The six messages of a round, each from the answers to those before it."""
    base = {"terminal": terminal}
    material, order = f"M-{terminal}", f"O-{terminal}-{number}"
    line = {"line": 1, "material": material, "w": 300, "h": 1, "turn": False, "count": 2, "worth": 5}
    yield lambda got: {**base, "do": "receive", "material": material, "batch": order, "w": 1000, "h": 1, "count": 3}
    yield lambda got: {**base, "do": "order", "order": order, "lines": [line]}
    yield lambda got: {**base, "do": "reserve", "part": f"{got[0]['act']}/0", "tree": "x300 p{0} x300 p{0} r".format(got[1]["first"])}
    yield lambda got: {**base, "do": "done", "job": got[2]["job"]}
    yield lambda got: {**base, "do": "scrap", "part": f"{got[0]['act']}/1"}
    yield lambda got: {**base, "do": "return", "part": f"{got[0]['act']}/2"}


def terminal_runs(terminal, port, rounds, answered, out):
    """Sends a terminal's messages, each tenth twice, and gives texts and answers."""
    sent = []
    number = 0
    for turn in range(rounds):
        got = []
        for make in round_of(terminal, turn):
            number += 1
            text = json.dumps({**make(got), "number": number}, sort_keys=True, separators=(",", ":")).encode()
            answer = posted(port, text)
            if answer[0] != 200:
                raise SystemExit(f"{text} was answered {answer}")
            if number % 10 == 0 and posted(port, text) != answer:
                raise SystemExit(f"{text} was answered otherwise when it came again")
            got.append(json.loads(answer[1]))
            sent.append((text, answer))
            with answered.get_lock():
                answered.value += 1
    out.put((terminal, sent))


def reports(port, stop, out):
    count = 0
    while not stop.is_set():
        answer = asked(port, b"GET /yield/M-1 HTTP/1.0\r\n\r\n")
        if answer is not None:
            if answer[0] != 200 or not answer[1].endswith(b"end\n"):
                raise SystemExit(f"a report was {answer}")
            count += 1
        time.sleep(0.05)
    out.put(count)


class Served:
    """The program, serving a store."""

    def __init__(self, program, folder, name):
        self.words = [program, "serve", "--store", os.path.join(folder, name), "--shop", os.path.join(folder, "shop.toml")]
        self.child = None

    def start(self):
        self.port = getattr(self, "port", None) or free_port()
        self.child = subprocess.Popen([*self.words, "--port", str(self.port)], stdout=subprocess.PIPE)
        line = self.child.stdout.readline()
        if line != f"listening on 127.0.0.1:{self.port}\n".encode():
            raise SystemExit(f"the program said {line}")

    def kill(self):
        self.child.send_signal(signal.SIGKILL)
        self.child.wait()


def sent_by_all(served, rounds, kill_at):
    """Runs all terminals beside the reader of reports; kills and starts the program again when so many were answered."""
    answered = multiprocessing.Value("i", 0)
    stop, out, output = multiprocessing.Event(), multiprocessing.Queue(), multiprocessing.Queue()
    reader = multiprocessing.Process(target=reports, args=(served.port, stop, output))
    reader.start()
    workers = [multiprocessing.Process(target=terminal_runs, args=(t, served.port, rounds, answered, out)) for t in range(1, TERMINALS + 1)]
    begin = time.perf_counter()
    for worker in workers:
        worker.start()
    if kill_at:
        while answered.value < kill_at:
            time.sleep(0.001)
        served.kill()
        served.start()
    sent = dict(out.get() for _ in workers)
    seconds = time.perf_counter() - begin
    stop.set()
    count = output.get()
    for worker in [*workers, reader]:
        worker.join()
        if worker.exitcode:
            raise SystemExit(1)
    requests = sum(len(messages) + len(messages) // 10 for messages in sent.values())
    return sent, requests / seconds, count


def sent_again(port, sent):
    for messages in sent.values():
        for text, answer in messages:
            again = posted(port, text)
            if again != answer:
                raise SystemExit(f"{text} was answered {answer}, and when it was sent again {again}")
    return sum(len(messages) for messages in sent.values())


def rows_of(path):
    """The rows of a store, with each act and demand named after the message that it was given to."""
    db = sqlite3.connect(path)
    if db.execute("PRAGMA integrity_check").fetchone() != ("ok",):
        raise SystemExit("sqlite finds the file damaged")
    acts, demands = {0: 0}, {0: 0}
    for terminal, number, reply in db.execute("SELECT terminal, number, reply FROM kept"):
        output = json.loads(reply)
        if output["ok"] == "receive":
            acts[output["act"]] = (terminal, number)
        if output["ok"] == "reserve":
            acts[output["job"]] = (terminal, number)
        if output["ok"] == "order":
            demands[output["first"]] = (terminal, number)
    rows = {
        "materials": set(db.execute("SELECT * FROM materials")),
        "orders": set(db.execute("SELECT * FROM orders")),
        "totals": set(db.execute("SELECT * FROM totals2")),
        "meta": set(db.execute("SELECT * FROM meta")),
        "kept": set(db.execute("SELECT terminal, number FROM kept")),
        "demands": {(demands[row[0]], *row[1:]) for row in db.execute("SELECT * FROM demands")},
        "jobs": {(acts[job], acts[act], node, state) for job, act, node, state in db.execute("SELECT job, part_act, part_node, state FROM jobs")},
        "parts": set(),
    }
    for act, node, material, batch, root, root_node, x, y, w, h, state, detail in db.execute("SELECT * FROM parts"):
        of = demands[detail] if state == 3 else acts[detail]
        rows["parts"].add((acts[act], node, material, batch, acts[root], root_node, x, y, w, h, state, of))
    db.close()
    return rows


def main():
    parser = argparse.ArgumentParser(description=__doc__, formatter_class=argparse.RawDescriptionHelpFormatter)
    parser.add_argument("program", nargs="?", default=PROGRAM)
    parser.add_argument("--folder", nargs="+", default=["/var/tmp", "/dev/shm"])
    parser.add_argument("--rounds", type=int, default=209)
    given = parser.parse_args()
    messages = TERMINALS * given.rounds * 6
    for place in given.folder:
        with tempfile.TemporaryDirectory(dir=place) as folder:
            with open(os.path.join(folder, "shop.toml"), "w") as file:
                for terminal in range(1, TERMINALS + 1):
                    file.write(f'[[material]]\ncode = "M-{terminal}"\nkind = "bar"\nkerf = "0.3"\nmin_long = "2.0"\nmin_short = "0.1"\n\n')
            stores = []
            for name, kill_at in (("whole.db", 0), ("killed.db", messages // 3)):
                served = Served(given.program, folder, name)
                served.start()
                sent, speed, count = sent_by_all(served, given.rounds, kill_at)
                again = sent_again(served.port, sent)
                served.kill()
                stores.append(rows_of(os.path.join(folder, name)))
                print(f"{place}, {name}: {speed:.0f} requests a second, {count} yield reports beside them; {again} messages sent again got their replies", flush=True)
            differing = [table for table in stores[0] if stores[0][table] != stores[1][table]]
            if differing:
                print(f"{place}: the tables differ: {' '.join(differing)}")
                sys.exit(1)
            print(f"{place}: the tables of the killed run are those of the whole run ({', '.join(f'{len(rows)} {table}' for table, rows in stores[0].items())})")


if __name__ == "__main__":
    main()
