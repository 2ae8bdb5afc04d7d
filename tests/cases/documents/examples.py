"""The programs in examples/, each run against a shop as whoever copies it would run it."""

import csv
import io
import os
import subprocess
import sys

from kit.case import TOP, Skipped, case
from kit.earlier import made

STOCK = (
    '{"batch":"G-7","count":2,"do":"receive","h":13000,"material":"GLASS","number":1,"terminal":1,"w":24000}',
    '{"batch":"S-1","count":3,"do":"receive","h":1,"material":"STEEL","number":2,"terminal":1,"w":60000}',
)

# Two kinds of bars and a sheet that is turned in no plan.
ORDER = """line,material,length,width,turn,count,worth
1,STEEL,1000.0,0.1,no,4,1
2,STEEL,1500.0,0.1,no,2,1
3,GLASS,1200.0,800.0,no,1,1
"""


def ran_example(trial, name, *words):
    """Runs an example, for which `cutshop` is the trial's program: its status, what it printed and its errors."""
    folder = trial.path("bin")
    if not os.path.exists(folder):
        os.mkdir(folder)
        os.symlink(trial.program, os.path.join(folder, "cutshop"))
    environment = {**os.environ, "PATH": f"{folder}:{os.environ['PATH']}", "PYTHONDONTWRITEBYTECODE": "1"}
    path = os.path.join(TOP, "examples", name)
    command = [sys.executable, path] if name.endswith(".py") else ["sh", path]
    ran = subprocess.run([*command, *words], cwd=trial.folder, env=environment, capture_output=True, text=True, timeout=100)
    return ran.returncode, ran.stdout, ran.stderr


def example(trial, name, *words):
    """Runs an example that has to succeed, and gives what it printed."""
    status, out, errors = ran_example(trial, name, *words)
    trial.equal((status, errors), (0, ""), f"{name} {' '.join(words)}")
    return out


def stocked(trial, **named):
    """A shop with stock, and its address."""
    shop = trial.shop(shop_file=os.path.join(TOP, "docs", "workshop.toml"), **named)
    for line in STOCK:
        trial.equal(b'"ok":"receive"' in shop.reply(line), True, line)
    return shop, f"http://127.0.0.1:{shop.port}"


def rows(text):
    return list(csv.reader(io.StringIO(text)))


@case(
    "examples: an order imported, planned and reserved, and its labels",
    "`import_and_plan.py` makes the order of a file, asks for plans of each of its materials and reserves them; `labels.py` then prints a "
    "label for each piece of the waiting jobs.",
)
def import_and_plan(trial):
    _, base = stocked(trial)
    file = trial.write("order.csv", ORDER)
    lines = example(trial, "import_and_plan.py", file, "A-1", base, "4").splitlines()
    trial.equal(lines[0], "ordered A-1: 3 lines", "the order")
    # Seven metres of bars take two of six metres; the sheet one.
    trial.equal([it.split(":")[0] for it in lines[1:]], ["GLASS"] * 2 + ["STEEL"] * 3, "the materials")
    for material in ("GLASS", "STEEL"):
        trial.equal(f"{material}: 0 pieces not planned, proved best" in lines, True, material)
    labels = rows(example(trial, "labels.py", base))
    trial.equal(labels[0], ["order", "line", "size", "job", "piece", "of"], "the head")
    sizes = {"1": "1000.0", "2": "1500.0", "3": "1200.0 x 800.0"}
    counts = {"1": 4, "2": 2, "3": 1}
    wanted = [["A-1", line, sizes[line], str(n), str(counts[line])] for line in sizes for n in range(1, counts[line] + 1)]
    trial.equal([[*row[:3], *row[4:]] for row in labels[1:]], wanted, "the labels")


@case("examples: a stock report", "`stock_report.py` prints each part that stands, with its size in millimetres.")
def stock_report(trial):
    _, base = stocked(trial)
    wanted = [["material", "part", "batch", "w", "h", "state"]]
    wanted += [["GLASS", f"3/{node}", "G-7", "2400.0", "1300.0", "standing"] for node in (0, 1)]
    wanted += [["STEEL", f"4/{node}", "S-1", "6000.0", "0.1", "standing"] for node in (0, 1, 2)]
    got = rows(example(trial, "stock_report.py", base))
    names = [[row[0], row[1].partition("/")[2], *row[2:]] for row in got[1:]]
    trial.equal([got[0], *names], [wanted[0], *([row[0], row[1].partition("/")[2], *row[2:]] for row in wanted[1:])], "the report")


def backed_up(trial, base):
    """What a nightly backup of a shop ends with: its status, what it printed and its errors."""
    return ran_example(trial, "nightly_backup.sh", trial.path("backups"), base)


@case(
    "examples: a nightly backup",
    "`nightly_backup.sh` has a backup made and audits it; it only reads one of a store from before entries. It ends with a status other than 0 "
    "if no backup is made, or if it isn't whole.",
)
def nightly_backup(trial):
    if subprocess.run(["sh", "-c", "command -v curl"], capture_output=True).returncode:
        raise Skipped("there is no curl here")
    os.mkdir(trial.path("backups"))
    shop, base = stocked(trial, words=("--backup", "backups"))
    for number in (1, 2):
        trial.equal(backed_up(trial, base), (0, f"backup {number} is made and whole\n", ""))
    shop.kill()
    made(trial, "earlier.db", 2)
    made(trial, "torn.db", 3, "UPDATE demands SET worth = worth + 1 WHERE number = 2")
    torn = "backup 4 isn't whole: entries 7\nfault audit\n  demands: 2 differs\n"
    for name, wanted in (("earlier.db", (0, "backup 3 is made and can be read\n", "")), ("torn.db", (1, "", torn))):
        shop = trial.shop(name, words=("--backup", "backups"))
        trial.equal(backed_up(trial, f"http://127.0.0.1:{shop.port}"), wanted)
    os.rename(trial.path("backups"), trial.path("away"))
    status, out, _ = backed_up(trial, f"http://127.0.0.1:{shop.port}")
    trial.equal((status != 0, out), (True, ""), "without a folder")
