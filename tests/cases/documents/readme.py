"""What README.md, docs/SHOP.md and docs/FORMATS.md show as typed is what the program answers."""

import json
import os
import re
import shutil
import signal
import subprocess

from browser.terminal import Terminal, by_id
from kit.case import SECONDS, TOP, Failed, Skipped, case
from kit.plans import Problem, checked
from kit.shop import PATHS, free_port

def blocks(document, begin, end=None):
    """The blocks of code of a document between two texts, each as a list of lines."""
    with open(os.path.join(TOP, document), encoding="utf-8") as file:
        passage = file.read().partition(begin)[2]
    passage = passage.partition(end)[0] if end else passage
    return [it.split("\n")[:-1] for it in re.findall(r"```\n(.*?)```", passage, re.DOTALL)]


def passages(document, begin, end):
    """What stands before each block of code of a document between two texts."""
    with open(os.path.join(TOP, document), encoding="utf-8") as file:
        passage = file.read().partition(begin)[2].partition(end)[0]
    return re.split(r"```\n.*?```", passage, flags=re.DOTALL)


def is_sent(line):
    return line.startswith("{") and ("do" in json.loads(line) or "ask" in json.loads(line))


def exchanged(shown):
    """The lines that are sent in blocks, and the replies that stand in the block behind each."""
    pairs = [(it, behind) for it, behind in zip(shown, shown[1:]) if is_sent(it[0])]
    sent = [line for it, _ in pairs for line in it]
    if not sent:
        raise Failed("no lines are shown")
    return sent, [line for _, behind in pairs for line in behind]


@case("the tour as typed", "The lines of a week in docs/SHOP.md get the replies that stand behind them.")
def tour(trial):
    sent, wanted = exchanged(blocks("docs/SHOP.md", "\n## A week in lines\n", "\n## A plan of a sheet\n"))
    ran = trial.replay(sent)
    trial.equal(ran.out.decode().split("\n")[:-1], wanted, "\n".join(sent))


@case(
    "the order file as typed",
    "The order file of docs/FORMATS.md can be read, and is imported where STEEL is known; the same import again gets the same reply, also after "
    "its pieces were cut.",
)
def order_file(trial):
    (shown,) = blocks("docs/FORMATS.md", "\n(`read_orders`)", "\n### Shop files\n")
    text = "".join(f"{line}\n" for line in shown)
    ran = trial.run("orders", trial.write("order.csv", text))
    trial.ended(ran, 0, f"{len(shown) - 1} lines\n")
    sent = [
        '{"do":"material","kerf":3,"kind":"bar","material":"STEEL","min_long":20,"min_short":1,"number":1,"terminal":1}',
        json.dumps({"do": "import", "form": "csv", "number": 2, "order": "A-1", "terminal": 1, "text": text}),
        '{"batch":"B-1","count":1,"do":"receive","h":1,"material":"STEEL","number":3,"terminal":1,"w":100}',
        '{"do":"reserve","number":4,"part":"1/0","terminal":1,"tree":"x30 p1 x30 p1 x30 p1 r"}',
        '{"do":"done","job":2,"number":5,"terminal":1}',
        json.dumps({"do": "import", "form": "csv", "number": 6, "order": "A-1", "terminal": 1, "text": text}),
        '{"ask":"demand","demand":1}',
    ]
    replies = trial.replay(sent).out.decode().split("\n")[:-1]
    imported = '{"act":0,"count":1,"first":1,"ok":"import","order":"A-1"}'
    demand = '{"demand":1,"line":1,"made":3,"material":"STEEL","ok":"demand","order":"A-1","reserved":0,"wanted":3}'
    trial.equal([replies[1], *replies[5:]], [imported, imported, demand], "\n".join(sent))


@case(
    "the commands and queries as typed",
    "The messages and queries that docs/FORMATS.md shows, each before its reply, get these replies, one behind the other in one shop: "
    "as lines, and over HTTP by the routes of their sections, but for the times of entries.",
)
def commands(trial):
    lines = [line for it in blocks("docs/FORMATS.md", "\n## Messages\n", "\n### `plans`\n") for line in it]
    sent, wanted = lines[::2], lines[1::2]
    trial.holds(len(sent) > 30 and all(map(is_sent, sent)) and not any(map(is_sent, wanted)), "lines and replies take turns")
    ran = trial.replay(sent)
    trial.equal(ran.out.decode().split("\n")[:-1], wanted, "\n".join(sent))
    shop = trial.shop(shop_file=trial.write("shop.toml", ""))
    for line, reply in zip(sent, wanted):
        got = re.sub(r'("at"|"began"|"last"):\d{9,}', r"\1:0", shop.reply(line).decode())
        trial.equal(got, reply, line)
    with open(os.path.join(TOP, "docs/FORMATS.md"), encoding="utf-8") as file:
        routes = set(re.findall(r"GET `(/[^`]+)`", file.read().partition("\n## Queries\n")[2].partition("\n### `plans`\n")[0]))
    known = {path.replace("{part}", "{act}/{node}") for _, path in PATHS}
    shown = {"/parts/{material}", "/parts/{material}/{act}/{node}", "/orders", "/orders/{order}"}
    of = {"/pieces/order/{order}": "/{act}/{node}", "/pieces/batch/{batch}": "/{act}/{node}", "/pieces/unit/{act}/{node}": "/{after_act}/{after_node}"}
    shown |= {*of, *(path + behind for path, behind in of.items())}
    asked = {"/parts/{material}/{after}", "/orders/{after}", *(f"/pieces/{it}/{{{it}}}/{{after}}" for it in ("order", "batch", "unit"))}
    trial.equal(routes - shown, known - asked, "the routes of queries")


@case(
    "the sheet's plans as typed",
    "`cutshop plan docs/sheet.txt` prints the lines of docs/SHOP.md at steps 1 and 2, but for the tree, which is any best one.",
)
def plans(trial):
    first, second = blocks("docs/SHOP.md", "\n## A plan of a sheet\n", "\n## All pieces of an order\n")
    for step, wanted in (("1", first), ("2", second)):
        ran = trial.run("plan", os.path.join(TOP, "docs/sheet.txt"), "--kerf", "1", "--step", step)
        trial.equal((ran.status, ran.out.decode().split("\n")[:3]), (0, wanted[:3]), f"step {step}")


@case(
    "the order's plans as typed",
    "`cutshop plan docs/bars.txt --whole` prints the four lines of docs/SHOP.md, which README has in words, and plans that cut all pieces.",
)
def whole_plans(trial):
    (wanted,) = blocks("docs/SHOP.md", "\n## All pieces of an order\n")
    file = os.path.join(TOP, "docs/bars.txt")
    ran = trial.run("plan", file, "--whole", "--kerf", "30")
    trial.equal((ran.status, ran.out.decode().split("\n")[:4]), (0, wanted[:4]), "--whole")
    with open(os.path.join(TOP, "README.md"), encoding="utf-8") as readme:
        output = re.search(r"`cutshop plan docs/bars.txt [^`]*`.*? prints ((?:`[a-z]+ \w+`, )+`[a-z]+ \w+`)", readme.read())
    trial.equal(re.findall(r"`([^`]+)`", output[1]), wanted[:4], "README's words")
    numbers = list(map(int, open(file, encoding="utf-8").read().split()))
    kinds = [tuple(numbers[at : at + 4]) for at in range(3, len(numbers), 4)]
    checked(Problem(numbers[1], numbers[2], kinds), 30, ran.out.decode())


# The line of a restore with a time.
UNTIL = re.compile(r"^until [0-9]{4}-[0-9]{2}-[0-9]{2} [0-9]{2}:[0-9]{2}:[0-9]{2} UTC$", re.MULTILINE)

# What a typed line begins with; other blocks are what is printed.
TYPED = ("export", "cutshop", "curl", "mkdir", "cp")


class Typist:
    """Types lines into windows at the top of a repository whose program is built; `8017` is a port of the case's own. What a
    window exports holds in that window alone."""

    def __init__(self, trial):
        self.trial, self.port, self.exported, self.served = trial, free_port(), {}, None
        os.makedirs(trial.path("crates/cutshop/out"))
        os.symlink(trial.program, trial.path("crates/cutshop/out/cutshop"))
        for name in ("docs", "page"):
            os.symlink(os.path.join(TOP, name), trial.path(name))

    def __enter__(self):
        return self

    def __exit__(self, *_):
        if self.served:
            self.served.kill()
            self.served.communicate()

    def type(self, line, window=1):
        """What a line prints. A shop that it opens is left open."""
        line = line.replace("8017", str(self.port))
        before = self.exported.setdefault(window, "")
        if line.startswith("export "):
            self.exported[window] += f"{line}; "
        elif "cutshop serve " in line:
            self.open(before + f"exec {line}")
        else:
            ran = subprocess.run(
                ["sh", "-c", before + line], cwd=self.trial.folder, capture_output=True, text=True, timeout=SECONDS
            )
            self.trial.equal(ran.returncode, 0, f"{line}\n  {ran.stderr}")
            return ran.stdout
        return ""

    def open(self, line):
        shell = ["sh", "-c", line]
        # (where the suite runs in the background, ctrl-C is ignored below it)
        self.served = subprocess.Popen(
            shell,
            cwd=self.trial.folder,
            stdout=subprocess.PIPE,
            stderr=subprocess.PIPE,
            preexec_fn=lambda: signal.signal(signal.SIGINT, signal.SIG_DFL),
        )
        output = self.served.stdout.readline().decode()
        self.trial.equal(output, f"listening on 127.0.0.1:{self.port}\n", line)

    def close(self):
        """Ctrl-C in the window of the shop."""
        self.served.send_signal(signal.SIGINT)
        self.served.communicate(timeout=SECONDS)
        self.served = None


@case(
    "the shop's day as typed",
    "The lines of a day over HTTP in docs/SHOP.md, typed in turn into two windows, the first of which opens the shop and is told to close it "
    "by ctrl-C, print what stands behind them, and the copy of the store holds the day.",
)
def day(trial):
    if not shutil.which("curl"):
        raise Skipped("no curl is installed (apt-get install curl)")
    shown = blocks("docs/SHOP.md", "\n## A day over HTTP\n", "\n## A week in lines\n")
    opened, copied = [at for at, it in enumerate(shown) if "cutshop serve " in it[-1] or it[0].startswith("mkdir")]
    closing = passages("docs/SHOP.md", "\n## A day over HTTP\n", "\n## A week in lines\n")[copied]
    trial.holds("Press ctrl-C in the first window." in closing, closing)
    with Typist(trial) as typist:
        for at, (block, behind) in enumerate(zip(shown, [*shown[1:], ["cutshop"]])):
            if block[0].split()[0] not in TYPED:
                continue
            if at == copied:
                typist.close()
            printed = [typist.type(line, 1 if at == opened else 2).rstrip("\n") for line in block]
            wanted = [] if behind[0].split()[0] in TYPED else behind
            # (the time of the last message is the day's own)
            output, shown = [UNTIL.sub("until", "\n".join(it for it in lines if it)) for lines in (printed, wanted)]
            trial.equal(output, shown, "\n".join(block))
        with open(trial.path("ticket.txt"), encoding="utf-8") as file:
            trial.equal(file.readline(), "job 2 done\n")


@case(
    "a program's messages as typed",
    "In a new shop, opened by README's typed line, README's requests of a program get the answers that stand behind them.",
)
def program(trial):
    if not shutil.which("curl"):
        raise Skipped("no curl is installed (apt-get install curl)")
    lines = blocks("README.md", "\n## Two commands\n", "\n## A first day in the browser\n")[0]
    typed, wanted = blocks("README.md", "\n## From a program\n", "\n## Plan a file\n")
    with Typist(trial) as typist:
        typist.type(lines[-1])
        trial.equal([typist.type(it).rstrip("\n") for it in typed], wanted)


@case(
    "the first screen as told",
    "In a browser README's five steps, from the typed line on, receive, order, plan, reserve and print all, and end a job.",
)
def first_screen(trial):
    lines = blocks("README.md", "\n## Two commands\n", "\n## A first day in the browser\n")[0]
    with Typist(trial) as typist, Terminal(trial, typist) as it:
        typist.type(lines[-1])
        it.go(it.address)
        it.until("shop.isKnown && !refresh.running")
        it.receive("GLASS", "G-7", "2400.0", "1300.0", 4)
        it.until(f"{by_id('terminalDialog')}.open && {by_id('terminalNumber')}.value === '1'")
        it.key("Enter")
        it.until(f"!{by_id('terminalDialog')}.open")
        it.says("4 units received, 1/0 to 1/3")
        it.view("orders")
        it.type(by_id("fileCode"), "HALL-12")
        it.pick(by_id("csvFile"), os.path.join(TOP, "docs", "order.csv"))
        it.until(f"{by_id('csvPreview')}.textContent.includes('Order 4 lines')")
        it.click(by_id("sendCsv"))
        it.says("4 lines ordered, pieces wanted from no. 1 on")
        it.click("document.querySelector('#successes .notice button')")
        it.until("!document.getElementById('tocut').hidden && shop.material === 'GLASS'")
        it.planned()
        trial.equal(it.text("reserve"), "Reserve all")
        it.at_widths("first-plan")
        plans = it.value("toCut.found.plans.length")
        it.click(by_id("reserve"))
        it.until("toCut.found.sent && toCut.found.jobs.size === toCut.found.sent.size")
        it.value("window.print = () => 0")
        it.click(by_id("printAll"))
        it.until("document.body.classList.contains('sheets')")
        small = it.value("toCut.found.plans.filter(plan => plan.root.cuts <= 24).length")
        trial.holds(it.sheets("first-tickets") <= plans - small // 2, "small tickets don't stand two on a page")
        it.click("[...document.querySelectorAll('#nextStep button')].find(e => e.textContent === 'To the saw')")
        it.until("atSaw.told && atSaw.told.job === 2")
        it.click(by_id("done"))
        it.says("Job 2 done: pieces")
        trial.equal(it.value("ask('/job/2').then(reply => reply.state)"), "done")
