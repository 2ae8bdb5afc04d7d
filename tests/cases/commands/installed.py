"""The program as it is installed: `./install PREFIX`, the manual page, the unit, and one version everywhere."""

import os
import re
import shutil
import subprocess

from kit.case import TOP, Skipped, case

# Each file with its mode, and then the documents, which stand below one folder as in a checkout.
INSTALLED = {
    "bin/cutshop": 0o755,
    "share/cutshop/page.html": 0o644,
    "share/man/man1/cutshop.1": 0o644,
    "lib/systemd/system/cutshop@.service": 0o644,
}
DOCUMENTS = "share/doc/cutshop"
TEXTS = ("README.md", "CHANGELOG.md", "CONTRIBUTING.md", "LICENSE-MIT", "LICENSE-APACHE")
FOLDERS = ("docs", "examples")

# A link of a document to another file.
LINK = re.compile(r"\]\(([^)#:]+)(?:#[^)]*)?\)")


def text_of(*parts):
    with open(os.path.join(TOP, *parts), encoding="utf-8") as file:
        return file.read()


def checkout(trial):
    """A folder that has what `./install` reads of a checkout, with the program of this trial as the built one."""
    top = trial.path("checkout")
    os.makedirs(os.path.join(top, "crates", "cutshop", "out"))
    shutil.copy(trial.program, os.path.join(top, "crates", "cutshop", "out", "cutshop"))
    for name in ("install", *TEXTS):
        shutil.copy(os.path.join(TOP, name), top)
    for name in ("packaging", "page", *FOLDERS):
        shutil.copytree(os.path.join(TOP, name), os.path.join(top, name), ignore=shutil.ignore_patterns("__pycache__"))
    return top


def documents():
    """The documents of a checkout, by their places below it."""
    found = [f"{folder}/{name}" for folder in FOLDERS for name in os.listdir(os.path.join(TOP, folder)) if name != "__pycache__"]
    return [*TEXTS, *found]


def lost_links(folder):
    """The links of the documents below a folder that lead to no file there."""
    found = []
    for at, _, names in os.walk(folder):
        for name in (it for it in names if it.endswith(".md")):
            with open(os.path.join(at, name), encoding="utf-8") as file:
                links = LINK.findall(file.read())
            found += [(name, it) for it in links if not os.path.exists(os.path.join(at, it))]
    return found


def files_below(folder):
    """All files below a folder, each with its mode."""
    found = {}
    for at, _, names in os.walk(folder):
        for name in names:
            path = os.path.join(at, name)
            found[os.path.relpath(path, folder)] = os.stat(path).st_mode & 0o777
    return found


@case(
    "installed below a folder",
    "`./install PREFIX` puts the program, the page, the manual page, the unit, the documents and the licences below PREFIX and names each; "
    "the documents' links lead to installed files; the unit starts that program with that page; a second install replaces them; without a "
    "built program it says so and ends with 1.",
)
def install(trial):
    top, prefix = checkout(trial), trial.path("prefix")
    wanted = {**INSTALLED, **{f"{DOCUMENTS}/{it}": 0o644 for it in documents()}}
    for _ in range(2):
        ran = subprocess.run(["./install", prefix], cwd=top, capture_output=True, text=True, timeout=60)
        trial.equal((ran.returncode, ran.stderr), (0, ""), "status and errors")
        trial.equal(files_below(prefix), wanted, "what was installed")
        said = sorted(line.removeprefix("installed ") for line in ran.stdout.splitlines() if line.startswith("installed "))
        trial.equal(said, sorted(os.path.join(prefix, it) for it in wanted), "what it says")
    trial.equal(lost_links(os.path.join(prefix, DOCUMENTS)), [], "links that lead nowhere")
    version = subprocess.run([f"{prefix}/bin/cutshop", "--version"], capture_output=True, text=True, timeout=60).stdout
    trial.equal(ran.stdout.splitlines()[-1], f"{version.strip()} is in {prefix}", "last line")
    with open(f"{prefix}/lib/systemd/system/cutshop@.service", encoding="utf-8") as file:
        start = next(line for line in file if line.startswith("ExecStart="))
    trial.equal(start.split()[0], f"ExecStart={prefix}/bin/cutshop", "the unit's program")
    trial.equal(f" --page {prefix}/share/cutshop/page.html " in start, True, "the unit's page")
    os.remove(os.path.join(top, "crates", "cutshop", "out", "cutshop"))
    ran = subprocess.run(["./install", prefix], cwd=top, capture_output=True, text=True, timeout=60)
    trial.equal((ran.returncode, ran.stdout), (1, ""), "without a program")
    trial.equal(ran.stderr, "install: crates/cutshop/out/cutshop isn't built; ./test builds it\n", "why")
    ran = subprocess.run(["./install"], cwd=top, capture_output=True, text=True, timeout=60)
    trial.equal(ran.returncode, 2, "without a folder")


@case(
    "one version everywhere",
    "`cutshop --version`, the manual page and the newest entry of CHANGELOG.md name one version, and OPERATING.md shows the unit that is "
    "installed.",
)
def version(trial):
    said = subprocess.run([trial.program, "--version"], capture_output=True, text=True, timeout=60).stdout.split()
    trial.equal(said[0], "cutshop", "the program's name")
    manual = re.search(r'^\.TH CUTSHOP 1 "" "cutshop ([^"]*)"', text_of("packaging", "cutshop.1"), re.M)
    trial.equal(manual[1], said[1], "the manual page's version")
    trial.equal(re.search(r"^## (\S+)$", text_of("CHANGELOG.md"), re.M)[1], said[1], "CHANGELOG's newest version")
    shown = text_of("docs", "OPERATING.md").split("```ini\n")[1].split("```")[0]
    trial.equal(shown, text_of("packaging", "cutshop@.service"), "the unit in OPERATING.md")


@case(
    "a manual page without warnings",
    "`man --warnings` reads the manual page without a warning, and the page names each command that `cutshop --help` lists.",
)
def manual(trial):
    page = text_of("packaging", "cutshop.1")
    output = subprocess.run([trial.program, "--help"], capture_output=True, text=True, timeout=60).stdout
    commands = re.findall(r"^  ([a-z]+) ", output.split("Commands:")[1].split("Options:")[0], re.M)
    for command in commands:
        if command != "help":
            trial.equal(f".B cutshop {command}\n" in page, True, command)
    if not shutil.which("man"):
        raise Skipped("there is no man here")
    how = {"capture_output": True, "text": True, "timeout": 60, "env": {**os.environ, "LC_ALL": "C.UTF-8", "MANWIDTH": "80"}}
    ran = subprocess.run(["man", "--warnings", "-l", os.path.join(TOP, "packaging", "cutshop.1")], **how)
    trial.equal((ran.returncode, ran.stderr), (0, ""), "what man says")
