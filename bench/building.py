"""Proves and builds a program of this folder in a repository of its own."""

import os
import shutil
import subprocess

HERE = os.path.dirname(os.path.abspath(__file__))


def build(folder, root, source, name, libraries):
    """The program in `source` here, as the crate `name` over these libraries: those of the repository `root` that it needs
    are copied into `folder`, where `rt run` proves and builds it."""
    with open(os.path.join(root, "crates.txt")) as file:
        named = [line for line in file if line.strip() and not line.startswith("#")]
    below = {line.split(":")[0]: line.split(":")[1].split() for line in named}
    wanted, more = set(), list(libraries)
    while more:
        library = more.pop()
        if library in below and library not in wanted:
            wanted.add(library)
            more += below[library]
    crates = os.path.join(folder, "crates")
    os.makedirs(crates)
    for library in wanted:
        shutil.copytree(os.path.join(root, "crates", library), os.path.join(crates, library))
    program = os.path.join(crates, name)
    shutil.copytree(os.path.join(HERE, source), program)
    # The gate reads every source in the repository, so the program's files stand here as text.
    for place, _, files in os.walk(program):
        for file in files:
            os.rename(os.path.join(place, file), os.path.join(place, file.removesuffix(".txt")))
    with open(os.path.join(folder, "crates.txt"), "w") as file:
        file.writelines(line for line in named if line.split(":")[0] in wanted)
        file.write(f"{name}: {' '.join(libraries)}\n")
    shutil.copy(os.path.join(root, "HANDLES"), folder)
    made = subprocess.run(["rt", "run", "--jobs", "2"], cwd=program, stdin=subprocess.DEVNULL, capture_output=True, text=True)
    built = os.path.join(program, "out", name)
    if not os.path.exists(built):
        raise SystemExit(made.stdout + made.stderr)
    return built
