#!/usr/bin/env python3
"""Runs the search for sheets as ordinary Rust: bench/native.py [CLASS ..] [--calls N] [--count N] [--set NAME=NUMBER ..]

It compiles the planners' crates without their contracts, by cargo, which takes seconds, and runs them on the orders of
`bench/orders.py`. So a change of the search can be tried before it is proved, and perf and callgrind show where time goes
(the program is `out/native/target/release/driver`). `--set` gives a constant of `cut_search` or `cut_fill_sheets` another
number. It isn't the program that the gate builds: memory is never short, and no certified bound limits the search.
"""

import argparse
import os
import re
import subprocess
import sys

from orders import CLASSES, Dice

ROOT = os.path.join(os.path.dirname(os.path.abspath(__file__)), "..")
OUT = os.path.join(ROOT, "out", "native")
HERE = os.path.join(ROOT, "bench", "native")
SHEETS = ("glass", "glass50", "turning", "few", "few-turning", "jumbo", "few-jumbo", "stock")

# The crates, with those that each uses of them.
CRATES = {
    "cut_measure": "",
    "cut_tree": "cut_measure",
    "cut_wants": "cut_measure cut_tree",
    "cut_master": "",
    "cut_classes": "cut_wants cut_measure cut_tree",
    "cut_fill_bars": "cut_wants cut_measure cut_tree",
    "cut_fill_sheets": "cut_wants cut_measure cut_tree",
    "cut_search_bars": "cut_master cut_fill_bars cut_wants cut_tree cut_measure",
    "cut_search": "cut_search_bars cut_master cut_classes cut_fill_sheets cut_wants cut_tree cut_measure",
    "driver": "cut_search cut_search_bars cut_classes cut_wants cut_tree cut_measure",
}

# Of the lowest crates only what the others use.
ROOTS = {
    "cut_measure": """mod lists;
mod numbers;
mod ranges;
mod sizes;
pub use lists::RowList;
pub use numbers::{digits_value_of, read_number};
pub use ranges::*;
pub use sizes::{Axis, Kind, Size};
""",
    "cut_tree": """pub mod token {
    pub const MAX_CUTS: u32 = 255;
}
pub use token::MAX_CUTS;
mod node;
pub use node::{Node, count_cuts};
""",
}

BOUND = """
impl SheetSearch {
    pub fn bound(&self) -> u64 {
        self.whole.worker.hints.bound
    }
}
"""

CLAUSE = re.compile(r"^\s*(requires|ensures|ghost)\b")
REWRITES = [
    (r"#!?\[tactic[^\]]*\]\n", ""),
    (r"\bDrop, |, Drop\b", ""),
    (r"#\[derive\(Drop\)\]\n", ""),
    (r"use std::marker::Model;\n", ""),
    (r"impl(<[^>]*>)? Model for [^{]*\{\s*\}\n", ""),
    (r"use std::(alloc|rc)::", r"use standard::\1::"),
    (r"vec!\[in ([\w.]+); ", r"vec_in![\1; "),
    (r"\bBox::new\(alloc, ", "standard::Box::new(alloc, "),
]


def block_end(text, at):
    """Where the first block in braces behind a place ends."""
    depth = 0
    for at in range(text.index("{", at), len(text)):
        depth += {"{": 1, "}": -1}.get(text[at], 0)
        if not depth:
            return at + 1
    raise ValueError("a block without an end")


def clause_end(text, at):
    """Where a clause or ghost item that begins at a place ends."""
    if re.match(r"\s*ghost use\b", text[at:]):
        return text.index(";", at) + 1
    end = block_end(text, at)
    if re.match(r"\s*by\s*\{", text[end:]):
        end = block_end(text, end)
    return end + len(re.match(r",?", text[end:])[0])


def without_clauses(text):
    """A file's text without its clauses and ghost items."""
    output, at = [], 0
    while at < len(text):
        line_end = text.find("\n", at) + 1 or len(text)
        clause = CLAUSE.match(text[at:line_end])
        if clause:
            at = clause_end(text, at)
            if text[at : at + 1] == ";" and clause[1] != "ghost":
                output[-1] = output[-1].rstrip() + ";\n"
            at += len(re.match(r"[ ;]*\n?", text[at:])[0])
        else:
            output.append(text[at:line_end])
            at = line_end
    return "".join(output)


def plain(text, numbers):
    """The same file as ordinary Rust, with these numbers of constants."""
    text = without_clauses(text)
    for form, other in REWRITES:
        text = re.sub(form, other, text)
    for name, number in numbers.items():
        text = re.sub(rf"(const {name}: \w+ = )[0-9_]+;", rf"\g<1>{number};", text)
    head = re.match(r"(//![^\n]*\n|#!\[[^\n]*\n)*", text)[0]
    return f"{head}#[allow(unused_imports)]\nuse standard::{{Vec, vec_in}};\n{text[len(head):]}"


def write(path, text):
    """Writes a file, if it has another text."""
    os.makedirs(os.path.dirname(path), exist_ok=True)
    if not os.path.exists(path) or open(path, encoding="utf-8").read() != text:
        with open(path, "w", encoding="utf-8") as file:
            file.write(text)


def manifest(name, uses):
    needed = "".join(f'{it} = {{ path = "../{it}" }}\n' for it in uses)
    return f'[package]\nname = "{name}"\nversion = "0.0.0"\nedition = "2024"\n\n[dependencies]\n{needed}'


def copy_crate(name, numbers):
    source = os.path.join(ROOT, "crates", name, "src")
    for folder, _, files in os.walk(source):
        for file in files:
            path = os.path.join(folder, file)
            to = os.path.join(OUT, name, "src", os.path.relpath(path, source)[: -len(".rt")] + ".rs")
            with open(path, encoding="utf-8") as it:
                text = plain(it.read(), numbers)
            if file == "lib.rt" and folder == source:
                text = "#![allow(warnings)]\n" + ROOTS.get(name, text)
            if path.endswith("sheets/search.rt"):
                text += BOUND
            write(to, text)


def build(numbers):
    """Compiles the driver, and returns its path."""
    profile = '[profile.release]\ndebug = 1\npanic = "abort"\n'
    write(f"{OUT}/Cargo.toml", f'[workspace]\nresolver = "2"\nmembers = {["standard", *CRATES]}\n\n{profile}'.replace("'", '"'))
    write(f"{OUT}/standard/Cargo.toml", manifest("standard", []))
    for name, file in (("standard", "lib"), ("driver", "main")):
        with open(f"{HERE}/{name}.rs", encoding="utf-8") as it:
            write(f"{OUT}/{name}/src/{file}.rs", it.read())
    for name, uses in CRATES.items():
        write(f"{OUT}/{name}/Cargo.toml", manifest(name, ["standard", *uses.split()]))
        if name != "driver":
            copy_crate(name, numbers)
    subprocess.run(["cargo", "build", "--quiet", "--release", "--offline", "-p", "driver"], cwd=OUT, check=True)
    return f"{OUT}/target/release/driver"


def numbers_of(order, has_stock):
    """An order as the driver reads it: a remnant costs a tenth less for its cells, and alike sizes are one."""
    sizes = {}
    for rows, share in ((order.sizes, 100), (order.rests, 90)):
        for w, h, number in rows:
            if number != 0:
                key = (number is None, w, h, w * h * share if has_stock else 1)
                sizes[key] = -1 if number is None else sizes.get(key, 0) + number
    rows = [[order.kerf, len(sizes), len(order.wants)]]
    rows += [[w, h, cost, limit] for (_, w, h, cost), limit in sorted(sizes.items(), key=lambda it: it[0][0])]
    rows += [[w, h, int(turns), count] for w, h, count, turns in order.wants]
    return "".join(" ".join(map(str, row)) + "\n" for row in rows)


def run(driver, name, given):
    """Plans the orders of a class, and prints a row."""
    of, paths = CLASSES[name], []
    for number in range(given.count or of.count):
        paths.append(f"{OUT}/orders/{name}-{number:02}.txt")
        write(paths[-1], numbers_of(of.order(Dice(of.seed, number), number), name == "stock"))
    ran = subprocess.run([driver, str(given.calls), *paths], stdout=subprocess.PIPE, text=True, check=True)
    rows = [line.split() for line in ran.stdout.splitlines()]
    if given.each:
        print(ran.stdout, end="")
    whole = [row for row in rows if row[0] != "-"]
    cost, bound = (sum(int(row[at]) for row in whole) for at in (0, 1))
    times = [int(row[3]) for row in rows]
    unit = 10**10 if name == "stock" else 1
    print(f"{name}: {len(whole)} of {len(rows)} whole, cost {cost / unit:.10g}, bound {bound / unit:.10g}, ", end="")
    print(f"over {100 * (cost - bound) / max(bound, 1):.2f} %, ms {sum(times) / len(times):.0f}, most {max(times)}, ", end="")
    print(f"longest call {max(int(row[4]) for row in rows)}", flush=True)


def main():
    reader = argparse.ArgumentParser(description=__doc__, formatter_class=argparse.RawDescriptionHelpFormatter)
    reader.add_argument("classes", nargs="*", choices=[[], *SHEETS], metavar="CLASS")
    reader.add_argument("--calls", type=int, default=500)
    reader.add_argument("--count", type=int)
    reader.add_argument("--each", action="store_true", help="print a line for each order, too")
    reader.add_argument("--set", action="append", default=[], metavar="NAME=NUMBER")
    given = reader.parse_args()
    driver = build(dict(it.split("=") for it in given.set))
    for name in given.classes or SHEETS:
        run(driver, name, given)
    return 0


if __name__ == "__main__":
    sys.exit(main())
