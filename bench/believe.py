#!/usr/bin/env python3
"""Counts what a reader is to believe: the definitions that a clause reaches, and their lines.

    bench/believe.py [CRATE/MODULE:NAME ..]

Without names it counts from the clause `safely` of the top call. A definition's lines are its own, with
the comment before it; imports count for nothing, and so do the fields of plain Rust types that a definition
cites. Prints a line for each module and the sum. `docs/ASSURANCE.md` has the list in reading order.
"""
import re
import sys
from pathlib import Path

TOP = Path(__file__).resolve().parent.parent
ROOTS = ["yard_top/Safely:WroteSafely"]
USE = re.compile(r"use Rattle\.([a-z_]+)\.specs\.([A-Za-z_.]+)\.\{(.*)\}")
HEAD = re.compile(r"\s*(?:abbrev |unfoldable |pub |record |data )*([A-Za-z][A-Za-z_0-9'?-]*)")
WORD = re.compile(r"[A-Za-z_][A-Za-z_0-9'?-]*(?:\.[A-Za-z_][A-Za-z_0-9'?-]*)*")
STARTS = ("abbrev ", "unfoldable ", "pub ", "record ", "data ")


class Module:
    """A module of definitions: where its imported names stand, and the lines of each definition."""

    def __init__(self, crate, name):
        self.imports, self.parts = {}, {}
        path = TOP / "crates" / crate / "specs" / (name.replace(".", "/") + ".antt")
        if path.is_file():
            self.read(path.read_text().split("\n"))

    def read(self, lines):
        comment, current = [], None
        for line in lines:
            used = USE.search(line)
            if used:
                for word in re.split(r",\s*", used[3]):
                    self.imports[word] = (used[1], used[2])
            elif not line.strip() or line.startswith(("use ", "module ")):
                comment = []
            elif line.startswith("--"):
                comment.append(line)
            elif line.strip().startswith(STARTS) and not re.match(r"  pub (?!record)", line):
                current = HEAD.match(line)[1]
                self.parts[current] = comment + [line]
                comment = []
            else:
                first = HEAD.match(line)
                if first and not line.startswith("    ") and first[1] in self.parts:
                    current = first[1]
                if current is not None:
                    self.parts[current].append(line)


MODULES = {}


def module(crate, name):
    if (crate, name) not in MODULES:
        MODULES[crate, name] = Module(crate, name)
    return MODULES[crate, name]


def reached(todo):
    seen = set()
    while todo:
        crate, name, word = todo.pop()
        here = module(crate, name)
        if (crate, name, word) in seen or word not in here.parts:
            continue
        seen.add((crate, name, word))
        for line in here.parts[word]:
            for used in [] if line.strip().startswith("--") else WORD.findall(line):
                first = used.split(".")[0]
                todo.append((crate, name, first))
                if first in here.imports:
                    todo.append((*here.imports[first], first))
    return seen


def main():
    if {"-h", "--help"} & {*sys.argv[1:]}:
        print(__doc__.strip())
        return
    if not all(re.match(r"[a-z_]+/[A-Za-z_.]+:.", text) for text in sys.argv[1:]):
        sys.exit("a name is CRATE/MODULE:NAME; --help tells more")
    roots = [re.match(r"([a-z_]+)/([A-Za-z_.]+):(.+)", text).groups() for text in sys.argv[1:] or ROOTS]
    seen = reached(roots)
    counts = {}
    for crate, name, word in seen:
        lines = [line for line in module(crate, name).parts[word] if line.strip()]
        counts[crate, name] = counts.get((crate, name), 0) + len(lines)
    for crate, name in sorted(counts):
        print(f"{counts[crate, name]:5} {crate}/specs/{name}.antt")
    print(f"{sum(counts.values()):5} lines of {len(counts)} modules")
    if any(root not in seen for root in roots):
        sys.exit("one of the names isn't defined")


main()
