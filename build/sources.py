"""What the programs are made of: the crates that they stand on, the files of these, and sums over them."""
import hashlib
import os
import re

TOP = os.path.dirname(os.path.dirname(os.path.realpath(__file__)))
# What a proof reads of a crate, and what the code alone is made of.
PROVED_OF = ("src", "specs", "proofs")
MADE_OF = ("src",)


def programs():
    """The names of the programs; the first is the one that runs behind no word of its own."""
    with open(f"{TOP}/build/programs", encoding="utf-8") as it:
        return it.read().split()


def crates(top):
    """Each crate of crates.txt with the words that it stands on."""
    with open(f"{top}/crates.txt", encoding="utf-8") as it:
        return {name: below.split() for name, below in re.findall(r"(?m)^([a-z]\w*)[^:\n]*:(.*)$", it.read())}


def needed(names, top=TOP):
    """The crates of the repository that these stand on, themselves among them, lowest first."""
    below, order = crates(top), []

    def visit(name):
        if name in below and name not in order:
            for it in below[name]:
                visit(it)
            order.append(name)

    for it in names:
        visit(it)
    return order


def files(names, parts, top=TOP):
    """The files of these folders of the crates that these stand on, by their paths from the top, in order."""
    found = ["crates.txt"]
    for crate in needed(names, top):
        for part in parts:
            for at, _, within in os.walk(f"{top}/crates/{crate}/{part}"):
                found += [os.path.relpath(f"{at}/{it}", top) for it in within]
    return sorted(found)


def sum_of_file(path):
    with open(path, "rb") as it:
        return hashlib.sha256(it.read()).hexdigest()


def sum_of(names, parts, top=TOP):
    """The sum of what these programs are made of: of each file's path and content."""
    lines = [f"{sum_of_file(f'{top}/{it}')}  {it}\n" for it in files(names, parts, top)]
    return hashlib.sha256("".join(lines).encode()).hexdigest()
