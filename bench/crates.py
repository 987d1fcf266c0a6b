#!/usr/bin/env python3
"""Prints what crates are: each with its first sentence, its public calls with theirs, and its edits that must fail.

    bench/crates.py [CRATE ..]

Without names it prints all of them, in the order of crates.txt. What is public is read off `src/`: what `lib.rt`
makes so, of each type its methods and of each trait what it asks for. A contract stands with its call.
"""
import os
import re
import sys
import textwrap

TOP = os.path.dirname(os.path.dirname(os.path.realpath(__file__)))
WIDTH = 120
ITEM = re.compile(r"^pub (?:unsafe )?(?:(fn|struct|enum|trait|const|static|type) )(\w+)", re.M)
METHOD = re.compile(r"^    pub (?:const )?fn (\w+)", re.M)
ASKED = re.compile(r"^    (?:pub )?fn (\w+)", re.M)
BLOCK = re.compile(r"^(?:pub )?(impl|trait)\b([^{;]*)\{(.*?)^\}", re.M | re.S)


def text_of(path):
    with open(path, encoding="utf-8") as it:
        return it.read()


def sentence_above(text, at):
    """The first sentence of the `///` lines above a place."""
    lines = []
    for line in reversed(text[:at].rstrip("\n").split("\n") if text[:at].strip() else []):
        found = re.match(r"\s*///(.*)", line)
        if found:
            lines.insert(0, found[1].strip())
        elif lines or not re.match(r"\s*#\[", line):
            break
    return first_sentence(" ".join(lines))


def first_sentence(text):
    return re.split(r"(?<=[.!?])\s+(?=[A-Z`(])", text.strip())[0]


def sources_of(root, crate):
    """The text of each file of a crate by its module's path, the root's being empty."""
    found, top = {}, f"{root}/crates/{crate}/src"
    for at, folders, names in os.walk(top):
        folders.sort()
        for name in sorted(names):
            if name.endswith(".rt"):
                path = os.path.relpath(f"{at}/{name}", top)[:-3].split(os.sep)
                if path in (["lib"], ["main"]):
                    path = []
                found[tuple(path[:-1] if path and path[-1] == "mod" else path)] = text_of(f"{at}/{name}")
    return found


def exported(sources, module=()):
    """What a module makes public: names, each with the module where it stands, or None where that is another crate."""
    found, text = {}, sources.get(module, "")
    for item in ITEM.finditer(text):
        found[item[2]] = module
    for name in re.findall(r"^pub mod (\w+)", text, re.M):
        found.update(exported(sources, (*module, name)))
    for path, names in re.findall(r"^pub use ([\w:]*?)(?:::)?(\{[^}]*\}|\w+|\*);", text, re.M):
        inside = [it for it in path.split("::") if it not in ("crate", "self")]
        at = next((it for it in ((*module, *inside), tuple(inside)) if it in sources), None)
        for name in re.findall(r"\w+|\*", re.sub(r"\w+ as ", "", names)):
            if name == "*" and at is not None:
                found.update(exported(sources, at))
            elif name != "*":
                found[name] = at if at is None else exported(sources, at).get(name, at)
    return found


def owner_of(head):
    """The type of an `impl` of its own, or None where it is a trait's."""
    bare = head
    while re.search(r"<[^<>]*>", bare):
        bare = re.sub(r"<[^<>]*>", "", bare)
    bare = re.split(r"\bwhere\b", bare)[0].strip()
    return None if " for " in bare else bare.split("::")[-1]


def calls_of(sources, kind, name):
    """The public methods of a type, or what a trait asks for, each with its first sentence."""
    for text in sources.values():
        for block in BLOCK.finditer(text):
            is_trait = block[1] == "trait"
            owner = re.match(r"\s*(\w+)", block[2])[1] if is_trait else owner_of(block[2])
            if owner == name and is_trait == (kind == "trait"):
                for call in (ASKED if is_trait else METHOD).finditer(block[3]):
                    yield call[1], sentence_above(block[3], call.start())


def row(indent, name, said):
    first = f"{' ' * indent}{name}  "
    lines = textwrap.wrap(said, WIDTH, initial_indent=first, subsequent_indent=" " * (indent + 4), break_on_hyphens=False)
    return "\n".join(lines) if said else first.rstrip()


def page_of(root, crate, below):
    """What is printed of a crate."""
    sources = sources_of(root, crate)
    head = " ".join(re.findall(r"(?m)^//!(.*)", sources.get((), "").split("#![")[0]))
    page = [row(0, f"{crate}:", first_sentence(re.sub(r"\s+", " ", head)))]
    page += [row(2, "stands on", " ".join(below))] if below else []
    for name, module in sorted(exported(sources).items()):
        item = next((it for it in ITEM.finditer(sources.get(module, "")) if it[2] == name), None)
        page.append(row(2, name, sentence_above(sources[module], item.start()) if item else ""))
        if item and item[1] in ("struct", "enum", "trait"):
            page += [row(4, call, said) for call, said in calls_of(sources, item[1], name)]
    folder = f"{root}/crates/{crate}/must-fail"
    for edit in sorted(os.listdir(folder)) if os.path.isdir(folder) else []:
        files = sorted(set(re.findall(r"(?m)^file: (.*)", text_of(f"{folder}/{edit}"))))
        page.append(row(2, "must fail:", f"{edit[:-5].replace('_', ' ')} ({', '.join(files)})"))
    return "\n".join(page)


def crates_of(root):
    """Each crate of crates.txt with what it stands on, in its order."""
    return {it[1]: it[2].split() for it in re.finditer(r"(?m)^([a-z]\w*)[^:\n]*:(.*)", text_of(f"{root}/crates.txt"))}


def main(words):
    crates = crates_of(TOP)
    if any(it.startswith("-") for it in words):
        print(__doc__.strip())
        return 0 if words == ["--help"] else 2
    unknown = [it for it in words if it not in crates]
    if unknown:
        print(f"crates.py: crates.txt has no {', '.join(unknown)}", file=sys.stderr)
        return 1
    print("\n\n".join(page_of(TOP, it, crates[it]) for it in words or crates))
    return 0


if __name__ == "__main__":
    sys.exit(main(sys.argv[1:]))
