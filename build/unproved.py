"""An unproved program: compiled by the toolchain's own `rt try` and linker, once, and kept by what it is made of.

`rt try` makes one module of the sources, checks in it that would stop a wrong program included, has `clang` compile it
so that it runs a hundred times slower, and has `ld.lld` link it. It is run in a folder of links to the kit, in which
these two are scripts: the one keeps the module, the other what it is to be linked with. Then the kit's `ld.lld`
optimizes and links the module."""
import contextlib
import hashlib
import os
import shlex
import shutil
import subprocess
import sys
import tempfile
import time

import sources
from processes import Fault, in_turn, say, started, version

KEPT = f"{sources.TOP}/out/kept"
# How many programs of a name are kept: of the last sources that were run.
MOST_KEPT = 4
# What it takes on a machine with no other work.
TAKES = "about two minutes where the machine has no other work"
# Keeps the module, and makes an object of nothing in its place. Other calls are the kit's.
CLANG = """#!/bin/sh
case " $* " in
*" -fsanitize=address "*)
    cp module.bc {room}/module.bc && : >nothing.c &&
        exec {kit}/toolchain/bin/clang --no-default-config --target=x86_64-unknown-linux-gnu -c nothing.c -o module.o
    ;;
esac
exec {kit}/toolchain/bin/clang "$@"
"""
# Keeps what is to be linked, and how, and links nothing.
LINKER = """#!/bin/sh
cp input-* {room} && printf '%s\\n' "$@" >{room}/link
exit 1
"""


class NoLinks(Exception):
    """The kit doesn't allow this way."""


def last_line(said):
    return (said.strip().splitlines() or ["nothing was said"])[-1]


def links(of, to, but=()):
    os.mkdir(to)
    for name in os.listdir(of):
        if name not in but:
            os.symlink(f"{of}/{name}", f"{to}/{name}")


def write_script(path, text):
    with open(path, "w", encoding="utf-8") as it:
        it.write(text)
    os.chmod(path, 0o755)


def kit_of_links(kit, room):
    """A kit in the room, whose `clang` and `ld.lld` keep what they are given; its `rt`."""
    shadow = f"{room}/kit"
    links(kit, shadow, ("bin", "toolchain"))
    links(f"{kit}/bin", f"{shadow}/bin", ("rt", "rtlib.py"))
    links(f"{kit}/toolchain", f"{shadow}/toolchain", ("bin",))
    links(f"{kit}/toolchain/bin", f"{shadow}/toolchain/bin", ("clang", "ld.lld"))
    # (a link would lead them to the kit itself)
    for name in ("rt", "rtlib.py"):
        shutil.copy(f"{kit}/bin/{name}", f"{shadow}/bin/{name}")
    quoted = {"kit": shlex.quote(kit), "room": shlex.quote(room)}
    write_script(f"{shadow}/toolchain/bin/clang", CLANG.format(**quoted))
    write_script(f"{shadow}/toolchain/bin/ld.lld", LINKER.format(**quoted))
    return f"{shadow}/bin/rt"


def link_words(kit, room):
    """How the kit's linker is to be called: as `rt try` did, but with the module, and without what finds wrong accesses."""
    with open(f"{room}/link", encoding="utf-8") as it:
        words = it.read().splitlines()
    with contextlib.suppress(ValueError):
        del words[words.index("--whole-archive") : words.index("--no-whole-archive") + 1]
    words = ["module.bc" if it == "input-0" else it.replace(f"{room}/kit/", f"{kit}/") for it in words]
    return [f"{kit}/toolchain/bin/ld.lld", *words, "--lto-O2"]


def why_none(status, said):
    """Why `rt try` gave no module, by its status and what it said."""
    told = said.replace("run=none proved=no", "").strip()
    if told and 2 <= status <= 6:
        return NoLinks(last_line(told))
    print(said, end="", file=sys.stderr)
    # (it ends with 1 where it refuses a crate)
    return Fault("the sources are refused, for the reason above" if status == 1 else "`rt try` was ended before it was through: run it again")


def compile_in(room, name, kit):
    """Compiles a program in the room; the path of what was made."""
    began = time.monotonic()
    say(f"{name} is compiled of these sources first, unproved, and kept: {TAKES}; step 1 of 2, the sources")
    try:
        rt = kit_of_links(kit, room)
    except OSError as error:
        raise NoLinks(str(error)) from error
    how = {"cwd": f"{sources.TOP}/crates/{name}", "stdout": subprocess.DEVNULL, "stderr": subprocess.PIPE}
    with started([rt, "try", "--steps", "1", "--", "--version"], **how) as child:
        said = child.communicate()[1].decode(errors="replace")
    if not os.path.isfile(f"{room}/link") or not os.path.isfile(f"{room}/module.bc"):
        raise why_none(child.returncode, said)
    say(f"step 2 of 2, machine code, after {time.monotonic() - began:.0f} seconds")
    with started(link_words(kit, room), cwd=room, stdout=subprocess.DEVNULL, stderr=subprocess.PIPE) as child:
        said = child.communicate()[1].decode(errors="replace")
    if child.returncode:
        raise NoLinks(last_line(said))
    say(f"{name} is compiled, after {time.monotonic() - began:.0f} seconds")
    return f"{room}/program"


def place_of(name):
    """Where the program of these sources by this kit is kept, or will be."""
    made_of = f"{sources.sum_of([name], sources.MADE_OF)} {version()}"
    return f"{KEPT}/{name}-{hashlib.sha256(made_of.encode()).hexdigest()[:16]}"


def keep(made, name, kept):
    """Puts a program where it is kept, and removes all but the last of its name."""
    shutil.copy(made, f"{KEPT}/new-{name}")
    os.chmod(f"{KEPT}/new-{name}", 0o755)
    os.replace(f"{KEPT}/new-{name}", kept)
    found = [f"{KEPT}/{it}" for it in os.listdir(KEPT) if it.startswith(f"{name}-")]
    for it in sorted(found, key=os.path.getmtime)[:-MOST_KEPT]:
        os.remove(it)


def program(name):
    """The kept program of the sources that stand here, or nothing."""
    kept = place_of(name)
    return kept if os.path.exists(kept) else None


def make(name, kit):
    """Compiles the program of the sources that stand here, and keeps it; waits where another does."""
    with in_turn(f"{KEPT}/{name}.lock", f"compiles {name}"):
        kept = place_of(name)
        if os.path.exists(kept):
            return
        with tempfile.TemporaryDirectory(prefix="sharder-unproved-") as room:
            made = compile_in(room, name, kit)
            if place_of(name) != kept:
                raise Fault(f"a source was changed while {name} was compiled, so nothing is kept: run it again")
            keep(made, name, kept)
