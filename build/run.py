#!/usr/bin/env python3
"""What run.sh can't do at once: finds out which program is of the sources that stand here, or makes it.

  run.py --run NAME WORDS..  runs this program on these words, and notes for run.sh which one that was
  run.py --build, --sum, --built [SUM]  as run.sh says"""
import os
import shutil
import signal
import sys

import proved
import slow
import sources
import unproved
from processes import Fault, kit, obey_signals, say, version

UNPROVED = "this program is unproved: `./run.sh --build` proves and builds it"


def tick():
    """The moment before which nothing that is looked at from now on was touched, as files tell it."""
    path = f"{sources.TOP}/out/run/.tick-{os.getpid()}"
    os.makedirs(os.path.dirname(path), exist_ok=True)
    with open(path, "w", encoding="utf-8"):
        pass
    at = os.stat(path).st_mtime_ns - 1
    os.remove(path)
    return at


def note(name, program, said, at):
    """Notes for run.sh which program is run while nothing is touched, what is said of it, and the kit."""
    path = f"{sources.TOP}/out/run/{name}"
    rt = shutil.which("rt")
    with open(f"{path}.{os.getpid()}", "w", encoding="utf-8") as it:
        it.write(f"{os.path.relpath(program, sources.TOP)}\n{said}\n{os.path.realpath(rt) if rt else ''}\n")
    os.utime(f"{path}.{os.getpid()}", ns=(at, at))
    os.replace(f"{path}.{os.getpid()}", path)


def become(program, words):
    """Runs the program in this process's place."""
    for it in (signal.SIGPIPE, signal.SIGXFSZ):
        signal.signal(it, signal.SIG_DFL)
    os.execv(program, [program, *words])


def found(name):
    """The program of the sources that stand here and what is said of it, which is noted for run.sh; or nothing."""
    at = tick()
    if proved.is_built():
        program, said = proved.place_of(name), ""
    else:
        kit()
        program, said = unproved.program(name), UNPROVED
    if program:
        note(name, program, said, at)
    return program, said


def run(name, words):
    program, said = found(name)
    if not program:
        why = slow.why_known(version())
        try:
            if why:
                return slow.run(name, words, why)
            unproved.make(name, kit())
        except unproved.NoLinks as error:
            slow.know(version(), str(error))
            return slow.run(name, words, str(error))
        program, said = found(name)
        if not program:
            raise Fault(f"a source was changed while {name} was compiled: run it again")
    if said:
        say(said)
    return become(program, words)


def main(words):
    obey_signals()
    try:
        if words[0] == "--run":
            return run(words[1], words[2:])
        if words == ["--build"]:
            proved.build()
        elif words == ["--sum"]:
            print(proved.sum_of_sources())
        elif words == ["--built"]:
            return 0 if proved.is_built() else 1
        elif words[0] == "--built":
            proved.note(words[1])
        return 0
    except (Fault, OSError) as fault:
        say(fault)
        return 1


if __name__ == "__main__":
    sys.exit(main(sys.argv[1:]))
