#!/usr/bin/env python3
"""An `rt` for build/check.py: knows `version` and `try`, and notes each call in the file that RT_CALLS names.

A program's module is a script that is its source behind a line `#!/bin/sh`; a source with the word `refused` is
refused, and one with `ended early` has it killed. RT_SECONDS is how long it takes."""
import os
import signal
import subprocess
import sys
import tempfile

KIT = os.path.dirname(os.path.dirname(os.path.realpath(__file__)))


def compile_and_run(source, words):
    module = f"#!/bin/sh\n{source}"
    with tempfile.TemporaryDirectory() as room:
        with open(f"{room}/module.bc", "w", encoding="utf-8") as it:
            it.write(module)
        for call in (["clang", "-c", "module.bc", "-o", "module.o", "-fsanitize=address"], ["ld.lld", "-o", "program", "input-0"]):
            if subprocess.run([f"{KIT}/toolchain/bin/{call[0]}", *call[1:]], cwd=room, check=False).returncode:
                print("cannot link", file=sys.stderr)
                return 2
            if call[0] == "clang":
                os.rename(f"{room}/module.o", f"{room}/input-0")
        status = subprocess.run([f"{room}/program", *words], check=False).returncode
    print(f"checked: ended status={status}\nrun=ended status={status} runners=1 proved=no", file=sys.stderr)
    return status


def main(words):
    with open(os.environ["RT_CALLS"], "a", encoding="utf-8") as it:
        it.write(f"{words[0]}\n")
    if words[0] == "version":
        print("fake kit")
        return 0
    subprocess.run(["sleep", os.environ.get("RT_SECONDS", "0")], check=True)
    with open("src/main.rt", encoding="utf-8") as it:
        source = it.read()
    if "ended early" in source:
        os.kill(os.getpid(), signal.SIGKILL)
    if "refused" in source:
        print("error: it is refused", file=sys.stderr)
        return 1
    return compile_and_run(source, words[words.index("--") + 1 :])


sys.exit(main(sys.argv[1:]))
