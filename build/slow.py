"""A run by `rt try`, where the kit doesn't allow that its compiler's module is kept: compiled for this run alone."""
import os
import re
import subprocess
import sys
import tempfile

import sources
from processes import Fault, say, started

# How long such a run may take once it is compiled, in seconds.
SECONDS = 600
# Why `rt try` gave no answer, by a part of what it says.
NO_ANSWER = {
    "bytes to standard output": "such a run tells at most 1 MiB of text, and this one has more",
    "did not end within": f"such a run is slow, and this one had not ended after {SECONDS} seconds",
}


def why_none(said):
    """Why there is no answer, of what `rt try` said on standard error."""
    for part, why in NO_ANSWER.items():
        if any(it.startswith("checked: no-answer: ") and part in it for it in said.splitlines()):
            return f"{why}: `./run.sh --build` makes the proved program, which has no such limit"
    # (the sources are refused, say)
    print(said, end="", file=sys.stderr)
    return "`rt try` gave no answer, for the reason above"


def words_of_program(said):
    """What the program itself wrote to standard error: it comes first."""
    own = re.split(r"(?m)^(?:interpreter|checked): ", said)[0]
    return re.sub(r"(?m)^rt: .*\n", "", own)


def run(name, words, why):
    """Runs a program on these words; its exit status."""
    say(f"this kit doesn't let a compiled program be kept ({why}), so this run is compiled for itself by `rt try`: one to four minutes")
    say("what it writes to files is lost, and it is unproved: `./run.sh --build` makes the proved program")
    with tempfile.TemporaryFile() as text, tempfile.TemporaryFile() as told:
        how = {"cwd": f"{sources.TOP}/crates/{name}", "stdin": None, "stdout": text, "stderr": told}
        with started(["rt", "try", "--steps", "1", "--seconds", str(SECONDS), "--", *words], **how) as child:
            child.wait()
        told.seek(0)
        said = told.read().decode(errors="replace")
        ended = re.findall(r"(?m)^run=ended status=(\d+) ", said)
        if not ended:
            raise Fault(why_none(said))
        sys.stderr.write(words_of_program(said))
        text.seek(0)
        try:
            subprocess.run(["cat"], stdin=text, check=True)
        except subprocess.CalledProcessError:
            return 5
    return int(ended[-1])


# Notes of which kit it is known that its modules can't be kept, and why.
KNOWN = f"{sources.TOP}/out/kept/no-links"


def why_known(of_kit):
    """Why this kit's modules can't be kept, where that is known already."""
    if not os.path.exists(KNOWN):
        return None
    with open(KNOWN, encoding="utf-8") as it:
        noted, _, why = it.read().partition("\n")
    return why.strip() if noted == of_kit else None


def know(of_kit, why):
    with open(KNOWN, "w", encoding="utf-8") as it:
        it.write(f"{of_kit}\n{why}\n")
