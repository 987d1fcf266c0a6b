#!/usr/bin/env python3
"""refused_memory.py [-s CASE,..] [-m MOST] PROGRAM: refuses one allocation of a run after the other, and looks at what the program then does.

PROGRAM is the built, proved program (crates/sharder/out/sharder). For each case it is run once, to count its allocations, and then once
for each of them, with that one refused (refuse.c, loaded before it): at most MOST times, 2,000 without -m, spread evenly. Of each run one holds:

    refused    the status is 6, and what was written is a front of the known text
    whole      the status and the text are the known ones: the run did without that allocation
    otherwise  anything else, which is a fault

Of `live`, whose text differs from run to run, no front is known: refused wrote nothing, and whole ends its text with 'end'.
What the host refuses before the program's first own line (its arguments) counts as refused where the status is 1 and nothing was written.

A line for each case; the status is 1 where some run ended otherwise. Needs a C compiler (cc), Python 3.8 and nothing else.
"""
import os
import subprocess
import sys
import tempfile

HERE = os.path.dirname(os.path.abspath(__file__))
KNOWN = f"{os.path.dirname(HERE)}/crates/known_replays/data"
NO_MEMORY = 6
SECONDS = 60
LIVE = b"config nodes=2 shards=4\nup 1\nup 2\nproduce 1 1\nproduce 2 2\n" + b"send 1 a add 1\n" * 10 + b"send 2 b add 2\n" * 10


def read(path):
    with open(path, "rb") as file:
        return file.read()


class Case:
    """A run: its words, its script, the disk that it begins with (None: none), and the status and text that are known of it."""

    def __init__(self, name, words, script, disk=None):
        self.name, self.words, self.script, self.disk = name, words, script, disk
        self.status, self.text = None, None

    def run(self, program, library, number, count=None):
        """Runs it with that allocation refused (0: none): the status and the text."""
        with tempfile.TemporaryDirectory() as folder:
            if self.disk is not None:
                with open(f"{folder}/sharder.log", "wb") as file:
                    file.write(self.disk)
            surroundings = {"LD_PRELOAD": library, "REFUSE": str(number)}
            if count:
                surroundings["REFUSE_COUNT"] = count
            ran = subprocess.run([program, *self.words], input=self.script, env=surroundings, cwd=folder, capture_output=True, timeout=SECONDS, check=False)
            self.left = read(f"{folder}/sharder.log") if os.path.exists(f"{folder}/sharder.log") else None
            return ran.returncode, ran.stdout

    def verdict(self, status, text):
        if self.words[:1] == ["live"]:
            if status == NO_MEMORY and not text or status == 1 and not text:
                return "refused"
            return "whole" if status == 0 and text.endswith(b"end\n") else "otherwise"
        if status == NO_MEMORY and self.text.startswith(text) or status == 1 and not text:
            return "refused"
        return "whole" if (status, text) == (self.status, self.text) else "otherwise"


def known(name, words):
    return Case(name, words, read(f"{KNOWN}/{name}.in"))


def cases_of(program, library):
    """One run of each form, and those with the most kinds of facts."""
    there = {}
    for line in read(f"{KNOWN}/index").decode().splitlines():
        name, _, *words = line.split()
        there[name] = words
    first = read(f"{KNOWN}/first_command.in")
    logged = Case("log", ["log"], first)
    logged.run(program, library, 0)
    names = "one_command first_command settled_from_sends carts second_version more_shards settle_of_failed_write first_command_json bulk_3".split()
    for word in ("pull", "daemon"):
        names += [name for name in there if there[name][:1] == [word]][:3]
    return [known(name, there[name]) for name in names] + [
        Case("live 50 1", ["live", "50", "1"], LIVE),
        logged,
        Case("resume of half a log", ["resume"], first, logged.left[: len(logged.left) // 2]),
        Case("resume of a log", ["resume"], first, logged.left),
    ]


def tried(case, program, library, most):
    """How many runs ended which way, and the lines of those that ended otherwise."""
    with tempfile.NamedTemporaryFile() as count:
        case.status, case.text = case.run(program, library, 0, count.name)
        needed = int.from_bytes(read(count.name), "little")
    step = max(1, -(-needed // most))
    counts, others = {"refused": 0, "whole": 0, "otherwise": 0}, []
    for number in range(1, needed + 1, step):
        status, text = case.run(program, library, number)
        how = case.verdict(status, text)
        counts[how] += 1
        if how == "otherwise":
            others.append(f"    allocation {number}: status {status}, {len(text)} bytes")
    return needed, counts, others


def main():
    words, names, most = sys.argv[1:], None, 2000
    while len(words) > 2 and words[0] in ("-s", "-m"):
        names, most = (words[1].split(","), most) if words[0] == "-s" else (names, int(words[1]))
        words = words[2:]
    if len(words) != 1:
        sys.exit(__doc__)
    program, amiss = os.path.abspath(words[0]), 0
    with tempfile.TemporaryDirectory() as folder:
        library = f"{folder}/refuse.so"
        subprocess.run(["cc", "-O2", "-shared", "-fPIC", "-o", library, f"{HERE}/refuse.c", "-ldl"], check=True)
        for case in cases_of(program, library):
            if names and case.name not in names:
                continue
            needed, counts, others = tried(case, program, library, most)
            amiss += counts["otherwise"]
            print(f"{case.name}: {needed} allocations; {counts['refused']} refused, {counts['whole']} whole, {counts['otherwise']} otherwise", *others, sep="\n", flush=True)
    sys.exit(1 if amiss else 0)


if __name__ == "__main__":
    main()
