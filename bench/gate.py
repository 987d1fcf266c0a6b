#!/usr/bin/env python3
"""What the gate costs: runs `rt ci` and says how many processor seconds each crate's proof, tests and edits took.

    bench/gate.py [CRATE..]        runs `rt ci [CRATE..]` at the top of the repository
    bench/gate.py --watch PID      looks at a run that goes on, until it ends

It looks at the prover's processes five times a second, and adds up what each has used, by the crate that it names. What a
run passed earlier is kept on a machine and costs nothing there: for the whole figure use a machine that has kept nothing.
The lines of `rt ci` go through to standard output, each with the minute in which it came; the table comes at the end.
Needs Linux (/proc) and Python 3.8; nothing else."""
import os
import re
import subprocess
import sys
import threading
import time

TOP = os.path.dirname(os.path.dirname(os.path.abspath(__file__)))
TICKS = os.sysconf("SC_CLK_TCK")
KINDS = ("proof", "tests", "edits")


def read(path):
    try:
        with open(path, "rb") as file:
            return file.read()
    except OSError:
        return b""


def processes():
    """Every process: its number, its parent's, and the processor seconds that it has used, ended children left out."""
    for name in os.listdir("/proc"):
        if not name.isdigit():
            continue
        fields = read(f"/proc/{name}/stat").rpartition(b")")[2].split()
        if len(fields) > 14:
            yield int(name), int(fields[1]), (int(fields[11]) + int(fields[12])) / TICKS


def kind_of(words, folder):
    """The crate that a prover works on in this folder, and what for: edits are tried in folders of their own."""
    crate = words[words.index("--crate-name") + 1]
    if "--test" in words:
        return crate, "tests"
    if os.path.basename(folder).startswith("rt-edit-"):
        return crate, "edits"
    return crate, "proof"


def folder_of(pid):
    try:
        return os.readlink(f"/proc/{pid}/cwd")
    except OSError:
        return ""


class Tally:
    """What was seen of each process, and the sums by crate and kind."""

    def __init__(self, root):
        self.root, self.seen, self.names = root, {}, {}

    def look(self):
        table = {pid: (parent, used) for pid, parent, used in processes()}
        for pid, (parent, used) in table.items():
            above = pid
            for _ in range(12):
                if above == self.root or above not in table:
                    break
                above = table[above][0]
            if above != self.root:
                continue
            if pid not in self.names or self.names[pid] is None:
                words = read(f"/proc/{pid}/cmdline").decode(errors="replace").split("\0")
                self.names[pid] = kind_of(words, folder_of(pid)) if "--crate-name" in words else None
            self.seen[pid] = max(used, self.seen.get(pid, 0))

    def sums(self):
        total, other = {}, 0
        for pid, used in self.seen.items():
            name = self.names.get(pid)
            if name:
                total[name] = total.get(name, 0) + used
            else:
                other += used
        return total, other


def table(tally, seconds):
    total, other = tally.sums()
    crates = sorted({crate for crate, _ in total}, key=lambda it: -sum(total.get((it, kind), 0) for kind in KINDS))
    print("\n| crate | proof | tests | edits | all |\n|---|---|---|---|---|")
    for crate in crates:
        row = [total.get((crate, kind), 0) for kind in KINDS]
        print(f"| `{crate}` | {' | '.join(f'{it:.0f}' if it >= 0.5 else '' for it in row)} | {sum(row):.0f} |")
    row = [sum(used for (_, of), used in total.items() if of == kind) for kind in KINDS]
    print(f"| all | {' | '.join(f'{it:.0f}' for it in row)} | {sum(row):.0f} |")
    print(f"\nProcessor seconds. Runs of programs and tests, links and `rt` itself: {other:.0f}. In all {(sum(row) + other) / 60:.0f} processor minutes,"
          f" {seconds / 60:.0f} minutes by the clock.")


def main(words):
    begun, done = time.time(), threading.Event()
    child = None
    if words[:1] == ["--watch"]:
        root = int(words[1])
    else:
        child = subprocess.Popen(["rt", "ci", *words], cwd=TOP, stdin=subprocess.DEVNULL, stdout=subprocess.PIPE, stderr=subprocess.STDOUT, text=True, errors="replace")
        root = child.pid
    tally = Tally(root)

    def watch():
        while not done.is_set() and (child.poll() is None if child else os.path.isdir(f"/proc/{root}")):
            tally.look()
            time.sleep(0.2)

    watcher = threading.Thread(target=watch)
    watcher.start()
    try:
        if child:
            for line in child.stdout:
                if re.match(r"(rt:|\d+ passed)", line) or not line.startswith(" "):
                    print(f"{(time.time() - begun) / 60:6.1f} {line}", end="", flush=True)
        watcher.join()
    except KeyboardInterrupt:
        done.set()
    done.set()
    watcher.join()
    table(tally, time.time() - begun)
    return child.wait() if child else 0


if __name__ == "__main__":
    sys.exit(main(sys.argv[1:]))
