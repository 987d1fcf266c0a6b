#!/usr/bin/env python3
"""judge_speed.py [--only CASE,..] JUDGE SHARDER: how many lines a second `judge` takes, of traces that `sharder replay` prints.

JUDGE and SHARDER are the built programs. Each input is a script, a line `trace` and the trace; it is made once and read from a
file. The least processor time of five runs is told, and beside it that of `wc -l` on the same input; of judge.py that of one run.
`carts` has ten times the script lines of `carts/10`, so its time over theirs shows whether time grows with the trace. Needs Python
3.8 and nothing else.
"""
import os
import subprocess
import sys
import tempfile

import measure

CASES = [("views", measure.views), ("carts", measure.carts), ("carts/10", lambda: measure.carts(2_000)), ("flow", measure.flow)]
RUNS = 5


def seconds(words, path, runs):
    """The least processor time of some runs on this input, and what the last one wrote."""
    least, wrote = None, b""
    for _ in range(runs):
        with open(path, "rb") as source, tempfile.TemporaryFile() as sink:
            child = subprocess.Popen(words, stdin=source, stdout=sink)
            _, _, usage = os.wait4(child.pid, 0)
            child.returncode = 0
            sink.seek(0)
            wrote = sink.read(200)
        took = usage.ru_utime + usage.ru_stime
        least = took if least is None else min(least, took)
    return least, wrote.decode("latin-1").strip()


def make(lines, sharder, path):
    """An input: the script, a line `trace`, and what `sharder replay` prints of it."""
    script = "\n".join(lines) + "\n"
    with open(path, "wb") as file:
        file.write(script.encode() + b"trace\n")
        file.flush()
        subprocess.run([sharder, "replay"], input=script.encode(), stdout=file, check=False)


def main():
    words, only = sys.argv[1:], None
    if words[:1] == ["--only"] and len(words) > 1:
        only, words = words[1].split(","), words[2:]
    if len(words) != 2:
        sys.exit(__doc__)
    beside = os.path.join(os.path.dirname(os.path.abspath(__file__)), "judge.py")
    print(f"{'case':9} {'lines':>9} {'MB':>6} {'judge s':>8} {'M lines/s':>9} {'wc -l s':>8} {'judge.py s':>10}  answer")
    with tempfile.TemporaryDirectory() as folder:
        path = os.path.join(folder, "input")
        for name, lines in CASES:
            if only and name not in only:
                continue
            make(lines(), words[1], path)
            took, answer = seconds([words[0]], path, RUNS)
            counting, count = seconds(["wc", "-l"], path, RUNS)
            slow, other = seconds([sys.executable, beside], path, 1)
            number = int(count.split()[0])
            note = "" if answer == other else f" (judge.py: {other})"
            size = os.path.getsize(path) / 2**20
            print(f"{name:9} {number:9} {size:6.1f} {took:8.3f} {number / max(took, 0.001) / 1e6:9.2f} {counting:8.3f} {slow:10.2f}  {answer}{note}", flush=True)


if __name__ == "__main__":
    main()
