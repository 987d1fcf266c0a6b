#!/usr/bin/env python3
"""Measures `sharder live`: turns a second with 1, 2, 4 and 16 nodes.

    bench/live.py [PROGRAM] [TURNS] [RUNS]

Each node produces one producer; 2,000 commands are sent in all, to 16 names in 16 shards, whatever the number of
nodes, since a timer's turn goes over all names. Every node stays up, so that each makes all of its turns. A line for each number of nodes: the best of RUNS runs, in turns of all nodes a second
of the clock, and how many times those of one node. The settling and the text are within the time.
"""
import subprocess
import sys
import time
from pathlib import Path

TOP = Path(__file__).resolve().parent.parent


def script(nodes):
    lines = [f"config nodes={nodes} shards=16 producers={nodes}"]
    lines += [f"up {n}" for n in range(1, nodes + 1)]
    lines += [f"produce {n} {n}" for n in range(1, nodes + 1)]
    lines += [f"send {k % nodes + 1} e{k % 16} add 1" for k in range(2000)]
    return "".join(line + "\n" for line in lines).encode()


def seconds(program, text, turns, seed):
    began = time.monotonic()
    ran = subprocess.run([program, "live", str(turns), str(seed)], input=text, capture_output=True)
    took = time.monotonic() - began
    if ran.returncode != 0:
        sys.exit(f"status {ran.returncode}: {ran.stderr.decode()}")
    return took


def main():
    words = sys.argv[1:]
    program = words[0] if words else str(TOP / "crates/sharder/out/sharder")
    turns = int(words[1]) if len(words) > 1 else 100_000
    runs = int(words[2]) if len(words) > 2 else 3
    first = None
    for nodes in (1, 2, 4, 16):
        text = script(nodes)
        took = min(seconds(program, text, turns, seed) for seed in range(1, runs + 1))
        rate = nodes * turns / took
        first = first or rate
        print(f"{nodes:2} nodes  {took:8.2f} s  {rate:12,.0f} turns/s  {rate / first:5.2f}", flush=True)


main()
