#!/usr/bin/env python3
"""judge_fuzz.py PROGRAM [COUNT [SEED]]: compares the program `judge` with judge.py on COUNT mutated traces (10,000).

Each is a known trace with one to three changes, drawn by SEED: a line is cut, doubled, swapped with another, or brought from
another trace; a number or a byte of it is changed. Mostly that befalls a line that the judge reads. What is written and the
status are compared; each trace on which they differ is kept as judge_fuzz_N.in, to be read again.

The last line says how many came to which answer. Status 1 where some differ. Needs Python 3.8 and nothing else.
"""
import collections
import random
import re
import subprocess
import sys

import judge
import judgements

# A chance in a hundred that a changed line is one that the judge reads.
LOUD = 85


def with_other_number(line, chance):
    found = list(re.finditer(r"[0-9]+", line))
    if not found:
        return line
    it = chance.choice(found)
    other = chance.choice((max(0, int(it[0]) - 1), int(it[0]) + 1, int(it[0]) + 2, int(it[0]) * 1000, "0" + it[0]))
    return f"{line[:it.start()]}{other}{line[it.end():]}"


def with_other_byte(line, chance):
    at = chance.randrange(len(line) + 1)
    other = chance.choice((" ", "/", ":", ".", "-", "0", "a", "\t", "\r", "\x00", "\xff", ""))
    return line[:at] + other + line[at + chance.randrange(2) :]


def change(lines, all_lines, chance):
    """Changes one thing in a list of lines."""
    loud = [at for at, line in enumerate(lines) if not judge.is_quiet(line)]
    at = chance.choice(loud) if loud and chance.randrange(100) < LOUD else chance.randrange(len(lines))
    kind = chance.randrange(7)
    if kind == 0:
        del lines[at]
    elif kind == 1:
        lines.insert(chance.randrange(len(lines) + 1), lines[at])
    elif kind == 2:
        to = chance.randrange(len(lines))
        lines[at], lines[to] = lines[to], lines[at]
    elif kind == 3:
        lines.insert(at, chance.choice(all_lines))
    elif kind == 4:
        lines[at] = with_other_byte(lines[at], chance)
    else:
        lines[at] = with_other_number(lines[at], chance)


def mutant(traces, all_lines, chance):
    """A script and the text of a trace that isn't its own any more."""
    it = chance.choice(traces)
    lines = list(it.lines if chance.randrange(2) else it.loud)
    for _ in range(chance.randint(1, 3)):
        if lines:
            change(lines, all_lines, chance)
    text = judgements.text_of(lines)
    end = chance.randrange(20)
    return it, text[:-1] if end == 0 else text + "report\nentity" if end == 1 else text


def said(program, source):
    """What the program writes, and its status."""
    ran = subprocess.run([program], input=source.encode("latin-1"), capture_output=True, check=False, timeout=60)
    return ran.stdout.decode("latin-1"), ran.returncode


def main():
    if not 2 <= len(sys.argv) <= 4:
        sys.exit(__doc__)
    program, count, seed = sys.argv[1], *(int(it) for it in [*sys.argv[2:], *(10_000, 1)[len(sys.argv) - 2 :]])
    chance = random.Random(seed)
    traces = [it for it in judgements.known() if it.loud]
    all_lines = sorted({line for it in traces for line in it.loud})
    came, other = collections.Counter(), 0
    for at in range(1, count + 1):
        it, text = mutant(traces, all_lines, chance)
        answer, status = judge.answer_of(it.script, text)
        source = f"{it.source}trace\n{text}"
        if said(program, source) != (answer + "\n", status):
            other += 1
            with open(f"judge_fuzz_{at}.in", "w", encoding="latin-1", newline="") as file:
                file.write(source)
            print(f"judge_fuzz_{at}.in: judge.py says {answer}, status {status}; the program {said(program, source)}")
        came[answer.split("\n")[0].partition(": ")[2] or "safe"] += 1
    print(f"{count} mutated traces, {other} of them judged otherwise; " + ", ".join(f"{number} {sentence}" for sentence, number in came.most_common()))
    sys.exit(1 if other else 0)


if __name__ == "__main__":
    main()
