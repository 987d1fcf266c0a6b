#!/usr/bin/env python3
"""judgements.py [--check]: makes the data of crates/known_judgements, or says whether they are what it would make.

The traces are those of crates/known_replays, whole, and mutated ones: with one line cut, doubled, swapped with another, brought
from another trace, or with one number or name changed. Of each sentence there are two: a short one of loud lines alone, and a
late one of all lines. Each is cut off a few lines behind the first line that breaks it. In one an entity starts twice where it is,
which is safe. The answers are those of judge.py, which stands beside this file and was written apart from the program.

    index       NAME|SCRIPT|STATUS|ANSWER: the input is SCRIPT.in, a line `trace`, and NAME.trace
    hostile     STATUS|ANSWER|INPUT: the whole input

In answers and inputs a byte that has no place in a line is %XX.

Needs Python 3.8 and nothing else.
"""
import os
import re
import sys

import judge

TOP = os.path.dirname(os.path.dirname(os.path.abspath(__file__)))
KNOWN = f"{TOP}/crates/known_replays/data"
CRATE = f"{TOP}/crates/known_judgements"
# Traces with more loud lines than this aren't mutated, and so many lines stand behind the first that breaks one.
LONGEST, BEHIND = 40, 2
# The example of a trace that isn't safe, whose answer a document tells.
EXAMPLE = "unsafe_two_incarnations"
# How many loud lines away a line is doubled, or swapped with another.
STEPS = (1, 2, 5, 11)
# Mutated traces of more bytes are taken only where there is no smaller one.
LARGE = 1_500


def read(path):
    with open(path, encoding="latin-1", newline="") as file:
        return file.read()


class Known:
    """A known script with its trace: the text of it, and its loud lines."""

    def __init__(self, name):
        self.name, self.source, self.text = name, read(f"{KNOWN}/{name}.in"), read(f"{KNOWN}/{name}.out")
        self.script = judge.Script(self.source)
        lines = self.text.split("\n")
        self.lines = lines[: lines.index("report")]
        self.loud = [line for line in self.lines if not judge.is_quiet(line)]


def known():
    """The scripts of `replay` whose text is kept whole."""
    lines = [line.split() for line in read(f"{KNOWN}/index").splitlines()]
    return [Known(name) for name, _, *words in lines if words == ["replay"]]


# ---- Mutated traces


def changed_numbers(line):
    """The line with one number of it changed by one."""
    for found in re.finditer(r"\d+", line):
        for by in (1, -1):
            if int(found[0]) + by >= 0:
                yield line[: found.start()] + str(int(found[0]) + by) + line[found.end() :]


def changed_words(line, names):
    """The line with another name or word in the place of one."""
    for one in names:
        if re.search(rf" {one}\b", line):
            for other in [*names, "nobody"]:
                if other != one:
                    yield re.sub(rf" {one}\b", f" {other}", line, count=1)
    for one, other in ((" released", " stopped"), (" ok ", " no "), ("added", "removed"), ("shard:", "queue:"), (" / -", "")):
        if one in line:
            yield line.replace(one, other, 1)


def mutants(lines, names, others):
    """A trace with one thing changed in its loud lines; `others` are lines of other traces."""
    loud = [at for at, line in enumerate(lines) if not judge.is_quiet(line)]
    for place, at in enumerate(loud):
        line = lines[at]
        yield "cut", lines[:at] + lines[at + 1 :]
        yield "doubled", lines + [line]
        for to in (loud[place + step] for step in STEPS if place + step < len(loud)):
            yield "doubled", lines[:to] + [line] + lines[to:]
            yield "swapped", lines[:at] + [lines[to]] + lines[at + 1 : to] + [line] + lines[to + 1 :]
        for other in changed_numbers(line):
            yield "number", lines[:at] + [other] + lines[at + 1 :]
        for other in changed_words(line, names):
            yield "word", lines[:at] + [other] + lines[at + 1 :]
        for other in others:
            yield "brought", lines[:at] + [other] + lines[at:]


def text_of(lines):
    return "".join(line + "\n" for line in lines)


class Case:
    """A trace, the script that it is judged under, and the answer."""

    def __init__(self, name, script, trace, answer, status):
        self.name, self.script, self.trace, self.answer, self.status = name, script, trace, answer, status

    def line(self):
        return f"{self.name}|{self.script}|{self.status}|{escaped(self.answer)}"


# What the mutated traces of a sentence are called.
SLUGS = dict(
    zip(
        judge.SENTENCES,
        "unknown_name unknown_producer unknown_slot unknown_shard unknown_node two_live no_lease other_state granted_while_held not_the_next_epoch "
        "unheld_slot not_the_grants_epoch freed_while_live not_live other_epoch not_the_next_record not_the_next_command not_decided "
        "confirmation_not_rising not_recorded queue_out_of_order not_to_register not_registered not_to_allocate no_home not_a_snapshot "
        "remembered_twice not_remembered".split(),
    )
)
SLUGS[judge.NO_FACT] = "no_fact"


class Found:
    """A mutated trace up to a few lines behind the first that breaks it, with what was done to it, and that line."""

    def __init__(self, it, how, lines, at=None):
        self.it, self.how, self.at = it, how, at or len(lines)
        self.word = lines[at - 1].split(" ")[0] if at else ""
        self.text = text_of(lines[: at + BEHIND] if at else lines)

    def order(self):
        return len(self.text), self.it.name, self.how, self.text


def looked_through(traces, are_loud):
    """Of each sentence, and of none (as `safe`), its mutated traces: of loud lines alone, or of all."""
    found = {}
    short = [it for it in traces if 8 <= len(it.loud) <= LONGEST]
    others = sorted({line for it in short for line in it.loud}, key=lambda line: (len(line), line))[::17]
    for it in short:
        for how, lines in mutants(it.loud if are_loud else it.lines, sorted(it.script.names), others):
            answer, _ = judge.answer_of(it.script, text_of(lines))
            broken = re.match(r"line (\d+): (.*)", answer)
            if broken:
                found.setdefault(broken[2], []).append(Found(it, how, lines, int(broken[1])))
            else:
                found.setdefault("safe", []).append(Found(it, how, lines))
    return found


def latest(candidates, others):
    """The one that is broken last, by a line that begins with another word than those of `others`, if one does; none is large."""
    words = {it.word for it in others}
    left = [it for it in candidates if it.word not in words] or candidates
    return max(left, key=lambda it: (len(it.text) <= LARGE, it.at, it.order()))


def mutated(traces):
    loud, whole = looked_through(traces, True), looked_through(traces, False)
    lacking = [sentence for sentence in judge.SENTENCES if sentence not in loud or sentence not in whole]
    assert not lacking, lacking
    for sentence, slug in SLUGS.items():
        short = min(loud[sentence], key=Found.order)
        for name, it in ((slug, short), (f"{slug}_late", latest(whole[sentence], [short]))):
            yield Case(name, it.it.name, it.text, *judge.answer_of(it.it.script, it.text))
    for how in ("cut", "doubled", "swapped", "number", "word", "brought"):
        it = latest([it for it in whole["safe"] if it.how == how], [])
        yield Case(f"still_safe_{how}", it.it.name, it.text, *judge.answer_of(it.it.script, it.text))


def started_again(traces):
    """The shortest trace with a start, which stands there twice: the entity is live where it was."""
    it = min((it for it in traces if any(line.startswith("start ") for line in it.loud)), key=lambda it: (len(it.loud), it.name))
    at = next(at for at, line in enumerate(it.loud) if line.startswith("start "))
    text = text_of(it.loud[: at + 1] + it.loud[at:])
    return Case("started_again", it.name, text, *judge.answer_of(it.script, text))


# ---- Hostile inputs

FIRST = "config nodes=1 shards=1 producers=1\nsend 1 c1 add 5\n"
GRANT = "granted shard:0 1 1.1\n"
COORDINATOR = "granted coordinator 1 1.1\n"
HOSTILE = [
    # what ends a trace, and what stands at its end
    "", "report\n", "report", "report\nnothing of this is read\n", GRANT + "report\ngranted shard:0 3 1.1\n", GRANT + "granted shard:0 3 1.1",
    GRANT + "sent", GRANT + "# no line feed", GRANT.rstrip("\n"), "active 1.1 c1 0 0", "active 1.1 c1 0 0\n",
    # what is passed over
    "sent \xff\x00\n" + GRANT, "#\xe9\n" + GRANT, "at\nnothing at all\n" + GRANT, "got" + " 1" * 2_046 + "\n" + GRANT,
    # what is no fact
    "\n", " " + GRANT, GRANT.replace("\n", "\r\n"), GRANT.replace("\n", " \n"), GRANT.replace(" ", "\t"), "Granted shard:0 1 1.1\n", "granted\n", "granted \n",
    "sentence\n", "trace\n", "\x00\n", "\xff\n", "granted  shard:0 1 1.1\n", "granted shard:00 1 1.1\n", "granted shard:0 01 1.1\n", "granted shard:0 1 01.1\n",
    "granted shard:0 +1 1.1\n", "granted shard:128 1 1.1\n", "granted queue:33 1 1.1\n", "granted queue:0 1 1.1\n", "granted shard:0 1 17.1\n",
    "granted shard:0 1 0.1\n", "granted shard:0 4294967296 1.1\n", "granted shard:0 1 1.4294967296\n", "granted shard:0 1 1.99999999999999999999999999\n",
    "granted coordinator:0 1 1.1\n", "freed shard:0 1 lost\n", "start 1.1 \n", "start 1.1 " + "a" * 33 + "\n", "start 1.1 a.b\n", "gone 1\n",
    "upgrade 0\n", "upgrade 1\n", "upgrade 3\n", "upgrade 255\n",
    "upgrade 256\n", "upgrade 02\n", "upgrade\n", "upgrade 2\nupgrade 1\n", "given c1 1.1\n", "did 1.1 c1\n",
    "queued 33 c1 1 add 5\n", "queued 1 c1 1 add 65536\n", "queued 1 c1 1 add\n", "queued 1 c1 1 add 5 \n", "wrote c1 1 epoch 1 by 1:1 add 5\n",
    "wrote c1 1 epoch 1 by 1:1 add 5 / added 5 / ok 1000000000000000000\n", "wrote c1 1 epoch 1 by 1:1 add 5 / added 5,added 5 / ok 5\n",
    "wrote c1 1 epoch 1 by 1:1 add 5 / added 5, added 5, added 5, added 5, added 5 / ok 5\n", "wrote c1 1 epoch 1 by 1:1 add 5 / added 5 / no 256\n", "got" + " 1" * 2_046 + " \n",
    "got" + " 1" * 2_047, "a" * 1_500 + "\n", "active \n", "active 1.1\n", "active 17.1 c1 0 0\n", "active 0.1 c1 0 0\n", "active 1.1 " + "a" * 33 + " 0 0\n", "active x",
    "active 1.1 c1\n", "active 1.1 c1 0\n", "active 01.1 c1 0 0\n", "active 1.1 c1 00 0\n", "active 1.1 c1 0 00\n", "active 1.1 c1 0 0 \n", "active 1.1 c1 0 0 0\n",
    "active 1.1 c1 0 -1\n", "active 1.1 c1 0 a\n", "active 1.1 c1 4294967296 0\n", "active 1.1 c1 0 18446744073709551616\n", "active 1.1 c1 0 none 0\n",
    "active 1.1 c1 0 open\n", "active 1.1 c1 0 open 18446744073709551616\n", "active 1.1 c1 0 open 5 memo 0\n", "active 1.1 c1 0 open 5 memo 65536\n",
    "active 1.1 c1 0 open 5 memo\n", "active 1.1 c1 0 open 1:2,\n", "active 1.1 c1 0 open 1:65536\n", "active 1.1 c1 0 open 1:2 memo 1\n", "active 1.1 c1 0 open --\n",
    "active 1.1 c1 0 out 5\n", "active 1.1 c1 0 out " + ",".join(["1:1"] * 17) + "\n",
    # what can be read, and breaks the trace
    "granted shard:0 4294967295 1.4294967295\n", "granted shard:127 1 1.1\n", "granted queue:32 1 1.1\n", "granted shard:0 1 16.1\n", "start 1.1 " + "a" * 32 + "\n",
    "queued 32 c1 1 add 65535\n", "active 1.1 c1 4294967295 0\n", "active 16.4294967295 c1 0 18446744073709551615\n", "active 1.1 c1 0 none\n", "active 1.1 c1 0 closed\n",
    "active 1.1 c1 0 open 0\n", "active 1.1 c1 0 open 18446744073709551615 memo 65535\n", "active 1.1 c1 0 open -\n", "active 1.1 c1 0 out 65535:65535,2:3,2:0\n",
    "active 1.1 c1 0 open " + ",".join(["1:1"] * 16) + "\n",
    GRANT + "start 1.1 c1\nstart 2.1 c1\n", COORDINATOR + "registered 16.1\n", COORDINATOR + "registered 2.1\n",
    COORDINATOR + "registered 1.1\nregistered 1.1\n",
    COORDINATOR + "registered 1.1\nallocated 1 1.1\n", COORDINATOR + "allocated 127 2.1\n", COORDINATOR + "allocated 0 1.1\n", COORDINATOR + "deallocated 1\n",
    COORDINATOR + "deallocated 0\n", "registered 2.1\n", "allocated 1 1.1\n", "deallocated 1\n",
    "active 1.1 nobody 0 1\n", "active 1.1 nobody 0 0\n", "wrote c1 1 epoch 1 by 1:1 add 5 / added 5, added 5, added 5, added 5 / ok 999999999999999999\n",
    # what is shown of a line: 200 bytes, without its LF, as they came
    "b" * 199 + "\n", "b" * 200 + "\n", "b" * 201 + "\n", "b" * 4_096 + "\n", "b" * 4_097, "b" * 5_000 + "\n", "sent " + "b" * 4_091, "sent " + "b" * 4_092,
    "\xff" * 150 + " " * 100 + "|\n", "\r\n", "bb\x00\n" + GRANT, "reshard 2 1\n",
    # a life that begins again where it is, and ends once
    GRANT + "start 1.1 c1\nstart 1.1 c1\nstop 1.1 c1\nfreed shard:0 1 released\n",
    # a life that ends where none began; the other version, again and again
    "gone 16.4294967295\nstop 1.1 nobody\nwritefailed 2.1 c1\nupgrade 2\nupgrade 2\n",
]
# Inputs without a line `trace`.
TRACELESS = ["", "\n", FIRST, FIRST + "trace", FIRST + " trace\n", FIRST + "trace \n", FIRST + "trace\r\n", FIRST + GRANT, FIRST + "report\n", "report\n"]
# Scripts that are refused, of whose trace nothing is read.
REFUSED = ["\n", "up 1\n", "config\nup 9\n", "config\nping 1\n", "config\nup \xe9\n"]


def escaped(text):
    return "".join(c if " " <= c < "\x7f" and c not in "%|" else "%%%02X" % ord(c) for c in text)


def hostile():
    script = judge.Script(FIRST)
    for trace in HOSTILE:
        answer, status = judge.answer_of(script, trace)
        yield f"{status}|{escaped(answer)}|{escaped(FIRST + 'trace' + chr(10) + trace)}"
    for source in TRACELESS:
        assert judge.parts_of(source)[1] is None
        yield f"3||{escaped(source)}"
    for source in REFUSED:
        yield f"3||{escaped(source + 'trace' + chr(10) + GRANT)}"


# ---- The data


def example(name):
    """The script of an example, and the case of its trace."""
    source, trace = judge.parts_of(read(f"{TOP}/examples/{name}.trace"))
    return source + "\n", Case(name, name, trace, *judge.answer_of(judge.Script(source), trace))


def files():
    """Each file by its path in the crate's folder."""
    traces = known()
    source, shown = example(EXAMPLE)
    whole = [Case(it.name, it.name, it.text, *judge.answer_of(it.script, it.text)) for it in traces]
    cases = [*whole, shown, *mutated(traces), started_again(traces)]
    made = {f"data/{EXAMPLE}.in": source, **{f"data/{it.name}.in": it.source for it in traces}}
    made.update({f"data/{it.name}.trace": it.trace for it in cases})
    made["data/index"] = text_of(it.line() for it in cases)
    lines = list(hostile())
    made["data/hostile"] = text_of(lines)
    made["stdout"] = text_of([f"known: {len(cases)} same", f"hostile: {len(lines)} same", "failing: 15 same"])
    return made, len(whole), len(cases) - len(whole), len(lines)


def main():
    if sys.argv[1:] not in ([], ["--check"]):
        sys.exit(__doc__)
    made, whole, others, lines = files()
    data = f"{CRATE}/data"
    os.makedirs(data, exist_ok=True)
    there = {f"data/{name}" for name in os.listdir(data)}
    if sys.argv[1:] == ["--check"]:
        other = [path for path, text in made.items() if not os.path.exists(f"{CRATE}/{path}") or read(f"{CRATE}/{path}") != text]
        other += sorted(there - set(made))
        print("\n".join([*(f"{path}: other than it would be made" for path in other), f"{len(made)} files, {len(other)} other"]))
        sys.exit(1 if other else 0)
    for path in there - set(made):
        os.remove(f"{CRATE}/{path}")
    for path, text in made.items():
        with open(f"{CRATE}/{path}", "w", encoding="latin-1", newline="") as file:
            file.write(text)
    print(f"{whole} known traces, {others} mutated ones, {lines} hostile inputs")


if __name__ == "__main__":
    main()
