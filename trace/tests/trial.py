#!/usr/bin/env python3
"""trial.py [--play COMMAND] COUNT [SEED]: exports traces that were split by node, and judges them.

Each of COUNT traces is split into one log a node, with clocks that differ and in a way of logging that is drawn; the logs are
exported, merged and judged: each must be safe. Then one fault is planted in the logs, and the merge or the judge must find
it. The traces are those of random scripts, played by COMMAND (a script on standard input, its trace on standard output, as
`./run.sh replay`); without it the known traces of the repository. Status 1 where one is judged otherwise.
"""
from __future__ import annotations

import argparse
import collections
import json
import multiprocessing
import os
import random
import shlex
import subprocess
import sys
from typing import Dict, Iterator, List, NamedTuple, Optional, Tuple

sys.dont_write_bytecode = True
HERE = os.path.dirname(os.path.abspath(__file__))
TOP = os.path.dirname(os.path.dirname(HERE))
sys.path[:0] = [HERE, os.path.dirname(HERE), os.path.join(TOP, 'bench')]

import judge                                            # noqa: E402
import planting                                         # noqa: E402
from export import exported                             # noqa: E402
from exporting.history import Choices                   # noqa: E402
from exporting.logs import Logs                         # noqa: E402
from exporting.merging import NoOrder                   # noqa: E402
from scripts import Shape, random_script                # noqa: E402
from splitting import Style, loud_part, split           # noqa: E402

KNOWN = os.path.join(TOP, 'crates', 'known_replays', 'data')


class Sample(NamedTuple):
    """A script, and the lines of its trace."""
    name: str
    source: str
    lines: List[str]


def answer_of(text: str) -> str:
    """The first line of what bench/judge.py says of an input."""
    script, trace = judge.parts_of(text)
    return str(judge.answer_of(judge.Script(script), trace)[0]).split('\n')[0]


def verdict(logs: Dict[str, List[dict]], kind: Optional[str], choices: Choices = Choices()) -> str:
    """`safe`, or what the merge or the judge says."""
    read = Logs()
    for name, log in logs.items():
        read.read(name, map(json.dumps, log))
    try:
        _, outputs = exported(read, choices, kind)
    except NoOrder as it:
        return f'merge: a cycle of {len(it.cycles[0])}'
    answers = [answer_of(it.text) for it in outputs]
    return next((it for it in answers if not it.startswith('safe')), 'safe')


def known() -> Iterator[Sample]:
    """The known traces of `replay` that can be exported."""
    with open(os.path.join(KNOWN, 'index'), encoding='ascii') as file:
        names = [words[0] for words in map(str.split, file) if words[2:] == ['replay']]
    for name in names:
        with open(os.path.join(KNOWN, f'{name}.in'), encoding='latin-1', newline='') as script, open(os.path.join(KNOWN, f'{name}.out'), encoding='latin-1') as trace:
            lines, why = loud_part(trace.read())
            sample = Sample(name, script.read(), lines)
        if why is None and any(line.startswith('start') for line in lines):
            yield sample


def played(command: str, seed: int) -> Sample:
    """A random script and its trace."""
    chance = random.Random(f'{seed}')
    shape = Shape(chance.choice((30, 60, 120)), chance.randint(2, 4), chance.randint(1, 5), chance.randint(1, 3), chance.randint(1, 8), chance.choice(('counter', 'account', 'cart')))
    source = '\n'.join(random_script(seed, shape)) + '\n'
    ran = subprocess.run(shlex.split(command), input=source, capture_output=True, check=True, text=True)
    return Sample(f'seed {seed}', source, loud_part(ran.stdout)[0])


def logs_of(sample: Sample, chance: random.Random, style: Style) -> Dict[str, List[dict]]:
    return split(sample.lines, style, chance, judge.Script(sample.source).shard_of)


def tried(sample: Sample, seed: int) -> Tuple[str, str, str, str]:
    """The verdicts on a trace as it is, and with a fault planted: the sample, the first verdict, what was planted, the second."""
    chance = random.Random(f'{sample.name} {seed}')
    style = Style.drawn(chance)
    script = judge.Script(sample.source)
    kind = script.kind if style.kind and chance.random() < 0.7 else None
    logs = logs_of(sample, chance, style)
    if not any(it['event'] != 'journal' for log in logs.values() for it in log):
        return sample.name, 'empty', '', ''
    good = verdict(logs, kind)
    for name in chance.sample(list(planting.PLANTS), len(planting.PLANTS)):
        if name == 'early-confirmation':
            style.queues = True
        if name == 'swapped-epoch':
            style.epochs = style.leases = True
        logs = logs_of(sample, chance, style)
        if planting.PLANTS[name](logs, chance):
            return sample.name, good, name, verdict(logs, kind if name != 'double-writer' else None)
    return sample.name, good, '', ''


def work(words: Tuple[str, int, int]) -> Tuple[str, str, str, str]:
    command, seed, _ = words
    return tried(played(command, seed), seed)


def results(command: Optional[str], count: int, seed: int) -> Iterator[Tuple[str, str, str, str]]:
    if command is None:
        samples = list(known())
        for at in range(count):
            yield tried(samples[at % len(samples)], seed + at)
        return
    with multiprocessing.Pool(3) as pool:
        yield from pool.imap(work, ((command, seed + at, 0) for at in range(count)))


def main() -> int:
    parser = argparse.ArgumentParser(prog='trial.py', description=__doc__, formatter_class=argparse.RawDescriptionHelpFormatter)
    parser.add_argument('--play', metavar='COMMAND')
    parser.add_argument('count', type=int)
    parser.add_argument('seed', type=int, nargs='?', default=1)
    words = parser.parse_args()
    good: collections.Counter = collections.Counter()
    planted: Dict[str, collections.Counter] = {}
    for name, verdict_now, plant, verdict_then in results(words.play, words.count, words.seed):
        good[verdict_now] += 1
        if verdict_now not in ('safe', 'empty'):
            print(f'{name}: {verdict_now}, and it is safe')
        if plant:
            how = 'by the merge' if verdict_then.startswith('merge') else 'not at all' if verdict_then == 'safe' else 'by the judge'
            planted.setdefault(plant, collections.Counter())[how] += 1
            if verdict_then == 'safe':
                print(f'{name}: {plant} is not found')
    print(f'{sum(good.values())} traces: ' + ', '.join(f'{count} {it}' for it, count in good.most_common()))
    for plant, counts in planted.items():
        print(f'{plant}: {sum(counts.values())} planted, found ' + ', '.join(f'{count} {how}' for how, count in counts.most_common()))
    return 1 if set(good) - {'safe', 'empty'} or any(it['not at all'] for it in planted.values()) else 0


if __name__ == '__main__':
    sys.exit(main())
