#!/usr/bin/env python3
"""From the logs of a real cluster to what `judge` reads.

    trace/export.py NODE1.jsonl NODE2.jsonl .. > INPUT
    trace/export.py --out FOLDER NODE1.jsonl NODE2.jsonl ..

Each log is JSON lines, one object an event, written by the application: docs/JUDGE.md has the events, their keys, and where
an Akka application writes them. The lines of all nodes are brought into one order without clocks, by what is known for
certain; where there is no such order, the lines that contradict each other are printed, and that is the verdict.

With --out the inputs stand in FOLDER as part-1.in, part-2.in, .., as many as are needed, and beside each a file .map that says
what its names and lines stand for; `trace/explain.py FOLDER/*.in` judges them.

Status 0: written. 1: no order of the lines is safe. 2: the words are wrong. 3: a log can't be read; a line on standard error
says where and why. 4: no safe order was found, and none is excluded. Needs Python 3.8 and nothing else.
"""
from __future__ import annotations

import argparse
import gc
import json
import os
import sys
from typing import List, NoReturn, Sequence

sys.dont_write_bytecode = True      # no __pycache__ beside these files

from ending import run                                                  # noqa: E402
from exporting import kinds                                             # noqa: E402
from exporting.demands import Demands                                   # noqa: E402
from exporting.history import Choices, Fact, History                    # noqa: E402
from exporting.logs import Logs, NoLog                                  # noqa: E402
from exporting.merging import Merge, NoOrder, Step, Undecided           # noqa: E402
from exporting.writing import Output, write                             # noqa: E402


def words_of(arguments: Sequence[str]) -> argparse.Namespace:
    parser = argparse.ArgumentParser(prog='export.py', description=__doc__, formatter_class=argparse.RawDescriptionHelpFormatter)
    parser.add_argument('logs', nargs='+', metavar='LOG', help='a file of JSON lines; - is standard input')
    parser.add_argument('--out', metavar='FOLDER', help='where the inputs go; without it the one that there is goes to standard output')
    parser.add_argument('--kind', choices=kinds.KINDS, help='entities are of this kind, and what they decide is judged too')
    parser.add_argument('--middle', action='store_true', help='the logs begin in the middle of a run')
    parser.add_argument('--cut-ends', action='store_true', help='behind its last line a log may lack the end of what it holds')
    parser.add_argument('--shards', type=int, metavar='NUMBER', help="the number of shards, where lines name none: Akka's own extractor is taken")
    return parser.parse_args(arguments)


def exported(logs: Logs, choices: Choices, kind: 'str | None' = None) -> 'tuple[History, List[Output]]':
    """The inputs of these logs. Raises NoLog, NoOrder and Undecided."""
    if not logs.lines:
        raise NoLog('the logs have no event' + (f', but lines with other events: {others(logs)}' if logs.others else ''))
    history = History(logs, choices)
    return history, write(history, Merge(Demands(history)).order(), kind)


def others(logs: Logs) -> str:
    return ', '.join(f'{name} {count}' for name, count in logs.others.most_common(5))


def notes_of(logs: Logs, history: History) -> List[str]:
    """What one should know of how the logs were read."""
    notes = []
    if logs.others:
        notes.append(f'{sum(logs.others.values())} lines were passed over, with other events: {others(logs)}')
    if history.front:
        who, line = next(iter(history.front.items()))
        notes.append(f'{line.place} tells of something that began before the log of {" ".join(who)}; where logs begin in the middle, say --middle')
    if history.unended:
        notes.append(f'{history.unended} of {len(history.incarnations)} incarnations hold something at their end, and no line says that they ended; '
                     'they are taken for alive (where the logs were cut at different moments, say --cut-ends)')
    if history.restarts:
        notes.append(f'{history.restarts} entities were started again where they lived, and are taken for stopped before')
    if history.choices.middle:
        count = sum(base > 0 for base in history.base.values())
        notes.append(f'{count} entities have records from before the logs, which are not judged')
    return notes


def quoted(fact: Fact) -> str:
    """A fact as a log tells it, with its place."""
    if fact.line:
        return f'{fact.line.place}: {json.dumps({key: value for key, value in fact.it.items() if key != "time"})[:200]}'
    who = ' '.join(fact.track.who) if fact.track.who else 'a journal'
    what = {'gone': 'its end', 'granted': 'it holds', 'freed': 'it gives back', 'start': 'it starts'}.get(fact.kind, fact.kind)
    return f'(of {who}) {what}' + (f' {" ".join(fact.of) if isinstance(fact.of, tuple) else fact.of}' if fact.kind != 'gone' else '')


def cycle_text(cycle: List[Step]) -> List[str]:
    lines = []
    for fact, why, since in cycle:
        lines += [f'  {quoted(fact)}', f'    before the next: {why}']
        lines += [f'      this: {quoted(since[0])}', f'      before: {quoted(since[1])}'] if since else []
    return lines + [f'  {quoted(cycle[0].fact)}', '    which is the first again']


def violation(it: NoOrder) -> List[str]:
    lines = ['unsafe: no order of these lines is safe, since each must come before the next']
    for number, cycle in enumerate(it.cycles):
        lines += (['and with the slots taken the other way round'] if number else []) + cycle_text(cycle)
    return lines


def store(folder: str, outputs: List[Output]) -> None:
    os.makedirs(folder, exist_ok=True)
    width = len(str(len(outputs)))
    for number, it in enumerate(outputs, 1):
        path = os.path.join(folder, f'part-{number:0{width}}')
        with open(path + '.in', 'w', encoding='ascii', newline='') as file:
            file.write(it.text)
        with open(path + '.map', 'w', encoding='ascii') as file:
            json.dump(it.map, file)


def read(paths: Sequence[str]) -> Logs:
    logs = Logs()
    for path in paths:
        try:
            if path == '-':
                logs.read('standard input', sys.stdin)
            else:
                with open(path, encoding='utf-8', errors='surrogateescape') as file:
                    logs.read(path, file)
        except OSError as why:
            raise NoLog(f'{path}: {why.strerror}') from None
    return logs


def fail(status: int, why: object) -> NoReturn:
    print(f'export.py: {why}', file=sys.stderr)
    sys.exit(status)


def main() -> None:
    words = words_of(sys.argv[1:])
    gc.disable()        # (millions of objects, all of which stay: looking for garbage takes a fifth of the time)
    try:
        logs = read(words.logs)
        history, outputs = exported(logs, Choices(words.middle, words.cut_ends, words.shards), words.kind)
    except NoLog as why:
        fail(3, why)
    except NoOrder as found:
        print('\n'.join(violation(found)))
        sys.exit(1)
    except Undecided as why:
        fail(4, why)
    for note in notes_of(logs, history):
        print(f'export.py: {note}', file=sys.stderr)
    if words.out is not None:
        store(words.out, outputs)
        print(f'{len(logs.lines)} events of {len(history.incarnations)} incarnations in {len(outputs)} input{"s" * (len(outputs) != 1)}: {words.out}/part-*.in')
    elif len(outputs) > 1:
        fail(2, f'{len(outputs)} inputs are needed: say --out FOLDER')
    else:
        sys.stdout.write(outputs[0].text)


if __name__ == '__main__':
    run(main)
