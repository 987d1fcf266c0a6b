#!/usr/bin/env python3
"""Judges inputs, and explains the answer: the line, what it collides with, the lines around it, and a picture.

    trace/explain.py INPUT ..             files as `judge` reads them: a script, a line `trace`, a trace
    trace/export.py .. | trace/explain.py

The judge is the proved program where it is built, else bench/judge.py. Where a file of the same name ends with .map, as
`trace/export.py --out` writes it, names and lines are told as the logs have them.

Status as the judge's: 0 all are safe, 1 one isn't, 3 one can't be read or isn't judged; 2 where the words are wrong.
"""
from __future__ import annotations

import argparse
import json
import os
import shlex
import subprocess
import sys
from typing import Any, Dict, List, Optional, Sequence

sys.dont_write_bytecode = True      # no __pycache__ beside these files

from ending import run                                                               # noqa: E402
from explaining import HERE, Answer, Case, NoAnswer, answer, judge_words, parts      # noqa: E402

MOST_SHOWN = 200        # characters of a line


def words_of(arguments: Sequence[str]) -> argparse.Namespace:
    parser = argparse.ArgumentParser(prog='explain.py', description=__doc__, formatter_class=argparse.RawDescriptionHelpFormatter)
    parser.add_argument('inputs', nargs='*', metavar='INPUT', help='without one, standard input')
    parser.add_argument('--judge', metavar='PROGRAM', help='the judge that is asked')
    parser.add_argument('--picture', metavar='FILE', help='where the picture goes; without it beside the first input that is not safe, as INPUT.svg')
    parser.add_argument('--lines', type=int, default=12, metavar='NUMBER', help='how many lines before it are shown; without it 12')
    return parser.parse_args(arguments)


class Names:
    """What a map tells of an input: where its lines come from, and what its names stand for."""

    def __init__(self, told: Dict[str, Any]) -> None:
        self.told = told

    def place(self, number: int) -> str:
        lines = self.told.get('lines', [])
        it = lines[number - 1] if 0 < number <= len(lines) else None
        return f'   [{self.told["files"][it[0]]} line {it[1]}]' if it else ''

    def note(self, number: int) -> str:
        return self.told.get('notes', {}).get(str(number), '')

    def legend(self, lines: Sequence[str]) -> List[str]:
        """What the names in these lines stand for, where they stand for others."""
        words = {word for line in lines for word in line.replace(':', ' ').split(' ')}
        found = [f'{name} is {told}' for kind in ('entities', 'incarnations') for name, told in self.told.get(kind, {}).items() if name in words and name != told]
        slots = {word for line in lines for word in line.split(' ') if ':' in word}
        found += [f'shard:{number} is shard {told}' for number, told in self.told.get('shards', {}).items() if f'shard:{number}' in slots and number != told]
        return found + [f'queue:{number} is that of {told}' for number, told in self.told.get('producers', {}).items() if f'queue:{number}' in slots]


def cut(line: str) -> str:
    return line if len(line) <= MOST_SHOWN else line[:MOST_SHOWN - 3] + '...'


def explained(case: Case, names: Names, before: int) -> List[str]:
    """The lines that explain an answer."""
    lines = case.input.trace
    told = [case.answer.text, f'  {cut(case.line)}{names.place(case.number)}']
    note = names.note(case.number)
    told += [f'  {note}'] if note else []
    for it in case.against:
        told.append(f'  line {it.line}: {cut(lines[it.line - 1])}{names.place(it.line)}' if it.line else '')
        told.append(f'    {it.text}')
    numbers = case.related(before, 3)
    told.append('the lines of ' + ' and '.join(dict.fromkeys(it for it in (case.entity, case.slot) if it)) + ' around it' if case.slot else 'the line')
    width = len(str(numbers[-1]))
    told += [f'{">" if at == case.number else " "} {at:{width}}  {cut(lines[at - 1])}{names.place(at)}' for at in numbers]
    legend = names.legend([lines[at - 1] for at in numbers])
    return [it for it in told if it] + [f'  {it}' for it in legend]


def draw(case: Case, before: int, path: str) -> str:
    """Draws the lines around, and says where the picture is, or why there is none."""
    source, mark = case.reduced(before, 3)
    ran = subprocess.run([sys.executable, os.path.join(HERE, 'draw.py'), '--mark', str(mark)], input=source.encode('latin-1'), capture_output=True, check=False)
    if ran.returncode:
        return f'no picture: {ran.stderr.decode("latin-1").strip()}'
    with open(path, 'wb') as file:
        file.write(ran.stdout)
    return f'picture: {path}'


def map_of(path: str) -> Names:
    beside = os.path.splitext(path)[0] + '.map'
    if path == '-' or not os.path.exists(beside):
        return Names({})
    with open(beside, encoding='utf-8') as file:
        return Names(json.load(file))


def read(path: str) -> str:
    if path == '-':
        return sys.stdin.buffer.read().decode('latin-1')
    with open(path, encoding='latin-1', newline='') as file:
        return file.read()


def judged(path: str, judge: Sequence[str], before: int, picture: Optional[str]) -> int:
    """Judges an input and tells; the status."""
    source = read(path)
    parts(source)
    said: Answer = answer(source, judge)
    head = '' if path == '-' else f'{path}: '
    if said.line is None:
        print(head + said.text)
        return said.status
    case = Case(source, said)
    first, *rest = explained(case, map_of(path), before)
    print(head + first)
    print('\n'.join(rest))
    if said.status == 1:
        print(draw(case, 2 * before, picture or ('trace.svg' if path == '-' else os.path.splitext(path)[0] + '.svg')))
    return said.status


def main() -> None:
    words = words_of(sys.argv[1:])
    judge = shlex.split(words.judge) if words.judge else judge_words()
    worst = 0
    for path in words.inputs or ['-']:
        try:
            status = judged(path, judge, words.lines, words.picture)
        except NoAnswer as why:
            print(f'explain.py: {path}: {why}', file=sys.stderr)
            status = 3
        except BrokenPipeError:
            raise
        except OSError as why:
            print(f'explain.py: {path}: {why.strerror}', file=sys.stderr)
            status = 3
        worst = max(worst, status)
    sys.exit(worst)


if __name__ == '__main__':
    run(main)
