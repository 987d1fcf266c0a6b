#!/usr/bin/env python3
"""Breaks a safe trace in one place, and shows which rule ends it.

    (cat SCRIPT; echo trace; ./run.sh replay < SCRIPT) > INPUT
    trace/break.py --double-writer INPUT

The input is one that the judge calls safe. Each way has its places in a trace; one is drawn, and where the trace stays safe
with it (to leave out a line needn't break it), the next one is tried.

Status 1: it is broken, and the answer is explained as `trace/explain.py` does. 0: it stays safe wherever this was tried, or
there is no place for it. 2: the words are wrong. 3: the input isn't a safe one. Needs Python 3.8 and nothing else.
"""
from __future__ import annotations

import argparse
import shlex
import sys
from typing import NoReturn

sys.dont_write_bytecode = True      # no __pycache__ beside these files

from breaking import WAYS, candidates, rule                                             # noqa: E402
from ending import run                                                                  # noqa: E402
from explain import Names, draw, explained, read                                        # noqa: E402
from explaining import Case, Input, NoAnswer, answer, judge_words, parts                # noqa: E402

MOST_TRIES = 20


def words_of() -> argparse.Namespace:
    parser = argparse.ArgumentParser(prog='break.py', description=__doc__, formatter_class=argparse.RawDescriptionHelpFormatter)
    ways = parser.add_mutually_exclusive_group(required=True)
    for name, way in WAYS.items():
        ways.add_argument(f'--{name}', dest='way', action='store_const', const=name, help=way.__doc__)
    parser.add_argument('input', nargs='?', default='-', metavar='INPUT', help='without it, standard input')
    parser.add_argument('--seed', type=int, default=1, metavar='NUMBER', help='draws the place; without it 1')
    parser.add_argument('--out', metavar='FILE', help='where the broken input goes')
    parser.add_argument('--picture', metavar='FILE', help='where a picture of it goes')
    parser.add_argument('--judge', metavar='PROGRAM', help='the judge that is asked')
    return parser.parse_args()


def fail(why: object) -> NoReturn:
    print(f'break.py: {why}', file=sys.stderr)
    sys.exit(3)


def text_of(it: Input) -> str:
    return '\n'.join([*it.script, 'trace', *it.trace, ''])


def main() -> None:
    words = words_of()
    judge = shlex.split(words.judge) if words.judge else judge_words()
    try:
        source = parts(read(words.input))
        said = answer(text_of(source), judge)
        if said.status:
            fail(f'the input is not safe as it is: {said.text}')
        tried = candidates(source, words.way, words.seed, MOST_TRIES)
        for it in tried:
            broken = text_of(Input(source.script, it.lines))
            said = answer(broken, judge)
            if said.status == 1:
                break
        else:
            print(f'still safe: {len(tried)} places were tried' if tried else 'there is no place for it in this trace')
            return
    except NoAnswer as why:
        fail(why)
    except OSError as why:
        fail(f'{words.input}: {why.strerror}')
    case = Case(broken, said)
    print(it.what)
    print('\n'.join(explained(case, Names({}), 8)))
    print(f'the rule: {rule(said.sentence)}')
    if words.picture:
        print(draw(case, 16, words.picture))
    if words.out:
        with open(words.out, 'w', encoding='latin-1', newline='') as file:
            file.write(broken)
    sys.exit(1)


if __name__ == '__main__':
    run(main)
