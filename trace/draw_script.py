#!/usr/bin/env python3
"""Prints a script for `sharder`: the one that `bulk N` plays, or a random one.

    trace/draw_script.py bulk 3 > bulk_3.txt
    trace/draw_script.py random 17 --orders 200 --nodes 4 | ./run.sh replay

A seed gives the same script each time. `replay` takes every script that is printed; `log` and `resume` do too.
Needs Python 3.8 and nothing else.
"""
from __future__ import annotations

import argparse
import sys

sys.dont_write_bytecode = True      # no __pycache__ beside these files

from ending import run                                      # noqa: E402
from scripts import Shape, bulk_script, random_script       # noqa: E402

MOST = {'orders': 19_000, 'nodes': 16, 'shards': 128, 'producers': 32, 'names': 1000}


def in_range(low: int, high: int):
    def number(word: str) -> int:
        if not (word.isdecimal() and low <= int(word) <= high):
            raise argparse.ArgumentTypeError(f'not a number from {low} to {high}: {word!r}')
        return int(word)
    return number


def main() -> None:
    parser = argparse.ArgumentParser(prog='draw_script.py', description=__doc__, formatter_class=argparse.RawDescriptionHelpFormatter)
    forms = parser.add_subparsers(dest='form', required=True, metavar='bulk|random')
    bulk = forms.add_parser('bulk', help='the script that `sharder bulk NUMBER` plays')
    bulk.add_argument('number', type=in_range(1, 1000), metavar='NUMBER', help='1 to 1,000')
    drawn = forms.add_parser('random', help='a random script')
    drawn.add_argument('seed', type=in_range(0, 2**64), metavar='SEED')
    for key, most in MOST.items():
        usual = Shape._field_defaults[key]
        drawn.add_argument(f'--{key}', type=in_range(1, most), default=usual, metavar='NUMBER', help=f'1 to {most:,}; without it {usual}')
    drawn.add_argument('--kind', choices=('counter', 'account', 'cart'), default='counter', help='what every entity is')
    words = parser.parse_args()
    if words.form == 'bulk':
        lines = bulk_script(words.number)
    else:
        lines = random_script(words.seed, Shape(**{key: getattr(words, key) for key in (*MOST, 'kind')}))
    print('\n'.join(lines))


if __name__ == '__main__':
    run(main)
