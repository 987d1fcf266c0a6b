#!/usr/bin/env python3
"""Draws a trace as an SVG sequence diagram.

    ./run.sh replay < SCRIPT | trace/draw.py > PICTURE.svg
    (cat SCRIPT; echo trace; ./run.sh replay < SCRIPT) | trace/draw.py > PICTURE.svg

Standard input is a trace, as `sharder replay` prints it (with its report or without), or a script, a line
`trace` and the trace; then each order is shown with its text. Lines that begin with `#` are passed over.

    --lines FROM TO   draw these lines of the trace alone; they count from 1, behind the line `trace`
    --orders FROM TO  draw what came of the orders in these lines of the script alone
    --entity E        draw what is about this entity; what else is there is folded
    --shard S         draw what is about this shard and its entities; what else is there is folded
    --fold            fold what is quiet: views, homes, acks
    --mark LINE       put a mark on this line

What one sees: a lane is a node, a row a fact. A dashed line is an order. An arrow is a packet, from its
`sent K` to each `got K`: while it is on the wire it stands upright between the lanes. A cross at its end says
that it is lost: nobody gets it, or its addressee is gone. A shaded box is an incarnation; a red line below it,
with a cross, its crash. Bars in it are leases, with their epochs, and live entities, pale until they have read
their journal. Each text and arrow has the whole of what it stands for in its tooltip.

A row of dots stands for lines that are folded, with their count. A picture has at most a thousand rows.
What is left out is said in the picture and on standard error. Status 0; 1 where the input isn't a trace, with
one line on standard error that names the first line that is no fact; 2 where the words are wrong.

How it is made, in this order: `facts.py` (lines to facts), `story.py` (facts to rows, packets and what lasts),
`choosing.py` (which rows, and folds), `layout.py` (lanes, columns and tracks), `painting.py` (SVG). Only Python's standard library, 3.8 or later. The
same input gives the same bytes; `check.sh` draws the pictures of docs/pictures again and compares.
"""
from __future__ import annotations

import argparse
import re
import sys
from typing import List, NoReturn, Optional, Sequence, Tuple

sys.dont_write_bytecode = True      # no __pycache__ beside these files

from choosing import Choice, WrongWords         # noqa: E402
from ending import run                          # noqa: E402
from facts import NoTrace, read                 # noqa: E402
from layout import lay_out                      # noqa: E402
from painting import Painter                    # noqa: E402
from story import Story                         # noqa: E402


def line_number(word: str) -> int:
    if not re.fullmatch(r'[0-9]{1,18}', word) or int(word) == 0:
        raise argparse.ArgumentTypeError(f'not the number of a line: {word!r}')
    return int(word)


def shard_number(word: str) -> int:
    if not re.fullmatch(r'[0-9]{1,18}', word):
        raise argparse.ArgumentTypeError(f'not the number of a shard: {word!r}')
    return int(word)


def words_of(arguments: Sequence[str]) -> argparse.Namespace:
    parser = argparse.ArgumentParser(prog='draw.py', description=__doc__, formatter_class=argparse.RawDescriptionHelpFormatter)
    parser.add_argument('--lines', nargs=2, type=line_number, metavar=('FROM', 'TO'), help='draw these lines of the trace alone')
    parser.add_argument('--orders', nargs=2, type=line_number, metavar=('FROM', 'TO'), help='draw the orders in these lines of the script alone')
    parser.add_argument('--entity', metavar='E', help='draw what is about this entity, and fold the rest')
    parser.add_argument('--shard', type=shard_number, metavar='S', help='draw what is about this shard, and fold the rest')
    parser.add_argument('--fold', action='store_true', help='fold what is quiet')
    parser.add_argument('--mark', type=line_number, metavar='LINE', help='put a mark on this line')
    return parser.parse_args(arguments)


def picture(data: bytes, lines: Optional[Sequence[int]] = None, mark: Optional[int] = None, choice: Optional[Choice] = None) -> Tuple[str, List[str]]:
    """The picture of the trace that these bytes spell, and what it leaves out."""
    choice = choice or Choice(lines)
    trace = read(data)
    story = Story(trace)
    layout = lay_out(story, trace, choice)
    return Painter(layout, story, trace, mark).svg(), layout.left_out


def fail(status: int, why: object) -> NoReturn:
    print(f'draw.py: {why}', file=sys.stderr)
    sys.exit(status)


def main() -> None:
    words = words_of(sys.argv[1:])
    try:
        choice = Choice(words.lines, words.orders, words.entity, words.shard, words.fold)
        drawn, left_out = picture(sys.stdin.buffer.read(), mark=words.mark, choice=choice)
    except NoTrace as why:
        fail(1, why)
    except WrongWords as why:
        fail(2, why)
    sys.stdout.buffer.write(drawn.encode('utf-8'))
    sys.stdout.flush()
    if left_out:
        print('draw.py: left out: ' + '; '.join(left_out), file=sys.stderr)


if __name__ == '__main__':
    run(main)
