"""What a trace is read from: a trace as `replay` prints it, the lists of `live` or `resume`, or the image of a `log`."""
from __future__ import annotations

import re
from dataclasses import dataclass
from typing import List, Tuple

from facts import PARTS, NoTrace, Trace, orders_of, printable, read

SLOT_LINE = re.compile(f"slot ({PARTS['SLOT']}) {PARTS['N']}")
HEADING = re.compile('# (batch [0-9]+|list of .*)')


@dataclass
class Source:
    trace: Trace
    what: str                               # 'trace', 'lists' or 'log'
    headings: List[Tuple[int, str]]         # rows, counted from 0, at which a part begins: an order, a list, a batch


def read_source(data: bytes, script: bytes = b'') -> Source:
    """Of what these bytes are, beside this script, where there is one."""
    what = 'trace'
    if data[:1] in (b'\0', b'\1'):
        what, data = 'log', '\n'.join(lines_of_log(data)).encode('ascii')
    elif any(SLOT_LINE.fullmatch(line) for line in data.decode('ascii', 'replace').split('\n')):
        what, data = 'lists', '\n'.join(lines_of_lists(data.decode('ascii', 'backslashreplace').split('\n'))).encode('ascii')
    trace = read(data)
    if script:
        lines = script.decode('ascii', 'backslashreplace').split('\n')
        trace.orders, trace.comments = orders_of([line.rstrip('\r') for line in lines])
    return Source(trace, what, headings_of(trace, data, what))


def lines_of_lists(lines: List[str]) -> List[str]:
    """The lists without the reports, each below a heading."""
    found, is_report = [], False
    for line in lines:
        slot = SLOT_LINE.fullmatch(line)
        is_report = (is_report or line == 'report') and line != 'end'
        if slot:
            found.append(f'# list of {slot[1]}')
        elif line and line != 'end' and not is_report:
            found.append(line)
    return found


def lines_of_log(image: bytes) -> List[str]:
    """The batches of a log, each below a heading: an open gate, the length in four bytes, so much text, and so on to a closed gate."""
    found: List[str] = []
    place, batch = 0, 0
    while place < len(image) - 1 and image[place]:
        end = place + 5 + int.from_bytes(image[place + 1:place + 5], 'big')
        if end >= len(image):
            raise NoTrace(f'a log that is damaged at {place}: no whole batch stands there')
        batch += 1
        found += [f'# batch {batch}', *image[place + 5:end].decode('ascii', 'backslashreplace').rstrip('\n').split('\n')]
        place = end
    if not found:
        raise NoTrace('a log without a batch')
    return found


def headings_of(trace: Trace, data: bytes, what: str) -> List[Tuple[int, str]]:
    if what == 'trace':
        at = [(row, int(fact.words[1])) for row, fact in enumerate(trace.facts) if fact.kind == 'at']
        return [(row, trace.orders.get(line, f'line {line} of the script')) for row, line in at]
    found: List[Tuple[int, str]] = []
    rows = {fact.line: row for row, fact in enumerate(trace.facts)}
    for number, line in enumerate(data.decode('ascii', 'backslashreplace').split('\n'), 1):
        heading = HEADING.fullmatch(line)
        if heading and number + 1 in rows:
            found.append((rows[number + 1], printable(heading[1])))
    return found
