#!/usr/bin/env python3
"""Makes one HTML page of a trace, to look at it line by line: what happened, and what stood then.

    ./run.sh replay < SCRIPT | trace/explore.py --script SCRIPT > PAGE.html
    ./run.sh live 2000 7 < SCRIPT | trace/explore.py --script SCRIPT > PAGE.html
    trace/explore.py --script SCRIPT < sharder.log > PAGE.html

Standard input is a trace as `replay` or `pull` prints it, the lists that `live` or `resume` print, or the file of `log`,
as far as these tell. A script may also stand before the trace, as for draw.py. The page needs no network and no other file.

    --script FILE     the script beside the trace: orders are shown with their text
    --title TEXT      the page's title; the script's name without it
    --lines FROM TO   these lines alone are listed; what stood before them is known

Where the script is there, `judge` is asked; the page marks the line that ends the trace's safety, and tells why.
At most MOST_LINES lines are listed; what is left out is said in the page and on standard error. Status 0; 1 where the
input isn't a trace or FILE can't be read, with a line on standard error; 2 where the words are wrong.

How it is made: `sources.py` (bytes to facts), `state.py` (what stands after each), `parts.py` (the parts of facts by
name, and sentences), `explaining.py` (what the judge says), and the page's own files in `page/`, put into one. Only Python's standard library, 3.8 or later.
"""
from __future__ import annotations

import argparse
import json
import os
import sys
from concurrent.futures import ThreadPoolExecutor
from typing import Callable, Dict, List, NoReturn, Optional, Sequence, Tuple

sys.dont_write_bytecode = True      # no __pycache__ beside these files

from actors import is_pulled                                            # noqa: E402
from draw import line_number                                            # noqa: E402
from ending import run                                                  # noqa: E402
from explaining import Case, NoAnswer, answer, judge_words              # noqa: E402
from facts import NoTrace, Trace                                        # noqa: E402
from parts import FACT_PATTERNS, FACTS, ORDER_PATTERNS, ORDERS, PACKET_PATTERNS, PACKETS, SAID       # noqa: E402
from sources import Source, read_source                                 # noqa: E402
from state import Histories, State, setting                             # noqa: E402

HERE = os.path.dirname(os.path.realpath(__file__))
MOST_LINES = 400_000
PARTS_OF = {'trace': 'order', 'lists': 'list', 'log': 'batch'}          # what the headings of a source are
SCRIPTS = ('data.js', 'panes.js', 'diagram.js', 'page.js')


def table_of(source: Source, state: State, title: str, window: Tuple[int, int], case: Optional[Case]) -> Dict[str, object]:
    """What the page is given; rows count from the first one that is listed."""
    first, last = window
    facts = source.trace.facts[first:last + 1]
    numbers = [fact.line for fact in facts]
    lost = {delivery.row - first: delivery.lost for packet in state.actors.posted for delivery in packet.deliveries
            if delivery.lost and first <= delivery.row <= last}
    headings = [(max(row - first, 0), text) for row, text in source.headings if row <= last]
    headings = [heading for n, heading in enumerate(headings) if n + 1 == len(headings) or headings[n + 1][0] > heading[0]]
    return {
        'title': title, 'part': PARTS_OF[source.what], 'hasScript': bool(source.trace.orders), 'isPull': state.is_pull,
        'lines': '\n'.join(fact.text for fact in facts),
        'numbers': None if numbers == list(range(1, len(numbers) + 1)) else numbers,
        'nodes': state.nodes[first:last + 1], 'lost': lost, 'headings': headings, 'breaks': breaks_of(case),
        'histories': shifted(state.histories, first, last),
        'facts': {kind: [[browser_source(it.pattern) for it in FACT_PATTERNS[kind]], says] for kind, (_, says) in FACTS.items()},
        'orders': {kind: [browser_source(ORDER_PATTERNS[kind].pattern), says] for kind, (_, says) in ORDERS.items()}, 'said': SAID,
        'packets': {kind: [browser_source(PACKET_PATTERNS[kind].pattern), says, family] for kind, (_, says, family) in PACKETS.items()},
    }


def case_of(source: Source) -> Optional[Case]:
    """What the judge says of a trace with its script, where it says whether it is safe."""
    trace = source.trace
    if source.what != 'trace' or not trace.orders or is_pulled(trace.facts):
        return None
    text = input_of(trace)
    try:
        said = answer(text, judge_words())
    except NoAnswer:
        return None
    return Case(text, said) if said.status in (0, 1) else None


def input_of(trace: Trace) -> str:
    """A trace and its script as the judge reads them: each line has its number, and remarks say nothing."""
    lines = ['#'] * trace.facts[-1].line
    for fact in trace.facts:
        lines[fact.line - 1] = fact.text
    return '\n'.join([*trace.orders.values(), 'trace', *lines, ''])


def breaks_of(case: Optional[Case]) -> Optional[Dict[str, object]]:
    """The line that ends the trace's safety, why, and what stands against it: lines with a text each."""
    if case is None or not case.number:
        return None
    return {'line': case.number, 'says': case.answer.sentence, 'against': [[it.line, it.text] for it in case.against]}


def browser_source(pattern: str) -> str:
    """A regular expression as a browser writes it."""
    return pattern.replace('(?P<', '(?<')


def shifted(histories: Histories, first: int, last: int) -> Histories:
    """The histories as seen from a first row to a last: what was before stands from the first on."""
    if first == 0:
        return histories
    return {of: {item: {moved(word, first): cut_before(history, first, last) for word, history in words.items()} for item, words in items.items()}
            for of, items in histories.items()}


def moved(word: str, first: int) -> str:
    """The word of a message that is kept or stashed has its row."""
    name, _, row = word.partition('.')
    return f'{name}.{int(row) - first}' if name in ('kept', 'stash') else word


def cut_before(history: List[object], first: int, last: int) -> List[object]:
    found: List[object] = []
    for row, value in zip(history[::2], history[1::2]):
        if row < first:
            found = [-1, value]
        elif row <= last:
            found += [row - first, value]
    return found


def about(source: Source, state: State, left_out: str, case: Optional[Case]) -> str:
    """The line below the title."""
    said = [f'{len(source.trace.facts):,} lines']
    if source.headings:
        plural = {'order': 'orders', 'list': 'lists', 'batch': 'batches'}[PARTS_OF[source.what]]
        said.append(f'{len(source.headings):,} {plural}')
    nodes = len(state.histories['node'])
    if nodes:
        said.append(f'{nodes} node{"s" if nodes > 1 else ""}')
    if state.shards is not None and not state.is_pull:
        said.append(f'{state.shards} shard{"s" if state.shards > 1 else ""}' + ('' if source.trace.orders else ', as far as can be told'))
    if source.trace.orders:
        said.append(f'kind {setting(source.trace, "kind", "counter")}')
    if case is not None and not case.number:
        said.append('judged safe')
    return ' · '.join(said) + (f' · {left_out}' if left_out else '')


def window_of(source: Source, lines: Optional[Sequence[int]]) -> Tuple[Tuple[int, int], str]:
    """The first and last row that are listed, and what is left out, in words."""
    facts = source.trace.facts
    rows = [row for row, fact in enumerate(facts) if lines is None or lines[0] <= fact.line <= lines[1]]
    if not rows:
        fail(2, f'no fact is in these lines; the last one is line {facts[-1].line}')
    first, last = rows[0], min(rows[-1], rows[0] + MOST_LINES - 1)
    missing = len(facts) - (last - first + 1)
    return (first, last), f'left out: {missing:,} of {len(facts):,} lines' if missing else ''


def text_of(name: str) -> str:
    with open(os.path.join(HERE, 'page', name), encoding='utf-8') as file:
        return file.read()


def page_of(source: Source, title: str, lines: Optional[Sequence[int]] = None, ask: Callable[[], Optional[Case]] = lambda: None) -> Tuple[str, str]:
    """The page, and what it leaves out; the judge's answer is asked for when the states are there."""
    state = State(source.trace)
    window, left_out = window_of(source, lines)
    case = ask()
    data = json.dumps(table_of(source, state, title, window, case), separators=(',', ':')).replace('<', '\\u003c')
    pieces = {
        '/*STYLE*/': text_of('page.css'), '<!--TITLE-->': in_html(title), '<!--ABOUT-->': in_html(about(source, state, left_out, case)),
        '<!--PART-->': PARTS_OF[source.what], '/*SCRIPT*/': "'use strict';\n" + '\n'.join(map(text_of, SCRIPTS)), '<!--DATA-->': data,
    }
    page = text_of('page.html')
    for mark, text in pieces.items():
        page = page.replace(mark, text)
    return page, left_out


def in_html(text: str) -> str:
    return text.replace('&', '&amp;').replace('<', '&lt;').replace('>', '&gt;')


def fail(status: int, why: object) -> NoReturn:
    print(f'explore.py: {why}', file=sys.stderr)
    sys.exit(status)


def words_of(arguments: Sequence[str]) -> argparse.Namespace:
    parser = argparse.ArgumentParser(prog='explore.py', description=__doc__, formatter_class=argparse.RawDescriptionHelpFormatter)
    parser.add_argument('--script', metavar='FILE', help='the script beside the trace')
    parser.add_argument('--title', metavar='TEXT', help="the page's title")
    parser.add_argument('--lines', nargs=2, type=line_number, metavar=('FROM', 'TO'), help='list these lines alone')
    return parser.parse_args(arguments)


def main() -> None:
    words = words_of(sys.argv[1:])
    script, title = b'', words.title or 'A trace'
    if words.script:
        try:
            with open(words.script, 'rb') as file:
                script = file.read()
        except OSError as why:
            fail(1, f'{words.script}: {why.strerror}')
        title = words.title or f'A trace of {os.path.basename(words.script)}'
    try:
        source = read_source(sys.stdin.buffer.read(), script)
        with ThreadPoolExecutor(1) as pool:         # (the judge is a program of its own, and works beside this one)
            page, left_out = page_of(source, title, words.lines, pool.submit(case_of, source).result)
    except NoTrace as why:
        fail(1, why)
    sys.stdout.buffer.write(page.encode('utf-8'))
    sys.stdout.flush()
    if left_out:
        print(f'explore.py: {left_out}', file=sys.stderr)


if __name__ == '__main__':
    run(main)
