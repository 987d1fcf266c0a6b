#!/usr/bin/env python3
"""Says where two traces part: trace/trace_diff.py ONE OTHER

Numbers of packets don't count: a packet is the same where its ends and its words are, so traces that post something more or
less are compared by what they do. The first order with another fact is told, with its facts in both; lines of the one alone
begin with `-`, of the other with `+`. Nothing is said of later orders. Each file is a trace, with a script before it or without.

Status 0 where they are the same; 1 where they part; 2 where a file isn't a trace, or can't be read, with a line on standard error.
"""
from __future__ import annotations

import argparse
import difflib
import sys
from typing import Dict, List, NoReturn, Sequence, Tuple

sys.dont_write_bytecode = True      # no __pycache__ beside these files

from ending import run                          # noqa: E402
from facts import Fact, NoTrace, Trace, read    # noqa: E402

Order = Tuple[str, List[Tuple[str, Fact]]]      # its words, and its facts: without numbers of packets, and as they are


def orders_in(trace: Trace) -> List[Order]:
    """The facts by order; those before the first order by themselves."""
    found: List[Order] = [('before any order', [])]
    packets: Dict[str, str] = {}                # the words of each packet
    for fact in trace.facts:
        words = fact.words
        if fact.kind == 'at':
            found.append((f'line {words[1]} of the script: {trace.orders.get(int(words[1]), "").strip()}'.rstrip(': '), []))
        plain = fact.text
        if fact.kind == 'sent':
            packets[words[1]] = ' '.join(words[2:])
            plain = f'sent {packets[words[1]]}'
        elif fact.kind == 'got':
            plain = f'got {packets.get(words[1], words[1])}'
        found[-1][1].append((plain, fact))
    return found


def parting(one: Trace, other: Trace) -> List[str]:
    """What is said of the first order in which they part; nothing where they are the same."""
    ones, others = orders_in(one), orders_in(other)
    for (order, facts), (their_order, their_facts) in zip(ones, others):
        if [plain for plain, _ in facts] != [plain for plain, _ in their_facts]:
            return [f'they part at {order if order == their_order or not their_order else f"{order} / {their_order}"}', *told(facts, their_facts)]
    if len(ones) != len(others):
        longer, whose = (ones, 'the first') if len(ones) > len(others) else (others, 'the second')
        order, facts = longer[min(len(ones), len(others))]
        return [f'{whose} alone has {order}', *(('- ' if longer is ones else '+ ') + fact.text for _, fact in facts)]
    return []


def told(facts: Sequence[Tuple[str, Fact]], others: Sequence[Tuple[str, Fact]]) -> List[str]:
    matcher = difflib.SequenceMatcher(None, [plain for plain, _ in facts], [plain for plain, _ in others], autojunk=False)
    found: List[str] = []
    for what, start, end, their_start, their_end in matcher.get_opcodes():
        if what == 'equal':
            found += [f'  {fact.text}' for _, fact in facts[start:end]]
        else:
            found += [f'- {fact.text}' for _, fact in facts[start:end]] + [f'+ {fact.text}' for _, fact in others[their_start:their_end]]
    return found


def trace_of(path: str) -> Trace:
    try:
        with open(path, 'rb') as file:
            return read(file.read())
    except OSError as why:
        fail(f'{path}: {why.strerror}')
    except NoTrace as why:
        fail(f'{path}: {why}')


def fail(why: str) -> NoReturn:
    print(f'trace_diff.py: {why}', file=sys.stderr)
    sys.exit(2)


def main() -> None:
    parser = argparse.ArgumentParser(prog='trace_diff.py', description=__doc__, formatter_class=argparse.RawDescriptionHelpFormatter)
    parser.add_argument('one')
    parser.add_argument('other')
    words = parser.parse_args()
    said = parting(trace_of(words.one), trace_of(words.other))
    print('\n'.join(said) if said else 'they are the same, but for numbers of packets')
    sys.exit(1 if said else 0)


if __name__ == '__main__':
    run(main)
