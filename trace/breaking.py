"""Breaks a safe trace in one place: each way with the candidates that it has in a trace."""
from __future__ import annotations

import random
import re
from typing import Callable, Dict, Iterator, List, NamedTuple, Tuple

from explaining import Input

LOUD = ('granted', 'freed', 'registered', 'terminated', 'allocated', 'deallocated', 'wrote', 'snapshot', 'remembered', 'forgotten',
        'queued', 'confirmed', 'start', 'active', 'stop', 'writefailed', 'gone')


class Broken(NamedTuple):
    """A trace with one thing changed, and what was done to it."""
    lines: List[str]
    what: str


def places(lines: List[str], *kinds: str) -> List[int]:
    return [at for at, line in enumerate(lines) if line.split(' ')[0] in (kinds or LOUD)]


def without(lines: List[str], at: int) -> List[str]:
    return lines[:at] + lines[at + 1:]


def drop(it: Input) -> Iterator[Broken]:
    """a line is left out"""
    for at in places(it.trace):
        yield Broken(without(it.trace, at), f'left out: line {at + 1}, {it.trace[at]}')


def swap(it: Input) -> Iterator[Broken]:
    """a line changes places with the next one that counts"""
    loud = places(it.trace)
    for first, second in zip(loud, loud[1:]):
        lines = list(it.trace)
        lines[first], lines[second] = lines[second], lines[first]
        yield Broken(lines, f'changed places: lines {first + 1} and {second + 1}')


def double_writer(it: Input) -> Iterator[Broken]:
    """a second node starts an entity that is live"""
    for at in places(it.trace, 'start'):
        _, x, entity = it.trace[at].split(' ')
        node = int(x.split('.')[0])
        other = f'{node + 1 if node == 1 else 1}.1'
        yield Broken(it.trace[:at + 1] + [f'start {other} {entity}'] + it.trace[at + 1:], f'put in behind line {at + 1}: {other} starts {entity} too')


def lost_record(it: Input) -> Iterator[Broken]:
    """a record is lost"""
    for at in places(it.trace, 'wrote'):
        yield Broken(without(it.trace, at), f'lost: line {at + 1}, {it.trace[at]}')


def repeated_record(it: Input) -> Iterator[Broken]:
    """a command is recorded a second time, under the next number"""
    for at in places(it.trace, 'wrote'):
        words = it.trace[at].split(' ')
        words[2] = str(int(words[2]) + 1)
        yield Broken(it.trace[:at + 1] + [' '.join(words)] + it.trace[at + 1:], f'put in behind line {at + 1}: its command is recorded again')


def early_confirmation(it: Input) -> Iterator[Broken]:
    """a command is confirmed before it is recorded"""
    for at in places(it.trace, 'confirmed'):
        _, producer, entity, number = it.trace[at].split(' ')
        record = next((to for to in range(at) if re.match(rf'wrote {re.escape(entity)} .* by {producer}:{number} ', it.trace[to])), None)
        if record is not None:
            lines = without(it.trace, at)
            lines.insert(record, it.trace[at])
            yield Broken(lines, f'moved: line {at + 1}, {it.trace[at]}, in front of its record in line {record + 1}')


def swapped_epoch(it: Input) -> Iterator[Broken]:
    """two grants of a slot have each other's epochs"""
    grants = places(it.trace, 'granted')
    for first in grants:
        second = next((at for at in grants if at > first and it.trace[at].split(' ')[1] == it.trace[first].split(' ')[1]), None)
        if second is not None:
            lines = list(it.trace)
            ones, others = lines[first].split(' '), lines[second].split(' ')
            ones[2], others[2] = others[2], ones[2]
            lines[first], lines[second] = ' '.join(ones), ' '.join(others)
            yield Broken(lines, f'swapped: the epochs of lines {first + 1} and {second + 1}')


def stale_epoch(it: Input) -> Iterator[Broken]:
    """a record comes under the epoch before"""
    for at in places(it.trace, 'wrote'):
        line = re.sub(r' epoch (\d+) ', lambda found: f' epoch {int(found[1]) - 1} ', it.trace[at], count=1)
        yield Broken(it.trace[:at] + [line] + it.trace[at + 1:], f'changed: line {at + 1} has the epoch before')


def two_holders(it: Input) -> Iterator[Broken]:
    """a lease is granted that was not given back"""
    for at in places(it.trace, 'freed'):
        slot = it.trace[at].split(' ')[1]
        if any(it.trace[to].startswith(f'granted {slot} ') for to in range(at, len(it.trace))):
            yield Broken(without(it.trace, at), f'left out: line {at + 1}, {it.trace[at]}')


def lost_state(it: Input) -> Iterator[Broken]:
    """an entity recovers with one record fewer"""
    for at in places(it.trace, 'active'):
        words = it.trace[at].split(' ')
        if words[3] != '0':
            words[3] = str(int(words[3]) - 1)
            yield Broken(it.trace[:at] + [' '.join(words)] + it.trace[at + 1:], f'changed: line {at + 1} has read one record fewer')


WAYS: Dict[str, Callable[[Input], Iterator[Broken]]] = {
    'drop': drop, 'swap': swap, 'double-writer': double_writer, 'lost-record': lost_record, 'repeated-record': repeated_record,
    'early-confirmation': early_confirmation, 'swapped-epoch': swapped_epoch, 'stale-epoch': stale_epoch, 'two-holders': two_holders, 'lost-state': lost_state,
}


def candidates(it: Input, way: str, seed: int, most: int) -> List[Broken]:
    """Some of a way's candidates in a trace, in an order that the seed draws."""
    found = list(WAYS[way](it))
    random.Random(seed).shuffle(found)
    return found[:most]


# ---- The rules, by the sentence that each is told by

RULES: List[Tuple[str, str, str]] = [
    ('two live incarnations', 'one_live', 'an entity is live at one incarnation at most'),
    ("live without its shard's lease", 'one_live', 'where an entity is live, its shard is held'),
    ("a state that isn't its journal's", 'shows', 'an entity that has recovered has the records and the state of its journal'),
    ("of an entity that isn't live", 'shows', 'a record is written where its entity is live'),
    ('a record of another epoch', 'shows', 'a record has the epoch of its shard\'s lease'),
    ("a record that isn't decided so", 'shows', 'a record has the events and the reply that its behaviour decides'),
    ('granted while it is held', 'lawful', 'a slot is granted only while nobody holds it'),
    ("an epoch that isn't the next", 'lawful', 'the epochs of a slot rise by one'),
    ("an epoch that isn't the grant's", 'lawful', 'a slot is given back under the epoch of its grant'),
    ('while an entity of its shard is live', 'one_live', 'a lease is given back when no entity of its shard is live'),
    ('that nobody holds', 'lawful', 'whoever writes to a slot holds it'),
    ("a record that isn't the next", 'lawful', 'the records of a journal count from 1'),
    ("of its producer's next command", 'lawful', "a producer's commands are recorded once, and in their order"),
    ("doesn't rise", 'lawful', 'confirmed numbers rise, and are of what was queued'),
    ("a confirmation of what isn't recorded", 'lawful', 'what is confirmed is recorded'),
    ('a queue entry out of order', 'lawful', "a queue has its producer's commands in their order"),
    ('a snapshot', 'lawful', 'a snapshot is of all records so far'),
    ('', 'lawful', "each entry of a slot's list may follow those before it"),
]


def rule(sentence: str) -> str:
    """The rule that a sentence tells of, with the definition that says it."""
    words, name = next((told, name) for part, name, told in RULES if part in sentence)
    home = 'Lawful.antt' if name == 'lawful' else 'Safe.antt'
    return f'{words} (crates/yard_model/specs/{home}: {name})'


__all__ = ['Broken', 'WAYS', 'candidates', 'rule']
