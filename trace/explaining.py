"""What `judge` says of an input, and what of the trace it is about."""
from __future__ import annotations

import os
import re
import subprocess
import sys
from typing import Callable, Dict, List, NamedTuple, Optional, Sequence, Set, Tuple

from exporting.naming import shard_number

HERE = os.path.dirname(os.path.abspath(__file__))
TOP = os.path.dirname(HERE)
SECONDS = 600


class NoAnswer(Exception):
    """The judge gave no answer; its text says why."""


class Answer(NamedTuple):
    """What the judge says: `safe ..`, or the line that ends the trace's safety and why. Status as the judge's."""
    text: str
    status: int

    @property
    def line(self) -> Optional[int]:
        found = re.match(r'line (\d+): ', self.text)
        return int(found[1]) if found else None

    @property
    def sentence(self) -> str:
        return self.text.partition(': ')[2]


class Input(NamedTuple):
    """The lines of a script, and those of the trace behind it, up to a line `report`."""
    script: List[str]
    trace: List[str]


def parts(source: str) -> Input:
    lines = source.split('\n')
    if 'trace' not in lines:
        raise NoAnswer('there is no line `trace` between a script and its trace')
    at = lines.index('trace')
    trace = lines[at + 1:]
    if 'report' in trace:
        trace = trace[:trace.index('report')]
    elif trace and trace[-1] == '':
        trace.pop()
    return Input(lines[:at], trace)


def judge_words() -> List[str]:
    """The proved judge, where it is built, else bench/judge.py, which tells the same apart from it."""
    program = os.path.join(TOP, 'crates', 'judge', 'out', 'judge')
    if os.path.exists(program) and subprocess.run([os.path.join(TOP, 'run.sh'), '--built'], capture_output=True, check=False).returncode == 0:
        return [program]
    return [sys.executable, os.path.join(TOP, 'bench', 'judge.py')]


def answer(source: str, words: Sequence[str]) -> Answer:
    """The first line of what the judge says of an input."""
    try:
        ran = subprocess.run(list(words), input=source.encode('latin-1'), capture_output=True, check=False, timeout=SECONDS)
    except OSError as why:
        raise NoAnswer(f'{words[0]}: {why.strerror}') from None
    said = ran.stdout.decode('latin-1').split('\n')[0]
    if ran.returncode not in (0, 1, 3) or not said:
        raise NoAnswer(ran.stderr.decode('latin-1').strip() or f'{words[-1]} ended with status {ran.returncode} and said nothing')
    return Answer(said, ran.returncode)


# ---- What a line collides with

class Against(NamedTuple):
    """A line of the trace, if it is one, and what it says against the one that breaks it."""
    line: Optional[int]
    text: str


# which word of a fact is its entity
ENTITY_AT = {'start': 2, 'active': 2, 'stop': 2, 'writefailed': 2, 'wrote': 1, 'snapshot': 1, 'remembered': 1, 'forgotten': 1, 'queued': 2, 'confirmed': 2}


class Witness:
    """Goes over the lines before the one that breaks the trace, and remembers where each thing was told."""

    def __init__(self, it: Input) -> None:
        self.script = it.script
        config = next((line for line in it.script if line.startswith('config')), 'config')
        found = re.search(r'\bshards=(\d+)', config)
        self.shards = int(found[1]) if found else 10
        self.holder: Dict[str, Tuple[int, str, str]] = {}       # of a slot: line, epoch, incarnation
        self.freed: Dict[str, int] = {}
        self.live: Dict[str, Dict[str, int]] = {}               # of an entity: where it is live, since which line
        self.ended: Dict[str, int] = {}
        self.records: Dict[str, List[int]] = {}
        self.of_pair: Dict[Tuple[str, str, str], int] = {}      # the last wrote, queued, confirmed of a producer and an entity
        self.last: Dict[Tuple[str, str], int] = {}              # the last fact of a kind of an entity, a region, a shard, a producer

    def slot(self, entity: str) -> str:
        return f'shard:{shard_number(entity, self.shards)}'

    def see(self, number: int, line: str) -> None:
        words = line.split(' ')
        kind = words[0]
        if kind == 'granted' and len(words) == 4:
            self.holder[words[1]] = (number, words[2], words[3])
        elif kind == 'freed':
            self.holder.pop(words[1], None)
            self.freed[words[1]] = number
        elif kind == 'start':
            self.live.setdefault(words[2], {})[words[1]] = number
        elif kind in ('stop', 'writefailed'):
            self._end(words[2], words[1], number)
        elif kind == 'gone':
            for entity in self.live:
                self._end(entity, words[1], number)
        elif kind == 'wrote':
            self.records.setdefault(words[1], []).append(number)
            self.of_pair['wrote', words[5].partition(':')[0], words[1]] = number
        elif kind in ('queued', 'confirmed'):
            self.of_pair[kind, words[1], words[2]] = number
        if len(words) > 1:
            self.last[kind, words[1]] = number

    def _end(self, entity: str, x: str, number: int) -> None:
        if self.live.get(entity, {}).pop(x, None) is not None:
            self.ended[entity] = number

    # what stands against a line, by the sentence that it breaks

    def against(self, line: str, sentence: str) -> List[Against]:
        words = line.split(' ')
        entity = words[ENTITY_AT[words[0]]] if words[0] in ENTITY_AT and len(words) > ENTITY_AT[words[0]] else ''
        for part, handle in AGAINST:
            if part in sentence:
                return [it for it in handle(self, words, entity) if it]
        return []

    def lives(self, entity: str) -> List[Against]:
        found = [Against(number, f'{entity} is live at {x} since then') for x, number in self.live.get(entity, {}).items()]
        if not found:
            found = [Against(self.ended[entity], f'{entity} is live nowhere since then') if entity in self.ended else Against(None, f'{entity} has not started')]
        return found

    def held(self, slot: str) -> Against:
        if slot in self.holder:
            number, epoch, x = self.holder[slot]
            return Against(number, f'{slot} is held by {x} since then, under epoch {epoch}')
        return Against(self.freed[slot], f'nobody holds {slot} since then') if slot in self.freed else Against(None, f'nobody has held {slot} yet')

    def journal(self, entity: str) -> Against:
        lines = self.records.get(entity, [])
        return Against(lines[-1], f'the journal of {entity} has {len(lines)} records; this is the last') if lines else Against(None, f'the journal of {entity} has no record')

    def pair(self, kind: str, producer: str, entity: str) -> Against:
        number = self.of_pair.get((kind, producer, entity))
        return Against(number, f'the last {kind} of producer {producer} to {entity}') if number else Against(None, f'nothing is {kind} of producer {producer} to {entity}')

    def told(self, kind: str, word: str) -> Against:
        number = self.last.get((kind, word))
        return Against(number, f'the last {kind} of {word}') if number else Against(None, f'there is no {kind} of {word}')

    def planned(self, producer: str, entity: str, number: str) -> Optional[Against]:
        """The command that the script has under a number of a pair."""
        sends = [line for line in self.script if line.split()[:3] == ['send', producer, entity]]
        at = int(number) if number.isdigit() else 0
        if 0 < at <= len(sends):
            return Against(None, f"the script's command {at} of producer {producer} to {entity} is {' '.join(sends[at - 1].split()[3:])}")
        return Against(None, f'the script has {len(sends)} commands of producer {producer} to {entity}')

    def of_command(self, words: List[str]) -> List[Optional[Against]]:
        producer, _, number = words[5].partition(':')
        return [self.pair('wrote', producer, words[1]), self.planned(producer, words[1], number)]

    def of_queue(self, words: List[str]) -> List[Optional[Against]]:
        sends = [line for line in self.script if line.split()[:2] == ['send', words[1]]]
        return [self.told('queued', words[1]), Against(None, f'the script has {len(sends)} sends of producer {words[1]}, and their order counts')]


Handle = Callable[[Witness, List[str], str], Sequence[Optional[Against]]]
AGAINST: List[Tuple[str, Handle]] = [
    ('two live incarnations', lambda it, words, e: it.lives(e)),
    ("live without its shard's lease", lambda it, words, e: [it.held(it.slot(e))]),
    ("a state that isn't its journal's", lambda it, words, e: [it.journal(e)]),
    ('granted while it is held', lambda it, words, e: [it.held(words[1])]),
    ("an epoch that isn't the next", lambda it, words, e: [it.told('granted', words[1])]),
    ("an epoch that isn't the grant's", lambda it, words, e: [it.held(words[1])]),
    ('while an entity of its shard is live', lambda it, words, e: [at for entity, lives in it.live.items() if lives and it.slot(entity) == words[1] for at in it.lives(entity)]),
    ("of an entity that isn't live", lambda it, words, e: it.lives(e)),
    ('a record of another epoch', lambda it, words, e: [it.held(it.slot(e))]),
    ("a record that isn't the next", lambda it, words, e: [it.journal(e)]),
    ("of its producer's next command", lambda it, words, e: it.of_command(words)),
    ("a record that isn't decided so", lambda it, words, e: [it.journal(e)]),
    ("doesn't rise", lambda it, words, e: [it.pair('confirmed', words[1], e), it.pair('queued', words[1], e)]),
    ("a confirmation of what isn't recorded", lambda it, words, e: [it.pair('wrote', words[1], e)]),
    ('a queue entry out of order', lambda it, words, e: it.of_queue(words)),
    ('that nobody holds', lambda it, words, e: [it.held(slot_of(it, words, e))]),
    ("a region that isn't registered", lambda it, words, e: [it.told('terminated', words[1])]),
    ('a region that is registered', lambda it, words, e: [it.told('registered', words[1])]),
    ('a shard that has a home', lambda it, words, e: [it.told('allocated', words[1]), it.told('registered', words[-1])]),
    ('a shard without a home', lambda it, words, e: [it.told('deallocated', words[1])]),
    ('a snapshot', lambda it, words, e: [it.journal(e), it.told('snapshot', e)]),
    ('a name that is remembered', lambda it, words, e: [it.told('remembered', e)]),
    ("a name that isn't remembered", lambda it, words, e: [it.told('forgotten', e)]),
]


def slot_of(it: Witness, words: List[str], entity: str) -> str:
    """The slot to which a line belongs."""
    if words[0] in ('queued', 'confirmed'):
        return f'queue:{words[1]}'
    if words[0] in ('granted', 'freed'):
        return words[1]
    return it.slot(entity) if entity else 'coordinator'


# ---- The lines around

class Case:
    """An input with its answer: the line, what it collides with, and the lines of its entity and slot."""

    def __init__(self, source: str, said: Answer) -> None:
        self.input, self.answer = parts(source), said
        self.number = said.line or 0
        self.witness = Witness(self.input)
        for number, line in enumerate(self.input.trace[:max(self.number - 1, 0)], 1):
            self.witness.see(number, line)
        self.line = self.input.trace[self.number - 1] if 0 < self.number <= len(self.input.trace) else ''
        words = self.line.split(' ')
        at = ENTITY_AT.get(words[0], 0)
        self.entity = words[at] if at and len(words) > at else ''
        self.slot = slot_of(self.witness, words, self.entity) if words[0] and len(words) > 1 else ''
        self.against = self.witness.against(self.line, said.sentence) if said.status == 1 else []

    def is_related(self, line: str, others: Set[str]) -> bool:
        """Whether a line is of the entity, of its slot, or the end of an incarnation that is named in such lines."""
        words = line.split(' ')
        at = ENTITY_AT.get(words[0], 0)
        if self.entity and at and len(words) > at and words[at] == self.entity:
            return True
        if words[0] in ('granted', 'freed') and len(words) > 1:
            return words[1] in (self.slot, self.witness.slot(self.entity) if self.entity else self.slot)
        if not self.entity and self.slot.startswith('shard:') and words[0] in ('start', 'stop', 'writefailed') and len(words) > 2:
            return self.witness.slot(words[2]) == self.slot
        return words[0] == 'gone' and words[-1] in others

    def related(self, before: int, behind: int) -> List[int]:
        """The numbers of the lines around: so many of the entity and its slot before, and some behind."""
        lines = self.input.trace
        others = {word for it in self.against if it.line for word in lines[it.line - 1].split(' ') if '.' in word} | {word for word in self.line.split(' ') if '.' in word}
        first = [at for at in range(1, self.number) if self.is_related(lines[at - 1], others)]
        told = {it.line for it in self.against if it.line}
        kept = {at for at in first[-before:]} | told if before else told
        later: List[int] = []
        for at in range(self.number + 1, min(len(lines), self.number + 2000) + 1):
            if len(later) < behind and self.is_related(lines[at - 1], others):
                later.append(at)
        return sorted(kept | {self.number}) + later

    def reduced(self, before: int, behind: int) -> Tuple[str, int]:
        """The input with these lines alone, and at which of them the line stands that breaks it."""
        numbers = self.related(before, behind)
        lines = [self.input.trace[at - 1] for at in numbers]
        return '\n'.join([*self.input.script, 'trace', *lines, '']), numbers.index(self.number) + 1
