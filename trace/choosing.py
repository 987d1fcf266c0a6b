"""Which rows of a trace a picture shows: lines, orders, what is about an entity or a shard; what else is there is folded."""
from __future__ import annotations

from bisect import bisect_right
from dataclasses import dataclass
from typing import Dict, List, Optional, Sequence, Set, Tuple

from behaviour import shard_of
from facts import Fact, Trace
from parts import Part, packet_of, parts_of
from state import shards_at_first
from story import Row, Story

MOST_ROWS = 1_000       # rows of a picture; what comes more is left out
LEAST_FOLD = 3          # rows that are folded into one, at least

# what isn't quiet: a fold leaves these
LOUD = {'up', 'gone', 'granted', 'freed', 'held', 'terminated', 'allocated', 'deallocated', 'moving', 'start', 'active', 'stop', 'writefailed',
        'armed', 'wrote', 'queued', 'confirmed', 'dropped', 'reshard', 'upgrade', 'given', 'did', 'waits', 'settled', 'wirefull'}
# of a shard these are about its entities too
OF_LEASES = {'granted', 'freed', 'held', 'allocated', 'deallocated', 'moving'}
ALWAYS = {'up', 'gone', 'reshard', 'upgrade', 'wirefull'}


class WrongWords(Exception):
    """The options don't fit the trace."""


@dataclass
class Choice:
    """What the options say: lines or orders, each from and to; an entity; a shard; whether what is quiet is folded."""
    lines: Optional[Sequence[int]] = None
    orders: Optional[Sequence[int]] = None
    entity: Optional[str] = None
    shard: Optional[int] = None
    is_folded: bool = False


@dataclass
class Window:
    """The rows that are drawn, from a first to a last; of those that are folded, the first is `None` beside its count."""
    first: int
    last: int
    places: List[int]           # the row with which each place begins, rising
    folds: Set[int]             # the places at which rows are folded

    def meets(self, start: int, end: Optional[int]) -> bool:
        return start <= self.last and (end is None or end >= self.first)

    def place(self, row: int) -> int:
        """Where a row of the window stands, from 0."""
        return bisect_right(self.places, row) - 1

    def is_shown(self, row: int) -> bool:
        return self.first <= row <= self.last and self.place(row) not in self.folds

    def count(self, place: int) -> int:
        """How many rows stand at a place."""
        after = self.places[place + 1] if place + 1 < len(self.places) else self.last + 1
        return after - self.places[place]


def choose(story: Story, trace: Trace, choice: Choice) -> Window:
    rows = story.rows
    first, last = ends_of(rows, choice)
    kept = None
    if choice.entity is not None or choice.shard is not None:
        kept = rows_about(story, trace, choice)
        if kept.isdisjoint(range(first, last + 1)):
            raise WrongWords(f'no fact{" there" if kept else ""} is about ' + (f'the entity {choice.entity}' if choice.entity is not None else f'shard {choice.shard}'))
        kept |= {n for n, row in enumerate(rows) if row.fact.kind in ALWAYS}
    if choice.is_folded:
        loud = {row for row in range(first, last + 1) if rows[row].fact.kind in LOUD or rows[row].tone == 'bad' or rows[row].note_tone == 'bad'}
        kept = loud | packets_of_loud(story, first, last) if kept is None else kept & loud
    if kept is None:
        return Window(first, min(last, first + MOST_ROWS - 1), list(range(first, min(last, first + MOST_ROWS - 1) + 1)), set())
    return folded(rows, first, last, kept)


def ends_of(rows: Sequence[Row], choice: Choice) -> Tuple[int, int]:
    """The first and the last row by lines or orders."""
    chosen = list(range(len(rows)))
    if choice.lines is not None:
        chosen = [n for n in chosen if choice.lines[0] <= rows[n].fact.line <= choice.lines[1]]
        if not chosen:
            raise WrongWords(f'--lines {choice.lines[0]} {choice.lines[1]}: no fact there; the last one is in line {rows[-1].fact.line}')
    if choice.orders is not None:
        order, inside = 0, set()
        for n, row in enumerate(rows):
            order = int(row.fact.words[1]) if row.fact.kind == 'at' else order
            if choice.orders[0] <= order <= choice.orders[1]:
                inside.add(n)
        chosen = [n for n in chosen if n in inside]
        if not chosen:
            raise WrongWords(f'--orders {choice.orders[0]} {choice.orders[1]}: no order of these lines of the script has a fact; the last one is {order}')
    return chosen[0], chosen[-1]


def rows_about(story: Story, trace: Trace, choice: Choice) -> Set[int]:
    """The rows that are about an entity, or a shard; none where no fact names the entity."""
    shards = shards_at_first(trace)
    packets = {packet.row: packet for packet in story.packets}
    found: Set[int] = set()
    is_named = choice.entity is None
    for n, row in enumerate(story.rows):
        fact = row.fact
        if fact.kind == 'reshard':
            shards = int(fact.words[1])
        if fact.kind == 'got':
            continue
        if is_about(fact, choice, shards):
            is_named = is_named or told_parts(fact).get('entity') == choice.entity
            found.add(n)
            if n in packets:
                found |= {delivery.row for delivery in packets[n].deliveries}
    return found if is_named else set()


def told_parts(fact: Fact) -> Dict[str, Part]:
    """The parts of a fact; of a packet that is sent, those of what it says."""
    if fact.kind != 'sent':
        return parts_of(fact)
    return packet_of(fact.text.split(' ', 4)[-1] if '.' in fact.words[2] else ' '.join(fact.words[2:])) or {}


def is_about(fact: Fact, choice: Choice, shards: Optional[int]) -> bool:
    parts = told_parts(fact)
    entity, slot = parts.get('entity'), str(parts.get('slot', ''))
    shard = int(slot[6:]) if slot.startswith('shard:') else parts.get('shard')
    if choice.entity is not None:
        own = None if shards is None else shard_of(choice.entity, shards)
        return entity == choice.entity or shard is not None and shard == own and fact.kind in OF_LEASES
    return choice.shard in (shard, None if entity is None or shards is None else shard_of(str(entity), shards))


def packets_of_loud(story: Story, first: int, last: int) -> Set[int]:
    """Commands, with each `got`, and what is lost: a fold leaves these too."""
    found: Set[int] = set()
    for packet in story.packets:
        if first <= packet.row <= last and (packet.kind in ('sequenced', 'job') or any(got.lost for got in packet.deliveries)):
            found |= {packet.row, *(got.row for got in packet.deliveries)}
    return found


def folded(rows: Sequence[Row], first: int, last: int, kept: Set[int]) -> Window:
    """A place for each row that is kept, for each order that has one, and for each run of others."""
    places: List[int] = []
    folds: Set[int] = set()
    n = first
    while n <= last and len(places) < MOST_ROWS:
        end = n
        while end <= last and not is_kept(rows, end, last, kept):
            end += 1
        if end - n >= LEAST_FOLD:
            folds.add(len(places))
            places.append(n)
            n = end
        else:
            end = max(end, n + 1)
            places += range(n, end)
            n = end
    return Window(first, n - 1, places, folds)


def is_kept(rows: Sequence[Row], row: int, last: int, kept: Set[int]) -> bool:
    """An order is kept where one of the next rows is, before the next order."""
    if row in kept or rows[row].fact.kind != 'at':
        return row in kept
    after = row + 1
    while after <= last and rows[after].fact.kind != 'at':
        if after in kept:
            return True
        after += 1
    return False
