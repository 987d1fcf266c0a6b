"""What is known for certain about the order of facts of several nodes.

Beside each track's own order, a fact comes before another where each safe trace that has both has them so: a record and the
next one of its entity; a record, a recovery that has read it, and the first record that this recovery hasn't read; a command
that is stored, recorded, confirmed; a slot that is given back and taken by the next. `why` is a key of WHY.
"""
from __future__ import annotations

from itertools import groupby
from typing import Dict, Iterable, List, Optional, Sequence, Set, Tuple

from exporting.history import Fact, History, Pair, Tenure, numbers

WHY = {
    'own': 'one incarnation, in its own order',
    'records': 'records of an entity, and what has read them, come by their numbers',
    'commands': "a producer's commands to an entity are recorded in their order",
    'stored': 'a command is stored before it is recorded',
    'recorded': 'a command is recorded before it is confirmed',
    'queue': 'entries of a queue come by their numbers',
    'epochs': 'the lease has the lower epoch, and is given back before the next one takes it',
    'held': 'two of this slot never overlap, and one holds what comes before a part of the other, so it is given back first',
    'open': 'nothing says that the later one was given back, so it is the last one of its slot',
    'ended': 'a node starts again after the end of its last start',
    'life': 'only the journal has the record: it was written in this life',
    'chosen': 'so it was tried: the slot is given back before the other one takes it',
}
Edge = Tuple[int, str]


class Demands:
    """All facts with a number each, and of each fact those that must come before it."""

    def __init__(self, history: History) -> None:
        self.history = history
        self.facts: List[Fact] = [fact for track in history.tracks for fact in track.facts]
        for index, fact in enumerate(self.facts):
            fact.index = index
        self.before: Dict[int, List[Edge]] = {}
        self._ordered: Set[Tuple[int, int]] = set()     # pairs of tenures, by their grants
        self.since: Dict[Tuple[int, int], Tuple[Fact, Fact]] = {}       # of an edge between tenures, the facts that tell it
        self._of_records()
        self._of_commands()
        for fact, track in history.next_start:
            if track.facts:
                self.add(fact, track.facts[0], 'ended')
        self._of_tenures()

    def add(self, first: Fact, second: Fact, why: str) -> None:
        if first.track is not second.track or first.place > second.place:
            self.before.setdefault(second.index, []).append((first.index, why))

    def _link(self, first: Fact, second: Fact, why: str) -> None:
        """One comes before the other, and so do the tenures in which they stand."""
        self.add(first, second, why)
        if first.tenure is not second.tenure and first.tenure and second.tenure:
            self.order(first.tenure, second.tenure, 'held', (first, second))

    def order(self, first: Tenure, second: Tenure, why: str, since: Optional[Tuple[Fact, Fact]] = None) -> None:
        """A tenure ends before another begins; one that never ends begins before it, and the judge will say so."""
        pair = (first.granted.index, second.granted.index)
        if pair not in self._ordered:
            self._ordered.add(pair)
            end = first.freed or first.granted
            self.add(end, second.granted, why)
            if since:
                self.since[end.index, second.granted.index] = since

    def is_ordered(self, first: Tenure, second: Tenure) -> bool:
        return (first.granted.index, second.granted.index) in self._ordered

    # entities

    def _of_records(self) -> None:
        for entity in self.history.shard_of:
            items = [(2 * it.it['nr'], it) for it in self.history.records.get(entity, ()) if 'nr' in it.it]
            items += [(2 * it.it['nr'] + 1, it) for it in self.history.recoveries.get(entity, ())]
            items.sort(key=lambda it: it[0])
            self._chain([[fact for _, fact in group] for _, group in groupby(items, key=lambda it: it[0])], 'records')
            for fact in self.history.records.get(entity, ()):
                if fact.track.who is None and fact.life:
                    self.add(fact.life.start, fact, 'life')
                    if fact.life.end:
                        self.add(fact, fact.life.end, 'life')

    def _chain(self, groups: Sequence[Sequence[Fact]], why: str) -> None:
        for firsts, seconds in zip(groups, groups[1:]):
            for first in firsts:
                for second in seconds:
                    self._link(first, second, why)

    # commands

    def _of_commands(self) -> None:
        history = self.history
        for pair, recorded in history.recorded.items():
            firsts = {number: first_recorded(facts) for number, facts in recorded.items()}
            self._chain([[firsts[number]] for number in sorted(firsts)], 'commands')
            for number, facts in history.stored.get(pair, {}).items():
                if number in firsts:
                    self.add(facts[0], firsts[number], 'stored')
        for pair, stored in history.stored.items():
            self._chain([stored[number][:1] for number in sorted(stored)], 'queue')
        for pair, confirmed in history.confirmed.items():
            self._chain([confirmed[number][:1] for number in sorted(confirmed)], 'queue')
            self._of_confirmations(pair, confirmed)

    def _of_confirmations(self, pair: Pair, confirmed: Dict[int, List[Fact]]) -> None:
        recorded, stored = self.history.recorded.get(pair, {}), self.history.stored.get(pair, {})
        for number, facts in confirmed.items():
            there = recorded.get(number) or stored.get(number)
            if there:
                self.add(first_recorded(there) if number in recorded else there[0], facts[0], 'recorded')

    # slots

    def _of_tenures(self) -> None:
        for tenures in self.history.tenures.values():
            if len(tenures) == 1:
                continue
            numbered = sorted((it for it in tenures if it.epoch is not None), key=lambda it: it.epoch or 0)
            for first, second in zip(numbered, numbered[1:]):
                if first.epoch != second.epoch:
                    self.order(first, second, 'epochs')
            for it in tenures:
                if it.freed is None:
                    for other in tenures:
                        if other.freed is not None and not self.is_ordered(it, other):
                            self.order(other, it, 'open')

    def is_free(self, tenures: Sequence[Tenure]) -> bool:
        """Whether some of a slot's tenures aren't known to be one behind the other."""
        if len(tenures) < 2:
            return False
        befores = {it.granted.index: 0 for it in tenures}
        for first, second in self._pairs(tenures):
            befores[second.granted.index] += 1
        in_order = sorted(tenures, key=lambda it: befores[it.granted.index])
        return not all(self.follows(first, second) for first, second in zip(in_order, in_order[1:]))

    def _pairs(self, tenures: Sequence[Tenure]) -> Iterable[Tuple[Tenure, Tenure]]:
        if len(tenures) > 200:
            return ()       # (too many to be looked at by pairs: the merge finds out)
        return ((first, second) for first in tenures for second in tenures if first is not second and self.follows(first, second))

    def follows(self, first: Tenure, second: Tenure) -> bool:
        """Whether one tenure is known to come behind another: by what is known of both, or in one track."""
        return self.is_ordered(first, second) or first.granted.track is second.granted.track and first.granted.place < second.granted.place


def first_recorded(facts: Sequence[Fact]) -> Fact:
    """Of several records of one command the one with the lowest number."""
    return facts[0] if len(facts) == 1 else min(facts, key=lambda it: it.it.get('nr', 0))


def why_text(why: str) -> str:
    return WHY[why]


def place_of(fact: Fact) -> Optional[str]:
    return fact.line.place if fact.line else None
