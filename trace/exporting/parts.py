"""Cuts what is exported into inputs that `judge` takes: by shards, and a shard that is too large by its entities."""
from __future__ import annotations

from typing import Dict, List, NamedTuple, Set, Tuple

from exporting.history import History, Pair
from exporting.logs import NoLog

# what an input has at most
MOST_SHARDS, MOST_NAMES, MOST_PRODUCERS, MOST_PAIRS = 128, 1000, 32, 4000
MOST_ORDERS = 19_900    # lines of a script are 20,000; some are left for its head and its opening
STAND_IN = ''           # the producer of records that name none


class Plan(NamedTuple):
    """What is known of a pair of a producer and an entity: the place of each number of its commands, from 1."""
    places: Dict[int, int]
    before: List[int]       # numbers that are stored in no log, and count as stored before it begins


class Plans:
    """The plans of all pairs, and how many commands each entity has."""

    def __init__(self, history: History) -> None:
        self.history = history
        self.storing = {producer for producer, _ in history.stored}
        self.confirming = {producer for producer, _ in history.confirmed}
        self.of: Dict[Pair, Plan] = {}
        self.commands: Dict[str, int] = {entity: 0 for entity in history.shard_of}
        self.producers: Dict[str, Set[str]] = {entity: set() for entity in history.shard_of}
        self.opened: Dict[Pair, Dict[int, dict]] = {}
        for entity, lines in history.opening.items():
            for line in lines:
                if 'by' in line.it:
                    self.opened.setdefault((line.it['producer'], entity), {})[line.it['by']] = line.it
                else:
                    self._count(entity, STAND_IN, 1)
        for pair in dict.fromkeys([*self.opened, *history.stored, *history.recorded, *history.confirmed]):
            plan = self.of[pair] = self._plan(pair)
            self._count(pair[1], pair[0], len(plan.places))
        for entity, facts in history.records.items():
            own = sum('by' not in it.it for it in facts)
            if own:
                self._count(entity, STAND_IN, own)

    def _count(self, entity: str, producer: str, commands: int) -> None:
        self.commands[entity] += commands
        self.producers[entity].add(producer)

    def _plan(self, pair: Pair) -> Plan:
        history = self.history
        stored = history.stored.get(pair, {})
        others = {*history.recorded.get(pair, ()), *history.confirmed.get(pair, ())}
        if pair[0] in self.storing:
            # (what was stored before the logs begin has lower numbers than what is stored in them)
            others = {it for it in others if not stored or it < min(stored)} if history.choices.middle else set()
        if history.choices.middle:
            # (a number that is confirmed alone, below all that is recorded, was recorded before)
            lowest = min([*history.recorded.get(pair, ()), *stored, *self.opened.get(pair, ())], default=max(others, default=0) + 1)
            others = {it for it in others if it >= lowest}
        before = sorted((others | set(self.opened.get(pair, ()))) - set(stored))
        return Plan({it: at for at, it in enumerate(sorted({*before, *stored}), 1)}, before)


class Part:
    """Shards, or entities of a shard, that fit into one input."""

    def __init__(self) -> None:
        self.shards: Dict[str, None] = {}
        self.entities: List[str] = []
        self.producers: Set[str] = set()
        self.orders = self.pairs = 0

    def takes(self, shard: str, entities: List[str], orders: int, producers: Set[str], pairs: int) -> bool:
        return (len(self.shards) + (shard not in self.shards) <= MOST_SHARDS and len(self.entities) + len(entities) <= MOST_NAMES
                and self.orders + orders <= MOST_ORDERS and len(self.producers | producers) <= MOST_PRODUCERS and self.pairs + pairs <= MOST_PAIRS)

    def add(self, shard: str, entities: List[str], orders: int, producers: Set[str], pairs: int) -> None:
        self.shards[shard] = None
        self.entities += entities
        self.producers |= producers
        self.orders += orders
        self.pairs += pairs


def in_order(names) -> List[str]:
    """Numbers by their value, before all else by its text."""
    return sorted(names, key=lambda it: (0, int(it), it) if it.isdecimal() and it.isascii() else (1, 0, it))


def cut(history: History, plans: Plans, more: Dict[str, int]) -> List[Part]:
    """The parts; `more` is how many commands each entity's opening adds."""
    by_shard: Dict[str, List[str]] = {shard: [] for kind, shard in history.tenures if kind == 'shard'}
    for entity, shard in history.shard_of.items():
        by_shard.setdefault(shard, []).append(entity)

    def size(entities: List[str]) -> Tuple[int, Set[str], int]:
        orders = sum(max(plans.commands[it] + more.get(it, 0), 1) for it in entities)
        return orders, {p for it in entities for p in plans.producers[it]}, sum(len(plans.producers[it]) for it in entities)

    parts = [Part()]
    for shard in in_order(by_shard):
        groups: List[List[str]] = [by_shard[shard]]
        if not Part().takes(shard, groups[0], *size(groups[0])):
            groups = [[entity] for entity in groups[0]]
        for entities in groups:
            measure = size(entities)
            if not parts[-1].takes(shard, entities, *measure):
                parts.append(Part())
            if not parts[-1].takes(shard, entities, *measure):
                raise NoLog(f'entity {entities[0]} has {measure[0]} commands of {len(measure[1])} producers, and an input has at most '
                            f'{MOST_ORDERS} of {MOST_PRODUCERS}: export a shorter time')
            parts[-1].add(shard, entities, *measure)
    return parts


def part_of_each(parts: List[Part]) -> Tuple[Dict[str, int], Dict[str, Set[int]], Dict[str, Set[int]]]:
    """In which part each entity is, and in which each shard and producer are."""
    of_entity: Dict[str, int] = {}
    of_shard: Dict[str, Set[int]] = {}
    of_producer: Dict[str, Set[int]] = {}
    for at, part in enumerate(parts):
        of_entity.update((it, at) for it in part.entities)
        for shard in part.shards:
            of_shard.setdefault(shard, set()).add(at)
        for producer in part.producers:
            of_producer.setdefault(producer, set()).add(at)
    return of_entity, of_shard, of_producer
