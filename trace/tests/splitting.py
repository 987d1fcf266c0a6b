"""Makes of a trace the logs that an application on its nodes would have written, with clocks that differ."""
from __future__ import annotations

import random
import re
import uuid
from dataclasses import dataclass, field
from typing import Dict, List, Optional, Set, Tuple


@dataclass
class Style:
    """How an application logs."""
    epochs: bool = True         # leases have epochs
    leases: bool = True         # shards and producers are told, beside entities
    queues: bool = True         # a durable queue is told
    events: bool = False        # records are numbered by their events, as Akka does; a command without any is `handled`
    journal: bool = False       # there is a dump of the journal, and the last records of a node that crashes aren't in its log
    long_names: bool = False    # entities are UUIDs, shards have names, incarnations are large numbers
    seq: bool = False           # lines have numbers, and stand in any order
    kind: bool = True           # commands, events, replies and states are told

    @staticmethod
    def drawn(chance: random.Random) -> 'Style':
        return Style(*(chance.random() < 0.5 for _ in range(8)))


@dataclass
class Journal:
    records: int = 0
    events: int = 0
    at: List[int] = field(default_factory=lambda: [0])      # the number of events after so many records


class Splitter:
    """Goes over the facts of a trace once, and writes each at the node where it comes about."""

    def __init__(self, style: Style, chance: random.Random, shard_of) -> None:
        self.style, self.chance, self.shard_of = style, chance, shard_of
        self.logs: Dict[str, List[dict]] = {}
        self.rows: List[dict] = []
        self.holder: Dict[str, str] = {}
        self.live: Dict[str, str] = {}
        self.journals: Dict[str, Journal] = {}
        self.skew: Dict[str, int] = {}
        self.ended: Set[str] = set()
        self.ids: Dict[str, str] = {}
        self.now = 1_700_000_000_000

    def split(self, lines: List[str]) -> Dict[str, List[dict]]:
        """The logs by their files' names."""
        facts = [line.split(' ') for line in lines]
        for words, line in zip(facts, lines):
            self.now += self.chance.randrange(5)
            handle = getattr(self, '_' + words[0], None)
            if handle:
                handle(line, *words[1:])
        if self.style.journal:
            for x in self.ended:
                self._lose_last(x)
            self.logs['journal.jsonl'] = self.rows
        if self.style.seq:
            for name, log in self.logs.items():
                if name != 'journal.jsonl':
                    self._number(log)
        return self.logs

    def _number(self, log: List[dict]) -> None:
        for number, it in enumerate(log):
            it['seq'] = number
        for _ in range(len(log) // 3):
            at = self.chance.randrange(max(len(log) - 3, 1))
            log[at:at + 3] = self.chance.sample(log[at:at + 3], len(log[at:at + 3]))

    def _lose_last(self, x: str) -> None:
        """The last records of one that crashed are in the journal alone."""
        log = self.logs.get(self.file(x), [])
        own = [it for it in log if self.is_of(it, x)]
        while own and own[-1]['event'] == 'record' and self.chance.random() < 0.7:
            log.remove(own.pop())

    def is_of(self, it: dict, x: str) -> bool:
        return it['node'] == self.node(x) and it['incarnation'] == self.start(x)

    # names

    def node(self, x: str):
        node = x.split('.')[0]
        return f'10.0.0.{node}:2551' if self.style.long_names else int(node)

    def start(self, x: str):
        start = int(x.split('.')[1])
        return start * 10 ** 15 + 7 if self.style.long_names else start

    def file(self, x: str) -> str:
        return f'node{x.split(".")[0]}.jsonl'

    def entity(self, name: str) -> dict:
        shard = self.shard_of(name)
        if not self.style.long_names:
            return {'entity': name, 'shard': shard}
        if name not in self.ids:
            self.ids[name] = str(uuid.UUID(int=self.chance.getrandbits(128)))
        return {'entity': self.ids[name], 'shard': f'shard-{shard}'}

    def put(self, x: str, event: str, **keys) -> dict:
        node = x.split('.')[0]
        skew = self.skew.setdefault(node, self.chance.randrange(-5_000, 5_000))
        it = {'time': self.now + skew, 'node': self.node(x), 'incarnation': self.start(x), 'event': event, **keys}
        self.logs.setdefault(self.file(x), []).append(it)
        return it

    # facts

    def _up(self, line: str, x: str) -> None:
        self.put(x, 'node-up')

    def _gone(self, line: str, x: str) -> None:
        self.ended.add(x)
        self.live = {entity: at for entity, at in self.live.items() if at != x}
        others = [name for name in self.logs if name.startswith('node') and name != self.file(x)]
        by = self.chance.choice(others)[4:-6] + '.1' if others else x
        last = next((it for it in reversed(self.logs.get(self.file(by), [])) if it['node'] == self.node(by)), None)
        it = self.put(by, 'node-down', of=self.node(x), of_incarnation=self.start(x))
        if last:
            it['incarnation'] = last['incarnation']

    def _granted(self, line: str, slot: str, epoch: str, x: str) -> None:
        self.holder[slot] = x
        self._of_slot(x, slot, epoch, 'lease-taken', 'producer-started')

    def _freed(self, line: str, slot: str, epoch: str, cause: str) -> None:
        x = self.holder.pop(slot)
        if x not in self.ended:
            self._of_slot(x, slot, epoch, 'lease-released', 'producer-stopped')

    def _of_slot(self, x: str, slot: str, epoch: str, of_shard: str, of_queue: str) -> None:
        kind, _, number = slot.partition(':')
        keys = {'epoch': int(epoch)} if self.style.epochs else {}
        if kind == 'shard' and self.style.leases:
            self.put(x, of_shard, shard=f'shard-{number}' if self.style.long_names else int(number), **keys)
        elif kind == 'queue' and self.style.leases and self.style.queues:
            self.put(x, of_queue, producer=self.producer(number), **keys)

    def producer(self, number: str) -> str:
        return f'orders-{number}'

    def _start(self, line: str, x: str, e: str) -> None:
        self.live[e] = x
        self.put(x, 'entity-started', **self.entity(e))

    def _active(self, line: str, x: str, e: str, records: str, *state: str) -> None:
        journal = self.journals.setdefault(e, Journal())
        number = journal.at[int(records)] if self.style.events else int(records)
        keys = {'state': ' '.join(state)} if self.style.kind else {}
        self.put(x, 'entity-recovered', **self.entity(e), nr=number, **keys)

    def _stop(self, line: str, x: str, e: str) -> None:
        if self.live.get(e) == x:
            del self.live[e]
        self.put(x, 'entity-stopped', **self.entity(e))

    def _writefailed(self, line: str, x: str, e: str) -> None:
        log = self.logs[self.file(x)]
        if self.style.journal and log[-1]['event'] == 'record' and log[-1]['entity'] == self.entity(e)['entity']:
            log.pop()       # (it was written, and nobody was told)
        self._stop(line, x, e)
        self.logs[self.file(x)][-1]['event'] = 'entity-failed'

    def _wrote(self, line: str, e: str, number: str, *_: str) -> None:
        found = re.fullmatch(r'wrote \S+ \d+ epoch (\d+) by (\d+):(\d+) (.*) / (.*) / (.*)', line)
        epoch, producer, by, command, events, reply = found.groups()
        journal = self.journals.setdefault(e, Journal())
        count = 0 if events == '-' else len(events.split(', '))
        journal.records += 1
        journal.events += count
        journal.at.append(journal.events)
        keys: dict = {**self.entity(e), 'producer': self.producer(producer), 'by': int(by)} if self.style.queues or self.chance.random() < 2 else {}
        if self.style.epochs and self.style.leases:
            keys['epoch'] = int(epoch)
        if self.style.kind:
            keys.update(command=command, events=[] if events == '-' else events.split(', '), reply=reply)
        self._record(e, keys, count, journal, number)

    def _record(self, e: str, keys: dict, count: int, journal: Journal, number: str) -> None:
        x = self.live.get(e, '')
        if self.style.events:
            if not count:
                self.put(x, 'handled', **keys)
                return
            if not self.style.kind:
                keys['count'] = count
            keys['nr'] = journal.events
        else:
            keys.update(nr=int(number), count=1)
        self.put(x, 'record', **keys)
        self.rows.append({'event': 'journal', **{key: it for key, it in keys.items() if key != 'epoch'}})

    def _snapshot(self, line: str, e: str, records: str) -> None:
        number = self.journals[e].at[int(records)] if self.style.events else int(records)
        if number:
            self.put(self.live[e], 'snapshot', **self.entity(e), nr=number)

    def _queued(self, line: str, p: str, e: str, n: str, *command: str) -> None:
        if self.style.queues:
            keys = {'command': ' '.join(command)} if self.style.kind else {}
            self.put(self.holder[f'queue:{p}'], 'stored', producer=self.producer(p), by=int(n), **self.entity(e), **keys)

    def _confirmed(self, line: str, p: str, e: str, n: str) -> None:
        if self.style.queues:
            self.put(self.holder[f'queue:{p}'], 'confirmed', producer=self.producer(p), by=int(n), **self.entity(e))


def split(lines: List[str], style: Style, chance: random.Random, shard_of) -> Dict[str, List[dict]]:
    return Splitter(style, chance, shard_of).split(lines)


def loud_part(text: str) -> Tuple[List[str], Optional[str]]:
    """The lines of a trace before its report; None and why where it can't be exported."""
    lines = text.split('\n')
    lines = lines[:lines.index('report')] if 'report' in lines else lines[:-1]
    words = {line.split(' ')[0] for line in lines}
    return lines, next((it for it in ('reshard', 'upgrade', 'given') if it in words), None)
