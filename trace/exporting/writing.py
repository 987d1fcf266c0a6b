"""Writes a part as what `judge` reads, a script and a trace, and beside it where each line comes from."""
from __future__ import annotations

from typing import Any, Dict, List, NamedTuple, Optional, Sequence, Set, Tuple

from exporting import kinds
from exporting.history import Fact, History, Incarnation, Life, Pair, Slot, Tenure, numbers, taken
from exporting.logs import Line, NoLog
from exporting.naming import fitting_name, incarnation_texts, shard_numbers
from exporting.parts import MOST_SHARDS, STAND_IN, Part, Plan, Plans, cut, in_order, part_of_each

RELEASES = ('lease-released', 'shard-stopped', 'producer-stopped')
OPENER = ('', '')       # the incarnation that writes the opening


class Output(NamedTuple):
    """An input of `judge`, and what its lines and names stand for."""
    text: str
    map: Dict[str, Any]


class Held:
    """What is written of a slot so far."""

    def __init__(self) -> None:
        self.number = 0                         # of its last grant
        self.by_epoch: Dict[int, int] = {}      # numbers by the epochs that the logs have


class Journal:
    """What is written of an entity so far."""

    def __init__(self, base: int) -> None:
        self.last = base                        # the number of its last event in the logs
        self.count = self.total = self.own = 0  # records; the sum of stand-ins; records that name no producer


class Writer:
    """The text of a part, fact by fact."""

    def __init__(self, history: History, plans: Plans, part: Part, kind: Optional[str], texts: Dict[Incarnation, str]) -> None:
        self.history, self.plans, self.kind, self.texts = history, plans, kind, texts
        self.lines: List[str] = []
        self.origins: List[Optional[Line]] = []
        self.notes: Dict[int, str] = {}
        self.told_queues = {slot[1] for slot in history.tenures if slot[0] == 'queue'}
        self.shards, self.count = shard_numbers(in_order(part.shards), MOST_SHARDS)
        self.producers = {it: at for at, it in enumerate(in_order(part.producers), 1)}
        self.names: Dict[str, str] = {}
        used: Set[str] = set()
        for entity in part.entities:
            name = fitting_name(entity, self.shards[history.shard_of[entity]], self.count, used)
            used.add(name)
            self.names[entity] = name
        self.pairs = [pair for pair in plans.of if pair[1] in self.names]
        self.journals = {entity: Journal(history.base.get(entity, 0)) for entity in part.entities}
        self.snapshots = {entity: dict(history.snapshots.get(entity, {})) for entity in part.entities}
        self.slots: Dict[Slot, Held] = {}
        self.epochs: Dict[int, int] = {}                        # of each tenure, by its grant, the number of it
        self.sends: Dict[str, List[str]] = {it: [] for it in part.producers}
        self.queued: Dict[Pair, Set[int]] = {}
        self.sent: Set[str] = set()
        self.seen: Set[Incarnation] = set()

    # lines

    def put(self, text: str, line: Optional[Line] = None, note: str = '') -> None:
        self.lines.append(text)
        self.origins.append(line)
        if note:
            self.notes[len(self.lines)] = note

    def slot_text(self, slot: Slot) -> str:
        return f'shard:{self.shards[slot[1]]}' if slot[0] == 'shard' else f'queue:{self.producers[slot[1]]}'

    def x(self, who: Incarnation) -> str:
        self.seen.add(who)
        return self.texts[who]

    # slots

    def granted(self, fact: Fact) -> None:
        tenure: Tenure = fact.tenure
        held = self.slots.setdefault(tenure.slot, Held())
        held.number = held.by_epoch.get(tenure.epoch, held.number + 1) if tenure.epoch is not None else held.number + 1
        if tenure.epoch is not None:
            held.by_epoch[tenure.epoch] = held.number
        self.epochs[fact.index] = held.number
        self.put(f'granted {self.slot_text(tenure.slot)} {held.number} {self.x(tenure.who)}', fact.line)

    def freed(self, fact: Fact) -> None:
        held = self.slots.setdefault(fact.of, Held())
        number = self.epochs[fact.tenure.granted.index] if fact.tenure else held.number
        number = self._numbered(held, fact.it.get('epoch'), fact.tenure, number)
        note = '' if fact.tenure else 'it is given back where it was not taken'
        cause = 'released' if fact.line and fact.line.event in RELEASES else 'stopped'
        self.put(f'freed {self.slot_text(fact.of)} {number} {cause}', fact.line, note)

    @staticmethod
    def _numbered(held: Held, epoch: Optional[int], tenure: Optional[Tenure], number: int) -> int:
        """The number of the epoch that a line names, where it names one; else that of its tenure."""
        if epoch is None or tenure is None or tenure.epoch is None or tenure.epoch == epoch:
            return number
        return held.by_epoch.get(epoch, held.number + 1)

    # lives

    def start(self, fact: Fact) -> None:
        self.put(f'start {self.x(fact.track.who)} {self.names[fact.of]}', fact.line)

    def stop(self, fact: Fact) -> None:
        self.put(f'{fact.kind} {self.x(fact.track.who)} {self.names[fact.of]}', fact.line)

    writefailed = stop

    def gone(self, fact: Fact) -> None:
        if fact.of in self.seen:
            self.put(f'gone {self.x(fact.of)}')

    def active(self, fact: Fact) -> None:
        journal, number = self.journals[fact.of], fact.it['nr']
        count = journal.count if number == journal.last else journal.count + 1 if number > journal.last or not journal.count else journal.count - 1
        note = '' if number == journal.last else f'it has read up to number {number}, and the last record before it in the logs has number {journal.last}'
        if self.kind is None:
            state = str(journal.total)
        else:
            state = fact.it.get('state')
            if not kinds.is_state(state):
                raise NoLog(f'{fact.line.place}: --kind {self.kind} wants a "state" as RULES prints it')
        self.put(f'active {self.x(fact.track.who)} {self.names[fact.of]} {count} {state}', fact.line, note)

    # commands

    def _place(self, pair: Pair, number: int) -> int:
        """The place of a number in its pair; behind all, where it has none."""
        plan = self.plans.of[pair]
        return plan.places.get(number) or len(plan.places) + 1

    def command(self, pair: Pair, number: int, facts: Sequence[dict]) -> str:
        """What a command is called: as the first of these that has it."""
        told = next((it for it in facts if it.get('command') is not None), None)
        return self.command_text(told['command'] if told else None, pair[1], f'number {number} of producer {pair[0]} to {pair[1]}')

    def command_text(self, command: Any, entity: str, where: str) -> str:
        if self.kind is None:
            return f'add {kinds.stand_in(command)}'
        if not kinds.is_command(self.kind, command):
            raise NoLog(f'{where}: {command!r} is no command of a {self.kind}: leave --kind out, and stand-ins are judged')
        return command

    def planned(self, pair: Pair, number: int) -> str:
        """The command of a number: as it was stored, or else as it was recorded."""
        stored = self.history.stored.get(pair, {}).get(number, ())
        recorded = self.history.recorded.get(pair, {}).get(number, ())
        opened = self.plans.opened.get(pair, {}).get(number)
        return self.command(pair, number, [*(it.it for it in stored), *(it.it for it in recorded), *([opened] if opened else [])])

    def queue(self, pair: Pair, number: int, line: Optional[Line], note: str = '') -> None:
        """An entry of a queue, and the line of the script that it is of."""
        producer, name = self.producers[pair[0]], self.names[pair[1]]
        place, text = self._place(pair, number), self.planned(pair, number)
        if note:
            place = len(self.plans.of[pair].places) + 1
        elif number not in self.queued.setdefault(pair, set()):
            self.queued[pair].add(number)
            self.send(pair[0], pair[1], text)
        self.put(f'queued {producer} {name} {place} {text}', line, note)

    def send(self, producer: str, entity: str, text: str) -> None:
        self.sends[producer].append(f'send {self.producers[producer]} {self.names[entity]} {text}')
        self.sent.add(entity)

    def _foreign(self, fact: Fact) -> str:
        is_foreign = fact.tenure is None and fact.of[0] in self.told_queues
        return f'{" ".join(fact.track.who)} does not hold the queue of {fact.of[0]}' if is_foreign else ''

    def queued_fact(self, fact: Fact) -> None:
        self.queue(fact.of, fact.it['by'], fact.line, self._foreign(fact))

    def confirmed(self, fact: Fact) -> None:
        pair, number = fact.of, fact.it['by']
        plan, note = self.plans.of[pair], self._foreign(fact)
        if self.history.choices.middle and number not in plan.places and number < min(plan.places, default=number + 1):
            return      # (of before the logs)
        place = len(plan.places) + 1 if note else self._place(pair, number)
        self.put(f'confirmed {self.producers[pair[0]]} {self.names[pair[1]]} {place}', fact.line, note)

    def wrote(self, fact: Fact) -> None:
        entity, it = fact.of, fact.it
        journal, held = self.journals[entity], self.slots.setdefault(('shard', self.history.shard_of[entity]), Held())
        number, note = self._record_number(journal, it)
        epoch = held.number + 1
        if fact.life is None:
            note = note or f'{" ".join(fact.track.who) if fact.track.who else "whoever wrote it"} writes it, and by its own log {entity} does not live there'
        elif fact.tenure:
            epoch = self._numbered(held, it.get('epoch'), fact.tenure, self.epochs[fact.tenure.granted.index])
        self.record(entity, it, number, epoch, fact.line, note)
        if fact.line.event != 'handled':
            journal.last = it['nr']
            self.snapshot(entity, journal.last, journal.count)

    @staticmethod
    def _record_number(journal: Journal, it: dict) -> Tuple[int, str]:
        if 'nr' not in it or numbers(it)[0] == journal.last + 1:
            return journal.count + 1, ''
        events = '' if taken(it) == 1 else f' (of {taken(it)} events)'
        return journal.count + 2, f'it has number {it["nr"]}{events}, and the record before it in the logs has number {journal.last}'

    def record(self, entity: str, it: dict, number: int, epoch: int, line: Optional[Line], note: str = '') -> None:
        journal = self.journals[entity]
        producer = it.get('producer', STAND_IN)
        if 'by' in it:
            place = self._place((producer, entity), it['by'])
            text = self.command((producer, entity), it['by'], [it]) if it.get('command') is not None else self.planned((producer, entity), it['by'])
        else:
            journal.own += 1
            place, text = journal.own, self.command_text(it.get('command'), entity, line.place if line else entity)
            self.send(producer, entity, text)
        events, reply = self._answer(journal, it, text, line)
        self.put(f'wrote {self.names[entity]} {number} epoch {epoch} by {self.producers[producer]}:{place} {text} / {events} / {reply}', line, note)
        journal.count += 1

    def _answer(self, journal: Journal, it: dict, text: str, line: Optional[Line]) -> Tuple[str, str]:
        if self.kind is None:
            amount = int(text.split(' ')[1])
            journal.total += amount
            return f'added {amount}', f'ok {journal.total}'
        events, reply = kinds.events_text(it.get('events', [])), it.get('reply')
        if events is None or not kinds.is_reply(reply):
            raise NoLog(f'{line.place if line else "an opening"}: --kind {self.kind} wants "events" and a "reply" as SCRIPT prints them')
        return events, reply

    def snapshot(self, entity: str, number: int, count: int) -> None:
        line = self.snapshots[entity].pop(number, None)
        if line:
            self.put(f'snapshot {self.names[entity]} {count}', line)

    # the whole

    def begin(self, openings: Dict[str, List[dict]]) -> None:
        """What stands before the logs: who holds queues of which no log tells, entries from before, and openings."""
        for producer in self.producers:
            if producer in self.plans.storing or producer in self.plans.confirming:
                self._begin_queue(producer)
        shards: Dict[str, List[str]] = {}
        for entity, its in openings.items():
            if entity in self.names and its:
                shards.setdefault(self.history.shard_of[entity], []).append(entity)
        for shard, entities in shards.items():
            slot = ('shard', shard)
            held = self.slots.setdefault(slot, Held())
            held.number = 1
            self.put(f'granted {self.slot_text(slot)} 1 {self.texts[OPENER]}')
            for entity in entities:
                self._open(entity, openings[entity])
            self.put(f'freed {self.slot_text(slot)} 1 released')

    def _begin_queue(self, producer: str) -> None:
        before = [(pair, number) for pair in self.pairs if pair[0] == producer for number in self.plans.of[pair].before]
        slot = ('queue', producer)
        if producer in self.told_queues and not before:
            return
        who = OPENER if producer in self.told_queues else self._first_at(producer)
        self.slots.setdefault(slot, Held()).number = 1
        self.put(f'granted {self.slot_text(slot)} 1 {self.x(who)}')
        for pair, number in before:
            self.queue(pair, number, None)
        if who == OPENER:
            self.put(f'freed {self.slot_text(slot)} 1 released')

    def _first_at(self, producer: str) -> Incarnation:
        """An incarnation at which a queue is, of which no log tells who holds it."""
        for found in (self.history.stored, self.history.confirmed):
            for pair, facts in found.items():
                if pair[0] == producer:
                    return next(iter(facts.values()))[0].track.who
        raise AssertionError(producer)

    def _open(self, entity: str, its: List[dict]) -> None:
        name = self.names[entity]
        self.put(f'start {self.x(OPENER)} {name}')
        for it in its:
            self.record(entity, it, self.journals[entity].count + 1, 1, None)
            self.journals[entity].last = it.get('nr', self.journals[entity].last)
        self.put(f'stop {self.x(OPENER)} {name}')

    def output(self) -> Output:
        self._end()
        script = [f'config nodes={self._nodes()} shards={self.count} producers={max(len(self.producers), 1)} kind={self.kind or "counter"}']
        for producer in self.producers:
            script += self.sends[producer]
        script += [f'passivate {name}' for entity, name in self.names.items() if entity not in self.sent]
        return Output('\n'.join([*script, 'trace', *self.lines, '']), self._map())

    def _nodes(self) -> int:
        return max([int(self.texts[who].split('.')[0]) for who in self.seen], default=1)

    def _end(self) -> None:
        """Sends that no queue tells of, and snapshots of records that aren't there."""
        for pair in self.pairs:
            for number in self.plans.of[pair].places:
                if number not in self.queued.get(pair, ()):
                    self.send(pair[0], pair[1], self.planned(pair, number))
        for entity, lines in self.snapshots.items():
            for number, line in lines.items():
                if number > self.history.base.get(entity, 0):
                    self.put(f'snapshot {self.names[entity]} {self.journals[entity].count + 1}', line, f'no record of the logs ends with number {number}')

    def _map(self) -> Dict[str, Any]:
        files = list(dict.fromkeys(line.file for line in self.origins if line))
        at = {file: number for number, file in enumerate(files)}
        return {
            'entities': {name: entity for entity, name in self.names.items()},
            'shards': {str(number): shard for shard, number in self.shards.items()},
            'producers': {str(number): producer or 'no producer is named' for producer, number in self.producers.items()},
            'incarnations': {self.texts[who]: ' '.join(who) if who != OPENER else 'before the logs' for who in self.seen},
            'notes': {str(number): note for number, note in self.notes.items()},
            'files': files,
            'lines': [[at[line.file], line.number] if line else None for line in self.origins],
        }


WRITES = {
    'granted': Writer.granted, 'freed': Writer.freed, 'start': Writer.start, 'stop': Writer.stop, 'writefailed': Writer.writefailed,
    'active': Writer.active, 'wrote': Writer.wrote, 'queued': Writer.queued_fact, 'confirmed': Writer.confirmed, 'gone': Writer.gone,
}


def openings_of(history: History, kind: Optional[str]) -> Dict[str, List[dict]]:
    """The records with which each entity's trace begins, where it begins in the middle: those of its journal, or such as
    lead to the state that it had. Stand-ins need none, since their records count from there."""
    found: Dict[str, List[dict]] = {}
    for entity in history.shard_of:
        rows = [line.it for line in history.opening.get(entity, ())]
        base = history.base.get(entity, 0)
        if kind is not None and base:
            told = next((it for it in history.recoveries.get(entity, ()) if it.it['nr'] == base), None)
            steps = kinds.leading_to(kind, str(told.it.get('state'))) if told else None
            if steps is None:
                raise NoLog(f'entity {entity}: its records begin behind number {base}, and no state is known there that {kinds.MOST_LEADING} commands '
                            'lead to: give its journal from number 1 on, or leave --kind out')
            rows = [{'command': command, 'events': events, 'reply': reply} for command, events, reply in steps] + rows
        if rows:
            found[entity] = rows
    return found


def write(history: History, order: Sequence[Fact], kind: Optional[str]) -> List[Output]:
    """The parts of a merged history, each as an input."""
    plans = Plans(history)
    openings = openings_of(history, kind)
    for entity, rows in openings.items():
        if any('by' not in it for it in rows):
            plans.producers[entity].add(STAND_IN)
    parts = cut(history, plans, {entity: len(rows) for entity, rows in openings.items()})
    texts = incarnation_texts([*history.incarnations])
    node = min((text.split('.')[0] for text in texts.values()), key=int, default='1')
    texts[OPENER] = f'{node}.{1 + max((int(text.split(".")[1]) for text in texts.values()), default=0)}'
    writers = [Writer(history, plans, part, kind, texts) for part in parts]
    for it in writers:
        it.begin(openings)
    of_entity, of_shard, of_producer = part_of_each(parts)
    for fact in order:
        write_fact = WRITES[fact.kind]
        if fact.kind == 'gone':
            for it in writers:
                write_fact(it, fact)
        elif fact.kind in ('granted', 'freed'):
            for at in sorted((of_shard if fact.of[0] == 'shard' else of_producer).get(fact.of[1], ())):
                write_fact(writers[at], fact)
        else:
            write_fact(writers[of_entity[fact.of[1] if isinstance(fact.of, tuple) else fact.of]], fact)
    return [it.output() for it in writers]


__all__ = ['Output', 'Life', 'Plan', 'write']
