"""What the logs tell: facts of each incarnation in its own order, the tenures of slots and the lives of entities."""
from __future__ import annotations

from typing import Dict, List, NamedTuple, Optional, Sequence, Set, Tuple

from exporting.logs import Line, Logs, shards_of

Incarnation = Tuple[str, str]       # a node, and which of its starts
Slot = Tuple[str, str]              # 'shard' and its name, or 'queue' and its producer
Pair = Tuple[str, str]              # a producer and an entity


class Choices(NamedTuple):
    """How logs are read."""
    middle: bool = False                # they begin in the middle of a run
    cut_ends: bool = False              # behind its last line an incarnation may have ended
    shards: Optional[int] = None        # the number of shards, for entities of which no line tells the shard


class Track:
    """Facts in an order that is certain: those of an incarnation, or the records of an entity that its journal alone has."""

    __slots__ = ('who', 'facts')

    def __init__(self, who: Optional[Incarnation]) -> None:
        self.who, self.facts = who, []  # type: Optional[Incarnation], List[Fact]


class Tenure:
    """That an incarnation holds a slot, from a fact `granted` to a fact `freed`, if there is one."""

    __slots__ = ('slot', 'who', 'granted', 'freed', 'epoch', 'is_lost')

    def __init__(self, slot: Slot, who: Incarnation, epoch: Optional[int]) -> None:
        self.slot, self.who, self.epoch, self.is_lost = slot, who, epoch, False
        self.granted: Fact
        self.freed: Optional[Fact] = None


class Life:
    """That an entity lives at an incarnation, from a fact `start` on; the tenure in which it does."""

    __slots__ = ('who', 'tenure', 'start', 'end', 'read')

    def __init__(self, who: Incarnation, tenure: Optional[Tenure]) -> None:
        self.who, self.tenure = who, tenure
        self.start: Fact
        self.end: Optional[Fact] = None
        self.read: Optional[int] = None     # up to which number it has read its journal


class Fact:
    """A line of the trace to be, with the line of a log that tells it, if one does."""

    __slots__ = ('kind', 'track', 'place', 'line', 'of', 'tenure', 'life', 'index')

    def __init__(self, kind: str, track: Track, line: Optional[Line], of: object, tenure: Optional[Tenure] = None, life: Optional[Life] = None) -> None:
        self.kind, self.track, self.line, self.of, self.tenure, self.life = kind, track, line, of, tenure, life
        self.place, self.index = len(track.facts), -1
        track.facts.append(self)

    @property
    def it(self) -> dict:
        """What the line of the log has."""
        return self.line.it if self.line else {}


def taken(it: dict) -> int:
    """How many numbers a record takes: one for each event."""
    events = it.get('events')
    return it.get('count') or (len(events) if isinstance(events, list) and events else 1)


def numbers(it: dict) -> Tuple[int, int]:
    """The first and the last number of a record."""
    return it['nr'] - taken(it) + 1, it['nr']


class History:
    """All that the logs tell."""

    def __init__(self, logs: Logs, choices: Choices = Choices()) -> None:
        self.choices = choices
        self.shard_of = shards_of(logs.lines, choices.shards)
        self.tracks: List[Track] = []
        self.tenures: Dict[Slot, List[Tenure]] = {}
        self.records: Dict[str, List[Fact]] = {}        # of each entity, with those that its journal alone has
        self.recoveries: Dict[str, List[Fact]] = {}
        self.lives: Dict[str, List[Life]] = {}
        self.recorded: Dict[Pair, Dict[int, List[Fact]]] = {}
        self.stored: Dict[Pair, Dict[int, List[Fact]]] = {}
        self.confirmed: Dict[Pair, Dict[int, List[Fact]]] = {}
        self.snapshots: Dict[str, Dict[int, Line]] = {}
        self.gone: Dict[Incarnation, Fact] = {}
        self.next_start: List[Tuple[Fact, Track]] = []  # an incarnation's end, and its node's next start
        self.base: Dict[str, int] = {}                  # up to which number the records are from before the logs
        self.opening: Dict[str, List[Line]] = {}        # of these, those that the journal has
        self.restarts = self.unended = 0
        self.front: Dict[Incarnation, Line] = {}        # the first line that tells of something that stood before
        tracks = logs.tracks()
        self.incarnations = list(tracks)
        self._read(tracks, ended_in(logs.lines, tracks, choices.cut_ends))
        self._open()
        self._fill([line for line in logs.lines if line.event == 'journal'])

    def _read(self, tracks: Dict[Incarnation, List[Line]], ended: Set[Incarnation]) -> None:
        told = told_slots(line for lines in tracks.values() for line in lines)
        last: Dict[str, Incarnation] = {}
        for who, lines in tracks.items():
            teller = Teller(self, who, lines, told)
            teller.tell()
            if who in ended:
                teller.end()
            elif teller.held:
                self.unended += 1
            if who[0] in last:
                self.next_start.append((self.gone[last[who[0]]], teller.track))
            last[who[0]] = who
            self.tracks.append(teller.track)

    def _open(self) -> None:
        """Up to which number each entity's records are from before the logs."""
        if self.choices.middle:
            for entity in self.shard_of:
                firsts = [numbers(it.it)[0] - 1 for it in self.records.get(entity, []) if 'nr' in it.it]
                self.base[entity] = min(firsts + [it.it['nr'] for it in self.recoveries.get(entity, [])], default=0)

    def _fill(self, rows: Sequence[Line]) -> None:
        """Takes what the journal has and no node's log has."""
        found: Dict[str, List[Line]] = {}
        for line in rows:
            found.setdefault(line.it['entity'], []).append(line)
        for entity, lines in found.items():
            known: Dict[int, Fact] = {}
            for fact in self.records.get(entity, []):
                if 'nr' in fact.it:
                    known.update((at, fact) for at in range(numbers(fact.it)[0], fact.it['nr'] + 1))
            lines.sort(key=lambda it: it.it['nr'])
            if self.choices.middle and not known and entity not in self.recoveries:
                self.base[entity] = lines[-1].it['nr']      # (no log tells where it stands: all was before)
            base = self.base.get(entity, 0)
            before = [line for line in lines if line.it['nr'] <= base]
            if before:
                self._open_from(entity, before, base)
            track = Track(None)
            for line in lines[len(before):]:
                if not is_known(line, known.get(line.it['nr'])):
                    self._attribute(Fact('wrote', track, line, entity), known)
            if track.facts:
                self.tracks.append(track)

    def _open_from(self, entity: str, before: List[Line], base: int) -> None:
        """Of the rows before, those that stand one behind the other up to the base are the opening."""
        kept: List[Line] = []
        for line in reversed(before):
            if line.it['nr'] != base:
                break
            kept.append(line)
            base = numbers(line.it)[0] - 1
        self.opening[entity], self.base[entity] = kept[::-1], base

    def _attribute(self, fact: Fact, known: Dict[int, Fact]) -> None:
        """Finds the life in which a record was written that the journal alone has: the last that read the journal up to
        there, or else that of the record before."""
        entity, first = fact.line.it['entity'], numbers(fact.it)[0]
        read = [life for life in self.lives.get(entity, []) if life.read == first - 1]
        read = [life for life in read if life.end is None or life.end.kind != 'stop'] or read
        before = known.get(first - 1)
        fact.life = max(read[::-1], key=epoch_of) if read else before.life if before else None
        fact.tenure = fact.life.tenure if fact.life else None
        known.update((at, fact) for at in range(first, fact.it['nr'] + 1))
        self.add_record(entity, fact)

    def add_record(self, entity: str, fact: Fact) -> None:
        self.records.setdefault(entity, []).append(fact)
        if 'by' in fact.it:
            self.recorded.setdefault((fact.it['producer'], entity), {}).setdefault(fact.it['by'], []).append(fact)


def epoch_of(life: Life) -> int:
    """The epoch under which a life is, as far as it is known; of equal ones the last counts."""
    return life.tenure.epoch or 0 if life.tenure else 0


def is_known(row: Line, fact: Optional[Fact]) -> bool:
    """Whether a row of the journal is what a node's log tells already."""
    return fact is not None and all(fact.it.get(key, row.it.get(key)) == row.it.get(key, fact.it.get(key)) for key in ('producer', 'by'))


def told_slots(lines) -> Set[Slot]:
    """The slots of which some log tells that they are taken or given back. Of the others, tenures are put around lives."""
    found: Set[Slot] = set()
    for line in lines:
        if line.event in TAKES or line.event in GIVES:
            found.add(slot_of(line))
    return found


def slot_of(line: Line) -> Slot:
    return ('queue', line.it['producer']) if line.event.startswith('producer') else ('shard', line.it['shard'])


def ended_in(lines: Sequence[Line], tracks: Dict[Incarnation, List[Line]], all_of_them: bool) -> Set[Incarnation]:
    """The incarnations that have ended: a line says so, or the node has a later one."""
    if all_of_them:
        return set(tracks)
    last = {node: (node, it) for node, it in tracks}
    found = set(tracks) - set(last.values())
    for line in lines:
        if line.event == 'node-down':
            node = line.it.get('of', line.node)
            of = line.it.get('of_incarnation', line.incarnation if node == line.node else last.get(node, ('', ''))[1])
            found.add((node, of))
    return found


TAKES = ('lease-taken', 'shard-started', 'producer-started')
GIVES = ('lease-released', 'lease-lost', 'shard-stopped', 'producer-stopped')
OF_LIVES = ('entity-started', 'entity-recovered', 'entity-stopped', 'entity-failed', 'record', 'handled')


class Teller:
    """Goes over the lines of an incarnation once, and makes its facts."""

    def __init__(self, history: History, who: Incarnation, lines: Sequence[Line], told: Set[Slot]) -> None:
        self.history, self.who, self.lines, self.told = history, who, lines, told
        self.track = Track(who)
        self.held: Dict[Slot, Tenure] = {}
        self.live: Dict[str, Life] = {}
        self.count: Dict[Slot, int] = {}        # live entities of slots of which no log tells
        self.leased = {slot_of(line) for line in lines if line.event.startswith('lease')}

    def tell(self) -> None:
        slots, entities, first = self._front()
        if self.history.choices.middle:
            for slot in slots:
                self._take(slot, None, None)
            for entity in entities:
                self._start(entity, None)
        elif first:
            self.history.front[self.who] = first
        for line in self.lines:
            handle = HANDLERS.get(line.event)
            if handle:
                handle(self, line)

    def end(self) -> None:
        """The incarnation is over, with all that lived and was held there."""
        self.history.gone[self.who] = gone = Fact('gone', self.track, None, self.who)
        for life in self.live.values():
            life.end = gone
        for slot in list(self.held):
            self._give(slot, None)

    def _front(self) -> Tuple[List[Slot], List[str], Optional[Line]]:
        """What was held, and what lived, before the first line, and a line that tells so."""
        slots: Dict[Slot, bool] = {}
        entities: Dict[str, bool] = {}
        first = None
        for line in self.lines if self.lines[0].event != 'node-up' else ():
            before = False
            slot, entity = None, line.it.get('entity')
            if line.event in TAKES or line.event in GIVES:
                slot, before = slot_of(line), line.event in GIVES
            elif line.event in OF_LIVES:
                slot = ('shard', self.history.shard_of[entity])
                before = entity not in entities and line.event not in ('entity-started', 'entity-recovered')
                entities.setdefault(entity, before)
            elif line.event in ('stored', 'confirmed'):
                slot = ('queue', line.it['producer'])
            if slot in self.told and slot not in slots:
                slots[slot] = line.event not in TAKES
                before = before or slots[slot]
            if before and first is None:
                first = line
        return [it for it, is_held in slots.items() if is_held], [it for it, is_live in entities.items() if is_live], first

    # slots

    def _take(self, slot: Slot, line: Optional[Line], epoch: Optional[int]) -> None:
        tenure = Tenure(slot, self.who, epoch)
        tenure.granted = Fact('granted', self.track, line, slot, tenure)
        self.held[slot] = tenure
        self.history.tenures.setdefault(slot, []).append(tenure)

    def _give(self, slot: Slot, line: Optional[Line]) -> None:
        tenure = self.held.pop(slot, None)
        fact = Fact('freed', self.track, line, slot, tenure)
        if tenure:
            tenure.freed = fact

    def take(self, line: Line) -> None:
        slot = slot_of(line)
        if line.event == 'shard-started' and slot in self.leased or slot in self.held and self._is_the_same(line, self.held[slot]):
            return      # (the lease tells it, or it is held already)
        self._take(slot, line, line.it.get('epoch'))

    @staticmethod
    def _is_the_same(line: Line, tenure: Tenure) -> bool:
        return tenure.epoch is None or line.it.get('epoch', tenure.epoch) == tenure.epoch

    def give(self, line: Line) -> None:
        slot = slot_of(line)
        if line.event == 'shard-stopped' and slot in self.leased:
            return
        if line.event == 'lease-lost' and slot in self.held:
            self.held[slot].is_lost = True
        self._give(slot, line)

    # lives

    def _start(self, entity: str, line: Optional[Line]) -> Life:
        slot = ('shard', self.history.shard_of[entity])
        if slot not in self.told:
            if slot not in self.held:
                self._take(slot, None, None)
            self.count[slot] = self.count.get(slot, 0) + 1
        life = self.live[entity] = Life(self.who, self.held.get(slot))
        life.start = Fact('start', self.track, line, entity, life.tenure, life)
        self.history.lives.setdefault(entity, []).append(life)
        return life

    def start(self, line: Line) -> None:
        entity = line.it['entity']
        if entity in self.live:
            # (made anew by its supervisor: an incarnation has one of a name)
            life = self.live.pop(entity)
            life.end = Fact('stop', self.track, line, entity, life.tenure, life)
            self.history.restarts += 1
            slot = ('shard', self.history.shard_of[entity])
            self.count[slot] = self.count.get(slot, 0) - 1
        self._start(entity, line)

    def recovered(self, line: Line) -> None:
        entity = line.it['entity']
        life = self.live.get(entity) or self._start(entity, line)
        life.read = line.it['nr']
        self.history.recoveries.setdefault(entity, []).append(Fact('active', self.track, line, entity, life.tenure, life))

    def _end_life(self, line: Line, kind: str) -> None:
        entity = line.it['entity']
        life = self.live.pop(entity, None)
        fact = Fact(kind, self.track, line, entity, life.tenure if life else None, life)
        if life:
            life.end = fact
            slot = ('shard', self.history.shard_of[entity])
            if slot not in self.told:
                self.count[slot] -= 1
                if not self.count[slot]:
                    self._give(slot, None)

    def stop(self, line: Line) -> None:
        self._end_life(line, 'stop')

    def fail(self, line: Line) -> None:
        self._end_life(line, 'writefailed')

    def record(self, line: Line) -> None:
        life = self.live.get(line.it['entity'])
        self.history.add_record(line.it['entity'], Fact('wrote', self.track, line, line.it['entity'], life.tenure if life else None, life))

    def snapshot(self, line: Line) -> None:
        self.history.snapshots.setdefault(line.it['entity'], {}).setdefault(line.it['nr'], line)

    # queues

    def store(self, line: Line) -> None:
        self._of_queue(line, 'queued', self.history.stored)

    def confirm(self, line: Line) -> None:
        self._of_queue(line, 'confirmed', self.history.confirmed)

    def _of_queue(self, line: Line, kind: str, found: Dict[Pair, Dict[int, List[Fact]]]) -> None:
        pair = (line.it['producer'], line.it['entity'])
        fact = Fact(kind, self.track, line, pair, self.held.get(('queue', pair[0])))
        found.setdefault(pair, {}).setdefault(line.it['by'], []).append(fact)


HANDLERS = {
    **dict.fromkeys(TAKES, Teller.take), **dict.fromkeys(GIVES, Teller.give),
    'entity-started': Teller.start, 'entity-recovered': Teller.recovered, 'entity-stopped': Teller.stop, 'entity-failed': Teller.fail,
    'record': Teller.record, 'handled': Teller.record, 'snapshot': Teller.snapshot, 'stored': Teller.store, 'confirmed': Teller.confirm,
}
