"""The logs of a cluster: JSON lines, one object an event, as an application writes them."""
from __future__ import annotations

import json
from collections import Counter
from typing import Any, Callable, Dict, Iterable, List, Optional, Sequence, Tuple

MOST_QUOTED = 60        # characters of a value that is quoted


class NoLog(Exception):
    """A line that can't be read; its text names file and line, and says why."""


class Line:
    """An event of a log, with the file and the line where it stands."""

    __slots__ = ('file', 'number', 'event', 'node', 'incarnation', 'it')

    def __init__(self, file: str, number: int, event: str, it: Dict[str, Any]) -> None:
        self.file, self.number, self.event, self.it = file, number, event, it
        self.node: str = it.get('node', '')
        self.incarnation: str = it.get('incarnation', '1')

    @property
    def place(self) -> str:
        return f'{self.file} line {self.number}'


# ---- What an event is

def is_word(value: Any) -> bool:
    return isinstance(value, (str, int)) and not isinstance(value, bool) and value != ''


def is_whole(value: Any) -> bool:
    return isinstance(value, int) and not isinstance(value, bool) and value >= 0


def is_number(value: Any) -> bool:
    return is_whole(value) and value > 0


def is_any(_: Any) -> bool:
    return True


WANTED: Dict[Callable[[Any], bool], str] = {is_word: 'a text or a number', is_whole: 'a whole number from 0 on', is_number: 'a whole number from 1 on'}
FORMS = {
    'node': is_word, 'incarnation': is_word, 'seq': is_whole, 'shard': is_word, 'entity': is_word, 'nr': is_whole, 'count': is_number,
    'producer': is_word, 'by': is_number, 'epoch': is_whole, 'of': is_word, 'of_incarnation': is_word,
    'command': is_any, 'events': is_any, 'reply': is_any, 'state': is_any,
}
# each event with the keys that it must have, beside `node`
EVENTS: Dict[str, Tuple[str, ...]] = {
    'node-up': (), 'node-down': (),
    'lease-taken': ('shard',), 'lease-released': ('shard',), 'lease-lost': ('shard',), 'shard-started': ('shard',), 'shard-stopped': ('shard',),
    'entity-started': ('entity',), 'entity-recovered': ('entity', 'nr'), 'entity-stopped': ('entity',), 'entity-failed': ('entity',),
    'record': ('entity', 'nr'), 'handled': ('entity',), 'journal': ('entity', 'nr'), 'snapshot': ('entity', 'nr'),
    'producer-started': ('producer',), 'producer-stopped': ('producer',),
    'stored': ('producer', 'entity', 'by'), 'confirmed': ('producer', 'entity', 'by'),
}
# keys whose values are names: a number is taken for its text
NAMES = ('node', 'incarnation', 'shard', 'entity', 'producer', 'of', 'of_incarnation')
# events whose number can't be 0, and those that have a producer and its number both, or neither
FROM_ONE = ('record', 'journal', 'snapshot')
OF_A_COMMAND = ('record', 'handled', 'journal')


def quoted(value: Any) -> str:
    text = json.dumps(value, ensure_ascii=True)
    return text if len(text) <= MOST_QUOTED else text[:MOST_QUOTED - 3] + '...'


def why_no_event(it: Dict[str, Any]) -> Optional[str]:
    """Why an object isn't what its event wants; None where it is."""
    event = it['event']
    for key in EVENTS[event]:
        if key not in it:
            return f'{event}: there is no "{key}"'
    if event != 'journal' and 'node' not in it:
        return f'{event}: there is no "node"'
    for key, value in it.items():
        form = FORMS.get(key)
        if form is not None and not form(value):
            return f'{event}: "{key}" is {quoted(value)}, and not {WANTED[form]}'
    if event in FROM_ONE and it['nr'] == 0:
        return f'{event}: "nr" is 0, and not {WANTED[is_number]}'
    if event in OF_A_COMMAND and ('producer' in it) != ('by' in it):
        return f'{event}: "producer" and "by" come together'
    return None


def parsed(file: str, number: int, text: str) -> Dict[str, Any]:
    try:
        it = json.loads(text)
    except ValueError as why:
        raise NoLog(f'{file} line {number}: no JSON: {why}') from None
    if not isinstance(it, dict):
        raise NoLog(f'{file} line {number}: {quoted(it)} is no JSON object')
    return it


class Logs:
    """The events of all logs, in the order in which they stand there."""

    def __init__(self) -> None:
        self.lines: List[Line] = []
        self.others: Counter = Counter()    # events that are none of these, which are passed over

    def read(self, file: str, texts: Iterable[str]) -> None:
        """Takes the lines of a file; blank ones count, and are passed over."""
        for number, text in enumerate(texts, 1):
            if not text.strip():
                continue
            it = parsed(file, number, text)
            event = it.get('event')
            if not isinstance(event, str) or event not in EVENTS:
                self.others[quoted(event)] += 1
                continue
            for key in NAMES:
                if key in it and is_word(it[key]):
                    it[key] = str(it[key])
            why = why_no_event(it)
            if why:
                raise NoLog(f'{file} line {number}: {why}')
            self.lines.append(Line(file, number, event, it))

    def tracks(self) -> Dict[Tuple[str, str], List[Line]]:
        """Each incarnation's lines, in its own order: by `seq` where they have one, else as they stand. Incarnations
        of a node come in their order: by number where all are numbers, else as they come first."""
        found: Dict[Tuple[str, str], List[Line]] = {}
        for line in self.lines:
            if line.event != 'journal':
                found.setdefault((line.node, line.incarnation), []).append(line)
        nodes: Dict[str, List[str]] = {}
        for node, incarnation in found:
            nodes.setdefault(node, []).append(incarnation)
        return {(node, it): in_own_order(found[node, it]) for node, names in nodes.items() for it in in_number(names)}


def in_number(names: List[str]) -> List[str]:
    return sorted(names, key=int) if all(is_integer(it) for it in names) else names


def is_integer(text: str) -> bool:
    return text.lstrip('-').isdecimal() and text.isascii()


def in_own_order(lines: List[Line]) -> List[Line]:
    """By `seq`; a line that came twice counts once."""
    having = [line for line in lines if 'seq' in line.it]
    if not having:
        return lines
    if len(having) != len(lines):
        lacking = next(line for line in lines if 'seq' not in line.it)
        raise NoLog(f'{lacking.place}: there is no "seq", and other lines of this incarnation have one ({having[0].place})')
    kept: List[Line] = []
    for line in sorted(lines, key=lambda it: it.it['seq']):
        if kept and kept[-1].it['seq'] == line.it['seq']:
            if kept[-1].it != line.it:
                raise NoLog(f'{line.place}: its "seq" {line.it["seq"]} is that of another line ({kept[-1].place})')
        else:
            kept.append(line)
    return kept


def shards_of(lines: Sequence[Line], count: Optional[int]) -> Dict[str, str]:
    """Each entity's shard: as a line names it, else by Java's hash modulo the count."""
    from exporting.naming import shard_number
    told: Dict[str, Line] = {}
    for line in lines:
        if 'entity' in line.it and 'shard' in line.it:
            first = told.setdefault(line.it['entity'], line)
            if first.it['shard'] != line.it['shard']:
                raise NoLog(f'{line.place}: entity {line.it["entity"]} is of shard {line.it["shard"]}, and of shard {first.it["shard"]} in {first.place}')
    found = {entity: line.it['shard'] for entity, line in told.items()}
    for line in lines:
        entity = line.it.get('entity')
        if entity is not None and entity not in found:
            if count is None:
                raise NoLog(f'{line.place}: no line says of which shard {entity} is: give it a "shard", or --shards NUMBER for Akka\'s own extractor')
            found[entity] = str(shard_number(entity, count))
    return found
