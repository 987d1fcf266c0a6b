"""The parts of a fact and of a packet by name, and what each says in a sentence.

`{name}` is a part in these tables; TYPES says what it looks like, and so what it is in JSON. One table serves the page,
the JSON lines and their schema.
"""
from __future__ import annotations

import re
from typing import Dict, List, Optional, Pattern, Tuple, Union

from facts import PARTS, Fact

NUMBER, INCARNATION, NAME, STAMP, SLOT, REST = (PARTS[key] for key in ('N', 'X', 'E', 'STAMP', 'SLOT', '..'))
TYPES: Dict[str, str] = {
    **dict.fromkeys(('order', 'version', 'packet', 'epoch', 'node', 'shard', 'producer', 'number', 'records', 'confirmed', 'upto', 'shards',
                     'place'), NUMBER),
    **dict.fromkeys(('incarnation', 'from', 'to', 'home', 'region', 'origin', 'worker'), INCARNATION),
    **dict.fromkeys(('message', 'command', 'events', 'state'), REST),
    'entity': NAME, 'stamp': STAMP, 'slot': SLOT, 'cause': PARTS['CAUSE'], 'keep': PARTS['KEEP'], 'reply': PARTS['REPLY'],
    'members': r'[0-9.,]+',
}

# the facts: their forms, and a sentence
FACTS: Dict[str, Tuple[List[str], str]] = {
    'at': (['{order}'], 'Line {order} of the script begins.'),
    'nothing': ([''], 'The order found nothing to do.'),
    'wirefull': ([''], 'The wire is full: the trace ends here.'),
    'settled': ([''], 'Every send so far is queued, recorded and confirmed.'),
    'up': (['{incarnation}'], 'Node {incarnation.node} comes up, as incarnation {incarnation}.'),
    'gone': (['{incarnation}'], 'Node {incarnation.node} goes down: all of {incarnation} is over, its entities too.'),
    'view': (['{incarnation} {version}'], '{incarnation} takes view {version} of the members.'),
    'sent': (['{packet} {from} {to} {message}', '{packet} ask {worker}', '{packet} job {worker} {entity}', '{packet} done {worker} {entity}'],
             'Packet {packet} leaves {from} for {to}.'),
    'got': (['{packet}'], 'Packet {packet} is delivered.'),
    'granted': (['{slot} {epoch} {incarnation}'], 'The lease of {slot} is granted to {incarnation}, under epoch {epoch}.'),
    'freed': (['{slot} {epoch} {cause}'], 'The lease of {slot}, epoch {epoch}, ends: {cause}.'),
    'held': (['{slot} {incarnation} by {node}'], '{incarnation} asks for the lease of {slot} in vain: node {node} holds it.'),
    'registered': (['{region}'], 'The coordinator knows the region of {region} now.'),
    'terminated': (['{region}'], "The coordinator drops the region of {region}: it isn't a member any more."),
    'allocated': (['{shard} {home}'], 'The coordinator gives shard {shard} its home: {home}.'),
    'deallocated': (['{shard}'], 'Shard {shard} has no home for now: it has stopped where it was.'),
    'moving': (['{shard} {stamp}'], 'Shard {shard} begins to move, in round {stamp}.'),
    'home': (['{incarnation} {shard} {home}'], '{incarnation} learns that the home of shard {shard} is {home}.'),
    'forget': (['{incarnation} {shard}'], '{incarnation} forgets the home of shard {shard}.'),
    'kept': (['{incarnation} {producer} {entity} {number}'],
             "{incarnation} keeps command {number} of producer {producer} to {entity}, until its shard's home is known."),
    'dropped': (['{incarnation} {producer} {entity} {number}'],
                '{incarnation} drops command {number} of producer {producer} to {entity}; a tick will send it again.'),
    'stashed': (['{incarnation} {producer} {entity} {number}'], 'Command {number} of producer {producer} waits for {entity}.'),
    'start': (['{incarnation} {entity}'], 'Entity {entity} starts at {incarnation}, and reads its journal.'),
    'active': (['{incarnation} {entity} {records} {state}'], 'Entity {entity} has read {records} records, and is in state {state}.'),
    'stop': (['{incarnation} {entity}'], 'Entity {entity} stops at {incarnation}.'),
    'writefailed': (['{incarnation} {entity}'], 'The write of {entity} fails, and {entity} is gone from {incarnation}.'),
    'armed': (['{entity} {keep}'], 'The next write of {entity} will fail: {keep}.'),
    'wrote': (['{entity} {number} epoch {epoch} by {producer}:{place} {command} / {events} / {reply}'],
              'Entity {entity} records command {place} of producer {producer}, {command}: record {number}, under epoch {epoch}. '
              'Its events: {events}; its answer: {reply}.'),
    'snapshot': (['{entity} {records}'], 'A snapshot of {entity} stands for its first {records} records.'),
    'remembered': (['{entity}'], 'Entity {entity} will start with its shard from now on.'),
    'forgotten': (['{entity}'], "Entity {entity} won't start with its shard any more."),
    'waits': (['{producer} {entity} {command}'], 'A command to {entity} waits: no node holds the queue of producer {producer}.'),
    'queued': (['{producer} {entity} {number} {command}'],
               'Command {number} to {entity}, {command}, is in the durable queue of producer {producer}.'),
    'confirmed': (['{producer} {entity} {number}'], 'Producer {producer} knows that {entity} has recorded all up to command {number}.'),
    'reshard': (['{shards} {epoch}'], 'There are {shards} shards from here on; each goes on from epoch {epoch}.'),
    'upgrade': (['{version}'], 'Entities behave by version {version} from here on.'),
    'given': (['{entity} {worker}'], 'Job {entity} is given to the worker {worker}.'),
    'did': (['{worker} {entity}'], 'The worker {worker} does job {entity}.'),
}

# the packets: their forms, the sentence of one, and its family
PACKETS: Dict[str, Tuple[str, str, str]] = {
    'view': ('{version} {members}', 'These are the members: {members}.', 'members'),
    'register': ('', 'Please register my region.', 'members'),
    'registerack': ('', 'Your region is registered.', 'members'),
    'getshardhome': ('{shard}', 'Where is shard {shard}?', 'homes'),
    'shardhome': ('{shard} {home} {stamp}', 'The home of shard {shard} is {home}.', 'homes'),
    'hostshard': ('{shard} {stamp}', 'You are the home of shard {shard}.', 'homes'),
    'shardstarted': ('{shard}', 'I host shard {shard}.', 'homes'),
    'beginhandoff': ('{shard} {stamp}', 'Shard {shard} will move: keep its messages from now on.', 'handoff'),
    'beginhandoffack': ('{shard} {stamp}', 'I keep the messages of shard {shard}.', 'handoff'),
    'handoff': ('{shard} {stamp}', 'Stop shard {shard}.', 'handoff'),
    'shardstopped': ('{shard} {stamp}', 'Shard {shard} is stopped, and its lease is free.', 'handoff'),
    'gracefulshutdownreq': ('', 'I leave: move my shards away.', 'handoff'),
    'stopentity': ('{entity}', 'Entity {entity}: stop.', 'inner'),
    'recovered': ('{entity}', 'Entity {entity}: your journal is read.', 'inner'),
    'passivate': ('{entity}', 'Entity {entity} wants to be stopped.', 'inner'),
    'sequenced': ('{producer} {entity} {number} {origin} {command}', 'Command {number} of producer {producer} to {entity}: {command}.', 'command'),
    'request': ('{producer} {entity} {confirmed} {upto}', '{entity} has recorded up to {confirmed}; send up to {upto}.', 'answer'),
    'resend': ('{producer} {entity} {number}', 'To {entity}: send again, from command {number} on.', 'answer'),
    'ack': ('{producer} {entity} {confirmed}', '{entity} has recorded all up to {confirmed}.', 'answer'),
    'ask': ('{worker}', 'The worker {worker} asks for work.', 'answer'),
    'job': ('{worker} {entity}', 'Job {entity} for the worker {worker}.', 'command'),
    'done': ('{worker} {entity}', 'The worker {worker} has done job {entity}.', 'answer'),
}


# the orders of a script: their forms, and a sentence
ORDERS: Dict[str, Tuple[str, str]] = {
    'up': ('{node}', 'Node {node} is started.'),
    'crash': ('{node}', 'Node {node} stops at once, and forgets all that it knew.'),
    'leave': ('{node}', 'Node {node} asks that its shards go elsewhere; it stays up.'),
    'tick': ('{node}', "The timer of node {node} runs: what isn't answered is asked again, what isn't confirmed is sent again."),
    'produce': ('{producer} {node}', 'Node {node} takes the queue of producer {producer}.'),
    'rest': ('{producer}', 'The queue of producer {producer} is given back.'),
    'send': ('{producer} {entity} {command}', 'Producer {producer} has a command for {entity}: {command}.'),
    'passivate': ('{entity}', 'Entity {entity} asks to be stopped.'),
    'failwrite': ('{entity} {keep}', 'The next write of {entity} will fail: {keep}.'),
    'deliver': ('{packet}', 'Packet {packet} is delivered.'),
    'pump': ('{number}', 'Packets are delivered, the oldest first, until none is left, or {number} were.'),
    'rebalance': ('{number}', 'The coordinator moves shards from nodes with many to nodes with few, at most {number}.'),
    'settle': ('', 'All nodes stop; node 1 starts alone, and runs until every command is confirmed.'),
    'reshard': ('{shards}', 'The entities are grouped anew, in {shards} shards.'),
    'upgrade': ('', 'Entities behave by version 2 from here on.'),
}

# parts that a sentence tells in other words: what they begin with, and what it says for that
SAID: Dict[str, List[Tuple[str, str]]] = {
    'slot': [('shard:', 'shard '), ('queue:', 'the queue of producer '), ('coordinator', 'the coordinator')],
    'cause': [('released', 'its holder gives it back'), ('stopped', 'its holder is down')],
    'keep': [('kept', 'its record stands, but nobody is told'), ('lost', 'nothing is recorded')],
    'events': [('-', 'none')],
}


def source_of(form: str) -> str:
    """The regular expression of a form, with a group for each part."""
    pieces = re.split(r'\{(\w+)\}', form)
    return ''.join(f'(?P<{piece}>{lazy(TYPES[piece])})' if n % 2 else re.escape(piece) for n, piece in enumerate(pieces))


def lazy(pattern: str) -> str:
    """What may hold spaces takes as few of them as it can."""
    return r'[ -~]+?' if pattern == REST else pattern


FACT_PATTERNS: Dict[str, List[Pattern[str]]] = {
    kind: [re.compile(source_of(f'{kind} {form}'.rstrip())) for form in forms] for kind, (forms, _) in FACTS.items()}
PACKET_PATTERNS: Dict[str, Pattern[str]] = {
    kind: re.compile(source_of(f'{kind} {form}'.rstrip())) for kind, (form, _, _) in PACKETS.items()}
ORDER_PATTERNS: Dict[str, Pattern[str]] = {
    kind: re.compile(source_of(f'{kind} {form}'.rstrip())) for kind, (form, _) in ORDERS.items()}

Part = Union[str, int, List[str], Dict[str, object]]


def json_type(name: str) -> Dict[str, object]:
    """What a part is in JSON, as JSON Schema says it."""
    if name == 'events':
        return {'type': 'array', 'items': {'type': 'string'}}
    if name == 'members':
        return {'type': 'array', 'items': {'type': 'string', 'pattern': browser_pattern(INCARNATION)}}
    if TYPES[name] == NUMBER:
        return {'type': 'integer', 'minimum': 0}
    return {'type': 'string', 'pattern': browser_pattern(TYPES[name])}


def browser_pattern(pattern: str) -> str:
    return f'^(?:{pattern})$'.replace(r'\d', '[0-9]')


def parts_of(fact: Fact) -> Dict[str, Part]:
    """The parts of a fact, by name, numbers as such."""
    found = next(filter(None, (pattern.fullmatch(fact.text) for pattern in FACT_PATTERNS[fact.kind])), None)
    parts = {} if found is None else {name: part_of(name, text) for name, text in found.groupdict().items()}
    if fact.kind == 'sent':
        message = packet_of(str(parts.pop('message', '')) or ' '.join(fact.words[2:]))
        parts['message'] = message if message is not None else {}
        parts.pop('worker', None)
        parts.pop('entity', None)
    return parts


def packet_of(text: str) -> Optional[Dict[str, Part]]:
    """The parts of a packet's words, its kind among them; None of one that isn't known."""
    kind = text.split(' ', 1)[0]
    found = PACKET_PATTERNS[kind].fullmatch(text) if kind in PACKET_PATTERNS else None
    return None if found is None else {'kind': kind, **{name: part_of(name, part) for name, part in found.groupdict().items()}}


def part_of(name: str, text: str) -> Part:
    if TYPES[name] == NUMBER:
        return int(text)
    if name == 'members':
        return text.split(',')
    if name == 'events':
        return [] if text == '-' else text.split(', ')
    return text
