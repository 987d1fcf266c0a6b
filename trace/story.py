"""What a trace tells: the rows of a picture, the packets, and what lasts from one row to another."""
from __future__ import annotations

from dataclasses import dataclass
from typing import Dict, List, Optional, Set, Tuple

from actors import ACTOR_AT, Actors, Packet, is_pulled, node_of
from facts import Fact, Trace, cut_off

MOST_TEXT = 60          # characters of a fact that are shown
MOST_ORDER = 30         # characters of an order, or of a fact of no node

# how a fact's text looks
TONES = {**dict.fromkeys(('wrote', 'queued', 'confirmed', 'granted', 'freed', 'up'), 'strong'),
         **dict.fromkeys(('gone', 'dropped', 'writefailed', 'wirefull'), 'bad'),
         **dict.fromkeys(('sent', 'got', 'view', 'nothing'), 'quiet')}

# packets by family: the class of an arrow, and its words in the legend
FAMILIES = {
    'command': ('a command', ('sequenced', 'job')),
    'answer': ('acks and requests', ('ack', 'request', 'resend', 'ask', 'done')),
    'homes': ('homes of shards', ('getshardhome', 'shardhome', 'hostshard', 'shardstarted')),
    'handoff': ('a handoff', ('beginhandoff', 'beginhandoffack', 'handoff', 'shardstopped', 'gracefulshutdownreq')),
    'inner': ("an entity's own", ('stopentity', 'recovered', 'passivate')),
    'members': ('members, regions', ('view', 'register', 'registerack')),
}
FAMILY_OF = {kind: family for family, (_, kinds) in FAMILIES.items() for kind in kinds}
BAR_KINDS = {'coordinator': "the coordinator's lease", 'shard': "a shard's lease", 'queue': "a queue's lease",
             'entity': 'a live entity (pale: it reads its journal)'}


def family_of(packet: Packet) -> str:
    return FAMILY_OF.get(packet.kind, 'members')


@dataclass
class Span:
    """Something that lasts from one row to another: an incarnation, a lease, or the life of an entity."""
    kind: str                   # 'up', or a key of BAR_KINDS
    node: int
    labels: List[str]           # the whole one first, then shorter ones
    start: int
    end: Optional[int] = None   # None: to the end of the trace
    active: Optional[int] = None    # an entity's: the row in which it has read its journal
    crashed: bool = False


@dataclass
class Row:
    """A fact with the node beside which it stands, None beside none, and what is shown of it."""
    fact: Fact
    node: Optional[int]
    shown: str
    tone: str
    note: str = ''              # shown behind it
    note_tone: str = 'quiet'
    tooltip: str = ''           # the whole of it, where less is shown

    @property
    def length(self) -> int:
        return len(self.shown) + len(self.note)

    @property
    def is_cut(self) -> bool:
        return '…' in self.shown + self.note


class Story:
    """Goes over the facts once, and knows after each who holds what, who lives where, and whose turn it is."""

    def __init__(self, trace: Trace) -> None:
        self.rows: List[Row] = []
        self.spans: List[Span] = []
        self._trace = trace
        self._actors = Actors()
        self._is_pull = is_pulled(trace.facts)
        self._open: Dict[Tuple[str, ...], Span] = {}    # spans that have not ended, by what they are of
        self._met: Set[str] = set()                     # incarnations that were up, or acted
        self._told_up = False                           # whether the trace has an `up` so far
        for fact in trace.facts:
            self._tell(fact)

    @property
    def packets(self) -> List[Packet]:
        return self._actors.posted

    def _tell(self, fact: Fact) -> None:
        if fact.kind != 'up':
            self._meet(fact)
        node = self._actors.see(fact)
        handle = getattr(self, '_on_' + fact.kind, None)
        if handle:
            handle(fact)
        room = MOST_TEXT if node is not None else MOST_ORDER
        row = Row(fact, node, cut_off(self._shown(fact), room), TONES.get(fact.kind, 'plain'))
        row.tooltip = fact.text if row.shown != fact.text else ''
        if fact.kind == 'got':
            self._note_packet(row)
        if fact.kind == 'at':
            self._note_order(row)
        self.rows.append(row)

    @property
    def _now(self) -> int:
        """The row of the fact that is being told."""
        return len(self.rows)

    def _shown(self, fact: Fact) -> str:
        """A fact's text; of a packet without its two ends, which the arrow shows."""
        if fact.kind == 'sent':
            return f'sent {fact.words[1]} {self._actors.packets[int(fact.words[1])].text}'
        return fact.text

    def _note_packet(self, row: Row) -> None:
        """Behind a `got` stands what packet it is, and why it is lost where it is."""
        packet = self._actors.packets.get(int(row.fact.words[1]))
        if packet is None:
            row.note = ' (sent before this trace)'
            return
        row.note = ' ' + packet.kind
        if packet.deliveries[-1].lost:
            row.note += ', lost: ' + packet.deliveries[-1].lost
            row.tone = row.note_tone = 'bad'

    def _note_order(self, row: Row) -> None:
        """Behind an `at` stands its order, where the script is there."""
        order = self._trace.orders.get(int(row.fact.words[1]))
        if order:
            row.note, row.tone, row.note_tone = ' ' + cut_off(order, MOST_ORDER), 'quiet', 'strong'
            row.tooltip = f'{row.fact.text} {order}' if row.is_cut else ''

    def _meet(self, fact: Fact) -> None:
        """An incarnation that acts with no `up` before it: where none was told of any, it was up before the trace."""
        name = self._actor(fact)
        if name is None or name in self._met:
            return
        self._met.add(name)
        node = node_of(name)
        if self._up_key(node) is None:
            self._begin(('up', name), Span('up', node, [name], self._now if self._told_up else 0))

    def _actor(self, fact: Fact) -> Optional[str]:
        """The incarnation that acts, where the fact names it; what a queue is granted to under `pull` is none."""
        if self._is_pull and fact.kind == 'granted':
            return None
        if fact.kind in ACTOR_AT:
            return fact.words[ACTOR_AT[fact.kind]]
        return fact.words[2] if fact.kind == 'sent' and '.' in fact.words[2] else None

    def _begin(self, key: Tuple[str, ...], span: Span) -> None:
        self._end(key)
        self._open[key] = span
        self.spans.append(span)

    def _end(self, key: Tuple[str, ...], crashed: bool = False) -> None:
        span = self._open.pop(key, None)
        if span is not None:
            span.end, span.crashed = self._now, crashed

    # one method for each kind that changes what is known
    def _on_up(self, fact: Fact) -> None:
        name = fact.words[1]
        node = node_of(name)
        self._met.add(name)
        self._told_up = True
        before = self._up_key(node)
        if before is not None:
            self._end(before)
        self._begin(('up', name), Span('up', node, [name], self._now))

    def _up_key(self, node: int) -> Optional[Tuple[str, ...]]:
        """Of the incarnation of a node that is up."""
        return next((key for key, span in self._open.items() if key[0] == 'up' and span.node == node), None)

    def _on_gone(self, fact: Fact) -> None:
        name = fact.words[1]
        self._end(('up', name), crashed=True)
        for key in [key for key in self._open if key[0] == 'entity' and key[1] == name]:
            self._end(key)

    def _on_granted(self, fact: Fact) -> None:
        _, slot, epoch, name = fact.words
        node = node_of(name)
        kind = slot.split(':')[0]
        self._begin(('slot', slot), Span(kind, node, [f'{slot} epoch {epoch}', f'{slot} {epoch}', epoch], self._now))

    def _on_freed(self, fact: Fact) -> None:
        self._end(('slot', fact.words[1]))

    def _on_start(self, fact: Fact) -> None:
        _, name, entity = fact.words
        self._begin(('entity', name, entity), Span('entity', node_of(name), [entity], self._now))

    def _on_active(self, fact: Fact) -> None:
        span = self._open.get(('entity', fact.words[1], fact.words[2]))
        if span is not None:
            span.active = self._now

    def _on_stop(self, fact: Fact) -> None:
        self._end(('entity', fact.words[1], fact.words[2]))

    _on_writefailed = _on_stop
