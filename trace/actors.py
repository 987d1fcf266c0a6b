"""Who acts in each fact of a trace, and which packets are posted and delivered: what pictures, states and logs share."""
from __future__ import annotations

from dataclasses import dataclass, field
from typing import Dict, List, Optional, Sequence, Set, Tuple

from facts import Fact

# where the incarnation that acts stands among the words of a fact
ACTOR_AT = {'up': 1, 'gone': 1, 'view': 1, 'granted': 3, 'held': 2, 'home': 1, 'forget': 1, 'kept': 1, 'dropped': 1,
            'stashed': 1, 'start': 1, 'active': 1, 'stop': 1, 'writefailed': 1, 'did': 1}
# facts of the coordinator, of an entity (its name is the next word), of a queue (its producer is), of no node
OF_COORDINATOR = {'registered', 'terminated', 'allocated', 'deallocated', 'moving'}
OF_ENTITY = {'wrote', 'snapshot', 'remembered', 'forgotten', 'armed'}
OF_QUEUE = {'queued', 'confirmed'}
OF_NOBODY = {'at', 'nothing', 'wirefull', 'settled', 'waits', 'reshard', 'upgrade'}
# what stands for the producer of work pulling, whose packets don't name it
PRODUCER = 'the producer'


def node_of(incarnation: str) -> int:
    return int(incarnation.split('.')[0])


def is_pulled(facts: Sequence[Fact]) -> bool:
    """Whether this is a trace of work pulling: a fact or a packet that only it has is there. What its queue is
    granted to is then no incarnation of a node."""
    return any(fact.kind in ('given', 'did') or fact.kind == 'sent' and fact.words[2] in ('ask', 'job', 'done') for fact in facts)


@dataclass
class Delivery:
    """A `got` of a packet: of which fact, counted from 0, and why nobody takes it, where that is so."""
    row: int
    lost: str


@dataclass
class Packet:
    number: int
    row: int                    # of its `sent`
    sender: str                 # as the trace names it
    source: int                 # nodes
    target: int
    addressee: str              # as the trace names it
    text: str                   # its words behind the addressee
    deliveries: List[Delivery] = field(default_factory=list)

    @property
    def kind(self) -> str:
        return self.text.split(' ', 1)[0]


class Actors:
    """Goes over the facts once. `see` gives the node that acts, None where none does."""

    def __init__(self) -> None:
        self.posted: List[Packet] = []              # all packets, in order
        self.packets: Dict[int, Packet] = {}        # the last one of each number
        self.holders: Dict[str, str] = {}           # the incarnation that holds, or held last, each slot
        self.gone: Set[str] = set()
        self.row = -1                               # of the last fact that was seen
        self._homes: Dict[str, int] = {}            # the node at which an entity lives, or lived last
        self._turn: Optional[int] = None            # the node that got the last packet of this order
        self._era = 0                               # the row of the last `reshard`
        self._runs = False                          # whether queue 1 is held

    def see(self, fact: Fact) -> Optional[int]:
        self.row += 1
        kind, words = fact.kind, fact.words
        handle = SEES.get(kind)
        if handle:
            handle(self, words)
        return self._node(kind, words)

    def producer_node(self) -> Optional[int]:
        """The node of the producer of work pulling, as far as the trace has told it: that which holds queue 1 or held it last."""
        holder = self.holders.get('queue:1')
        return None if holder is None else node_of(holder)

    def _node(self, kind: str, words: Tuple[str, ...]) -> Optional[int]:
        """The node that acts in a fact: named, or known from what came before."""
        if kind in OF_NOBODY:
            return None
        if kind == 'sent':
            return self.packets[int(words[1])].source
        if kind == 'got':
            return self._turn
        if kind in ACTOR_AT:
            return node_of(words[ACTOR_AT[kind]])
        if kind in OF_ENTITY:
            return self._homes.get(words[1], self._turn)
        slot = words[1] if kind == 'freed' else 'coordinator' if kind in OF_COORDINATOR else 'queue:' + (words[1] if kind in OF_QUEUE else '1')
        holder = self.holders.get(slot)
        return self._turn if holder is None else node_of(holder)

    def _at(self, _: Tuple[str, ...]) -> None:
        self._turn = None

    def _gone(self, words: Tuple[str, ...]) -> None:
        self.gone.add(words[1])

    def _reshard(self, _: Tuple[str, ...]) -> None:
        self._era = self.row

    def _granted(self, words: Tuple[str, ...]) -> None:
        self.holders[words[1]] = words[3]
        self._runs = self._runs or words[1] == 'queue:1'

    def _freed(self, words: Tuple[str, ...]) -> None:
        self._runs = self._runs and words[1] != 'queue:1'

    def _start(self, words: Tuple[str, ...]) -> None:
        self._homes[words[2]] = node_of(words[1])

    def _sent(self, words: Tuple[str, ...]) -> None:
        number = int(words[1])
        if '.' in words[2]:
            packet = Packet(number, self.row, words[2], node_of(words[2]), node_of(words[3]), words[3], ' '.join(words[4:]))
        else:
            packet = self._pulled(number, words)
        self.packets[number] = packet
        self.posted.append(packet)

    def _pulled(self, number: int, words: Tuple[str, ...]) -> Packet:
        """A packet between a worker and the producer, who isn't named: it is at the node that holds the queue."""
        at = self.producer_node()
        worker, producer = node_of(words[3]), node_of(words[3]) if at is None else at
        text = ' '.join(words[2:])
        if words[2] == 'job':
            return Packet(number, self.row, PRODUCER, producer, worker, words[3], text)
        return Packet(number, self.row, words[3], worker, producer, PRODUCER, text)

    def _got(self, words: Tuple[str, ...]) -> None:
        packet = self.packets.get(int(words[1]))
        if packet is None:
            self._turn = None
            return
        if packet.addressee == PRODUCER:
            # the producer may have moved since the packet was posted
            at = self.producer_node()
            packet.target = packet.target if at is None else at
        self._turn = packet.target
        packet.deliveries.append(Delivery(self.row, self._lost(packet)))

    def _lost(self, packet: Packet) -> str:
        """Why a packet that is delivered now reaches nobody; nothing where it does."""
        if packet.addressee in self.gone:
            return f'{packet.addressee} is gone'
        if packet.addressee == PRODUCER and not self._runs:
            return 'no producer runs'
        return 'sent before the reshard' if packet.row < self._era else ''


SEES = {'at': Actors._at, 'gone': Actors._gone, 'reshard': Actors._reshard, 'granted': Actors._granted, 'freed': Actors._freed, 'start': Actors._start,
        'sent': Actors._sent, 'got': Actors._got}
