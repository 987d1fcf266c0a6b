"""What stands after each fact of a trace: one method for each kind of fact, and for each kind of packet that is got.

A state is words by what they are of: `state['node']['2']['view'] == '3'`. Of each word its whole history is kept: the
rows, counted from 0, after which it was another, and what it was then. So the state after any row can be looked up.

    of           what they are of            words
    node         a node's number             incarnation, view, members, registered, leaving, home.S, mark.S, asked.S, kept.ROW
    slot         as the trace names it       epoch, holder, stopping
    entity       its name                    shard, phase, at, live.X, records, state, remembered, armed, snapshot, stash.ROW
    pair         a producer and an entity    queued, confirmed, demanded, waiting
    coordinator  always `coordinator`        region.X, home.S, leaving.X, started.S, round, moving.S
    job          under work pulling          state, at, dids
    world        always `world`              members, shards, version

S is a shard, X an incarnation. An entity that lives at two, as in no trace of `sharder`, is `at` that of its last start,
and there is a live.X for each. kept.ROW is the message that was kept in that row, and is there as long as it is kept. A
word that isn't there is None. What a `got` shows, and what else no line tells, is read as docs/dev/RULES.md says
it, section 11.
"""
from __future__ import annotations

from typing import Dict, List, Optional, Set, Tuple

from actors import Packet, Actors, is_pulled, node_of
from behaviour import EMPTY, Entity, shard_of
from facts import Fact, Trace

Words = Tuple[str, ...]
Word = object                       # a text, a number, or None
Histories = Dict[str, Dict[str, Dict[str, List[Word]]]]
MOST_SHARDS = 128
COORDINATOR, WORLD = 'coordinator', 'world'


def stamp_of(text: str) -> Tuple[int, int]:
    epoch, _, begun = text.partition('/')
    return int(epoch), int(begun)


def setting(trace: Trace, key: str, other: str) -> str:
    """A setting of the script, where it is there."""
    words = next((line.split() for line in trace.orders.values() if line.startswith('config')), [])
    return next((word.partition('=')[2] for word in words if word.startswith(key + '=')), other)


def shards_at_first(trace: Trace) -> Optional[int]:
    """How many shards there are: the script's number, or the least one that fits all that is told of them."""
    if trace.orders:
        return int(setting(trace, 'shards', '10'))
    known: Set[Tuple[str, int]] = set()
    greatest, kept = 0, ''
    for fact in trace.facts:
        words = fact.words
        if fact.kind == 'reshard':
            break
        if fact.kind == 'sent' and words[4:5] == ('getshardhome',) and kept:
            known.add((kept, int(words[5])))
        elif fact.kind == 'granted' and words[1].startswith('shard:'):
            greatest = max(greatest, int(words[1][6:]))
        kept = words[3] if fact.kind == 'kept' else ''
    else:
        known |= {(name, shard) for name, shard in trace.shards.items()}
    greatest = max([greatest] + [shard for _, shard in known])
    return next((n for n in range(greatest + 1, MOST_SHARDS + 1) if all(shard_of(name, n) == shard for name, shard in known)), None)


class State:
    """Goes over the facts once. `nodes` is, for each row, the node that acts in it, or None."""

    def __init__(self, trace: Trace) -> None:
        self.histories: Histories = {of: {} for of in ('node', 'slot', 'entity', 'pair', 'coordinator', 'job', 'world')}
        self.nodes: List[Optional[int]] = []
        self.facts = trace.facts
        self.row = -1
        self.actors = Actors()
        self.is_pull = is_pulled(trace.facts)
        self.shards = shards_at_first(trace)
        self._orders = trace.orders
        self._kind = setting(trace, 'kind', 'counter') if trace.orders else ''
        self._members: List[str] = []
        self._members_at: List[str] = ['']              # after so many `up` and `gone`
        self._entities: Dict[str, Entity] = {}
        self._live: Dict[str, Set[str]] = {}            # by incarnation
        self._input: Tuple[str, str] = ('', '')         # of the packet that was got last, with no order since: its kind, and its text
        self._kept: Dict[Tuple[str, int], List[str]] = {}       # by incarnation and shard, the words `kept.ROW`
        self._stashed: Dict[str, List[str]] = {}        # by entity, the words `stash.ROW`
        self._demands: Dict[str, Set[str]] = {}         # by producer, the pairs that have a demand
        self._awaited: Dict[int, Tuple[str, List[str]]] = {}    # by moving shard, its owner and who is awaited
        self._begun = 0
        for fact in trace.facts:
            self._see(fact)

    def _see(self, fact: Fact) -> None:
        self.row += 1
        if self.row == 0 and self.shards is not None:
            self._set('world', WORLD, 'shards', self.shards)
        self.nodes.append(self.actors.see(fact))
        handle = SEES.get(fact.kind)
        if handle:
            handle(self, fact.words)

    def _set(self, of: str, item: str, word: str, value: Word) -> None:
        words = self.histories[of].setdefault(item, {})
        history = words.get(word)
        if history is None:
            if value is not None:
                words[word] = [self.row, value]
        elif history[-1] != value:
            if history[-2] == self.row:
                history[-1] = value
            else:
                history += (self.row, value)

    def _get(self, of: str, item: str, word: str) -> Word:
        history = self.histories[of].get(item, {}).get(word)
        return history[-1] if history else None

    def _clear(self, of: str, item: str, *beginnings: str) -> None:
        """The words that begin so aren't there any more; all without beginnings."""
        for word, history in self.histories[of].get(item, {}).items():
            if history[-1] is not None and (not beginnings or word.startswith(beginnings)):
                self._set(of, item, word, None)

    def _is_up(self, name: str) -> bool:
        return name in self._members

    # ---- the world
    def _at(self, words: Words) -> None:
        self._input = ('', '')
        order = self._orders.get(int(words[1]), '').split()
        if order[:1] == ['leave'] and self._get('node', order[1], 'incarnation'):
            self._set('node', str(int(order[1])), 'leaving', 'yes')

    def _up(self, words: Words) -> None:
        node = str(node_of(words[1]))
        self._clear('node', node)
        self._set('node', node, 'incarnation', words[1])
        self._members.append(words[1])
        self._note_members()

    def _gone(self, words: Words) -> None:
        name = words[1]
        self._clear('node', str(node_of(name)))
        for entity in sorted(self._live.pop(name, ())):
            self._end(entity, name)
            self._drop_stash(entity)
        self._kept = {key: kept for key, kept in self._kept.items() if key[0] != name}
        if name in self._members:
            self._members.remove(name)
        self._note_members()
        self._take_jobs(name)

    def _note_members(self) -> None:
        self._members_at.append(','.join(self._members))
        self._set('world', WORLD, 'members', self._members_at[-1] or None)

    def _reshard(self, words: Words) -> None:
        self.shards = int(words[1])
        self._set('world', WORLD, 'shards', self.shards)
        for slot in self.histories['slot']:
            if slot.startswith('shard:'):
                self._clear('slot', slot)
        for shard in range(self.shards if int(words[2]) else 0):
            self._set('slot', f'shard:{shard}', 'epoch', int(words[2]))
        self._clear('coordinator', COORDINATOR, 'home.', 'started.')
        for name in self._entities:
            self._set('entity', name, 'shard', shard_of(name, self.shards))

    def _upgrade(self, words: Words) -> None:
        self._set('world', WORLD, 'version', int(words[1]))

    # ---- the region of a node
    def _view(self, words: Words) -> None:
        node, version = str(node_of(words[1])), int(words[2])
        self._set('node', node, 'view', version)
        self._set('node', node, 'members', self._members_at[version] if version < len(self._members_at) else None)

    def _home(self, words: Words) -> None:
        _, name, shard, home = words
        self._set('node', str(node_of(name)), f'home.{shard}', home)
        self._release(name, int(shard))

    def _forget(self, words: Words) -> None:
        self._set('node', str(node_of(words[1])), f'home.{words[2]}', None)

    def _release(self, name: str, shard: int) -> None:
        """The messages that are kept for a shard are taken out where it is routable: at another node, or running at this one."""
        node = str(node_of(name))
        home, slot = self._get('node', node, f'home.{shard}'), f'shard:{shard}'
        is_running = self._get('slot', slot, 'holder') == name and not self._get('slot', slot, 'stopping')
        if home is not None and (home != name or is_running):
            for word in self._kept.pop((name, shard), ()):
                self._set('node', node, word, None)

    def _keep(self, words: Words) -> None:
        _, name, producer, entity, number = words
        shard = -1 if self.shards is None else shard_of(entity, self.shards)
        word = f'kept.{self.row}'
        self._kept.setdefault((name, shard), []).append(word)
        self._set('node', str(node_of(name)), word, f'{producer} {entity} {number}')
        self._meet(entity)

    # ---- leases
    def _granted(self, words: Words) -> None:
        _, slot, epoch, name = words
        self._set('slot', slot, 'epoch', int(epoch))
        self._set('slot', slot, 'holder', name)
        self._set('slot', slot, 'stopping', None)
        kind, _, number = slot.partition(':')
        if kind == 'shard':
            self._release(name, int(number))
        elif kind == 'queue':
            self._drop_demands(number)
        else:
            self._drop_office()

    def _freed(self, words: Words) -> None:
        self._set('slot', words[1], 'holder', None)
        self._set('slot', words[1], 'stopping', None)
        kind, _, number = words[1].partition(':')
        if kind == 'queue':
            self._drop_demands(number)
            self._take_jobs()
        elif kind == COORDINATOR:
            self._drop_office()

    # ---- the coordinator
    def _drop_office(self) -> None:
        self._clear('coordinator', COORDINATOR, 'leaving.', 'started.', 'moving.', 'round')
        self._awaited, self._begun = {}, 0

    def _registered(self, words: Words) -> None:
        self._set('coordinator', COORDINATOR, f'region.{words[1]}', self.row)

    def _terminated(self, words: Words) -> None:
        name = words[1]
        self._set('coordinator', COORDINATOR, f'region.{name}', None)
        for word, history in self.histories['coordinator'].get(COORDINATOR, {}).items():
            if word.startswith('home.') and history[-1] == name:
                self._set('coordinator', COORDINATOR, word, None)
                self._set('coordinator', COORDINATOR, 'started.' + word[5:], None)
        for shard in sorted(self._awaited):
            if self._awaited[shard][0] == name:
                self._done(shard)
            else:
                self._acknowledge(shard, name)

    def _allocated(self, words: Words) -> None:
        self._set('coordinator', COORDINATOR, f'home.{words[1]}', words[2])
        self._set('coordinator', COORDINATOR, f'started.{words[1]}', None)

    def _deallocated(self, words: Words) -> None:
        self._set('coordinator', COORDINATOR, f'home.{words[1]}', None)
        self._set('coordinator', COORDINATOR, f'started.{words[1]}', None)
        self._done(int(words[1]))

    def _moving(self, words: Words) -> None:
        shard, stamp = int(words[1]), words[2]
        self._set('coordinator', COORDINATOR, 'round', stamp)
        regions = self.histories['coordinator'].get(COORDINATOR, {})
        awaited = sorted((history[-1], word[7:]) for word, history in regions.items() if word.startswith('region.') and history[-1] is not None)
        owner = str(self._get('coordinator', COORDINATOR, f'home.{shard}'))
        self._awaited[shard] = owner, [name for _, name in awaited]
        self._tell_round(shard)

    def _acknowledge(self, shard: int, name: str) -> None:
        if shard in self._awaited and name in self._awaited[shard][1]:
            self._awaited[shard][1].remove(name)
            self._tell_round(shard)

    def _done(self, shard: int) -> None:
        if shard in self._awaited:
            del self._awaited[shard]
            self._set('coordinator', COORDINATOR, f'moving.{shard}', None)
            if not self._awaited:
                self._set('coordinator', COORDINATOR, 'round', None)

    def _tell_round(self, shard: int) -> None:
        owner, awaited = self._awaited[shard]
        said = f'from {owner}, awaits {",".join(awaited)}' if awaited else f'from {owner}, stops there'
        self._set('coordinator', COORDINATOR, f'moving.{shard}', said)

    # ---- entities
    def _meet(self, name: str) -> Entity:
        entity = self._entities.get(name)
        if entity is None:
            entity = self._entities[name] = Entity(self._kind)
            if self.shards is not None:
                self._set('entity', name, 'shard', shard_of(name, self.shards))
            self._set('entity', name, 'records', 0)
            self._set('entity', name, 'state', EMPTY.get(self._kind))
        return entity

    def _start(self, words: Words) -> None:
        _, name, entity = words
        self._meet(entity)
        self._live.setdefault(name, set()).add(entity)
        self._set('entity', entity, 'phase', 'loading')
        self._set('entity', entity, 'at', name)
        self._set('entity', entity, f'live.{name}', 'yes')
        self._set('entity', entity, 'armed', None)

    def _active(self, words: Words) -> None:
        _, name, entity, records, *state = words
        known = self._meet(entity)
        if not known.text() or not int(records) or self._get('entity', entity, 'records') != int(records):
            known.take(' '.join(state))
        self._set('entity', entity, 'phase', 'active')
        self._set('entity', entity, 'at', name)
        self._set('entity', entity, 'records', int(records))
        self._set('entity', entity, 'state', ' '.join(state))
        self._set('entity', entity, f'live.{name}', 'yes')
        self._live.setdefault(name, set()).add(entity)
        self._drop_stash(entity)

    def _stop(self, words: Words) -> None:
        self._live.get(words[1], set()).discard(words[2])
        self._end(words[2], words[1])

    def _end(self, entity: str, name: str) -> None:
        """It isn't live there any more. Its stash stays for the `start` or the `dropped` that may follow."""
        self._set('entity', entity, f'live.{name}', None)
        if self._get('entity', entity, 'at') in (name, None):
            self._set('entity', entity, 'phase', None)
            self._set('entity', entity, 'at', None)
            self._set('entity', entity, 'armed', None)

    def _drop_stash(self, entity: str) -> None:
        for word in self._stashed.pop(entity, ()):
            self._set('entity', entity, word, None)

    def _stash(self, words: Words) -> None:
        _, _, producer, entity, number = words
        word = f'stash.{self.row}'
        self._stashed.setdefault(entity, []).append(word)
        self._set('entity', entity, word, f'{producer} {entity} {number}')

    def _dropped(self, words: Words) -> None:
        """Of an entity that has stopped with its shard, the stash goes."""
        if self._get('entity', words[3], 'phase') is None:
            self._drop_stash(words[3])

    def _armed(self, words: Words) -> None:
        self._set('entity', words[1], 'armed', words[2])

    def _wrote(self, words: Words) -> None:
        """`wrote E N epoch N by P:N COMMAND / EVENTS / REPLY`"""
        name = words[1]
        entity = self._meet(name)
        events = ' '.join(words).split(' / ')[1]
        for event in events.split(', ') if events != '-' else ():
            entity.apply(event)
        self._set('entity', name, 'records', int(words[2]))
        self._set('entity', name, 'state', entity.text() or None)

    def _snapshot(self, words: Words) -> None:
        self._set('entity', words[1], 'snapshot', int(words[2]))

    def _remembered(self, words: Words) -> None:
        self._meet(words[1])
        self._set('entity', words[1], 'remembered', 'yes')

    def _forgotten(self, words: Words) -> None:
        self._set('entity', words[1], 'remembered', None)

    # ---- queues
    def _drop_demands(self, producer: str) -> None:
        for pair in self._demands.pop(producer, ()):
            self._set('pair', pair, 'demanded', None)

    def _waits(self, words: Words) -> None:
        pair = f'{words[1]} {words[2]}'
        waiting = self._get('pair', pair, 'waiting')
        self._set('pair', pair, 'waiting', (waiting if isinstance(waiting, int) else 0) + 1)
        self._meet(words[2])

    def _queued(self, words: Words) -> None:
        pair = f'{words[1]} {words[2]}'
        self._set('pair', pair, 'queued', int(words[3]))
        waiting = self._get('pair', pair, 'waiting')
        if isinstance(waiting, int):
            self._set('pair', pair, 'waiting', waiting - 1 or None)
        if self.is_pull:
            self._set('job', words[2], 'state', 'free')
            self._set('job', words[2], 'dids', 0)
        else:
            self._meet(words[2])

    def _confirmed(self, words: Words) -> None:
        self._set('pair', f'{words[1]} {words[2]}', 'confirmed', int(words[3]))
        if self.is_pull:
            self._set('job', words[2], 'state', 'confirmed')
            self._set('job', words[2], 'at', None)

    # ---- work pulling
    def _given(self, words: Words) -> None:
        self._set('job', words[1], 'state', 'given')
        self._set('job', words[1], 'at', words[2])

    def _take_jobs(self, name: str = '') -> None:
        """The jobs that are given to a worker, or to any, are free again."""
        for job in self.histories['job']:
            if self._get('job', job, 'state') == 'given' and name in ('', self._get('job', job, 'at')):
                self._set('job', job, 'state', 'free')
                self._set('job', job, 'at', None)

    def _did(self, words: Words) -> None:
        dids = self._get('job', words[2], 'dids')
        self._set('job', words[2], 'dids', (dids if isinstance(dids, int) else 0) + 1)

    # ---- packets
    def _sent(self, words: Words) -> None:
        handle = POSTS.get(words[4]) if len(words) > 4 else None
        if handle:
            handle(self, words[2], words[5:])

    def _asks(self, name: str, words: Words) -> None:
        self._set('node', str(node_of(name)), f'asked.{words[0]}', 'yes')

    def _leaves(self, name: str, _: Words) -> None:
        self._set('node', str(node_of(name)), 'leaving', 'yes')

    def _stops(self, name: str, words: Words) -> None:
        if self._get('entity', words[0], 'phase') in ('loading', 'active') and self._get('entity', words[0], 'at') == name:
            is_passivated = self._input == ('passivate', f'passivate {words[0]}')
            self._set('entity', words[0], 'phase', 'passivating' if is_passivated else 'stopping')

    def _got(self, words: Words) -> None:
        packet = self.actors.packets.get(int(words[1]))
        self._input = ('', '')
        if packet is None or packet.deliveries[-1].lost or not self._is_up(packet.addressee):
            return
        self._input = packet.kind, packet.text
        handle = GETS.get(packet.kind)
        if handle:
            handle(self, packet, tuple(packet.text.split(' '))[1:])

    def _got_registerack(self, packet: Packet, _: Words) -> None:
        self._set('node', str(packet.target), 'registered', packet.sender)

    def _got_shardhome(self, packet: Packet, words: Words) -> None:
        members = self._get('node', str(packet.target), 'members')
        if words[1] in str(members or '').split(','):
            self._take_mark(packet, words[0], words[2], False)

    def _got_hostshard(self, packet: Packet, words: Words) -> None:
        self._take_mark(packet, words[0], words[1], False)

    def _got_beginhandoff(self, packet: Packet, words: Words) -> None:
        self._take_mark(packet, words[0], words[1], True)

    def _take_mark(self, packet: Packet, shard: str, stamp: str, is_above: bool) -> None:
        node = str(packet.target)
        before = stamp_of(str(self._get('node', node, f'mark.{shard}') or '0/0'))
        if stamp_of(stamp) > before or stamp_of(stamp) == before and not is_above:
            self._set('node', node, f'mark.{shard}', stamp)
            self._set('node', node, f'asked.{shard}', None)

    def _got_handoff(self, packet: Packet, words: Words) -> None:
        node, slot = str(packet.target), f'shard:{words[0]}'
        mark = stamp_of(str(self._get('node', node, f'mark.{words[0]}') or '0/0'))
        if (stamp_of(words[1]) >= mark and self._get('node', node, f'home.{words[0]}') != packet.addressee
                and self._get('slot', slot, 'holder') == packet.addressee):
            self._set('slot', slot, 'stopping', f'{words[1]} for {packet.sender}')

    def _got_request(self, packet: Packet, words: Words) -> None:
        if self._get('slot', f'queue:{words[0]}', 'holder') == packet.addressee:
            pair = f'{words[0]} {words[1]}'
            before = self._get('pair', pair, 'demanded')
            self._set('pair', pair, 'demanded', max(before if isinstance(before, int) else 0, int(words[3])))
            self._demands.setdefault(words[0], set()).add(pair)

    def _is_coordinator(self, name: str) -> bool:
        return self._get('slot', 'coordinator', 'holder') == name

    def _got_gracefulshutdownreq(self, packet: Packet, _: Words) -> None:
        if self._is_coordinator(packet.addressee) and self._get('coordinator', COORDINATOR, f'region.{packet.sender}') is not None:
            self._set('coordinator', COORDINATOR, f'leaving.{packet.sender}', 'yes')

    def _got_shardstarted(self, packet: Packet, words: Words) -> None:
        if self._is_coordinator(packet.addressee) and self._get('coordinator', COORDINATOR, f'home.{words[0]}') == packet.sender:
            self._set('coordinator', COORDINATOR, f'started.{words[0]}', 'yes')

    def _got_beginhandoffack(self, packet: Packet, words: Words) -> None:
        if self._is_coordinator(packet.addressee) and self._get('coordinator', COORDINATOR, 'round') == words[1]:
            self._acknowledge(int(words[0]), packet.sender)


SEES = {
    'at': State._at, 'up': State._up, 'gone': State._gone, 'reshard': State._reshard, 'upgrade': State._upgrade,
    'view': State._view, 'home': State._home, 'forget': State._forget, 'kept': State._keep,
    'granted': State._granted, 'freed': State._freed,
    'registered': State._registered, 'terminated': State._terminated, 'allocated': State._allocated,
    'deallocated': State._deallocated, 'moving': State._moving,
    'start': State._start, 'active': State._active, 'stop': State._stop, 'writefailed': State._stop, 'stashed': State._stash,
    'dropped': State._dropped,
    'armed': State._armed, 'wrote': State._wrote, 'snapshot': State._snapshot, 'remembered': State._remembered,
    'forgotten': State._forgotten, 'waits': State._waits, 'queued': State._queued, 'confirmed': State._confirmed,
    'given': State._given, 'did': State._did, 'sent': State._sent, 'got': State._got,
}
POSTS = {'getshardhome': State._asks, 'gracefulshutdownreq': State._leaves, 'stopentity': State._stops}
GETS = {
    'registerack': State._got_registerack, 'shardhome': State._got_shardhome, 'hostshard': State._got_hostshard,
    'beginhandoff': State._got_beginhandoff, 'handoff': State._got_handoff, 'request': State._got_request,
    'gracefulshutdownreq': State._got_gracefulshutdownreq, 'shardstarted': State._got_shardstarted,
    'beginhandoffack': State._got_beginhandoffack,
}


def words_at(histories: Dict[str, List[Word]], row: int) -> Dict[str, Word]:
    """The words of an item after a row."""
    found: Dict[str, Word] = {}
    for word, history in histories.items():
        low, high = 0, len(history) // 2            # the changes before `low` are at `row` or before it
        while low < high:
            middle = (low + high) // 2
            low, high = (middle + 1, high) if history[2 * middle] <= row else (low, middle)
        if low and history[2 * low - 1] is not None:
            found[word] = history[2 * low - 1]
    return found


def state_at(histories: Histories, row: int) -> Dict[str, Dict[str, Dict[str, Word]]]:
    """All words after a row, of every item that has one."""
    found = {of: {item: words_at(words, row) for item, words in items.items()} for of, items in histories.items()}
    return {of: {item: words for item, words in items.items() if words} for of, items in found.items()}
