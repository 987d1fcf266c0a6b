"""The states of entities: what the events of a record make of them, and how they print."""
from __future__ import annotations

from typing import Dict

EMPTY = {'counter': '0', 'account': 'none', 'cart': 'open -'}


class Entity:
    """The state of an entity, as the events so far lead to it; of which kind it is, the first event says."""

    def __init__(self, kind: str = '') -> None:
        self.kind = kind
        self.total = 0              # a counter's; an account's balance
        self.memo = 0
        self.phase = 'none'         # an account's: none, open, closed; a cart's: open, out
        self.items: Dict[int, int] = {}

    def apply(self, event: str) -> None:
        name, *words = event.split(' ')
        numbers = [int(word) for word in words if word != 'memo']
        if name == 'added' and len(numbers) == 1:
            self.kind, self.total = 'counter', self.total + numbers[0]
        elif name in ('created', 'closed'):
            self.kind, self.phase, self.total = 'account', 'open' if name == 'created' else 'closed', 0
        elif name in ('deposited', 'withdrawn'):
            self.kind = 'account'
            self.total += numbers[0] if name == 'deposited' else -numbers[0]
            self.memo = numbers[1] if len(numbers) > 1 else 0
        elif name in ('added', 'adjusted'):
            self.kind, self.items[numbers[0]] = 'cart', numbers[1]
        elif name == 'removed':
            self.kind = 'cart'
            self.items.pop(numbers[0], None)
        elif name == 'checkedout':
            self.kind, self.phase = 'cart', 'out'

    def text(self) -> str:
        """As an `active` prints it; nothing where the kind isn't known."""
        if self.kind == 'counter':
            return str(self.total)
        if self.kind == 'account':
            return self.phase if self.phase != 'open' else f'open {self.total}' + (f' memo {self.memo}' if self.memo else '')
        if self.kind == 'cart':
            items = ','.join(f'{number}:{quantity}' for number, quantity in sorted(self.items.items()))
            return ('out ' if self.phase == 'out' else 'open ') + (items or '-')
        return ''

    def take(self, text: str) -> None:
        """Is what an `active` says."""
        first, *rest = text.split(' ')
        if first.isdigit():
            self.kind, self.total = 'counter', int(first)
        elif first in ('none', 'closed'):
            self.kind, self.phase, self.total, self.memo = 'account', first, 0, 0
        elif rest and rest[0].isdigit() and ':' not in rest[0]:
            self.kind, self.phase, self.total = 'account', first, int(rest[0])
            self.memo = int(rest[2]) if len(rest) > 2 else 0
        elif rest:
            self.kind, self.phase = 'cart', first
            self.items = {} if rest[0] == '-' else {int(number): int(quantity) for number, quantity in
                                                    (item.split(':') for item in rest[0].split(','))}


def shard_of(name: str, shards: int) -> int:
    """The shard of an entity: Java's hash of its name, as a distance from 0, modulo the number of shards."""
    value = 0
    for byte in name.encode('ascii'):
        value = (31 * value + byte) & 0xffffffff
    return abs(value - (1 << 32) if value >= 1 << 31 else value) % shards
