"""Scripts for `sharder`: those that `bulk` plays, and random ones."""
from __future__ import annotations

import random
from typing import List, NamedTuple

BITS_64, BITS_32 = 2**64 - 1, 2**32 - 1
MULTIPLIER = 6364136223846793005


def rotated(state: int) -> int:
    """A word of 32 bits of a state of 64: its upper bits, rotated by the uppermost."""
    word, by = ((state >> 18 ^ state) >> 27) & BITS_32, state >> 59
    return (word >> by | word << (32 - by)) & BITS_32


class Pcg32:
    """The generator that `bulk` draws from: PCG32, seeded by a number."""

    def __init__(self, number: int) -> None:
        words = []
        for _ in range(4):
            number = (number * MULTIPLIER + 11634580027462260723) & BITS_64
            words.append(rotated(number))
        self.step = words[2] | words[3] << 32 | 1
        self.state = ((words[0] | words[1] << 32) + self.step) & BITS_64
        self._next()

    def _next(self) -> None:
        self.state = (self.state * MULTIPLIER + self.step) & BITS_64

    def draw(self, below: int) -> int:
        word = rotated(self.state)
        self._next()
        return word % below


def bulk_script(number: int) -> List[str]:
    """The lines of the script that `bulk NUMBER` plays."""
    draw = Pcg32(number).draw
    lines = ['config nodes=4 shards=32 producers=4 buffer=64 window=16 snapshot=8 keep=2 remember=on kind=counter']
    lines += [f'up {node}' for node in range(1, 5)] + ['pump 200'] + [f'produce {it} {it}' for it in range(1, 5)] + ['pump 200']
    for _ in range(6 * number):
        kind = draw(16)
        if kind <= 8:
            producer, entity, amount = 1 + draw(4), draw(64), 1 + draw(1000)
            lines += [f'send {producer} e{entity} add {amount}', 'pump 8']
        elif kind <= 11:
            lines += [f'tick {1 + draw(4)}', 'pump 32']
        elif kind == 12:
            lines.append(f'rebalance {1 + draw(3)}')
        elif kind == 13:
            node = 1 + draw(4)
            lines += [f'crash {node}', f'up {node}']
        elif kind == 14:
            lines.append(f'passivate e{draw(64)}')
        else:
            producer, node = 1 + draw(4), 1 + draw(4)
            lines.append(f'produce {producer} {node}')
    return lines + ['settle']


class Shape(NamedTuple):
    """How large a random script is."""
    orders: int = 60
    nodes: int = 3
    shards: int = 4
    producers: int = 2
    names: int = 6
    kind: str = 'counter'


def command(kind: str, chance: random.Random) -> str:
    amount, item = chance.randint(1, 9), chance.randint(1, 4)
    commands = {
        'counter': [f'add {amount}'] * 4 + ['read'],
        'account': ['create', f'deposit {amount}', f'deposit {amount}', f'withdraw {amount}', 'balance', 'close'],
        'cart': [f'add {item} {amount}', f'add {item} {amount}', f'adjust {item} {amount}', f'remove {item}', 'checkout'],
    }[kind]
    return chance.choice(commands)


# how often each order comes
WEIGHTS = {'send': 30, 'pump': 30, 'deliver': 6, 'tick': 8, 'up': 5, 'crash': 4, 'leave': 1, 'produce': 4, 'rest': 1, 'rebalance': 3, 'passivate': 3, 'failwrite': 2}


def order(word: str, shape: Shape, chance: random.Random) -> str:
    node, producer, name = chance.randint(1, shape.nodes), chance.randint(1, shape.producers), f'e{chance.randrange(shape.names)}'
    return {
        'send': f'send {producer} {name} {command(shape.kind, chance)}', 'pump': f'pump {chance.choice((1, 4, 20, 60))}',
        'deliver': f'deliver {chance.randint(1, 4 * shape.orders)}', 'tick': f'tick {node}', 'up': f'up {node}', 'crash': f'crash {node}',
        'leave': f'leave {node}', 'produce': f'produce {producer} {node}', 'rest': f'rest {producer}', 'rebalance': f'rebalance {chance.randint(1, 3)}',
        'passivate': f'passivate {name}', 'failwrite': f'failwrite {name} {chance.choice(("kept", "lost"))}',
    }[word]


def random_script(seed: int, shape: Shape = Shape()) -> List[str]:
    """A script whose orders are drawn; it begins with some nodes up and the queues taken, and mostly ends with a settle."""
    chance = random.Random(seed)
    remember = chance.choice(('on', 'off'))
    lines = [f'config nodes={shape.nodes} shards={shape.shards} producers={shape.producers} snapshot={chance.choice((1, 2, 5, 100))} remember={remember} kind={shape.kind}']
    lines += [f'up {node}' for node in range(1, chance.randint(1, shape.nodes) + 1)] + ['pump 60']
    lines += [f'produce {producer} {chance.randint(1, shape.nodes)}' for producer in range(1, shape.producers + 1)] + ['pump 60']
    words = chance.choices(list(WEIGHTS), list(WEIGHTS.values()), k=shape.orders)
    lines += [order(word, shape, chance) for word in words]
    return lines + (['settle'] if chance.random() < 0.7 else [])
