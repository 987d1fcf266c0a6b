"""Names and numbers that `judge` takes, for names of any form."""
from __future__ import annotations

import itertools
import re
from typing import Dict, List, Sequence, Set, Tuple

LETTERS = 'abcdefghijklmnopqrstuvwxyz0123456789'
MOST_NAME = 32          # characters of a name
KEPT = 20               # of these, what is kept of a name that doesn't fit
MOST_NODES = 16
NAME = re.compile(rf'[A-Za-z0-9_-]{{1,{MOST_NAME}}}')


def java_hash(text: str) -> int:
    """`String.hashCode`, over the 16-bit units of the text, as a number of 32 bits without its sign."""
    hashed = 0
    units = text.encode('utf-16-be', 'surrogatepass')
    for at in range(0, len(units), 2):
        hashed = (31 * hashed + (units[at] << 8 | units[at + 1])) & 0xFFFFFFFF
    return hashed


def shard_number(text: str, shards: int) -> int:
    """The absolute value of the hash, modulo the number of shards."""
    hashed = java_hash(text)
    return (hashed if hashed < 1 << 31 else (1 << 32) - hashed) % shards


# what may stand behind a name, shortest first: its text, the hash of it alone, and 31 to the power of its length
SUFFIXES: List[Tuple[str, int, int]] = [
    (text, java_hash(text), 31 ** len(text)) for size in (2, 3) for text in map(''.join, itertools.product('-', *[LETTERS] * size))
]


def fitting_name(text: str, shard: int, shards: int, taken: Set[str]) -> str:
    """A name of that shard which isn't taken: the text itself, if that is one, else the beginning of it with a suffix."""
    if NAME.fullmatch(text) and text not in taken and shard_number(text, shards) == shard:
        return text
    stem = re.sub('[^A-Za-z0-9_-]', '_', text)[:KEPT]
    hashed = java_hash(stem)
    for suffix, own, power in SUFFIXES:
        whole = (hashed * power + own) & 0xFFFFFFFF
        if (whole if whole < 1 << 31 else (1 << 32) - whole) % shards == shard and stem + suffix not in taken:
            return stem + suffix
    raise AssertionError(f'{len(SUFFIXES)} suffixes, none of which brings {text} into shard {shard} of {shards}')


def shard_numbers(names: Sequence[str], most: int) -> Tuple[Dict[str, int], int]:
    """A number below `shards` for each shard, and `shards`: their own, where all are small numbers."""
    if all(re.fullmatch('0|[1-9][0-9]{0,2}', it) and int(it) < most for it in names):
        return {it: int(it) for it in names}, max((int(it) for it in names), default=0) + 1
    return {it: at for at, it in enumerate(names)}, max(len(names), 1)


def incarnation_texts(incarnations: Sequence[Tuple[str, str]]) -> Dict[Tuple[str, str], str]:
    """Each incarnation as `node.start`. Nodes keep their numbers where all are 1 to 16, and so do starts where they are
    small numbers. Of more than 16 nodes some share a number, and differ by their starts."""
    nodes = list(dict.fromkeys(node for node, _ in incarnations))
    if all(re.fullmatch('[1-9][0-9]?', it) and int(it) <= MOST_NODES for it in nodes):
        numbers = {it: int(it) for it in nodes}
    else:
        numbers = {it: at % MOST_NODES + 1 for at, it in enumerate(nodes)}
    own = len(nodes) <= MOST_NODES and all(re.fullmatch('[1-9][0-9]{0,5}', it) for _, it in incarnations)
    starts: Dict[int, int] = {}
    texts = {}
    for node, start in incarnations:
        number = numbers[node]
        starts[number] = starts.get(number, 0) + 1
        texts[node, start] = f'{number}.{start if own else starts[number]}'
    return texts
