"""What entities do: commands of the three kinds as they are printed, and stand-ins for all others."""
from __future__ import annotations

import json
import re
import zlib
from typing import Any, Dict, List, Optional, Tuple

KINDS = ('counter', 'account', 'cart')
AMOUNT, ITEM, QUANTITY = 1_000_000, 9999, 1000
# each command's words with the greatest number that may stand behind them
COMMANDS: Dict[str, Dict[str, Tuple[int, ...]]] = {
    'counter': {'add': (1000,), 'read': ()},
    'account': {'create': (), 'deposit': (AMOUNT,), 'withdraw': (AMOUNT,), 'balance': (), 'close': ()},
    'cart': {'add': (ITEM, QUANTITY), 'remove': (ITEM,), 'adjust': (ITEM, QUANTITY), 'checkout': ()},
}
EVENT = r'(?:added|adjusted|deposited|withdrawn|removed)(?: [1-9]\d*){1,2}|created|closed|checkedout'
EVENTS = re.compile(rf'-|(?:{EVENT})(?:, (?:{EVENT}))*')
REPLY = re.compile(r'(?:ok|no) (?:0|[1-9]\d{0,17})')
STATE = re.compile(r'0|[1-9]\d*|none|closed|open (?:0|[1-9]\d*)|(?:open|out) (?:-|\d+:\d+(?:,\d+:\d+)*)')
MOST_STAND_IN = 1000


def stand_in(command: Any) -> int:
    """The number that stands for a command: the same for the same one, and seldom for another."""
    if command is None:
        return 1
    text = command if isinstance(command, str) else json.dumps(command, sort_keys=True)
    return 1 + zlib.crc32(text.encode('utf-8', 'surrogatepass')) % MOST_STAND_IN


def is_command(kind: str, text: Any) -> bool:
    if not isinstance(text, str):
        return False
    word, *numbers = text.split(' ')
    most = COMMANDS[kind].get(word)
    return most is not None and len(most) == len(numbers) and all(
        re.fullmatch('[1-9][0-9]{0,6}', it) is not None and int(it) <= bound for it, bound in zip(numbers, most))


def events_text(events: Any) -> Optional[str]:
    """Events as they are printed; None where they are none of the three kinds'."""
    if isinstance(events, list):
        events = ', '.join(map(str, events)) or '-'
    return events if isinstance(events, str) and EVENTS.fullmatch(events) else None


def is_reply(reply: Any) -> bool:
    return isinstance(reply, str) and REPLY.fullmatch(reply) is not None


def is_state(state: Any) -> bool:
    return isinstance(state, str) and STATE.fullmatch(state) is not None


def leading_to(kind: str, state: str) -> Optional[List[Tuple[str, str, str]]]:
    """Commands with their events and replies that lead to a state; None where there are no such, or too many."""
    if kind == 'counter':
        return leading_to_total(int(state)) if state.isdigit() else None
    if kind == 'account':
        return leading_to_account(state)
    return leading_to_cart(*state.split(' ')) if ' ' in state else None


MOST_LEADING = 1000     # commands of an opening


def in_steps(total: int, most: int) -> Optional[List[int]]:
    steps = [most] * (total // most) + [total % most] * (total % most > 0) if total <= MOST_LEADING * most else None
    return steps


def leading_to_total(total: int) -> Optional[List[Tuple[str, str, str]]]:
    steps = in_steps(total, 1000)
    return None if steps is None else [(f'add {it}', f'added {it}', f'ok {sum_to}') for it, sum_to in with_sums(steps)]


def with_sums(steps: List[int]) -> List[Tuple[int, int]]:
    found, total = [], 0
    for it in steps:
        total += it
        found.append((it, total))
    return found


def leading_to_account(state: str) -> Optional[List[Tuple[str, str, str]]]:
    created = [('create', 'created', 'ok 0')]
    if state == 'none':
        return []
    if state == 'closed':
        return created + [('close', 'closed', 'ok 0')]
    steps = in_steps(int(state.split(' ')[1]), AMOUNT) if state.startswith('open ') and state[5:].isdigit() else None
    return None if steps is None else created + [(f'deposit {it}', f'deposited {it}', f'ok {total}') for it, total in with_sums(steps)]


def leading_to_cart(word: str, items: str) -> Optional[List[Tuple[str, str, str]]]:
    pairs = [it.split(':') for it in items.split(',')] if ':' in items else []
    found = [(f'add {item} {count}', f'added {item} {count}', f'ok {at}') for at, (item, count) in enumerate(pairs, 1)]
    return found + ([('checkout', 'checkedout', f'ok {len(pairs)}')] if word == 'out' else [])
