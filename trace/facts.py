"""Facts of a trace: what their lines look like, and how a trace is read."""
from __future__ import annotations

import re
from dataclasses import dataclass, field
from typing import Dict, List, Sequence, Tuple

MOST_LINE = 1_000       # characters of a fact's line

# each kind's forms; a word in capitals, and `..`, stands for what PARTS has
PARTS = {
    'N': r'\d{1,18}', 'X': r'\d{1,9}\.\d{1,9}', 'E': r'[A-Za-z0-9_-]{1,32}', 'STAMP': r'\d{1,18}/\d{1,18}',
    'SLOT': r'(?:shard:\d{1,9}|coordinator|queue:\d{1,9})', '..': r'[ -~]*[!-~]',
    'CAUSE': r'(?:released|stopped)', 'KEEP': r'(?:kept|lost)', 'REPLY': r'(?:ok|no) \d{1,18}',
}
FORMS = {
    'at': ['N'], 'nothing': [''], 'wirefull': [''], 'settled': [''],
    'up': ['X'], 'gone': ['X'], 'view': ['X N'],
    'sent': ['N X X ..', 'N ask X', 'N job X E', 'N done X E'], 'got': ['N'],
    'granted': ['SLOT N X'], 'freed': ['SLOT N CAUSE'], 'held': ['SLOT X by N'],
    'registered': ['X'], 'terminated': ['X'], 'allocated': ['N X'], 'deallocated': ['N'], 'moving': ['N STAMP'],
    'home': ['X N X'], 'forget': ['X N'],
    'kept': ['X N E N'], 'dropped': ['X N E N'], 'stashed': ['X N E N'],
    'start': ['X E'], 'active': ['X E N ..'], 'stop': ['X E'], 'writefailed': ['X E'], 'armed': ['E KEEP'],
    'wrote': ['E N epoch N by N:N .. / .. / REPLY'],
    'snapshot': ['E N'], 'remembered': ['E'], 'forgotten': ['E'],
    'waits': ['N E ..'], 'queued': ['N E N ..'], 'confirmed': ['N E N'],
    'reshard': ['N N'], 'upgrade': ['N'], 'given': ['E X'], 'did': ['X E'],
}


def pattern_of(form: str) -> str:
    """The regular expression of a form: its words, with the parts put in for their names."""
    return ''.join(PARTS.get(word, re.escape(word)) for word in re.split('([ :])', form))


PATTERNS = {kind: re.compile('|'.join(pattern_of(f'{kind} {form}'.rstrip()) for form in forms))
            for kind, forms in FORMS.items()}


class NoTrace(Exception):
    """The input isn't a trace; its text says from which line on, and why."""


@dataclass(frozen=True)
class Fact:
    """A line of the trace."""
    line: int                   # from 1
    text: str
    words: Tuple[str, ...]

    @property
    def kind(self) -> str:
        return self.words[0]


@dataclass
class Trace:
    """What was read."""
    facts: List[Fact]
    orders: Dict[int, str]      # the script's lines by number, where the input has a script
    comments: List[str]         # at the script's head, without their marks
    report_lines: int = 0       # from the line `report` on
    shards: Dict[str, int] = field(default_factory=dict)        # of entities, as the report tells them


def read(data: bytes) -> Trace:
    """The trace that these bytes spell."""
    lines = data.decode('ascii', 'backslashreplace').split('\n')
    if lines[-1] == '':
        lines.pop()
    lines = [line[:-1] if line.endswith('\r') else line for line in lines]
    if not lines:
        raise NoTrace('line 1: no trace: the input is empty')
    script, lines = split_script(lines)
    orders, comments = orders_of(script)
    facts, rest = facts_of(lines)
    return Trace(facts, orders, comments, rest, shards_of(lines[len(lines) - rest:]))


def split_script(lines: List[str]) -> Tuple[List[str], List[str]]:
    """The lines of the script, none where the input is a trace alone, and those of the trace."""
    first = next((n for n, line in enumerate(lines) if line.split() and not line.split()[0].startswith('#')), None)
    if first is None or lines[first].split()[0] != 'config':
        return [], lines
    if 'trace' not in lines:
        raise NoTrace(f"line {first + 1}: a script, and no line 'trace' behind it with a trace")
    cut = lines.index('trace')
    return lines[:cut], lines[cut + 1:]


def orders_of(script: Sequence[str]) -> Tuple[Dict[int, str], List[str]]:
    """The orders by the number of their line, and the comments before them, without a comment that is a command."""
    orders: Dict[int, str] = {}
    comments: List[str] = []
    for number, line in enumerate(script, 1):
        words = ' '.join(printable(line).split())
        if words and not words.startswith('#'):
            orders[number] = words
        elif words and not orders and not words.startswith('# ./'):
            comments.append(words.lstrip('# '))
    return orders, comments


def printable(text: str) -> str:
    """Without the characters that XML doesn't take."""
    return re.sub(r'[^\t -~]', '?', text)


def facts_of(lines: Sequence[str]) -> Tuple[List[Fact], int]:
    """The facts of these lines, and the number of lines of the report behind them."""
    facts, rest = [], 0
    for number, line in enumerate(lines, 1):
        if line == 'report':
            rest = len(lines) - number + 1
            break
        if not line.lstrip(' \t').startswith('#'):
            facts.append(fact_of(number, line))
    if not facts:
        raise NoTrace('line 1: no trace: ' + ('a report, and no fact before it' if rest else 'no line is a fact'))
    return facts, rest


def shards_of(report: Sequence[str]) -> Dict[str, int]:
    """The shards of the entities of a report."""
    found = (re.fullmatch(f"entity ({PARTS['E']}) shard ({PARTS['N']}) .*", line) for line in report)
    return {entity[1]: int(entity[2]) for entity in found if entity}


def fact_of(number: int, line: str) -> Fact:
    kind = line.split(' ', 1)[0]
    if kind not in PATTERNS or len(line) > MOST_LINE:
        raise NoTrace(f'line {number}: no fact: {quoted(line)}')
    if not PATTERNS[kind].fullmatch(line):
        forms = ' or '.join(repr(f'{kind} {form}'.rstrip()) for form in FORMS[kind])
        raise NoTrace(f'line {number}: no fact: {quoted(line)}; its form is {forms}')
    return Fact(number, line, tuple(line.split(' ')))


def quoted(line: str) -> str:
    return repr(cut_off(printable(line), 60))


def cut_off(text: str, most: int) -> str:
    """At most so many characters, with a sign where some are missing."""
    return text if len(text) <= most else text[:most - 1] + '…'
