"""Tests of explore.py and draw.py that need no browser; check.py runs them."""
from __future__ import annotations

import json
import os
import re
import subprocess
import sys
import unittest
from typing import Dict, List, Optional, Tuple

HERE = os.path.dirname(os.path.abspath(__file__))
TRACE = os.path.dirname(HERE)
TOP = os.path.dirname(TRACE)
sys.path.insert(0, TRACE)

from choosing import Choice, WrongWords                                 # noqa: E402
from draw import picture                                                # noqa: E402
from explore import case_of, page_of                                    # noqa: E402
from facts import read                                                  # noqa: E402
from parts import FACTS, ORDER_PATTERNS, ORDERS, PACKETS, SAID          # noqa: E402
from sources import read_source                                         # noqa: E402
from state import State, words_at                                       # noqa: E402

KNOWN = os.path.join(TOP, 'crates', 'known_replays', 'data')
UNSAFE = os.path.join(TOP, 'examples', 'unsafe_two_incarnations.trace')


def bytes_of(*path: str) -> bytes:
    with open(os.path.join(*path), 'rb') as file:
        return file.read()


def text_of(*path: str) -> str:
    return bytes_of(*path).decode('utf-8')


def known(name: str) -> Tuple[bytes, bytes]:
    """The trace and the script."""
    return bytes_of(KNOWN, f'{name}.out'), bytes_of(KNOWN, f'{name}.in')


def played() -> List[str]:
    """The names of the known traces of `replay`."""
    names = [words[0] for words in map(str.split, text_of(KNOWN, 'index').split('\n')) if words[2:] == ['replay']]
    return [name for name in names if os.path.exists(os.path.join(KNOWN, f'{name}.out')) and bytes_of(KNOWN, f'{name}.out')[:3] == b'at ']


def page(data: bytes, script: bytes = b'', lines: Optional[List[int]] = None) -> Tuple[str, Dict[str, object]]:
    """A page with the judge's answer, and the data in it."""
    source = read_source(data, script)
    text, _ = page_of(source, 'A trace', lines, lambda: case_of(source))
    found = re.search('<script type="application/json" id="data">(.*)</script>', text)
    return text, json.loads(found[1]) if found else {}


def drawn(data: bytes, *words: str) -> Tuple[int, str]:
    """The status of draw.py, and what it says."""
    ran = subprocess.run([sys.executable, os.path.join(TRACE, 'draw.py'), *words], input=data, capture_output=True, check=False)
    return ran.returncode, ran.stderr.decode()


class Unsafe(unittest.TestCase):
    """The line that breaks a trace, as its page has it."""

    def test_the_line_and_why(self):
        _, data = page(bytes_of(UNSAFE))
        self.assertEqual(data['breaks'], {'line': 15, 'says': 'two live incarnations', 'against': [[9, 'c1 is live at 1.1 since then']]})
        # (it is told of a part of the lines too)
        self.assertEqual(page(bytes_of(UNSAFE), lines=[2, 9])[1]['breaks'], data['breaks'])

    def test_why_without_a_line_against_it(self):
        _, data = page(bytes_of(UNSAFE).replace(b'granted shard:0 1 1.1\n', b''))
        self.assertEqual(data['breaks'], {'line': 8, 'says': "live without its shard's lease", 'against': [[None, 'nobody has held shard:0 yet']]})

    def test_safe_traces(self):
        text, data = page(*known('rebalanced'))
        self.assertIsNone(data['breaks'])
        self.assertIn('judged safe', text)

    def test_what_is_not_judged(self):
        lists = b'slot shard:0 1\ngranted shard:0 1 1.1\nreport\nend\n'
        for data, script in ((known('rebalanced')[0], b''), known('job_given_again'), known('more_shards'), (lists, b'config\n'), (b'up 1.1\n', b'config x\n')):
            text, found = page(data, script)
            self.assertIsNone(found['breaks'])
            self.assertNotIn('judged safe', text)

    def test_an_entity_at_two_places(self):
        state = State(read(bytes_of(UNSAFE) + b'stop 1.1 c1\nstop 2.1 c1\n'))
        rows = {fact.line: row for row, fact in enumerate(state.facts)}
        seen = {line: {word: value for word, value in words_at(state.histories['entity']['c1'], row).items() if word in ('phase', 'at') or word[:4] == 'live'}
                for line, row in rows.items()}
        self.assertEqual(seen[10], {'phase': 'active', 'at': '1.1', 'live.1.1': 'yes'})
        self.assertEqual(seen[15], {'phase': 'loading', 'at': '2.1', 'live.1.1': 'yes', 'live.2.1': 'yes'})
        self.assertEqual(seen[19], {'phase': 'active', 'at': '2.1', 'live.2.1': 'yes'})
        self.assertEqual(seen[20], {})


class Pages(unittest.TestCase):
    """What the files of page/ say to each other, and the tables that they are given."""

    def test_what_is_looked_for_is_there(self):
        there = set(re.findall(r'\bid="([\w-]+)"', text_of(TRACE, 'page', 'page.html')))
        wanted = set(re.findall(r"\$\('([\w-]+)'\)", text_of(TRACE, 'page', 'page.js')))
        self.assertEqual(wanted - there, {'left', 'right'} - there)

    def test_the_help_has_each_key(self):
        keys = re.search(r'const keys = \{(.*?)\n\};', text_of(TRACE, 'page', 'page.js'), re.S)[1]
        handled = {quoted or bare for quoted, bare in re.findall(r"(?:'([^']+)'|(\w+)): (?:\(|other|toBreak)", keys)}
        named = set(re.findall(r'<kbd(?: id="most")?>([^<]+)</kbd>', text_of(TRACE, 'page', 'page.html')))
        alike = {'←': 'ArrowLeft', '→': 'ArrowRight', 'Page up': 'PageUp', 'Page down': 'PageDown', 'Space': ' '}
        # (the help is what `?` opens; up and down are as left and right; the others aren't of that table)
        self.assertEqual({alike.get(it, it) for it in named} - {'Shift', 'Escape', '0', '1', '7'}, handled - {'ArrowUp', 'ArrowDown', '?'})

    def test_each_family_and_lease_has_a_colour_and_a_name(self):
        css, js = text_of(TRACE, 'page', 'page.css'), text_of(TRACE, 'page', 'diagram.js')
        arrows, bars = (re.findall(r'(\w+): \'', re.search(rf'const {name} = \{{(.*?)\}};', js)[1]) for name in ('ARROWS', 'BARS'))
        self.assertEqual(set(arrows), {family for _, _, family in PACKETS.values()})
        for name in (*(f'.{it}' for it in arrows), *(f'.lease.{it}' for it in bars)):
            self.assertIn(f'{name} {{ --a:', css)

    def test_what_a_sentence_names_is_a_part(self):
        for kind, (forms, says) in FACTS.items():
            if kind not in ('sent', 'got'):
                self.assertLessEqual({it.split('.')[0] for it in re.findall(r'\{([\w.]+)\}', says)}, set(re.findall(r'\{(\w+)\}', ' '.join(forms))), kind)
        for kind, (form, says, *_) in [*ORDERS.items(), *PACKETS.items()]:
            self.assertLessEqual(set(re.findall(r'\{(\w+)\}', says)), set(re.findall(r'\{(\w+)\}', form)), kind)

    def test_each_order_has_its_sentence(self):
        seen: Dict[str, str] = {}
        for name in played():
            for order in read_source(*known(name)).trace.orders.values():
                kind = order.split()[0]
                if kind != 'config':
                    found = ORDER_PATTERNS[kind].fullmatch(order)
                    self.assertIsNotNone(found, order)
                    seen[kind] = ORDERS[kind][1].format(**{part: said(part, text) for part, text in found.groupdict().items()})
        self.assertEqual(set(seen), set(ORDERS))
        self.assertRegex(seen['failwrite'], r'^The next write of \S+ will fail: (its record stands, but nobody is told|nothing is recorded)\.$')
        self.assertRegex(seen['send'], r'^Producer \d+ has a command for \S+: .*\.$')


def said(part: str, text: str) -> str:
    """A part as a sentence tells it."""
    return next((to + text[len(start):] for start, to in SAID.get(part, ()) if text.startswith(start)), text)


class Pictures(unittest.TestCase):
    def test_what_a_trace_lacks(self):
        data, script = known('rebalanced')
        for words, says in ((('--entity', 'nobody'), 'no fact is about the entity nobody'), (('--shard', '99'), 'no fact is about shard 99')):
            self.assertEqual(drawn(data, *words), (2, f'draw.py: {says}\n'))
        for choice, says in (
                (Choice(entity='nobody'), 'no fact is about the entity nobody'), (Choice(entity='nobody', is_folded=True), 'no fact is about the entity nobody'),
                (Choice(shard=99), 'no fact is about shard 99'), (Choice(lines=(1, 9), entity='Aa'), 'no fact there is about the entity Aa'),
                (Choice(orders=(2, 3), shard=1), 'no fact there is about shard 1'),
                (Choice(lines=(900, 999)), '--lines 900 999: no fact there; the last one is in line 109'),
                (Choice(orders=(90, 99)), '--orders 90 99: no order of these lines of the script has a fact; the last one is 12')):
            for it in (data, script + b'trace\n' + data):
                with self.assertRaises(WrongWords) as why:
                    picture(it, choice=choice)
                self.assertEqual(str(why.exception), says)

    def test_what_a_trace_has(self):
        for choice in (Choice(entity='Aa'), Choice(shard=1), Choice(lines=(19, 30), entity='a')):
            self.assertIn('<svg', picture(known('rebalanced')[0], choice=choice)[0])


if __name__ == '__main__':
    unittest.main()
