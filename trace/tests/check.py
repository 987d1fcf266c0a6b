#!/usr/bin/env python3
"""Tests of export.py, explain.py, break.py, draw_script.py, and of explore.py and draw.py (looking.py), in a few seconds; `.ci/docs` runs them."""
from __future__ import annotations

import json
import os
import random
import sys
import unittest
from typing import Dict, List

sys.dont_write_bytecode = True
HERE = os.path.dirname(os.path.abspath(__file__))
sys.path[:0] = [HERE, os.path.dirname(HERE)]

import trial                                                            # noqa: E402
from breaking import WAYS, candidates                                   # noqa: E402
from explaining import Answer, Case, Input, parts                       # noqa: E402
from export import cycle_text, exported                                 # noqa: E402
from exporting.history import Choices                                   # noqa: E402
from exporting.logs import Logs, NoLog                                  # noqa: E402
from exporting.merging import NoOrder                                   # noqa: E402
from exporting.naming import fitting_name, java_hash, shard_number      # noqa: E402
from looking import Pages, Pictures, Unsafe                             # noqa: E402, F401
from scripts import bulk_script                                         # noqa: E402

EXAMPLES = os.path.join(os.path.dirname(HERE), 'examples')
E = {'entity': 'c1', 'shard': 0}


def at(node: int, event: str, **keys) -> dict:
    return {'node': node, 'event': event, **keys}


def life(node: int, read: int, *records: int) -> List[dict]:
    """An entity that starts at a node, reads its journal and writes these records."""
    return [at(node, 'entity-started', **E), at(node, 'entity-recovered', nr=read, **E), *(at(node, 'record', nr=it, **E) for it in records)]


def held(node: int, *lines: dict, epoch: int = 0) -> List[dict]:
    keys = {'shard': 0, **({'epoch': epoch} if epoch else {})}
    return [at(node, 'lease-taken', **keys), *lines, at(node, 'entity-stopped', **E), at(node, 'lease-released', **keys)]


def read(logs: Dict[str, List[dict]]) -> Logs:
    found = Logs()
    for name, log in logs.items():
        found.read(name, map(json.dumps, log))
    return found


def example(name: str) -> str:
    logs = Logs()
    for file in ('a.jsonl', 'b.jsonl'):
        with open(os.path.join(EXAMPLES, name, file), encoding='ascii') as lines:
            logs.read(file, lines)
    return exported(logs, Choices())[1][0].text


class Verdicts(unittest.TestCase):
    """What comes of two logs, by hand."""

    def verdict(self, *logs: List[dict], **choices) -> str:
        return trial.verdict({f'n{number}': log for number, log in enumerate(logs)}, None, Choices(**choices))

    def test_verdicts(self):
        first, second = held(1, *life(1, 0, 1, 2)), held(2, *life(2, 2, 3))
        for logs, said in (
            ((first, second), 'safe'),
            ((second, first), 'safe'),
            # without leases
            ((life(1, 0, 1) + [at(1, 'entity-stopped', **E)], life(2, 1, 2)), 'safe'),
            # both write record 2
            ((held(1, *life(1, 0, 1, 2)), held(2, *life(2, 1, 2))), 'merge'),
            # the second writes between two records of the first
            ((held(1, *life(1, 0, 1, 3)), held(2, *life(2, 1, 2))), 'merge'),
            # a record is lost, or a recovery has not read one
            ((held(1, *life(1, 0, 1, 3)),), "a record that isn't the next"),
            ((first, held(2, *life(2, 1, 3))), 'merge'),
            # epochs against records
            ((held(1, *life(1, 0, 1), epoch=2), held(2, *life(2, 1, 2), epoch=1)), 'merge'),
            # the first never gives the lease back
            ((first[:-2], second), 'a lease that is granted while it is held'),
            ((first[:-2] + [at(1, 'node-down')], second), 'safe'),
            # without a lease
            ((first, life(2, 2, 3)), "live without its shard's lease"),
            ((first[:-2], life(2, 2, 3)), 'two live incarnations'),
            ((held(1, *life(1, 0, 1)[2:]),), "a record of an entity that isn't live"),
        ):
            with self.subTest(said=said, logs=logs):
                self.assertIn(said, self.verdict(*logs) if said != 'merge' else self.verdict(*logs)[:5])

    def test_middle(self):
        late = life(2, 7, 8)
        self.assertIn("a state that isn't its journal's", self.verdict(late))
        self.assertEqual(self.verdict(late, middle=True), 'safe')
        self.assertEqual(self.verdict(life(1, 0, 8)[2:], middle=True), 'safe')

    def test_openings(self):
        rows = [{'event': 'journal', 'nr': it, 'command': 'add 2', 'events': ['added 2'], 'reply': f'ok {2 * it}', **E} for it in range(1, 8)]
        late = life(2, 7, 8)
        late[1]['state'] = '14'
        late[2].update(command='add 1', events=['added 1'], reply='ok 15')
        for logs, kind in (((rows, late), None), ((rows, late), 'counter'), ((rows[3:], late), None), ((late,), 'counter')):
            with self.subTest(logs=logs, kind=kind):
                told = {str(number): log for number, log in enumerate(logs)}
                self.assertEqual(trial.verdict(told, kind, Choices(middle=True)), 'safe')
        late[2]['reply'] = 'ok 16'
        self.assertIn("a record that isn't decided so", trial.verdict({'n': late}, 'counter', Choices(middle=True)))

    def test_cut_ends(self):
        first, second = held(1, *life(1, 0, 1))[:-2], held(2, *life(2, 1, 2))
        self.assertEqual(self.verdict(first, second, cut_ends=True), 'safe')

    def test_examples_of_the_document(self):
        self.assertEqual(trial.answer_of(example('two_nodes')), 'safe 15 10 2')
        text = example('double_writer')
        said = trial.answer_of(text)
        self.assertIn('two live incarnations', said)
        case = Case(text, Answer(said, 1))
        self.assertEqual([case.input.trace[it.line - 1].split(' ')[:2] for it in case.against], [['start', '1.7']])

    def test_a_cycle_names_its_lines(self):
        with self.assertRaises(NoOrder) as found:
            exported(read({'a': held(1, *life(1, 0, 1, 3)), 'b': held(2, *life(2, 1, 2))}), Choices())
        text = '\n'.join(cycle_text(found.exception.cycles[0]))
        for told in ('a line 4: ', 'a line 5: ', 'b line 1: ', 'b line 3: '):
            self.assertIn(told, text)


class Reading(unittest.TestCase):
    def test_faults_are_told_in_words(self):
        for text, said in (
            ('{', 'n line 1: no JSON: '), ('[]', 'n line 1: [] is no JSON object'), ('{"event":"record","node":1,"entity":"a"}', 'there is no "nr"'),
            ('{"event":"record","entity":"a","nr":1}', 'there is no "node"'), ('{"event":"record","node":1,"entity":"a","nr":"x"}', '"nr" is "x"'),
            ('{"event":"record","node":1,"entity":"a","nr":1,"by":1}', 'come together'),
        ):
            with self.subTest(text=text), self.assertRaisesRegex(NoLog, said.replace('[', '\\[').replace(']', '\\]')):
                Logs().read('n', [text])

    def test_other_events_and_keys_are_passed_over(self):
        logs = Logs()
        logs.read('n', ['{"event":"other"}', '', '{"level":"info"}', '{"event":"node-up","node":1,"more":[]}'])
        self.assertEqual((len(logs.lines), sum(logs.others.values())), (1, 2))


class Names(unittest.TestCase):
    def test_hash(self):
        # (values of Java's String.hashCode)
        for text, hashed in (('', 0), ('a', 97), ('hello', 99162322), ('polygenelubricants', 0x80000000)):
            self.assertEqual(java_hash(text), hashed)
        self.assertEqual(shard_number('polygenelubricants', 100), 48)

    def test_names_fall_into_their_shards(self):
        taken: set = set()
        for number in range(1000):
            name = fitting_name(f'6f1c2a9e-0b7d-4c55-9d3e-{number:012}', number % 128, 128, taken)
            self.assertRegex(name, '^[A-Za-z0-9_-]{1,32}$')
            self.assertEqual(shard_number(name, 128), number % 128)
            taken.add(name)
        self.assertEqual(len(taken), 1000)


class Tools(unittest.TestCase):
    def test_scripts_of_bulk(self):
        # (how many orders `bulk` counts)
        for number, orders in ((3, 45), (20, 225)):
            self.assertEqual(len(bulk_script(number)) - 1, orders)

    def test_each_way_breaks_some_trace(self):
        left = set(WAYS)
        for sample in trial.known():
            it = parts(f'{sample.source}trace\n' + '\n'.join(sample.lines) + '\n')
            for way in sorted(left):
                for broken in candidates(it, way, 1, 3):
                    if trial.answer_of('\n'.join([*Input(it.script, broken.lines).script, 'trace', *broken.lines, ''])).startswith('line'):
                        left.discard(way)
            if not left:
                break
        self.assertEqual(left, set())

    def test_traces_that_are_split_and_merged(self):
        samples = list(trial.known())
        for number in range(40):
            sample = samples[random.Random(number).randrange(len(samples))]
            name, good, plant, found = trial.tried(sample, number)
            with self.subTest(name=name, plant=plant):
                self.assertIn(good, ('safe', 'empty'))
                self.assertNotEqual(found, 'safe')


if __name__ == '__main__':
    unittest.main()
