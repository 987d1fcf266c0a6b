#!/usr/bin/env python3
"""Tries the tools of this folder on the known traces and reports of crates/known_replays: trace/checks/known.py

No browser and no program is needed. What is compared: the state after a trace's last line with its report; the parts of each fact,
as JSON, with their schema; each report in JSON with its schema; what a page, a picture and a log of ShiViz are made of; what
trace_diff.py says of a trace and a changed one; what is refused; that each tool ends quietly where nobody reads it.
"""
from __future__ import annotations

import glob
import json
import os
import re
import subprocess
import sys
from typing import Dict, Iterator, List, Tuple

sys.dont_write_bytecode = True
HERE = os.path.dirname(os.path.realpath(__file__))
TOP = os.path.dirname(os.path.dirname(HERE))
sys.path[:0] = [os.path.dirname(HERE), HERE]

from choosing import Choice                             # noqa: E402
from draw import picture                                # noqa: E402
from ending import CLOSED                               # noqa: E402
from explore import page_of                             # noqa: E402
from facts import FORMS, NoTrace, Trace, read           # noqa: E402
from parts import FACTS                                 # noqa: E402
from schema import faults                               # noqa: E402
from shiviz import EXPRESSION, Log                      # noqa: E402
from sources import read_source                         # noqa: E402
from state import State, state_at                       # noqa: E402
from trace_diff import parting                          # noqa: E402
from trace_json import json_of, schema                  # noqa: E402

DATA = os.path.join(TOP, 'crates', 'known_replays', 'data')
ENTITY = re.compile('entity (.*) shard (.*) records (.*) state (.*)')
QUEUE = re.compile('queue (.*) queued (.*) confirmed (.*)')
JOB = re.compile('job ([^ ]*) (.*) (confirmed|free|given .*) dids (.*)')


def known() -> Iterator[Tuple[str, str, bytes, bytes]]:
    """The name, the words, the script and the text of each that has a text."""
    with open(os.path.join(DATA, 'index'), encoding='ascii') as file:
        entries = [line.split() for line in file if line.strip()]
    for name, _, *words in entries:
        paths = [os.path.join(DATA, f'{name}.{end}') for end in ('in', 'out')]
        if all(map(os.path.exists, paths)):
            script, text = (open(path, 'rb').read() for path in paths)
            yield name, ' '.join(words), script, text


def faults_of_state(state: State, report: List[str]) -> Iterator[str]:
    """Where the state after the last line isn't what the report says."""
    standing = state_at(state.histories, len(state.facts))
    entities = {name: words for name, words in standing['entity'].items() if words.get('records')}
    told: Dict[str, object] = {}
    for line in report:
        entity, queue, job = ENTITY.fullmatch(line), QUEUE.fullmatch(line), JOB.fullmatch(line)
        if entity:
            words = entities.pop(entity[1], {})
            told = {'shard': words.get('shard'), 'records': words.get('records'), 'state': words.get('state')}
            if [str(told[it]) for it in told] != list(entity.groups()[1:]):
                yield f'{line}: {told}'
        elif queue:
            words = standing['pair'].get(queue[1], {})
            if [str(words.get('queued')), str(words.get('confirmed', 0))] != list(queue.groups()[1:]):
                yield f'{line}: {words}'
        elif job:
            words = standing['job'].get(job[1], {})
            at = f'{words.get("state")} {words.get("at", "")}'.strip()
            if [at, str(words.get('dids'))] != [job[3], job[4]]:
                yield f'{line}: {words}'
    yield from (f'{name} is in no line of the report: {words}' for name, words in entities.items())


def faults_of_trace(name: str, script: bytes, text: bytes, line_schema: Dict[str, object]) -> Iterator[str]:
    trace = read(text)
    report = text.decode('ascii').split('\n')
    report = report[report.index('report'):] if 'report' in report else []
    for source in (read_source(text, script), read_source(text)):
        yield from faults_of_state(State(source.trace), report)
    for fact in trace.facts:
        parts = json.loads(json_of(fact))
        yield from faults(parts, kinds_of(line_schema, parts), line_schema, f'line {fact.line}')
    page, _ = page_of(read_source(text, script), name)
    if 'src=' in page or 'http' in page.replace('http://www.w3.org', ''):
        yield 'the page wants something from elsewhere'
    for choice in (Choice(), Choice(is_folded=True), *[Choice(entity=entity) for entity in list(State(trace).histories['entity'])[:1]]):
        picture(text, choice=choice)
    log = '\n'.join(Log(trace).lines) + '\n'
    events = re.findall(EXPRESSION.replace('(?<', '(?P<'), log)
    if 2 * len(events) != log.count('\n') and events:
        yield f'ShiViz would read {len(events)} events of {log.count(chr(10))} lines'
    yield from faults_of_clocks(events)
    if parting(trace, trace) or not changed(trace):
        yield 'trace_diff.py is wrong of it'


def kinds_of(line_schema: Dict[str, object], parts: Dict[str, object]) -> Dict[str, object]:
    """The schemas of this kind of fact alone, so that it is quick."""
    return {'oneOf': [one for one in line_schema['oneOf'] if one['properties']['fact']['const'] == parts['fact']]}      # type: ignore[attr-defined]


def faults_of_clocks(events: List[Tuple[str, str, str]]) -> Iterator[str]:
    """A host's own count rises by one from event to event, and no count of its clock falls."""
    last: Dict[str, Dict[str, int]] = {}
    for host, text, event in events:
        clock, before = json.loads(text), last.get(host, {})
        if clock[host] != before.get(host, 0) + 1 or any(clock.get(other, 0) < count for other, count in before.items()):
            yield f'the clock of {event} at {host} is {clock}, after {before}'
        last[host] = clock


def changed(trace: Trace) -> List[str]:
    """What is said of a trace and the same one with other numbers of packets and without its last fact: that alone."""
    numbered = [re.sub(r'^(sent|got) (\d+)', lambda it: f'{it[1]} {int(it[2]) + 7}', fact.text) for fact in trace.facts]
    if parting(trace, read('\n'.join(numbered).encode())):
        return []
    return parting(trace, read('\n'.join(numbered[:-1]).encode())) if len(numbered) > 1 else ['one line']


# what is read besides traces
LISTS = b'slot shard:0 3\ngranted shard:0 1 1.1\nwrote c1 1 epoch 1 by 1:1 add 5 / added 5 / ok 5\nfreed shard:0 1 stopped\nreport\nend\n'
LOG = b'\1\0\0\0\x1agranted coordinator 1 1.1\n\1\0\0\0\x14queued 1 c1 1 add 5\n\0'


def faults_of_sources() -> Iterator[str]:
    lists, log = read_source(LISTS), read_source(LOG)
    if (lists.what, lists.headings, len(lists.trace.facts)) != ('lists', [(0, 'list of shard:0')], 3):
        yield f'lists are read as {lists}'
    if (log.what, log.headings, [fact.text for fact in log.trace.facts]) != (
            'log', [(0, 'batch 1'), (1, 'batch 2')], ['granted coordinator 1 1.1', 'queued 1 c1 1 add 5']):
        yield f'a log is read as {log}'
    for data in (LOG[:-3], b'\0', b'', b'x\n'):
        try:
            read_source(data)
            yield f'{data!r} is read'
        except NoTrace:
            pass


# words for each tool with which it prints something; the input is a trace, behind its script
WORDS = {
    'break.py': ['--lost-record', '-'], 'draw.py': [], 'draw_script.py': ['bulk', '3'], 'explain.py': [], 'explore.py': [],
    'export.py': glob.glob(os.path.join(TOP, 'trace', 'examples', 'two_nodes', '*.jsonl')),
    'overlaps.py': [os.path.join(TOP, 'docs', 'pictures', 'failover.svg')], 'shiviz.py': [], 'trace_json.py': [],
    'trace_diff.py': [os.path.join(DATA, f'{name}.out') for name in ('rebalanced', 'node_leaves')],
}


def faults_of_closed_pipes() -> Iterator[str]:
    """What each tool says where nobody reads what it prints."""
    script, text = (read_file(os.path.join(DATA, f'rebalanced.{end}')) for end in ('in', 'out'))
    for path in glob.glob(os.path.join(TOP, 'trace', '*.py')):
        name = os.path.basename(path)
        if b"__name__ == '__main__'" not in read_file(path):
            continue
        reader, writer = os.pipe()
        os.close(reader)
        ran = subprocess.run([sys.executable, path, *WORDS[name]], input=script + b'\ntrace\n' + text, stdout=writer, stderr=subprocess.PIPE, check=False)
        os.close(writer)
        if ran.returncode != CLOSED or b'pipe' in ran.stderr or b'Traceback' in ran.stderr:
            yield f'{name} into a closed pipe ends with {ran.returncode}: {ran.stderr.decode()[-200:]}'


def read_file(path: str) -> bytes:
    with open(path, 'rb') as file:
        return file.read()


def main() -> int:
    found: List[str] = []
    line_schema = schema()
    with open(os.path.join(TOP, 'trace', 'trace.schema.json'), encoding='ascii') as file:
        if json.load(file) != json.loads(json.dumps(line_schema)):
            found.append("trace.schema.json isn't what trace_json.py --schema prints")
    with open(os.path.join(TOP, 'trace', 'report.schema.json'), encoding='ascii') as file:
        report_schema = json.load(file)
    if set(FACTS) != set(FORMS):
        found.append(f'parts.py and facts.py differ: {set(FACTS) ^ set(FORMS)}')
    traces = reports = 0
    for name, words, script, text in known():
        if words in ('replay', 'pull') and text[:3] == b'at ':
            traces += 1
            found += [f'{name}: {fault}' for fault in faults_of_trace(name, script, text, line_schema)]
        elif words == 'replay json' and text:
            reports += 1
            found += [f'{name}: {fault}' for fault in faults(json.loads(text), report_schema, report_schema)]
    found += faults_of_sources()
    found += faults_of_closed_pipes()
    if not traces or not reports:
        found.append(f'{traces} traces and {reports} reports are known')
    for fault in found[:40]:
        print(f'trace/checks/known.py: {fault}')
    return 1 if found else 0


if __name__ == '__main__':
    sys.exit(main())
