#!/usr/bin/env python3
"""Turns a trace into JSON, one object a line for each fact: ./run.sh replay < SCRIPT | trace/trace_json.py > FACTS.jsonl

Each object has `line` (from 1), `fact` (its kind) and the fact's parts by name, numbers as numbers; a `sent` has its packet's
words as `message`. `trace.schema.json` says which. The report isn't in it: `replay json` gives that, as `report.schema.json` says.
What explore.py reads is read too: lists of slots, and the file of `log`.

    --schema    prints the schema of such a line, which is `trace.schema.json`

Status 0; 1 where the input isn't a trace, with one line on standard error.
"""
from __future__ import annotations

import argparse
import json
import re
import sys
from typing import Dict, List

sys.dont_write_bytecode = True      # no __pycache__ beside these files

from ending import run                                      # noqa: E402
from facts import Fact, NoTrace                             # noqa: E402
from parts import FACTS, PACKETS, json_type, parts_of       # noqa: E402
from sources import read_source                             # noqa: E402

NAMES = re.compile(r'\{(\w+)\}')


def json_of(fact: Fact) -> str:
    return json.dumps({'line': fact.line, 'fact': fact.kind, **parts_of(fact)}, separators=(',', ':'))


def object_of(first: Dict[str, object], names: List[str], more: Dict[str, object]) -> Dict[str, object]:
    properties = {**first, **{name: json_type(name) for name in names}, **more}
    return {'type': 'object', 'properties': properties, 'required': list(properties), 'additionalProperties': False}


def schema() -> Dict[str, object]:
    """The schema of a line, of the tables by which facts are taken apart."""
    line = {'line': {'type': 'integer', 'minimum': 1}}
    messages = {'oneOf': [object_of({'kind': {'const': kind}}, NAMES.findall(form), {}) for kind, (form, _, _) in PACKETS.items()]}
    facts: List[Dict[str, object]] = []
    for kind, (forms, says) in FACTS.items():
        names = NAMES.findall(forms[0])
        head = {**line, 'fact': {'const': kind, 'description': says}}
        if kind == 'sent':
            # under `pull` a packet's ends aren't told
            facts += [object_of(head, ['packet', 'from', 'to'], {'message': messages}), object_of(head, ['packet'], {'message': messages})]
        else:
            facts.append(object_of(head, names, {}))
    return {'$schema': 'https://json-schema.org/draft/2020-12/schema', 'title': 'A fact of a trace', 'oneOf': facts}


def main() -> None:
    parser = argparse.ArgumentParser(prog='trace_json.py', description=__doc__, formatter_class=argparse.RawDescriptionHelpFormatter)
    parser.add_argument('--schema', action='store_true', help='print the schema of a line')
    if parser.parse_args().schema:
        print(json.dumps(schema(), indent=1))
        return
    try:
        facts = read_source(sys.stdin.buffer.read()).trace.facts
    except NoTrace as why:
        print(f'trace_json.py: {why}', file=sys.stderr)
        sys.exit(1)
    for fact in facts:
        print(json_of(fact))


if __name__ == '__main__':
    run(main)
