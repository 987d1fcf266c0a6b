#!/usr/bin/env python3
"""Turns a trace into a log for ShiViz (bestchai.bitbucket.io/shiviz): ./run.sh replay < SCRIPT | trace/shiviz.py > LOG

A host is an incarnation; its events are the facts by which it acts. An event is two lines: its host with its vector clock, and
the fact. A `got` comes after the packet's `sent`: its clock has all that the sender knew then, so a packet that is got twice
joins twice, and one that nobody takes joins nowhere. A lease that is granted comes after it was freed, since the lease's slot
hands on its list. Facts of no incarnation (`at`, `nothing`, `waits`) are left out. What acts before it was up, as a queue's
holder under `pull`, is a host by the name of its node.

In ShiViz, this is the parser's regular expression:

    (?<host>\\S+) (?<clock>{.*})\\n(?<event>.*)

Status 0; 1 where the input isn't a trace, with one line on standard error.
"""
from __future__ import annotations

import argparse
import json
import sys
from typing import Dict, List, Optional

sys.dont_write_bytecode = True      # no __pycache__ beside these files

from actors import ACTOR_AT, PRODUCER, Actors, is_pulled    # noqa: E402
from ending import run                                      # noqa: E402
from facts import Fact, NoTrace, Trace, read                # noqa: E402

EXPRESSION = r'(?<host>\S+) (?<clock>{.*})\n(?<event>.*)'
Clock = Dict[str, int]


class Log:
    """The events of a trace, in order."""

    def __init__(self, trace: Trace) -> None:
        self.lines: List[str] = []
        self._clocks: Dict[str, Clock] = {}
        self._posted: Dict[int, Clock] = {}         # the clock of each packet's `sent`
        self._freed: Dict[str, Clock] = {}          # of each slot's last `freed`
        self._up: Dict[int, str] = {}               # the incarnation of each node
        self._is_pull = is_pulled(trace.facts)
        actors = Actors()
        for fact in trace.facts:
            node = actors.see(fact)
            if node is not None:
                self._event(fact, self._host(fact, node), actors)

    def _host(self, fact: Fact, node: int) -> str:
        if fact.kind == 'up' or not self._is_pull and fact.kind in ACTOR_AT:
            self._up[node] = fact.words[ACTOR_AT[fact.kind]]
        elif fact.kind == 'sent' and '.' in fact.words[2]:
            self._up[node] = fact.words[2]
        return self._up.get(node, f'node{node}')

    def _event(self, fact: Fact, host: str, actors: Actors) -> None:
        clock = self._clocks.setdefault(host, {})
        before: Optional[Clock] = None
        if fact.kind == 'got':
            packet = actors.packets.get(int(fact.words[1]))
            if packet is not None and packet.deliveries[-1].lost:
                if packet.addressee != PRODUCER:
                    return              # nobody takes it: it is no event of the incarnation that is up there now
            before = self._posted.get(int(fact.words[1]))
        elif fact.kind == 'granted':
            before = self._freed.get(fact.words[1])
        for other, count in (before or {}).items():
            clock[other] = max(clock.get(other, 0), count)
        clock[host] = clock.get(host, 0) + 1
        if fact.kind == 'sent':
            self._posted[int(fact.words[1])] = dict(clock)
        elif fact.kind == 'freed':
            self._freed[fact.words[1]] = dict(clock)
        self.lines += [f'{host} {json.dumps(clock)}', fact.text]


def main() -> None:
    argparse.ArgumentParser(prog='shiviz.py', description=__doc__, formatter_class=argparse.RawDescriptionHelpFormatter).parse_args()
    try:
        log = Log(read(sys.stdin.buffer.read()))
    except NoTrace as why:
        print(f'shiviz.py: {why}', file=sys.stderr)
        sys.exit(1)
    print('\n'.join(log.lines))


if __name__ == '__main__':
    run(main)
