#!/usr/bin/env python3
"""crash_apply.py PROGRAM [COUNT [SEED]]: kills `sharder apply` at COUNT random moments (300) while its script grows.

PROGRAM is the built sharder. The log stands in a new folder in the current one, which should be on the file system that
is meant. Each round appends some sends, starts `apply`, and kills it by SIGKILL at a moment drawn within the time that a
run takes; some rounds are let to their end. Of each round it is looked at

  printed   what it printed is a front of one whole report; where it came to its end, of the report of all sends so far;
  log       `resume` reads the log, and each entity's records are the first of those that the sends make, in order;
  kept      no record that any report had is gone.

At the end one more run gives all of them, and a second one writes nothing. It ends with a line of counts, or with
status 1 and the folder of the run that differs. A process that is killed leaves the pages that the system has: this
shows the order of writes and lines, and not what a loss of power does."""
import os
import random
import re
import shutil
import subprocess
import sys
import tempfile
import time

RECORD = re.compile(rb'record (\d+) epoch \d+ by (\d+):(\d+) add (\d+) / ')


class Differs(Exception):
    """What a run did otherwise than it is to."""


def journals(report):
    """Of each entity of a report the producers and amounts of its records, in order."""
    found, entity = {}, None
    for line in report.splitlines():
        if line.startswith(b'entity '):
            entity = line.split()[1]
            found[entity] = []
        elif line.startswith(b'record '):
            number, producer, _, amount = RECORD.match(line).groups()
            if int(number) != len(found[entity]) + 1:
                raise Differs(f'record {number} out of turn')
            found[entity].append((int(producer), int(amount)))
    return found


def are_first(some, wanted):
    """Whether these journals are the first records of the sends of each producer and entity."""
    return all(
        [r for r in records if r[0] == producer] == wanted.get((producer, entity), [])[:sum(r[0] == producer for r in records)]
        for entity, records in some.items()
        for producer in {r[0] for r in records})


def has_all(old, new):
    """Whether each journal of the old ones is a front of the new one."""
    return all(new.get(entity, [])[:len(records)] == records for entity, records in old.items())


def counts(journal):
    """How many records there are in all."""
    return sum(map(len, journal.values()))


def run(program, word, script, limit=None):
    """Runs a form on the script, killed after so many seconds if a limit is given: its status and what it printed."""
    with subprocess.Popen([program, word], stdin=subprocess.PIPE, stdout=subprocess.PIPE, stderr=subprocess.PIPE) as it:
        if limit is not None:
            # (the script is there before the time begins)
            it.stdin.write(script)
            it.stdin.close()
            it.stdin = None
            time.sleep(limit)
            it.kill()
            told = it.communicate()
        else:
            told = it.communicate(script)
        return it.returncode, told[0], told[1]


def grow(chance, script, wanted):
    """Appends some sends to the script, and to what they make."""
    for _ in range(chance.randint(1, 120)):
        producer, amount = chance.randint(1, 3), chance.randint(1, 999)
        entity = f'e{producer}-{chance.randint(0, 9)}'
        script += f'send {producer} {entity} add {amount}\n'.encode()
        wanted.setdefault((producer, entity.encode()), []).append((producer, amount))
    return script


def trial(program, count, seed):
    """All rounds; what they came to."""
    chance = random.Random(seed)
    script, wanted = b'config nodes=1 shards=8 producers=3 window=16 snapshot=5\n', {}
    kept, took, killed, ended, behind = {}, 0.01, 0, 0, 0
    for _ in range(count):
        script = grow(chance, script, wanted)
        began = time.monotonic()
        limit = None if chance.random() < 0.1 else chance.random() * took * 1.1
        status, printed, said = run(program, 'apply', script, limit)
        if status == 0:
            ended += 1
            if limit is None:
                took = time.monotonic() - began
            if counts(journals(printed)) != sum(map(len, wanted.values())):
                raise Differs('a run came to its end, and lacks a record')
        elif status == -9:
            killed += 1
        else:
            raise Differs(f'status {status}: {said}')
        status, resumed, said = run(program, 'resume', script)
        if status != 0:
            raise Differs(f'resume ended with status {status}: {said}')
        report = resumed[:resumed.index(b'\nend\n') + 5]
        there = journals(report)
        if printed and not report.startswith(printed):
            raise Differs('what was printed is no front of the report of the log')
        if not are_first(there, wanted):
            raise Differs('a record is there twice, or out of order')
        if not has_all(kept, there):
            raise Differs('a record is gone')
        behind += counts(there) < sum(map(len, wanted.values()))
        kept = there
    status, printed, said = run(program, 'apply', script)
    if status != 0 or counts(journals(printed)) != sum(map(len, wanted.values())):
        raise Differs(f'the last run ends with status {status}: {said}')
    size = os.path.getsize('sharder.log')
    if run(program, 'apply', script) != (0, printed, b'') or os.path.getsize('sharder.log') != size:
        raise Differs('a second run did something')
    return f'{count} runs, {killed} killed, {ended} to their end; after {behind} the log lacked a send; {counts(kept)} records, {size} bytes, 0 differ'


def main(words):
    if not 1 <= len(words) <= 3:
        print(__doc__, file=sys.stderr)
        return 2
    program = os.path.abspath(words[0])
    room = tempfile.mkdtemp(prefix='crash-', dir='.')
    os.chdir(room)
    try:
        print(trial(program, int(words[1]) if len(words) > 1 else 300, int(words[2]) if len(words) > 2 else 1))
    except Differs as why:
        print(f'{why}; see {os.getcwd()}')
        return 1
    shutil.rmtree(os.getcwd())
    return 0


if __name__ == '__main__':
    sys.exit(main(sys.argv[1:]))
