#!/usr/bin/env python3
"""measure.py [-n RUNS] [--only CASE,..] [NAME=]PROGRAM ..

Runs each case RUNS times (5 by default) on each program and prints the least processor time, the
least wall time, how much was written and the most memory. Programs take turns, run by run, so that
noise hits all alike; the last column is the processor time over the first program's. Any program
with the command line of sharder can be measured beside it: `solo`, `replay`, `log` and `resume` with a
script on standard input. `log` keeps its log in a folder of its own, in memory where there is /dev/shm;
`resume` reads the one that the first program left.

The scripts are made here, always the same. The output goes to a file, whose digest is compared
between the programs.
"""
import hashlib
import os
import random
import subprocess
import sys
import tempfile
import time


def solo():
    """20,000 lines: 12,000 sends of 4 producers to 1,000 names, then deliveries."""
    lines = ['config shards=8 producers=4']
    lines += [f'send {i % 4 + 1} e{i // 4 % 1000} add 1' for i in range(12_000)]
    return lines + [f'deliver {i}' for i in range(1, 8_000)]


def views():
    """Sixteen nodes come up, and then again and again one crashes and comes up: views alone."""
    lines = ['config nodes=16'] + [f'up {n}' for n in range(1, 17)] + ['pump 10000']
    for i in range(3_000):
        n = i % 16 + 1
        lines += [f'crash {n}', f'up {n}', 'pump 10000']
    return lines


def full():
    """Ticks repeat what is never delivered, until a million packets are posted."""
    lines = ['config shards=1 window=4', 'up 1', 'pump 9', 'up 2', 'pump 9', 'produce 1 2']
    lines += [f'send 1 e{i} add 1' for i in range(100)]
    return lines + ['deliver 8', 'deliver 10'] + ['tick 2'] * 10_000


def carts(count=20_000):
    """Eight producers send to 400 carts on four nodes; so many lines."""
    chance = random.Random(7)
    lines = ['config nodes=4 shards=32 producers=8 buffer=1000 window=32 snapshot=20 remember=on kind=cart']
    lines += [f'up {n}' for n in range(1, 5)] + ['pump 200']
    lines += [f'produce {p} {(p - 1) % 4 + 1}' for p in range(1, 9)] + ['pump 200']
    while len(lines) < count - 1:
        item = chance.randint(1, 40)
        command = chance.choice([f'add {item} {chance.randint(1, 1000)}', f'adjust {item} 2', f'remove {item}'])
        if chance.randrange(8):
            lines.append(f'send {chance.randint(1, 8)} cart-{chance.randint(1, 400)} {command}')
        else:
            lines.append(chance.choice(['pump 100', 'pump 100', 'pump 100', 'tick 1', 'rebalance 4']))
    return lines + ['settle']


def flow():
    """Sends of four producers to 1,000 names in 128 shards of 16 nodes, each delivered at once."""
    lines = ['config nodes=16 shards=128 producers=4 window=64 snapshot=100']
    lines += [f'up {n}' for n in range(1, 17)] + ['pump 1000']
    lines += [f'produce {p} {4 * p}' for p in range(1, 5)] + ['pump 1000']
    for k in range(9_988):
        lines += [f'send {k % 4 + 1} device-{k // 4 % 1000} add {k % 1000 + 1}', 'pump 100']
    return lines + ['settle']


def settle(sends=19_997):
    """A packet that is never delivered, so many sends to 100 names that wait for their queue, and the
    settle that queues, delivers and confirms them all."""
    lines = ['config nodes=1 shards=8 producers=1', 'up 1']
    return lines + [f'send 1 e{i % 100} add 1' for i in range(sends)] + ['settle']


def logged(count=5_000):
    """So many orders on four nodes, most of which do something to the slots' lists: sends of four producers
    to 200 names, ticks, handoffs and crashes."""
    chance = random.Random(1)
    lines = ['config nodes=4 shards=32 producers=4 window=16 snapshot=8 remember=on']
    lines += [f'up {n}' for n in range(1, 5)] + ['pump 200']
    lines += [f'produce {p} {p}' for p in range(1, 5)] + ['pump 200']
    k = 0
    while len(lines) < count:
        k += 1
        lines += [f'send {chance.randint(1, 4)} device-{chance.randrange(200)} add {chance.randint(1, 1000)}',
                  f'pump {chance.choice([8, 12])}']
        if k % 50 == 0:
            lines += [f'tick {chance.randint(1, 4)}', 'pump 60']
        if k % 200 == 0:
            lines += [f'rebalance {chance.randint(1, 4)}', 'pump 200']
        if k % 400 == 0:
            n = chance.randint(1, 4)
            lines += [f'crash {n}', 'pump 60', f'up {n}', 'pump 100']
            lines += [f'produce {p} {chance.randint(1, 4)}' for p in range(1, 5)] + ['pump 400']
    return lines[:count] + ['settle']


CASES = [('solo', 'solo', solo), ('views', 'replay', views), ('full', 'replay', full),
         ('carts', 'replay', carts), ('carts/10', 'replay', lambda: carts(2_000)),
         ('flow', 'replay', flow),
         ('settle', 'replay', settle), ('settle/10', 'replay', lambda: settle(2_000)),
         ('log', 'log', logged), ('resume', 'resume', logged), ('resume*4', 'resume', lambda: logged(19_998))]

# where the log of a run lies
LOG = 'sharder.log'


def make_room(program, word, source, room):
    """Sees to it that there is no log where one is made, and one where one is read."""
    log = os.path.join(room, LOG)
    if word == 'log' and os.path.exists(log):
        os.remove(log)
    if word == 'resume' and not os.path.exists(log):
        with open(source, 'rb') as inp, open(os.devnull, 'wb') as null:
            subprocess.run([program, 'log'], stdin=inp, stdout=null, stderr=null, cwd=room)


def run(program, word, source, sink, room):
    """-> (processor seconds, wall seconds, status)"""
    with open(source, 'rb') as inp, open(sink, 'wb') as out, open(os.devnull, 'wb') as err:
        begin = time.perf_counter()
        child = subprocess.Popen([program, word], stdin=inp, stdout=out, stderr=err, cwd=room)
        _, status, usage = os.wait4(child.pid, 0)
        wall = time.perf_counter() - begin
        child.returncode = os.waitstatus_to_exitcode(status)
    return usage.ru_utime + usage.ru_stime, wall, child.returncode


def peak(program, word, source, room):
    """The most memory, in MB, as /usr/bin/time tells it: a child's own figure here would begin with
    the memory of this process. 0 where there is no such program."""
    if not os.path.exists('/usr/bin/time'):
        return 0
    with open(source, 'rb') as inp, open(os.devnull, 'wb') as null, tempfile.NamedTemporaryFile('r') as told:
        subprocess.run(['/usr/bin/time', '-f', '%M', '-o', told.name, program, word], stdin=inp, stdout=null, stderr=null,
                       cwd=room)
        return int(told.read().split()[-1]) / 1024


def main():
    words, runs, only = sys.argv[1:], 5, None
    if words[:1] == ['-n']:
        runs, words = int(words[1]), words[2:]
    if words[:1] == ['--only']:
        only, words = words[1].split(','), words[2:]
    programs = [w.split('=', 1) if '=' in w else [os.path.basename(w), w] for w in words]
    programs = [[name, os.path.abspath(path)] for name, path in programs]
    if not programs:
        sys.exit(__doc__)
    print(f'{"case":9} {"program":10} {"cpu s":>8} {"wall s":>8} {"MB out":>8} {"MB mem":>8} {"status":>6} {"cpu/first":>9}')
    memory = '/dev/shm' if os.path.isdir('/dev/shm') else None
    with tempfile.TemporaryDirectory() as folder, tempfile.TemporaryDirectory(dir=memory) as room:
        source = os.path.join(folder, 'script')
        for name, word, lines in CASES:
            if only and name not in only:
                continue
            with open(source, 'w', encoding='ascii') as file:
                file.write('\n'.join(lines()) + '\n')
            if os.path.exists(os.path.join(room, LOG)):
                os.remove(os.path.join(room, LOG))
            told = {p: [] for p, _ in programs}
            digests = {}
            for _ in range(runs):
                for p, path in programs:
                    sink = os.path.join(folder, p)
                    make_room(programs[0][1], word, source, room)
                    told[p].append(run(path, word, source, sink, room))
                    with open(sink, 'rb') as file:
                        digests[p] = hashlib.sha256(file.read()).digest()
            first = min(t[0] for t in told[programs[0][0]])
            for p, path in programs:
                make_room(programs[0][1], word, source, room)
                cpu, wall = min(t[0] for t in told[p]), min(t[1] for t in told[p])
                size = os.path.getsize(os.path.join(folder, p)) / 1e6
                other = '' if digests[p] == digests[programs[0][0]] else '  writes something else'
                print(f'{name:9} {p:10} {cpu:8.4f} {wall:8.4f} {size:8.2f} {peak(path, word, source, room):8.1f} {told[p][-1][2]:6} '
                      f'{cpu / first if first else 0:9.2f}{other}')


if __name__ == '__main__':
    main()
