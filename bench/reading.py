#!/usr/bin/env python3
"""reading.py PROGRAM [NAME=PROGRAM ..]: times the reading of a log of 98 MB by `resume`.

The log is made of one that the first program writes of the script `logged` of measure.py: its batches, again and
again, so that it is whole, and from the second time on no log of that script. So `resume` reads all of it, and refuses
it then (status 11). Once the batches are as they were committed (`small`), and once the same lines stand in batches of
a megabyte (`large`). Programs take turns; printed are the least processor time of five runs, its user's and its
system's part, megabytes a second, and the most memory.
"""
import os
import subprocess
import sys
import tempfile

import measure

SIZE = 98_000_000


def texts_of(image):
    """The texts of its batches."""
    texts, at = [], 0
    while image[at] != 0:
        size = int.from_bytes(image[at + 1:at + 5], 'big')
        texts.append(image[at + 5:at + 5 + size])
        at += 5 + size
    return texts


def image_of(texts):
    """A log of these batches."""
    return b''.join(b'\1' + len(text).to_bytes(4, 'big') + text for text in texts) + b'\0'


def joined(texts, most):
    """The same lines in batches of so many bytes at least."""
    batches, batch, size = [], [], 0
    for text in texts:
        batch.append(text)
        size += len(text)
        if size >= most:
            batches.append(b''.join(batch))
            batch, size = [], 0
    return batches + ([b''.join(batch)] if batch else [])


def run(program, source, room):
    """-> (user's seconds, system's seconds, megabytes, status)"""
    told = os.path.join(room, 'told')
    with open(source, 'rb') as inp, open(os.devnull, 'wb') as null:
        ran = subprocess.run(['/usr/bin/time', '-o', told, '-f', '%U %S %M', program, 'resume'],
                             stdin=inp, stdout=null, stderr=null, cwd=room)
    with open(told, encoding='ascii') as file:
        user, system, most = file.read().split()[-3:]
    return float(user), float(system), int(most) / 1024, ran.returncode


def main():
    programs = [w.split('=', 1) if '=' in w else [os.path.basename(w), w] for w in sys.argv[1:]]
    programs = [[name, os.path.abspath(path)] for name, path in programs]
    if not programs:
        sys.exit(__doc__)
    memory = '/dev/shm' if os.path.isdir('/dev/shm') else None
    with tempfile.TemporaryDirectory(dir=memory) as room:
        source, log = os.path.join(room, 'script'), os.path.join(room, measure.LOG)
        with open(source, 'w', encoding='ascii') as file:
            file.write('\n'.join(measure.logged(19_998)) + '\n')
        measure.make_room(programs[0][1], 'resume', source, room)
        with open(log, 'rb') as file:
            once = texts_of(file.read())
        again = once * (SIZE // sum(5 + len(text) for text in once) + 1)
        print(f'{"batches":8} {"program":10} {"cpu s":>7} {"user":>6} {"system":>6} {"MB/s":>6} {"MB mem":>7} status')
        for case, texts in [('small', again), ('large', joined(again, 1_000_000))]:
            with open(log, 'wb') as file:
                file.write(image_of(texts))
            told = {name: [] for name, _ in programs}
            for _ in range(5):
                for name, path in programs:
                    told[name].append(run(path, source, room))
            for name, _ in programs:
                user, system, most, status = min(told[name], key=lambda t: t[0] + t[1])
                speed = os.path.getsize(log) / 1e6 / (user + system)
                print(f'{case:8} {name:10} {user + system:7.2f} {user:6.2f} {system:6.2f} {speed:6.0f} {most:7.0f} {status}')


if __name__ == '__main__':
    main()
