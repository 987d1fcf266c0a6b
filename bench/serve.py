#!/usr/bin/env python3
"""serve.py PROGRAM [FOLDER]: how long `serve` takes. PROGRAM is the built serve; its logs stand in FOLDER (/dev/shm).

  file     20,000 commands from a file, as one pipe brings them: seconds by the clock and of the processor, and most memory
  one      one command a batch, behind 1,000 that are on the disk: milliseconds from its line to its answer, the median
  restart  the log of 20,000 commands is read again, and its input ends: seconds
  broker   commands a second through examples/serve_broker.py with 1, 10 and 100 clients, each of which waits for its answer

The best of five runs each, but for the broker's. The syncs of a disk are within: in /dev/shm they cost nothing."""
import asyncio
import os
import resource
import statistics
import subprocess
import sys
import tempfile
import time

SETTINGS = 'config nodes=1 shards=16 producers=32\n'
BROKER = os.path.join(os.path.dirname(os.path.dirname(os.path.abspath(__file__))), 'examples', 'serve_broker.py')
SECONDS = 3


def commands(count, first=1):
    """Numbered commands of four producers to 100 counters."""
    lines, numbers = [], {}
    for k in range(first, first + count):
        pair = k % 4 + 1, k // 4 % 100
        numbers[pair] = numbers.get(pair, 0) + 1
        lines.append(f'send {pair[0]} c{pair[1]} {numbers[pair]} add 1\n')
    return ''.join(lines)


def run(program, folder, text):
    """Gives these lines to a run: seconds by the clock and of the processor, and KB of memory."""
    read, write = os.pipe()
    feeder = os.fork()
    if not feeder:
        os.close(read)
        with os.fdopen(write, 'wb') as it:
            it.write(text.encode())
        os._exit(0)
    os.close(write)
    begun = time.monotonic()
    ran = subprocess.Popen([program], cwd=folder, stdin=read, stdout=subprocess.DEVNULL)
    os.close(read)
    _, status, used = os.wait4(ran.pid, 0)
    took = time.monotonic() - begun
    os.waitpid(feeder, 0)
    if status:
        sys.exit(f'{program}: status {os.waitstatus_to_exitcode(status)}')
    return took, used.ru_utime + used.ru_stime, used.ru_maxrss


def in_file(program, room):
    """20,000 commands, and then the log that they left."""
    text = SETTINGS + commands(20_000)
    tried, again = [], []
    for _ in range(5):
        with tempfile.TemporaryDirectory(dir=room) as folder:
            tried.append(run(program, folder, text))
            again.append(run(program, folder, ''))
            size = os.path.getsize(f'{folder}/sharder.log')
    print(f'file     {min(it[0] for it in tried):.3f} s, {min(it[1] for it in tried):.3f} s of the processor, {max(it[2] for it in tried) / 1000:.1f} MB; a log of {size:,} bytes')
    print(f'restart  {min(it[0] for it in again):.3f} s, {min(it[1] for it in again):.3f} s of the processor, {max(it[2] for it in again) / 1000:.1f} MB')


def by_one(program, room):
    """300 commands, each sent when the one before was answered."""
    with tempfile.TemporaryDirectory(dir=room) as folder:
        run(program, folder, SETTINGS + commands(1000))
        ran = subprocess.Popen([program], cwd=folder, stdin=subprocess.PIPE, stdout=subprocess.PIPE)
        took = []
        for k in range(1, 301):
            begun = time.monotonic()
            ran.stdin.write(f'send 5 d{k % 10} {(k - 1) // 10 + 1} add 1\n'.encode())
            ran.stdin.flush()
            if not ran.stdout.readline().startswith(b'done'):
                sys.exit('one: not done')
            took.append(time.monotonic() - begun)
        ran.stdin.close()
        ran.wait()
    print(f'one      {1000 * statistics.median(took):.2f} ms, the least {1000 * min(took):.2f}')


async def client(port, number, ends, counts):
    """One command after the other."""
    reader, writer = await asyncio.open_connection('127.0.0.1', port)
    writer.write(SETTINGS.encode())
    await reader.readline()
    done = 0
    while time.monotonic() < ends:
        done += 1
        writer.write(f'send {number % 32 + 1} e{number} {done} add 1\n'.encode())
        if not (await reader.readline()).startswith(b'done'):
            sys.exit('broker: not done')
    counts.append(done)
    writer.close()


async def over_broker(program, room, clients):
    """Commands a second."""
    with tempfile.TemporaryDirectory(dir=room) as folder:
        broker = await asyncio.create_subprocess_exec(sys.executable, BROKER, '0', program, cwd=folder, stdout=subprocess.PIPE)
        port = int((await broker.stdout.readline()).split(b':')[1])
        ends, counts = time.monotonic() + SECONDS, []
        await asyncio.gather(*[client(port, number, ends, counts) for number in range(clients)])
        broker.terminate()
        await broker.wait()
    print(f'broker   {clients:3} clients: {sum(counts) / SECONDS:.0f} commands a second')


def main(words):
    if not words:
        sys.exit(__doc__)
    program, room = os.path.abspath(words[0]), words[1] if len(words) > 1 else '/dev/shm'
    resource.setrlimit(resource.RLIMIT_NOFILE, (4096, 4096))
    in_file(program, room)
    by_one(program, room)
    for clients in (1, 10, 100):
        asyncio.run(over_broker(program, room, clients))


if __name__ == '__main__':
    main(sys.argv[1:])
