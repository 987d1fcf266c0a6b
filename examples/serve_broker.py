#!/usr/bin/env python3
"""serve_broker.py PORT [COMMAND..]: many clients of one `serve`, over a port of this machine; by default with ./run.sh serve.

It listens on 127.0.0.1. Each connection sends lines and gets the answers of its own lines, in order; the lines of all
connections go to one `serve` as they come, whose log lies in the current folder. Where `serve` dies it is started
again, and what it didn't answer is sent again, which its numbers make safe; where it ends with a status that a new run
won't change (2, 10, 11), or dies ten times without an answer, the broker ends with status 1. A line of more than 256
bytes is refused here, as `serve` refuses it, and blank lines and comments are dropped, since they have no answer. SIGINT
and SIGTERM end it: it takes no more lines, answers those that it has, and waits until `serve` ended."""
import asyncio
import collections
import os
import signal
import sys

# the program, run from a clone
RUN = [os.path.join(os.path.dirname(os.path.dirname(os.path.abspath(__file__))), 'run.sh'), 'serve']
LONGEST = 256
# how many lines of a connection wait for their answers at most
WAITING = 1000


class Client:
    """A connection: its answers stand in the order of its lines."""

    def __init__(self, writer):
        self.writer, self.room = writer, asyncio.Semaphore(WAITING)

    def tell(self, answer):
        """Gives an answer, to a connection that is still there."""
        self.room.release()
        if not self.writer.is_closing():
            self.writer.write(answer)


class Broker:
    """One `serve`, and the lines that it is to answer, oldest first: (connection, line)."""

    def __init__(self, command):
        self.command, self.process, self.waiting = command, None, collections.deque()
        self.ending, self.answered = asyncio.Event(), 0

    async def run(self):
        """Runs `serve` until the broker ends; whether it ended well."""
        deaths = 0
        while True:
            self.process = await asyncio.create_subprocess_exec(*self.command, stdin=asyncio.subprocess.PIPE, stdout=asyncio.subprocess.PIPE, limit=1 << 24)
            self.answered = 0
            self.process.stdin.write(b''.join(line for _, line in self.waiting))
            if self.ending.is_set():
                self.close_when_done()
            await self.read_answers()
            status = await self.process.wait()
            if self.ending.is_set() and not self.waiting:
                return status == 0
            deaths = 1 if self.answered else deaths + 1
            if status in (2, 10, 11) or deaths == 10:
                return False

    async def read_answers(self):
        """Gives each answer to the connection whose line it is of, until `serve` ends."""
        while True:
            answer = await self.process.stdout.readline()
            if answer == b'report\n':
                answer += await self.read_report()
            if not answer.endswith(b'\n') or not self.waiting:
                return
            client, _ = self.waiting.popleft()
            self.answered += 1
            client.tell(answer)
            if self.ending.is_set():
                self.close_when_done()

    async def read_report(self):
        """A report's lines, to its last; fewer where `serve` dies."""
        lines = []
        while not lines or lines[-1] not in (b'', b'end\n'):
            lines.append(await self.process.stdout.readline())
        return b''.join(lines)

    def take(self, client, line):
        """A line more: it waits for its answer from now on. (The next `serve` gets it, where this one died.)"""
        self.waiting.append((client, line))
        if not self.process.stdin.is_closing():
            self.process.stdin.write(line)

    def end(self):
        """No more lines: `serve` ends once it has answered those that it has."""
        self.ending.set()
        self.close_when_done()

    def close_when_done(self):
        if not self.waiting and self.process is not None and not self.process.stdin.is_closing():
            self.process.stdin.close()

    async def serve_client(self, reader, writer):
        """Takes a connection's lines until it closes its side, and closes the other when all are answered."""
        client = Client(writer)
        try:
            while not self.ending.is_set() and (line := await next_line(reader)):
                if has_no_answer(line):
                    continue
                await client.room.acquire()
                self.take(client, line)
                await writer.drain()
                await self.drain()
            for _ in range(WAITING):
                await client.room.acquire()
            await writer.drain()
        except ConnectionError:
            pass
        finally:
            writer.close()

    async def drain(self):
        """Waits until `serve` takes more; where it died, the next one gets what waits."""
        try:
            await self.process.stdin.drain()
        except ConnectionError:
            pass


async def next_line(reader):
    """A connection's next line, with its LF; nothing at its end, also where that has no LF. In the place of a line of more
    than 256 bytes stands another such line."""
    is_long = False
    while True:
        try:
            line = await reader.readuntil(b'\n')
            is_long = is_long or len(line.removesuffix(b'\n').removesuffix(b'\r')) > LONGEST
            return b'x' * (LONGEST + 1) + b'\n' if is_long else line
        except asyncio.LimitOverrunError as fault:
            await reader.readexactly(fault.consumed)
            is_long = True
        except asyncio.IncompleteReadError:
            return b''


def has_no_answer(line):
    """Whether this is a blank line or a comment."""
    words = [word for word in line.removesuffix(b'\n').removesuffix(b'\r').replace(b'\t', b' ').split(b' ') if word]
    return not words or words[0].startswith(b'#')


async def main(port, command):
    """Listens until `serve` or a signal ends it; the status."""
    broker = Broker(command)
    run = asyncio.ensure_future(broker.run())
    server = await asyncio.start_server(broker.serve_client, '127.0.0.1', port, limit=1 << 16)
    for number in (signal.SIGINT, signal.SIGTERM):
        asyncio.get_running_loop().add_signal_handler(number, broker.end)
    print(f'listening on 127.0.0.1:{server.sockets[0].getsockname()[1]}', flush=True)
    async with server:
        return 0 if await run else 1


if __name__ == '__main__':
    if len(sys.argv) < 2 or not sys.argv[1].isdigit():
        sys.exit(__doc__)
    sys.exit(asyncio.run(main(int(sys.argv[1]), sys.argv[2:] or RUN)))
