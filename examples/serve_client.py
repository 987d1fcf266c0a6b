#!/usr/bin/env python3
"""serve_client.py [COMMAND..]: keeps accounts with `serve`, which is killed on the way; by default with ./run.sh serve.

`Service` is all that a program needs: it starts `serve`, sends lines and reads their answers, and where `serve` died it
starts it again and sends again what wasn't answered. That is safe, since each command has its number: what is on disk
is answered from there and isn't done twice. Run as a program it shows this in a folder of its own: it opens accounts,
kills `serve` between and in the middle of batches, and compares what is recorded at the end."""
import os
import random
import subprocess
import sys
import tempfile

# the program, run from a clone
RUN = [os.path.join(os.path.dirname(os.path.dirname(os.path.abspath(__file__))), 'run.sh'), 'serve']

# a number that no pair comes to: its answer says which is next
FAR = 4294967295


class Refused(Exception):
    """`serve` didn't take a line: its answer."""


class Service:
    """A running `serve`, whose log lies in a folder, under these settings."""

    def __init__(self, command, folder, settings):
        self.command, self.folder, self.settings = command, folder, settings
        self.next, self.process = {}, None

    def start(self):
        """Starts `serve`, and puts the settings in force, or finds them in force."""
        self.process = subprocess.Popen(self.command, cwd=self.folder, stdin=subprocess.PIPE, stdout=subprocess.PIPE)
        answer, = self.exchange([self.settings])
        if not answer.startswith('config '):
            raise Refused(answer)

    def exchange(self, lines):
        """Sends lines to this process, and reads an answer for each; EOFError where it dies first."""
        try:
            self.process.stdin.write(''.join(line + '\n' for line in lines).encode())
            self.process.stdin.flush()
        except BrokenPipeError:
            raise EOFError from None
        answers = [self.process.stdout.readline().decode() for _ in lines]
        if not all(answer.endswith('\n') for answer in answers):
            raise EOFError
        return [answer[:-1] for answer in answers]

    def ask(self, lines):
        """The answers of lines, sent again from a new process as often as the one before dies."""
        while True:
            try:
                if self.process is None:
                    self.start()
                return self.exchange(lines)
            except EOFError:
                status = self.process.wait()
                self.process = None
                if status in (2, 10, 11):
                    raise Refused(f'serve ended with status {status}') from None

    def number(self, producer, entity):
        """The number of the pair's next command."""
        if (producer, entity) not in self.next:
            answer, = self.ask([f'send {producer} {entity} {FAR} {"read" if "counter" in self.settings else "balance"}'])
            if not answer.startswith('gap '):
                raise Refused(answer)
            self.next[producer, entity] = int(answer.split()[-1])
        return self.next[producer, entity]

    def send(self, *commands):
        """Sends commands as one batch, each (producer, entity, words): the replies, as `ok 100` or `no overdraft`."""
        lines = []
        for producer, entity, words in commands:
            number = self.number(producer, entity)
            self.next[producer, entity] = number + 1
            lines.append(f'send {producer} {entity} {number} {words}')
        answers = self.ask(lines)
        for answer in answers:
            if not answer.startswith('done '):
                raise Refused(answer)
        return [answer.split(' ', 4)[4] for answer in answers]

    def show(self, entity):
        """The entity's line: its shard, how many records it has, and its state."""
        return self.ask([f'show {entity}'])[0]

    def close(self):
        """Ends the input, and waits until `serve` ended."""
        if self.process is not None:
            self.process.stdin.close()
            self.process.stdout.read()
            self.process.wait()
            self.process = None


def main(command):
    """Pays in and out of four accounts, kills `serve` now and then, and looks at the balances at the end."""
    chance = random.Random(1)
    names = ['alice', 'bob', 'carol', 'dave']
    with tempfile.TemporaryDirectory() as folder:
        service = Service(command, folder, 'config nodes=1 shards=4 producers=2 kind=account')
        service.send(*[(1, name, 'create') for name in names])
        balance = dict.fromkeys(names, 0)
        count = dict.fromkeys(names, 1)
        for turn in range(30):
            batch = [(chance.randint(1, 2), chance.choice(names), chance.randint(1, 99)) for _ in range(8)]
            if turn % 7 == 3:
                service.process.kill()
            service.send(*[(producer, name, f'deposit {amount}') for producer, name, amount in batch])
            for _, name, amount in batch:
                balance[name] += amount
                count[name] += 1
        shown = [service.show(name) for name in names]
        service.close()
    for name, line in zip(names, shown):
        words = line.split()
        if (int(words[5]), words[-1]) != (count[name], str(balance[name])):
            print(f'{name} has {line}, and not {count[name]} records and {balance[name]}')
            return 1
    print('\n'.join(shown))
    return 0


if __name__ == '__main__':
    sys.exit(main(sys.argv[1:] or RUN))
