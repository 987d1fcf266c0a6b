#!/usr/bin/env python3
"""crash_serve.py PROGRAM [COUNT [SEED]]: kills `serve` at COUNT random moments (300) under a client that sends commands.

PROGRAM is the built serve, or the words that run it. The log stands in a new folder in the current one, which should be
on the file system that is meant. The client sends batches of commands of several producers to several counters, now and
then one of them again, and starts `serve` anew where it was killed, by SIGKILL at a moment drawn within the time that a
batch takes; what wasn't answered it sends again. After each kill and at the end it is looked at

  told      each answer that the client ever had is that of the record with this producer and number;
  once      each producer's commands to a counter stand there once, in order, from the first to the last that was answered;
  state     what a counter shows is the sum of its records.

It ends with a line of counts, or with status 1 and the folder of the run that differs. A process that is killed leaves
the pages that the system has: this shows the order of writes and answers, and not what a loss of power does."""
import os
import random
import re
import subprocess
import sys
import tempfile
import threading
import time

SETTINGS = 'config nodes=1 shards=4 producers=3'
RECORD = re.compile(r'record (\d+) epoch \d+ by (\d+):(\d+) add (\d+) / \S+ \d+ / ok (\d+)')


class Differs(Exception):
    """What a run did otherwise than it is to."""


class Client:
    """What was sent and what was told of it, over all processes."""

    def __init__(self, command, folder, chance):
        self.command, self.folder, self.chance = command, folder, chance
        self.sent, self.told, self.killed = {}, {}, 0

    def start(self):
        return subprocess.Popen(self.command, cwd=self.folder, stdin=subprocess.PIPE, stdout=subprocess.PIPE, stderr=subprocess.PIPE)

    def talk(self, process, lines):
        """The answers of lines; fewer where the process dies."""
        try:
            process.stdin.write(''.join(line + '\n' for line in lines).encode())
            process.stdin.flush()
        except BrokenPipeError:
            pass
        answers = []
        for _ in lines:
            answer = process.stdout.readline().decode()
            if not answer.endswith('\n'):
                break
            answers.append(answer[:-1])
        return answers

    def batch(self):
        """Some commands: new ones, and now and then one that was answered."""
        lines = []
        for _ in range(self.chance.choice((1, 1, 3, 10, 40))):
            pair = self.chance.randint(1, 3), self.chance.choice('abcdef')
            known = self.sent.setdefault(pair, [])
            if known and self.chance.random() < 0.1:
                number = self.chance.randint(1, len(known))
            else:
                known.append(self.chance.randint(1, 99))
                number = len(known)
            lines.append((pair, number))
        return lines

    def line(self, pair, number):
        return f'send {pair[0]} {pair[1]} {number} add {self.sent[pair][number - 1]}'

    def hear(self, lines, answers):
        """Keeps what was told, and tells how many lines were answered."""
        for (pair, number), answer in zip(lines, answers):
            words = answer.split()
            if words[:4] != ['done', str(pair[0]), pair[1], str(number)] or words[4] != 'ok':
                raise Differs(f'{self.line(pair, number)}: {answer}')
            if self.told.setdefault((pair, number), words[5]) != words[5]:
                raise Differs(f'{self.line(pair, number)}: {answer}, and {self.told[pair, number]} before')
        return len(answers)

    def rounds(self, count):
        """Sends batches until so many processes were killed."""
        process, open_lines, typical = None, [], 0.05
        while self.killed < count:
            if process is None:
                process = self.start()
                if [answer[:7] for answer in self.talk(process, [SETTINGS])] != ['config ']:
                    raise Differs(f'no settings: status {process.wait()}, {process.stderr.read().decode()}')
                self.look(process)
            lines = open_lines + self.batch()
            timer = None
            if self.chance.random() < 0.5:
                timer = threading.Timer(self.chance.uniform(0, 1.2 * typical), process.kill)
                timer.start()
            begun = time.monotonic()
            answers = self.talk(process, [self.line(*it) for it in lines])
            if timer is not None:
                timer.cancel()
                timer.join()
            open_lines = lines[self.hear(lines, answers):]
            if open_lines or process.poll() is not None:
                if process.wait() != -9:
                    raise Differs(f'status {process.returncode}: {process.stderr.read().decode()}')
                self.killed, process = self.killed + 1, None
            else:
                typical = 0.9 * typical + 0.1 * (time.monotonic() - begun)
        process = self.start()
        self.hear(open_lines, self.talk(process, [SETTINGS] + [self.line(*it) for it in open_lines])[1:])
        self.look(process)
        process.stdin.close()
        if process.wait() != 0:
            raise Differs(f'status {process.returncode}')

    def look(self, process):
        """Compares the report with what was sent and told."""
        process.stdin.write(b'report\n')
        process.stdin.flush()
        found, states, sums = {}, {}, {}
        while (line := process.stdout.readline().decode()) != 'end\n':
            if not line:
                raise Differs('the report ends early')
            if line.startswith('entity '):
                entity = line.split()[1]
                states[entity], sums[entity] = int(line.split()[-1]), 0
            elif line.startswith('record '):
                _, producer, number, amount, total = map(int, RECORD.match(line).groups())
                found.setdefault((producer, entity), []).append((number, amount))
                sums[entity] += amount
                if total != sums[entity]:
                    raise Differs(f'{line.strip()}, and the sum is {sums[entity]}')
                if self.told.get(((producer, entity), number), str(total)) != str(total):
                    raise Differs(f'{line.strip()}, and {self.told[(producer, entity), number]} was told')
        if states != sums:
            raise Differs(f'states {states}, and sums {sums}')
        for pair, records in found.items():
            if records != list(enumerate(self.sent[pair][:len(records)], 1)):
                raise Differs(f'{pair}: {records}')
        for pair, number in self.told:
            if number > len(found.get(pair, [])):
                raise Differs(f'{pair}: number {number} was told, and there are {len(found.get(pair, []))} records')


def main(words):
    if not words:
        sys.exit(__doc__)
    command = words[0].split()
    command[0] = os.path.abspath(command[0]) if os.path.exists(command[0]) else command[0]
    count = int(words[1]) if len(words) > 1 else 300
    seed = int(words[2]) if len(words) > 2 else 1
    folder = tempfile.mkdtemp(prefix='crash_serve.', dir='.')
    client = Client(command, folder, random.Random(seed))
    try:
        client.rounds(count)
    except Differs as fault:
        print(f'{folder}: differs: {fault}')
        return 1
    print(f'{client.killed} killed, {sum(map(len, client.sent.values()))} commands, {len(client.told)} told, 0 differ')
    for name in os.listdir(folder):
        os.remove(os.path.join(folder, name))
    os.rmdir(folder)
    return 0


if __name__ == '__main__':
    sys.exit(main(sys.argv[1:]))
