#!/usr/bin/env python3
"""judge.py < INPUT: whether a trace is safe, told apart from the program `judge`, to compare the two.

The input is that of `judge`: a script, a line `trace`, and the trace. The script must be one that `sharder replay` takes;
no script is refused here, but an input without a line `trace` is: then standard error has `judge: no line trace`, and the
status is 3. What is printed, and the status, are the program's:

    safe FACTS ENTRIES RECORDS      status 0
    line N: SENTENCE                status 1, of the first line of the trace after which it isn't safe
    line N: no fact                 status 3, as of `reshard isn't judged`

Behind `line N: ..` comes that line, indented, without its LF, and cut at 200 bytes.

It makes one pass, with constant work a fact. Needs Python 3.8 and nothing else.
"""
import re
import sys

# What a line must be to be read: each kind of fact by its first word, with the ranges of its numbers.

LF = "\n"
BYTE, SHORT, LONG, WIDE, FULL = 2**8 - 1, 2**16 - 1, 2**32 - 1, 10**18 - 1, 2**64 - 1
NODES, PRODUCERS, SHARDS = (1, 16), (1, 32), (0, 127)


def number(group=None):
    return rf"(?P<{group}>0|[1-9][0-9]*)" if group else "(?:0|[1-9][0-9]*)"


X = rf"(?P<x>{number('node')}\.{number('start')})"
E = r"(?P<e>[A-Za-z0-9_-]{1,32})"
SLOT = rf"(?P<slot>shard:{number('shard')}|queue:{number('queue')}|coordinator)"
COMMAND = rf"(?P<command>(?:add|deposit|withdraw|adjust) {number()} {number()}|(?:add|deposit|withdraw|remove) {number()}|read|create|balance|close|checkout)"
EVENT = rf"(?:(?:added|adjusted) {number()} {number()}|(?:deposited|withdrawn) {number()} memo {number()}|(?:added|deposited|withdrawn|removed) {number()}|created|closed|checkedout)"
REPLY = rf"(?P<reply>ok {number('ok')}|no {number('no')})"
ITEM = rf"{number()}:{number()}"
# A counter; an account; a cart. A memo of 0 isn't printed.
STATE = rf"(?P<state>{number('total')}|none|closed|open {number('balance')}(?: memo {number('memo')})?|(?:open|out) (?P<items>-|{ITEM}(?:,{ITEM}){{0,15}}))"

FORMS = {
    "granted": rf"granted {SLOT} {number('epoch')} {X}",
    "freed": rf"freed {SLOT} {number('epoch')} (?:released|stopped)",
    "registered": rf"registered {X}",
    "terminated": rf"terminated {X}",
    "allocated": rf"allocated {number('shard')} {X}",
    "deallocated": rf"deallocated {number('shard')}",
    "wrote": rf"wrote {E} {number('number')} epoch {number('epoch')} by {number('p')}:{number('n')} {COMMAND} / (?P<events>-|{EVENT}(?:, {EVENT}){{0,3}}) / {REPLY}",
    "snapshot": rf"snapshot {E} {number('number')}",
    "remembered": rf"remembered {E}",
    "forgotten": rf"forgotten {E}",
    "queued": rf"queued {number('p')} {E} {number('n')} {COMMAND}",
    "confirmed": rf"confirmed {number('p')} {E} {number('n')}",
    "start": rf"start {X} {E}",
    "active": rf"active {X} {E} {number('records')} {STATE}",
    "stop": rf"stop {X} {E}",
    "writefailed": rf"writefailed {X} {E}",
    "gone": rf"gone {X}",
    "upgrade": r"upgrade (?P<version>2)",
    "reshard": rf"reshard {number('byte')} {number('epoch')}",
}
FORMS = {word: re.compile(form) for word, form in FORMS.items()}
RANGES = {"node": NODES, "p": PRODUCERS, "queue": PRODUCERS, "shard": SHARDS, "byte": (0, BYTE), "no": (0, BYTE), "ok": (0, WIDE), "memo": (1, SHORT), "total": (0, FULL), "balance": (0, FULL)}
# The most bytes of a line that is looked at, its LF among them.
MOST_BYTES = 4096
# The most bytes of it that are shown.
MOST_SHOWN = 200
# (amounts have 32 bits, all other numbers of commands and events 16)
WIDE_WORDS = ("deposit", "withdraw", "deposited", "withdrawn")

QUIET = set("sent got at kept stashed home forget held view up moving dropped waits armed nothing settled wirefull".split())
ENTRIES = set("granted freed registered terminated allocated deallocated wrote snapshot remembered forgotten queued confirmed".split())


def is_quiet(line):
    """Whether a line is passed over: a remark, or a fact of which safety says nothing."""
    return line.startswith("#") or line.rstrip(LF).split(" ")[0] in QUIET


def fits(text):
    """Whether the numbers of a command or of an event fit."""
    words = text.split(" ")
    numbers = [int(word) for word in words if word.isdigit()]
    bounds = [LONG if words[0] in WIDE_WORDS else SHORT, SHORT]
    return all(it <= bound for it, bound in zip(numbers, bounds))


def fact_of(line):
    """The parts of a fact by their names, `word` among them; None where a line is of none."""
    word = line.split(" ")[0]
    found = FORMS[word].fullmatch(line) if word in FORMS else None
    if not found:
        return None
    it = {key: value for key, value in found.groupdict().items() if value is not None}
    for key, value in it.items():
        if value.isdigit() and key not in ("x", "e", "state"):
            low, high = RANGES.get(key, (0, LONG))
            if not low <= int(value) <= high:
                return None
            it[key] = int(value)
    texts = [it[key] for key in ("command",) if key in it] + [event for event in it.get("events", "-").split(", ") if event != "-"]
    items = re.findall("[0-9]+", it.get("items", ""))
    return {"word": word, **it} if all(map(fits, texts)) and all(int(number) <= SHORT for number in items) else None


# What a script says.


class Script:
    """Its settings, its names, and each producer's sends in order."""

    def __init__(self, text):
        self.nodes, self.shards, self.producers, self.kind = 3, 10, 2, "counter"
        self.names, self.sends, self.plans, self.versions = set(), {}, {}, {1}
        lines = [line.split() for line in text.replace("\t", " ").split("\n")]
        config, *orders = [words for words in lines if words and not words[0].startswith("#")]
        for word in config[1:]:
            key, value = word.split("=")
            setattr(self, key, int(value) if value.isdigit() else value)
        for order in orders:
            self.take(*order)

    def take(self, word, *words):
        if word == "send":
            producer, name, command = int(words[0]), words[1], " ".join(str(int(it)) if it.isdigit() else it for it in words[2:])
            plan = self.plans.setdefault((producer, name), [])
            plan.append(command)
            self.sends.setdefault(producer, []).append((name, len(plan), command))
            self.names.add(name)
        elif word in ("passivate", "failwrite"):
            self.names.add(words[0])
        elif word == "upgrade":
            self.versions = {1, 2}

    def shard_of(self, name):
        """The absolute value of Java's hash, modulo the number of shards."""
        hashed = 0
        for byte in name.encode():
            hashed = (31 * hashed + byte) % 2**32
        return (hashed if hashed < 2**31 else 2**32 - hashed) % self.shards


# What entities do. A counter is its total; an account None, its balance and memo, or "closed"; a cart whether it is
# checked out, and its items.

MOST, MOST_ITEMS = 10**15, 16
EMPTY = {"counter": 0, "account": None, "cart": (False, {})}


def decide_account(version, state, word, amount, memo):
    if word == "create":
        return ("created", "ok 0") if state is None else ("-", "no 2")
    if memo is not None and version < 2:
        return "-", "no 6"
    if state is None or state == "closed":
        return "-", "no 1"
    balance, tail = state[0], "" if version < 2 else f" memo {memo or 0}"
    if word == "balance":
        return "-", f"ok {balance}"
    if word == "close":
        return ("closed", "ok 0") if balance == 0 else ("-", "no 4")
    if word == "deposit":
        return (f"deposited {amount}{tail}", f"ok {balance + amount}") if balance + amount <= MOST else ("-", "no 5")
    return (f"withdrawn {amount}{tail}", f"ok {balance - amount}") if amount <= balance else ("-", "no 3")


def decide_cart(state, word, item, quantity):
    out, items = state
    if out:
        return "-", "no 1"
    if word == "checkout":
        return ("checkedout", f"ok {len(items)}") if items else ("-", "no 5")
    if word == "add":
        if item in items or len(items) >= MOST_ITEMS:
            return "-", "no 2" if item in items else "no 3"
        return f"added {item} {quantity}", f"ok {len(items) + 1}"
    if item not in items:
        return "-", "no 4"
    return (f"removed {item}", f"ok {len(items) - 1}") if word == "remove" else (f"adjusted {item} {quantity}", f"ok {len(items)}")


def decide(kind, version, state, command):
    """The events and the reply of a command, as they are printed."""
    word, *numbers = command.split(" ")
    first, second, *_ = [*map(int, numbers), None, None]
    if kind == "account":
        return decide_account(version, state, word, first, second)
    if kind == "cart":
        return decide_cart(state, word, first, second)
    if word == "read":
        return "-", f"ok {state}"
    return (f"added {first}", f"ok {state + first}") if state + first <= MOST else ("-", "no 1")


def after(kind, state, events):
    """The state after the events of a record, as these are printed."""
    for event in events.split(", ") if events != "-" else []:
        word, *words = event.split(" ")
        numbers = [int(it) for it in words if it != "memo"]
        if kind == "counter":
            state += numbers[0]
        elif kind == "account":
            state = account_after(state, word, *numbers)
        else:
            state = cart_after(*state, word, *numbers)
    return state


def account_after(state, word, amount=0, memo=0):
    if word == "created":
        return (0, 0)
    return "closed" if word == "closed" else (state[0] + (amount if word == "deposited" else -amount), memo)


def cart_after(out, items, word, item=0, quantity=0):
    kept = {key: it for key, it in items.items() if key != item}
    if word in ("added", "adjusted"):
        kept[item] = quantity
    return (True, items) if word == "checkedout" else (out, kept)


def state_text(kind, state):
    if kind == "counter":
        return str(state)
    if kind == "account":
        if not isinstance(state, tuple):
            return state or "none"
        return f"open {state[0]}" + (f" memo {state[1]}" if state[1] else "")
    out, items = state
    return ("out " if out else "open ") + (",".join(f"{item}:{items[item]}" for item in sorted(items)) or "-")


# The judge.


class Slot:
    """What is read off a slot's list."""

    def __init__(self):
        self.holder, self.epoch = None, 0
        self.journals = {}  # of a shard, each name's
        self.regions, self.homes = [], {}  # of the coordinator
        self.total, self.queued, self.confirmed = 0, {}, {}  # of a queue


class Journal:
    """What is read off a journal, and off the marks of its name."""

    def __init__(self, kind):
        self.length, self.state, self.snapshot, self.is_remembered = 0, EMPTY[kind], 0, False
        self.positions = {}


def first_of(*tests):
    """The sentence of the first test that doesn't hold; a test is a function, which is asked only where all before it hold."""
    for holds, sentence in tests:
        if not holds():
            return sentence
    return None


NO_NAME, NO_PRODUCER = "the script brings no such name", "the script has no such producer"
NO_SLOT, NO_SHARD, NO_NODE = "the script has no such slot", "the script has no such shard", "the script has no such node"
UNHELD, OTHER_STATE = "an entry of a slot that nobody holds", "a state that isn't its journal's"
NOT_JUDGED, NO_FACT = "reshard isn't judged", "no fact"
SENTENCES = (
    NO_NAME, NO_PRODUCER, NO_SLOT, NO_SHARD, NO_NODE, "two live incarnations", "live without its shard's lease", OTHER_STATE,
    "a lease that is granted while it is held", "an epoch that isn't the next", UNHELD, "an epoch that isn't the grant's",
    "a lease that is freed while an entity of its shard is live", "a record of an entity that isn't live", "a record of another epoch",
    "a record that isn't the next", "a record that isn't of its producer's next command", "a record that isn't decided so",
    "a confirmation that doesn't rise, or of what isn't queued", "a confirmation of what isn't recorded", "a queue entry out of order",
    "a region that is registered, or one too many", "a region that isn't registered",
    "a shard that has a home, or a home that isn't registered", "a shard without a home", "a snapshot that isn't of the journal",
    "a name that is remembered", "a name that isn't remembered",
)


class Judge:
    """Takes the facts of a trace one after the other, until one ends its safety."""

    def __init__(self, script):
        self.script, self.version = script, 1
        self.slots, self.live = {}, {}
        self.facts = self.entries = self.records = 0

    def slot(self, name):
        return self.slots.setdefault(name, Slot())

    def shard(self, name):
        return self.slot(f"shard:{self.script.shard_of(name)}")

    def journal(self, name):
        return self.shard(name).journals.setdefault(name, Journal(self.script.kind))

    def see(self, line):
        """Takes a line with its LF, which the last may lack; answers None, or the sentence of what it breaks."""
        if len(line) > MOST_BYTES:
            return NO_FACT
        if is_quiet(line):
            return None
        fact = fact_of(line[:-1]) if line.endswith("\n") else None
        if fact is None:
            return NO_FACT
        word = fact.pop("word")
        broken = getattr(self, word)(**fact)
        if broken is None:
            self.facts += 1
            self.entries += word in ENTRIES
            self.records += word == "wrote"
        return broken

    # lives

    def start(self, x, e, **_):
        broken = first_of(
            (lambda: e in self.script.names, NO_NAME),
            (lambda: self.live.get(e, x) == x, "two live incarnations"),
            (lambda: self.shard(e).holder == x, "live without its shard's lease"),
        )
        if broken is None:
            self.live[e] = x
        return broken

    def stop(self, x, e, **_):
        if self.live.get(e) == x:
            del self.live[e]

    writefailed = stop

    def gone(self, x, **_):
        self.live = {e: y for e, y in self.live.items() if y != x}

    def active(self, e, records, state, **_):
        journal = self.journal(e)
        return None if (records, state) == (journal.length, state_text(self.script.kind, journal.state)) else OTHER_STATE

    def upgrade(self, version):
        self.version = version

    def reshard(self, **_):
        return NOT_JUDGED

    # leases

    def has_slot(self, shard, queue):
        if shard is not None:
            return shard < self.script.shards
        return queue is None or queue <= self.script.producers

    def granted(self, slot, epoch, node, x, shard=None, queue=None, **_):
        it = self.slot(slot)
        broken = first_of(
            (lambda: self.has_slot(shard, queue), NO_SLOT),
            (lambda: it.holder is None, "a lease that is granted while it is held"),
            (lambda: epoch == it.epoch + 1, "an epoch that isn't the next"),
            (lambda: node <= self.script.nodes, NO_NODE),
        )
        if broken is None:
            it.holder, it.epoch = x, epoch
        return broken

    def freed(self, slot, epoch, shard=None, queue=None):
        it = self.slot(slot)
        broken = first_of(
            (lambda: self.has_slot(shard, queue), NO_SLOT),
            (lambda: it.holder is not None, UNHELD),
            (lambda: epoch == it.epoch, "an epoch that isn't the grant's"),
            (lambda: shard is None or all(self.script.shard_of(e) != shard for e in self.live), "a lease that is freed while an entity of its shard is live"),
        )
        if broken is None:
            it.holder = None
        return broken

    # the coordinator

    def coordinator(self, test, sentence):
        it = self.slot("coordinator")
        return it, first_of((lambda: it.holder is not None, UNHELD), (lambda: test(it), sentence))

    def registered(self, x, node, **_):
        is_node = node <= self.script.nodes
        sentence = "a region that is registered, or one too many" if is_node else NO_NODE
        it, broken = self.coordinator(lambda it: is_node and x not in it.regions and len(it.regions) < 16, sentence)
        if broken is None:
            it.regions.append(x)
        return broken

    def terminated(self, x, **_):
        it, broken = self.coordinator(lambda it: x in it.regions, "a region that isn't registered")
        if broken is None:
            it.regions.remove(x)
            it.homes = {shard: home for shard, home in it.homes.items() if home != x}
        return broken

    def allocated(self, shard, x, **_):
        is_shard = shard < self.script.shards
        sentence = "a shard that has a home, or a home that isn't registered" if is_shard else NO_SHARD
        it, broken = self.coordinator(lambda it: is_shard and x in it.regions and shard not in it.homes, sentence)
        if broken is None:
            it.homes[shard] = x
        return broken

    def deallocated(self, shard):
        it, broken = self.coordinator(lambda it: shard in it.homes, "a shard without a home" if shard < self.script.shards else NO_SHARD)
        if broken is None:
            del it.homes[shard]
        return broken

    # entities

    def entity(self, e, test, sentence):
        return first_of(
            (lambda: e in self.script.names, NO_NAME),
            (lambda: self.shard(e).holder is not None, UNHELD),
            (lambda: test(self.journal(e)), sentence),
        )

    def snapshot(self, e, number):
        broken = self.entity(e, lambda it: number == it.length and it.snapshot < number, "a snapshot that isn't of the journal")
        if broken is None:
            self.journal(e).snapshot = number
        return broken

    def remembered(self, e):
        broken = self.entity(e, lambda it: not it.is_remembered, "a name that is remembered")
        if broken is None:
            self.journal(e).is_remembered = True
        return broken

    def forgotten(self, e):
        broken = self.entity(e, lambda it: it.is_remembered, "a name that isn't remembered")
        if broken is None:
            self.journal(e).is_remembered = False
        return broken

    def is_next_command(self, e, p, n, command):
        plan = self.script.plans.get((p, e), [])
        return p <= self.script.producers and n == self.journal(e).positions.get(p, 0) + 1 and n <= len(plan) and plan[n - 1] == command

    def is_decided(self, e, command, events, reply):
        def gives(version):
            return decide(self.script.kind, version, self.journal(e).state, command) == (events, reply)

        return gives(self.version) and any(map(gives, self.script.versions))

    def wrote(self, e, number, epoch, p, n, command, events, reply, **_):
        broken = first_of(
            (lambda: e in self.script.names, NO_NAME),
            (lambda: self.shard(e).holder is not None, UNHELD),
            (lambda: e in self.live, "a record of an entity that isn't live"),
            (lambda: epoch == self.shard(e).epoch, "a record of another epoch"),
            (lambda: number == self.journal(e).length + 1, "a record that isn't the next"),
            (lambda: self.is_next_command(e, p, n, command), "a record that isn't of its producer's next command"),
            (lambda: self.is_decided(e, command, events, reply), "a record that isn't decided so"),
        )
        if broken is None:
            it = self.journal(e)
            it.length += 1
            it.positions[p] = n
            it.state = after(self.script.kind, it.state, events)
        return broken

    # queues

    def queued(self, p, e, n, command):
        it, sends = self.slot(f"queue:{p}"), self.script.sends.get(p, [])
        broken = first_of(
            (lambda: p <= self.script.producers, NO_PRODUCER),
            (lambda: it.holder is not None, UNHELD),
            (lambda: it.total < len(sends) and sends[it.total] == (e, n, command), "a queue entry out of order"),
        )
        if broken is None:
            it.total += 1
            it.queued[e] = n
        return broken

    def confirmed(self, p, e, n):
        it = self.slot(f"queue:{p}")
        broken = first_of(
            (lambda: p <= self.script.producers, NO_PRODUCER),
            (lambda: it.holder is not None, UNHELD),
            (lambda: it.confirmed.get(e, 0) < n <= it.queued.get(e, 0), "a confirmation that doesn't rise, or of what isn't queued"),
            (lambda: n <= self.journal(e).positions.get(p, 0), "a confirmation of what isn't recorded"),
        )
        if broken is None:
            it.confirmed[e] = n
        return broken


def answer_of(script, text):
    """The answer to the text of a trace, without its last LF, and the status with which it is given."""
    judge = Judge(script)
    for at, line in enumerate(re.findall(r"[^\n]*\n|[^\n]+", text), 1):
        if line == "report\n":
            break
        broken = judge.see(line)
        if broken:
            return f"line {at}: {broken}\n  {line[:MOST_SHOWN].split(LF)[0]}", 3 if broken in (NO_FACT, NOT_JUDGED) else 1
    return f"safe {judge.facts} {judge.entries} {judge.records}", 0


def parts_of(text):
    """The script of an input, without its last LF, and the trace; None for it where there is no line `trace`."""
    script, between, trace = f"\n{text}".partition("\ntrace\n")
    return script[1:], trace if between else None


def main():
    if len(sys.argv) > 1:
        sys.exit(__doc__)
    script, trace = parts_of(sys.stdin.buffer.read().decode("latin-1"))
    if trace is None:
        print("judge: no line trace", file=sys.stderr)
        sys.exit(3)
    answer, status = answer_of(Script(script), trace)
    sys.stdout.buffer.write(f"{answer}\n".encode("latin-1"))
    sys.exit(status)


if __name__ == "__main__":
    main()
