"""What the programs say where they end otherwise than well: each reason and status has its sentence, as in SCRIPT, JUDGE and SERVE.

`faults_of(root)` runs the programs through run.sh in folders of their own, and gives a line for each fault."""
import os
import pty
import re
import resource
import subprocess
import tempfile

# A script that has the reason with this number, and the words of the command that it is refused under.
REFUSED = {
    1: ("config\nup é\n", "replay"),
    2: (f"config\n#{'x' * 256}\n", "replay"),
    3: ("up 1\n", "replay"),
    4: ("config\nconfig\n", "replay"),
    5: ("config\nstart 1\n", "replay"),
    6: ("config\nup\n", "replay"),
    7: ("config\nup 1 2\n", "replay"),
    8: ("config\nup one\n", "replay"),
    9: ("config\nup 9\n", "replay"),
    10: ("config\nsend 1 a.b add 1\n", "replay"),
    11: ("config\n" + "\n" * 20_000, "replay"),
    12: ("#" * 4_194_305, "replay"),
    13: ("config\nping 1\n", "replay"),
    15: ("config\nsend 1 a read\nsend 1 a read\n", "pull"),
    16: ("config kind=cart\n", "daemon 1"),
    17: ("config\n" + "ping 1\n" * 1001, "daemon 1"),
}
# The errors of the system, as it numbers them.
IS_A_FOLDER, INVALID, NO_SPACE, CLOSED_PIPE = 21, 22, 28, 32
PLAIN = "config shards=1\nup 1\npump 9\n"
SERVED = b"config nodes=1 shards=1 producers=1\nsend 1 c1 1 add 5\n"


class Answers:
    def __init__(self, root):
        self.root, self.faults = root, []
        self.sentences = {name: sentences_of(f"{root}/docs/{name}.md") for name in ("SCRIPT", "JUDGE", "SERVE")}

    def run(self, words, stdin=b"", room=None, **how):
        """Runs run.sh; gives the status and the lines on standard error, but for its own."""
        given = {"input": stdin} if isinstance(stdin, bytes) else {"stdin": stdin}
        how = {"stdout": subprocess.PIPE, "stderr": subprocess.PIPE, "cwd": room or self.root, "timeout": 120, **how}
        ran = subprocess.run([f"{self.root}/run.sh", *words], check=False, **given, **how)
        lines = ran.stderr.decode(errors="replace").splitlines()
        return ran.returncode, [it for it in lines if not it.startswith("run.sh: ")]

    def expect(self, what, ran, status, first, sentence, cause=None):
        """Holds a run to its status, its first line and its sentence, and to the number that the system gave."""
        ended, lines = ran
        fits = ended == status and len(lines) == (3 if cause else 2) and re.fullmatch(first, lines[0])
        said = re.fullmatch(r"  (.*) \((docs/\w+\.md)(?:, \"(.*)\")?\)", lines[1]) if fits else None
        if not said or not sentence or not sentence.startswith(said[1]):
            self.faults.append(f"{what}: status {ended}, {lines}, and not {status}, {first!r}, {sentence!r}")
            return
        heading = f"\n## {said[3]}\n" if said[3] else "# "
        if heading not in text_of(f"{self.root}/{said[2]}"):
            self.faults.append(f"{what}: {said[2]} has no section {said[3]!r}")
        if cause and not re.fullmatch(rf"  {cause[0]}: .*\(os error {cause[1]}\)", lines[2]):
            self.faults.append(f"{what}: it says {lines[2]!r} of what the system said")


def text_of(path):
    with open(path, encoding="utf-8") as it:
        return it.read()


def sentences_of(path):
    """The sentences of a document's tables, by the table's second head and the number in the first cell."""
    found, head = {}, None
    for line in text_of(path).split("\n"):
        cells = [it.strip().replace("`", "") for it in line.strip("|").split("|")] if line.startswith("|") else None
        if cells is None:
            head = None
        elif head is None:
            head = "reason" if cells[1:2] == ["the sentence"] else "status"
        elif cells[0].isdigit():
            found[head, int(cells[0])] = cells[1] if head == "reason" else cells[-1]
    return found


def check_refusals(it):
    for number, (script, words) in REFUSED.items():
        first, sentence = rf"line \d+: reason {number}", it.sentences["SCRIPT"].get(("reason", number))
        it.expect(f"reason {number}", it.run(words.split(), script.encode()), 3, f"sharder: {first}", sentence)
        if words == "replay" and number != 12:
            it.expect(f"judge, reason {number}", it.run(["judge"], f"{script}\ntrace\n".encode()), 3, f"judge: {first}", sentence)


def check_streams(it):
    for name, before, program in (("SCRIPT", ["replay"], "sharder"), ("JUDGE", ["judge"], "judge")):
        text = PLAIN.encode() if program == "sharder" else f"{PLAIN}trace\n".encode()

        def expect(what, ran, status, first, cause=None, name=name, program=program):
            it.expect(f"{program}, {what}", ran, status, first, it.sentences[name].get(("status", status)), cause)

        if program == "judge":
            expect("no line trace", it.run(before, PLAIN.encode()), 3, "judge: no line trace")
        other = ["nothing"] if program == "sharder" else ["judge", "nothing"]
        expect("other words", it.run(other), 2, "usage: .*")
        expect("words that are no text", it.run([*before, b"\xff"]), 2, "usage: .*")
        folder = os.open("/", os.O_RDONLY)
        expect("a folder to read", it.run(before, folder), 4, f"{program}: read fault", ("standard input", IS_A_FOLDER))
        os.close(folder)
        with open("/dev/full", "wb") as full:
            expect("a full disk", it.run(before, text, stdout=full), 5, f"{program}: write fault", ("standard output", NO_SPACE))
            notice = it.run([*([] if program == "sharder" else before), "--help"], stdout=full)
            expect("a full disk for the help", notice, 5, f"{program}: write fault", ("standard output", NO_SPACE))
        reader, writer = os.pipe()
        os.close(reader)
        expect("a closed pipe", it.run(before, text, stdout=writer), 5, f"{program}: write fault", ("standard output", CLOSED_PIPE))
        os.close(writer)


def check_logs(it):
    def expect(what, ran, status, first, cause=None):
        it.expect(what, ran, status, first, it.sentences["SCRIPT"].get(("status", status)), cause)

    with tempfile.TemporaryDirectory() as room:
        log = f"{room}/sharder.log"
        os.symlink("/dev/full", log)
        expect("a full disk for the log", it.run(["log"], PLAIN.encode(), room), 8, "sharder: disk fault", ("sharder.log", NO_SPACE))
        os.remove(log)
        os.mkdir(log)
        expect("a folder for the log", it.run(["resume"], PLAIN.encode(), room), 8, "sharder: disk fault", ("sharder.log", IS_A_FOLDER))
        os.rmdir(log)
        whole = f"{PLAIN}produce 1 1\nsend 1 a add 1\npump 40\n"
        if it.run(["log"], whole.encode(), room) != (0, []):
            it.faults.append("a whole log: it isn't written")
        expect("another log", it.run(["log"], PLAIN.encode(), room), 9, "sharder: log is there")
        expect("another script", it.run(["resume"], b"config shards=1\nup 1\n", room), 11, r"sharder: log of another script, batch \d+")
        with open(log, "r+b") as bytes_of:
            bytes_of.seek(2)
            bytes_of.write(b"\xff\xff\xff")
        expect("a damaged log", it.run(["resume"], whole.encode(), room), 10, r"sharder: log damaged at \d+")


def check_serving(it):
    """`serve`: its streams, and the logs that it doesn't go on with."""
    def expect(what, ran, status, first, cause=None):
        it.expect(f"serve, {what}", ran, status, f"serve: {first}" if status != 2 else first, it.sentences["SERVE"].get(("status", status)), cause)

    with tempfile.TemporaryDirectory() as room:
        log, here = f"{room}/sharder.log", os.open("/", os.O_RDONLY)
        expect("other words", it.run(["serve", "nothing"], b"", room), 2, "usage: serve, .*")
        expect("words that are no text", it.run(["serve", b"\xff"], b"", room), 2, "usage: serve, .*")
        expect("a folder to read", it.run(["serve"], here, room), 4, "read fault", ("standard input", IS_A_FOLDER))
        os.close(here)
        if it.run(["serve"], SERVED, room) != (0, []):
            it.faults.append("serve: a good run says something, or doesn't end well")
        with open("/dev/full", "wb") as full:
            expect("a full disk", it.run(["serve"], SERVED, room, stdout=full), 5, "write fault", ("standard output", NO_SPACE))
            expect("a full disk for the help", it.run(["serve", "--help"], b"", room, stdout=full), 5, "write fault", ("standard output", NO_SPACE))
        reader, writer = os.pipe()
        os.close(reader)
        expect("a closed pipe", it.run(["serve"], SERVED, room, stdout=writer), 5, "write fault", ("standard output", CLOSED_PIPE))
        os.close(writer)
        with open(log, "r+b") as bytes_of:
            bytes_of.seek(2)
            bytes_of.write(b"\xff\xff\xff")
        expect("a damaged log", it.run(["serve"], SERVED, room), 10, r"log damaged at \d+")
        os.remove(log)
        # (the first call of the disk is a sync, which that device refuses)
        os.symlink("/dev/full", log)
        expect("a full disk for the log", it.run(["serve"], SERVED, room), 8, "disk fault", ("sharder.log", INVALID))
        os.remove(log)
        os.mkdir(log)
        expect("a folder for the log", it.run(["serve"], SERVED, room), 8, "disk fault", ("sharder.log", IS_A_FOLDER))
        os.rmdir(log)
        it.run(["log"], f"{PLAIN}produce 1 1\nsend 1 a add 1\npump 40\n".encode(), room)
        expect("a log of log", it.run(["serve"], SERVED, room), 11, r"log of another script, batch \d+")


def check_rest(it):
    sentence = it.sentences["SCRIPT"].get(("status", 7))
    with open(f"{it.root}/crates/known_replays/data/full_wire_json.in", "rb") as script:
        ran = it.run(["replay", "json"], script.read())
    it.expect("a full wire", ran, 7, r"sharder: line \d+: wire full", sentence)
    for words, text in ((["replay"], PLAIN), (["judge"], f"{PLAIN}trace\n")):
        ended, lines = it.run(words, text.encode())
        if (ended, lines) != (0, []):
            it.faults.append(f"{words}: a good run says {lines}, and ends with {ended}")


def check_terminal(it):
    """At a terminal the programs say what they await, where they read anything."""
    for words, first in ((["replay"], "sharder: a script is awaited"), (["judge"], "judge: a script, a line `trace`"), (["serve"], "serve: lines are awaited"), (["bulk", "1"], None)):
        upper, lower = pty.openpty()
        # (an end of input)
        os.write(upper, b"\x04")
        with tempfile.TemporaryDirectory() as room:
            lines = it.run(words, lower, room)[1]
        os.close(upper)
        os.close(lower)
        if not (lines[0].startswith(first) if first and lines else lines == [] and first is None):
            it.faults.append(f"{words} at a terminal says {lines}")


def few():
    """Leaves room for the libraries alone."""
    resource.setrlimit(resource.RLIMIT_DATA, (1_000_000, 1_000_000))


def check_memory(it):
    """Without run.sh, which would want more."""
    for name, program, words, text in (("SCRIPT", "sharder", ["replay"], PLAIN), ("JUDGE", "judge", [], f"{PLAIN}trace\n"), ("SERVE", "serve", [], SERVED.decode())):
        place = text_of(f"{it.root}/out/run/{program}").split("\n", maxsplit=1)[0]
        ran = subprocess.run([f"{it.root}/{place}", *words], check=False, input=text.encode(), capture_output=True, preexec_fn=few)
        said = (ran.returncode, ran.stderr.decode().splitlines())
        it.expect(f"{program}, no memory", said, 6, f"{program}: out of memory", it.sentences[name].get(("status", 6)))


def faults_of(root):
    it = Answers(root)
    for check in (check_refusals, check_streams, check_logs, check_serving, check_rest, check_terminal, check_memory):
        check(it)
    return it.faults
