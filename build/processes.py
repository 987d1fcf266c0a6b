"""What is said, what is started and ended, and who waits for whom."""
import contextlib
import fcntl
import functools
import os
import shutil
import signal
import subprocess
import sys
import time

# How long a process that is told to end may take to do it, in seconds.
PATIENCE = 3


class Fault(Exception):
    """There is no answer, and a line says why."""


def say(text):
    print(f"run.sh: {text}", file=sys.stderr, flush=True)


def obey_signals():
    """Has a signal end this process by way of its `finally`s, with a status above 128."""
    for it in (signal.SIGHUP, signal.SIGINT, signal.SIGTERM):
        signal.signal(it, lambda number, _: sys.exit(128 + number))


def deaf():
    """Nothing stops what is being ended."""
    for it in (signal.SIGHUP, signal.SIGINT, signal.SIGTERM):
        signal.signal(it, signal.SIG_IGN)


def kit():
    """The folder of the kit whose `rt` is on the path; ends with 127 where there is none."""
    found = shutil.which("rt")
    if not found:
        say("there is no rt on the path: the programs are written in Rattle, whose toolchain runs, proves and builds them")
        sys.exit(127)
    return os.path.dirname(os.path.dirname(os.path.realpath(found)))


@functools.lru_cache(maxsize=None)
def version():
    """The line by which the kit names itself."""
    return subprocess.run(["rt", "version"], stdin=subprocess.DEVNULL, capture_output=True, text=True, check=True).stdout.strip()


def below(top):
    """The processes that `top` started, and those that they did."""
    children = {}
    for it in filter(str.isdigit, os.listdir("/proc")):
        with contextlib.suppress(OSError), open(f"/proc/{it}/stat", encoding="utf-8", errors="replace") as stat:
            parent = stat.read().rpartition(")")[2].split()[1]
            children.setdefault(int(parent), []).append(int(it))
    found = [top]
    for it in found:
        found += children.get(it, [])
    return found[1:]


def is_there(process):
    with contextlib.suppress(OSError), open(f"/proc/{process}/stat", encoding="utf-8", errors="replace") as stat:
        return stat.read().rpartition(")")[2].split()[0] != "Z"
    return False


def end(child):
    """Ends a process and all that it started: it is told first, and ends its own; then whatever is left."""
    if child.poll() is not None:
        return
    all_of_it = [child.pid, *below(child.pid)]
    child.terminate()
    until = time.monotonic() + PATIENCE
    while any(map(is_there, all_of_it)) and time.monotonic() < until:
        child.poll()
        time.sleep(0.05)
    for it in filter(is_there, all_of_it):
        with contextlib.suppress(ProcessLookupError):
            os.kill(it, signal.SIGKILL)
    child.wait()


@contextlib.contextmanager
def started(words, **how):
    """A process that is ended, with all that it started, where this one is left early."""
    child = subprocess.Popen(words, start_new_session=True, **{"stdin": subprocess.DEVNULL, **how})
    try:
        yield child
    except BaseException:
        deaf()
        raise
    finally:
        end(child)


@contextlib.contextmanager
def in_turn(path, what):
    """Waits while another run.sh does the same in this folder, and says so."""
    os.makedirs(os.path.dirname(path), exist_ok=True)
    with open(path, "w", encoding="utf-8") as turn:
        try:
            fcntl.flock(turn, fcntl.LOCK_EX | fcntl.LOCK_NB)
        except BlockingIOError:
            say(f"another run.sh {what} here, and this one waits for it")
            fcntl.flock(turn, fcntl.LOCK_EX)
        yield
