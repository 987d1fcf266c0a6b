"""The proved programs: which sources they are built of, and how they are proved and built (`rt ci` on a copy)."""
import os
import re
import shutil
import subprocess
import tempfile
import time

import sources
from processes import Fault, in_turn, kit, say, started, version

# What the programs were built of: lines of a word and a value.
NOTE = f"{sources.TOP}/crates/sharder/out/built.sum"
LOG = f"{sources.TOP}/crates/sharder/out/build.log"
BUILD_TAKES = "from nothing it takes up to 75 minutes on four processors"
# A line of `rt ci` on a crate that passed.
PASSED = re.compile(r"(?m)^rt: [a-z0-9_]+ (?:proved|is kept: .*)$")
# What `rt ci` reads of a crate.
READ_OF = (*sources.PROVED_OF, "stdin", "stdout", "args", "status", "data")


def place_of(name, top=sources.TOP):
    return f"{top}/crates/{name}/out/{name}"


def names():
    return " and ".join(sources.programs())


def sums():
    """The sums of the programs; nothing where one isn't there."""
    places = [place_of(it) for it in sources.programs()]
    return " ".join(map(sources.sum_of_file, places)) if all(os.access(it, os.X_OK) for it in places) else None


def sum_of_sources(top=sources.TOP):
    return sources.sum_of(sources.programs(), sources.PROVED_OF, top)


def is_built():
    """Whether the programs were built of the sources that stand here, by the kit that stands here."""
    if not os.path.exists(NOTE):
        return False
    with open(NOTE, encoding="utf-8") as it:
        noted = dict(line.rstrip("\n").split(" ", 1) for line in it if " " in line)
    # (without a kit there is none that another could have built them by)
    of_kit = not shutil.which("rt") or noted.get("kit") == version()
    return of_kit and noted.get("sources") == sum_of_sources() and noted.get("programs") == sums()


def write_note(of):
    with open(f"{NOTE}.new", "w", encoding="utf-8") as it:
        it.write(f"sources {of}\nkit {version()}\nprograms {sums()}\n")
    os.replace(f"{NOTE}.new", NOTE)


def note(of):
    """Notes that `rt ci` has built the programs of the sources of this sum, if they still stand here."""
    if sums() and of == sum_of_sources():
        write_note(of)
    else:
        say("a source was changed while `rt ci` ran, so it is not known of which sources the programs are built")


# ---- How long a build takes


def times():
    """The file that keeps how long builds from nothing took on this machine: lines of processors and minutes."""
    cache = os.environ.get("XDG_CACHE_HOME") or f"{os.environ.get('HOME', '/nonexistent')}/.cache"
    return f"{cache}/sharder/build_minutes"


def took():
    """How long a build from nothing took the last time on so many processors, or else elsewhere."""
    try:
        with open(times(), encoding="utf-8") as it:
            last = [line.split()[1] for line in it if line.split()[:1] == [str(os.cpu_count())]]
    except (OSError, IndexError):
        last = []
    return f"the last time it took {last[-1]} minutes from nothing" if last else BUILD_TAKES


def keep_time(minutes):
    try:
        os.makedirs(os.path.dirname(times()), exist_ok=True)
        with open(times(), "a", encoding="utf-8") as it:
            it.write(f"{os.cpu_count()} {minutes}\n")
    except OSError:
        pass


# ---- A build


def copy(room):
    """A copy of what a proof reads: with no edits that must fail, and no crate that isn't needed."""
    needed = sources.needed(sources.programs())
    os.mkdir(f"{room}/.git")
    if os.path.exists(f"{sources.TOP}/HANDLES"):
        shutil.copy(f"{sources.TOP}/HANDLES", room)
    for crate in needed:
        os.makedirs(f"{room}/crates/{crate}")
        for part in READ_OF:
            of, to = (f"{it}/crates/{crate}/{part}" for it in (sources.TOP, room))
            if os.path.isdir(of):
                shutil.copytree(of, to)
            elif os.path.exists(of):
                shutil.copy(of, to)
    # (`rt ci` wants no line of a crate that isn't there)
    with open(f"{sources.TOP}/crates.txt", encoding="utf-8") as it, open(f"{room}/crates.txt", "w", encoding="utf-8") as to:
        to.writelines(line for line in it if re.split(r"[ :]", line)[0] in needed)
    return len(needed)


def at_work(room):
    """The crates of the room that provers are at work on, by the words of these."""
    found = set()
    for it in filter(str.isdigit, os.listdir("/proc")):
        try:
            with open(f"/proc/{it}/cmdline", encoding="utf-8", errors="replace") as words:
                found.update(re.findall(rf"--crate-name (\w+) .*{re.escape(room)}/crates/", words.read().replace("\0", " ")))
        except OSError:
            continue
    return " ".join(sorted(found))


def tell_progress(child, room, count):
    """Tells each half minute how far the build is, until it ends."""
    since, began, how = time.strftime("%H:%M"), time.monotonic(), took()
    while True:
        try:
            return child.wait(timeout=30)
        except subprocess.TimeoutExpired:
            with open(f"{room}/log", encoding="utf-8", errors="replace") as it:
                passed = len(PASSED.findall(it.read()))
            now = at_work(room)
            minutes = (time.monotonic() - began) // 60
            say(f"{passed} of {count} crates are proved{now and f', at work on {now}'}; since {since}, {minutes:.0f} minutes; {how}")


def build_in(room):
    began = time.monotonic()
    count = copy(room)
    of = sum_of_sources(room)
    say(f"{count} crates are proved, and {names()} are built; {took()}")
    with open(f"{room}/log", "wb") as log, started(["rt", "ci"], cwd=room, stdout=log, stderr=subprocess.STDOUT) as child:
        status = tell_progress(child, room, count)
    os.makedirs(os.path.dirname(LOG), exist_ok=True)
    shutil.copy(f"{room}/log", LOG)
    with open(LOG, encoding="utf-8", errors="replace") as it:
        said = it.read()
    if status:
        raise Fault("\n".join([*said.splitlines()[-40:], f"run.sh: {names()} were not built; all that `rt ci` said is in {LOG}"]))
    for it in sources.programs():
        os.makedirs(os.path.dirname(place_of(it)), exist_ok=True)
        shutil.copy(place_of(it, room), f"{place_of(it)}.new")
        os.replace(f"{place_of(it)}.new", place_of(it))
    write_note(of)
    minutes = int(time.monotonic() - began) // 60
    if not re.search(r"(?m)^rt: \w+ is kept: ", said):
        keep_time(minutes)
    say(f"{names()} are proved and built, after {minutes} minutes")


def build():
    kit()
    with in_turn(f"{os.path.dirname(NOTE)}/build.lock", f"builds {names()}"):
        if is_built():
            say(f"{names()} are proved and built already")
            return
        with tempfile.TemporaryDirectory(prefix="sharder-build-") as room:
            build_in(room)
