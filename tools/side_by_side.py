#!/usr/bin/env python3
"""`tools/side_by_side.py CRATE [WORD..]` makes a crate, and all crates that it stands on, side by side.

`rt lib` makes the libraries below a crate one after another, and keeps every other `rt` out of their folders
meanwhile. So each crate is proved in a room of its own: a folder with its files, the files of the crates below, and
their finished libraries, which are laid in by links. What a room made moves into the checkout at once, and any later
`rt` finds it there, also one in another checkout on the machine. A library has its statements alone, because the
crates above need no more; `library.py` beside this makes it.

Crates that don't wait for one another are proved at the same time, those with the longest chain behind them first. The
crate with the longest chain of all is urgent: it gets up to four jobs, and the others run below its priority. Another
crate gets a second job, or up to four, where no crate waits for a processor. Memory is shared out too.

A run that is broken off loses no crate that was proved. Rooms stand in the folder of git, where the next run goes on
with the program. Without git they stand in a temporary folder and go when the run ends. The program is run once on no
input, with the words that are given. Beside a program or archive `origin.py` notes of which sources it is. Lines on
standard error say how many crates and about how many minutes are left, and which processor seconds each proof took. The
order goes by those of the last gate, which stand in docs/LAST-RUN.md.
"""

import contextlib
import fcntl
import os
import re
import shutil
import signal
import subprocess
import sys
import tempfile
import time
from concurrent.futures import FIRST_COMPLETED, ThreadPoolExecutor, wait
from dataclasses import dataclass

import gate_seconds
import git
import origin

TOP = os.path.dirname(os.path.dirname(os.path.abspath(__file__)))
PARTS = ("src", "specs", "proofs")
# What a note of a built file says which sources it is of.
SOURCES = ["crates", "crates.txt"]
MOST_JOBS = 4
# Runs a command below the priority of others.
GENTLY = os.path.join(TOP, "tools", "gently.sh")
# What makes a crate, by its kind.
MAKERS = {
    "program": ("rt", "run"),
    "static": ("rt", "lib"),
    "library": (sys.executable, os.path.join(TOP, "tools", "library.py")),
}


@dataclass(frozen=True)
class Crate:
    """A crate of the repository: those right below it, how it is made, and what its proof is likely to take."""

    name: str
    deps: tuple
    kind: str
    seconds: float
    memory: float


def sources(folder):
    """The files that the proof of a crate reads, in order."""
    walks = (os.walk(os.path.join(folder, part)) for part in PARTS)
    return sorted(os.path.join(at, it) for walk in walks for at, _, names in walk for it in names)


def count_of(pattern, folder, ending):
    """How often the files of that ending have the pattern, in a crate's folder."""
    count = 0
    for path in sources(folder):
        if path.endswith(ending):
            with open(path, "rb") as it:
                count += len(re.findall(pattern, it.read()))
    return count


def lines_of(folder, ending):
    return count_of(rb"\n", folder, ending)


def listed(text):
    """The crates of a crates.txt, each with those that it names."""
    found = {}
    for line in text.splitlines():
        head, colon, deps = line.partition("#")[0].partition(":")
        if colon:
            found[head.split()[0]] = deps.split()
    return found


def below(deps, name):
    """The crates that one stands on, lowest first."""
    found = []

    def visit(it):
        for dep in deps[it]:
            if dep in deps and dep not in found:
                visit(dep)
                found.append(dep)

    visit(name)
    return found


def crates_of(top):
    """All crates of a checkout, lowest first."""
    with open(os.path.join(top, "crates.txt"), encoding="utf-8") as it:
        text = it.read()
    deps = listed(text)
    statics = re.findall(r"(?m)^(\w+)\b[^:\n]* staticlib\b", text)
    code = {it: lines_of(os.path.join(top, "crates", it), ".rt") for it in deps}
    measured = gate_seconds.of(top)
    crates = []
    for it in deps:
        folder = os.path.join(top, "crates", it)
        is_program = os.path.isfile(os.path.join(folder, "src", "main.rt"))
        under = sum(code[dep] for dep in below(deps, it))
        crates.append(
            Crate(
                name=it,
                deps=tuple(dep for dep in deps[it] if dep in deps),
                kind="program" if is_program else "static" if it in statics else "library",
                # One that wasn't measured is reckoned by its functions, which fits by and large.
                seconds=measured[it].proof
                if it in measured
                else 8 + 1.3 * count_of(rb"\bfn\s+\w", folder, ".rt") + 0.008 * under,
                memory=1.5e9 + 1e6 * code[it] + 2e5 * lines_of(folder, ".antt") + 8e4 * under,
            )
        )
    return crates


def crates_for(top, name):
    """The crate and all that it stands on, lowest first."""
    crates = {it.name: it for it in crates_of(top)}
    if name not in crates:
        sys.exit("crates.txt lists no crate %s" % name)
    deps = {it.name: it.deps for it in crates.values()}
    return [crates[it] for it in [*below(deps, name), name]]


def behind(crates):
    """For each crate the seconds of the longest chain of crates that begins with it."""
    found = {}
    for crate in reversed(crates):
        above = [found[it.name] for it in crates if crate.name in it.deps]
        found[crate.name] = crate.seconds + max(above, default=0)
    return found


@dataclass(frozen=True)
class Start:
    """A crate that is started: its number of jobs, and whether the longest chain of all waits for it."""

    crate: Crate
    jobs: int
    is_urgent: bool

    def processors(self):
        """How many processors it keeps at work: the jobs of an urgent crate wait for one another half of the time."""
        return max(1, self.jobs // 2) if self.is_urgent else self.jobs


def chosen(waiting, made, running, processors, memory, behind_of):
    """What to start now, when these starts are running. `behind_of` has the seconds of the chain behind each crate."""
    found = []
    ready = [it for it in waiting if all(dep in made for dep in it.deps)]
    ready.sort(key=lambda it: -behind_of[it.name])
    idle = processors - sum(it.processors() for it in running)
    room = memory - sum(taken(it.crate, it.jobs) for it in running)
    # Those that run are half done, by and large.
    longest = max((behind_of[it.crate.name] - it.crate.seconds / 2 for it in running), default=0)
    for at, crate in enumerate(ready):
        if idle < 1 or (crate.memory > room and (running or found)):
            break
        is_urgent = not found and behind_of[crate.name] > longest
        jobs = min(MOST_JOBS, processors if is_urgent else max(1, idle // (len(ready) - at)))
        while jobs > 1 and taken(crate, jobs) > room:
            jobs -= 1
        found.append(Start(crate, jobs, is_urgent))
        idle -= found[-1].processors()
        room -= taken(crate, jobs)
    return found


def taken(crate, jobs):
    """The memory of a proof with so many jobs."""
    return crate.memory * (1 + 0.6 * (jobs - 1))


def seconds_left(crates, processors):
    """How long these crates take at least: their longest chain with all jobs, or their work shared out."""
    pace = 1 + 0.3 * (min(MOST_JOBS, processors) - 1)
    return max(max(behind(crates).values(), default=0) / pace, sum(it.seconds for it in crates) / processors)


def free_memory():
    """Most of the memory that is free: some proofs take more than is planned."""
    with open("/proc/meminfo", encoding="ascii") as it:
        words = next(line for line in it if line.startswith("MemAvailable:")).split()
    return 0.85 * 1024 * int(words[1])


@contextlib.contextmanager
def locked(path, say=None):
    """Keeps others out of a folder, as `rt` does."""
    at = os.open(path, os.O_RDONLY)
    try:
        try:
            fcntl.flock(at, fcntl.LOCK_EX | fcntl.LOCK_NB)
        except BlockingIOError:
            if say:
                say("another build works in this checkout: waiting for it")
            fcntl.flock(at, fcntl.LOCK_EX)
        yield
    finally:
        os.close(at)


@contextlib.contextmanager
def rooms_of(top):
    """The folder of the rooms. In the folder of git it outlasts a run that is broken off."""
    folder = git.asked(top, "rev-parse", "--absolute-git-dir")
    if folder is None:
        with tempfile.TemporaryDirectory() as rooms:
            yield rooms
        return
    rooms = os.path.join(folder, "side-by-side")
    os.makedirs(rooms, exist_ok=True)
    yield rooms


def copied(top, room, name, parts):
    for part in parts:
        whole = os.path.join(top, "crates", name, part)
        if os.path.isdir(whole):
            shutil.copytree(whole, os.path.join(room, "crates", name, part))


def link_or_copy(one, other):
    try:
        os.link(one, other)
    except OSError:
        shutil.copy2(one, other)


def furnish(top, room, name, lower):
    """Makes a crate's room from the checkout. What an earlier run left of the crate's own work stays, or moves in."""
    crates = os.path.join(room, "crates")
    own = os.path.join(crates, name, "out")
    os.makedirs(os.path.dirname(own), exist_ok=True)
    for it in os.listdir(crates):
        if it != name:
            shutil.rmtree(os.path.join(crates, it))
    for part in PARTS:
        shutil.rmtree(os.path.join(crates, name, part), ignore_errors=True)
    os.makedirs(os.path.join(room, ".git"), exist_ok=True)
    with open(os.path.join(top, "crates.txt"), encoding="utf-8") as whole:
        lines = [it for it in whole if listed(it).keys() & {*lower, name}]
    with open(os.path.join(room, "crates.txt"), "w", encoding="utf-8") as part:
        part.writelines(lines)
    for it in [*lower, name]:
        copied(top, room, it, PARTS)
    for it in lower:
        made = os.path.join(top, "crates", it, "out", "rlib")
        if os.path.isdir(made):
            shutil.copytree(made, os.path.join(crates, it, "out", "rlib"), copy_function=link_or_copy)
    kept = os.path.join(top, "crates", name, "out")
    if not os.path.isdir(own) and os.path.isdir(kept):
        with locked(os.path.dirname(kept)):
            shutil.move(kept, own)


def clear(top, room, name):
    """Moves what the room made into the checkout, and removes the room."""
    made = os.path.join(room, "crates", name, "out")
    to = os.path.join(top, "crates", name, "out")
    if os.path.isdir(made):
        with locked(os.path.dirname(to)):
            os.makedirs(to, exist_ok=True)
            for it in os.listdir(made):
                was = os.path.join(to, it)
                shutil.rmtree(was) if os.path.isdir(was) else os.path.exists(was) and os.remove(was)
                shutil.move(os.path.join(made, it), was)
    shutil.rmtree(room)


class Build:
    """One run: the crates that wait, those that are made, and those that are being proved."""

    def __init__(self, top, rooms, name, words):
        self.top, self.rooms, self.words = top, rooms, words
        self.name = name
        self.crates = crates_for(top, name)
        self.deps = {it.name: it.deps for it in self.crates}
        self.behind = behind(self.crates)
        self.processors, self.memory = len(os.sched_getaffinity(0)), free_memory()
        self.waiting, self.made = list(self.crates), set()
        self.children, self.is_ending, self.is_taken = [], False, True
        self.planned, self.spent = 0.0, 0.0

    def say(self, text):
        print("%s: %s" % (self.name, text), file=sys.stderr, flush=True)

    def prove(self, start):
        """Proves one crate in its room. The answer is the crate, its status, its seconds, those of processors, and what
        was told."""
        crate = start.crate
        room = os.path.join(self.rooms, crate.name)
        furnish(self.top, room, crate.name, below(self.deps, crate.name))
        if self.is_ending:
            return crate, 130, 0, 0, ""
        verb = [*MAKERS[crate.kind], "--jobs", str(start.jobs)]
        verb += ["--", *self.words] if crate.kind == "program" else []
        began, folder = time.monotonic(), os.path.join(room, "crates", crate.name)
        status, work, told = self.ran(verb if start.is_urgent else [GENTLY, *verb], folder)
        seconds = time.monotonic() - began
        if not self.is_ending:
            if crate.kind == "library" and not status and is_new(told) and self.is_taken:
                self.hand_over(crate)
            clear(self.top, room, crate.name)
        return crate, status, seconds, work, told

    def ran(self, words, folder):
        """What a command came to: its status, its processor seconds, and what it told."""
        with tempfile.TemporaryFile("w+", errors="replace") as log:
            ran = subprocess.Popen(
                words,
                cwd=folder,
                stdin=subprocess.DEVNULL,
                stdout=log,
                stderr=subprocess.STDOUT,
                start_new_session=True,
            )
            self.children.append(ran)
            _, how, used = os.wait4(ran.pid, 0)
            ran.returncode = os.waitstatus_to_exitcode(how)
            log.seek(0)
            return ran.returncode, used.ru_utime + used.ru_stime, log.read()

    def hand_over(self, crate):
        """Has the kit take the library from the room, because other checkouts then find it where it stays. A kit that
        takes none makes it anew, and isn't asked again."""
        folder = os.path.join(self.top, "crates", crate.name)
        with locked(folder):
            shutil.rmtree(os.path.join(folder, "out", "rlib"), ignore_errors=True)
        if is_new(self.ran([*MAKERS[crate.kind], "--jobs", "1"], folder)[2]):
            self.is_taken = False

    def end(self, *_):
        """Ends what was begun. The rooms stay for the next run."""
        self.is_ending = True
        for ran in self.children:
            with contextlib.suppress(ProcessLookupError):
                os.killpg(ran.pid, signal.SIGTERM)
        sys.exit(130)

    def minutes_left(self):
        """About how many minutes are left, by the pace so far."""
        pace = self.spent / self.planned if self.planned else 1.0
        left = [it for it in self.crates if it.name not in self.made]
        return round(0.4 + pace * seconds_left(left, self.processors) / 60)

    def run(self):
        """Whether all was made."""
        running = {}
        self.say(
            "%d crates, on %d processors; about %d minutes, and less where some were proved before"
            % (len(self.crates), self.processors, self.minutes_left())
        )
        with ThreadPoolExecutor(self.processors) as pool:
            while self.waiting or running:
                now = list(running.values())
                for start in chosen(self.waiting, self.made, now, self.processors, self.memory, self.behind):
                    self.waiting.remove(start.crate)
                    running[pool.submit(self.prove, start)] = start
                for task in wait(running, return_when=FIRST_COMPLETED).done:
                    running.pop(task)
                    if not self.take(*task.result()):
                        self.waiting.clear()
        return len(self.made) == len(self.crates)

    def take(self, crate, status, seconds, work, told):
        """Notes that a crate has ended, and says so."""
        if status:
            print(told, end="", file=sys.stderr)
            self.say("%s failed, so nothing above it is made" % crate.name)
            return False
        self.made.add(crate.name)
        if is_new(told):
            self.planned += crate.seconds
            self.spent += seconds
        count = len(self.crates) - len(self.made)
        rest = "%d left, about %d minutes" % (count, self.minutes_left()) if count else "none left"
        how = "is proved in %d processor seconds" % work if is_new(told) else "was proved before"
        self.say("%s %s, %s" % (crate.name, how, rest))
        return True


def is_new(told):
    """Whether this is what a proof told, and not a look at what was proved before."""
    return "logic=proved" in told


def made_of(top, name):
    """What was made of a crate: a program, a static library or a library."""
    made = [os.path.join(top, "crates", name, "out", it) for it in (name, "lib%s.a" % name, "rlib")]
    return [it for it in made if os.path.exists(it)]


def is_made_since(top, name, moment, crates):
    """Whether another build has made the crate since this moment, and no source is newer than the beginning of that
    build, which is the age of what was made."""
    made = [it for it in made_of(top, name) if os.stat(it).st_ctime >= moment]
    return any(os.stat(it).st_mtime > newest_source(top, crates) for it in made)


def newest_source(top, crates):
    """When a source of these crates, or a folder of sources, was changed last."""
    found = [os.path.join(top, "crates.txt")]
    for crate in crates:
        for part in PARTS:
            for at, _, names in os.walk(os.path.join(top, "crates", crate.name, part)):
                found += [at, *[os.path.join(at, it) for it in names]]
    return max(os.stat(it).st_mtime for it in found)


def main(words):
    if not words or words[0].startswith("-"):
        print(__doc__)
        return 0 if words in (["--help"], ["-h"]) else 2
    began = time.time()
    with rooms_of(TOP) as rooms:
        build = Build(TOP, rooms, words[0], words[1:])
        with locked(rooms, build.say):
            if is_made_since(TOP, words[0], began, build.crates):
                return 0
            signal.signal(signal.SIGTERM, build.end)
            signal.signal(signal.SIGINT, build.end)
            begun, sources = time.time(), git.committed(TOP, SOURCES)
            if not build.run():
                return 1
            # What is edited meanwhile counts as newer, and what is committed meanwhile as another's.
            is_of_one = sources == git.committed(TOP, SOURCES)
            for it in made_of(TOP, words[0]):
                os.utime(it, (begun, begun))
                if os.path.isfile(it):
                    origin.write(it, sources if is_of_one else None)
            return 0


if __name__ == "__main__":
    sys.exit(main(sys.argv[1:]))
