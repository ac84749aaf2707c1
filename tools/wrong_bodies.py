#!/usr/bin/env python3
"""Tries the wrong bodies that the gate leaves out, many in one check. The script `wrong-bodies` beside it says how it
is called.

Proofs are modular: what a function owes follows from its own body and from the contracts of what it calls. So edits in
the bodies of different functions are tried together, in one check of their crate, which goes on past a function that is
not proved and tells each. Two edits of one function are never tried together, nor two of functions in one file that
have one name, because the check's lines are told apart by these.

An edit is refused where the check ends with `logic=not-proved` and names a proof of the edit's own function: an answer
that is now wrong, or a goal that has none. Lines that only miss a name which an edit took away show nothing, nor does a
check that ended in another way. What is left of a batch is tried again in halves, and at last singly by `rt must-fail`,
which has the last word. An edit of more than one body, or of a clause, a constant or a type, is tried singly at once.

A batch is checked in a room of its own, and there the functions that it changes alone. A crate whose library the gate
has left in the checkout since its sources changed is proved, and so are those below it. Any other is proved first, and
its batches are checked over what that kept. What was refused is noted in a folder of the user's, by the sum of all that
its refusal rests on, so the same edit is not tried again on the machine until some of that changes. A crate that was
tried whole gets a row in docs/LAST-RUN.md, and tried.py beside this says how long that holds.
"""

import argparse
import hashlib
import os
import re
import shutil
import signal
import subprocess
import sys
import tempfile
import time
from concurrent.futures import FIRST_COMPLETED, ThreadPoolExecutor, wait
from contextlib import suppress

import body_list
import git
import kit
import side_by_side
import tried
from body_edits import apply, check_alone, in_batches, read_edit, refusals, text_of
from side_by_side import link_or_copy

# A wrong body that the kit refused. A refusal only for a lost name, or only by a limit, shows nothing, and says so.
REFUSED = re.compile(r"(?m)^rt: must-fail (\S+)\.edit: refused, as it must be(?! \(only )")
KEPT = os.path.join("out", "incremental")
# An `rt` that takes a library for built where it stands, as the gate leaves it.
OVER_GATE = [sys.executable, os.path.join(os.path.dirname(os.path.abspath(__file__)), "still_proved.py")]
# A check over kept work takes so much of the memory of a whole proof.
OVER_KEPT = 0.7


def kept_copy(one, other):
    """A copy of a file of kept work: a link to what was proved, because a check replaces that and never changes it."""
    return link_or_copy(one, other) if one.endswith(".oantt") else shutil.copy2(one, other)


class Trial:
    """One run: the crates that are still to be proved, the batches that wait, and what is left to be tried singly."""

    def __init__(self, checkout, room, edits, notes, given):
        self.top, self.rooms = os.path.join(room, "top"), os.path.join(room, "rooms")
        self.edits, self.notes, self.given = edits, notes, given
        self.jobs = given.jobs or len(os.sched_getaffinity(0))
        self.ends = time.monotonic() + 60 * given.minutes if given.minutes is not None else None
        self.crates = {it.name: it for name in edits for it in side_by_side.crates_for(self.top, name)}
        self.deps = {it.name: it.deps for it in self.crates.values()}
        self.waiting, self.made = side_by_side.below({**self.deps, "": [*self.deps]}, ""), set()
        self.behind = side_by_side.behind([self.crates[it] for it in self.waiting])
        self.of_gate = self.laid_in(checkout)
        self.batches, self.singles, self.begun, self.refused = [], [], [], set()
        self.failed, self.count = [], 0
        self.memory = side_by_side.free_memory()
        self.children, self.is_ending = [], False

    def laid_in(self, checkout):
        """Lays the libraries into the copy that are no older than their sources and have all below them. The answer is
        their crates. Where sources aren't committed, the copy is of others, and there are none."""
        found = set()
        if git.committed(checkout, side_by_side.SOURCES) is None:
            return found
        for name in self.waiting:
            lower = side_by_side.below(self.deps, name)
            made = os.path.join(checkout, "crates", name, "out", "rlib")
            rlib = os.path.join(made, name + ".rlib")
            if not os.path.exists(rlib) or not found.issuperset(lower):
                continue
            read = [self.crates[it] for it in [*lower, name]]
            if os.stat(rlib).st_mtime > side_by_side.newest_source(checkout, read):
                to = os.path.join(self.top, "crates", name, "out", "rlib")
                shutil.copytree(made, to, copy_function=link_or_copy)
                found.add(name)
        return found

    def is_over(self):
        return self.ends is not None and time.monotonic() >= self.ends

    def run_rt(self, words, folder):
        """What an `rt` came to: its status, and what it told. `RT_JOBS` is how many edits it tries at once."""
        if self.is_ending:
            return 130, ""
        how = {"stdin": subprocess.DEVNULL, "stdout": subprocess.PIPE, "stderr": subprocess.STDOUT, "errors": "replace"}
        env = {**os.environ, "RT_JOBS": str(self.given.jobs)} if self.given.jobs else None
        rt = OVER_GATE if self.of_gate else ["rt"]
        ran = subprocess.Popen([*rt, *words], cwd=folder, env=env, start_new_session=True, **how)
        self.children.append(ran)
        told = ran.communicate()[0]
        return ran.returncode, told

    def end(self, *_):
        self.is_ending = True
        for ran in self.children:
            if ran.poll() is None:
                with suppress(ProcessLookupError):
                    os.killpg(ran.pid, signal.SIGTERM)
        sys.exit(130)

    def furnished(self, name, room):
        side_by_side.furnish(self.top, room, name, side_by_side.below(self.deps, name))
        return os.path.join(room, "crates", name)

    def prove(self, name):
        """Proves a crate, and keeps its work for its batches and its library for the crates above. A library that the
        kit took from another checkout may have no such work."""
        if name in self.of_gate:
            return 0, ""
        room = os.path.join(self.rooms, name)
        folder = self.furnished(name, room)
        is_below = any(name in deps for deps in self.deps.values())
        status, told = self.run_rt(["lib" if is_below else "check", "--jobs", "1"], folder)
        if not status and name in self.edits and not os.path.isdir(os.path.join(folder, KEPT)):
            status, told = self.run_rt(["check", "--jobs", "1"], folder)
        if not status:
            side_by_side.clear(self.top, room, name)
        return status, told

    def check(self, name, batch):
        """Checks the functions of a crate that a batch of edits changes. The answer is the status, what was told, and
        the seconds."""
        began, room = time.monotonic(), tempfile.mkdtemp(dir=self.rooms)
        kept = os.path.join("crates", name, KEPT)
        try:
            if os.path.isdir(os.path.join(self.top, kept)):
                shutil.copytree(os.path.join(self.top, kept), os.path.join(room, kept), copy_function=kept_copy)
            # what the copy has of the crate stays there
            os.makedirs(os.path.join(room, "crates", name, "out"), exist_ok=True)
            folder = self.furnished(name, room)
            apply(batch, folder)
            places = [(it.function, it.path) for it in batch]
            ran = check_alone(name, places, lambda only: self.run_rt(["check", "--jobs", "1", *only], folder))
            return *ran, time.monotonic() - began
        finally:
            shutil.rmtree(room, ignore_errors=True)

    def tasks(self):
        """What can be begun now: proofs, those with the longest chain behind them first, and then batches, which fill
        the processors at the end. Under a limit of time a crate's batches come before the next crate."""
        ready = [it for it in self.waiting if self.made.issuperset(self.deps[it])]
        ready.sort(key=lambda it: -self.behind[it])
        proofs = [(it, None) for it in ready if not self.is_over()]
        return proofs + self.batches if self.ends is None else self.batches + proofs

    def next_task(self, running):
        """Takes a task for which memory is free, if there is one."""
        used = sum(self.need(*it) for it in running)
        for name, batch in self.tasks():
            if not running or used + self.need(name, batch) <= self.memory:
                if batch:
                    self.batches.remove((name, batch))
                else:
                    self.waiting.remove(name)
                return name, batch
        return None

    def need(self, name, batch):
        return self.crates[name].memory * (OVER_KEPT if batch else 1)

    def run(self):
        """Tries all the edits, in batches where they can be."""
        running = {}
        with ThreadPoolExecutor(self.jobs) as pool:
            while True:
                while len(running) < self.jobs:
                    task = self.next_task(running.values())
                    if not task:
                        break
                    name, batch = task
                    call = pool.submit(self.check, name, batch) if batch else pool.submit(self.prove, name)
                    running[call] = task
                if not running:
                    break
                for call in wait(running, return_when=FIRST_COMPLETED).done:
                    name, batch = running.pop(call)
                    if batch:
                        self.take(name, batch, *call.result())
                    else:
                        self.begin(name, *call.result())
        self.try_singly(self.singles)

    def begin(self, name, status, told):
        """A crate's proof has ended: its edits come next."""
        if status:
            print(told, end="")
            print("%s is not proved, so no wrong body of it or of a crate above it is tried" % name, flush=True)
            self.failed.append("%s itself" % name)
            return
        self.made.add(name)
        if name in self.edits and not self.is_over():
            self.begun.append(name)
            self.count += len(self.edits[name])
            self.singles += [it for it in self.edits[name] if not it.function]
            self.batches += [(name, it) for it in in_batches([it for it in self.edits[name] if it.function])]

    def take(self, name, batch, status, told, seconds):
        """A batch was checked: what it did not refuse is tried again."""
        refused = refusals(batch, status, told)
        rest = [it for it in batch if it not in refused]
        self.keep(refused)
        how = "singly" if len(rest) < 3 else "again"
        left = ", %d left to try %s" % (len(rest), how) if rest else ""
        print("%s: %d refused in one check%s (%d s)" % (name, len(refused), left, seconds))
        for edit, line in refused.items():
            print("  %s/%s: %s" % (name, edit.name, line[:160]))
        sys.stdout.flush()
        if how == "singly":
            self.singles += rest
        else:
            self.batches += [(name, it) for it in (rest[::2], rest[1::2])]

    def try_singly(self, edits):
        """Has the kit try each edit alone, over what the proof of its crate kept."""
        if not edits:
            return
        names = sorted({it.crate for it in edits})
        for name in names:
            folder = os.path.join(self.top, "crates", name)
            to = os.path.join(folder, "must-fail")
            shutil.rmtree(to, ignore_errors=True)
            os.mkdir(to)
            for it in edits:
                if it.crate == name:
                    shutil.copy2(os.path.join(folder, "wrong-bodies", it.name + ".edit"), to)
        print("%d to try singly" % len(edits), flush=True)
        status, told = self.run_rt(["must-fail", *names], self.top)
        print(told, end="", flush=True)
        refused = REFUSED.findall(told)
        self.keep([it for it in edits if named(it) in refused])
        if status and all(named(it) in refused for it in edits):
            self.failed.append("rt must-fail itself")

    def keep(self, refused):
        self.refused.update(map(named, refused))
        self.notes.keep(refused)

    def not_refused(self):
        """What failed, and each edit of the crates that were begun which nothing refused, however it was lost."""
        begun = [named(it) for name in self.begun for it in self.edits[name]]
        return [*self.failed, *[it for it in begun if it not in self.refused]]

    def run_singly(self):
        """Tries each edit alone. With no limit of time all are tried in one run, which fills the processors better."""
        if self.ends is None:
            self.begun, self.count = [*self.edits], sum(map(len, self.edits.values()))
            self.try_singly([it for of_crate in self.edits.values() for it in of_crate])
        for name in self.edits if self.ends is not None else ():
            if not self.is_over():
                self.begun.append(name)
                self.count += len(self.edits[name])
                self.try_singly(self.edits[name])


def named(edit):
    return "%s/%s" % (edit.crate, edit.name)


class Notes:
    """Which wrong bodies are refused, now or before: each is noted by the sum of its text and of all that refuses it. A
    crate that is tried whole gets its row."""

    def __init__(self, folder, sources, checkout):
        self.folder, self.sources, self.checkout = folder, sources, checkout
        self.asked, self.refused, self.commit = {}, set(), git.commit(checkout)
        os.makedirs(folder, exist_ok=True)

    def not_noted(self, asked):
        """Those of the wrong bodies that are asked for which weren't refused before, by their crates."""
        self.asked = asked
        self.refused = {named(it) for edits in asked.values() for it in edits if os.path.exists(self.note_of(it))}
        left = {name: [it for it in edits if named(it) not in self.refused] for name, edits in asked.items()}
        return {name: edits for name, edits in left.items() if edits}

    def note_of(self, edit):
        text = tried.text_of_edit(self.sources.top, edit.crate, edit.name)
        own = hashlib.sha256(self.sources.of_proof(edit.crate) + text.encode())
        return os.path.join(self.folder, own.hexdigest())

    def keep(self, refused):
        for it in refused:
            open(self.note_of(it), "w").close()
        self.refused.update(map(named, refused))
        self.put_rows({it.crate for it in refused})

    def put_rows(self, crates, is_over=False):
        """Gives those of these crates their row that are tried whole, each once all of it is refused, or at the end."""
        for name in crates:
            count = sum(named(it) in self.refused for it in self.asked[name])
            every = len(tried.edits_of(self.sources.top, name))
            if len(self.asked[name]) == every and (is_over or count == every):
                row = tried.row(self.sources, name, every, count, self.commit)
                tried.put(self.checkout, {name: row})


def notes_folder():
    """Where it is noted what was refused: in the user's cache, which all checkouts share."""
    cache = os.environ.get("XDG_CACHE_HOME") or os.path.join(os.path.expanduser("~"), ".cache")
    return os.path.join(cache, "ripsawbean", "wrong-bodies")


def changed_since(top, commit):
    """The crates that changed since a commit, and those that stand on them, lowest first."""
    told = git.said(top, "diff", "--name-only", commit, "HEAD", "--", "crates")
    found = set(re.findall(r"(?m)^crates/([^/]+)/(?:src|specs|proofs|wrong-bodies)/", told))
    deps = side_by_side.listed(text_of(os.path.join(top, "crates.txt")))
    for name in deps:
        if found.intersection(deps[name]):
            found.add(name)
    return [it for it in deps if it in found]


def named_edits(top, words):
    """The edits that the words CRATE and CRATE/NAME name, by their crates."""
    found = {}
    for word in words:
        crate, _, name = word.partition("/")
        folder = os.path.join(top, "crates", crate)
        if not os.path.isdir(folder):
            sys.exit("there is no crate %s" % crate)
        if not os.path.isdir(os.path.join(folder, "wrong-bodies")):
            print("%s has no folder wrong-bodies" % crate, flush=True)
            continue
        every = sorted(os.listdir(os.path.join(folder, "wrong-bodies")))
        names = [it.removesuffix(".edit") for it in every if it.endswith(".edit")]
        if name and name not in names:
            sys.exit("there is no wrong body %s" % word)
        edits = [read_edit(top, crate, it) for it in names if it == name or not name]
        found[crate] = [*found.get(crate, []), *[it for it in edits if it not in found.get(crate, [])]]
    return found


def given_words(words):
    parser = argparse.ArgumentParser(prog="wrong-bodies", add_help=False)
    parser.add_argument("--minutes", type=float)
    parser.add_argument("--since")
    parser.add_argument("--stale", action="store_true")
    parser.add_argument("--jobs", type=int)
    parser.add_argument("--singly", action="store_true")
    parser.add_argument("--list", action="store_true")
    parser.add_argument("crates", nargs="*")
    given = parser.parse_args(words)
    if given.since and given.crates:
        parser.error("--since takes its crates from the commit, so it goes with no crate")
    if given.stale and (given.since or given.crates):
        parser.error("--stale takes its crates from docs/LAST-RUN.md, so it goes with no crate and without --since")
    return given


def copied(checkout, room):
    """A copy of what is committed, in which nothing was made yet."""
    top = os.path.join(room, "top")
    for it in (top, os.path.join(room, "rooms")):
        os.mkdir(it)
    git.copy(checkout, top)
    return top


def asked_for(checkout, top, given, standing):
    """The crates that are to be tried, or single wrong bodies of them."""
    if not given.since:
        with_bodies = [it for it in os.listdir(os.path.join(top, "crates")) if tried.edits_of(top, it)]
        return given.crates or sorted({*with_bodies}.difference(standing))
    names = changed_since(checkout, given.since)
    if not names:
        print("no crate has changed since %s" % given.since)
    return names


def main(words):
    given = given_words(words)
    checkout = git.said(".", "rev-parse", "--show-toplevel")
    if given.list:
        return print_list(checkout)
    with tempfile.TemporaryDirectory(prefix="wrong-bodies-") as room:
        top = copied(checkout, room)
        sources = tried.Sources(top, kit.logic())
        rows = {name: it for name, it in tried.of(checkout).items() if tried.edits_of(top, name)}
        rows = {name: it for name, it in rows.items() if sources.holds(name, it)}
        standing = rows if given.stale else {}
        asked = named_edits(top, asked_for(checkout, top, given, standing))
        if given.stale:
            print("rows that hold: %d; to try: %s" % (len(standing), " ".join(asked) or "none"), flush=True)
        notes = Notes(notes_folder(), sources, checkout)
        trial = Trial(checkout, room, notes.not_noted(asked), notes, given)
        before = len(notes.refused)
        if before:
            print("%d were refused before, over the same sources" % before, flush=True)
        notes.put_rows([name for name in asked if name not in trial.edits and name not in rows])
        signal.signal(signal.SIGTERM, trial.end)
        signal.signal(signal.SIGINT, trial.end)
        trial.run_singly() if given.singly else trial.run()
        missing = [name for name in trial.begun if not notes.refused.issuperset(map(named, asked[name]))]
        notes.put_rows(missing, is_over=True)
    missed = trial.not_refused()
    for it in missed:
        print("not refused: %s" % it)
    left = len(trial.edits) - len(trial.begun)
    verdict = "not all were refused" if missed else "each was refused"
    before += sum(int(it.tried) for it in standing.values())
    counts = before + trial.count, len(standing) + len(asked) - left, left, verdict
    print("wrong bodies: %d tried in %d crates, %d crates left; %s" % counts)
    return 1 if missed else 0


def print_list(checkout):
    """Prints the list of all wrong bodies."""
    crates = list(side_by_side.listed(text_of(os.path.join(checkout, "crates.txt"))))
    print(body_list.listed(crates, body_list.edits_of(checkout)), end="")
    return 0


if __name__ == "__main__":
    sys.exit(main(sys.argv[1:]))
