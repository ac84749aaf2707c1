"""What the provers of a run take, by crate: a look at the processes below it, now and then."""

import os
from typing import Dict, Iterator, List, NamedTuple, Optional, Tuple

from gate_plan import EDITS, PROOF, TESTS, Task
from gate_seconds import Seconds, Spent

TICK = os.sysconf("SC_CLK_TCK")


class Process(NamedTuple):
    """A process: its parent, when it began, and its processor seconds, without and with children that have ended."""

    parent: int
    began: str
    own: float
    with_ended: float


def processes() -> Dict[int, Process]:
    """All processes that there are now."""
    found = {}
    for name in filter(str.isdigit, os.listdir("/proc")):
        try:
            with open("/proc/%s/stat" % name, encoding="utf-8", errors="replace") as it:
                words = it.read().rpartition(")")[2].split()
        except OSError:
            continue
        times = [int(it) / TICK for it in words[11:15]]
        found[int(name)] = Process(int(words[1]), words[19], sum(times[:2]), sum(times))
    return found


def task_of(pid: int) -> Optional[Task]:
    """The task of a prover: the crate that it is called for, and whether that is itself, its tests or an edit."""
    try:
        with open("/proc/%d/cmdline" % pid, "rb") as it:
            words = it.read().decode(errors="replace").split("\0")
        folder = os.readlink("/proc/%d/cwd" % pid)
    except OSError:
        return None
    if "--crate-name" not in words[:-1]:
        return None
    kind = EDITS if "/rt-edit" in folder else TESTS if "--test" in words else PROOF
    return words[words.index("--crate-name") + 1], kind


class Watch:
    """What the provers below a process took so far. The copies that a prover makes of itself count as it does."""

    def __init__(self, root: int):
        self.root = root
        self.seen: Dict[Tuple[int, str], Tuple[Task, float]] = {}

    def look(self) -> None:
        now = processes()
        children: Dict[int, List[int]] = {}
        for pid, it in now.items():
            children.setdefault(it.parent, []).append(pid)
        self.visit(self.root, now, children)

    def visit(self, pid: int, now: Dict[int, Process], children: Dict[int, List[int]]) -> None:
        for it in children.get(pid, ()):
            task = task_of(it)
            if not task:
                self.visit(it, now, children)
                continue
            key = it, now[it].began
            seconds = now[it].with_ended + sum(now[copy].own for copy in below(it, children))
            self.seen[key] = task, max(seconds, self.seen.get(key, (task, 0.0))[1])

    def took(self, task: Task) -> float:
        """The seconds of a task so far."""
        return sum(seconds for it, seconds in list(self.seen.values()) if it == task)

    def seconds(self) -> Seconds:
        names = sorted({name for (name, _), _ in self.seen.values()})
        return {name: Spent(*(self.took((name, kind)) for kind in (PROOF, TESTS, EDITS))) for name in names}


def below(pid: int, children: Dict[int, List[int]]) -> Iterator[int]:
    """All processes below one."""
    for it in children.get(pid, ()):
        yield it
        yield from below(it, children)
