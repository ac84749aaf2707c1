"""Names of files that weren't synced: part of `server/test durable`.

A process dies at each step of the disk in turn, and the machine lives: the next process finds names that a loss of power
would take. It goes on, and acknowledges. Then the power is lost, and with it any of the names that aren't synced.
"""

import contextlib
import http.client
import itertools
import os
import random
import shutil

from durable_servers import DurableServer
from machine import Room, wait_for

ROWS = 10
Rows = dict[str, int]  # what was acknowledged


def load(server: DurableServer, turn: int, told: Rows, checkpoints: int) -> None:
    """Writes rows, and waits for checkpoints between them, until the server dies."""
    with contextlib.suppress(OSError, http.client.HTTPException):
        for number in range(ROWS):
            key = "turn%d.%d" % (turn, number % 7)
            server.call("begin\nput . %s %d%s\ncommit .\n" % (key, number, "x" * 200))
            told[key] = number
        for made in range(1, checkpoints + 1):
            last = os.path.join(server.place, "checkpoint-%06d.script" % (made + 1))
            wait_for(lambda: os.path.exists(last) or server.has_ended(), "a checkpoint")
            load(server, turn + 2 * made, told, 0)


def undo(noted: str, folder: str, place: str, is_lost: list[bool]) -> None:
    """What a loss of power does to a folder's copy: names that weren't synced are as they were, each or not."""
    with open(noted) as lines:
        changes = [line.split() for line in lines]
    for change, lost in list(zip(changes, is_lost))[::-1]:
        kind, *names = change[:1] + [name.replace(folder, place, 1) for name in change[1:]]
        with contextlib.suppress(FileNotFoundError):  # another change that is undone had it
            if not lost:
                continue
            if kind == "+":
                os.remove(names[0])
            elif kind == ">":
                os.rename(names[1], names[0])
            elif kind == "-":
                shutil.copyfile(change[2], names[0])
            else:
                shutil.rmtree(names[0])


def missed(server: DurableServer, told: Rows) -> list[str]:
    found = server.call("begin\n" + "".join("get . %s\n" % key for key in told)).splitlines()[1:]
    answers = dict(zip(told, (line.rpartition(" => ")[2].rstrip("x") for line in found)))
    return ["%s was acknowledged as %d, and is %s" % (key, value, answers.get(key)) for key, value in told.items()
            if answers.get(key) not in ("value %d" % value, "value %d" % (value + 7))]


def test_names_that_were_not_synced(room: Room, dice: random.Random) -> tuple[list[str], str]:
    """Whichever names are lost, what was acknowledged before and behind the death is there."""
    faults: list[str] = []
    disks = 0
    for step in itertools.count(1):
        folder, noted, told = room.file("data%d" % step), room.file("names%d" % step), Rows()
        server = DurableServer(room, folder, "--checkpoint-bytes", "1500")
        server.loses_power(room, POWERLESS_NAMES=noted, POWERLESS_ENDS=str(step))
        room.programs.append(server)
        with contextlib.suppress(RuntimeError):  # it died before it was there
            server.start()
            load(server, 1, told, 2)
        has_died = server.has_ended()
        server.kill()
        server.loses_power(room, POWERLESS_NAMES=noted)
        server.command[server.command.index("1500")] = "100000000"
        server.start()
        load(server, 2, told, 0)
        server.kill()
        server.keeps_power()
        count = sum(1 for _ in open(noted))
        for is_lost in ([True] * count, [dice.random() < 0.5 for _ in range(count)]):
            place = room.file("lost%d" % disks)
            shutil.copytree(folder, place)
            undo(noted, folder, place, is_lost)
            after = room.start(DurableServer(room, place, "--moved"))
            faults += ["died at step %d: %s" % (step, fault) for fault in missed(after, told)[:1]]
            after.kill()
            disks += 1
        if not has_died:
            return faults, "%d steps, %d disks" % (step, disks)
    raise AssertionError
