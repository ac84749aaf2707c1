"""Damage, and disks that fail: part of `server/test durable`.

`server/src/journal` tries each byte and each bit. Here it is some of them, with the real program.
"""

import glob
import os
import random

from durable_servers import DurableServer, refused
from machine import Room, Server, wait_for


def files_of(folder: str) -> dict[str, bytes]:
    found = {}
    for path in glob.glob(os.path.join(folder, "*.script")):
        with open(path, "rb") as file:
            found[path] = file.read()
    return found


def loaded(room: Room, server: Server, rows: int) -> None:
    for number in range(rows):
        server.call("begin\nput . key%d %d\ncommit .\n" % (number % 7, number))


def test_flipped_bits(room: Room, dice: random.Random) -> list[str]:
    """Each bit that is flipped is refused with its file, and changes nothing."""
    server = room.start(DurableServer(room, room.file("data"), "--checkpoint-bytes", "100000000"))
    loaded(room, server, 30)
    server.kill()
    faults = []
    for path, data in files_of(server.place).items():
        for _ in range(40):
            at, bit = dice.randrange(len(data)), dice.randrange(8)
            flipped = data[:at] + bytes([data[at] ^ 1 << bit]) + data[at + 1 :]
            with open(path, "wb") as file:
                file.write(flipped)
            said = refused(server)
            if "is damaged at byte" not in said or os.path.basename(path) not in said:
                faults.append("bit %d of byte %d: %s" % (bit, at, said[-300:]))
            if files_of(server.place)[path] != flipped:
                faults.append("bit %d of byte %d: the file was changed" % (bit, at))
        with open(path, "wb") as file:
            file.write(data)
    server.start()
    if "=> value 29\n" not in server.call("begin\nget . key1\n"):
        faults.append("the row that was written last isn't there")
    return faults


def test_failing_syncs(room: Room, dice: random.Random) -> list[str]:
    """At a failed sync the server ends at once, and all that was acknowledged is there."""
    server = DurableServer(room, room.file("data"))
    faults = []
    for turn in range(6):
        server.loses_power(room, POWERLESS_FAILS=str(dice.randrange(8, 60)))
        room.start(server)
        last = -1
        try:
            for number in range(1000):
                server.call("begin\nput . turn%d %d\ncommit .\n" % (turn, number))
                last = number
            faults.append("it went on behind a failed sync")
        except (OSError, ConnectionError):
            pass
        wait_for(server.has_ended, "the server's end")
        if server.child.returncode != 1 or "can't be written" not in server.words():
            faults.append("status %s: %s" % (server.child.returncode, server.tail()))
        server.keeps_power()
        server.start()
        told = server.call("begin\nget . turn%d\n" % turn).split("\n")[1].rpartition(" => ")[2]
        if last >= 0 and told not in ("value %d" % last, "value %d" % (last + 1)):
            faults.append("%d was acknowledged, and there is %s" % (last, told))
        server.kill()
    return faults


def test_full_disk(room: Room, dice: random.Random) -> list[str]:
    """Where the disk is full it ends, and while it is full it doesn't start."""
    server = DurableServer(room, room.file("data"))
    server.command = ["sh", "-c", 'trap "" XFSZ; ulimit -f 40; exec "$@"', "sh", *server.command]
    room.start(server)
    last = -1
    try:
        for number in range(10000):
            server.call("begin\nput . key %d%s\ncommit .\n" % (number, "x" * 500))
            last = number
    except (OSError, ConnectionError):
        pass
    wait_for(server.has_ended, "the server's end")
    faults = [] if 10 < last < 9999 else ["%d were acknowledged" % last]
    if "can't be written" not in server.words():
        faults.append(server.tail())
    server.command[2] = server.command[2].replace("40", "20")  # what was torn was cut off, so there is room for a batch
    if "File too large" not in refused(server):
        faults.append("it starts on a full disk: " + server.tail())
    server.command = server.command[4:]
    server.start()
    told = server.call("begin\nget . key\n").split("\n")[1].rpartition(" => ")[2].rstrip("x")
    if told not in ("value %d" % last, "value %d" % (last + 1)):
        faults.append("%d was acknowledged, and there is %s" % (last, told))
    return faults


TESTS = (test_flipped_bits, test_failing_syncs, test_full_disk)
