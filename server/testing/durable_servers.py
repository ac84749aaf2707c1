"""Servers that keep their data, for `server/test durable`: on a disk that loses power with them, and over PostgreSQL."""

import os
import signal
import subprocess

from machine import HERE, Program, Room, Server, wait_for


def powerless(room: Room) -> str:
    """The preloaded disk, built once for a room."""
    library = room.file("powerless.so")
    if not os.path.exists(library):
        source = os.path.join(HERE, "powerless.c")
        subprocess.run(["cc", "-O1", "-shared", "-fPIC", "-o", library, source, "-ldl"], check=True)
    return library


class DurableServer(Server):
    """A server that keeps its data, and of which `env` may be another in each life."""

    def __init__(self, room: Room, place: str, *options: str):
        super().__init__(room.path, *options, "--data", place)
        self.place = place

    def loses_power(self, room: Room, **more: str) -> None:
        self.more["env"] = {**os.environ, "LD_PRELOAD": powerless(room), "POWERLESS": os.path.realpath(self.place), **more}

    def start(self) -> None:
        super().start()
        if "POWERLESS" in self.more.get("env", ()):
            with open("/proc/%d/maps" % self.child.pid) as maps:
                assert "powerless.so" in maps.read(), "the server is a static program, which takes no preloaded disk"

    def keeps_power(self) -> None:
        self.more["env"] = dict(os.environ)

    def fail(self) -> None:
        self.kill()


class Pair(DurableServer):
    """A server over PostgreSQL, and a second one that waits. Once the first one is killed the second has its port."""

    waiting: subprocess.Popen[bytes] | None = None

    def start(self) -> None:
        if self.waiting:
            self.child, self.waiting = self.waiting, None
        else:
            Program.start(self)
        self.identity = wait_for(self.told_identity, "the server")
        first = self.child
        Program.start(self)
        self.child, self.waiting = first, self.child

    def fail(self) -> None:
        super().kill()

    def kill(self, number: int = signal.SIGKILL) -> None:
        for self.child in filter(None, (self.waiting, self.child)):
            super().kill(number)
        self.waiting = None


def refused(server: Server) -> str:
    """What a server says that doesn't start."""
    before = len(server.words()) if os.path.exists(server.log) else 0
    Program.start(server)
    server.child.wait(60)
    said, status = server.words()[before:], server.child.returncode
    server.child = None
    return said if status == 1 else "status %d: %s" % (status, said)
