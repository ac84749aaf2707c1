"""The peers that server/load asks: this server, Redis and etcd, each started for itself. Where nothing else is said their
data is in memory."""

import contextlib
import json
import os
import pathlib
import shutil
import socket
import subprocess
import tempfile
import time

from .figures import NOTHING, Found, processor_seconds

SERVER = pathlib.Path(__file__).resolve().parent.parent
LOAD = SERVER / "load" / "out" / "release" / "load"
LONGEST = 600  # seconds that one measurement may take
MEMORY = "/dev/shm"  # a folder that is no disk


def build_load() -> None:
    subprocess.run(["cargo", "build", "--quiet", "--offline", "--release", "-j2"], cwd=SERVER / "load", check=True)


def free_port() -> int:
    with socket.create_server(("127.0.0.1", 0)) as one:
        return int(one.getsockname()[1])


class Loaded:
    """A program that listens on a port of loopback."""

    name = ""
    kinds: dict[str, str] = {}  # a measurement's way to ask, and the word for it that server/load has

    def __init__(self, command: list[str], port: int, environment: dict[str, str] | None = None):
        self.port = port
        began = time.monotonic()
        told = {"stdout": subprocess.DEVNULL, "stderr": subprocess.DEVNULL}
        self.process = subprocess.Popen(command, env={**os.environ, **(environment or {})}, **told)
        while not self._listens():
            if time.monotonic() > began + LONGEST or self.process.poll() is not None:
                raise SystemExit("bench: %s doesn't start: %s" % (self.name, " ".join(command)))
            time.sleep(0.02)
        self.started = time.monotonic() - began  # seconds

    def _listens(self) -> bool:
        with contextlib.suppress(OSError):
            socket.create_connection(("127.0.0.1", self.port)).close()
            return True
        return False

    def end(self) -> None:
        self.process.terminate()
        self.process.wait()

    def load(self, way: str, *words: object) -> Found:
        """Runs server/load. Where a peer has no such way to be asked, there is nothing to find."""
        if way not in self.kinds:
            return NOTHING
        used = processor_seconds(self.process.pid)
        command = [LOAD, self.kinds[way], str(self.port), *map(str, words)]
        done = subprocess.run(command, capture_output=True, text=True, timeout=LONGEST)
        if done.returncode:
            raise SystemExit("bench: %s: %s: %s" % (self.name, " ".join(map(str, command)), done.stderr))
        used = processor_seconds(self.process.pid) - used
        found = json.loads(done.stdout)
        processor = used / found["rows"] * 1e6
        rows = int(found["rows"])
        return Found(found.get("rate"), found.get("p50"), found.get("p99"), processor, found.get("before"), rows)

    def transactions(self, way: str, clients: int, count: int, rows: int, ahead: int) -> Found:
        return self.load(way, "transactions", clients, max(count // clients, rows), rows, ahead)

    def push(self, readers: int, count: int, pause: float) -> Found:
        return self.load("messages", "push", readers, count, int(pause * 1e6))

    def flood(self, readers: int, count: int) -> Found:
        return self.load("messages", "flood", readers, count)

    def first(self, count: int) -> Found:
        return self.load("messages", "first", count)

    def fill(self, count: int) -> Found:
        return self.load("messages", "fill", count)

    def pages(self, readers: int, limit: int, count: int) -> Found:
        """The rows of `fill`."""
        return self.load("messages", "pages", readers, limit, count)

    def feeds(self, count: int) -> Found:
        """The rows of `fill`, which are written anew: its rate, and that with the values before."""
        return self.load("messages", "feeds", count)


class Ours(Loaded):
    name = "Ripsawbean"
    kinds = {"requests": "call", "transactions": "transact", "keyed": "keyed", "messages": "session", "lines": "lines"}

    def __init__(self, *options: str, environment: dict[str, str] | None = None):
        port, tokens = free_port(), LOAD.with_name("tokens")
        # One client doesn't get all seats.
        line = "load{0} read,write,operate - - load-{0}-0123456789abcdef\n"
        tokens.write_text("".join(line.format(one) for one in (0, 1)))
        command = [os.environ.get("SERVER") or str(SERVER / "run"), "--port", str(port), "--tokens", str(tokens), *options]
        super().__init__(command, port, environment)


class Redis(Loaded):
    name = "Redis"
    kinds = {"requests": "redis", "transactions": "redis", "messages": "redis"}

    def __init__(self, *options: str):
        port, kept = free_port(), options or ("--appendonly", "no")
        super().__init__(["redis-server", "--port", str(port), "--bind", "127.0.0.1", "--save", "", *kept], port)


class Etcd(Loaded):
    """Asked by its gateway of HTTP, which costs it a translation: gRPC is faster."""

    name = "etcd"
    kinds = {"requests": "etcd", "transactions": "etcd", "messages": "etcd"}

    def __init__(self) -> None:
        port, peers = free_port(), "http://127.0.0.1:%d" % free_port()
        self.folder = tempfile.mkdtemp(dir=MEMORY)
        here = "http://127.0.0.1:%d" % port
        super().__init__([
            "etcd", "--data-dir", self.folder, "--listen-client-urls", here, "--advertise-client-urls", here,
            "--listen-peer-urls", peers, "--initial-advertise-peer-urls", peers, "--initial-cluster", "default=" + peers,
        ], port)
        time.sleep(2)  # until it has chosen itself

    def end(self) -> None:
        super().end()
        shutil.rmtree(self.folder, ignore_errors=True)
