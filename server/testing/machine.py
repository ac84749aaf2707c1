"""The real programs of the test, on loopback and with temporary data: the server, Redis, PostgreSQL, and what follows.

Each is killed by its own process id, and nothing that the test didn't start is touched.
"""

import glob
import http.client
import json
import os
import pwd
import shutil
import signal
import socket
import subprocess
import sys
import tempfile
import time

HERE = os.path.dirname(os.path.abspath(__file__))
TOP = os.path.dirname(os.path.dirname(HERE))
CONSUMER = os.path.join(TOP, "clients", "consumer")
sys.path[:0] = [os.path.join(TOP, "clients", "python"), os.path.join(TOP, "embed", "python")]
SERVER = os.environ.get("SERVER") or os.path.join(TOP, "server", "run")  # SERVER names another one to test

LONGEST = 120  # seconds


def free_port():
    with socket.create_server(("127.0.0.1", 0)) as one:
        return one.getsockname()[1]


def wait_for(what, why, longest=LONGEST):
    """Waits until what() is true, and returns it. The machine may be busy with other things, so the limit is high."""
    end = time.monotonic() + longest
    while True:
        found = what()
        if found:
            return found
        if time.monotonic() > end:
            raise TimeoutError("%s: not within %d seconds" % (why, longest))
        time.sleep(0.02)


class Program:
    """A process that is started again and again. Its words go to a file."""

    def __init__(self, room, name, command, **more):
        self.log, self.command, self.more = os.path.join(room, name + ".log"), command, more
        self.child = None

    def start(self):
        with open(self.log, "ab") as log:
            self.child = subprocess.Popen(self.command, stdout=log, stderr=log, stdin=subprocess.DEVNULL, **self.more)

    def kill(self, number=signal.SIGKILL):
        if self.child:
            self.child.send_signal(number)
            self.child.wait()
            self.child = None

    def has_ended(self):
        return self.child is not None and self.child.poll() is not None

    def waited_for_a_processor(self):
        """Seconds in which its first thread ran, and in which it could have run."""
        with open("/proc/%d/schedstat" % self.child.pid) as words:
            ran, waited = words.read().split()[:2]
        return "%.1f of %.1f" % (int(ran) / 1e9, (int(ran) + int(waited)) / 1e9)

    def tail(self):
        return "%s: %s" % (os.path.basename(self.log), self.words()[-400:].strip().replace("\n", "\n        "))

    def words(self):
        with open(self.log, errors="replace") as log:
            return log.read()


class Server(Program):
    """The server under test. `before` are words of a command that runs it, `token` is shown in each request."""

    def __init__(self, room, *options, before=(), token="", **more):
        self.port = free_port()
        self.url = "http://127.0.0.1:%d" % self.port
        self.shown = {"Authorization": "Bearer " + token} if token else {}
        super().__init__(room, "server", [*before, SERVER, "--port", str(self.port), *options], **more)

    def start(self):
        super().start()
        self.identity = wait_for(self.told_identity, "the server")

    def told_identity(self):
        if self.child.poll() is not None:
            raise RuntimeError("the server has ended: " + self.words()[-2000:])
        try:
            return json.loads(self.ask("GET", "/consumer/nobody")[1])["identity"]
        except OSError:
            return None

    def ask(self, method, path, body=None, headers={}):
        """Status and text of one request."""
        connection = http.client.HTTPConnection("127.0.0.1", self.port, timeout=LONGEST)
        try:
            connection.request(method, path, body, {**self.shown, **headers})
            response = connection.getresponse()
            return response.status, response.read().decode()
        finally:
            connection.close()

    def call(self, lines):
        status, text = self.ask("POST", "/call", lines.encode())
        if status != 200:
            raise RuntimeError("%d %s" % (status, text))
        return text

    def holders(self, kind):
        return [one for one in map(json.loads, self.ask("GET", "/holders")[1].splitlines()) if one["kind"] == kind]

    def closed(self):
        return int(self.holders("server")[0]["closed"])


class Redis(Program):
    def __init__(self, room):
        self.port, data = free_port(), os.path.join(room, "redis")
        os.mkdir(data)
        self.url, self.log_files = "redis://127.0.0.1:%d" % self.port, os.path.join(data, "appendonlydir", "*.aof")
        words = ["--port", str(self.port), "--bind", "127.0.0.1", "--dir", data, "--appendonly", "yes", "--save", ""]
        super().__init__(room, "redis", ["redis-server", *words])

    def start(self):
        super().start()
        wait_for(self.is_there, "Redis")

    def is_there(self):
        try:
            with socket.create_connection(("127.0.0.1", self.port)) as one:
                one.sendall(b"PING\r\n")
                return one.recv(100) == b"+PONG\r\n"
        except OSError:
            return False


class Postgres(Program):
    """A cluster of its own. It doesn't run as root, so under root it runs as Debian's user for it."""

    def __init__(self, room):
        self.port, self.data = free_port(), os.path.join(room, "postgres")
        self.programs = sorted(glob.glob("/usr/lib/postgresql/*/bin"))[-1]
        os.mkdir(self.data, 0o700)
        how = {"cwd": "/"}
        if os.getuid() == 0:
            user = pwd.getpwnam("postgres")
            os.chown(self.data, user.pw_uid, user.pw_gid)
            how.update(user=user.pw_uid, group=user.pw_gid, extra_groups=[])
        self.log_files = os.path.join(self.data, "pg_wal", "0*")
        self.dsn = "host=127.0.0.1 port=%d user=test dbname=postgres" % self.port
        words = ["-D", self.data, "-U", "test", "-A", "trust", "-E", "UTF8"]
        subprocess.run([self.programs + "/initdb", *words], check=True, stdout=subprocess.DEVNULL, **how)
        words = ["-D", self.data, "-p", str(self.port), "-h", "127.0.0.1", "-k", "", "-F"]
        super().__init__(room, "postgres", [self.programs + "/postgres", *words], **how)

    def start(self):
        super().start()
        wait_for(self.is_there, "PostgreSQL")

    def is_there(self):
        words = ["-q", "-h", "127.0.0.1", "-p", str(self.port)]
        return subprocess.run([self.programs + "/pg_isready", *words]).returncode == 0

    def kill(self, number=signal.SIGQUIT):
        """Ends it at once, as a crash does: it recovers from its log at the next start."""
        super().kill(number)


class Room:
    """A folder for all data, and the programs that were started in it."""

    def __enter__(self):
        self.path = tempfile.mkdtemp(prefix="ripsawbean-")
        os.chmod(self.path, 0o755)
        self.programs = []
        return self

    def __exit__(self, *_):
        for program in reversed(self.programs):
            program.kill()
        if not os.environ.get("KEPT_ROOM"):
            shutil.rmtree(self.path, ignore_errors=True)

    def start(self, program):
        self.programs.append(program)
        program.start()
        return program

    def file(self, name):
        return os.path.join(self.path, name)

    def script(self, name, *words, **more):
        """A Python program of the test, or a consumer by its kind, by the Python that runs this one."""
        program = (os.path.join(HERE, words[0]), *words[1:]) if words[0].endswith(".py") else (CONSUMER, *words)
        return Program(self.path, name, [sys.executable, "-B", *program], **more)
