"""What whoever runs the server relies on: health, TLS, systemd, settings, a gentle end, a proxy.

Each function is a test. It gets a room, and how heavy the load is to be.
"""

import asyncio
import contextlib
import json
import os
import re
import shutil
import signal
import socket
import ssl
import subprocess
import threading
import time
from collections.abc import Callable, Iterator

import aiohttp

from attack_beside import Scale
from attack_memory import started
from attack_slow import ended_within
from attack_wire import refused_start, rest_of
from handmade import Ended, Session, Wire
from machine import LONGEST, SERVER, TOP, Program, Room, Server, free_port, wait_for

TOKEN = "0123456789abcdef-mine"
PUSH_SECONDS = 0.020


# ---- health

def test_health(room: Room, scale: Scale) -> str:
    """It is told without the token, and nothing else is."""
    token = room.file("token")
    with open(token, "w") as file:
        file.write(TOKEN + "\n")
    os.chmod(token, 0o600)
    server = started(room, "--token", token, token=TOKEN)
    server.shown = {}
    status, told = server.ask("GET", "/healthz")
    assert status == 200, (status, told)
    assert server.identity not in told, "a stranger needs no identity"
    for path in ("/metrics", "/holders", "/state", "/", "/transcript", "/healthz/", "/healthz/x"):
        assert server.ask("GET", path)[0] in (401, 404), path
    assert server.ask("POST", "/healthz")[0] in (401, 405)
    assert server.ask("GET", "/healthz", None, {"Host": "evil.example"})[0] in (200, 403)
    return "200"


# ---- TLS

def certificate(room: Room) -> tuple[str, str]:
    cert, key = room.file("cert.pem"), room.file("key.pem")
    words = ["-x509", "-newkey", "rsa:2048", "-nodes", "-days", "2", "-subj", "/CN=localhost", "-keyout", key, "-out", cert,
             "-addext", "subjectAltName=DNS:localhost,IP:127.0.0.1"]
    subprocess.run(["openssl", "req", *words], check=True, capture_output=True)
    return cert, key


class Encrypted(Server):
    """The server under TLS."""

    def told_identity(self) -> str | None:
        if self.child.poll() is not None:
            raise RuntimeError("the server has ended: " + self.words()[-2000:])
        found = re.search(r"^ripsawbean (\w+) on https://", self.words(), re.M)
        return found and found[1]


def test_tls(room: Room, scale: Scale) -> str:
    """Requests, feeds and sessions over TLS. Who speaks no TLS gets nothing, and holds nobody up."""
    cert, key = certificate(room)
    server = room.start(Encrypted(room.path, "--tls-cert", cert, "--tls-key", key))
    base, context = "https://localhost:%d" % server.port, ssl.create_default_context(cafile=cert)
    silent = [Wire(server.port) for _ in range(200)]

    async def work() -> None:
        async with aiohttp.ClientSession(timeout=aiohttp.ClientTimeout(total=30)) as client:
            async with client.get(base + "/feed", ssl=context) as feed, client.ws_connect(base + "/session", ssl=context) as one:
                await one.send_str("begin\nput . a %s\ncommit .\n" % ("x" * 60_000))
                assert "=> committed 1" in (await one.receive()).data
                line = await feed.content.readline()
                assert b'"key":"YQ=="' in line and len(line) > 80_000, line[:100]
            async with client.post(base + "/call", data="stats\n", ssl=context) as answer:
                assert answer.status == 200
    asyncio.run(work())
    plain = Wire(server.port)
    plain.ask("GET", "/holders")
    assert b"kind" not in rest_of(plain), "an answer without TLS"
    old = ssl.SSLContext(ssl.PROTOCOL_TLS_CLIENT)
    old.check_hostname, old.verify_mode = False, ssl.CERT_NONE
    old.maximum_version = ssl.TLSVersion.TLSv1_1
    old.set_ciphers("ALL:@SECLEVEL=0")
    with contextlib.suppress(ssl.SSLError, OSError):
        old.wrap_socket(socket.create_connection(("127.0.0.1", server.port)))
        raise AssertionError("TLS 1.1 is taken")
    assert ended_within(silent, 20) == len(silent), "who says nothing keeps a connection"
    for wrong in (("--tls-cert", cert), ("--tls-key", key), ("--tls-cert", key, "--tls-key", key),
                  ("--tls-cert", cert, "--tls-key", room.file("none"))):
        refused_start(room, *wrong)
    return "and four wrong ways to ask for it"


# ---- the program

PROGRAM = os.path.join(TOP, "server", "out", "release", "ripsawbean-server")


def test_the_program_needs_nothing_beside_it(room: Room, scale: Scale) -> str:
    """It serves in a folder that has nothing but the program: no library, no file of the page. That needs root."""
    assert os.getuid() == 0, "only root may change the root"
    folder, port = room.file("bare"), free_port()
    os.mkdir(folder)
    shutil.copy(PROGRAM, folder)
    words = ["/ripsawbean-server", "--port", str(port)]
    program = room.start(Program(room.path, "in-bare", words, preexec_fn=lambda: os.chroot(folder), cwd="/"))

    def answer(path: str) -> tuple[int, bytes] | None:
        assert not program.has_ended(), program.tail()
        with contextlib.suppress(OSError), contextlib.closing(Wire(port)) as wire:
            wire.ask("GET", path)
            return wire.answer()
        return None
    assert wait_for(lambda: answer("/healthz"), "it") == (200, b"ok\n")
    assert b"/page/page.mjs" in (answer("/") or (0, b""))[1]
    session = Session(port)
    assert "=> committed 1\n" in session.call("begin\nput . a x\ncommit .\n")
    session.close()
    return "%.1f MB" % (os.path.getsize(PROGRAM) / 1e6)


# ---- systemd, settings

def test_notices_to_the_service_manager(room: Room, scale: Scale) -> str:
    """READY=1 once it serves, WATCHDOG=1 where that is asked for, STOPPING=1 at its end."""
    path = room.file("notify")
    told: list[tuple[float, str]] = []
    with socket.socket(socket.AF_UNIX, socket.SOCK_DGRAM) as box:
        box.bind(path)
        box.settimeout(0.2)
        is_over = threading.Event()

        def listen() -> None:
            while not is_over.is_set():
                with contextlib.suppress(TimeoutError):
                    told.extend((time.monotonic(), line) for line in box.recv(4096).decode().split("\n"))
        watch = threading.Thread(target=listen)
        watch.start()
        server = Server(room.path, env={**os.environ, "NOTIFY_SOCKET": path, "WATCHDOG_USEC": "1000000"})
        room.start(server)
        wait_for(lambda: "READY=1" in [line for _, line in told], "READY=1")
        wait_for(lambda: [line for _, line in told].count("WATCHDOG=1") >= 3, "three times WATCHDOG=1")
        server.child.send_signal(signal.SIGTERM)
        status = server.child.wait(LONGEST)
        server.child = None
        time.sleep(0.3)
        is_over.set()
        watch.join()
    lines = [line for _, line in told]
    assert status == 0 and "STOPPING=1" in lines and lines.index("READY=1") < lines.index("STOPPING=1"), lines
    times = [at for at, line in told if line == "WATCHDOG=1"]
    assert all(later - earlier < 0.9 for earlier, later in zip(times, times[1:])), times
    return ", ".join(sorted({line.split("=")[0] for line in lines if line}))


def takes(server: Server) -> int:
    """The longest body that a server takes, of four that are tried."""
    return max(size for size in (1, 1000, 2000, 3000, 4000) if server.ask("POST", "/call", b"x" * size)[0] != 413)


def test_settings(room: Room, scale: Scale) -> str:
    """The command line, the environment, the file, the default: the first that names a setting counts."""
    path = room.file("settings")
    with open(path, "w") as file:
        file.write("# a comment\n\nmax-message = 2000\nmax-feeds = 1\n")
    name = {**os.environ, "RIPSAWBEAN_MAX_MESSAGE": "3000"}
    for options, environment, wanted in (
        ((), None, 4000), (("--config", path), None, 2000), (("--config", path), name, 3000),
        (("--config", path, "--max-message", "1000"), name, 1000), ((), name, 3000),
        ((), {**os.environ, "RIPSAWBEAN_CONFIG": path}, 2000),
    ):
        server = started(room, *options, env=environment)
        assert takes(server) == wanted, (options, wanted, takes(server))
        server.kill()
    for text in ("max-message = many\n", "no-such-setting = 1\n", "max-message\n", "max-message = 1\nmax-message = 2\n"):
        with open(path, "w") as file:
            file.write(text)
        try:
            told = refused_start(room, "--config", path)
        except subprocess.TimeoutExpired:
            raise AssertionError("it starts with %r" % text) from None
        assert path in told or "max-message" in told or "no-such-setting" in told, told
    for options in (("--port", "0"), ("--max-lag", "1", "--max-lag=1"), ("--log-json", "--log-json")):
        assert "twice" in refused_start(room, *options), options
    return "six ways, four wrong files, three options twice"


def test_flags_of_the_environment(room: Room, scale: Scale) -> str:
    """A flag may be yes or no, true or false, 1 or 0."""
    def logged(word: str) -> str:
        server = started(room, env={**os.environ, "RIPSAWBEAN_LOG_JSON": word, "RIPSAWBEAN_LOG_LEVEL": "info"})
        before = len(server.words())
        Session(server.port).reset()
        wait_for(lambda: "session_opened" in server.words()[before:], "the log")
        return server.words()[before:]
    for word, is_json in (("1", True), ("true", True), ("yes", True), ("0", False), ("false", False), ("no", False)):
        assert logged(word).startswith("{") == is_json, (word, logged(word))
    return "six words"


def test_a_folder_in_none(room: Room, scale: Scale) -> str:
    """--data makes one folder, and says what isn't there above it: a path with a slip begins no database elsewhere."""
    slip = room.file("slip")
    done = subprocess.run([SERVER, "--port", "0", "--data", os.path.join(slip, "kept")], capture_output=True, text=True,
                          timeout=LONGEST, stdin=subprocess.DEVNULL)
    assert done.returncode == 1 and slip + " isn't there" in done.stderr and done.stderr.count("\n") == 1, done
    assert not os.path.exists(slip)
    started(room, "--data", slip)
    assert os.path.isdir(slip)
    return done.stderr.strip()


def test_log_lines(room: Room, scale: Scale) -> str:
    """With --log-json each line of the log is an object."""
    server = started(room, "--log-json", "--log-level", "debug")
    session = Session(server.port)
    session.call("begin\n")
    server.ask("DELETE", "/session/%d" % server.holders("transaction")[0]["seat"])
    server.child.send_signal(signal.SIGTERM)
    server.child.wait(LONGEST)
    server.child = None
    # Two lines of standard output stand in the file too: where it is, and what is kept.
    lines = [line for line in server.words().splitlines() if not line.startswith(("ripsawbean ", "nothing is kept: "))]
    assert lines, "nothing is logged"
    for line in lines:
        assert isinstance(json.loads(line), dict), line
    return "%d lines" % len(lines)


# ---- the end

def test_a_gentle_end(room: Room, scale: Scale) -> str:
    """With --drain undecided transactions may go on, and new ones are refused; the server ends once none is left."""
    server = started(room, "--drain", "20", "--max-age", "60")
    session, other = Session(server.port), Session(server.port)
    session.call("begin\nput . drained x\n")
    feed = Wire(server.port)
    feed.ask("GET", "/feed")
    feed.until(b"\r\n\r\n")
    began = time.monotonic()
    server.child.send_signal(signal.SIGTERM)
    time.sleep(1)
    assert not server.has_ended(), "it didn't wait"
    with contextlib.suppress(Ended):
        told = other.call("begin\nput . late x\ncommit .\n")
        assert "=> started" not in told, told
    told = session.call("put . drained y\ncommit .\n")
    assert "=> committed 1\n" in told, told
    status = server.child.wait(LONGEST)
    took = time.monotonic() - began
    server.child = None
    rest = rest_of(feed)
    assert status == 0 and took < 10, (status, took)
    assert b'"after":"eQ=="' in rest and b'{"end":"shutdown"' in rest, rest[-300:]
    return "%.1f s" % took


def test_a_gentle_end_is_no_endless_one(room: Room, scale: Scale) -> str:
    server = started(room, "--drain", "2")
    session = Session(server.port)
    session.call("begin\n")
    began = time.monotonic()
    server.child.send_signal(signal.SIGTERM)
    status = server.child.wait(LONGEST)
    took = time.monotonic() - began
    server.child = None
    assert status == 0 and 1.5 < took < 10, (status, took)
    return "%.1f s" % took


# ---- a proxy

PROXIES = os.path.join(TOP, "server", "proxies")
Text = Callable[[int, int], str]  # of a proxy's configuration, by the ports of the server and its own


def pushed(port: int, write: Callable[[str], str], count: int = 40) -> list[float]:
    """Seconds from sending a row to its coming, in one feed of a port."""
    feed = Wire(port)
    feed.ask("GET", "/feed")
    assert feed.head()[0] == 200
    found = []
    for at in range(count):
        began = time.monotonic()
        assert "=> committed 1\n" in write("begin\nput . pushed/%d x\ncommit .\n" % at)
        feed.until(b'"updated":"')
        found.append(time.monotonic() - began)
        time.sleep(0.01)
    feed.close()
    return sorted(found)


def for_nginx(room: Room, text: str) -> Text:
    """The configuration as it stands, but for its ports and certificates."""
    def fitted(server_port: int, port: int) -> str:
        there = text.replace("127.0.0.1:7077", "127.0.0.1:%d" % server_port)
        there = re.sub(r"^ *(listen \[|ssl_)[^;]*;\n", "", there, flags=re.M)
        there = re.sub(r"^( *)listen [^;]*;", r"\1listen 127.0.0.1:%d;" % port, there, flags=re.M)
        return "daemon off;\npid %s;\nerror_log stderr;\nevents {}\nhttp {\naccess_log off;\n%s\n}\n" % (
            room.file("nginx.pid"), there)
    return fitted


def for_caddy(text: str) -> Text:
    """The same, but for its ports, and for a host that has a certificate."""
    def fitted(server_port: int, port: int) -> str:
        there = text.replace("127.0.0.1:7077", "127.0.0.1:%d" % server_port)
        return "{\nadmin off\n}\n" + there.replace("data.example {", "http://127.0.0.1:%d {" % port)
    return fitted


@contextlib.contextmanager
def proxy(room: Room, words: list[str], text: str, port: int) -> Iterator[None]:
    """A proxy before the server, whose configuration is this text, and whose file is the last word."""
    with open(words[-1], "w") as file:
        file.write(text)
    os.chmod(room.path, 0o755)
    home = {**os.environ, "HOME": room.path, "XDG_DATA_HOME": room.path, "XDG_CONFIG_HOME": room.path}
    proxy = room.start(Program(room.path, words[0], words, env=home))

    def serves() -> bool:
        assert not proxy.has_ended(), proxy.tail()
        with contextlib.suppress(OSError):
            socket.create_connection(("127.0.0.1", port)).close()
            return True
        return False
    try:
        wait_for(serves, words[0])
        yield
    finally:
        proxy.kill(signal.SIGTERM)


def behind(room: Room, words: list[str], text: Text) -> str:
    """Median of a push through the proxy, and a session through it. The proxy's own name is one of the server's."""
    port = free_port()
    server = started(room, "--host", "127.0.0.1:%d" % port)
    with proxy(room, words, text(server.port, port), port):
        wire = Session(server.port)
        tries = []
        for _ in range(3):
            found = pushed(port, wire.call)
            tries.append(found[len(found) // 2])
            if tries[-1] < PUSH_SECONDS:
                break
        assert min(tries) < PUSH_SECONDS, "a push takes %s s" % tries
        session = Session(port)
        assert "=> committed 1\n" in session.call("begin\nput . through x\ncommit .\n")
        session.close()
    return "median of a push %.1f ms" % (min(tries) * 1e3)


def test_behind_nginx_as_it_comes(room: Room, scale: Scale) -> str:
    """A proxy that buffers, as nginx does where nothing else is said, passes each row on at once."""
    return behind_nginx(room, AS_IT_COMES)


def behind_nginx(room: Room, text: str) -> str:
    return behind(room, ["nginx", "-c", room.file("nginx.conf")], for_nginx(room, text))


AS_IT_COMES = """
        map $http_upgrade $connection_upgrade { default upgrade; '' ''; }
        server {
            listen 80;
            location / {
                proxy_pass http://127.0.0.1:7077;
                proxy_http_version 1.1;
                proxy_set_header Host 127.0.0.1:7077;
                proxy_set_header Upgrade $http_upgrade;
                proxy_set_header Connection $connection_upgrade;
            }
        }"""


def test_behind_nginx_by_the_file(room: Room, scale: Scale) -> str:
    with open(os.path.join(PROXIES, "nginx.conf")) as file:
        return behind_nginx(room, file.read())


def test_behind_caddy_by_the_file(room: Room, scale: Scale) -> str:
    with open(os.path.join(PROXIES, "Caddyfile")) as file:
        text = for_caddy(file.read())
    return behind(room, ["caddy", "run", "--adapter", "caddyfile", "--config", room.file("Caddyfile")], text)


TESTS: list[Callable[[Room, Scale], str]] = [one for name, one in list(globals().items()) if name.startswith("test_")]
