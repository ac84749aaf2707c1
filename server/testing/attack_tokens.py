"""Tokens with rights and spans: who may read, write, consume and operate, and within which keys.

Each function is a test. It gets a room, and how heavy the load is to be.
"""

import contextlib
import json
import os
import re
import signal
import subprocess
import time
from collections.abc import Callable, Iterator

from attack_beside import Scale
from attack_memory import started
from attack_wire import refused_start
from handmade import Refused, Session, Wire, bearer
from machine import Room, Server, wait_for

READ, WRITE, CONSUME, OPERATE, PART, SENSOR = ("%s-0123456789abcdef" % name for name in (
    "read", "write", "consume", "operate", "part", "sensor"))


def shown(token: str) -> dict[str, str]:
    return {"Authorization": "Bearer " + token}


def status_of(server: Server, path: str, token: str) -> int:
    """Of a GET whose answer may be a stream."""
    with contextlib.closing(Wire(server.port)) as wire:
        wire.ask("GET", path, bearer(token))
        return wire.head()[0]


@contextlib.contextmanager
def with_tokens(room: Room, *options: str) -> Iterator[tuple[Server, str]]:
    """A server with six tokens, and their file."""
    path = room.file("tokens")
    with open(path, "w") as file:
        file.write("reader read - - %s\nwriter read,write - - %s\n" % (READ, WRITE))
        file.write("operator read,write,consume,operate - - %s\npart read,write,consume b c %s\n" % (OPERATE, PART))
        file.write("sensor write b c %s\ncache read,consume - - %s\n" % (SENSOR, CONSUME))
    os.chmod(path, 0o600)
    yield started(room, "--tokens", path, *options, token=OPERATE), path


def test_rights(room: Room, scale: Scale) -> str:
    """Who may only read changes nothing, and who may not operate ends no other's session."""
    with with_tokens(room) as (server, _):
        write = b"begin\nput . a x\ncommit .\n"
        assert server.ask("POST", "/call", write, shown("none-0123456789abcdef"))[0] == 401
        assert server.ask("GET", "/holders", None, shown("none-0123456789abcdef"))[0] == 401
        status, told = server.ask("POST", "/call", write, shown(READ))
        assert status == 403 or "fault " in told and "=> written" not in told, (status, told)
        for token in (READ, WRITE, CONSUME, OPERATE):
            for path in ("/holders", "/metrics", "/state", "/consumer"):
                assert server.ask("GET", path, None, shown(token))[0] == 200, (path, token)
        assert "=> committed 1" in server.ask("POST", "/call", write, shown(WRITE))[1]
        name = "/consumer/mine?identity=%s&generation=0&stored=0" % server.identity
        for token, status in ((READ, 403), (WRITE, 403), (CONSUME, 200)):
            assert server.ask("POST", name, None, shown(token))[0] == status, token
            assert status_of(server, "/feed?consumer=mine", token) == status, token
            assert server.ask("DELETE", "/consumer/mine", None, shown(token))[0] == status, token
        status, told = server.ask("POST", "/call", write, shown(CONSUME))
        assert "fault " in told and "=> written" not in told, (status, told)
        assert server.ask("PUT", "/key/a", b"x", shown(CONSUME))[0] == 403
        session = Session(server.port, WRITE)
        session.call("begin\n")
        (seat,) = [one["seat"] for one in server.holders("transaction")]
        for token, wanted in ((READ, 403), (WRITE, 403), (OPERATE, 200)):
            status = server.ask("DELETE", "/session/%d" % seat, None, shown(token))[0]
            assert status == wanted or wanted == 200 and status == 204, (token, status)
        for line in ("closehard 5\n", "collect 0\n"):
            status, told = server.ask("POST", "/call", line.encode(), shown(WRITE))
            assert status == 403 or "fault " in told, (line, status, told)
            assert "=> c" in server.ask("POST", "/call", line.encode(), shown(OPERATE))[1], line
    return "four kinds"


def test_spans_of_tokens(room: Room, scale: Scale) -> str:
    """A token of a span sees and changes nothing outside of it."""
    with with_tokens(room) as (server, _):
        server.ask("POST", "/call", b"begin\nput . a secret\nput . b/1 open\ncommit .\n")
        assert "=> committed 1" in server.ask("POST", "/call", b"begin\nput . b/2 x\ncommit .\n", shown(PART))[1]
        for path, status in (("/feed", 403), ("/feed?lo=a&hi=c", 403), ("/feed?lo=b", 403), ("/feed?lo=b&hi=c", 200)):
            assert status_of(server, path, PART) == status, (path, status_of(server, path, PART))
        for lines in ("begin\nput . a/1 x\ncommit .\n", "begin\nput . c x\ncommit .\n", "begin\ndel . a\ncommit .\n"):
            server.ask("POST", "/call", lines.encode(), shown(PART))
        for lines in ("begin\nget . a\n", "begin\nscan . - -\n", "begin\nscan . a d\n", "readat 1 a\n", "scanat 1 - -\n",
                      "open - - 0\npoll 1 100\n", "openinitial - - 0\npoll 1 100\n"):
            told = server.ask("POST", "/call", lines.encode(), shown(PART))[1]
            assert "secret" not in told and "c2VjcmV0" not in told, (lines, told)
        for path in ("/transcript", "/holders", "/state"):
            told = server.ask("GET", path, None, shown(PART))[1]
            assert "secret" not in told, path
        rows = server.ask("POST", "/call", b"begin\nscan . - -\n")[1]
        assert re.findall(r"row (\S+)", rows) == ["a", "b/1", "b/2"], rows
    return "two tokens"


def opened(server: Server, token: str) -> list[str | None]:
    lines = map(json.loads, server.ask("GET", "/holders", None, shown(token))[1].splitlines())
    return sorted((one["opened"] for one in lines if one["kind"] == "feed"), key=str)


def test_bounds_that_a_token_is_not_for(room: Room, scale: Scale) -> str:
    """Bounds of feeds are keys: a token of a span is told of no others' bounds, in no report."""
    with with_tokens(room) as (server, _):
        session = Session(server.port, OPERATE)
        session.call("open a/secret a/secreu 0\nopen b/1 b/2 0\n")
        with contextlib.closing(Wire(server.port)) as wide, contextlib.closing(Wire(server.port)) as own:
            wide.ask("GET", "/feed?lo=b&hi=z/secret", bearer(OPERATE))
            own.ask("GET", "/feed?lo=b&hi=c", bearer(PART))
            wide.until(b"\r\n\r\n"), own.until(b"\r\n\r\n")
            every = ["open a/secret a/secreu 0", "open b/1 b/2 0", "openinitial b c 0", "openinitial b z/secret 0"]
            assert opened(server, OPERATE) == opened(server, READ) == every, opened(server, READ)
            found = opened(server, PART)
            assert found == [None, None, "open b/1 b/2 0", "openinitial b c 0"], found
            for path in ("/holders", "/metrics", "/consumer", "/consumer/nobody"):
                assert "secret" not in server.ask("GET", path, None, shown(PART))[1], path
            assert server.ask("GET", "/holders", None, shown(SENSOR))[0] == 403
    return "of two feeds"


def test_a_token_that_only_writes(room: Room, scale: Scale) -> str:
    """It puts and deletes within its span, and is told nothing that stands there, nor whether a condition holds."""
    with with_tokens(room) as (server, _):
        server.ask("POST", "/call", b"begin\nput . b/1 secret\ncommit .\n")
        told = server.ask("POST", "/call", b"begin\nput . b/2 x\ndel . b/3\ncommit .\n", shown(SENSOR))[1]
        assert "=> committed 2" in told, told
        session = Session(server.port, SENSOR)
        assert "=> committed 1" in session.call("begin\nput . b/4 x\ncommit .\n")
        session.call("begin\n")
        for line in ("get . b/1", "scan . b c", "readat 1 b/1", "scanat 1 b c", "openinitial b c 0", "poll 1 9",
                     "protect 0", "stats", "closehard 9", "collect 0", "put . a x", "put . c x"):
            told = session.call(line + "\n")
            assert re.fullmatch(r"fault \d+ 69 noright [^\n]+\n", told), (line, told)
        for path in ("/feed?lo=b&hi=c", "/holders", "/state", "/metrics", "/transcript", "/consumer", "/",
                     "/key/b%2F1", "/rows?lo=b&hi=c"):
            assert status_of(server, path, SENSOR) == 403, path
        put = {"put": "b/4", "value": "x"}
        for plan, status in (({"then": [put]}, 200), ({"then": [put, {"get": "b/1"}]}, 403),
                             ({"then": [{"scan": ["b", "c"]}]}, 403),
                             ({"if": [{"key": "b/1", "value": "y"}], "then": [put]}, 403),
                             ({"if": [{"key": "b/1", "absent": True}], "then": [put]}, 403)):
            told = server.ask("POST", "/transact", json.dumps(plan).encode(), shown(SENSOR))
            assert told[0] == status and "secret" not in told[1], (plan, told)
        assert server.ask("PUT", "/key/b%2F4", b"x", shown(SENSOR))[0] == 200
        for method, headers in (("PUT", {"If-Match": '"1"'}), ("PUT", {"If-None-Match": "*"}), ("DELETE", {})):
            told = server.ask(method, "/key/b%2F1", b"x", {**shown(SENSOR), **headers})
            assert told[0] == 403, (method, headers, told)
        rows = server.ask("POST", "/call", b"begin\nscan . - -\n")[1]
        assert re.findall(r"row (\S+)", rows) == ["b/1", "b/2", "b/4"], rows
    return "by calls, a session, transactions and keys"


def test_tokens_read_anew(room: Room, scale: Scale) -> str:
    """SIGHUP: new ones are taken, old ones go, and a file that is wrong changes nothing."""
    with with_tokens(room) as (server, path):
        fresh = "fresh-0123456789abcdef"
        with open(path, "w") as file:
            file.write("operator read,write,operate - - %s\n" % fresh)
        server.child.send_signal(signal.SIGHUP)
        wait_for(lambda: server.ask("GET", "/holders", None, shown(fresh))[0] == 200, "the new token")
        assert server.ask("GET", "/holders", None, shown(OPERATE))[0] == 401
        with open(path, "w") as file:
            file.write("a line that is none\n")
        server.child.send_signal(signal.SIGHUP)
        time.sleep(0.5)
        assert server.ask("GET", "/holders", None, shown(fresh))[0] == 200
        assert not server.has_ended()
    return "twice"


def test_a_token_stays_where_it_is(room: Room, scale: Scale) -> str:
    """It is taken from the header alone, and stands neither in the log nor in what others see of the process."""
    with with_tokens(room) as (server, path):
        for asked in ("/metrics?token=" + READ, "/metrics?authorization=Bearer%20" + READ, "/metrics?" + READ):
            status, told = server.ask("GET", asked, None, {"Authorization": ""})
            assert status == 401, (asked, status, told)
        assert server.ask("GET", "/metrics", None, {"Authorization": "", "Cookie": "token=" + READ})[0] == 401
        assert server.ask("GET", "/metrics", None, shown(READ))[0] == 200
        for name in ("cmdline", "environ"):
            with open("/proc/%d/%s" % (server.child.pid, name), "rb") as file:
                assert READ.encode() not in file.read(), name
        assert READ not in server.words()
    return "four ways"


def test_wrong_token_files(room: Room, scale: Scale) -> str:
    path = room.file("wrong")
    good = "a read - - %s\n" % READ
    for text in ("", "a read - -\n", "a reed - - %s\n" % READ, "a read - - short\n", good + good,
                 good + "b write - - %s\n" % READ):
        with open(path, "w") as file:
            file.write(text)
        os.chmod(path, 0o600)
        try:
            refused_start(room, "--tokens", path)
        except subprocess.TimeoutExpired:
            raise AssertionError("it starts with %r" % text) from None
    return "six of them"


def test_a_seat_is_kept_for_the_operator(room: Room, scale: Scale) -> str:
    """Those who may not operate take sixty-three seats, and an operator's call still has one."""
    with with_tokens(room) as (server, _):
        taken = []
        for token, count, of in ((WRITE, 48, b"client"), (READ, 15, b"all")):
            taken += [Session(server.port, token) for _ in range(count)]
            try:
                Session(server.port, token)
                raise AssertionError("a client has more than its share")
            except Refused as refused:
                assert refused.status == 503 and b'"seats"' in refused.body and of in refused.body, refused
        assert "=> stats" in server.ask("POST", "/call", b"stats\n", shown(OPERATE))[1]
        for one in taken:
            one.reset()
    return "63 and one"


def first_page(server: Server, token: str, hold: str) -> tuple[int, dict[str, str], dict[str, str]]:
    """Writes, and asks for a page behind which more follow: its status, headers and body."""
    assert server.ask("PUT", "/key/b%2F3", b"x", shown(token))[0] == 200
    with contextlib.closing(Wire(server.port)) as wire:
        wire.ask("GET", "/rows?lo=b&hi=c&limit=1" + hold, bearer(token))
        status, headers = wire.head()
        return status, headers, json.loads(wire.exactly(int(headers["content-length"])))


def test_a_client_that_holds_many_snapshots(room: Room, scale: Scale) -> str:
    """Who writes and asks for first pages in turn holds its share of them: to others they are told meanwhile."""
    with with_tokens(room) as (server, _):
        server.ask("POST", "/call", b"begin\nput . b/1 x\nput . b/2 x\ncommit .\n")
        statuses = [first_page(server, WRITE, "&hold=300")[0] for _ in range(200)]
        assert statuses == [200] * 192 + [503] * 8, statuses
        assert [first_page(server, WRITE, "&hold=0")[0] for _ in range(20)] == [200] * 20
        statuses = [first_page(server, PART, "&hold=300")[0] for _ in range(59)]
        assert statuses == [200] * 59, statuses
        assert first_page(server, PART, "&hold=5")[0] == 200
        assert [first_page(server, OPERATE, "&hold=300")[0] for _ in range(4)] == [200] * 4
        for token, of, least, most in ((WRITE, "client", 200, 300), (PART, "all", 1, 5), (OPERATE, "all", 1, 5)):
            status, headers, told = first_page(server, token, "")
            assert (status, told["error"], told["of"]) == (503, "holds", of), (token, told)
            assert least <= int(headers["retry-after"]) <= most, (token, headers)
        time.sleep(int(headers["retry-after"]))
        assert [first_page(server, token, "")[0] for token in (OPERATE, PART)] == [200, 503]
        assert len(server.holders("protection")) == 256
    return "192 and 64"


TESTS: list[Callable[[Room, Scale], str]] = [one for name, one in list(globals().items()) if name.startswith("test_")]
