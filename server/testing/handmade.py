"""HTTP and WebSocket by hand, over plain sockets: for what a good client never sends, and where each microsecond counts."""

import socket
import struct
import time

SILENCE = 120.0  # seconds that a read may take: the test's own limit, and no promise of the server
TEXT, BINARY, CLOSE, PING, PONG = 1, 2, 8, 9, 10
NO_MASK = b"\0\0\0\0"  # a mask as good as any other, which leaves the bytes as they are
HANDSHAKE = "Upgrade: websocket\r\nConnection: Upgrade\r\nSec-WebSocket-Key: dGhlIHNhbXBsZSBub25jZQ==\r\n" \
            "Sec-WebSocket-Version: 13\r\n"


class Cut(ConnectionError):
    """The other side has ended the connection."""


class Ended(ConnectionError):
    """The session was closed, with a code."""

    def __init__(self, code: int, why: str = ""):
        super().__init__("%d %s" % (code, why))
        self.code = code


def bearer(token: str) -> str:
    return "Authorization: Bearer %s\r\n" % token if token else ""


class Wire:
    """A connection, and what came and wasn't taken yet."""

    def __init__(self, port: int, little: bool = False, timeout: float = SILENCE):
        self.port = port
        self.socket = socket.socket(socket.AF_INET, socket.SOCK_STREAM)
        if little:  # a small window, so that a reader that stops is noticed soon
            self.socket.setsockopt(socket.SOL_SOCKET, socket.SO_RCVBUF, 4096)
        self.socket.settimeout(timeout)
        self.socket.connect(("127.0.0.1", port))
        self.socket.setsockopt(socket.IPPROTO_TCP, socket.TCP_NODELAY, 1)
        self.held = bytearray()

    def send(self, data: bytes) -> None:
        self.socket.sendall(data)

    def ask(self, method: str, path: str, more: str = "", body: bytes = b"") -> None:
        """Sends a request. `more` are lines of the head, each with its end."""
        length = "Content-Length: %d\r\n" % len(body) if body else ""
        self.send(("%s %s HTTP/1.1\r\nHost: 127.0.0.1:%d\r\n%s%s\r\n" % (method, path, self.port, length, more)).encode())
        if body:
            self.send(body)

    def read(self) -> None:
        data = self.socket.recv(1 << 18)
        if not data:
            raise Cut("the end, behind %r" % bytes(self.held[-100:]))
        self.held += data

    def until(self, mark: bytes) -> bytes:
        """All up to the mark, with it."""
        looked = 0
        while (at := self.held.find(mark, looked)) < 0:
            looked = max(len(self.held) - len(mark), 0)
            self.read()
        return self.exactly(at + len(mark))

    def exactly(self, count: int) -> bytes:
        while len(self.held) < count:
            self.read()
        found = bytes(self.held[:count])
        del self.held[:count]
        return found

    def head(self) -> tuple[int, dict[str, str]]:
        """Status and headers of the next answer."""
        first, *lines = self.until(b"\r\n\r\n").decode("latin-1").split("\r\n")[:-2]
        return int(first.split(" ")[1]), {name.lower(): value for name, _, value in (one.partition(": ") for one in lines)}

    def answer(self) -> tuple[int, bytes]:
        """Status and body of the next answer, which has a length or is in chunks."""
        status, headers = self.head()
        if headers.get("transfer-encoding") == "chunked":
            return status, self.chunks()
        return status, self.exactly(int(headers.get("content-length", 0)))

    def chunks(self) -> bytes:
        found = []
        while size := int(self.until(b"\r\n").split(b";")[0], 16):
            found.append(self.exactly(size + 2)[:-2])
        self.until(b"\r\n")
        return b"".join(found)

    def ends_within(self, seconds: float) -> bool:
        """Whether the other side ends the connection in so many seconds, whatever it sends before."""
        end = time.monotonic() + seconds
        try:
            while (left := end - time.monotonic()) > 0:
                self.socket.settimeout(left)
                if not self.socket.recv(1 << 16):
                    return True
        except TimeoutError:
            return False
        except OSError:
            return True
        return False

    def reset(self) -> None:
        """Ends it without a good-bye."""
        self.socket.setsockopt(socket.SOL_SOCKET, socket.SO_LINGER, struct.pack("ii", 1, 0))
        self.socket.close()

    def close(self) -> None:
        self.socket.close()


def framed(data: bytes, opcode: int = TEXT, is_last: bool = True) -> bytes:
    first, size = opcode | (0x80 if is_last else 0), len(data)
    if size < 126:
        return bytes((first, 0x80 | size)) + NO_MASK + data
    if size < 1 << 16:
        return bytes((first, 0xFE)) + size.to_bytes(2, "big") + NO_MASK + data
    return bytes((first, 0xFF)) + size.to_bytes(8, "big") + NO_MASK + data


class Refused(ConnectionError):
    """A session wasn't opened, with a status."""

    def __init__(self, status: int, body: bytes):
        super().__init__("%d %s" % (status, body[:200].decode("latin-1")))
        self.status, self.body = status, body


class Session(Wire):
    """A seat, by a WebSocket."""

    def __init__(self, port: int, token: str = "", little: bool = False, timeout: float = SILENCE):
        super().__init__(port, little, timeout)
        self.ask_path("/session", bearer(token))

    def ask_path(self, path: str, more: str) -> None:
        super().ask("GET", path, HANDSHAKE + more)
        status, headers = self.head()
        if status != 101:
            body = self.exactly(int(headers.get("content-length", 0)))
            self.close()
            raise Refused(status, body)

    def tell(self, text: str) -> None:
        self.send(framed(text.encode()))

    def told(self) -> str:
        """The next message. Pings are answered meanwhile."""
        while True:
            opcode, data = self.frame()
            if opcode == TEXT:
                return data.decode()
            if opcode == CLOSE:
                raise Ended(int.from_bytes(data[:2], "big"), data[2:].decode("utf-8", "replace"))
            if opcode == PING:
                self.send(framed(data, PONG))

    def frame(self) -> tuple[int, bytes]:
        first, size = self.exactly(2)
        if size == 126:
            size = int.from_bytes(self.exactly(2), "big")
        elif size == 127:
            size = int.from_bytes(self.exactly(8), "big")
        return first & 15, self.exactly(size)

    def call(self, text: str) -> str:
        self.tell(text)
        return self.told()

    def call_all(self, messages: list[str], ahead: int = 8) -> list[str]:
        """The answers to several messages, of which so many are sent ahead. A server may read no further while its
        answers aren't read, so what is sent ahead and its answers have to be short."""
        found: list[str] = []
        for at in range(len(messages) + ahead):
            if at < len(messages):
                self.tell(messages[at])
            if at >= ahead:
                found.append(self.told())
        return found

    def say_goodbye(self) -> None:
        self.send(framed((1000).to_bytes(2, "big"), CLOSE))
        self.ends_within(SILENCE)
        self.close()


def is_all_taken(answer: str) -> bool:
    """Whether no line was refused: a load whose lines are refused is no load."""
    refusals = ("fault ", "=> toolate", "=> ended", "=> blocked", "=> nomemory", "=> belowhorizon")
    return not any(word in answer for word in refusals)


def fill(session: Session, prefix: str, count: int, value: str = "v", delete: bool = False) -> None:
    """Puts so many rows, or deletes them, in transactions of five hundred, or fewer where they are large."""
    each = max(1, min(500, 900_000 // (len(value) + 40)))
    word = "del . %s%07d\n" if delete else "put . %s%07d " + value + "\n"
    messages = []
    for at in range(0, count, each):
        rows = "".join(word % (prefix, number) for number in range(at, min(at + each, count)))
        messages.append("begin\n%scommit .\n" % rows)
    for answer in session.call_all(messages, 8 if len(messages[0]) < 32_000 else 0):
        if not is_all_taken(answer):
            raise ValueError("a row was refused: " + answer[-200:])
