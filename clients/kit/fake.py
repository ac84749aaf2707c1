"""A server that has nothing but the recorded answers of one case, and takes nothing but its requests.

It also does what goes wrong between a client and a server: answers are lost, cut in their headers or body, and streams
end anywhere.
"""

from __future__ import annotations

import base64
import contextlib
import http.server
import json
import socketserver
import threading
import time
from typing import Any, Dict, List

from records import Case, Keys, different

LINGER = 30.0  # seconds for which an open stream waits for its client to end it


class Fake(socketserver.ThreadingTCPServer):
    """Asks of one case at a time. `faults` are what its client did wrong."""

    daemon_threads = True
    allow_reuse_address = True

    def __init__(self) -> None:
        super().__init__(("127.0.0.1", 0), Handler)
        self.turn = threading.Lock()
        self.url = "http://127.0.0.1:%d" % self.server_address[1]
        threading.Thread(target=self.serve_forever, daemon=True).start()

    def handle_error(self, *_: object) -> None:
        pass

    def play(self, case: Case) -> None:
        with self.turn:
            self.left, self.keys = case.asked(), Keys()
            self.faults: List[str] = []

    def next(self, target: str, headers: Dict[str, str], body: bytes) -> Dict[str, Any]:
        """The record of a request, which is answered a fault where it isn't the one that is due."""
        with self.turn:
            record = self.left[0] if self.left else None
            faults = list(different(record, target, headers, body, self.keys)) if record else ["asks %s once more" % target]
            if not faults:
                self.left.pop(0)
                return record or {}
            self.faults += faults
            return {"status": 500, "answer": {"error": "kit", "why": "; ".join(faults)}}


class Handler(http.server.BaseHTTPRequestHandler):
    server: Fake
    protocol_version = "HTTP/1.1"
    disable_nagle_algorithm = True

    def answer(self) -> None:
        body = self.rfile.read(int(self.headers.get("Content-Length", 0)))
        headers = {name.lower(): value for name, value in self.headers.items()}
        record = self.server.next("%s %s" % (self.command, self.path), headers, body)
        with contextlib.suppress(OSError):
            if "stream" in record:
                self.stream(record)
            else:
                self.whole(record)

    do_GET = do_POST = do_PUT = do_DELETE = do_HEAD = answer

    def head(self, record: Dict[str, Any], **more: str) -> bytes:
        lines = ["HTTP/1.1 %d Recorded" % record["status"]]
        lines += ["%s: %s" % one for one in {**record.get("says", {}), **more}.items()]
        return "\r\n".join(lines).encode() + b"\r\n\r\n"

    def whole(self, record: Dict[str, Any]) -> None:
        body = body_of(record)
        head = self.head(record, **{"Content-Length": str(len(body))})
        lost = record.get("lost")
        if lost:
            cut = {"answer": b"", "headers": head[: head.index(b"\r\n\r\n") - 1], "body": head + body[: len(body) // 2]}
            self.wfile.write(cut[lost])
            self.close_connection = True
        else:
            self.wfile.write(head + body)

    def stream(self, record: Dict[str, Any]) -> None:
        """Lines, and what the record has instead of the stream's end: by itself it stays open until the client leaves."""
        self.close_connection = True
        self.wfile.write(self.head(record, **{"Transfer-Encoding": "chunked"}))
        for line in record["stream"]:
            if isinstance(line, dict) and "pause" in line:
                time.sleep(line["pause"])
            else:
                self.chunk(text_of(line) + b"\n")
        if "half" in record:
            self.chunk(record["half"].encode())
        if record.get("ends") == "end":
            self.wfile.write(b"0\r\n\r\n")
        elif record.get("ends") != "cut":
            self.connection.settimeout(LINGER)
            self.connection.recv(1)

    def chunk(self, data: bytes) -> None:
        self.wfile.write(b"%x\r\n%s\r\n" % (len(data), data))

    def log_message(self, *_: object) -> None:
        pass


def text_of(line: Any) -> bytes:
    return line.encode() if isinstance(line, str) else json.dumps(line, separators=(",", ":")).encode()


def body_of(record: Dict[str, Any]) -> bytes:
    if "text" in record:
        return str(record["text"]).encode()
    if "bytes" in record:
        return base64.b64decode(record["bytes"])
    return json.dumps(record["answer"], ensure_ascii=False).encode() + b"\n" if "answer" in record else b""
