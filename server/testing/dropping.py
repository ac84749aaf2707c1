#!/usr/bin/python3
"""A proxy that is wrong: dropping.py PORT TO SHARE drops one row in SHARE from the feeds of the server at port TO.

All else it passes on. A test of consumers that doesn't notice is no test.
"""

import http.client
import http.server
import random
import sys

DICE = random.Random(1)


class Dropping(http.server.BaseHTTPRequestHandler):
    to, share = 0, 500

    def pass_on(self) -> None:
        server = http.client.HTTPConnection("127.0.0.1", self.to, timeout=60)
        try:
            size = int(self.headers.get("Content-Length", 0))
            kept = {name: self.headers[name] for name in ("Accept", "Last-Event-ID") if name in self.headers}
            server.request(self.command, self.path, self.rfile.read(size) if size else None, kept)
            answer = server.getresponse()
            self.send_response(answer.status)
            for name, value in answer.headers.items():
                if name.lower() not in ("transfer-encoding", "content-length", "connection", "date", "server"):
                    self.send_header(name, value)
            self.end_headers()
            for line in answer:
                if b'"updated"' not in line or DICE.randrange(self.share):
                    self.wfile.write(line)
                    self.wfile.flush()
        except (OSError, http.client.HTTPException):
            self.close_connection = True
        finally:
            server.close()

    do_GET = do_POST = do_DELETE = pass_on

    def log_message(self, *_: object) -> None:
        pass


if __name__ == "__main__":
    Dropping.to, Dropping.share = int(sys.argv[2]), int(sys.argv[3])
    http.server.ThreadingHTTPServer(("127.0.0.1", int(sys.argv[1])), Dropping).serve_forever()
