#!/usr/bin/env python3
"""The client in Chromium: a page of the server's own origin uses it, through a proxy that also serves the package.

SERVER names what serves, and server/run does where it doesn't.
"""

from __future__ import annotations

import contextlib
import http.client
import http.server
import os
import re
import subprocess
import sys
import tempfile
import threading

sys.dont_write_bytecode = True
PACKAGE = os.path.dirname(os.path.dirname(os.path.abspath(__file__)))
TOP = os.path.join(PACKAGE, "..", "..")
sys.path.insert(0, os.path.join(TOP, "clients", "kit"))
from real import Server  # noqa: E402

SERVER = os.environ.get("SERVER") or os.path.join(TOP, "server", "run")
PAGE = """<!doctype html><title>not yet</title><script type="module">
import { connect, versionIs, ConditionFailed } from "/package/index.js";
const told = [], db = connect(location.origin);
try {
  const version = await db.put("caf\\u00e9/.", "\\ufeff1");
  told.push(await db.get("caf\\u00e9/."), await db.get("plum"));
  told.push(await db.put(".", "x") > version, await db.get("."));
  const isAbsent = { if: versionIs("n", null) };
  await db.put("n", "1", isAbsent);
  const seen = (why) => told.push(why instanceof ConditionFailed, why.found[0].value);
  await db.put("n", "2", isAbsent).catch(seen);
  const raise = async (tx) => (tx.put("n", String(Number(await tx.get("n")) + 1)), "done");
  told.push(await db.transact(raise), await db.get("n"));
  for await (const row of db.scan("n", "o", { page: 1 })) told.push(row.key, row.value);
  for await (const message of db.feed("n", "o", { before: true })) {
    told.push(message.type);
    if (message.type === "resolved") break;
  }
} catch (why) {
  told.push(String(why));
}
document.title = JSON.stringify(told);
</script>"""
WANTED = '["\ufeff1",null,true,"x",true,"1","done","2","n","2","reset","change","resolved"]'


class Proxy(http.server.BaseHTTPRequestHandler):
    """Serves the page and the package, and hands on all else."""

    server_host = ""

    def hand_on(self) -> None:
        if self.path == "/test" or self.path.startswith("/package/"):
            return self.serve()
        body = self.rfile.read(int(self.headers.get("Content-Length", 0)))
        server = http.client.HTTPConnection(self.server_host, timeout=30)
        server.request(self.command, self.path, body or None, dict(self.headers))
        reply = server.getresponse()
        self.send_response(reply.status)
        for name, value in reply.headers.items():
            if name.lower() not in ("transfer-encoding", "connection"):
                self.send_header(name, value)
        self.end_headers()
        with contextlib.closing(server), contextlib.suppress(OSError, http.client.HTTPException):
            while data := reply.read1(1 << 16):
                self.wfile.write(data)

    do_GET = do_POST = hand_on

    def serve(self) -> None:
        kind, data = "text/html; charset=utf-8", PAGE.encode()
        if self.path != "/test":
            kind = "text/javascript"
            with open(os.path.join(PACKAGE, os.path.basename(self.path)), "rb") as file:
                data = file.read()
        self.send_response(200)
        self.send_header("Content-Type", kind)
        self.end_headers()
        self.wfile.write(data)

    def log_message(self, *_: object) -> None:
        pass


def main() -> int:
    proxy = http.server.ThreadingHTTPServer(("127.0.0.1", 0), Proxy)
    threading.Thread(target=proxy.serve_forever, daemon=True).start()
    host = "127.0.0.1:%d" % proxy.server_port
    server = Server(SERVER, None, "--host", host)
    Proxy.server_host = server.host
    try:
        with tempfile.TemporaryDirectory() as folder:
            words = ["chromium", "--headless", "--no-sandbox", "--disable-gpu", "--user-data-dir=" + folder,
                     "--virtual-time-budget=20000", "--dump-dom", "http://%s/test" % host]
            done = subprocess.run(words, capture_output=True, text=True, timeout=120)
    finally:
        server.close()
    found = re.search("<title>(.*?)</title>", done.stdout, re.S)
    print(found[1] if found else done.stderr[-1000:])
    return 0 if found and found[1] == WANTED else 1


if __name__ == "__main__":
    sys.exit(main())
