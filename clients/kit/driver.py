"""A client's driver: calls go in as lines of JSON, and what they give comes back as lines."""

from __future__ import annotations

import json
import os
import subprocess
import threading
from typing import Any, Dict, List

LONGEST = 120.0  # seconds for one call


class Driver:
    """It is ended with its last line."""

    def __init__(self, command: List[str], environment: Dict[str, str] = {}):
        self.child = subprocess.Popen(
            command, stdin=subprocess.PIPE, stdout=subprocess.PIPE, text=True, encoding="utf-8",
            env={**os.environ, **environment},
        )

    def tell(self, line: Dict[str, Any]) -> None:
        assert self.child.stdin
        self.child.stdin.write(json.dumps(line) + "\n")
        self.child.stdin.flush()

    def ask(self, call: Dict[str, Any]) -> Any:
        assert self.child.stdout
        late = threading.Timer(LONGEST, self.child.kill)
        late.start()
        try:
            self.tell(call)
            line = self.child.stdout.readline()
        finally:
            late.cancel()
        if not line:
            raise SystemExit("the driver has ended, or was ended after %d seconds, at %s" % (LONGEST, json.dumps(call)))
        return json.loads(line)

    def close(self) -> None:
        assert self.child.stdin
        self.child.stdin.close()
        self.child.wait(LONGEST)
