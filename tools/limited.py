"""Runs a command that may be cut off, with all that it started."""

import contextlib
import os
import signal
import subprocess
import tempfile
import time
from typing import Any, List, Optional, Tuple


def status_of(command: List[str], limit: Optional[float], **how: Any) -> Optional[int]:
    """The status of a command, or none where it took too long and was ended. It is ended too where this script is."""
    ran = subprocess.Popen(command, stdin=subprocess.DEVNULL, start_new_session=True, **how)
    try:
        return ran.wait(limit)
    except subprocess.TimeoutExpired:
        return None
    finally:
        if ran.poll() is None:
            end(ran)


def told_by(command: List[str], folder: str, limit: Optional[float] = None) -> Tuple[Optional[int], str]:
    """The status of a command in a folder, and what it told."""
    with tempfile.TemporaryFile("w+", errors="replace") as log:
        status = status_of(command, limit, cwd=folder, stdout=log, stderr=subprocess.STDOUT)
        log.seek(0)
        return status, log.read()


def end(ran: "subprocess.Popen[Any]") -> None:
    """Ends a command with all that it started, which has ten seconds to end what it started elsewhere."""
    with contextlib.suppress(ProcessLookupError):
        for sent in (signal.SIGTERM, signal.SIGKILL):
            os.killpg(ran.pid, sent)
            for _ in range(100):
                ran.poll()
                os.killpg(ran.pid, 0)
                time.sleep(0.1)
    ran.wait()
