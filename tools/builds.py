"""Builds the program and the library, for scripts that need one: PROGRAM and LIBRARY name what was built before."""

import os
import sys
from typing import Collection, Dict, List

import limited

# What is built first is cut off after so many seconds.
LIMIT = 7200
# What builds it, and where it then stands.
MADE = {
    "program": (["./mvfeed", "run"], "crates/mvfeed/out/mvfeed"),
    "library": (["tools/side_by_side.py", "ripsawbean"], "crates/ripsawbean/out/libripsawbean.a"),
}


def built(top: str, needs: Collection[str], limit: float = LIMIT) -> Dict[str, str]:
    """The environment in which PROGRAM and LIBRARY name what was built."""
    made = dict(os.environ, PYTHONDONTWRITEBYTECODE="1")
    # These name other files to test than what the sources make.
    for name in ("MODULE", "RIPSAWBEAN_LIBRARY", "SERVER"):
        made.pop(name, None)
    for what, (command, path) in MADE.items():
        if what in needs and not made.get(what.upper()):
            build(top, "the " + what, command, limit)
            made[what.upper()] = os.path.join(top, path)
    return made


def build(top: str, what: str, command: List[str], limit: float) -> None:
    """Builds what checks need, or ends the run with a word why it isn't there."""
    status = limited.status_of(command, limit, cwd=top)
    if status is None:
        sys.exit("checks: %s wasn't built in %d seconds, and nothing was checked; the next run goes on" % (what, limit))
    if status:
        sys.exit("checks: %s couldn't be built, and nothing was checked" % what)
