"""The checks of `check-table` beside this: `checks` runs them, and packaging/record.py asks for their rows."""

import fnmatch
import os
import re
import shlex
from dataclasses import dataclass
from typing import Collection, List, Optional, Sequence

import side_by_side

TABLE = os.path.join(os.path.dirname(os.path.abspath(__file__)), "check-table")
# A word of a command in the place of which a folder comes.
ROOM = "{room}"
ROW = re.compile(r"(?m)^([\w-]+): (.*)\n((?: .*\n)+)")


@dataclass
class Check:
    """A check: its command, what it tells (a pattern, with its count as the one group), the count's word, its limit in
    seconds, what it needs, and what it is of."""

    name: str
    what: str
    command: List[str]
    told: str = ""
    word: str = ""
    limit: int = 600
    needs: Sequence[str] = ()
    of: Sequence[str] = ()


def read(minutes: Optional[int] = None, since: Optional[str] = None) -> List[Check]:
    """All checks, in their order. A soak takes so many minutes, and wrong bodies are of what changed since a commit, or
    else of the crates whose rows don't hold."""
    lasts = 10 if minutes is None else minutes
    bounds = ["--minutes %d" % lasts] if minutes is not None else []
    given = {
        "minutes": lasts,
        "half": 30 * lasts,
        "bounds": " ".join([*bounds, "--since " + shlex.quote(since) if since else "--stale"]),
        "since": "of those changed since %s" % since if since else "",
        "room": ROOM,
    }
    found = []
    with open(TABLE, encoding="utf-8") as it:
        rows = ROW.findall(it.read())
    for name, what, rest in rows:
        limit, needs, command, told, word, of = (it.strip() for it in rest.split("|"))
        seconds = 60 * sum(int(it) for it in limit.format(**given).split("+"))
        words = shlex.split(command.format(**given))
        found.append(Check(name, what, words, told, word.format(**given), seconds, needs.split(), of.split()))
    return found


def sources(top: str, check: Check) -> List[str]:
    """What a check is of, as git names it."""
    with open(os.path.join(top, "crates.txt"), encoding="utf-8") as it:
        deps = side_by_side.listed(it.read())
    found = []
    for word in check.of:
        names, colon, parts = word.partition(":")
        if not colon:
            found.append(word)
            continue
        named = [it for like in names.split(",") for it in crates_like(top, deps, like)]
        crates = sorted({lower for it in named for lower in [it, *side_by_side.below(deps, it)]})
        found += ["crates.txt", *("crates/%s/%s" % (it, part) for it in crates for part in parts.split(","))]
    return found


def crates_like(top: str, crates: Collection[str], like: str) -> List[str]:
    """The crates that a word names, which may want them to have a part."""
    name, _, part = like.partition("/")
    found = fnmatch.filter(crates, name)
    return [it for it in found if os.path.exists(os.path.join(top, "crates", it, part))] if part else found
