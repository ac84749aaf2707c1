#!/usr/bin/env python3
"""Notes beside a built file which sources it is of, so that a release can refuse what was built of others.

    tools/origin.py note FILE [--from OTHER] PLACE..    writes FILE.origin
    tools/origin.py check FILE PLACE..                  the status is 1 where FILE is of other sources than these

A note has a line for each place of the repository, as `crates 3b18..`, by `git rev-parse HEAD:crates`, and the file's
checksum. What is made of another built file is of that one's places too. Of places with changes that aren't committed
there is no note, and an older one goes.
"""

import argparse
import hashlib
import os
import sys
from typing import List, Optional

from git import Places, committed

TOP = os.path.dirname(os.path.dirname(os.path.abspath(__file__)))
SUM = "sha256"


def checksum(path: str) -> str:
    with open(path, "rb") as it:
        return hashlib.sha256(it.read()).hexdigest()


def _note_of(path: str) -> str:
    return path + ".origin"


def write(path: str, places: Optional[Places]) -> None:
    """Writes the note of a built file, or takes an older one away where its places aren't known."""
    if places is None:
        if os.path.exists(_note_of(path)):
            os.remove(_note_of(path))
        return
    with open(_note_of(path), "w", encoding="ascii") as it:
        it.writelines("%s %s\n" % line for line in [*places.items(), (SUM, checksum(path))])


def read(path: str) -> Optional[Places]:
    """The places that a built file is of, or none where it has no note, or the note is another file's."""
    try:
        with open(_note_of(path), encoding="ascii") as it:
            places = dict(line.split() for line in it)
    except FileNotFoundError:
        return None
    return places if places.pop(SUM, None) == checksum(path) else None


def fault(top: str, path: str, places: List[str]) -> str:
    """Why a file isn't known to be of what is committed at these places, or nothing."""
    noted = read(path)
    if noted is None:
        return "%s has no note of its sources: they weren't committed, or it is of an older build" % path
    now = committed(top, places)
    if now is None:
        return "%s has changes that aren't committed" % " or ".join(places)
    other = [place for place in places if noted.get(place) != now[place]]
    return "%s is of another %s than is committed here" % (path, " and ".join(other)) if other else ""


def main(words: List[str]) -> int:
    parser = argparse.ArgumentParser(description=__doc__, formatter_class=argparse.RawDescriptionHelpFormatter)
    parser.add_argument("what", choices=["note", "check"])
    parser.add_argument("--from", dest="other", metavar="OTHER")
    parser.add_argument("file", metavar="FILE")
    parser.add_argument("places", nargs="+", metavar="PLACE")
    given = parser.parse_args(words)
    if given.what == "check":
        why = fault(TOP, given.file, given.places)
        if why:
            print("origin: " + why, file=sys.stderr)
        return 1 if why else 0
    own = committed(TOP, given.places)
    under: Optional[Places] = read(given.other) if given.other else {}
    write(given.file, None if own is None or under is None else {**under, **own})
    return 0


if __name__ == "__main__":
    sys.exit(main(sys.argv[1:]))
