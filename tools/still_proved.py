#!/usr/bin/env python3
"""Whether the prover still accepts a wrong body. `refused-by-tests` beside this asks that of each.

The crates below the one that is changed are those that the gate left in crates/NAME/out/rlib. So the answer is right
where the gate has passed over these sources. Where one of them isn't there, `rt check` proves all that it needs. A
wrong body in one function leaves all other proofs as they are, so that function alone is proved.

With the words of an `rt` this is that `rt`, to which a library counts as built where it stands.
"""

import os
import re
import shutil
import sys

import library
import limited
from body_edits import SHOWS_NOTHING, UNREAD, bodies, check_alone, text_of, turned
from side_by_side import below, link_or_copy, listed

PROVED = re.compile(r"(?m)^logic=proved|\bonly=([1-9]\d*) proved=\1\b")
# An answer that is now wrong, or a goal that has none.
SHOWS = re.compile(r"(?:\./)?proofs/\S+\.antt:\d+:\d+: error: |note: `[^`]+` of \S+ must prove:")


def lay_in(top, room, crate):
    """Lays the libraries below a crate into the copy. Whether all are there."""
    deps = listed(text_of(os.path.join(room, "crates.txt")))
    for name in below(deps, crate):
        made = os.path.join(top, "crates", name, "out", "rlib")
        to = os.path.join(room, "crates", name, "out", "rlib")
        if not os.path.isdir(made):
            return False
        if not os.path.isdir(to):
            shutil.copytree(made, to, copy_function=link_or_copy)
    return True


def function_of(before, path):
    """The function whose body alone was changed in a file, or none."""
    begin, end = turned(before, text_of(path))
    return next((name for name, first, last in bodies(before) if first <= begin and end <= last), None)


def functions_of(before):
    """The functions whose bodies alone were changed, of files with what stood there before; none where all is to be
    proved."""
    found = [function_of(text, path) for path, text in before.items()]
    return [] if None in found else sorted(set(found))


def check(top, room, crate, before):
    """What the prover says of a crate of the copy, in which a wrong body is planted: its status, and what it told."""
    rt = [sys.executable, os.path.abspath(__file__)] if lay_in(top, room, crate) else ["rt"]
    folder = os.path.join(room, "crates", crate)
    places = [(function_of(text, path), os.path.relpath(path, folder)) for path, text in before.items()]
    places = places if functions_of(before) else []
    return check_alone(crate, places, lambda only: limited.told_by([*rt, "check", "--jobs", "1", *only], folder))


def is_proved(status, told):
    """Whether all that was asked is proved."""
    return status == 0 and bool(PROVED.search(told))


def refusal(status, told):
    """The line that shows that a contract refuses the body, or none: that a name is gone shows nothing."""
    lines = told.splitlines()
    if status != 1 or any(UNREAD.match(it) for it in lines):
        return ""
    return next((it for it in lines if SHOWS.match(it) and not SHOWS_NOTHING.search(it)), "")


def main(words):
    try:
        rt = library.code_of_the_kit()
        library.take_those_of_the_gate(rt)
    except (OSError, SyntaxError, ValueError, AttributeError):
        os.execvp("rt", ["rt", *words])
    return rt.main(words)


if __name__ == "__main__":
    sys.exit(main(sys.argv[1:]))
