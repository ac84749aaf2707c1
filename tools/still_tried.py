#!/usr/bin/env python3
"""`tools/still_tried.py BASE [COMMIT]` tells what was tried at BASE and isn't at COMMIT, or at HEAD, any more.

It compares the names of all wrong bodies, whether the gate, a script or a test refuses them, and of all tests: in
Rattle, Rust, Python, Go and JavaScript. One that moved to another crate or file is the same one, so a name that stood
in two places has to stand in two still. Each that is gone gets a line, and the last line has the counts. The status is
1 where any is gone. It takes a second.
"""

import collections
import io
import os
import re
import subprocess
import sys
import tarfile

import git

TOP = os.path.dirname(os.path.dirname(os.path.abspath(__file__)))
BODY = re.compile(r"crates/[^/]+/(?:must-fail|wrong-bodies|refused-by-tests)/([^/]+)\.edit$")
# The tests of a file, by its ending. A test in Rattle or Rust may have more attributes and comments above its name.
OF_RUST = re.compile(r"^[ \t]*#\[(?:\w+::)?test\b.*\n(?:[ \t]*(?:#\[|//).*\n)*[ \t]*(?:pub )?(?:async )?fn (\w+)", re.M)
OF_SCRIPT = re.compile(r"""^[ \t]*(?:await )?test\((["'`])(.*?)\1""", re.M)
TESTS = {
    ".rt": OF_RUST,
    ".rs": OF_RUST,
    ".py": re.compile(r"^[ \t]*(?:async )?def (test_\w+)", re.M),
    ".go": re.compile(r"^func (Test\w+)\(", re.M),
    ".js": OF_SCRIPT,
    ".mjs": OF_SCRIPT,
}


def texts(top, commit):
    """The files of a commit that may have tests or are wrong bodies: each path with its text."""
    packed = subprocess.run(["git", "-C", top, "archive", commit], check=True, stdout=subprocess.PIPE).stdout
    with tarfile.open(fileobj=io.BytesIO(packed)) as files:
        for it in files:
            if it.isfile() and (BODY.match(it.name) or os.path.splitext(it.name)[1] in TESTS):
                yield it.name, files.extractfile(it).read().decode(errors="replace")


def named(files):
    """How often each wrong body's and each test's name stands in these files, by kind."""
    found = {"wrong body": collections.Counter(), "test": collections.Counter()}
    for path, text in files:
        body = BODY.match(path)
        if body:
            found["wrong body"][body[1]] += 1
        else:
            tests = TESTS[os.path.splitext(path)[1]].findall(text)
            found["test"].update(it if isinstance(it, str) else it[-1] for it in tests)
    return found


def gone(before, after):
    """What is named less often than before: lines that say so."""
    return ["the %s %s is gone" % (kind, name) for kind in before for name in (before[kind] - after[kind]).elements()]


def main(words):
    if len(words) not in (1, 2) or words[0].startswith("-"):
        print(__doc__)
        return 0 if words in (["--help"], ["-h"]) else 2
    base, commit = git.said(TOP, "rev-parse", words[0]), git.said(TOP, "rev-parse", *(words[1:] or ["HEAD"]))
    before, after = named(texts(TOP, base)), named(texts(TOP, commit))
    lost = gone(before, after)
    for it in sorted(lost):
        print(it)
    counts = [sum(it[kind].values()) for it in (before, after) for kind in ("wrong body", "test")]
    print("still tried: %d wrong bodies and %d tests before, %d and %d now" % tuple(counts), end=", ")
    print("%d dropped" % len(lost))
    return 1 if lost else 0


if __name__ == "__main__":
    sys.exit(main(sys.argv[1:]))
