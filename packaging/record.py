#!/usr/bin/env python3
"""Writes the record of a release: what it is made of, by what, what was checked, and the checksum of each file.

    record.py --check
    record.py [--draft] --version V --program FILE --embed FOLDER --server FILE [--arm FILE] DIST > build-record.json

The form is an in-toto statement whose predicate is SLSA's provenance, version 1, so that tools can read it. The first
form says which check of the commit's docs/LAST-RUN.md failed, wasn't run or left something out, or whose sources have
changed since, and its status is then 1.
"""

import argparse
import json
import re
import subprocess
import sys
from pathlib import Path
from typing import Any, Dict, Iterator, List

TOP = Path(__file__).resolve().parent.parent
sys.path.insert(0, str(TOP / "tools"))
import check_table  # noqa: E402
import git  # noqa: E402
import last_run  # noqa: E402
import origin  # noqa: E402

# Checks that say how something is, and not whether a release is right.
OPTIONAL = ("slow-proofs",)
OWN = ("build-record.json", "SHA256SUMS")
# What a check counts that tried only some of what it is of.
PART = re.compile(r"\b[1-9]\d* crates left| of those changed since ")


def said(*words: str) -> str:
    return subprocess.run(words, cwd=TOP, capture_output=True, check=True, text=True).stdout.strip()


def faults(rows: last_run.Rows) -> Iterator[str]:
    """What speaks against a release: each check that didn't pass for the sources as they are now."""
    for check in check_table.read():
        row = rows.get(check.name)
        if check.name in OPTIONAL:
            continue
        if not row:
            yield "%s wasn't run" % check.name
        elif row.result != "passed":
            yield "%s %s" % (check.name, row.result)
        elif PART.search(row.counted):
            yield "%s left something out: %s" % (check.name, row.counted)
        elif " and changes" in row.commit:
            yield "%s passed with changes that weren't committed" % check.name
        elif last_run.marked(str(TOP), row, check) != last_run.unmarked(row):
            yield "%s passed before what it checks was changed" % check.name


def made_of(name: str, path: Path) -> Dict[str, Any]:
    """A file that the release is made of, with the sources that it is of by its note."""
    places = origin.read(str(path))
    return {"name": name, "digest": {"sha256": origin.checksum(str(path))}, "annotations": {"sources": places}}


def statement(its: argparse.Namespace, checked: List[Dict[str, str]]) -> Dict[str, Any]:
    subjects = [it for it in sorted(its.dist.iterdir()) if it.name not in OWN]
    materials = [
        {"name": "repository", "digest": {"gitCommit": git.said(str(TOP), "rev-parse", "HEAD")}},
        {"name": "toolchain", "annotations": {"rt version": said("rt", "version")}},
        made_of("mvfeed, as proved and built", its.program),
        made_of("libripsawbean.a, as proved and built", its.embed / "libripsawbean.a"),
        made_of("libripsawbean.so, as linked and tested", its.embed / "libripsawbean.so"),
        made_of("ripsawbean-server, as built and tested", its.server),
    ]
    if its.arm:
        materials.append(made_of("ARM64's libripsawbean.a, as built, and tested under an emulator", its.arm))
    tools = {it: said(it, "--version").splitlines()[0] for it in ("gcc", "ld", "cargo", "rustc", "dpkg-deb", "npm")}
    return {
        "_type": "https://in-toto.io/Statement/v1",
        "subject": [{"name": it.name, "digest": {"sha256": origin.checksum(str(it))}} for it in subjects],
        "predicateType": "https://slsa.dev/provenance/v1",
        "predicate": {
            "buildDefinition": {
                "buildType": "https://ripsawbean.invalid/release/v1",
                "externalParameters": {"version": its.version, "draft": its.draft},
                "resolvedDependencies": materials,
                "internalParameters": tools,
            },
            "runDetails": {
                "builder": {"id": "https://ripsawbean.invalid/release"},
                "byproducts": [{"name": "docs/LAST-RUN.md", "annotations": {"checks": checked}}],
            },
        },
    }


def main() -> None:
    rows = last_run.read(git.said(str(TOP), "show", "HEAD:" + last_run.PAGE))
    if sys.argv[1:] == ["--check"]:
        against = list(faults(rows))
        sys.exit("docs/LAST-RUN.md has no passed check of these sources: " + "; ".join(against) if against else 0)
    parser = argparse.ArgumentParser(description=__doc__, formatter_class=argparse.RawDescriptionHelpFormatter)
    parser.add_argument("--version", required=True)
    for name in ("program", "embed", "server"):
        parser.add_argument("--" + name, required=True, type=Path)
    parser.add_argument("--arm", type=Path)
    parser.add_argument("--draft", action="store_true")
    parser.add_argument("dist", type=Path)
    its = parser.parse_args()
    checked = [{"check": name, **row._asdict()} for name, row in rows.items()]
    print(json.dumps(statement(its, checked), indent=1))


if __name__ == "__main__":
    main()
