"""The crates whose wrong bodies were all tried: the second table of docs/LAST-RUN.md, and which of its rows still hold.

A wrong body is refused by the sources, definitions and proofs of its crate, and by what the crates below say: their
types, clauses and definitions. So a crate's row holds until one of these changes, or Rattle's logic. Bodies and proofs
below may change, and comments anywhere. A few definitions stand in proofs, as `RisingKeys` of `spans`: a file of proofs
that a source or a file of specs names counts as specs do.
"""

import datetime
import hashlib
import os
import re
from typing import Dict, Iterable, List, NamedTuple, Set

import git
import last_run
import side_by_side
from body_edits import bodies, text_of

TITLE = "\n## Wrong bodies, by crate\n"
HEAD = (
    TITLE
    + """
`tools/wrong-bodies` writes a row for each crate whose wrong bodies it tried all. The row holds as long as its sum is
that of what its trial rests on: Rattle's logic; sources, definitions, proofs and wrong bodies of the crate; types,
clauses and definitions of those below it. Comments don't count. `tools/wrong-bodies --stale` tries the crates whose row
doesn't hold, or of which a wrong body wasn't refused.

| Crate | Tried | Refused | Sum | Commit | Date |
|---|---|---|---|---|---|
"""
)
FOLDER = "wrong-bodies"
# A file of proofs of a crate that a file names.
NAMED = re.compile(r"\bRattle\.(\w+)\.proofs\.(\w+(?:\.\w+)*)")
DIGITS = 16


class Row(NamedTuple):
    """What came of a crate: how many wrong bodies were tried and refused, over sources of which sum, where and when."""

    tried: str
    refused: str
    sum: str
    commit: str
    date: str


Rows = Dict[str, Row]


def uncommented(path: str, text: str) -> str:
    """The lines of a source that are more than a comment."""
    mark = "//" if path.endswith(".rt") else "--"
    return "\n".join(it for it in text.splitlines() if it.strip() and not it.lstrip().startswith(mark))


def bodiless(text: str) -> str:
    """A source without what stands in its functions. A constant function's body is a value that others may compute."""
    constant, kept, at = set(re.findall(r"\bconst (?:unsafe )?fn (\w+)", text)), [], 0
    for name, begin, end in bodies(text):
        if name not in constant:
            kept.append(text[at:begin])
            at = end
    return "".join([*kept, text[at:]])


class Sources:
    """What the trials of a checkout's crates rest on, beside Rattle's logic."""

    def __init__(self, top: str, logic: str):
        self.top, self.logic = top, logic
        self.deps = side_by_side.listed(text_of(os.path.join(top, "crates.txt")))
        self.of_crate = {it: side_by_side.sources(os.path.join(top, "crates", it)) for it in self.deps}
        self.named, self.said, self.proofs = self.named_proofs(), {}, {}

    def is_proof(self, path: str) -> bool:
        return os.path.relpath(path, self.top).split(os.sep)[2] == "proofs"

    def named_proofs(self) -> Set[str]:
        """The files of proofs that sources or specs name, and those that these name in turn."""
        found: Set[str] = set()
        waiting = [it for paths in self.of_crate.values() for it in paths if not self.is_proof(it)]
        while waiting:
            for crate, module in NAMED.findall(text_of(waiting.pop())):
                path = os.path.join(self.top, "crates", crate, "proofs", *module.split(".")) + ".antt"
                if path not in found and os.path.isfile(path):
                    found.add(path)
                    waiting.append(path)
        return found

    def sum_of(self, paths: Iterable[str], is_whole: bool) -> bytes:
        """The sum of these files without comments, and without bodies where they don't count whole."""
        found = hashlib.sha256()
        for path in paths:
            text = text_of(path)
            text = text if is_whole or not path.endswith(".rt") else bodiless(text)
            found.update(("%s %s\n" % (os.path.relpath(path, self.top), uncommented(path, text))).encode())
        return found.digest()

    def said_by(self, crate: str) -> bytes:
        """The sum of what a crate says to those above it."""
        if crate not in self.said:
            paths = [it for it in self.of_crate[crate] if it in self.named or not self.is_proof(it)]
            self.said[crate] = self.sum_of(paths, is_whole=False)
        return self.said[crate]

    def of_proof(self, crate: str) -> bytes:
        """The sum of all by which a crate's wrong bodies are refused."""
        if crate not in self.proofs:
            found = hashlib.sha256(self.logic.encode())
            for it in [*side_by_side.below(self.deps, crate), crate]:
                found.update(("%s: %s\n" % (it, self.deps[it])).encode())
                found.update(self.said_by(it) if it != crate else self.sum_of(self.of_crate[it], is_whole=True))
            self.proofs[crate] = found.digest()
        return self.proofs[crate]

    def of_trial(self, crate: str) -> str:
        """The sum of all that a crate's row rests on, as the page has it."""
        found = hashlib.sha256(self.of_proof(crate))
        for name in edits_of(self.top, crate):
            found.update(("%s %s\n" % (name, text_of_edit(self.top, crate, name))).encode())
        return "`%s`" % found.hexdigest()[:DIGITS]

    def holds(self, crate: str, row: Row) -> bool:
        """Whether a row says of these sources that each wrong body of the crate is refused."""
        return row.refused == row.tried and row.sum == self.of_trial(crate)


def edits_of(top: str, crate: str) -> List[str]:
    """The names of the wrong bodies of a crate."""
    folder = os.path.join(top, "crates", crate, FOLDER)
    found = sorted(os.listdir(folder)) if os.path.isdir(folder) else []
    return [it.removesuffix(".edit") for it in found if it.endswith(".edit")]


def text_of_edit(top: str, crate: str, name: str) -> str:
    """What a wrong body turns, without the sentence that says so."""
    lines = text_of(os.path.join(top, "crates", crate, FOLDER, name + ".edit")).splitlines(keepends=True)
    return "".join(it for it in lines if not it.startswith("what: "))


def read(text: str) -> Rows:
    """The rows of a page, by their crates."""
    lines = [line.strip("|").split("|") for line in text.partition(TITLE)[2].splitlines() if line.startswith("| `")]
    rows = {name.strip(" `"): [it.strip() for it in cells] for name, *cells in lines}
    return {name: Row(*cells) for name, cells in rows.items() if len(cells) == len(Row._fields)}


def of(top: str) -> Rows:
    """The rows of a checkout's page."""
    return read(last_run.text(top))


def row(sources: Sources, crate: str, tried: int, refused: int, commit: str) -> Row:
    """The row of a crate that was tried today, over these sources of a commit."""
    day = datetime.date.today().strftime("%-d %B %Y")
    return Row(str(tried), str(refused), sources.of_trial(crate), "`%s`" % commit, day)


def put(top: str, rows: Rows) -> None:
    """Puts the rows into the page, in the order of the crates, and keeps those of other crates."""
    if not rows:
        return
    rows = {**of(top), **rows}
    crates = [it for it in side_by_side.listed(text_of(os.path.join(top, "crates.txt"))) if edits_of(top, it)]
    lines = ["| `%s` | %s |\n" % (it, " | ".join(rows[it])) for it in crates if it in rows]
    above = last_run.text(top).partition(TITLE)[0]
    with open(os.path.join(top, last_run.PAGE), "w", encoding="utf-8") as page:
        page.write(above + HEAD + "".join(lines))


def uncommitted(top: str) -> Rows:
    """The rows that runs in a checkout wrote since its page was committed."""
    before = read(git.asked(top, "show", "HEAD:" + last_run.PAGE) or "")
    return {name: it for name, it in of(top).items() if it != before.get(name)}
