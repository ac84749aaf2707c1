"""The page docs/LAST-RUN.md: `checks` writes it, and packaging/record.py reads it. Below the rows of the checks stand
those of tried.py. `top` is a checkout."""

import datetime
import os
from typing import Collection, Dict, List, NamedTuple

import check_table
import git
from check_table import Check

PAGE = git.PAGE_OF_ROWS
HEAD = """# The last run of the checks

For whoever asks what was checked of this repository, when, and on what machine. `tools/checks` writes this page, one
row for each check that it ran. A row that says `and changes` is of a commit with changes that weren't committed. One
that says `changed since` is of a commit after which what its check is of changed, in more than comments.

| Check | Result | Counted | Seconds | Commit | Date | Machine |
|---|---|---|---|---|---|---|
"""
# What the page says of a row where what its check is of is no longer as it was at its commit.
CHANGED = ", changed since"


class Row(NamedTuple):
    """What a check came to."""

    result: str
    counted: str
    seconds: str
    commit: str
    date: str
    machine: str


Rows = Dict[str, Row]


def read(text: str) -> Rows:
    """The rows of a page, by the names of their checks."""
    lines = [[it.strip() for it in line.strip().strip("|").split("|")] for line in text.splitlines()]
    return {name.strip("`"): Row(*cells) for name, *cells in lines if len(cells) == 6 and name.startswith("`")}


def text(top: str) -> str:
    """The text of a checkout's page, which has no rows where there is none."""
    try:
        with open(os.path.join(top, PAGE), encoding="utf-8") as it:
            return it.read()
    except FileNotFoundError:
        return HEAD


def of(top: str) -> Rows:
    """The rows of a checkout's page."""
    return read(text(top))


def unmarked(row: Row) -> Row:
    return row._replace(commit=row.commit.removesuffix(CHANGED))


def marked(top: str, row: Row, check: Check) -> Row:
    """The row, marked where what its check is of changed since its commit."""
    row = unmarked(row)
    commit = row.commit.strip("`").partition("`")[0]
    is_changed = git.is_changed(top, commit, check_table.sources(top, check))
    return row._replace(commit=row.commit + CHANGED) if is_changed else row


def put(top: str, rows: Rows, checks: Collection[Check]) -> None:
    """Puts the rows into the page, in the order of the checks, and keeps those of checks that weren't run, and what
    stands below."""
    kept, below = of(top), "".join(text(top).partition("\n## ")[1:])
    kept = {it.name: marked(top, kept[it.name], it) for it in checks if it.name in kept and it.name not in rows}
    found = {it.name: {**kept, **rows}.get(it.name) for it in checks}
    with open(os.path.join(top, PAGE), "w", encoding="utf-8") as it:
        it.write(HEAD)
        it.writelines("| `%s` | %s |\n" % (name, " | ".join(row)) for name, row in found.items() if row)
        it.write(below)


def uncommitted(top: str) -> Rows:
    """The rows that runs in a checkout wrote since its page was committed."""
    before = {name: unmarked(row) for name, row in read(git.said(top, "show", "HEAD:" + PAGE)).items()}
    return {name: row for name, row in of(top).items() if unmarked(row) != before.get(name)}


def here(top: str) -> List[str]:
    """The commit, the day and the machine, as a row has them."""
    dirty = git.said(top, "status", "--porcelain", "--", ".", ":!" + PAGE)
    with open("/proc/meminfo", encoding="ascii") as it:
        memory = round(int(it.readline().split()[1]) / 1e6)
    day = datetime.date.today()
    machine = "%d processors, %d GB" % (len(os.sched_getaffinity(0)), memory)
    return ["`%s`%s" % (git.commit(top), " and changes" if dirty else ""), day.strftime("%-d %B %Y"), machine]
