"""The processor seconds that each crate took in the last gate from nothing: a table of docs/LAST-RUN.md, which `checks`
writes. gate_plan.py and side_by_side.py reckon by it what a run will take. `top` is a checkout."""

import os
import re
from typing import Dict, Iterable, List, NamedTuple

PAGE = os.path.join("docs", "LAST-RUN.md")
TITLE = "\n## The gate's seconds, by crate\n"
NEXT = "\n## "
HEAD = """
Processor seconds of the last gate from nothing, and of these the seconds of edits (e) or tests (t). Machines compare by
the fixed set, which are the proofs of `timestamps`, `spans` and `kept` without tests and edits:

```text
"""
# What machines are compared by: the proofs of these three, which change little, without their tests and edits.
FIXED = ("timestamps", "spans", "kept")
# What gate.py says above its table.
TOLD = "gate: processor seconds by crate, and of these the seconds of edits (e) or tests (t):"
CELL = re.compile(r"(\w+) +(\d+)((?: +[et]\d+)*)")
COLUMNS = 3


class Spent(NamedTuple):
    """The seconds of a crate's proof, of the proof of its tests, and of its edits."""

    proof: float = 0.0
    tests: float = 0.0
    edits: float = 0.0


Seconds = Dict[str, Spent]


def read(lines: Iterable[str]) -> Seconds:
    """The seconds that the lines of a table have."""
    found = {}
    for name, whole, parts in (cell for line in lines for cell in CELL.findall(line)):
        of = {it[0]: float(it[1:]) for it in parts.split()}
        tests, edits = of.get("t", 0.0), of.get("e", 0.0)
        found[name] = Spent(float(whole) - tests - edits, tests, edits)
    return found


def table(seconds: Seconds) -> List[str]:
    """The lines of a table, the most seconds first, in columns."""
    rows = sorted(seconds.items(), key=lambda it: -sum(it[1]))
    cells = [cell(*it) for it in rows]
    height = -(-len(cells) // COLUMNS)
    columns = [cells[at : at + height] for at in range(0, len(cells), height)] if cells else []
    lines = [[column[at] for column in columns if at < len(column)] for at in range(height)]
    return ["   ".join("%-30s" % it for it in line).rstrip() for line in lines]


def cell(name: str, spent: Spent) -> str:
    """A crate's whole seconds, and its parts where it has any."""
    parts = ["%s%.0f" % it for it in (("e", spent.edits), ("t", spent.tests)) if round(it[1])]
    proof, tests, edits = map(round, spent)
    return " ".join(["%-17s%4d" % (name, proof + tests + edits), *(" " + it for it in parts)])


def of_fixed_set(seconds: Seconds) -> float:
    """The seconds of the proofs that machines are compared by, or 0 where one is missing."""
    proofs = [seconds[it].proof for it in FIXED if it in seconds]
    return sum(proofs) if len(proofs) == len(FIXED) and all(proofs) else 0.0


def text_of(top: str) -> str:
    path = os.path.join(top, PAGE)
    if not os.path.exists(path):
        return ""
    with open(path, encoding="utf-8") as it:
        return it.read()


def of(top: str) -> Seconds:
    """The seconds of a checkout's page."""
    return read(text_of(top).partition(TITLE)[2].partition(NEXT)[0].partition("```text")[2].splitlines())


def put(top: str, seconds: Seconds) -> None:
    """Puts the table of these seconds in the place of the one before, above the page's other tables."""
    above, _, rest = text_of(top).partition(TITLE)
    if not rest:
        above, begins, rest = above.partition(NEXT)
        rest = begins + rest
    below = "".join(rest.partition(NEXT)[1:])
    os.makedirs(os.path.dirname(os.path.join(top, PAGE)), exist_ok=True)
    with open(os.path.join(top, PAGE), "w", encoding="utf-8") as it:
        it.write("".join([above, TITLE, HEAD, *(line + "\n" for line in table(seconds)), "```\n", below]))
