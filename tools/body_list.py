"""The list of the wrong bodies of each crate, which `tools/wrong-bodies --list` prints."""

import glob
import os
import re
from typing import Dict, List, Tuple

FOLDERS = ("must-fail", "wrong-bodies")
HEAD = """# Wrong bodies

Each of these %d is a plausible mistake, in a function or a definition, that the prover refuses. It stands in
`crates/CRATE/wrong-bodies/NAME.edit`, and `tools/wrong-bodies` tries them. %d more stand in `must-fail`, and the gate
tries those.
"""
WHAT = re.compile(r"what: (\S.*\.)$")


def what_of(text: str) -> str:
    """What a wrong body gets wrong, as the first line of its edit says; nothing where that says none."""
    found = WHAT.match(text.partition("\n")[0])
    return found[1] if found else ""


def listed(crates: List[str], edits: Dict[str, str]) -> str:
    """The list of all edits, which are given by their paths; the crates in this order."""
    of: Dict[Tuple[str, str], List[str]] = {}
    for path in sorted(edits):
        _, crate, folder, name = path.split("/")
        of.setdefault((crate, folder), []).append(name[: -len(".edit")])
    count = {folder: sum(len(it) for (_, of_it), it in of.items() if of_it == folder) for _, folder in of}
    found = [HEAD % (count.get("wrong-bodies", 0), count.get("must-fail", 0))]
    for crate in crates:
        own, gate = of.get((crate, "wrong-bodies"), []), of.get((crate, "must-fail"), [])
        if own or gate:
            found.append("\n## %s\n" % crate)
        if own:
            found.append("\n| Name | What it gets wrong |\n|---|---|\n")
        for name in own:
            what = what_of(edits["crates/%s/wrong-bodies/%s.edit" % (crate, name)])
            found.append("| `%s` | %s |\n" % (name, what.replace("|", "\\|")))
        if gate:
            found.append("\nThe gate tries:\n\n%s" % "".join("- `%s`\n" % it for it in gate))
    return "".join(found)


def edits_of(top: str) -> Dict[str, str]:
    """All edits of the crates, the gate's and the others, by their paths."""
    found = {}
    for folder in FOLDERS:
        for whole in glob.glob(os.path.join(glob.escape(top), "crates", "*", folder, "*.edit")):
            with open(whole, encoding="utf-8") as it:
                found[os.path.relpath(whole, top)] = it.read()
    return found
