"""What a wrong body changes, which of them can be tried in one check, and what the lines of a check show of each.

Code is laid out by `rt fmt`, so a function's body is found by its indentation. The proofs of the function `f` of the
type `T` in `src/m.rt` stand in `proofs/m/T/f`; where `T` is of another file `n.rt`, in `proofs/n/T/f`. So a function
whose name no other has in the crate is known by its name.
"""

import functools
import os
import re
from dataclasses import dataclass

MOST_IN_A_BATCH = 12
HEAD = re.compile(r'( *)(?:pub(?:\([a-z ]+\))? |const |unsafe |extern "C" )*fn (\w+)')
# What the check could not read, or could not use, so that no contract was tried.
UNREAD = re.compile(r"(?:\./)?(?:src|specs)/\S+:\d+:\d+: error|.*\berror\[[\w-]+\]|.*Run the lower steps again")
# The last word of a check: of all, or of some functions alone.
ENDED = re.compile(r"logic=(?:not-)?proved|only=\d+ proved=\d+")
# What a check offers for a name that several functions have.
SEVERAL = re.compile(r"several functions are named `(\w+)`: help: write one of (.*)")
# A line that says only that a name is gone, or that a limit was met.
SHOWS_NOTHING = re.compile(
    r"has no field|is not in scope|has no `|was not admitted|is no name|operand is missing|expected the end"
    r"|cannot continue|ran out of|memory limit|step limit|`goal\.[^`]*`: module "
)


@dataclass(frozen=True)
class Edit:
    """A wrong body. One that changes a single function's body has that function, and what stands from `begin` to `end`
    of the file with it; any other has no function, and is tried singly. `is_lone` says that no other function of the
    crate has its name."""

    crate: str
    name: str
    path: str = ""
    function: str = ""
    begin: int = 0
    end: int = 0
    new: str = ""
    is_lone: bool = False


def bodies(text):
    """The functions of a formatted source: the name of each, and where its body begins and ends."""
    found, name, indent, begin, at = [], None, "", None, 0
    for line in text.splitlines(keepends=True):
        bare, at = line.rstrip("\n"), at + len(line)
        if begin is not None:
            if bare == indent + "}":
                found.append((name, begin, at - len(line)))
                name = begin = None
            continue
        head = HEAD.match(bare)
        if head:
            indent, name = head.groups()
        is_signature = head or bare.startswith((indent + ")", indent + "where"))
        if name and (bare == indent + "{" or (is_signature and bare.endswith(" {"))):
            begin = at
        elif name and bare and not is_signature and not bare.startswith(indent + " "):
            name = None
    return found


def changed(folder, edit):
    """Each file that the text of an edit changes, with its old and its new text; none where it can't be applied."""
    path, old, found = "", None, {}
    for line in edit.split("\n"):
        if line.startswith("file: "):
            path = line[len("file: ") :].strip()
        elif line.startswith("old: "):
            old = line[len("old: ") :]
        elif line.startswith("new:"):
            whole = os.path.join(folder, path)
            if not old or not os.path.isfile(whole):
                return {}
            was, now = found.get(path) or [text_of(whole)] * 2
            if now.count(old) != 1:
                return {}
            found[path] = was, now.replace(old, line[len("new:") :].removeprefix(" "))
            old = None
    return found


def text_of(path):
    with open(path, encoding="utf-8") as it:
        return it.read()


def turned(was, now):
    """Where what differs begins and ends in the old one of two texts."""
    begin = len(os.path.commonprefix([was, now]))
    return begin, len(was) - len(os.path.commonprefix([was[begin:][::-1], now[begin:][::-1]]))


def read_edit(top, crate, name):
    """A wrong body of the crate, with the function that it changes where that is one."""
    folder = os.path.join(top, "crates", crate)
    found = changed(folder, text_of(os.path.join(folder, "wrong-bodies", name + ".edit")))
    if len(found) != 1:
        return Edit(crate, name)
    (path, (was, now)), *_ = found.items()
    begin, end = turned(was, now)
    for function, first, last in bodies(was):
        if path.startswith("src/") and was != now and first <= begin and end <= last:
            is_lone = functions_of(folder).count(function) == 1
            return Edit(crate, name, path, function, begin, end, now[begin : end + len(now) - len(was)], is_lone)
    return Edit(crate, name)


@functools.lru_cache
def functions_of(folder):
    """The names of all functions of a crate."""
    found = []
    for at, _, names in os.walk(os.path.join(folder, "src")):
        for name in names:
            found += [it for it, _, _ in bodies(text_of(os.path.join(at, name)))]
    return found


def in_batches(edits):
    """The edits of a crate in batches, in each of which a function of a file stands once."""
    batches = []
    for edit in edits:
        for batch in batches:
            if len(batch) < MOST_IN_A_BATCH and all(is_apart(edit, it) for it in batch):
                batch.append(edit)
                break
        else:
            batches.append([edit])
    return batches


def is_apart(one, other):
    return (one.path, one.function) != (other.path, other.function)


def applied(text, edits):
    """The text with these edits of it, of which no two overlap. The last comes first."""
    for edit in sorted(edits, key=lambda it: -it.begin):
        text = text[: edit.begin] + edit.new + text[edit.end :]
    return text


def apply(edits, folder):
    """Writes all the edits of a batch into the crate's folder."""
    for name in {it.path for it in edits}:
        path = os.path.join(folder, name)
        text = applied(text_of(path), [it for it in edits if it.path == name])
        with open(path, "w", encoding="utf-8") as it:
            it.write(text)


def steps_of(path):
    """The steps to the module of a source of a crate."""
    return [it for it in path[len("src/") : -len(".rt")].removesuffix("lib").split("/") if it]


def check_alone(crate, places, run):
    """What `run` told of a check of some functions alone, each a name with its source: its status, and its text. Of a
    name that several functions have, those of its source are meant."""
    wanted = {name: [name] for name, _ in places}
    while True:
        words = [it for name in sorted(wanted) for whole in wanted[name] for it in ("--only", whole)]
        status, told = run(words)
        name, offered = SEVERAL.search(told).groups() if SEVERAL.search(told) else ("", "")
        heads = ["::".join([crate, *steps_of(path)]) for it, path in places if it == name]
        whole = [it for it in re.findall(r"`([^`]+)`", offered) if re.sub(r"(::[A-Z][^:]*)?::[^:]+$", "", it) in heads]
        if not whole or wanted[name] != [name]:
            return status, told
        wanted[name] = whole


def modules(edit):
    """Where the edit's function stands, as a pattern: in the folder of proofs, and in the names that a check tells."""
    steps = [re.escape(it) for it in steps_of(edit.path)]
    if edit.is_lone:
        return r"proofs(?:/[a-z][^/\s]*)*", r"%s(?:::[a-z][^:\s]*)*" % edit.crate
    return "/".join(["proofs", *steps]), "::".join([edit.crate, *steps])


def verdict(edit, lines):
    """What a check says of the edit's own function: `proved`, or why not; nothing where it doesn't name it."""
    told = re.compile(r"fn %s::(?:[A-Z][^:\s]*::)?%s: (.*)" % (modules(edit)[1], edit.function))
    found = [it[1] for it in map(told.match, lines) if it]
    return next((it for it in found if not it.startswith("proved")), "proved" if found else "")


def refusal(edit, lines):
    """The line of a check that shows that it refuses the edit's own function, or none."""
    proofs = r"(?:\./)?%s/(?:[A-Z][^/\s]*/)?\+?%s/\w+\.antt" % (modules(edit)[0], edit.function)
    shows = re.compile(r"%s:\d+:\d+: error: |note: `[^`]+` of %s must prove: " % (proofs, proofs))
    if verdict(edit, lines) in ("", "proved"):
        return ""
    return next((it for it in lines if shows.match(it) and not SHOWS_NOTHING.search(it)), "")


def is_read(status, lines):
    """Whether a check has come to the contracts and ended with a verdict."""
    return status in (0, 1) and any(map(ENDED.match, lines)) and not any(map(UNREAD.match, lines))


def refusals(edits, status, told):
    """The edits that a check refused, each with the line that shows it."""
    lines = told.splitlines()
    if status != 1 or not is_read(status, lines):
        return {}
    return {edit: line for edit in edits for line in [refusal(edit, lines)] if line}
