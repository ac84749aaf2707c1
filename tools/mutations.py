"""The mechanical wrong bodies of a source, as `mutate` beside this tries them: each turns one thing in one function's
body, outside clauses, comments and texts.

`rt plant` tries bodies that give up, and bodies that call the real function with an argument, its result or a field
changed. These here are the others: they change a step inside the body.
"""

import os
import re
from dataclasses import dataclass
from typing import Dict, Iterator, List, Tuple

from body_edits import Edit, bodies, functions_of, text_of

# What is turned, each with what takes its place. Code is laid out by `rt fmt`, so a comparison stands between spaces.
TURNED = [
    (" < ", " <= "),
    (" <= ", " < "),
    (" > ", " >= "),
    (" >= ", " > "),
    (" == ", " != "),
    (" != ", " == "),
    (" + ", " - "),
    (" - ", " + "),
    (" && ", " || "),
    (" || ", " && "),
    ("..=", ".."),
]
# Words that are turned into one another.
PAIRS = [
    ("min", "max"),
    ("first", "last"),
    ("pop_first", "pop_last"),
    ("first_key_value", "last_key_value"),
    ("saturating_add", "saturating_sub"),
    ("is_some", "is_none"),
    ("is_ok", "is_err"),
    ("true", "false"),
    ("Included", "Excluded"),
]
WORDS = {one: other for pair in PAIRS for one, other in (pair, pair[::-1])}
# What no mutation reads: a comment, a text, a character, an attribute, a clause of a closure.
BLANK = re.compile(
    r'//[^\n]*|b?"(?:\\.|[^"\\])*"|b?\'(?:\\.[^\']*|[^\'\\])\'|#\[[^\n]*|^ *(?:requires|ensures)\b[^\n]*', re.M
)
NUMBER = re.compile(r"(?<![\w.])\d+(?!\w|\.\d)")
CONDITION = re.compile(r"\bif (?!let\b)([^\n]*) \{\n")
# An expression that a function or an arm gives, and no pattern.
GIVEN = re.compile(r"(?:^ *|=> |return )(Some\()", re.M)
STATEMENT = re.compile(
    r"(?:\A|(?<=[;{}])\n)(?: *\n)* *(?!(?:let|return|break|continue|use|for|while|match|if)\b)[^\s}]"
)
PLAIN = re.compile(r"^    (?:pub(?:\(crate\))? )?(\w+): (u8|u16|u32|u64|usize|bool|Option<u64>),$", re.M)
STRUCT = re.compile(r"^(?:pub(?:\(crate\))? )?struct (\w+)[^{;\n]* \{\n(.*?)^\}", re.M | re.S)


@dataclass(frozen=True)
class Mutation(Edit):
    """A wrong body that says what it turns, and in which line."""

    what: str = ""
    line: int = 0


def closed_at(text: str, at: int) -> int:
    """Where the bracket that opens at this place is closed."""
    depth = 0
    for at in range(at, len(text)):
        depth += (text[at] in "([{") - (text[at] in ")]}")
        if depth == 0:
            return at
    return len(text)


def blanked(text: str) -> str:
    """The text with spaces in place of what no mutation reads."""
    return BLANK.sub(lambda it: re.sub(r"[^\n]", " ", it[0]), text)


# Where a text begins and ends, and what takes its place.
Turn = Tuple[int, int, str]


def turned(body: str) -> Iterator[Turn]:
    """Comparisons, sums and words that are turned, and numbers that are moved by one."""
    for old, new in TURNED:
        yield from ((it.start(), it.end(), new) for it in re.finditer(re.escape(old), body))
    for it in re.finditer(r"\b(?:%s)\b" % "|".join(WORDS), body):
        yield it.start(), it.end(), WORDS[it[0]]
    for it in NUMBER.finditer(body):
        yield it.start(), it.end(), str(int(it[0]) + 1)


def negated(body: str) -> Iterator[Turn]:
    """Conditions, each negated. One that is a single `==` or `!=` is left out, because turning that does it."""
    for it in CONDITION.finditer(body):
        if not re.fullmatch(r"[^&|]* [!=]= [^&|]*", it[1]):
            yield it.start(1), it.end(1), "!(%s)" % it[1]


def dropped(body: str) -> Iterator[Turn]:
    """Statements, each left out."""
    for it in STATEMENT.finditer(body):
        begin = end = it.end() - 1
        while end < len(body) and body[end] not in ";}":
            end = closed_at(body, end) + 1 if body[end] in "([{" else end + 1
        if body[end : end + 1] == ";":
            yield begin, end + 1, ""


def emptied(body: str) -> Iterator[Turn]:
    """What is given as `Some`, given as `None`."""
    for it in GIVEN.finditer(body):
        end = closed_at(body, it.end(1) - 1) + 1
        if not re.match(r"\s*(?:=>|if\b|\||=)", body[end:]):
            yield it.start(1), end, "None"


def swapped(body: str, fields: Dict[str, str]) -> Iterator[Turn]:
    """Fields of `self`, each in place of another of its plain type."""
    for it in re.finditer(r"\bself\.(\w+)\b(?!\()", body):
        if it[1] in fields:
            yield it.start(1), it.end(1), fields[it[1]]


def alike(text: str) -> Dict[str, str]:
    """For each field of a plain type the next one of that type in its struct, where there is one."""
    found: Dict[str, str] = {}
    for struct in STRUCT.finditer(text):
        of: Dict[str, List[str]] = {}
        for name, kind in PLAIN.findall(struct[2]):
            of.setdefault(kind, []).append(name)
        for names in of.values():
            found.update({one: other for one, other in zip(names, [*names[1:], names[0]]) if one != other})
    return found


def mutations(folder: str, crate: str, path: str) -> List[Mutation]:
    """The mechanical wrong bodies of a file of a crate, in the order of their places."""
    text = text_of(os.path.join(folder, path))
    plain, fields, found = blanked(text), alike(text), {}
    every = functions_of(folder)
    for function, first, last in bodies(text):
        body = plain[first:last]
        for turn in (*turned(body), *negated(body), *dropped(body), *emptied(body), *swapped(body, fields)):
            begin, end = first + turn[0], first + turn[1]
            # what was blanked stands there as it was
            new = turn[2].replace(plain[begin:end], text[begin:end]) if turn[2] else ""
            line, is_lone = text.count("\n", 0, begin) + 1, every.count(function) == 1
            what = said(text[begin:end], new)
            found[begin, end, new] = Mutation(crate, "", path, function, begin, end, new, is_lone, what, line)
    return [found[key] for key in sorted(found)]


def said(old: str, new: str) -> str:
    """What a mutation turns, in one line."""
    was, now = (" ".join(it.split()) for it in (old, new))
    return "`%s` in place of `%s`" % (now, was) if now else "`%s` dropped" % was
