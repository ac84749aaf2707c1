"""The records: cases of what a program calls, what its client asks for that, and what the server answers.

README.md says what the lines of `recorded/` have. Here they are read, and requests are compared with them.
"""

from __future__ import annotations

import json
import os
from typing import Any, Dict, Iterable, Iterator, List, NamedTuple, Optional, Tuple
from urllib.parse import unquote_to_bytes

HERE = os.path.dirname(os.path.abspath(__file__))
FOLDER = os.path.join(HERE, "recorded")
# Headers that a request has exactly where its record has them.
NAMED = ("authorization", "idempotency-key", "ripsawbean-identity")


class Case(NamedTuple):
    name: str
    options: Dict[str, Any]
    is_real: bool
    lines: List[Dict[str, Any]]

    def asked(self) -> List[Dict[str, Any]]:
        return [line for line in self.lines if "ask" in line]


def load(words: str = "", folder: str = FOLDER) -> List[Case]:
    """The cases with these words in their name, file by file."""
    cases: List[Case] = []
    for name in sorted(os.listdir(folder)):
        with open(os.path.join(folder, name), encoding="utf-8") as file:
            cases += cases_of(map(json.loads, file))
    return [case for case in cases if words in case.name]


def cases_of(lines: Iterable[Dict[str, Any]]) -> Iterator[Case]:
    case: Optional[Case] = None
    for line in lines:
        if "case" in line:
            if case:
                yield case
            case = Case(line["case"], line.get("options", {}), line.get("server", True), [])
        else:
            assert case, "a file begins with a case"
            case.lines.append(line)
    if case:
        yield case


def path_and_query(target: str) -> Tuple[bytes, List[Tuple[str, bytes]]]:
    """The bytes of a path, and its arguments in the order of their names. A plus is a plus."""
    path, _, query = target.partition("?")
    pairs = [part.partition("=") for part in query.split("&") if part]
    return unquote_to_bytes(path), sorted((name, unquote_to_bytes(value)) for name, _, value in pairs)


class Keys:
    """The names that records give to Idempotency-Keys: one name, one key."""

    def __init__(self) -> None:
        self.key_of: Dict[str, str] = {}

    def differs(self, name: str, key: Optional[str]) -> bool:
        if key is None or not 1 <= len(key) <= 64 or not key.isprintable():
            return True
        if name not in self.key_of and key not in self.key_of.values():
            self.key_of[name] = key
        return self.key_of.get(name) != key


def different(record: Dict[str, Any], target: str, headers: Dict[str, str], body: bytes, keys: Keys) -> Iterator[str]:
    """In what a request isn't the recorded one. Headers have small letters."""
    method, _, wanted = record["ask"].partition(" ")
    if (target.split(" ", 1)[0], *path_and_query(target.split(" ", 1)[1])) != (method, *path_and_query(wanted)):
        yield "asks %s, and not %s" % (target, record["ask"])
    named = {name.lower(): value for name, value in record.get("headers", {}).items()}
    for name in NAMED:
        value = headers.get(name)
        if name == "idempotency-key" and name in named:
            if keys.differs(named[name], value):
                yield "has the key %s, which isn't that of %s: %s" % (value, named[name], keys.key_of)
        elif value != named.get(name):
            yield "has %s: %s, and not %s" % (name, value, named.get(name))
    if "body" in record and unordered(body_of(body)) != unordered(record["body"]):
        yield "has the body %s, and not %s" % (body.decode(errors="replace"), json.dumps(record["body"]))
    elif "body" not in record and body:
        yield "has the body %r" % body[:200]


def body_of(body: bytes) -> Any:
    try:
        return json.loads(body.decode())
    except ValueError:
        return body


def unordered(body: Any) -> Any:
    """Conditions may come in any order, and an empty list of them may be left out."""
    if not isinstance(body, dict):
        return body
    conditions = sorted(json.dumps(one, sort_keys=True) for one in body.get("if", ()))
    return {**{name: part for name, part in body.items() if part or name != "if"}, "if": conditions}
