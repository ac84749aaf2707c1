"""What callers give and are given, and how the server's JSON has it.

Keys and values are bytes. A str may be given for its UTF-8 bytes. Timestamps are ints, which hold all of them.
"""

from __future__ import annotations

import base64
from typing import Any, Dict, List, NamedTuple, Optional, Union
from urllib.parse import quote, unquote_to_bytes, urlencode

Text = Union[str, bytes]
Step = Dict[str, Any]
Condition = Dict[str, Any]
Arguments = Dict[str, Union[None, str, bytes, int]]


class Row(NamedTuple):
    """A key as it is at a timestamp. Value and version are None where it is absent."""

    key: bytes
    value: Optional[bytes]
    version: Optional[int]


class Page(NamedTuple):
    """Rows of one snapshot. `next` is the `lo` of the page behind it, or None; ask for that one with `at=timestamp`."""

    timestamp: int
    rows: List[Row]
    next: Optional[bytes]


class Rows(NamedTuple):
    """What a step `scan` found, and whether there is more behind its limit."""

    rows: List[Row]
    more: bool


class Done(NamedTuple):
    """A transaction that committed. Results have None for a write, a Row for `get`, Rows for `scan`. They are None
    themselves where it wrote, and its answer had more than 4096 bytes and was lost: read anew."""

    timestamp: int
    branch: str
    written: int
    results: List[Union[None, Row, Rows]]


class Place(NamedTuple):
    """All up to `timestamp` was told, of the database `identity`. A consumer's place also has its generation."""

    identity: str
    timestamp: int
    generation: int = 0


class Reset(Place):
    """Forget all rows: those of the database at this place come next."""


class Resolved(Place):
    """All changes up to here were told: a feed may go on from this place."""


class Change(NamedTuple):
    """A committed row. `value` is None where it was deleted, `before` where it was absent, or isn't asked for."""

    key: bytes
    value: Optional[bytes]
    timestamp: int
    before: Optional[bytes] = None


Message = Union[Reset, Change, Resolved]


class Batch(NamedTuple):
    """What a consumer stores in ONE transaction, on the condition that the stored place is `was`.

    Where `reset`, it empties its rows first. Changes are in the feed's order, and a key may be there more than once.
    """

    changes: List[Change]
    place: Place
    was: Optional[Place]
    reset: bool


# ---- the parts of a transaction


def put(key: Text, value: Text) -> Step:
    return {"put": to_json(key), "value": to_json(value)}


def delete(key: Text) -> Step:
    return {"del": to_json(key)}


def get(key: Text) -> Step:
    return {"get": to_json(key)}


def scan(lo: Optional[Text] = None, hi: Optional[Text] = None, limit: Optional[int] = None) -> Step:
    return {"scan": span_of(lo, hi), **({} if limit is None else {"limit": limit})}


def value_is(key: Text, value: Optional[Text]) -> Condition:
    """The key has this value, or is absent where it is None."""
    return {"key": to_json(key), "absent": True} if value is None else {"key": to_json(key), "value": to_json(value)}


def exists(key: Text) -> Condition:
    return {"key": to_json(key), "absent": False}


def version_is(key: Text, version: Optional[int]) -> Condition:
    """The key has the version that a row or a change had, or is absent where it is None."""
    return {"key": to_json(key), "version": str(version or 0)}


def unchanged(lo: Optional[Text], hi: Optional[Text], since: int) -> Condition:
    """The rows of the span are those at this timestamp."""
    return {"span": span_of(lo, hi), "unchanged": str(since)}


# ---- the server's forms


def bytes_of(data: Text) -> bytes:
    if isinstance(data, str):
        return data.encode()
    if isinstance(data, (bytes, bytearray, memoryview)):
        return bytes(data)
    raise TypeError("a key or a value is bytes or str, and not %r" % (data,))


def to_json(data: Text) -> Any:
    data = bytes_of(data)
    try:
        return data.decode()
    except UnicodeDecodeError:
        return {"base64": base64.b64encode(data).decode()}


def of_json(value: Any) -> bytes:
    return value.encode() if isinstance(value, str) else base64.b64decode(value["base64"], validate=True)


def of_base64(text: Optional[str]) -> Optional[bytes]:
    return None if text is None else base64.b64decode(text, validate=True)


def span_of(lo: Optional[Text], hi: Optional[Text]) -> List[Any]:
    return [to_json(bound) if bound else None for bound in (lo, hi)]


def row_of(one: Dict[str, Any]) -> Row:
    if one["value"] is None:
        return Row(of_json(one["key"]), None, None)
    return Row(of_json(one["key"]), of_json(one["value"]), int(one["version"]))


def result_of(one: Optional[Dict[str, Any]]) -> Union[None, Row, Rows]:
    if one is None:
        return None
    return Rows([row_of(row) for row in one["rows"]], one["more"]) if "rows" in one else row_of(one)


def path_of(path: str, **query: Union[None, str, bytes, int]) -> str:
    """A path with the arguments that aren't None."""
    given = {name: value for name, value in query.items() if value is not None}
    return path + ("?" + urlencode(given, quote_via=quote) if given else "")


def argument_in(path: str, name: str) -> bytes:
    """An argument of a path that the server has told, or no bytes."""
    pairs = (part.partition("=") for part in path.partition("?")[2].split("&"))
    return next((unquote_to_bytes(value) for one, _, value in pairs if one == name), b"")


def bounds_of(lo: Optional[Text], hi: Optional[Text]) -> Arguments:
    """The arguments of a span. An empty bound is none."""
    return {name: bytes_of(bound) if bound else None for name, bound in (("lo", lo), ("hi", hi))}
