"""What a database tells without a call, as values."""

import ctypes
import struct
from typing import Iterable, List, NamedTuple, Optional, Tuple

from .handles import LIBRARY, NONE

_VERSION = LIBRARY.ripsawbean_version
_VERSION.argtypes, _VERSION.restype = [], ctypes.c_uint32

STANDING, HELD, NUMBER = struct.Struct("@QQQQQQ"), struct.Struct("@QQB0Q"), struct.Struct("@Q")
PLACE, MAX_KEY = struct.Struct("@QNB0Q"), 256
KINDS = ("", "transaction", "feed", "protection")


class Places(NamedTuple):
    """How far a database, and one of its feeds, have come. A timestamp above `reached` is free."""

    closed: int
    horizon: int
    limit: int
    oldest: Optional[int]
    reached: int
    floor: Optional[int]


class Held(NamedTuple):
    """One thing that is held: a "transaction" that is undecided at `number`, where it wrote `at` keys; a "feed" with its floor
    `at`; a "protection" of the timestamp `at`.
    """

    kind: str
    number: int
    at: int


def version() -> Tuple[int, int, int]:
    """The version of the library: the three numbers of, say, 0.1.0."""
    number = _VERSION()
    return number >> 16, number >> 8 & 255, number & 255


def places_of(standing: ctypes.Array) -> Places:
    closed, horizon, limit, oldest, reached, floor = STANDING.unpack(standing)
    return Places(closed, horizon, limit, time_of(oldest), reached, time_of(floor))


def held_of(records: bytes) -> List[Held]:
    return [Held(KINDS[kind], number, at) for number, at, kind in HELD.iter_unpack(records)]


def time_of(number: int) -> Optional[int]:
    return None if number == NONE else number


def with_lengths(keys: Iterable[bytes]) -> bytes:
    """The keys one behind another, each behind its length. Behind a key whose length doesn't fit nothing is read."""
    spelled = bytearray()
    for key in keys:
        if len(key) >> 16:
            return bytes(spelled + b"\0\0")
        spelled += len(key).to_bytes(2, "little") + key
    return bytes(spelled)
