"""Replicas."""

import ctypes
from typing import Iterable, List, Optional, Tuple, Union

from .errors import NoValue
from .events import Message, line_of, rows_of, spell, word_of
from .handles import BYTES, NONE, ROOM, TIME, TIME_AT, Opened, functions

_replica = functions(
    "ripsawbean_replica_", open=BYTES, begin=BYTES + BYTES, take=BYTES, ready=[*BYTES, TIME_AT], complete=[TIME_AT, TIME_AT],
    get=BYTES + ROOM, rows=ROOM, close=[],
)


class Replica(Opened):
    """The rows of one feed's span, kept by the feed's messages, which may come from another process.

    It is for a feed that was opened on the bytes `lo` to `hi`, or None for no bound, at `cursor`. An initial feed tells it the rows
    there. For another feed `rows` has them, pairs of a key and its value: what a scan at the cursor found, or what a replica had
    at its `complete_through`. After such a replica's rows pass over a `ready` and a `complete_at` of the cursor itself, since
    some of them may be of the next timestamp. A context manager closes it at the end of its block.
    """

    _free = _replica.close

    def __init__(
        self, lo: Optional[bytes], hi: Optional[bytes], cursor: int, initial: bool = False,
        rows: Optional[Iterable[Tuple[bytes, bytes]]] = None,
    ):
        super().__init__()
        command = "openinitial" if initial else "open"
        line = ("0 %s %s %s %d\n" % (command, word_of(lo), word_of(hi), cursor)).encode("ascii")
        if rows is None:
            _replica.open(self._at, line, len(line))
            return
        text = "".join("row %s %s\n" % (spell(key), spell(value)) for key, value in sorted(rows)).encode("ascii")
        _replica.begin(self._at, line, len(line), text, len(text))

    def take(self, message: Union[Message, str, bytes]) -> None:
        """Takes the next message, or the line of one. Where it raises NotTaken or NoMemory nothing changed."""
        line = line_of(message)
        with self._turn:
            _replica.take(self._at, line, len(line))

    def ready(self, message: Union[Message, str, bytes]) -> Optional[int]:
        """Asked before `take`: the timestamp at which the rows are the map as they stand, where the message shows it, or None."""
        line, at = line_of(message), TIME()
        with self._turn:
            _replica.ready(self._at, line, len(line), ctypes.byref(at))
        return _time_of(at)

    @property
    def complete_through(self) -> Optional[int]:
        """The timestamp through which all was told, or None among the first rows of an initial feed."""
        return self._complete()[0]

    @property
    def complete_at(self) -> Optional[int]:
        """The timestamp at which the rows are the map, after a resolved message, or None after a row."""
        return self._complete()[1]

    def _complete(self) -> Tuple[Optional[int], Optional[int]]:
        through, at = TIME(), TIME()
        with self._turn:
            _replica.complete(self._at, ctypes.byref(through), ctypes.byref(at))
        return _time_of(through), _time_of(at)

    def get(self, key: bytes) -> Optional[bytes]:
        """The value of a key, or None."""
        data = bytes(key)
        with self._turn:
            try:
                return self._show(_replica.get, data, len(data))
            except NoValue:
                return None

    def rows(self) -> List[Tuple[bytes, bytes]]:
        """All rows, keys rising."""
        with self._turn:
            text = self._show(_replica.rows)
        return rows_of(text.decode("ascii").split("\n"))


def _time_of(number: ctypes.c_uint64) -> Optional[int]:
    return None if number.value == NONE else number.value
