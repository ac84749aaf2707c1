"""Words, which are bytes as lines spell them; events, the answers of calls without lines, and messages."""

import base64
import struct
from typing import Iterator, List, NamedTuple, Optional, Tuple, Union

from .errors import Refused

# ---- words: bytes as lines spell them

_HEX = "0123456789ABCDEF"
_SPELLED = [chr(b) if 0x21 <= b <= 0x7E and b != 0x25 else "%" + _HEX[b >> 4] + _HEX[b & 15] for b in range(256)]


def spell(data: bytes) -> str:
    """The word of some bytes: printable bytes but % as they are, %XX for any other, `-` for no bytes, %2D for a single -."""
    if not data:
        return "-"
    if data == b"-":
        return "%2D"
    return "".join([_SPELLED[byte] for byte in data])


def unspell(word: str) -> bytes:
    """The bytes of a word. A word that is the spelling of no bytes is a ValueError: each bytes have one spelling."""
    data = bytearray()
    if word != "-":
        at = 0
        while at < len(word):
            if word[at] == "%" and at + 2 < len(word) and word[at + 1] in _HEX and word[at + 2] in _HEX:
                data.append(int(word[at + 1 : at + 3], 16))
                at += 3
            elif "!" <= word[at] <= "~" and word[at] != "%":
                data.append(ord(word[at]))
                at += 1
            else:
                raise ValueError("no bytes are spelled %r" % word)
    found = bytes(data)
    if spell(found) != word:
        raise ValueError("no bytes are spelled %r" % word)
    return found


def word_of(argument: Union[int, bytes, None]) -> str:
    if argument is None:
        return "-"
    if isinstance(argument, int) and not isinstance(argument, bool):
        return str(argument)
    if isinstance(argument, (bytes, bytearray, memoryview)):
        return spell(bytes(argument))
    raise TypeError("an argument is an int, bytes, or None for no bound, and not %r" % (argument,))


# ---- events and messages


class Row(NamedTuple):
    """A committed version: the key, its value or None where it was deleted, and the timestamp of its transaction."""

    key: bytes
    after: Optional[bytes]
    updated: int


class Resolved(NamedTuple):
    """All rows of the feed at or below this timestamp were told."""

    timestamp: int


Message = Union[Row, Resolved]

# What a refusal's answer begins with.
_REFUSALS = frozenset(
    "tsrange belowclosed tsused ended notxn notowner blocked toolate notclosed belowhorizon gaprange nofeed feedcancelled "
    "noprotection nomemory".split()
)


class Event:
    """One call that was made. `str` of it is its whole text, as it stands in a transcript."""

    __slots__ = ("text",)

    def __init__(self, text: str):
        self.text = text

    def __str__(self) -> str:
        return self.text

    def __repr__(self) -> str:
        return "Event(%r)" % self.text

    @property
    def answer(self) -> str:
        """The words behind `=>`: behind the last one with a word after it, since a key or a value may be spelled so too."""
        line = self.text.split("\n", 1)[0]
        return line[line.rindex(" => ") + 4 :]

    @property
    def is_refusal(self) -> bool:
        """Whether the call was refused. After every refusal but `toolate` the database is as it was."""
        return self.answer.split(" ", 1)[0] in _REFUSALS

    @property
    def number(self) -> int:
        """The first number of the answer: a feed's or a protection's, a timestamp, a count."""
        return int(self.answer.split(" ")[1])

    @property
    def value(self) -> Optional[bytes]:
        """The value that `get` or `readat` found, or None where there was none. A refusal raises Refused."""
        words = self._not_refused().answer.split(" ")
        return unspell(words[1]) if words[0] == "value" else None

    @property
    def rows(self) -> List[Tuple[bytes, bytes]]:
        """The rows of a scan, keys rising. A refusal raises Refused."""
        return rows_of(self._not_refused().text.split("\n")[1:-1])

    @property
    def messages(self) -> List[Message]:
        """The messages that a poll told, in their order. A refusal raises Refused."""
        return [_message_of(line) for line in self._not_refused().text.split("\n")[1:-1] if line.startswith("{")]

    def _not_refused(self) -> "Event":
        if self.is_refusal:
            raise Refused(self)
        return self


# The names of answers' kinds, as texts have them. Those from 32 on are refusals.
COMMANDS = (
    "begin get scan put del commit abort close closehard readat scanat protect release collect open openinitial openevery openinitialevery "
    "poll cancel stats".split()
)
_NAMES = dict(enumerate(
    "started none value written committed aborted closed messages rows protected released collected opened cancelled stats".split(), 1
))
_NAMES.update(enumerate(
    "belowclosed tsused tsrange blocked notxn notowner ended toolate notclosed belowhorizon noprotection nofeed feedcancelled nomemory "
    "gaprange".split(), 32,
))
_NUMBERED = frozenset((5, 7, 8, 9, 32, 35, 40, 41))


class Record(NamedTuple):
    """An event in numbers: what `Database.last` tells of it, whoever made its call."""

    position: int
    seat: int
    command: str
    at: int  # the number that the command names: a timestamp, a protection's or a feed's; of an open its cursor; else 0
    kind: int
    number: int  # what the answer counts, or names
    other: int  # a closing's aborted transactions, a collection's dropped versions, the undecided ones of `stats`

    @property
    def name(self) -> str:
        """The name of the answer, as the event's text has it."""
        return _NAMES[self.kind]

    @property
    def is_refusal(self) -> bool:
        """Whether the call was refused."""
        return self.kind >= 32


class Answer(NamedTuple):
    """What a call without a line was answered. It may be a refusal. `Database.text` shows its whole event."""

    kind: int
    number: int  # a timestamp, a count
    aborted: int  # by a closing
    data: bytes = b""  # a value, messages, or rows

    @property
    def answer(self) -> str:
        """The words of the answer, as the event's text has them."""
        name = _NAMES[self.kind]
        if self.kind == 3:
            return name + " " + spell(self.data)
        if self.kind == 7:
            return "%s %d %d" % (name, self.number, self.aborted)
        return "%s %d" % (name, self.number) if self.kind in _NUMBERED else name

    @property
    def is_refusal(self) -> bool:
        """Whether the call was refused. After every refusal but `toolate` the database is as it was."""
        return self.kind >= 32

    @property
    def value(self) -> Optional[bytes]:
        """The value that `get` or `read_at` found, or None where there was none. A refusal raises Refused."""
        return self.data if self._not_refused().kind == 3 else None

    @property
    def messages(self) -> List[Message]:
        """The messages that a poll told, in their order. A refusal raises Refused."""
        return messages_of(self.data) if self._not_refused().kind == 8 else []

    def _not_refused(self) -> "Answer":
        if self.is_refusal:
            raise Refused(self)
        return self

    @property
    def rows(self) -> List[Tuple[bytes, bytes]]:
        """The rows of a scan, keys rising. A refusal raises Refused."""
        parts = _parts_of(self.data) if self._not_refused().kind == 9 else ()
        return [(key, value) for kind, key, value in parts if kind == 1]

    @property
    def end(self) -> Optional[bytes]:
        """Where a scan ended: the high bound of its event's span, or None where that has none. A refusal raises Refused."""
        ends = [key for kind, key, _ in _parts_of(self.data) if kind == 3] if self._not_refused().kind == 9 else []
        return ends[0] if ends else None


_HEAD = struct.Struct("<BQII")


def messages_of(data: bytes) -> List[Message]:
    """The messages of bytes, as `Database.data` has them after a poll."""
    told: List[Message] = []
    at, end = 0, len(data)
    while at < end:
        kind, timestamp, key_length, value_length = _HEAD.unpack_from(data, at)
        at += 17
        if kind:
            value = at + key_length
            at = value + value_length
            told.append(Row(data[value - key_length : value], data[value:at] if kind == 1 else None, timestamp))
        else:
            told.append(Resolved(timestamp))
    return told


def _parts_of(data: bytes) -> Iterator[Tuple[int, bytes, bytes]]:
    """The kinds, the keys and the values of messages."""
    at = 0
    while at < len(data):
        kind, _, key_length, value_length = _HEAD.unpack_from(data, at)
        value = at + 17 + key_length
        yield kind, data[at + 17 : value], data[value : value + value_length]
        at = value + value_length


def rows_of(lines: List[str]) -> List[Tuple[bytes, bytes]]:
    words = [line.split(" ") for line in lines if line.startswith("row ")]
    return [(unspell(key), unspell(value)) for _, key, value in words]


def _message_of(line: str) -> Message:
    words = line.split('"')
    if words[1] == "resolved":
        return Resolved(int(words[3]))
    if words[2] == ":null,":
        return Row(base64.b64decode(words[5], validate=True), None, int(words[9]))
    return Row(base64.b64decode(words[7], validate=True), base64.b64decode(words[3], validate=True), int(words[11]))


def line_of(message: Union[Message, str, bytes]) -> bytes:
    if isinstance(message, Resolved):
        return b'{"resolved":"%d"}\n' % message.timestamp
    if isinstance(message, Row):
        after = b"null" if message.after is None else b'"' + base64.b64encode(message.after) + b'"'
        return b'{"after":%b,"key":"%b","updated":"%d"}\n' % (after, base64.b64encode(message.key), message.updated)
    return bytes_of(message)


def bytes_of(line: Union[str, bytes]) -> bytes:
    return line.encode("utf-8", "surrogatepass") if isinstance(line, str) else bytes(line)


def part_of(part: bytes) -> bytes:
    if isinstance(part, (bytes, bytearray, memoryview)):
        return bytes(part)
    raise TypeError("a key or a value is bytes, and not %r" % (part,))
