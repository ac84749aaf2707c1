"""What can go wrong: all that the package raises on the database's part."""

from typing import TYPE_CHECKING, Optional, Union

if TYPE_CHECKING:
    from .events import Answer, Event


class Error(Exception):
    """All that this module raises on the database's part. `status` is the library's number, where it gave one."""

    status: Optional[int] = None


class LineFault(Error, ValueError):
    """The line is faulty. No call was made."""


class WordCount(LineFault):
    """An empty line or word, or the wrong number of words."""

    status = 1


class UnknownCommand(LineFault):
    """No command has this name."""

    status = 2


class Number(LineFault):
    """No number from 0 to 18446744073709551615 stands where one belongs."""

    status = 3


class KeyLength(LineFault):
    """A key of no bytes or above 256, or a bound above 257."""

    status = 4


class ValueLength(LineFault):
    """A value above 65536 bytes."""

    status = 5


class Session(LineFault):
    """The seat is no number from 0 to 63."""

    status = 6


class NoNewline(LineFault):
    """The line doesn't end in a newline."""

    status = 7


class LineTooLong(LineFault):
    """More than 200000 bytes stand before the newline."""

    status = 8


class BadByte(LineFault):
    """A byte outside printable ASCII, or a word that is the spelling of no bytes."""

    status = 9


class NoMemory(Error, MemoryError):
    """There was no memory for the line, or for a database to open. No call was made, and it may be made again."""

    status = 12


class Spent(Error):
    """No position is left. No call was made."""

    status = 13


class Unwritten(Error, MemoryError):
    """The call was made, but there was no memory for its text or its bytes. `Database.text` and `Database.data` ask for them again."""

    status = 14


class RingRange(Error, ValueError):
    """The ring is not 1 to 65536."""

    status = 15


class Closed(Error):
    """The database, or the replica, is closed."""

    status = 16


class AlreadyOpen(Error):
    """The database is open already."""

    status = 17


class NotTaken(Error, ValueError):
    """A replica doesn't take the message, and is as it was."""


class NoMessage(NotTaken):
    """The line is no message's, or what a replica is to begin with are no rows."""

    status = 18


class NotAfter(NotTaken):
    """A row at or before what was taken: below a resolved timestamp, or not after the row before it."""

    status = 19


class OutsideSpan(NotTaken):
    """A row whose key lies outside the span."""

    status = 20


class ResolvedBack(NotTaken):
    """A resolved timestamp at or below the last one, or below the last row."""

    status = 21


class NoFeed(Error, ValueError):
    """A replica's cursor is above the greatest timestamp, or an initial one has rows to begin with."""

    status = 22


class NoValue(Error):
    """The key has no value."""

    status = 23


class BelowHorizon(Error, ValueError):
    """The timestamp is below the horizon, so versions may be gone."""

    status = 24


class AnswerTooLong(Error):
    """The answer would have more bytes or rows than `Database.calls` lets through. No call was made."""

    status = 25


class Processor(Error):
    """The processor lacks what the library's code needs, which is x86-64-v2."""

    status = 26


class Refused(Error):
    """The call was made, and its answer is a refusal. `answer` has its words, and `event` what the call returned."""

    def __init__(self, event: Union["Event", "Answer"]):
        super().__init__(event.answer)
        self.event = event
        self.answer = event.answer


ERRORS = {
    kind.status: kind
    for kind in (
        WordCount, UnknownCommand, Number, KeyLength, ValueLength, Session, NoNewline, LineTooLong, BadByte, NoMemory, Spent,
        Unwritten, RingRange, Closed, AlreadyOpen, NoMessage, NotAfter, OutsideSpan, ResolvedBack, NoFeed, NoValue,
        BelowHorizon, AnswerTooLong, Processor,
    )
}


def error_of(status: int) -> Error:
    """The error of a status, with the first line of its class's text as its words."""
    kind = ERRORS.get(status, Error)
    words = (kind.__doc__ or "").split("\n")[0] if status in ERRORS else ""
    return kind(words or "the library returned %d" % status)
