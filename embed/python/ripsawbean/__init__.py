"""Ripsawbean inside a Python program: an in-memory multiversion timestamp database whose committed changes leave it as feeds.

    from ripsawbean import Database

    with Database() as db:
        db.call("0 begin 10\\n")                       # a line as in a script; its event's text is returned
        db.make("put", 10, b"apple", b"3")             # the same for values of Python: bytes are spelled here
        db.make("commit", 10)
        db.make("close", 10)
        feed = db.make("openinitial", None, None, 10, seat=1).number
        for message in db.messages(feed, 100, seat=1):
            print(message)                             # Row(key=b'apple', after=b'3', updated=10), then Resolved(timestamp=10)
        db.begin(20)                                   # the same calls as by `make`, with no text: an Answer is returned
        db.read_at(10, b"apple").value                 # b"3"
        db.calls("0 abort 20\\n0 stats\\n")              # many lines at once: a list of their events' texts
        db.versions_at(20, [b"apple", b"plum"])        # [10, None], who wrote them: no call is made

It stands on ctypes and the shared library, and needs no package. `embed/build` makes the library, and docs/EMBEDDING.md says the
rest. The library is looked for where the environment variable RIPSAWBEAN_LIBRARY says, then in this folder and beside
it, then in `embed/out`, then where the system has its libraries. One of another version is refused.

Several threads may use one database: its calls take turns. During a call other threads of Python run. A signal handler uses no database
that the program uses too.
"""

from .database import Database
from .errors import (
    AlreadyOpen, AnswerTooLong, BadByte, BelowHorizon, Closed, Error, KeyLength, LineFault, LineTooLong, NoFeed, NoMemory, NoMessage,
    NoNewline, NotAfter, NotTaken, Number, OutsideSpan, Processor, Refused, ResolvedBack, RingRange, Session, Spent, UnknownCommand,
    Unwritten, ValueLength, WordCount,
)
from .events import Answer, Event, Message, Record, Resolved, Row, messages_of, spell, unspell
from .handles import MOST_ROWS, VERSION as __version__
from .looks import Held, Places, version
from .replica import Replica

__all__ = [
    "Database", "Answer", "Event", "Held", "Places", "Record", "Replica", "Row", "Resolved", "messages_of", "spell", "unspell", "version",
    "Error", "LineFault", "WordCount", "UnknownCommand", "Number", "KeyLength", "ValueLength", "Session", "NoNewline",
    "LineTooLong", "BadByte", "NoMemory", "Spent", "Unwritten", "AnswerTooLong", "RingRange", "Closed", "AlreadyOpen", "Refused",
    "NotTaken", "NoMessage", "NotAfter", "OutsideSpan", "ResolvedBack", "NoFeed", "BelowHorizon", "Processor", "MOST_ROWS",
]
