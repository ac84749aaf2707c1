"""Databases."""

import ctypes
import struct
from typing import Callable, Iterable, Iterator, List, Optional, Union

from .errors import Closed, Error, LineFault, Number, Refused, RingRange, Session, Unwritten, error_of
from .events import COMMANDS, Answer, Event, Message, Record, bytes_of, part_of, word_of
from .handles import BYTES, NONE, ROOM, SIZE, TIME, Opened, functions
from .looks import HELD, MAX_KEY, NUMBER, PLACE, STANDING, Held, Places, held_of, places_of, with_lengths

# The functions, with what each takes behind the handle.
_seat, _answer = ctypes.c_uint8, [ctypes.c_void_p]
_timed, _keyed = [_seat, TIME], [_seat, TIME, *BYTES]
_scanned = [*_timed, *BYTES, *BYTES, ctypes.c_uint8, TIME, TIME, *ROOM, *_answer]
_database = functions(
    "ripsawbean_", open=[ctypes.c_uint32], call=BYTES + ROOM, text=ROOM, state=ROOM, close=[],
    begin=_timed + _answer, get=_keyed + ROOM + _answer, put=_keyed + BYTES + _answer, delete=_keyed + _answer,
    commit=_timed + _answer, abort=_timed + _answer, close_to=_timed + _answer, read_at=_keyed + ROOM + _answer,
    poll=[*_timed, TIME, *ROOM, *_answer], bytes=ROOM, last=[ctypes.c_void_p],
    calls=[*BYTES, ctypes.c_void_p, SIZE, ctypes.c_void_p, SIZE, TIME, ctypes.c_void_p],
    scan=_scanned, scan_at=_scanned, poll_within=[*_timed, TIME, TIME, *ROOM, *_answer],
    places=[TIME, ctypes.c_void_p], versions_at=[TIME, *BYTES, *ROOM], held_by=[_seat, *ROOM],
    dump=[TIME, TIME, ctypes.c_void_p, ctypes.c_void_p, SIZE, *ROOM],
)
_ANSWER, _TAKEN, _DONE = struct.Struct("@BQQ"), struct.Struct("@NNN"), struct.Struct("@NB0N")
_RECORD = struct.Struct("@QQQQBBB0Q")
# How many bytes of a dump are shown at once. Each line of a dump finds room in it.
_PIECE = 1 << 18


class Database(Opened):
    """One database, open from the start. `ring` is 1 to 65536, and has no effect.

    A context manager closes it at the end of its block.
    """

    _free = _database.close
    _wanting = Unwritten

    def __init__(self, ring: int = 1024):
        super().__init__()
        # What C writes besides bytes: an answer, and how far lines were taken.
        self._answer = ctypes.create_string_buffer(_ANSWER.size)
        self._answer_at = ctypes.addressof(self._answer)
        self._record = ctypes.create_string_buffer(_RECORD.size)
        self._record_at = ctypes.addressof(self._record)
        self._taken = ctypes.create_string_buffer(_TAKEN.size)
        self._notes = ctypes.create_string_buffer(0)
        self.open(ring)

    def open(self, ring: int = 1024) -> None:
        """Opens it anew after `close`, empty."""
        if not 0 <= ring < 1 << 32:
            raise RingRange("the ring is not 1 to 65536")
        with self._turn:
            _database.open(self._at, ring)

    def call(self, line: Union[str, bytes]) -> Event:
        """Makes the call of a line, with its newline, as "0 put 10 apple 3\\n". It raises where no call was made, and Unwritten."""
        data = bytes_of(line)
        with self._turn:
            _database.call(self._at, data, len(data), self._out_at, self._room, self._length_at)
            # The call is not made again where its text found too little room.
            return Event(self._shown(_database.text).decode("ascii"))

    def make(self, command: str, *arguments: Union[int, bytes, None], seat: int = 0) -> Event:
        """Makes a call from values: numbers, bytes for keys and values, and None for no bound. The event may be a refusal."""
        return self.call(" ".join([str(seat), command, *map(word_of, arguments)]) + "\n")

    def begin(self, timestamp: int, seat: int = 0) -> Answer:
        """Begins a transaction. This and what follows are the calls of `make` without a text: an Answer, which may be a refusal.

        A read that is refused raises Refused, so that nobody takes it for an absent key or an empty span.
        """
        return self._timed(_database.begin, timestamp, seat)

    def get(self, timestamp: int, key: bytes, seat: int = 0) -> Answer:
        """Reads a key in a transaction: the answer's `value`, which is None where there is none."""
        return self._read(_database.get, timestamp, key, seat)

    def put(self, timestamp: int, key: bytes, value: bytes, seat: int = 0) -> Answer:
        """Writes a value in a transaction."""
        if type(key) is not bytes or type(value) is not bytes:
            key, value = part_of(key), part_of(value)
        if timestamp >> 64 or seat >> 8:
            raise _out_of_range(seat)
        with self._turn:
            _database.put(self._at, seat, timestamp, key, len(key), value, len(value), self._answer_at)
            return Answer(*_ANSWER.unpack(self._answer))

    def delete(self, timestamp: int, key: bytes, seat: int = 0) -> Answer:
        """Deletes a key in a transaction."""
        if type(key) is not bytes:
            key = part_of(key)
        if timestamp >> 64 or seat >> 8:
            raise _out_of_range(seat)
        with self._turn:
            _database.delete(self._at, seat, timestamp, key, len(key), self._answer_at)
            return Answer(*_ANSWER.unpack(self._answer))

    def commit(self, timestamp: int, seat: int = 0) -> Answer:
        """Commits a transaction: the answer's `number` is how many keys it wrote."""
        return self._timed(_database.commit, timestamp, seat)

    def abort(self, timestamp: int, seat: int = 0) -> Answer:
        """Aborts a transaction."""
        return self._timed(_database.abort, timestamp, seat)

    def close_to(self, timestamp: int, seat: int = 0) -> Answer:
        """The command `close`: the answer's `number` is the closed timestamp."""
        return self._timed(_database.close_to, timestamp, seat)

    def read_at(self, timestamp: int, key: bytes, seat: int = 0) -> Answer:
        """Reads a key at a closed timestamp: the answer's `value`."""
        return self._read(_database.read_at, timestamp, key, seat)

    def poll(self, feed: int, max: int, seat: int = 0) -> Answer:
        """Takes the next messages of a feed, at most so many: the answer's `messages`.

        They are told once. After Unwritten `messages_of(db.data())` are the same, and another poll would tell others.
        """
        if feed >> 64 or max >> 64 or seat >> 8:
            raise _out_of_range(seat)
        with self._turn:
            _database.poll(self._at, seat, feed, max, self._out_at, self._room, self._length_at, self._answer_at)
            return self._shown_answer()

    def poll_within(self, feed: int, max: int, bytes: int, seat: int = 0) -> Answer:
        """Polls as `poll` does, but messages of at most so many bytes together, or the first alone. A message has the bytes of its key and
        its value, and 17 more."""
        if feed >> 64 or max >> 64 or bytes >> 64 or seat >> 8:
            raise _out_of_range(seat)
        with self._turn:
            _database.poll_within(self._at, seat, feed, max, bytes, self._out_at, self._room, self._length_at, self._answer_at)
            return self._shown_answer()

    def scan_within(
        self, timestamp: int, low: Optional[bytes] = None, high: Optional[bytes] = None, rows: int = NONE, bytes: int = NONE, seat: int = 0
    ) -> Answer:
        """Reads the keys of a span in a transaction, as far as their rows find room: the answer's `rows`, and its `end`.

        A row has the bytes of its key and its value, and 17 more. The first is told in any case. Where `end` isn't `high`, the next scan
        goes on there.
        """
        return self._scan(_database.scan, timestamp, low, high, rows, bytes, seat)

    def scan_at_within(
        self, timestamp: int, low: Optional[bytes] = None, high: Optional[bytes] = None, rows: int = NONE, bytes: int = NONE, seat: int = 0
    ) -> Answer:
        """The same at a closed timestamp, of what was committed there."""
        return self._scan(_database.scan_at, timestamp, low, high, rows, bytes, seat)

    def _scan(
        self, scan: Callable[..., None], timestamp: int, low: Optional[bytes], high: Optional[bytes], rows: int, bytes: int, seat: int
    ) -> Answer:
        if timestamp >> 64 or rows >> 64 or bytes >> 64 or seat >> 8:
            raise _out_of_range(seat)
        if high == b"":
            low = high = b"\0"  # no key is below no bytes, as none is from a zero byte on and below it
        first, last = part_of(low or b""), part_of(high or b"")
        with self._turn:
            scan(
                self._at, seat, timestamp, first, len(first), last, len(last), high is not None, rows, bytes,
                self._out_at, self._room, self._length_at, self._answer_at,
            )
            return self._read_answer()

    def data(self) -> bytes:
        """The bytes of the last event's answer once more, a value, messages or rows, also where a line made its call. It makes no call."""
        with self._turn:
            return self._show(_database.bytes)

    def calls(self, lines: Union[str, bytes], most: int = NONE) -> List[Union[str, Error]]:
        """Makes the calls of many lines, each with its newline: a list of their events' texts, or of the errors that `call` raises.

        A faulty line makes no call, and the next one is taken. NoMemory and Spent end the list before the lines behind
        theirs, which weren't looked at, and so does Unwritten, whose call was made: `text` asks for its text. A scan or a poll
        whose answer would have more than `most` bytes of rows or messages makes no call either: AnswerTooLong. Nor does a scan of
        more than MOST_ROWS rows, unless all are let through, as they are where `most` isn't given.
        """
        if most >> 64:
            raise _out_of_range(0)
        left = bytes_of(lines)
        told: List[Union[str, Error]] = []
        with self._turn:
            self._make_notes(left.count(b"\n") + 1, len(left))
            while True:
                left = self._call_lines(left, told, most)
                if not left:
                    return told

    def _call_lines(self, lines: bytes, told: List[Union[str, Error]], most: int) -> bytes:
        """Calls lines as far as there is room for their texts: those that are left to call."""
        notes = self._notes
        status = _database.calls(
            self._at, lines, len(lines), self._out_at, self._room, notes, len(notes) // _DONE.size, most, self._taken
        )
        if status == Closed.status:
            raise error_of(status)
        count, taken, length = _TAKEN.unpack(self._taken)
        texts, at = str(memoryview(self._out)[:length], "ascii"), 0
        for length, fault in _DONE.iter_unpack(memoryview(notes)[: count * _DONE.size]):
            if not fault:
                told.append(texts[at : at + length])
                at += length
            elif fault != Unwritten.status:
                told.append(error_of(fault))
        if status == Unwritten.status:
            try:
                told.append(self._show(_database.text).decode("ascii"))
            except Unwritten as error:
                told.append(error)
                return b""
        elif status:
            told.append(error_of(status))
            return b""
        return lines[taken:]

    def _make_notes(self, count: int, length: int) -> None:
        """Room for notes of so many lines, and for texts as they mostly are: a line, its position and a short answer."""
        if count * _DONE.size > len(self._notes):
            self._notes = ctypes.create_string_buffer(2 * count * _DONE.size)
        if length + 64 * count > self._room:
            self._make_room(2 * length + 64 * count)

    def _timed(self, call: Callable[..., None], timestamp: int, seat: int) -> Answer:
        if timestamp >> 64 or seat >> 8:
            raise _out_of_range(seat)
        with self._turn:
            call(self._at, seat, timestamp, self._answer_at)
            return Answer(*_ANSWER.unpack(self._answer))

    def _read(self, call: Callable[..., None], timestamp: int, key: bytes, seat: int) -> Answer:
        if type(key) is not bytes:
            key = part_of(key)
        if timestamp >> 64 or seat >> 8:
            raise _out_of_range(seat)
        with self._turn:
            call(self._at, seat, timestamp, key, len(key), self._out_at, self._room, self._length_at, self._answer_at)
            return self._read_answer()

    def _read_answer(self) -> Answer:
        answer = self._shown_answer()
        if answer.is_refusal:
            raise Refused(answer)
        return answer

    def _shown_answer(self) -> Answer:
        """The answer with its bytes, which are asked for again where they found too little room."""
        return Answer(*_ANSWER.unpack(self._answer), self._shown(_database.bytes))

    def text(self) -> Optional[Event]:
        """The last event once more, or None where no call was made yet. It makes no call."""
        with self._turn:
            text = self._show(_database.text)
        return Event(text.decode("ascii")) if text else None

    def last(self) -> Optional[Record]:
        """The last event in numbers, whoever made its call, or None where no call was made yet. It makes no call."""
        with self._turn:
            _database.last(self._at, self._record_at)
            position, at, number, other, seat, command, kind = _RECORD.unpack(self._record)
        return Record(position, seat, COMMANDS[command - 1], at, kind, number, other) if command else None

    def state(self) -> str:
        """What an operator may ask of the database now, as lines of JSON. It makes no call."""
        with self._turn:
            return self._show(_database.state).decode("ascii")

    def places(self, feed: int = 0) -> Places:
        """How far the database, and the feed of this number, have come. Its floor is None where no such feed lives. It makes no call."""
        if feed >> 64:
            raise _out_of_range(0)
        standing = ctypes.create_string_buffer(STANDING.size)
        with self._turn:
            _database.places(self._at, feed, standing)
        return places_of(standing)

    def versions_at(self, timestamp: int, keys: Iterable[bytes]) -> List[Optional[int]]:
        """The version of each key at a timestamp: that of the transaction whose committed value it has there, else None. It makes no call.

        It raises BelowHorizon where versions may be gone, and KeyLength where a key has no byte or more than 256.
        """
        if timestamp >> 64:
            raise _out_of_range(0)
        parts = [part_of(key) for key in keys]
        spelled = with_lengths(parts)
        versions = ctypes.create_string_buffer(NUMBER.size * len(parts))
        with self._turn:
            _database.versions_at(self._at, timestamp, spelled, len(spelled), versions, len(parts), self._length_at)
        return [version or None for version, in NUMBER.iter_unpack(versions)] if parts else []

    def held_by(self, seat: int) -> List[Held]:
        """What a seat holds: its undecided transactions, its feeds, and all protections, which are of no seat. It makes no call."""
        if seat >> 8:
            raise _out_of_range(seat)
        room = 64
        with self._turn:
            while True:
                out = ctypes.create_string_buffer(HELD.size * room)
                _database.held_by(self._at, seat, out, room, self._length_at)
                if self._length.value <= room:
                    return held_of(out.raw[: HELD.size * self._length.value])
                room = self._length.value

    def dump(self, at: int = 0, through: Optional[int] = None) -> Iterator[bytes]:
        """The script that rebuilds the database, piece by piece: what `mvfeed dump` writes of its transcript. It makes no call.

        It closes at the greatest of `at`, closed and all that began. With `through` it goes so far, and has an end only where
        that is there. Calls may be made between two pieces: what is left at or below the closed timestamp stays as it was as
        long as no collection raises the horizon, which a protection of it prevents. It raises Number where `at` is no timestamp.
        """
        if at >> 63:
            raise Number("no timestamp from 0 to 9223372036854775807")
        if through is not None and through >> 64:
            raise _out_of_range(0)
        return self._dumped(at, NONE if through is None else through)

    def _dumped(self, at: int, through: int) -> Iterator[bytes]:
        place, key = ctypes.create_string_buffer(PLACE.size), ctypes.create_string_buffer(MAX_KEY)
        out, ended = ctypes.create_string_buffer(_PIECE), 0
        while not ended:
            with self._turn:
                _database.dump(self._at, at, through, place, key, MAX_KEY, out, _PIECE, self._length_at)
                length = self._length.value
            _, _, ended = PLACE.unpack(place)
            if not length:
                return
            yield ctypes.string_at(out, length)

    def messages(self, feed: int, max: int, seat: int = 0) -> Iterator[Message]:
        """The messages of a feed, up to where none is due, by polls of at most `max` each.

        A poll is made once the messages of the one before are taken. A message is told once: whoever stops midway in the
        messages of a poll has lost the others, and its consumer begins anew. A poll that is refused raises Refused.
        """
        if max < 1:
            raise ValueError("a poll of no messages tells nothing")
        return self._polled(feed, max, seat)

    def _polled(self, feed: int, max: int, seat: int) -> Iterator[Message]:
        told = max
        while told == max:
            event = self.make("poll", feed, max, seat=seat)
            if event.is_refusal:
                raise Refused(event)
            messages = event.messages
            told = len(messages)
            yield from messages


def _out_of_range(seat: int) -> LineFault:
    """What C's numbers can't hold is refused here, as the library refuses it in a line."""
    return Session("the seat is no number from 0 to 63") if seat >> 8 else Number("no number from 0 to %d" % NONE)
