"""What is sent, what an answer means, and what is done where none comes: the one core of both clients.

A call is a generator. It yields what it wants to be done, and is sent what came of it; where a connection failed, `Lost`
is thrown into it. So it neither waits nor knows whether threads or asyncio run it: `client.py` and `aio.py` do that.

1. A request is for one database: the first answer pins the identity, which every later request names.
2. A write has a key, so the server makes it once however often it is sent.
3. Whatever the server refuses is raised.
4. Where there are several addresses no write is sent before the identity is known: so no other database takes it.
"""

from __future__ import annotations

import json
import random
import secrets
import time
from typing import Any, Callable, Dict, Generator, Generic, List, NamedTuple, Optional, Tuple, TypeVar, Union
from urllib.parse import quote

from . import values
from .addresses import ELSEWHERE, Address, Addresses
from .errors import Busy, ConditionFailed, Error, Gone, Lost, OtherDatabase, OutcomeUnknown, Unreachable, refused
from .values import Condition, Done, Page, Place, Row, Step, Text, bounds_of, bytes_of, path_of

T = TypeVar("T")
SHORT, LONG = 0.002, 0.5  # seconds between two tries, drawn below
AGAIN = frozenset((408, 502, 503, 504))  # nothing was changed, or a proxy lost the answer
LOST_BY_PROXY = frozenset((502, 504))
PAGE = 1000

# A write was sent to a server that has another database now.
LEFT_BEHIND = "another database answers now, and the write may have committed in the one before"


class Send(NamedTuple):
    """A request. It comes to an Answer, within so many seconds, and without a byte none for longer than its patience."""

    address: Address
    method: str
    path: str
    body: Optional[bytes]
    headers: Dict[str, str]
    seconds: float
    patience: float


class Follow(NamedTuple):
    """A stream is opened in place of the one before. It comes to an Answer, without its body where that is a stream.

    The head comes within its patience, and each line within so many seconds of silence.
    """

    address: Address
    path: str
    headers: Dict[str, str]
    patience: float
    silence: float


class Read(NamedTuple):
    """The next line of the stream, or no bytes at its end."""


class Pause(NamedTuple):
    seconds: float


class Run(NamedTuple):
    """A function of the caller's is called."""

    function: Callable[..., Any]
    arguments: Tuple[Any, ...]


class Tell(NamedTuple):
    """A message for whoever goes over a feed."""

    message: Any


class Answer(NamedTuple):
    status: int
    headers: Any  # by names without case
    body: bytes

    def header(self, name: str) -> str:
        value = self.headers.get(name)
        if value is None:
            raise self.nonsense("has no header %s" % name)
        return str(value)

    def number(self, name: str) -> int:
        value = self.header(name).strip('"')
        if not value.isdigit():
            raise self.nonsense("has %r as its %s" % (value, name))
        return int(value)

    def json(self) -> Any:
        try:
            return json.loads(self.body.decode())
        except ValueError:
            raise self.nonsense("is no JSON") from None

    def nonsense(self, why: str) -> Error:
        return Error(self.status, {"error": "answer", "why": "this is no answer of the server's: it " + why})


Effect = Union[Send, Follow, Read, Pause, Run, Tell]
Steps = Generator[Effect, Any, T]


class Running(Generic[T]):
    """Steps that are under way: `next` gives what they want to be done, or None at their end, where `value` has what they return."""

    value: T

    def __init__(self, steps: Steps[T]):
        self.steps = steps

    def next(self, reply: Any = None, why: Optional[Exception] = None) -> Optional[Effect]:
        try:
            return self.steps.throw(why) if why else self.steps.send(reply)
        except StopIteration as end:
            self.value = end.value
            return None


class Pauses:
    """Drawn pauses between tries, which grow, until the time is over."""

    def __init__(self, seconds: float = float("inf")):
        self.until, self.longest = time.monotonic() + seconds, SHORT

    def left(self) -> float:
        return self.until - time.monotonic()

    def next(self, least: float = 0.0) -> Optional[Pause]:
        seconds = max(least, random.uniform(0, self.longest))
        self.longest = min(2 * self.longest, LONG)
        return Pause(seconds) if seconds < self.left() else None


class Core:
    """What all clients have."""

    def __init__(self, url: str, token: Optional[str], timeout: float, identity: Optional[str]):
        self.addresses = Addresses(url)
        self.timeout, self.identity = timeout, identity
        self._token = {"Authorization": "Bearer " + token} if token else {}

    def _headers(self, identity: Optional[str]) -> Dict[str, str]:
        return {**self._token, **({"Ripsawbean-Identity": identity} if identity else {})}

    def _pin(self, answer: Answer) -> None:
        self.identity = self.identity or answer.headers.get("Ripsawbean-Identity")

    def _call(self, method: str, path: str, body: Optional[bytes] = None, **headers: str) -> Steps[Answer]:
        """An answer, asked for again while it is lost or the server is busy, until the time is over."""
        pauses = Pauses(self.timeout)
        if method != "GET" and not self.identity and self.addresses.are_several:
            yield from self._call_until(pauses, "GET", "/healthz", None)
        return (yield from self._call_until(pauses, method, path, body, **headers))

    def _call_until(self, pauses: Pauses, method: str, path: str, body: Optional[bytes], **headers: str) -> Steps[Answer]:
        was_sent = False
        while True:
            least, last, address = 0.0, None, self.addresses.now
            try:
                answer = yield from self._once(method, path, body, max(pauses.left(), SHORT), **headers)
                if answer.status not in AGAIN:
                    self._pin(answer)
                    return answer
                last = answer
                if self.addresses.now is address:
                    least = seconds_in(answer.headers.get("Retry-After"))
            except OtherDatabase as why:
                if was_sent and method != "GET":
                    raise OutcomeUnknown(why.status, {"error": why.error, "why": LEFT_BEHIND}) from why
                raise
            except Lost as why:
                lost, last, lost_at = why, None, address
                is_down = was_sent and not why.was_sent
                was_sent = was_sent or why.was_sent
                # The server has ended. The next one may have another database, unless the write names its own.
                if is_down and method != "GET" and not self.identity:
                    break
            pause = pauses.next(least)
            if pause is None:
                break
            yield pause
        was_written = was_sent and method != "GET"
        if last and not was_written:
            raise refused(last.status, last.body)
        kind = OutcomeUnknown if was_written else Unreachable
        raise kind(0, {"error": "unreachable", "why": "%s: %s" % (lost_at.host, lost)}) from lost

    def _once(self, method: str, path: str, body: Optional[bytes], seconds: float, **headers: str) -> Steps[Answer]:
        """One try. The answer may have a status of AGAIN, and what else is refused is raised."""
        address, headers = self.addresses.now, {**self._headers(self.identity), **headers}
        patience = self.addresses.patience(seconds)
        try:
            answer: Answer = yield Send(address, method, address.front + path, body, headers, seconds, patience)
            if answer.status in LOST_BY_PROXY:
                raise Lost("the proxy answers %d" % answer.status)
        except Lost:
            self.addresses.leave(address)
            raise
        if answer.status == 200:
            return answer
        error = refused(answer.status, answer.body)
        if answer.status == 503 and error.error in ELSEWHERE:
            self.addresses.leave(address)
        if answer.status in AGAIN or answer.status == 404 and error.error == "none":
            return answer
        raise error

    # ---- transactions

    def _txn(self, then: List[Step], if_: List[Condition], else_: Optional[List[Step]]) -> Steps[Done]:
        asked = {**({"if": if_} if if_ else {}), "then": then, **({} if else_ is None else {"else": else_})}
        body = json.dumps(asked).encode()
        key = {"Idempotency-Key": secrets.token_hex(16), "Content-Type": "application/json"}
        told = (yield from self._call("POST", "/transact", body, **key)).json()
        # A long answer that was lost is told again without them.
        results = told["results"] and [values.result_of(one) for one in told["results"]]
        return Done(int(told["timestamp"]), told["branch"], told["written"], results)

    def _write(self, step: Step, condition: Optional[Condition]) -> Steps[int]:
        return (yield from self._txn([step], [condition] if condition else [], None)).timestamp

    def _transact(self, begun: Callable[[], "TransactionCore"], work: Callable[[Any], Any]) -> Steps[Any]:
        """Runs the work, anew until what it has read is unchanged at its commit."""
        pauses = Pauses(self.timeout)
        while True:
            transaction = begun()
            try:
                told = yield Run(work, (transaction,))
            except Gone as why:  # its snapshot is collected
                last: Error = why
            else:
                try:
                    yield from transaction.commit()
                    return told
                except (ConditionFailed, Gone) as why:
                    last = why
            pause = pauses.next()
            if pause is None:
                raise last
            yield pause

    # ---- reads

    def _read(self, key: Text, at: Optional[int]) -> Steps[Tuple[int, Row]]:
        """A row, and the timestamp at which it was read."""
        key = bytes_of(key)
        if key in (b".", b".."):  # no URL can have these two in its path
            return (yield from self._read_dots(key, at))
        answer = yield from self._call("GET", path_of("/key/" + quote(key, safe=""), at=at))
        if answer.status == 404:
            return int(answer.json()["timestamp"]), Row(key, None, None)
        return answer.number("Ripsawbean-Timestamp"), Row(key, answer.body, answer.number("ETag"))

    def _read_dots(self, key: bytes, at: Optional[int]) -> Steps[Tuple[int, Row]]:
        if at is None:
            done = yield from self._txn([values.get(key)], [], None)
            row = done.results[0]
            assert isinstance(row, Row)
            return done.timestamp, row
        page = yield from self._page(key, key + b"\0", at, 1, None)
        return at, page.rows[0] if page.rows else Row(key, None, None)

    def _page(self, lo: Optional[Text], hi: Optional[Text], at: Optional[int], limit: int, hold: Optional[int]) -> Steps[Page]:
        path = path_of("/rows", **bounds_of(lo, hi), at=at, limit=limit, hold=hold)
        return page_of((yield from self._call("GET", path)))

    def _page_once(self, lo: Optional[Text], hi: Optional[Text], at: Place, limit: int, hold: int) -> Steps[Page]:
        """One try of a page of the database that a place names."""
        path = path_of("/rows", **bounds_of(lo, hi), at=at.timestamp, limit=limit, hold=hold)
        answer = yield from self._once("GET", path, None, self.timeout, **{"Ripsawbean-Identity": at.identity})
        if answer.status != 200:
            raise Lost(refused(answer.status, answer.body))
        return page_of(answer)


class TransactionCore:
    """Reads of one snapshot, and writes that are kept until the end. They commit where nothing that was read has changed."""

    def __init__(self, core: Core):
        self._core = core
        self._at: Optional[int] = None
        self._seen: Dict[bytes, Row] = {}
        self._spans: List[Condition] = []
        self._writes: Dict[bytes, Optional[bytes]] = {}

    def put(self, key: Text, value: Text) -> None:
        self._writes[bytes_of(key)] = bytes_of(value)

    def delete(self, key: Text) -> None:
        self._writes[bytes_of(key)] = None

    def _get(self, key: Text) -> Steps[Optional[bytes]]:
        key = bytes_of(key)
        if key in self._writes:
            return self._writes[key]
        if key not in self._seen:
            at, self._seen[key] = yield from self._core._read(key, self._at)
            self._at = at if self._at is None else self._at
        return self._seen[key].value

    def _scan(self, lo: Optional[Text], hi: Optional[Text]) -> Steps[List[Row]]:
        found: Dict[bytes, Row] = {}
        page = yield from self._core._page(lo, hi, self._at, PAGE, None)
        self._at = page.timestamp
        found.update((row.key, row) for row in page.rows)
        while page.next is not None:
            page = yield from self._core._page(page.next, hi, self._at, PAGE, None)
            found.update((row.key, row) for row in page.rows)
        self._spans.append(values.unchanged(lo, hi, self._at))
        for key, value in self._writes.items():
            if key >= bytes_of(lo or b"") and not (hi and key >= bytes_of(hi)):
                found[key] = Row(key, value, None)
        return [found[key] for key in sorted(found) if found[key].value is not None]

    def commit(self) -> Steps[None]:
        if self._writes:  # a snapshot's reads alone are right as they are
            conditions = [values.version_is(row.key, row.version) for row in self._seen.values()] + self._spans
            steps = [values.delete(key) if value is None else values.put(key, value) for key, value in self._writes.items()]
            yield from self._core._txn(steps, conditions, None)


def page_of(answer: Answer) -> Page:
    told = answer.json()
    rows = [values.row_of(one) for one in told["rows"]]
    following = None if told["next"] is None else values.argument_in(told["next"], "lo")
    if told["next"] is not None and not following:
        raise answer.nonsense("has no place for the page behind it")
    return Page(int(told["timestamp"]), rows, following)


def seconds_in(header: Optional[str]) -> float:
    """What Retry-After says, where it is a number."""
    return float(header) if header and header.isdigit() else 0.0
