"""Feeds over any number of streams, and consumers over them.

A stream may be cut anywhere, and the next one goes on from a place at which all was told. The place moves at a resolved
message, and also where the first row of a later timestamp U shows that all up to U - 1 was told: else whoever is far
behind, and cut often, would begin at the same place for ever. Rows that come again behind a cut are passed over.

Where the cut falls among the rows of the first snapshot, the others are read by pages, as of the same timestamp.
"""

from __future__ import annotations

import json
import logging
import time
from typing import Any, Callable, List, NoReturn, Optional, Tuple
from urllib.parse import quote

from .addresses import Address
from .core import AGAIN, PAGE, Answer, Core, Follow, Pauses, Read, Run, Steps, Tell
from .errors import Error, Gone, Lost, OtherDatabase, Outrun, refused
from .values import Arguments, Batch, Change, Message, Place, Reset, Resolved, Text, bounds_of, of_base64, path_of

ENOUGH = 1000  # rows that a consumer stores at once, where more are waiting
IDLE = 1.0     # seconds after which it stores a place although no row came, where messages go on coming
HOLD = 30      # seconds for which a snapshot that was cut is held from page to page
NOTHING = (-1, b"")

log = logging.getLogger("ripsawbean_client")


class Feed:
    """Tells each message once, in order, for ever."""

    def __init__(self, core: Core, lo: Optional[Text], hi: Optional[Text], place: Optional[Place], before: bool, anew: bool,
                 name: Optional[str] = None):
        self.core, self.lo, self.hi, self.before, self.anew, self.name = core, lo, hi, before, anew, name
        self.generation, self.limit = 0, PAGE
        self.address: Optional[Address] = None     # where the last stream was asked for
        self.begin(place)

    def begin(self, place: Optional[Place]) -> None:
        self.place = place                         # all up to here was told
        self.snapshot: Optional[Place] = None      # some of these rows were told, and not all
        self.last: Tuple[int, bytes] = NOTHING     # the row that was told last
        self.resolved = place.timestamp if place else -1

    def steps(self) -> Steps[None]:
        pauses, is_said = Pauses(), False
        while True:
            before = self.last, self.resolved
            try:
                if self.snapshot:
                    yield from self.rest_of_snapshot(self.snapshot)
                yield from self.stream()
            except Lost as why:
                lost = why
            self.core.addresses.leave(self.address)
            self.limit = max(1, self.limit // 2)
            if before != (self.last, self.resolved):
                pauses, is_said = Pauses(), False
            log.log(logging.DEBUG if is_said else logging.INFO, "the feed was lost, and is opened again: %s", lost)
            is_said, pause = True, pauses.next()
            if pause:
                yield pause

    def stream(self) -> Steps[NoReturn]:
        """One stream, until it is lost."""
        opened = yield from self.opened()
        identity, cursor = opened.header("Ripsawbean-Identity"), opened.number("Ripsawbean-From")
        self.generation = int(opened.headers.get("Ripsawbean-Generation") or 0)
        log.info("the feed follows the database %s from %d", identity, cursor)
        if not self.anew:
            self.core._pin(opened)
        if self.place is None:
            self.begin(None)
            self.snapshot, self.limit = Place(identity, cursor, self.generation), PAGE
            yield from self.tell(Reset(*self.snapshot))
        while True:
            line = yield Read()
            if not line.endswith(b"\n"):  # the end, or half a line
                raise Lost("it was cut")
            if line == b"\n":
                yield from self.idle()
            else:
                yield from self.take(identity, cursor, json.loads(line))

    def opened(self) -> Steps[Answer]:
        """A stream from the place, or from nothing where there is none."""
        place: Arguments = {"from": self.place.timestamp, "identity": self.place.identity} if self.place else {}
        path = path_of("/feed", **bounds_of(self.lo, self.hi), before=1 if self.before else None, consumer=self.name, **place)
        addresses, headers = self.core.addresses, self.core._headers(None if self.anew else self.core.identity)
        address, silence = addresses.now, addresses.silence()
        self.address = address
        answer: Answer = yield Follow(address, address.front + path, headers, addresses.patience(silence), silence)
        if answer.status == 200:
            return answer
        error = refused(answer.status, answer.body)
        if answer.status in AGAIN:
            raise Lost(error)
        if self.place and self.may_be_anew(error):
            log.warning("the feed begins anew: %s", error)
            self.begin(None)
            raise Lost(error)
        raise error

    def may_be_anew(self, why: Error) -> bool:
        """Whether the feed may begin anew where its place leads nowhere."""
        return self.anew and isinstance(why, (OtherDatabase, Gone))

    def take(self, identity: str, cursor: int, told: Any) -> Steps[None]:
        """A message of a stream that began at the cursor."""
        if "resolved" in told:
            yield from self.reach(Resolved(identity, int(told["resolved"]), self.generation))
        elif "end" in told:
            if told["end"] in ("fenced", "deleted"):
                raise Outrun(409, {"error": told["end"], "why": "a later consumer has the name, or it was deleted"})
            raise Lost(told["end"])
        elif "key" in told:
            change = Change(of_base64(told["key"]) or b"", of_base64(told["after"]), int(told["updated"]),
                            of_base64(told.get("before")))
            below = change.timestamp - 1
            if below >= cursor and (self.place is None or below > self.place.timestamp):
                self.place, self.snapshot = Place(identity, below, self.generation), None
            if (change.timestamp, change.key) > self.last:
                self.last = change.timestamp, change.key
                yield from self.tell(change)

    def reach(self, place: Resolved) -> Steps[None]:
        self.place, self.snapshot = place, None
        if place.timestamp > self.resolved:
            self.resolved = place.timestamp
            yield from self.tell(place)

    def rest_of_snapshot(self, snapshot: Place) -> Steps[None]:
        """The rows that a cut has left out, by pages of the same snapshot: half as long after a cut, else twice as long."""
        lo: Optional[Text] = self.lo if self.last == NOTHING else self.last[1] + b"\0"
        while True:
            try:
                page = yield from self.core._page_once(lo, self.hi, snapshot, self.limit, HOLD)
            except (Gone, OtherDatabase) as why:
                if isinstance(why, OtherDatabase) and not self.anew:
                    raise
                log.warning("the feed begins anew: %s", why)
                self.begin(None)
                raise Lost(why) from None
            for row in page.rows:
                self.last = snapshot.timestamp, row.key
                yield from self.tell(Change(row.key, row.value, snapshot.timestamp))
            if page.next is None:
                break
            lo, self.limit = page.next, min(PAGE, 2 * self.limit)
        yield from self.reach(Resolved(*snapshot))

    def tell(self, message: Message) -> Steps[None]:
        yield Tell(message)

    def idle(self) -> Steps[None]:
        """All was told, and nothing new comes now."""
        yield from ()


class Consumer(Feed):
    """A feed with a name, whose rows and place are stored together. The server holds for it what follows its place."""

    name: str

    def __init__(self, core: Core, name: str, load: Callable[[], Any], store: Callable[[Batch], Any], lo: Optional[Text],
                 hi: Optional[Text], before: bool, anew: bool):
        super().__init__(core, lo, hi, None, before, anew, name)
        self.load, self.store = load, store

    def begin(self, place: Optional[Place]) -> None:
        super().begin(place)
        self.told: List[Change] = []    # rows of a timestamp that isn't known to be complete
        self.whole: List[Change] = []   # rows below, which `reached` is the place of
        self.reached = place

    def steps(self) -> Steps[None]:
        yield from self.begin_at_stored()
        yield from super().steps()

    def begin_at_stored(self) -> Steps[None]:
        self.stored: Optional[Place] = yield Run(self.load, ())
        self.is_reset, self.stored_at = False, 0.0
        self.begin(self.stored)

    def may_be_anew(self, why: Error) -> bool:
        # The rows of the same database can always be told again.
        return why.error == "belowhorizon" or super().may_be_anew(why)

    def tell(self, message: Message) -> Steps[None]:
        if isinstance(message, Reset):
            self.is_reset = True
            return
        if self.place is not None and self.place is not self.reached:
            self.whole, self.told, self.reached = self.whole + self.told, [], self.place
        if isinstance(message, Change):
            if len(self.whole) >= ENOUGH:
                yield from self.keep()
            self.told.append(message)
        else:
            yield from self.keep_new(time.monotonic() - self.stored_at > IDLE)

    def idle(self) -> Steps[None]:
        yield from self.keep_new(True)

    def keep_new(self, is_due: bool) -> Steps[None]:
        """Stores rows at once, and a place without rows where that is due."""
        if self.reached is None:
            return
        is_new = self.stored is None or self.reached.timestamp > self.stored.timestamp
        if self.whole or self.is_reset or is_new and is_due:
            yield from self.keep()

    def keep(self) -> Steps[None]:
        """Stores what is whole."""
        assert self.reached
        place = Place(self.reached.identity, self.reached.timestamp, self.generation)
        try:
            yield Run(self.store, (Batch(self.whole, place, self.stored, self.is_reset),))
        except Outrun as why:
            outrun = self.stored
            yield from self.begin_at_stored()
            if self.stored and self.stored.identity == place.identity and self.stored.generation > place.generation:
                raise
            if self.stored == outrun:
                raise
            # As an older consumer stores just before its end, or as the target was emptied or put back.
            raise Lost("the stored place isn't the last one, so the consumer begins again from it") from why
        self.stored, self.whole, self.is_reset, self.stored_at = place, [], False, time.monotonic()
        yield from self.acknowledge(place)

    def acknowledge(self, place: Place) -> Steps[None]:
        """From now on the server keeps what follows the place. Where this is lost, the next one says more."""
        query: Arguments = {"identity": place.identity, "generation": place.generation, "stored": place.timestamp}
        path = path_of("/consumer/" + quote(self.name, safe=""), **query)
        try:
            yield from self.core._once("POST", path, b"", self.core.timeout, **{"Ripsawbean-Identity": place.identity})
        except (Gone, OtherDatabase) as why:  # the next stream is refused for the same reason
            raise Lost(why) from None
        except Lost as why:
            log.info("an acknowledgement was lost: %s", why)
