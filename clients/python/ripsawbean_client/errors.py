"""All that the clients raise. What was refused is never told as a value."""

from __future__ import annotations

import json
from typing import Any, Dict, List, Optional, Type

from .values import Row, row_of


class Error(Exception):
    """`status` is that of the answer, or 0 where none came. `error` is the refusal's name, `members` all that it said."""

    def __init__(self, status: int, members: Dict[str, Any]):
        super().__init__("%s: %s" % (members.get("error", status), members.get("why", "")))
        self.status, self.members = status, members
        self.error: str = members.get("error", "")


class ConditionFailed(Error):
    """A condition doesn't hold. Nothing was changed."""

    @property
    def found(self) -> List[Row]:
        """The rows that were there, of the conditions on keys that don't hold."""
        return [row_of(one) for one in self.members.get("found", ()) if "key" in one]


class Invalid(Error, ValueError):
    """The request is wrong: `members["member"]` says where, if it is in the body."""


class Unauthorized(Error):
    """The token is wanting or unknown, or has no right to this."""


class Busy(Error):
    """It stayed blocked, full or without memory until the time was over. Nothing was changed."""


class Gone(Error):
    """Nothing can be read at this timestamp any longer, or not yet."""


class OtherDatabase(Error):
    """The server has another database than the one that this client began with. Nothing was done."""


class Outrun(Error):
    """A later consumer has the name, or it was deleted. `store` raises it where the stored place isn't `was`."""

    def __init__(self, status: int = 0, members: Optional[Dict[str, Any]] = None):
        super().__init__(status, members or {"error": "fenced", "why": "another consumer has stored"})


class Unreachable(Error, ConnectionError):
    """No answer came until the time was over. Nothing was sent, or it was a read."""


class OutcomeUnknown(Unreachable):
    """A write was sent and no answer came, so it may have committed or not."""


class Lost(Exception):
    """A connection failed: the drivers tell the core so, and nobody else sees it."""

    def __init__(self, why: object, was_sent: bool = True):
        super().__init__("%s: %s" % (type(why).__name__, why) if isinstance(why, Exception) else why)
        self.was_sent = was_sent


KINDS: Dict[int, Type[Error]] = {
    400: Invalid, 404: Invalid, 405: Invalid, 413: Invalid, 415: Invalid, 422: Invalid, 401: Unauthorized, 403: Unauthorized,
    408: Busy, 429: Busy, 503: Busy, 410: Gone, 412: ConditionFailed,
}
KINDS_OF_409: Dict[str, Type[Error]] = {
    "identity": OtherDatabase, "condition": ConditionFailed, "fenced": Outrun, "notclosed": Gone, "belowhorizon": Gone,
}


def refused(status: int, body: bytes) -> Error:
    """The error that an answer stands for."""
    try:
        members = json.loads(body.decode())
    except ValueError:
        members = None
    if not isinstance(members, dict):
        members = {"why": "the answer %d has no reason: %r" % (status, body[:100])}
    if status in (409, 412) and members.get("error") in KINDS_OF_409:
        return KINDS_OF_409[members["error"]](status, members)
    return KINDS.get(status, Error)(status, members)
