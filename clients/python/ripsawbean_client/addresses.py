"""The addresses of servers of one database, of which one answers at a time.

The one that answered last is asked. Where it takes no connection, is silent, loses an answer, or says that it doesn't
have the database now, the next one is asked, and behind the last one the first.
"""

from __future__ import annotations

from typing import List, NamedTuple, Optional
from urllib.parse import urlsplit

CONNECTING = 2.0  # seconds for a connection
SILENT = 3.0      # seconds without a byte of an answer, where another address may have one
QUIET = 20.0      # the same of a stream: its server sends an empty line each 15
SILENCE = 60.0    # the same where there is one address
# Refusals of a server that doesn't have the database now.
ELSEWHERE = frozenset(("lease", "standby"))


class Address(NamedTuple):
    scheme: str
    host: str
    front: str  # of each path


class Addresses:
    """Those in a text, with commas between them."""

    def __init__(self, urls: str):
        self.all: List[Address] = [address_of(url.strip()) for url in urls.split(",")]
        self.are_several = len(self.all) > 1
        self.at = 0

    @property
    def now(self) -> Address:
        return self.all[self.at]

    def leave(self, address: Optional[Address]) -> None:
        """Goes on to the next one, unless another thread has done so."""
        if self.now is address:
            self.at = (self.at + 1) % len(self.all)

    def patience(self, seconds: float) -> float:
        """Seconds in which a byte of an answer has to come."""
        return min(seconds, SILENT) if self.are_several else seconds

    def silence(self) -> float:
        """The same of a stream's line."""
        return QUIET if self.are_several else SILENCE


def address_of(url: str) -> Address:
    parts = urlsplit(url)
    if parts.scheme not in ("http", "https") or not parts.hostname or parts.username or parts.query or parts.fragment:
        raise ValueError("%r is no http://HOST:PORT or https://HOST:PORT" % url)
    return Address(parts.scheme, parts.netloc, parts.path.rstrip("/"))
