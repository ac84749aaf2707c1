"""A journal's files, read and written by what `server/src/journal/frame.rs` says of them, and by no code of the server.

The controls of `durable.py` leave something out of a journal, as a server would that has no such rule, and frame it anew.
"""

import dataclasses
import glob
import os
import re
import zlib
from collections.abc import Callable

CARRIER = b"0 readat 18446744073709551615 "
HEAD = re.compile(rb"%bbatch/(\d+)/(\d+)/([0-9a-f]{8})/(\d+)/[0-9a-f]{8}\n" % CARRIER)


@dataclasses.dataclass
class Batch:
    number: int
    mark: int
    lines: list[bytes]


def batches_in(data: bytes) -> list[Batch]:
    """The whole batches. Their checksums are the server's to judge."""
    found, at = [], 0
    while head := HEAD.match(data, at):
        lines = data[head.end() : head.end() + int(head[2])]
        if len(lines) < int(head[2]):
            break
        found.append(Batch(int(head[1]), int(head[4]), lines.splitlines(keepends=True)))
        at = head.end() + len(lines)
    return found


def framed(batches: list[Batch], series: str) -> bytes:
    identity = batches[0].lines[0].split(b"database/")[1].strip().decode()
    out, chain = [], zlib.crc32(("%s/%s" % (identity, series)).encode())
    for batch in batches:
        lines = b"".join(batch.lines)
        chain = zlib.crc32(lines, chain)
        words = b"batch/%d/%d/%08x/%d" % (batch.number, len(lines), chain, batch.mark)
        out.append(b"%b%b/%08x\n%b" % (CARRIER, words, zlib.crc32(words), lines))
    return b"".join(out)


def last_journal(folder: str) -> str:
    return max(glob.glob(os.path.join(folder, "journal-*.script")))


def rewrite(folder: str, change: Callable[[list[Batch]], list[Batch]]) -> None:
    """Changes the last journal of a folder, without leaving a trace."""
    path = last_journal(folder)
    with open(path, "rb") as file:
        batches = batches_in(file.read())
    if batches:
        with open(path, "wb") as file:
            file.write(framed(change(batches), os.path.basename(path)[: -len(".script")]))
