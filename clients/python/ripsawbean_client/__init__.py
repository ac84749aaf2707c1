"""A client of a Ripsawbean server, for programs with threads and with asyncio.

    from ripsawbean_client import connect

    with connect("http://127.0.0.1:7077") as db:
        db.put("apple", "3")
        db.get("apple")                                  # b"3", or None where it is absent
        def sell(tx):                                    # runs anew where another transaction was faster
            tx.put("apple", str(int(tx.get("apple") or 0) - 1))
        db.transact(sell)
        for row in db.scan("price/", "price0"):          # all of one snapshot
            print(row.key, row.value, row.version)
        for message in db.feed("price/", "price0"):      # Reset, Change .., Resolved, Change .., Resolved ..
            print(message)

`ripsawbean_client.aio` is the same with asyncio. Keys and values are bytes; a str may be given for its UTF-8 bytes.
Whatever is refused is raised as an `Error`, so None means absent and nothing else.
"""

from .client import Client, Transaction, connect
from .errors import (
    Busy, ConditionFailed, Error, Gone, Invalid, OtherDatabase, OutcomeUnknown, Outrun, Unauthorized, Unreachable,
)
from .values import (
    Batch, Change, Done, Message, Page, Place, Reset, Resolved, Row, Rows, delete, exists, get, put, scan, unchanged, value_is,
    version_is,
)

__all__ = [
    "connect", "Client", "Transaction", "put", "delete", "get", "scan", "value_is", "version_is", "exists", "unchanged",
    "Row", "Rows", "Page", "Done", "Place", "Reset", "Change", "Resolved", "Message", "Batch",
    "Error", "ConditionFailed", "Invalid", "Unauthorized", "Busy", "Gone", "OtherDatabase", "Outrun", "Unreachable",
    "OutcomeUnknown",
]
