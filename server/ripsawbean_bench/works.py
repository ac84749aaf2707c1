"""What is sent: words for it, the way to ask, clients, transactions in all, transactions a message, messages ahead."""

WORKS = (
    ("16 clients, a request at a time (`POST /call`)", "requests", 16, 40_000, 1, 1),
    ("the same by `POST /transact`", "transactions", 16, 40_000, 1, 1),
    ("the same, each with an Idempotency-Key", "keyed", 16, 40_000, 1, 1),
    ("64 clients, a request at a time", "requests", 64, 40_000, 1, 1),
    ("1 client, a transaction at a time in one message", "messages", 1, 5_000, 1, 1),
    ("64 clients, the same", "messages", 64, 40_000, 1, 1),
    ("1 client, a line at a time", "lines", 1, 2_500, 1, 1),
    ("1 client, single lines, 64 ahead", "lines", 1, 10_000, 1, 64),
    ("1 client, a transaction a message, 16 ahead", "messages", 1, 20_000, 1, 16),
    ("1 client, 25 transactions (100 lines) a message, 16 ahead", "messages", 1, 100_000, 25, 16),
)
FLOOD = (100, 10_000)  # readers, rows
FIRST = 100_000  # rows
LEAST = 100  # rows, however small a part is asked for


def scaled(count: float, scale: float, shorter: int = 1) -> int:
    return max(int(count * scale / shorter), LEAST)
