"""Clients that ask for much, and how long others wait beside them: at most 50 ms more in 99 of 100 small calls.

Each function is a test. It gets a room, and how heavy the load is to be: Scale.DAILY takes seconds, Scale.WHOLE minutes.
"""

import enum
from collections.abc import Callable

from beside import others_wait_little
from machine import Room, Server


class Scale(enum.Enum):
    DAILY = 1
    WHOLE = 10

    def of(self, daily: int, whole: int) -> str:
        return str(whole if self is Scale.WHOLE else daily)


def beside(room: Room, kind: str, *words: str, options: tuple[str, ...] = (), **how: object) -> str:
    """What heavy clients hold they hold to the end, though they answer no pings."""
    server = room.start(Server(room.path, "--history", "0.5", "--heartbeat", "600", *options))
    return others_wait_little(room, server, kind, *words, **how)


def test_messages_of_a_hundred_long_lines(room: Room, scale: Scale) -> str:
    return beside(room, "long_lines")


def test_messages_of_spelled_bytes(room: Room, scale: Scale) -> str:
    return beside(room, "spelled_lines")


def test_a_message_of_begins_and_its_session_s_end(room: Room, scale: Scale) -> str:
    return beside(room, "begins", "170000")


def test_a_message_of_opens_and_its_session_s_end(room: Room, scale: Scale) -> str:
    return beside(room, "opens", "50000")


def test_a_million_protections_tried(room: Room, scale: Scale) -> str:
    return beside(room, "protections", scale.of(300_000, 1_000_000))


def test_scans_of_as_many_rows_as_are_let_through(room: Room, scale: Scale) -> str:
    return beside(room, "scans", "100000")


def test_scans_of_as_many_rows_as_are_let_through_without_a_pause(room: Room, scale: Scale) -> str:
    return beside(room, "scans_on_and_on", "100000")


def test_eight_clients_that_scan_as_many_rows(room: Room, scale: Scale) -> str:
    return beside(room, "scan_calls", "8", ask="put")


def test_eight_clients_that_scan_as_many_rows_over_new_connections(room: Room, scale: Scale) -> str:
    return beside(room, "new_scan_calls", "8", ask="put")


def test_eight_clients_that_read_pages_of_4_megabytes(room: Room, scale: Scale) -> str:
    return beside(room, "large_pages", "8", ask="put")


def test_eight_clients_with_transactions_that_scan_4_megabytes(room: Room, scale: Scale) -> str:
    return beside(room, "large_plans", "8", ask="put")


def test_eight_clients_with_transactions_that_compare_9_megabytes(room: Room, scale: Scale) -> str:
    return beside(room, "compared_plans", "8", ask="put")


def test_four_clients_with_transactions_of_10000_conditions(room: Room, scale: Scale) -> str:
    return beside(room, "long_plans", "4", ask="put")


def test_eight_clients_with_transactions_of_10000_conditions(room: Room, scale: Scale) -> str:
    return beside(room, "long_plans", "8", ask="put")


def test_scans_of_more_rows_are_refused(room: Room, scale: Scale) -> str:
    return beside(room, "refused_scans", scale.of(100_000, 1_000_000))


def test_commits_of_which_a_hundred_readers_are_told(room: Room, scale: Scale) -> str:
    return beside(room, "told_commits", "100")


def test_scans_of_deleted_rows(room: Room, scale: Scale) -> str:
    return beside(room, "deleted_scans", scale.of(100_000, 300_000))


def test_feeds_that_begin_with_deleted_rows(room: Room, scale: Scale) -> str:
    return beside(room, "deleted_feeds", scale.of(50_000, 300_000))


def test_pages_over_deleted_rows(room: Room, scale: Scale) -> str:
    return beside(room, "deleted_pages", scale.of(50_000, 300_000))


def test_first_feeds_of_many_rows(room: Room, scale: Scale) -> str:
    return beside(room, "first_feeds", scale.of(200_000, 1_000_000))


def test_first_feeds_as_events(room: Room, scale: Scale) -> str:
    return beside(room, "first_events", scale.of(200_000, 1_000_000))


def test_reports_of_many_rows(room: Room, scale: Scale) -> str:
    return beside(room, "reports", scale.of(100_000, 1_000_000))


def test_transcripts_of_64_megabytes(room: Room, scale: Scale) -> str:
    return beside(room, "transcripts")


def test_ten_thousand_names(room: Room, scale: Scale) -> str:
    return beside(room, "names", scale.of(5_000, 10_000), options=("--max-consumers", "20000"))


def test_chunks_of_one_byte(room: Room, scale: Scale) -> str:
    return beside(room, "tiny_chunks", "10")


def test_chunks_of_one_byte_without_the_token(room: Room, scale: Scale) -> str:
    token = "0123456789abcdef-mine"
    with open(room.file("token"), "w") as file:
        file.write(token + "\n")
    server = room.start(Server(room.path, "--token", room.file("token"), token=token))
    return others_wait_little(room, server, "tiny_chunks", "10", token=token)


def test_bytes_behind_an_upgrade_of_another_path(room: Room, scale: Scale) -> str:
    return beside(room, "behind_upgrade", "4")


def test_frames_of_one_byte_without_an_end(room: Room, scale: Scale) -> str:
    return beside(room, "half_frames", "10")


TESTS: list[Callable[[Room, Scale], str]] = [one for name, one in list(globals().items()) if name.startswith("test_")]
