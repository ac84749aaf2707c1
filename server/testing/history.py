"""What a transcript says was committed and closed: read from its text by the guide, and by no code of the database."""

import bisect
import os
import sys

sys.path.append(os.path.join(os.path.dirname(os.path.abspath(__file__)), "..", "..", "embed", "python"))
from ripsawbean import unspell  # noqa: E402


class History:
    """Grows by the texts of whole events, in their order."""

    def __init__(self):
        self.next, self.closed, self.events = 0, 0, []
        self.undecided, self.committed = {}, {}
        self.rows = []  # (timestamp, key, value or None) of what is closed, rising

    def take(self, text):
        """Takes events in. The first has to be at the position after the last one taken."""
        lines = text.split("\n")
        at = 0
        while at < len(lines) - 1:
            words = lines[at][: lines[at].rindex(" => ")].split(" ")
            answer = lines[at][lines[at].rindex(" => ") + 4 :].split(" ")
            if int(words[0]) != self.next:
                raise ValueError("event %d is not there, but %s" % (self.next, words[0]))
            self.next += 1
            self.note(words[2], words[3:], answer)
            at += 1 + (int(answer[1]) if answer[0] in ("rows", "messages") else 0)
        self.events.append(text)

    def note(self, command, given, answer):
        if answer[0] == "started":
            self.undecided[int(given[0])] = {}
        elif answer[0] == "written":
            value = unspell(given[2]) if command == "put" else None
            self.undecided[int(given[0])][unspell(given[1])] = value
        elif answer[0] == "committed":
            self.committed[int(given[0])] = self.undecided.pop(int(given[0]))
        elif answer[0] in ("aborted", "toolate"):
            self.undecided.pop(int(given[0]), None)
        elif answer[0] == "closed":
            self.close(int(answer[1]))

    def close(self, at):
        for timestamp in sorted(timestamp for timestamp in self.committed if timestamp <= at):
            self.rows += [(timestamp, *row) for row in sorted(self.committed.pop(timestamp).items())]
        for timestamp in [timestamp for timestamp in self.undecided if timestamp <= at]:
            del self.undecided[timestamp]
        self.closed = max(self.closed, at)

    def has_committed(self, timestamp):
        at = bisect.bisect_left(self.rows, (timestamp,))
        return timestamp in self.committed or self.rows[at : at + 1] and self.rows[at][0] == timestamp

    def between(self, after, through, lo=None, hi=None):
        """The closed rows of a span above `after`, up to `through`."""
        first, last = bisect.bisect_left(self.rows, (after + 1,)), bisect.bisect_left(self.rows, (through + 1,))
        return [row for row in self.rows[first:last] if (lo is None or lo <= row[1]) and (hi is None or row[1] < hi)]

    def map_at(self, timestamp, lo=None, hi=None):
        found = {key: value for _, key, value in self.between(0, timestamp, lo, hi)}
        return {key: value for key, value in found.items() if value is not None}

    def text(self):
        return "mvfeed 2\n" + "".join(self.events)
