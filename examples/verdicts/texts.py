"""The text of a transcript, written and read: events as `definitions.py` has them, and the lines of docs/GUIDE.md.

The reader is for transcripts that are well formed. Faults of lines are no matter of verdicts.
"""

import base64
import json
import re
from typing import Iterator, List, Optional

from definitions import Event

# The arguments of each command: n is a number, k a key, v a value, and s a span of two words.
FORMS = {
    "begin": "n",
    "get": "nk",
    "scan": "ns",
    "put": "nkv",
    "del": "nk",
    "commit": "n",
    "abort": "n",
    "close": "n",
    "closehard": "n",
    "readat": "nk",
    "scanat": "ns",
    "protect": "n",
    "release": "n",
    "collect": "n",
    "open": "sn",
    "openinitial": "sn",
    "openevery": "snn",
    "openinitialevery": "snn",
    "poll": "nn",
    "cancel": "n",
    "stats": "",
}
HEADER = "mvfeed 2\n"


def spelled(it: Optional[bytes]) -> str:
    """The word of bytes, or of a bound that isn't there. A byte that is no printable character, or a percent sign, is `%`
    and two digits; no bytes are a hyphen, and so a lone hyphen is `%2D`."""
    if not it or it == b"-":
        return "%2D" if it else "-"
    return "".join(chr(byte) if 0x21 <= byte <= 0x7E and byte != 0x25 else "%%%02X" % byte for byte in it)


def unspelled(word: str) -> bytes:
    """The bytes of a word."""
    if word == "-":
        return b""
    return re.sub(rb"%(..)", lambda found: bytes.fromhex(found[1].decode()), word.encode())


def command_words(cmd: tuple) -> List[str]:
    """A command's words: its name and its arguments."""
    words = [cmd[0]]
    for form, it in zip(FORMS[cmd[0]], cmd[1:]):
        words += [str(it)] if form == "n" else map(spelled, it if form == "s" else [it])
    return words


def message_line(message: tuple) -> str:
    """A feed's message as a line of JSON."""
    if len(message) == 1:
        return '{"resolved":"%d"}\n' % message
    key, after = (None if it is None else base64.b64encode(it).decode() for it in message[1:])
    return '{"after":%s,"key":"%s","updated":"%d"}\n' % (json.dumps(after), key, message[0])


def reply_text(reply: tuple) -> str:
    """A reply's words, the end of the line, and the lines that follow it."""
    name, told = reply[0], reply[1:]
    if name == "found":
        return "none\n" if told[0] is None else "value %s\n" % spelled(told[0])
    if name == "rows":
        return "rows %d\n" % len(told[0]) + "".join("row %s %s\n" % (spelled(x), spelled(v)) for x, v in told[0])
    if name == "messages":
        return "messages %d\n" % len(told[0]) + "".join(map(message_line, told[0]))
    return " ".join([name, *map(str, told)]) + "\n"


def event_text(e: Event) -> str:
    """The text of an event."""
    return " ".join([str(e.position), str(e.seat), *command_words(e.cmd), "=>", reply_text(e.reply)])


def text_of(events: List[Event], is_two: bool) -> str:
    """The transcript of events, in format one or two."""
    return (HEADER if is_two else "") + "".join(map(event_text, events))


def read_command(words: Iterator[str]) -> tuple:
    """A command from its words, of which it takes as many as it has."""
    cmd = [next(words)]
    for form in FORMS[cmd[0]]:
        if form == "s":
            cmd.append(tuple(None if it == "-" else unspelled(it) for it in (next(words), next(words))))
        else:
            cmd.append(int(next(words)) if form == "n" else unspelled(next(words)))
    return tuple(cmd)


def read_message(line: str) -> tuple:
    """A feed's message from its line of JSON."""
    it = json.loads(line)
    if "resolved" in it:
        return (int(it["resolved"]),)
    after = None if it["after"] is None else base64.b64decode(it["after"])
    return int(it["updated"]), base64.b64decode(it["key"]), after


def read_reply(words: List[str], lines: Iterator[str]) -> tuple:
    """A reply from its words and the lines that follow."""
    name, told = words[0], words[1:]
    if name in ("none", "value"):
        return "found", unspelled(told[0]) if told else None
    if name == "rows":
        rows = [next(lines).split(" ") for _ in range(int(told[0]))]
        return name, tuple((unspelled(x), unspelled(v)) for _, x, v in rows)
    if name == "messages":
        return name, tuple(read_message(next(lines)) for _ in range(int(told[0])))
    return (name, *map(int, told))


def read(text: str) -> List[Event]:
    """The events of a transcript."""
    lines, events = iter(text[len(HEADER) * text.startswith(HEADER) :].splitlines()), []
    for line in lines:
        words = iter(line.split(" "))
        position, seat, cmd = int(next(words)), int(next(words)), read_command(words)
        if next(words) != "=>":
            raise ValueError(line)
        events.append(Event(position, seat, cmd, read_reply(list(words), lines)))
    return events
