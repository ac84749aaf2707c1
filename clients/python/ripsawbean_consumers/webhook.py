"""Posts changes to a URL, as JSON.

    {"reset": false, "changes": [{"key": "price/apple", "value": "5", "timestamp": "12"}], "place": {"identity": "0f3a..", "timestamp": "12"}}

`value` is null where the row was deleted, and bytes that are no UTF-8 are `{"base64": ".."}`. With `reset` the receiver
forgets all that it was told before. A batch of more than a thousand changes comes in parts, of which the last has its
`place`: then all up to its timestamp was told, and before that part of a transaction may be missing.

The place is kept in a file, which is replaced once the receiver has answered with a status of 200 to 299. So each
change comes at least once. After a crash some come again: a key and a timestamp are one change, whenever they come.
409 ends the consumer, for a receiver that knows a later one. After any other status all is posted again.
"""

import json
import os
import urllib.error
import urllib.request

from ripsawbean_client import Outrun, Place
from ripsawbean_client.values import to_json

FAILURES = ()
MOST = 1000      # changes of a request
LONGEST = 60.0   # seconds for an answer


def opened(url, name):
    """Under systemd the place is kept in the unit's StateDirectory=, and else in this folder."""
    return Webhook(url, os.path.join(os.environ.get("STATE_DIRECTORY", "."), name + ".place"))


class Webhook:
    def __init__(self, url, file):
        self.url, self.file = url, file

    def load(self):
        try:
            with open(self.file, encoding="utf-8") as kept:
                return Place(*json.load(kept))
        except FileNotFoundError:
            return None

    def store(self, batch):
        if self.load() != batch.was:
            raise Outrun()
        parts = [batch.changes[at : at + MOST] for at in range(0, len(batch.changes), MOST)]
        if batch.reset and not parts:
            parts = [[]]
        for number, part in enumerate(parts, 1):
            place = {"identity": batch.place.identity, "timestamp": str(batch.place.timestamp)}
            self.post({"reset": batch.reset and number == 1, "changes": [told(one) for one in part],
                       "place": place if number == len(parts) else None})
        self.keep(batch.place)

    def post(self, body):
        request = urllib.request.Request(self.url, json.dumps(body).encode(), {"Content-Type": "application/json"})
        try:
            urllib.request.urlopen(request, timeout=LONGEST).close()
        except urllib.error.HTTPError as why:
            if why.code == 409:
                raise Outrun() from why
            raise

    def keep(self, place):
        """In place of the one before, whenever this is cut off."""
        with open(self.file + ".new", "w", encoding="utf-8") as kept:
            json.dump(place, kept)
            kept.flush()
            os.fsync(kept.fileno())
        os.replace(self.file + ".new", self.file)

    def close(self):
        pass


def told(change):
    value = None if change.value is None else to_json(change.value)
    return {"key": to_json(change.key), "value": value, "timestamp": str(change.timestamp)}
