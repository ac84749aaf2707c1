#!/usr/bin/python3
"""Puts the descriptions of this machine's Debian packages into the database: packages.py SERVER

A package's text stands at the key package/NAME. Each transaction puts twenty, and raises the number at `packages`,
which it reads first. So two of these programs at once get in each other's way, and `transact` sees to it that none is
lost.
"""

import argparse
import os
import sys

sys.path.append(os.path.join(os.path.dirname(os.path.abspath(__file__)), "..", "clients", "python"))
from ripsawbean_client import connect  # noqa: E402

STATUS = "/var/lib/dpkg/status"
TOGETHER = 20


def descriptions(status=STATUS):
    """Name and description of each package that dpkg knows."""
    with open(status, "rb") as file:
        for entry in file.read().split(b"\n\n"):
            fields = {}
            for line in entry.split(b"\n"):
                if not line.startswith(b" "):
                    name, _, line = line.partition(b": ")
                fields[name] = fields[name] + b"\n" + line if line.startswith(b" ") else line
            if b"Description" in fields:
                yield fields[b"Package"], fields[b"Description"]


def main(server):
    found = list(descriptions())
    with connect(server) as database:
        for at in range(0, len(found), TOGETHER):
            some = found[at : at + TOGETHER]

            def put(transaction):
                count = int(transaction.get("packages") or 0)
                for name, about in some:
                    transaction.put(b"package/" + name, about)
                transaction.put("packages", str(count + len(some)))

            database.transact(put)
    print("%d packages" % len(found))


if __name__ == "__main__":
    words = argparse.ArgumentParser(description=__doc__, formatter_class=argparse.RawDescriptionHelpFormatter)
    words.add_argument("server")
    main(words.parse_args().server)
