"""Follows a feed of the server exactly once, over any crash of the consumer, of the server, or of what it writes to.

Rows and place are stored together, so a crash at any moment leaves the rows of the database at the place's timestamp,
and a consumer that was replaced while it slept can't write any more. `consume` of the client does the rest.

A place of another database leads nowhere: its rows may be all that is left of that one. So the consumer ends there, with
status 4 and a sentence. With `--anew` it empties its target, and begins anew. Where another consumer has taken its name
it ends with status 5. systemd lets both be by `RestartPreventExitStatus=4 5`, or two of one name replace each other for
ever. Where its token is refused it ends with status 3: who starts it again may have a new one there.

SERVER may be the URLs of several servers, with commas between them, of which one has the database at a time: where that
one falls silent the consumer goes on at the next one.
"""

import contextlib
import logging
import os
import ssl
import sys
import time

from ripsawbean_client import Error, Gone, OtherDatabase, Outrun, Unauthorized, connect

SHORT, LONG = 0.1, 2.0  # seconds before a target that failed is opened again: they double
LATER = 1.0             # seconds after which a failure is a new one, and told once more
REFUSED = 3             # the status of a consumer whose token is refused
OTHER = 4               # the status of a consumer that has found another database than the one of its place
OUTRUN = 5              # the status of a consumer whose name another one has taken


def arguments(words, *names):
    """The words SERVER NAME, those of `names`, the bounds LO HI where they are given, and options. `-` is no bound."""
    for name in ("server", "name", *names):
        words.add_argument(name)
    for name in ("lo", "hi"):
        words.add_argument(name, nargs="?", type=lambda word: None if word == "-" else os.fsencode(word))
    words.add_argument("--anew", action="store_true", help="at another database: empty the target, and begin anew")
    words.add_argument("--token", metavar="FILE", help="a file whose first line is the server's token")
    words.add_argument("--ca", metavar="FILE", help="the certificate that the server's is signed by")


def log_as(name):
    logging.basicConfig(format=name.replace("%", "%%") + ": %(message)s", level=logging.INFO)


def connected(given):
    """A client of the server that a command line names."""
    token = open(given.token).readline().strip() if given.token else None
    context = ssl.create_default_context(cafile=given.ca) if given.ca else None
    return connect(given.server, token, context=context)


def follow(given, make, failures=()):
    """Keeps the target that `make()` opens at the rows that a command line has `given`, until it is outrun.

    `failures` are what the target raises where its software can't serve.
    """
    said, pause = None, SHORT
    log_as(given.name)
    with connected(given) as database:
        while True:
            began = time.monotonic()
            try:
                with contextlib.closing(make()) as target:
                    database.consume(given.name, target.load, target.store, given.lo, given.hi, anew=given.anew)
            except Outrun:
                logging.error("another consumer has the name %s, so this one ends", given.name)
                sys.exit(OUTRUN)
            except (OtherDatabase, Gone) as why:
                logging.error("%s has another database: %s. --anew would empty this target and begin anew",
                              given.server, why)
                sys.exit(OTHER)
            except Unauthorized as why:
                logging.error(sentence(given, why))
                sys.exit(REFUSED)
            except (OSError, Error, *failures) as why:
                words = sentence(given, why)
                if time.monotonic() - began > LATER:
                    said, pause = None, SHORT
                if words != said:  # what doesn't change is told of once
                    logging.error(words)
                said = words
                time.sleep(pause)
                pause = min(2 * pause, LONG)


def sentence(given, why):
    words = "%s: %s" % (type(why).__name__, why)
    if isinstance(why, Unauthorized) and not given.token:
        words += "; --token FILE names the file with the server's token"
    return words
