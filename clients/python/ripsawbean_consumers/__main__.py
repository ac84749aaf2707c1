"""Keeps rows of a Ripsawbean database in other software, over any crash of either side.

The rows are those of the keys at or above LO and below HI, `-` being no bound. Beside them stands the place at which
they are exact. NAME is the consumer's: the server holds for it what it has yet to store.

Where the server has another database than the one of its place, a consumer changes nothing, and ends with status 4.
Where another consumer has taken its name it ends with status 5. Whatever starts consumers again has to leave both be.

With --compare it stores nothing. It compares the copy with the database at the copy's place, while both go on, and
tells each row that differs as a line of JSON. Its status is 0 where none does, 1 where one does, and 2 where they
can't be compared.
"""

import argparse
import contextlib
import importlib
import os
import sys

from . import compare, following

# Each has its module, and what its TARGET is.
KINDS = {
    "redis": ("redis_cache", "a cache in Redis: the hash NAME:rows. TARGET is redis://HOST:PORT"),
    "sqlite": ("search_index", "a search index in SQLite. TARGET is a file"),
    "postgresql": ("postgres_replica", "a table in PostgreSQL. TARGET is a connection string"),
    "webhook": ("webhook", "changes posted as JSON. TARGET is a URL"),
}


def command_line():
    words = argparse.ArgumentParser("ripsawbean-consumer", description=__doc__,
                                    formatter_class=argparse.RawDescriptionHelpFormatter)
    kinds = words.add_subparsers(dest="kind", metavar="KIND", required=True)
    for kind, (_, about) in KINDS.items():
        one = kinds.add_parser(kind, help=about, description=about)
        following.arguments(one, "target")
        if kind == "webhook":
            one.set_defaults(compare=False)
        else:
            one.add_argument("--compare", action="store_true", help="compare the copy with the database, and end")
    one = kinds.add_parser("search", help="asks the index in SQLite: search WORDS FILE")
    one.add_argument("words", help="as SQLite's FTS5 takes them")
    one.add_argument("file")
    return words.parse_args()


def module_of(kind):
    try:
        return importlib.import_module("." + KINDS[kind][0], __package__)
    except ModuleNotFoundError as why:
        sys.exit("ripsawbean-consumer: %s: Debian's package is python3-%s" % (why, why.name))


def has_to_be(file):
    if not os.path.exists(file):
        sys.exit("ripsawbean-consumer: there is no %s" % file)


def search(words, file):
    has_to_be(file)
    with contextlib.closing(module_of("sqlite").Index(file)) as index:
        for key, text in index.search(words):
            print(os.fsdecode(key), text.replace("\n", " "))


def main():
    given = command_line()
    if given.kind == "search":
        return search(given.words, given.file)
    module = module_of(given.kind)
    if given.kind == "sqlite" and given.compare:
        has_to_be(given.target)
    run = compare.run if given.compare else following.follow
    return run(given, lambda: module.opened(given.target, given.name), module.FAILURES)


if __name__ == "__main__":
    sys.exit(main())
