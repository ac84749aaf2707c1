#!/usr/bin/env python3
"""A kit that only plays one, for test_library.py.

It tells with what its compiler would make a library, and whether it would look for kept work.
"""

import sys
import types


class Crate:
    def __init__(self, rlib=""):
        self.rlib = rlib

    def is_built(self):
        return False

    def words(self, flags, tests=False, keeps=True, as_source=False):
        return ["a", *flags]


rtlib = types.SimpleNamespace(Crate=Crate, libraries_keep=lambda: True, help_of=lambda verb: "Takes --statements")


def adopt(crate, is_alone=True):
    print("adopts")


def main(words):
    adopt(None, is_alone=False)
    print(*words, "|", *Crate().words(["b"]), "|", *Crate().words(["b"], as_source=True), "|", rtlib.libraries_keep())
    return 3


if __name__ == "__main__":
    print("itself", *sys.argv[1:])
