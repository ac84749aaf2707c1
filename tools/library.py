#!/usr/bin/env python3
"""`tools/library.py [--jobs N]`, in a crate's folder, makes its library as `rt lib` does, but of its statements alone.
With `--of-gate` it makes a library for C over the libraries that `rt ci` left below it, and proves this crate alone.

A library's proofs are checked when it is made, so the crates above need only its statements, and the gate loads no
more. A build of the program from nothing takes a sixth less time so, and 2 GB of disk in place of 9. `rt lib` has no
word for that, so the kit's own code is told it here. Such a library leaves no work for later checks of the crate
itself, and is made without any. Where the kit's code is other than this script expects, `rt lib` makes the library in
its own way.

The gate leaves its libraries without the note by which `rt lib` would know what they are made of. So `--of-gate` is
right only where the whole gate has just passed in this checkout, and nothing changed since. At its end the gate puts
libraries back that stood there before it. These have the note, and are made anew where it says that they are older.
"""

import os
import sys

sys.dont_write_bytecode = True
from kit import code_of_the_kit  # noqa: E402

OF_GATE = "--of-gate"


def ask_for_statements(rt):
    """Has `rt lib` hand out statements, for which its compiler takes no kept work."""
    of_kit = rt.rtlib.Crate.words

    def words(self, flags, *given, as_source=False, **named):
        found = of_kit(self, flags, *given, as_source=as_source, **named)
        return found if as_source else [*found, "--statements"]

    if not (rt.main and rt.adopt and rt.rtlib.libraries_keep and "--statements" in rt.rtlib.help_of("build")):
        raise AttributeError("a kit whose libraries can't do without proofs")
    rt.rtlib.Crate.words = words
    rt.rtlib.libraries_keep = lambda: False
    rt.adopt = lambda *_, **__: None


def take_those_of_the_gate(rt):
    """Has `rt lib` take each library below that the gate made for the one that it would build."""
    of_kit = rt.rtlib.Crate.is_built

    def is_of_gate(rlib):
        return os.path.isdir(rlib) and not os.path.exists(os.path.join(os.path.dirname(rlib), "stamp"))

    rt.rtlib.Crate.is_built = lambda self: of_kit(self) or is_of_gate(self.rlib)


def main(words):
    is_of_gate = OF_GATE in words
    words = [it for it in words if it != OF_GATE]
    try:
        rt = code_of_the_kit()
        (take_those_of_the_gate if is_of_gate else ask_for_statements)(rt)
    except (OSError, SyntaxError, ValueError, AttributeError):
        os.execvp("rt", ["rt", "lib", *words])
    return rt.main(["lib", *words])


if __name__ == "__main__":
    sys.exit(main(sys.argv[1:]))
