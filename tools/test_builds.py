"""Tests of builds.py: what is built, what was built before, and a build that doesn't end."""

import os
from unittest import mock

import builds
import testing


class Builds(testing.Housed):
    def built(self, *needs, **given):
        """What is named in place of PROGRAM and LIBRARY."""
        with mock.patch.dict(os.environ, {"PROGRAM": "", "LIBRARY": "", **given}):
            made = builds.built(self.top, needs, 20)
        return [made[it] for it in ("PROGRAM", "LIBRARY")]

    def test_what_is_needed_is_built_and_nothing_else(self):
        self.write("mvfeed", "#!/bin/sh\necho program >>made\n")
        self.write("tools/side_by_side.py", "#!/bin/sh\necho library >>made\n")
        program, library = (os.path.join(self.top, it) for _, it in builds.MADE.values())
        self.assertEqual((self.built(), self.lines("made")), (["", ""], []))
        self.assertEqual((self.built("program"), self.lines("made")), ([program, ""], ["program"]))
        self.assertEqual(self.built("library", "program", PROGRAM="one"), ["one", library])
        self.assertEqual(self.lines("made"), ["program", "library"])

    def test_what_is_checked_is_made_of_the_sources(self):
        others = {"MODULE": "one.wasm", "RIPSAWBEAN_LIBRARY": "one.so", "SERVER": "one"}
        given = {"PROGRAM": "program", "LIBRARY": "one.a", "PROVED": "one", "TESTS": "one"}
        with mock.patch.dict(os.environ, others | given):
            environment = builds.built(self.top, ["program", "library"], 20)
        self.assertEqual([it for it in others if it in environment], [])
        self.assertEqual({it: environment[it] for it in given}, given)

    def test_a_build_has_a_limit_of_time(self):
        for script, why in {"sleep 60": "the program wasn't built in 1 seconds", "exit 3": "couldn't be built"}.items():
            with self.assertRaises(SystemExit) as told:
                builds.build(self.top, "the program", ["sh", "-c", script], 1)
            self.assertIn(why, str(told.exception))
