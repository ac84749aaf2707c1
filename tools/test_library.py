"""Tests of library.py by a kit that only plays one."""

import os
import subprocess
import sys

import testing

KIT = testing.player("library_rt.py")


class Libraries(testing.Housed):
    def made_by(self, kit, *words):
        """The status, and what was told, where this is the kit's `rt`."""
        self.write("../bin/rt", kit)
        words = [sys.executable, os.path.join(testing.HERE, "library.py"), *words, "--jobs", "2"]
        ran = subprocess.run(words, env=self.environment(), capture_output=True, text=True, timeout=60)
        return ran.returncode, ran.stdout.splitlines()

    def test_a_library_has_its_statements_and_takes_no_kept_work(self):
        told = "lib --jobs 2 | a b --statements | a b | False"
        self.assertEqual(self.made_by(KIT), (3, [told]))

    def test_libraries_that_the_gate_left_are_taken_and_no_others(self):
        for path in ("of_gate/one.rlib/one", "put_back/one.rlib/one", "put_back/stamp"):
            self.write(path, "")
        paths = [os.path.join(self.top, it, "one.rlib") for it in ("of_gate", "put_back", "gone")]
        asked = "    print(*[Crate(it).is_built() for it in %r])\n" % paths
        kit = KIT.replace("    print(*words", asked + "    print(*words")
        told = ["adopts", "True False False", "lib --jobs 2 | a b | a b | True"]
        self.assertEqual(self.made_by(kit, "--of-gate"), (3, told))

    def test_another_kit_makes_the_library_in_its_own_way(self):
        itself = (0, ["itself lib --jobs 2"])
        for old, new in {"--statements": "", "def adopt": "def other", "libraries_keep=": "other="}.items():
            self.assertEqual(self.made_by(KIT.replace(old, new)), itself)
        self.assertEqual(self.made_by("#!/bin/sh\necho itself \"$@\"\n"), itself)
