"""Tests of which library the module finds, and which it refuses."""

import os
import shutil
import subprocess
import sys
import tempfile
import unittest

import ripsawbean

HERE = os.path.dirname(os.path.abspath(__file__))
OPENS = "import ripsawbean; ripsawbean.Database().close(); print(ripsawbean.handles.LIBRARY._name)"
# A library that tells its version alone.
OTHER = "unsigned ripsawbean_version(void) { return 0x%02x%02x%02x; }\n"
OWN = tuple(map(int, ripsawbean.__version__.split(".")))


class Library(unittest.TestCase):
    def setUp(self):
        room = tempfile.TemporaryDirectory()
        self.addCleanup(room.cleanup)
        self.room = room.name
        shutil.copytree(os.path.join(HERE, "ripsawbean"), os.path.join(self.room, "ripsawbean"))

    def imported(self, **environment):
        """What a copy of the module that stands alone says when it is imported."""
        environment = {**os.environ, "PYTHONPATH": self.room, **environment}
        if "RIPSAWBEAN_LIBRARY" not in environment or not environment["RIPSAWBEAN_LIBRARY"]:
            environment.pop("RIPSAWBEAN_LIBRARY", None)
        words = [sys.executable, "-c", OPENS]
        ran = subprocess.run(words, cwd="/", env=environment, capture_output=True, text=True)
        return ran.stdout.strip() or ran.stderr.strip().splitlines()[-1]

    def telling(self, version):
        """A library of another version, or of none."""
        path = os.path.join(self.room, "other.so")
        words = [os.environ.get("CC", "gcc"), "-shared", "-fPIC", "-x", "c", "-o", path, "-"]
        subprocess.run(words, input=OTHER % version if version else "", text=True, check=True)
        return path

    def test_the_systems_library_is_found_by_its_abi(self):
        os.mkdir(os.path.join(self.room, "system"))
        used = os.path.abspath(ripsawbean.handles.LIBRARY._name)
        os.symlink(used, os.path.join(self.room, "system", ripsawbean.handles.INSTALLED))
        told = self.imported(RIPSAWBEAN_LIBRARY="", LD_LIBRARY_PATH=os.path.join(self.room, "system"))
        self.assertEqual(told, "libripsawbean.so.0")

    def test_a_library_that_is_not_there_is_told_with_what_to_do(self):
        told = self.imported(RIPSAWBEAN_LIBRARY="/nowhere/libripsawbean.so")
        self.assertRegex(told, "^OSError: /nowhere/libripsawbean.so: .*: run embed/build, install")

    def test_a_library_of_another_version_is_refused(self):
        for place in range(3):
            other = (*OWN[:place], OWN[place] + 1, *OWN[place + 1 :])
            told = self.imported(RIPSAWBEAN_LIBRARY=self.telling(other))
            self.assertRegex(told, "^OSError: .*other.so is of version %d.%d.%d, and this module of " % other)

    def test_a_library_that_tells_no_version_is_refused(self):
        told = self.imported(RIPSAWBEAN_LIBRARY=self.telling(None))
        self.assertRegex(told, "^OSError: .*other.so tells no version, and this module is of ")

    def test_one_of_this_version_passes(self):
        told = self.imported(RIPSAWBEAN_LIBRARY=self.telling(OWN))
        self.assertRegex(told, "^AttributeError: .*: undefined symbol: ripsawbean_")


if __name__ == "__main__":
    unittest.main()
