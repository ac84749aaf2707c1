"""Tests of the script `test`: that its last line counts all that was run, that nothing else is left out than what the
machine lacks, and that what it built of committed sources is noted."""

import contextlib
import os
import shutil
import subprocess
import sys
import tempfile
import unittest

import origin
from testing import TOP, put

# What a test says, how it ends, and what it makes.
SOUND = {
    "rt": ("proved\\n99 passed, 0 failed", 0, "mkdir -p crates/mvfeed/out; echo one >crates/mvfeed/out/mvfeed"),
    "tools/library.py": ("logic=proved", 0, "mkdir -p out; echo one >out/libripsawbean.a"),
    "embed/test": ("edges: passed\\nembed: 25 passed, 0 failed", 0),
    "server/install": ("", 0),
    "server/unit": ("ok. 290 passed; 0 failed; finished", 0),
}
GATE = ("gate.py", "gate_plan.py", "gate_seconds.py", "gate_watch.py", "kit.py", "side_by_side.py")
TOOLS = ("gcc", "objcopy", "ar", "ld", "nm", "cargo")
PROGRAM, LIBRARY = "crates/mvfeed/out/mvfeed", "crates/ripsawbean/out/libripsawbean.a"
COMMIT = "git -c user.name=a -c user.email=a@b commit -q -a -m sources"


def script(told, status, making=""):
    return "#!/bin/sh\n%s\nprintf '%%b' '%s\\n'\nexit %d\n" % (making, told, status)


@contextlib.contextmanager
def house_of(without=(), **changed):
    """A repository in place of this one, whose parts say, end or make something else, and which lacks some commands."""
    with tempfile.TemporaryDirectory() as house:
        shutil.copy(os.path.join(TOP, "test"), house)
        for name, it in {**SOUND, **{name.replace("_", "/"): it for name, it in changed.items()}}.items():
            if name not in without:
                put(house, "bin/rt" if name == "rt" else name, script(*it))
        for name in TOOLS:
            if name not in without:
                put(house, "bin/" + name, script("", 0))
        put(house, "crates/ripsawbean/lib.rt", "one\n")
        os.makedirs(os.path.join(house, "bin"), exist_ok=True)
        os.symlink(shutil.which("mkdir"), os.path.join(house, "bin", "mkdir"))
        put(house, "crates.txt", "ripsawbean staticlib: std\n")
        for name in (*GATE, "origin.py", "git.py"):
            shutil.copy(os.path.join(TOP, "tools", name), os.path.join(house, "tools"))
        yield house


def tested(house):
    """The status, and the last two lines."""
    environment = {"PATH": os.path.join(house, "bin"), "PYTHONDONTWRITEBYTECODE": "1"}
    words = [sys.executable, os.path.join(house, "test")]
    ran = subprocess.run(words, env=environment, capture_output=True, text=True)
    return ran.returncode, ran.stdout.splitlines()[-2:]


class Counts(unittest.TestCase):
    def last_lines(self, without=(), **changed):
        with house_of(without, **changed) as house:
            return tested(house)

    def test_all_that_is_run_is_counted(self):
        self.assertEqual(self.last_lines(), (0, [SOUND["server/unit"][0], "125 passed, 0 failed"]))

    def test_a_failure_of_any_part_fails_the_whole(self):
        for name, it, last in [
            ("rt", ("98 passed, 1 failed", 1), "98 passed, 1 failed"),
            ("rt", ("killed", 137), "0 passed, 1 failed"),
            ("rt", ("99 passed, 0 failed", 1), "99 passed, 1 failed"),
            ("tools_library.py", ("not proved", 1), "100 passed, 1 failed"),
            ("embed_test", ("embed: 24 passed, 1 failed", 1), "124 passed, 1 failed"),
            ("embed_test", ("gcc: error", 1), "100 passed, 1 failed"),
            ("server_unit", ("test result: FAILED", 101), "124 passed, 1 failed"),
        ]:
            status, lines = self.last_lines(**{name: it})
            self.assertEqual((status, lines[-1]), (1, last), (name, it))

    def test_packages_that_cannot_be_had_are_told_and_count_nothing(self):
        status, lines = self.last_lines(server_install=("there is no apt-get", 3))
        self.assertEqual((status, lines), (0, ["server/unit isn't run: there is no apt-get", "124 passed, 0 failed"]))

    def test_an_install_that_fails_otherwise_is_a_failure(self):
        for status in (1, 2, 100):
            found, lines = self.last_lines(server_install=("E: Unable to locate package", status))
            self.assertEqual((found, lines[-1]), (1, "124 passed, 1 failed"))

    def test_a_machine_without_a_compiler_is_told(self):
        for gone in TOOLS:
            status, lines = self.last_lines(without=(gone,))
            wanted = ["server/unit isn't run: it needs what embed/test builds", "99 passed, 0 failed"]
            self.assertEqual((status, lines), (0, wanted), gone)

    def test_a_gate_that_is_not_there_is_a_failure(self):
        status, lines = self.last_lines(without=(*TOOLS, "rt"))
        self.assertEqual((status, lines[-1]), (1, "0 passed, 1 failed"))

    def test_nothing_is_made_over_a_gate_that_failed(self):
        status, lines = self.last_lines(rt=("98 passed, 1 failed", 1))
        self.assertEqual((status, lines[0]), (1, "server/unit isn't run: it needs what embed/test builds"))


class Notes(unittest.TestCase):
    def noted(self, before=":", meanwhile=":", **changed):
        """The last line, and whether the program and the library are noted, where this is done before the test, and
        while the gate runs."""
        told, status, making = SOUND["rt"]
        with house_of(**{"rt": (told, status, making + " && " + meanwhile), **changed}) as house:
            os.symlink(shutil.which("git"), os.path.join(house, "bin", "git"))
            put(house, "crates.txt", "ripsawbean:\n")
            put(house, ".gitignore", "out/\n")
            beginning = "git init -q && git add -A && %s && %s" % (COMMIT, before)
            subprocess.run(["sh", "-c", beginning], cwd=house, check=True)
            _, lines = tested(house)
            notes = [origin.read(os.path.join(house, it)) for it in (PROGRAM, LIBRARY)]
            now = origin.committed(house, ["crates", "crates.txt"])
            self.assertTrue(all(it in (None, now) for it in notes), notes)
            return lines[-1], [it is not None for it in notes]

    def test_the_program_and_the_library_are_noted_with_what_is_committed(self):
        for before in (":", "echo more >README.md"):
            self.assertEqual(self.noted(before), ("125 passed, 0 failed", [True, True]))

    def test_nothing_is_noted_of_a_gate_or_a_library_that_failed(self):
        for name, last in {"rt": "99 passed, 1 failed", "tools_library.py": "100 passed, 1 failed"}.items():
            told, _, making = SOUND[name.replace("_", "/")]
            self.assertEqual(self.noted(**{name: (told, 1, making)}), (last, [False, False]))

    def test_nothing_is_noted_of_sources_that_are_not_those_of_the_commit(self):
        edit, back = "echo two >crates/ripsawbean/lib.rt", "git checkout -q crates"
        for steps in ((edit, ":"), (":", edit), (":", edit + " && " + COMMIT), (edit, COMMIT), (edit, back)):
            self.assertEqual(self.noted(*steps), ("125 passed, 0 failed", [False, False]), steps)

    def test_a_note_that_cannot_be_made_is_a_failure(self):
        for name in ("rt", "tools_library.py"):
            told, status, _ = SOUND[name.replace("_", "/")]
            self.assertEqual(self.noted(**{name: (told, status)})[0], "100 passed, 1 failed")


class Packages(unittest.TestCase):
    """What tools/packages makes of a machine."""

    def status_of(self, **commands):
        """The status and the last line, on a machine whose commands say and end as given."""
        with tempfile.TemporaryDirectory() as room:
            for name, text in {"id": "echo 0", "sleep": ":", "dpkg-query": "exit 1", **commands}.items():
                put(room, name.replace("_", "-"), "#!/bin/sh\n%s\n" % text)
            for name in ("sh", "grep", "seq", "timeout"):
                os.symlink(shutil.which(name), os.path.join(room, name))
            words = [os.path.join(TOP, "tools", "packages"), "one", "other"]
            ran = subprocess.run(words, env={"PATH": room}, capture_output=True, text=True)
            return ran.returncode, (ran.stdout.splitlines() or [""])[-1]

    def test_nothing_is_asked_for_where_all_are_there(self):
        self.assertEqual(self.status_of(**{"dpkg-query": "echo installed", "apt-get": "exit 9"}), (0, ""))

    def test_what_cannot_be_had(self):
        gone = ", and these aren't there: one other"
        self.assertEqual(self.status_of(), (3, "there is no apt-get" + gone))
        self.assertEqual(self.status_of(apt_get="exit 9", id="echo 7"), (3, "only root can install packages" + gone))
        self.assertEqual(self.status_of(apt_get="exit 9"), (3, "the lists of packages can't be fetched" + gone))

    def test_an_install_that_fails_with_fresh_lists_is_a_failure(self):
        self.assertEqual(self.status_of(apt_get='case "$*" in *update) ;; *) exit 100 ;; esac')[0], 100)

    def test_old_lists_serve_where_fresh_ones_cannot_be_had(self):
        self.assertEqual(self.status_of(apt_get='case "$*" in *update) exit 100 ;; esac')[0], 0)

    def test_what_another_holds_is_waited_for(self):
        with tempfile.TemporaryDirectory() as room:
            held = os.path.join(room, "held")
            apt = 'case "$*" in *update) [ -f %s ] || { echo "E: Could not get lock"; : >%s; exit 100; } ;; esac'
            self.assertEqual(self.status_of(apt_get=apt % (held, held))[0], 0)
            self.assertTrue(os.path.exists(held))
