"""Tests of side_by_side.py: which crates are started when, and whole builds of a small repository by an `rt` that only
plays one."""

import os
import signal
import subprocess
import sys
import time
import unittest

import gate_seconds
import origin
import side_by_side
import testing
from side_by_side import Crate, Start

PLAYER = testing.player("builds_rt.sh")
DEPS = {"low": [], "left": ["low"], "right": ["low"], "lone": [], "top": ["left", "right"]}


def crate(name, *deps, seconds=10, memory=1):
    return Crate(name, deps, "library", seconds, memory)


class Choice(unittest.TestCase):
    def chosen(self, waiting, made=(), running=(), processors=4, memory=100):
        behind = side_by_side.behind([*[it.crate for it in running], *waiting])
        starts = side_by_side.chosen(waiting, set(made), running, processors, memory, behind)
        return [(it.crate.name, it.jobs) for it in starts]

    def test_those_with_the_longest_chain_behind_them_come_first(self):
        crates = [crate("a"), crate("b", seconds=5), crate("c", "b", seconds=50)]
        self.assertEqual(self.chosen(crates, processors=2), [("b", 2), ("a", 1)])

    def test_a_crate_waits_for_those_below(self):
        self.assertEqual(self.chosen([crate("a", "b")]), [])
        self.assertEqual(self.chosen([crate("a", "b")], made={"b"}), [("a", 4)])

    def test_the_urgent_one_gets_all_jobs_beside_others(self):
        crates = [crate("a", seconds=9), crate("b"), crate("c", seconds=8)]
        self.assertEqual(self.chosen(crates), [("b", 4), ("a", 1), ("c", 1)])
        for seconds, jobs in {15: 4, 30: 3}.items():
            gentle = Start(crate("x", seconds=seconds), 1, False)
            self.assertEqual(self.chosen([crate("a")], running=[gentle]), [("a", jobs)])

    def test_processors_that_nobody_waits_for_are_shared_out(self):
        urgent = Start(crate("x", seconds=30), 4, True)
        self.assertEqual(self.chosen([crate("a"), crate("b")], running=[urgent]), [("a", 1), ("b", 1)])
        self.assertEqual(self.chosen([crate("a")], running=[urgent]), [("a", 2)])
        self.assertEqual(self.chosen([crate("a")], running=[urgent, Start(crate("y"), 2, False)]), [])

    def test_memory_bounds_both(self):
        crates = [crate("a", memory=60), crate("b", memory=60)]
        self.assertEqual(self.chosen(crates), [("a", 2)])
        self.assertEqual(self.chosen([crate("a", memory=90)]), [("a", 1)])
        self.assertEqual(self.chosen([crate("a", memory=900)]), [("a", 1)])
        running = [Start(crate("x", memory=20), 1, False)]
        self.assertEqual(self.chosen([crate("a", memory=90)], running=running), [])

    def test_what_is_left_is_a_chain_or_the_work_shared_out(self):
        chain = [crate("a"), crate("b", "a"), crate("c", "b")]
        self.assertEqual(side_by_side.seconds_left(chain, 1), 30)
        self.assertAlmostEqual(side_by_side.seconds_left(chain, 4), 30 / 1.9)
        self.assertEqual(side_by_side.seconds_left([crate(it) for it in "abcdefgh"], 2), 40)
        self.assertEqual(side_by_side.seconds_left([], 2), 0)


class Builds(testing.Housed):
    def setUp(self):
        super().setUp()
        self.notes = os.path.join(self.room, "notes")
        self.write("../bin/rt", PLAYER)
        self.take_tools()
        self.write("crates.txt", "".join("%s: %s\n" % (name, " ".join(deps)) for name, deps in DEPS.items()))
        for name in DEPS:
            self.write("crates/%s/src/%s.rt" % (name, "main" if name == "top" else "lib"), "as %s\n" % name)
        self.write(".gitignore", "out/\n")
        subprocess.run(["git", "-C", self.top, "init", "-q"], check=True)

    def started(self):
        words = [sys.executable, os.path.join(self.top, "tools/side_by_side.py"), "top", "run"]
        return subprocess.Popen(words, env=self.environment(NOTES=self.notes), stderr=subprocess.PIPE, text=True)

    def build(self):
        """The status, what was told, and which crates were proved, in their order."""
        open(self.notes, "w").close()
        ran = self.started()
        told = ran.communicate(timeout=50)[1]
        return ran.returncode, told, [it.split()[0] for it in self.noted() if " ends" in it]

    def noted(self):
        return self.lines(self.notes)

    def rooms(self):
        return os.path.join(self.top, ".git", "side-by-side")

    def test_a_program_is_made_with_all_below_it_and_nothing_else(self):
        status, told, proved = self.build()
        self.assertEqual((status, proved[0], proved[-1]), (0, "low", "top"))
        self.assertEqual(sorted(proved), ["left", "low", "right", "top"])
        self.assertTrue(os.path.isfile(os.path.join(self.top, "crates/top/out/top")))
        self.assertIn("top begins run --jobs", self.noted()[-2])
        self.assertIn("-- run", self.noted()[-2])
        self.assertRegex(told, r"low is proved in \d+ processor seconds, 3 left")
        self.assertIn("none left", told)
        self.assertEqual(os.listdir(self.rooms()), [])

    def test_a_static_library_is_no_library_for_crates_above(self):
        self.write("crates.txt", "low:\nlone may_wait=2 staticlib: low\ntop staticlib_not: low\n")
        kinds = {name: side_by_side.crates_for(self.top, name)[-1].kind for name in ("low", "lone", "top")}
        self.assertEqual(kinds, {"low": "library", "lone": "static", "top": "program"})

    def test_seconds_that_were_measured_stand_for_those_that_are_reckoned(self):
        gate_seconds.put(self.top, {"left": gate_seconds.Spent(500, 90)})
        seconds = {it.name: it.seconds for it in side_by_side.crates_for(self.top, "top")}
        self.assertEqual((seconds["left"], seconds["right"]), (500, 8 + 0.008))

    def test_what_was_proved_is_not_proved_again(self):
        self.build()
        self.assertEqual(self.build()[2], [])
        self.write("crates/right/src/lib.rt", "as right, anew\n")
        self.assertEqual(self.build()[2], ["right"])

    def test_the_kit_knows_where_the_work_is_kept_at_last(self):
        self.build()
        for name in ("low", "left", "right"):
            noted = self.text(self.notes + "." + name).strip()
            self.assertEqual(os.path.realpath(noted), os.path.realpath(self.top + "/crates/" + name))
            self.assertEqual(sorted(os.listdir(self.top + "/crates/" + name + "/out")), ["incremental", "rlib"])

    def test_a_kit_that_takes_no_library_is_asked_once(self):
        self.write("../bin/rt", PLAYER.replace("known=", "known=; : "))
        status, _, proved = self.build()
        self.assertEqual((status, sorted(proved)), (0, ["left", "low", "low", "right", "top"]))
        self.assertEqual(self.build()[2], [])

    def test_a_crate_that_is_not_proved_ends_the_build(self):
        self.write("crates/left/src/lib.rt", "wrong\n")
        status, told, proved = self.build()
        self.assertEqual((status, "top" in proved), (1, False))
        self.assertIn("left is not proved", told)
        self.write("crates/left/src/lib.rt", "as left\n")
        self.assertEqual(self.build()[0], 0)

    def test_a_top_that_is_not_proved_fails_the_build(self):
        """The crate that was asked for counts as made only once its own proof has ended well."""
        self.write("crates/top/src/main.rt", "wrong\n")
        status, told, proved = self.build()
        self.assertEqual((status, sorted(proved)), (1, ["left", "low", "right"]))
        self.assertIn("top failed", told)

    def test_a_proof_that_was_killed_ends_the_build(self):
        """A proof that ends by a signal, as where memory lacks, is no proof."""
        killed = "[ $name != left ] || kill -9 $$\nmkdir -p out/incremental out/rlib"
        self.write("../bin/rt", PLAYER.replace("mkdir -p out/incremental out/rlib", killed))
        status, told, proved = self.build()
        self.assertEqual((status, "top" in proved), (1, False))
        self.assertIn("left failed", told)

    def test_a_room_has_the_files_of_the_checkout_alone(self):
        """A room stays where a run is broken off. A file that goes from the checkout meanwhile goes from the room too,
        because else the text that is proved is not the one that stands there."""
        room = os.path.join(self.room, "a room")
        for name in ("left", "low"):
            self.write("crates/%s/proofs/Gone.antt" % name, "gone\n")
        side_by_side.furnish(self.top, room, "left", ["low"])
        for name in ("left", "low"):
            os.remove(os.path.join(self.top, "crates", name, "proofs/Gone.antt"))
        side_by_side.furnish(self.top, room, "left", ["low"])
        for name in ("left", "low"):
            found = [it for _, _, names in os.walk(os.path.join(room, "crates", name)) for it in names]
            self.assertEqual(found, ["lib.rt"])

    def test_a_proof_goes_on_with_the_work_of_the_last_one(self):
        """What the checkout keeps of a crate's proof is what the next proof of the crate begins with."""
        self.build()
        self.write("crates/top/src/main.rt", "as top, anew\n")
        self.assertEqual(self.build()[2], ["top"])
        self.assertEqual(self.text("crates/top/out/incremental/work"), "begun\nbegun\n")

    def test_of_two_at_once_one_waits_and_finds_all_made(self):
        self.write("crates/left/src/lib.rt", "brief\n")
        open(self.notes, "w").close()
        both = [self.started(), self.started()]
        told = [it.communicate(timeout=50)[1] for it in both]
        self.assertEqual([it.returncode for it in both], [0, 0])
        self.assertEqual(len([it for it in self.noted() if " ends" in it]), 4)
        self.assertEqual(len([it for it in self.noted() if " begins" in it]), 4)
        self.assertEqual(sum("waiting for it" in it for it in told), 1)

    def test_of_two_at_once_none_takes_an_older_program_for_a_new_one(self):
        """The program of an earlier build stays where a proof fails, and is not what the one that waited has asked
        for."""
        self.build()
        self.write("crates/top/src/main.rt", "wrong\n")
        self.write("../bin/rt", PLAYER.replace("grep -q wrong src/*.rt &&", "grep -q wrong src/*.rt && sleep 2 &&"))
        both = [self.started(), self.started()]
        told = "".join(it.communicate(timeout=50)[1] for it in both)
        self.assertEqual([it.returncode for it in both], [1, 1])
        self.assertEqual(told.count("waiting for it"), 1)

    def test_of_two_at_once_the_later_one_proves_what_was_edited_meanwhile(self):
        """A build is of the sources as they stand when it begins or later."""
        self.write("crates/left/src/lib.rt", "brief\n")
        open(self.notes, "w").close()
        both = [self.started()]
        while not any(it.startswith("left begins") for it in self.noted()):
            time.sleep(0.05)
        self.write("crates/left/src/lib.rt", "as left, anew\n")
        os.utime(os.path.join(self.top, "crates/left/src/lib.rt"))
        both.append(self.started())
        for it in both:
            it.communicate(timeout=50)
        self.assertEqual([it.returncode for it in both], [0, 0])
        self.assertEqual(self.text("crates/left/out/rlib/made"), "as left, anew\n")

    def test_what_is_made_is_noted_with_the_sources_that_it_is_of(self):
        made = os.path.join(self.top, "crates/top/out/top")
        self.commit()
        self.build()
        self.assertEqual(origin.fault(self.top, made, ["crates", "crates.txt"]), "")
        self.write("crates/left/src/lib.rt", "as left, anew\n")
        self.build()
        self.assertIsNone(origin.read(made))
        self.commit()
        self.assertEqual((self.build()[2], origin.fault(self.top, made, ["crates", "crates.txt"])), ([], ""))

    def test_what_is_committed_during_a_build_is_not_noted(self):
        self.write("crates/left/src/lib.rt", "brief\n")
        self.commit()
        open(self.notes, "w").close()
        ran = self.started()
        while not any(it.startswith("left begins") for it in self.noted()):
            time.sleep(0.05)
        self.write("crates/top/src/main.rt", "as top, anew\n")
        self.commit()
        ran.communicate(timeout=50)
        self.assertEqual((ran.returncode, origin.read(os.path.join(self.top, "crates/top/out/top"))), (0, None))

    def test_a_run_that_is_broken_off_loses_nothing(self):
        self.write("crates/left/src/lib.rt", "slow\n")
        open(self.notes, "w").close()
        ran = self.started()
        while not any(it.startswith("left begins") for it in self.noted()):
            time.sleep(0.05)
        time.sleep(0.5)
        ran.send_signal(signal.SIGINT)
        ran.communicate(timeout=30)
        self.assertNotEqual(ran.returncode, 0)
        self.assertIn("left", os.listdir(self.rooms()))
        status, _, proved = self.build()
        self.assertEqual((status, "low" in proved, "left" in proved), (0, False, True))
        self.assertEqual(self.text("crates/left/out/incremental/work"), "begun\nbegun\n")
