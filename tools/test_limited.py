"""Tests of limited.py: a command that is cut off leaves nothing that it started."""

import os
import subprocess
import sys
import tempfile
import time
import unittest

import limited


class Limits(unittest.TestCase):
    def setUp(self):
        room = tempfile.TemporaryDirectory()
        self.addCleanup(room.cleanup)
        self.late = os.path.join(room.name, "late")

    def status_of(self, script, limit):
        return limited.status_of(["sh", "-c", script], limit)

    def test_a_command_has_its_status(self):
        self.assertEqual([self.status_of(it, 20) for it in ("true", "exit 3", "kill -9 $$")], [0, 3, -9])

    def test_what_takes_too_long_is_ended_with_all_that_it_started(self):
        self.assertIsNone(self.status_of("(sleep 3; touch %s) & sleep 60" % self.late, 1))
        time.sleep(3)
        self.assertFalse(os.path.exists(self.late))

    def test_what_was_cut_off_has_time_to_end_what_it_started_elsewhere(self):
        script = "(trap 'sleep 1; touch %s; exit' TERM; sleep 60 & wait) & wait" % self.late
        self.assertIsNone(self.status_of(script, 1))
        self.assertTrue(os.path.exists(self.late))

    def test_a_script_that_is_ended_ends_its_command(self):
        script = "import limited; limited.status_of(['sh', '-c', 'sleep 3; touch %s'], 60)" % self.late
        ran = subprocess.Popen([sys.executable, "-c", script], cwd=os.path.dirname(__file__), stderr=subprocess.PIPE)
        time.sleep(1)
        ran.send_signal(2)
        ran.communicate(timeout=50)
        time.sleep(3)
        self.assertFalse(os.path.exists(self.late))
