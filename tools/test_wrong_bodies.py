"""Tests of the script `wrong-bodies`: what of a source an edit changes, what a check's lines show, and whole runs by an
`rt` that only plays one."""

import os
import shutil
import subprocess
import time
import unittest
from types import SimpleNamespace

import body_edits
import last_run
import testing
import tried
import wrong_bodies

PLAYER = testing.player("bodies_rt.py")
LOW = """
fn one()
    ensures { first }

    // Why.
    ensures { second }
{
    one is well
}

fn two() -> bool {
    two is well
}
"""


def edit(old, new, path="src/lib.rt"):
    return "file: %s\nold: %s\nnew: %s\n" % (path, old, new)


FILES = {
    "crates.txt": "low:\nmiddle: low\ntop: middle\nother: low\n",
    "crates/low/src/lib.rt": LOW,
    "crates/low/src/far.rt": "fn one() {\n    far is well\n}\n",
    "crates/low/must-fail/gate.edit": "of the gate\n",
    "crates/low/wrong-bodies/one.edit": "what: One is wrong.\n" + edit("one is well", "one is wrong"),
    "crates/low/wrong-bodies/two.edit": edit("two is well", "two is wrong"),
    "crates/middle/src/lib.rt": "middle\n",
    "crates/top/src/lib.rt": "fn three() {\n    three is well\n}\n",
    "crates/top/wrong-bodies/three.edit": edit("three is well", "three is wrong"),
    "crates/other/src/lib.rt": "of other\n",
    "crates/other/wrong-bodies/four.edit": edit("of other", "of another"),
    last_run.PAGE: last_run.HEAD,
}
ALL = ["low one two", "singly other/four", "top three"]


class Refusals(unittest.TestCase):
    def test_a_refusal_only_for_a_lost_name_or_by_a_limit_counts_for_nothing(self):
        nothing = {"d": " (only because a proof file names it): x", "e": " (only by a limit): x"}
        said = {"b": ": they differ", "c": "", **nothing}
        told = "".join("rt: must-fail a/%s.edit: refused, as it must be%s\n" % it for it in said.items())
        self.assertEqual(wrong_bodies.REFUSED.findall(told), ["a/b", "a/c"])


class Verdicts(unittest.TestCase):
    def test_an_edit_that_is_lost_on_the_way_is_told(self):
        """What no check refused is not refused, also where no check has tried it."""
        one, two, three = (SimpleNamespace(crate=crate, name=name) for crate, name in ("ax", "ay", "bz"))
        trial = object.__new__(wrong_bodies.Trial)
        trial.edits, trial.begun, trial.failed = {"a": [one, two], "b": [three]}, ["a"], []
        trial.refused = {"a/x"}
        self.assertEqual(trial.not_refused(), ["a/y"])


class Runs(testing.Housed):
    def setUp(self):
        super().setUp()
        self.notes, self.cache = os.path.join(self.room, "notes"), os.path.join(self.room, "cache")
        for path, text in {**FILES, "../bin/rt": PLAYER}.items():
            self.write(path, text)
        self.take_tools()
        self.commit()

    def ran(self, *given, forgets=True):
        """The status, what was told, and what was tried: batches of a crate by their functions, and single edits."""
        open(self.notes, "w").close()
        if forgets:
            shutil.rmtree(self.cache, ignore_errors=True)
        how = {"cwd": self.top, "env": self.environment(NOTES=self.notes, XDG_CACHE_HOME=self.cache)}
        ran = subprocess.run(["tools/wrong-bodies", *given], capture_output=True, text=True, **how)
        return ran.returncode, (ran.stdout or ran.stderr).splitlines(), sorted(self.lines(self.notes))

    def tried(self, *given):
        """The status, the last line, and what was tried."""
        status, told, tried = self.ran(*given)
        return status, told[-1], tried

    def with_edits(self, **edits):
        """What a run of the lowest crate with more edits comes to."""
        for name, text in edits.items():
            self.write("crates/low/wrong-bodies/%s.edit" % name, text)
        self.commit()
        return self.ran("low")

    def leave_library(self, crate):
        """Leaves a library as the gate does, later than any source."""
        made = os.path.join(self.top, "crates", crate, "out/rlib", crate + ".rlib")
        os.makedirs(made, exist_ok=True)
        os.utime(made, (time.time() + 9, time.time() + 9))

    def test_a_library_of_the_gate_shows_that_its_crate_is_proved(self):
        """A source that this `rt` wouldn't prove shows whether the crate is proved again."""
        self.write(".gitignore", "out/\n")
        self.write("crates/low/src/lib.rt", LOW + "// open\n")
        self.commit()
        self.assertEqual(self.ran("low")[2], [])
        self.leave_library("low")
        self.assertEqual(self.ran("low")[2], ["low one two"])
        self.write("crates/low/specs/Words.antt", "words\n")
        self.assertEqual(self.ran("low")[2], [], "what the gate saw isn't committed")
        self.commit()
        self.leave_library("low")
        self.assertEqual(self.ran("low")[2], ["low one two"])
        newer = os.path.join(self.top, "crates/low/src/far.rt")
        os.utime(newer, (time.time() + 99, time.time() + 99))
        self.assertEqual(self.ran("low")[2], [], "a source is newer")

    def test_a_library_over_one_that_is_missing_shows_nothing(self):
        self.write(".gitignore", "out/\n")
        self.write("crates/middle/src/lib.rt", "middle // open\n")
        self.commit()
        self.leave_library("middle")
        self.leave_library("top")
        self.assertEqual(self.tried("top")[2], [])

    def test_the_list_is_printed(self):
        status, told = self.ran("--list")[:2]
        self.assertEqual(status, 0)
        rows = [it for it in told if it.startswith(("#", "| `", "- "))]
        wanted = ["# Wrong bodies", "## low", "| `one` | One is wrong. |", "| `two` |  |", "- `gate`"]
        self.assertEqual(rows[:5], wanted)

    def test_a_library_that_was_taken_without_its_work_is_checked_once(self):
        for crate in ("low", "middle"):
            path = "crates/%s/src/lib.rt" % crate
            self.write(path, self.text(path) + "// taken\n")
        self.commit()
        self.assertEqual(self.ran()[2], sorted([*ALL, "low anew"]))

    def test_all_are_tried_and_none_of_the_gate_s(self):
        last = "wrong bodies: 4 tried in 3 crates, 0 crates left; each was refused"
        self.assertEqual(self.tried(), (0, last, ALL))
        self.assertEqual(self.tried("--jobs", "1"), (0, last, ALL))
        self.assertFalse(os.path.exists(os.path.join(self.top, "crates/low/out")))

    def test_each_alone_where_that_is_asked_for(self):
        last = "wrong bodies: 4 tried in 3 crates, 0 crates left; each was refused"
        alone = ["singly low/one", "singly low/two", "singly other/four", "singly top/three"]
        self.assertEqual(self.tried("--singly"), (0, last, alone))
        self.assertEqual(self.tried("--singly", "--minutes", "5"), (0, last, alone))

    def test_a_crate_or_one_body_is_tried_alone(self):
        self.assertEqual(self.tried("low")[2], ["low one two"])
        self.assertEqual(self.tried("low/two")[2], ["low two"])
        self.assertEqual(self.tried("low/two", "low/one")[1].split(";")[0][:25], "wrong bodies: 2 tried in ")
        self.assertEqual(self.tried("none")[0], 1)
        self.assertEqual(self.tried("low/none")[0], 1)

    def test_two_edits_of_one_function_are_never_tried_together(self):
        self.assertEqual(self.with_edits(anew=edit("one is well", "one is wrong too"))[2], ["low one", "low one two"])

    def test_of_a_name_that_several_functions_have_those_of_the_source_are_checked(self):
        told = "rattle: error: several functions are named `new`: help: write one of %s"
        offered = told % "`low::one::One::new`, `low::Low::new`, `low::one::new`, `low::one::two::new`"
        for path, wanted in [
            ("src/lib.rt", ["--only", "low::Low::new"]),
            ("src/one.rt", ["--only", "low::one::One::new", "--only", "low::one::new"]),
            ("src/one/two.rt", ["--only", "low::one::two::new"]),
        ]:
            asked = []

            def run(words):
                asked.append(words)
                return (1, offered) if words == ["--only", "new"] else (0, "only=1 proved=1")

            self.assertEqual(body_edits.check_alone("low", [("new", path)], run), (0, "only=1 proved=1"))
            self.assertEqual(asked, [["--only", "new"], wanted])
        self.assertEqual(body_edits.check_alone("low", [("new", "src/other.rt")], lambda _: (1, offered)), (1, offered))

    def test_functions_of_one_name_in_two_files_are_apart(self):
        told = self.with_edits(far=edit("far is well", "far is wrong", "src/far.rt"))[1]
        self.assertTrue(told[0].startswith("low: 3 refused in one check ("), told)

    def test_a_refusal_of_another_function_of_that_name_counts_for_nothing(self):
        """Two files have a function of one name. The body of one is wrong, and what is said of it is no refusal of the
        other's."""
        status, told, tried = self.with_edits(far=edit("far is well", "far is fine", "src/far.rt"))
        self.assertEqual((status, told[-2]), (1, "not refused: low/far"))
        self.assertEqual(tried, ["low far/one one two", "singly low/far"])

    def test_an_edit_of_a_contract_or_of_two_functions_is_tried_singly(self):
        both = edit("one is well", "one is wrong") + "old: two is well\nnew: two is wrong\n"
        _, _, tried = self.with_edits(clause=edit("{ second }", "{ third }"), both=both)
        self.assertEqual(tried, ["low one two", "singly low/both", "singly low/clause"])

    def test_one_that_the_check_does_not_name_is_tried_singly(self):
        status, _, tried = self.with_edits(two=edit("two is well", "two is silent"))
        self.assertEqual((status, tried), (0, ["low one two", "singly low/two"]))

    def test_one_that_is_let_through_is_told(self):
        status, told, tried = self.with_edits(two=edit("two is well", "two is fine"))
        self.assertEqual((status, tried), (1, ["low one two", "singly low/two"]))
        self.assertEqual(told[-2], "not refused: low/two")
        self.assertTrue(told[-1].endswith("0 crates left; not all were refused"))

    def test_a_check_that_ends_in_another_way_shows_nothing(self):
        status, _, tried = self.with_edits(far=edit("far is well", "far is unread", "src/far.rt"))
        halves = ["low far/one two", "low one"]
        self.assertEqual((status, tried), (0, ["low far/one one two", *halves, "singly low/far", "singly low/two"]))

    def test_a_crate_that_is_not_proved_is_told(self):
        self.write("crates/low/src/lib.rt", LOW + "// open\n")
        self.commit()
        status, told, tried = self.ran()
        self.assertEqual((status, tried, told[-2]), (1, [], "not refused: low itself"))

    def test_what_was_refused_is_not_tried_again_over_the_same_sources(self):
        self.with_edits(two=edit("two is well", "two is fine"))
        self.write("crates/other/src/lib.rt", "of other, anew\n")
        self.commit()
        status, told, tried = self.ran(forgets=False)
        self.assertEqual((status, told[0]), (1, "1 were refused before, over the same sources"))
        self.assertEqual(tried, ["low two", "singly low/two", "singly other/four", "top three"])
        self.write("crates/middle/src/lib.rt", "middle, anew\n")
        self.commit()
        self.assertEqual(self.ran("top", "other", forgets=False)[2], ["top three"])
        last = "wrong bodies: 2 tried in 2 crates, 0 crates left; each was refused"
        self.assertEqual(self.ran("top", "other", forgets=False)[1:], ([told[0].replace("1", "2"), last], []))

    def rows(self):
        """The crates of the page's rows, each with how many were tried and refused, and the commit."""
        return {name: (it.tried, it.refused, it.commit.strip("`")) for name, it in tried.of(self.top).items()}

    def test_crates_whose_rows_hold_are_passed_over(self):
        first = self.commit()
        last = "wrong bodies: 0 tried in 0 crates, 3 crates left; each was refused"
        told = ["rows that hold: 0; to try: low other top", last]
        self.assertEqual(self.ran("--stale", "--minutes", "0"), (0, told, []))
        self.assertEqual(self.tried("low/one", "top")[2], ["low one", "top three"])
        self.assertEqual(self.rows(), {"top": ("1", "1", first)})
        last = "wrong bodies: 4 tried in 3 crates, 0 crates left; each was refused"
        self.assertEqual(self.tried("--stale"), (0, last, ["low one two", "singly other/four"]))
        wanted = {"low": ("2", "2", first), "top": ("1", "1", first), "other": ("1", "1", first)}
        self.assertEqual(self.rows(), wanted)
        self.assertEqual(self.tried("--stale"), (0, last, []))
        self.write("crates/low/src/lib.rt", LOW.replace("two is well", "two is well, anew"))
        second = self.commit()
        self.assertEqual(self.tried("--stale")[2], ["low one two"])
        self.assertEqual(self.rows(), {**wanted, "low": ("2", "2", second)})

    def test_a_crate_of_which_one_was_not_refused_is_tried_again(self):
        self.with_edits(two=edit("two is well", "two is fine"))
        self.assertEqual({name: it[:2] for name, it in self.rows().items()}, {"low": ("2", "1")})
        self.assertEqual(self.tried("--stale", "--jobs", "1")[::2], (1, sorted([*ALL, "singly low/two"])))

    def test_what_was_refused_bit_by_bit_gives_a_row(self):
        self.ran("low/one")
        self.ran("low/two", forgets=False)
        self.assertEqual(self.rows(), {})
        self.assertEqual(self.ran("--stale", "--minutes", "0", forgets=False)[2], [])
        self.assertEqual(list(self.rows()), ["low"])

    def test_stale_crates_go_with_no_crate_and_no_commit(self):
        for more in (["low"], ["--since", "HEAD"]):
            status, told, batches = self.ran("--stale", *more)
            self.assertEqual((status, batches), (2, []))
            self.assertIn("--stale takes its crates from docs/LAST-RUN.md", told[-1])

    def test_a_comment_more_has_nothing_tried_again(self):
        self.ran("low")
        self.write("crates/low/src/lib.rt", "// Why.\n" + LOW)
        self.commit()
        self.assertEqual(self.ran("low", forgets=False)[2], [])

    def test_crates_of_a_commit_go_with_no_crate(self):
        """A crate that was named would not be tried, so nothing is, and the run fails."""
        status, told, tried = self.ran("--since", "HEAD", "low")
        self.assertEqual((status, tried), (2, []))
        self.assertIn("--since takes its crates from the commit", told[-1])

    def test_another_logic_tries_all_again(self):
        """What one logic refused says nothing of another one. A kit of the same logic may have any name."""
        self.ran("low")
        self.assertEqual(self.ran("low", forgets=False)[2], [])
        for version, tried in {"another kit logic 1a": [], "a kit logic 1b": ["low one two"]}.items():
            self.write("../bin/rt", PLAYER.replace("a kit logic 1a", version))
            self.assertEqual(self.ran("low", forgets=False)[2], tried)

    def test_a_crate_has_changed_where_any_file_of_its_proof_has(self):
        """Definitions, proofs and wrong bodies count as sources do."""
        for part in ("specs", "proofs", "wrong-bodies"):
            self.write("crates/middle/%s/Words.antt" % part, "words\n")
            self.commit()
            self.assertEqual(self.tried("--since", "HEAD~1")[2], ["top three"], part)

    def test_crates_that_changed_and_those_above(self):
        self.write("crates/middle/src/lib.rt", "middle, anew\n")
        self.write("crates/other/README.md", "no source\n")
        self.commit()
        self.assertEqual(self.tried("--since", "HEAD~1")[2], ["top three"])
        last = "wrong bodies: 0 tried in 0 crates, 0 crates left; each was refused"
        self.assertEqual(self.tried("--since", "HEAD")[1:], (last, []))

    def test_no_crate_is_begun_once_the_time_is_up(self):
        last = "wrong bodies: 0 tried in 0 crates, 3 crates left; each was refused"
        self.assertEqual(self.tried("--minutes", "0")[1:], (last, []))
        self.assertEqual(self.tried("--minutes", "0", "--singly")[1:], (last, []))
        self.assertEqual(self.tried("--minutes", "5")[2], ALL)


class Reading(unittest.TestCase):
    def test_where_a_body_begins_and_ends(self):
        text = (
            "impl A {\n    fn none(&self);\n\n"
            "    pub fn laid(\n        a: u8,\n    ) -> u8 {\n        if a {\n        }\n    }\n\n"
            "    pub(crate) const fn kept(&self)\n        requires { a }\n    {\n        body\n    }\n\n"
            "    fn law() {}\n}\n\n"
            "impl B for A\n{\n    a\n}\n"
        )
        found = {name: text[begin:end] for name, begin, end in body_edits.bodies(text)}
        self.assertEqual(found, {"laid": "        if a {\n        }\n", "kept": "        body\n"})

    def refused(self, *lines, path="src/far/places.rt", is_lone=False, status=1, last="logic=not-proved functions=3"):
        it = body_edits.Edit("low", "edit", path, "step", is_lone=is_lone)
        return it in body_edits.refusals([it], status, "\n".join([*lines, last, "rt: rt lemma finds one"]))

    def test_what_shows_that_a_function_is_refused(self):
        own = "fn low::far::places::Places::step: not proved"
        error = "./proofs/far/places/Places/step/Answers.antt:4:5: error: `returns`: the two types differ"
        goal = "note: `returns` of proofs/far/places/Places/step/Answers.antt must prove: a ≡ b"
        self.assertTrue(self.refused(own, error))
        self.assertTrue(self.refused(own, goal))
        self.assertTrue(self.refused(own, error, last="only=3 proved=2"))
        self.assertTrue(self.refused("fn low::step: not proved", error.replace("far/places/", ""), path="src/lib.rt"))
        self.assertFalse(self.refused(own))
        self.assertFalse(self.refused(error))
        self.assertFalse(self.refused("fn low::far::places::Places::step: proved", error))
        self.assertFalse(self.refused(own, error.replace("/step/", "/other/")))
        self.assertFalse(self.refused(own, error.replace("far/places/", "places/")))
        self.assertFalse(self.refused(own, error, path="src/lib.rt"))

    def test_a_function_with_a_name_of_its_own_is_known_in_any_module(self):
        own = "fn low::lock::Lock::step: not proved"
        error = "./proofs/lock/Lock/step/Answers.antt:4:5: error: `returns`: the two types differ"
        self.assertFalse(self.refused(own, error))
        self.assertTrue(self.refused(own, error, is_lone=True))
        self.assertFalse(self.refused(own.replace("low", "other"), error, is_lone=True))
        self.assertFalse(self.refused(own, error.replace("/step/", "/other/"), is_lone=True))

    def test_what_shows_nothing(self):
        own = "fn low::far::places::Places::step: not proved"
        error = "proofs/far/places/Places/step/Answers.antt:4:5: error: `returns`: "
        lost = ["`c` has no field `push`", "`c` has no `push`", "`push` is not in scope", "`one` was not admitted"]
        lost += ["`a` is no name", "an operand is missing", "expected the end of the term"]
        lost += ["`goal.returns`: module `Rattle.low.proofs.step.Goals` lacks it"]
        limits = ["it ran out of steps", "the memory limit is met", "the step limit is met", "it cannot continue"]
        for said in (*lost, *limits):
            self.assertFalse(self.refused(own, error + said), said)
        differs = error + "they differ"
        self.assertTrue(self.refused(own, differs))
        self.assertFalse(self.refused(own, differs, status=3))
        self.assertFalse(self.refused(own, differs, last="rattle was killed"))
        self.assertFalse(self.refused(own, differs, "error[E0308]: mismatched types"))
        self.assertFalse(self.refused(own, differs, "specs/Places.antt:1:1: error: `a` is not in scope"))
