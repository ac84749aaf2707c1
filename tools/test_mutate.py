"""Tests of the script `mutate`: what it turns of a source, what it leaves alone, and a whole run by an `rt` that only
plays one."""

import subprocess
import tempfile
import unittest
from typing import Dict, List

import mutations
import testing

SOURCE = """//! Low, with 7 words.
pub struct Low {
    most: u64,
    least: u64,
    name: u8,
}

impl Low {
    /// Why 1 < 2.
    pub fn took(&mut self, n: u64) -> Option<u64>
        requires { n < 3 }
        ensures { result \u2261 Some (n + 1) }
    {
%s
    }
}
"""
# Of each body: the lines as they come to be, each by what is told of it.
TURNED: Dict[str, List[str]] = {
    "        n < 4 && self.most >= n": ["n <= 4 &&", "n < 5 &&", "n < 4 ||", "self.least >=", "self.most > n"],
    "        self.most.max(n.saturating_sub(1))": ["self.least", "most.min", "saturating_add", "sub(2)"],
    "        if self.is_odd(n) {\n            return None;\n        }": ["if !(self.is_odd(n)) {"],
    "        if n == self.name {\n            n\n        }": ["if n != self.name {"],
    "        if let Some(n) = self.at(n) {\n            n\n        }": [],
    "        self.push(\n            n,\n        )?;\n        let it = n;\n        n": ["\n        let it"],
    "        match n {\n            Some(it) => Some(it),\n        }": ["=> None,"],
    '        // n + 1, "n"\n        out.write(b"1 < 2, \\"3", b\'=\')': [],
    "        for at in 0..=n.0 {\n            n\n        }": ["in 1..=n.0", "in 0..n.0"],
}


def results(body: str) -> List[str]:
    """The texts that the mutations of a source with this body make of it."""
    with tempfile.TemporaryDirectory() as folder:
        text = SOURCE % body
        testing.put(folder, "src/lib.rt", text)
        mutations.functions_of.cache_clear()
        found = mutations.mutations(folder, "low", "src/lib.rt")
    assert all(it.function == "took" and it.is_lone for it in found)
    return [text[: it.begin] + it.new + text[it.end :] for it in found]


class Turns(unittest.TestCase):
    def test_what_is_turned(self) -> None:
        for body, wanted in TURNED.items():
            with self.subTest(body=body):
                found = results(body)
                self.assertEqual(len(found), len(wanted))
                for text in wanted:
                    self.assertEqual(sum(text in it for it in found), 1, text)

    def test_a_mutation_says_its_line(self) -> None:
        with tempfile.TemporaryDirectory() as folder:
            testing.put(folder, "src/far.rt", "fn far() {\n    one();\n    two()\n}\n")
            mutations.functions_of.cache_clear()
            (only,) = mutations.mutations(folder, "low", "src/far.rt")
        self.assertEqual((only.line, only.what), (2, "`one();` dropped"))


PLAYER = testing.player("mutants_rt.py")
LOW = "fn one() {\n    return Some(1)\n}\n\nfn two() {\n    a.min(3 + b)\n}\n"


class Runs(testing.Housed):
    def setUp(self) -> None:
        super().setUp()
        for path, text in {"crates.txt": "low:\n", "crates/low/src/lib.rt": LOW, "../bin/rt": PLAYER}.items():
            self.write(path, text)
        self.take_tools()
        self.commit()

    def ran(self, *words: str) -> List[str]:
        how = {"cwd": self.top, "env": self.environment(), "text": True}
        return subprocess.run(["tools/mutate", *words], capture_output=True, **how).stdout.splitlines()

    def test_each_end_is_counted_and_what_is_still_proved_is_told(self) -> None:
        *proved, last = self.ran("low")
        places = ["still proved: src/lib.rt:6: two: `%s` in place of `%s`" % it for it in (("-", "+"), ("4", "3"))]
        self.assertEqual(sorted(proved), places)
        counts = "1 refused, 1 don't compile, 1 show nothing, 2 still proved"
        self.assertEqual(last, "mutate: 5 of 5 tried in low: " + counts)

    def test_a_part_is_tried(self) -> None:
        self.assertIn("mutate: 2 of 5 tried in low: ", self.ran("low", "--most", "2")[-1])
        self.assertIn("mutate: 0 of 5 tried in low: ", self.ran("low", "--minutes", "0")[-1])
        self.assertIn("mutate: 5 of 5 tried in low: ", self.ran("low", "--only", "lib.rt")[-1])
        self.assertEqual(self.ran("low", "--only", "far.rt"), [])
