"""Plants a breach of each rule of lint.py in a small house that keeps them all, and sees that the rule, and no other,
tells it."""

import contextlib
import io
import subprocess
import tempfile
import unittest
from unittest import mock

import lint
import testing

lint.MOST_CLAUSES = 0

LOGIC = "00112233445566ff"
SOUND = {
    "README.md": "# House\n\nHouse is small. It has 12 crates, eleven commands; [more](docs/GUIDE.md#first-steps).\n\n"
    "| server | 33,737 |\n\nProved with Rattle of logic %s.\n" % LOGIC,
    "docs/PERFORMANCE.md": "# Performance\n\nFor askers. It makes 33,737.\n",
    "docs/GUIDE.md": "# Guide\n\nFor users.\n\n## First steps\n\n"
    "See `crates/low/src/lib.rt`, 12 must-fail edits and `kept`'s two public functions.\n",
    "crates.txt": "low: # the lowest\n" + "".join("c%d: low\n" % n for n in range(11)),
    "crates/low/src/lib.rt": "//! Low.\n\npub struct Low;\n\n"
    "pub fn one() -> u8\n    ensures { result \u2261 1 }\n{\n    1\n}\n",
    "crates/spans/src/calls/commands.rt": "//! Commands.\n\npub enum Cmd {\n%s}\n"
    % "".join("    C%d { ts: u64 },\n" % n for n in range(11)),
    "crates/low/specs/Ones.antt": "-- what one is\n",
    "crates/command_line/src/version.rt": "//! Which.\n\n"
    'const VERSION: &str = "0.1.0\nproved with Rattle of logic %s";\n' % LOGIC,
    "embed/rust/Cargo.toml": '[package]\nversion = "0.1.0"\n',
    "CHANGELOG.md": "# What has changed\n\n## 0.1.0\n\n## 0.0.9\n",
    "clients/javascript/package.json": '{\n  "version": "0.1.0"\n}\n',
    "embed/python/ripsawbean/handles.py": 'VERSION = "0.1.0"\nINSTALLED = "libripsawbean.so.3"\n',
    "embed/ripsawbean.h": "#define RIPSAWBEAN_VERSION 0x000100\n#define RIPSAWBEAN_ABI 3\n"
    "uint8_t ripsawbean_open(ripsawbean *db);\nconst char *ripsawbean_name(void);\n"
    "static inline int ripsawbean_read(void) {\n    return ripsawbean_open(0);\n}\n",
    "packaging/debian/control.in": "Package: ripsawbean\n\nPackage: libripsawbean3\n",
    "packaging/debian/libripsawbean3.symbols": "libripsawbean.so.3 libripsawbean3 #MINVER#\n"
    " ripsawbean_name@RIPSAWBEAN_3 0.1.0\n ripsawbean_open@RIPSAWBEAN_3 0.1.0\n",
    "tools/run": "#!/bin/sh\n# Runs it.\n",
    "tools/wrong-bodies": "#!/bin/sh\n# Tries them.\n",
    "crates/kept/src/lib.rt": "//! Kept.\n\npub fn one() {}\npub fn two() {}\nfn three() {}\n",
    "web/README.md": "# Web\n\nA tour of two\nsteps.\n\n- **`module/make`**, 2 lines\n",
    "web/playground/tour.mjs": '// The tour: two steps.\n    title: "One",\n    title: "Two",\n',
    "web/module/make": "#!/bin/sh\n# Makes it.\n",
}
SOUND.update(
    {"crates/low/must-fail/e%d.edit" % n: "file: src/lib.rt\nold:     1\nnew:     %d\n" % (n + 2) for n in range(12)}
)
SOUND["crates/low/wrong-bodies/two.edit"] = "what: One is two.\nfile: src/lib.rt\nold:     1\nnew:     2\n"


@contextlib.contextmanager
def house_of(files):
    """The folder of a house of these files."""
    with tempfile.TemporaryDirectory() as top:
        for path, text in files.items():
            testing.put(top, path, text)
        subprocess.run(["git", "-C", top, "init", "-q"], check=True)
        yield top


def breaches(files, rules=None):
    """The rules that are broken in a house of these files."""
    with house_of(files) as top:
        house = lint.House(top, logic=LOGIC)
        return [name for name in rules or lint.RULES for _ in lint.RULES[name](house)]


def planted(path, old, new):
    """The small house with one text changed, or a file added where there is no old text."""
    files = dict(SOUND)
    files[path] = files[path].replace(old, new, 1) if old else new
    assert files[path] != SOUND.get(path)
    return files


LIB = "crates/low/src/lib.rt"
PLANTED = {
    "clause_length": [
        (LIB, "result \u2261 1", "result \u2261 1" + " + 0" * 50),
        (LIB, "fn one() -> u8\n    ensures { ", 'extern "C" fn one() -> u8\n    ensures { 1 \u2261 1' + " + 0" * 50),
    ],
    "names_once": [
        ("crates/c1/src/lib.rt", "", "//! Another.\n\npub enum Low { One }\n"),
        ("crates/c1/src/lib.rt", "", "//! Another.\n\npub(crate) trait Low {}\n"),
        ("tools/names-twice", "", "Low: low c1\n"),
    ],
    "subjects": [
        (LIB, "pub struct", "/// What is low.\npub struct"),
        (LIB, "pub fn one", "    /// Where one is,\n/// if it is.\npub fn one"),
    ],
    "edits_apply": [
        ("crates/low/must-fail/e3.edit", "    1", "    one"),
        ("crates/low/must-fail/e3.edit", "lib.rt", "gone.rt"),
        ("crates/low/must-fail/e3.edit", "old:     1\n", "old: 1\n"),
    ],
    "figures": [
        ("README.md", "12 crates", "13 crates"),
        ("README.md", "eleven", "twenty-one"),
        ("docs/GUIDE.md", "12 must-fail", "14 must-fail"),
        ("docs/GUIDE.md", "12 must-fail edits", "12 must-fail edits, 30 more wrong bodies"),
        ("docs/GUIDE.md", "two public", "three public"),
        ("web/README.md", "of two", "of three"),
        ("web/README.md", "2 lines", "3 lines"),
        ("web/playground/tour.mjs", '    title: "Two",\n', ""),
        ("web/playground/tour.mjs", "two", "ten"),
    ],
    "wrong_bodies": [
        ("crates/low/wrong-bodies/two.edit", "One is two.", "One is two"),
        ("crates/low/wrong-bodies/two.edit", "what: One is two.\n", ""),
    ],
    "links": [
        ("README.md", "docs/GUIDE.md", "docs/GUIDES.md"),
        ("README.md", "#first", "#last"),
        ("docs/GUIDE.md", "src/lib.rt", "src/lob.rt"),
    ],
    "claims": [
        (
            "docs/PROOF.md",
            "",
            "# Proof\n\nFor auditors.\n\n## Low (crate `low`)\n\n| `Low::one` | one |\n| `two` | two |\n",
        ),
        ("docs/PROOF.md", "", "# Proof\n\nFor auditors.\n\n## Low (crate `low`)\n\n| `one`, `_ne`, `_two` | one |\n"),
        ("docs/PROOF.md", "", "# Proof\n\nFor auditors.\n\n## Kept (crate `kept`)\n\n| `one`, `three` | one |\n"),
    ],
    "logic_of_readme": [("README.md", LOGIC, LOGIC[:-1] + "e"), ("README.md", LOGIC, "")],
    "logic_of_program": [
        ("crates/command_line/src/version.rt", LOGIC, LOGIC + "e"),
        ("crates/command_line/src/version.rt", "proved", "built"),
    ],
    "versions": [
        ("embed/rust/Cargo.toml", "0.1.0", "0.2.0"),
        ("CHANGELOG.md", "0.1.0", "0.2.0"),
        ("CHANGELOG.md", "## 0.1.0\n", ""),
        ("clients/javascript/package.json", "0.1.0", "0.1.1"),
        ("embed/python/ripsawbean/handles.py", "0.1.0", "0.1.1"),
        ("embed/python/ripsawbean/handles.py", "so.3", "so.4"),
        ("embed/ripsawbean.h", "0x000100", "0x000101"),
        ("embed/ripsawbean.h", "0x000100", "VERSION"),
        ("embed/ripsawbean.h", "_name(", "_named("),
        ("packaging/debian/control.in", "libripsawbean3", "libripsawbean4"),
        ("packaging/debian/libripsawbean3.symbols", " ripsawbean_open@RIPSAWBEAN_3", " ripsawbean_open@RIPSAWBEAN_4"),
    ],
    "heads": [
        (LIB, "//! Low.\n", ""),
        ("crates/low/specs/Ones.antt", "-- ", ""),
        ("tools/run", "# Runs it.\n", "exec true\n"),
        ("docs/GUIDE.md", "For users", "Use it"),
        ("README.md", "House is", "It is"),
    ],
    "file_length": [("docs/GUIDE.md", "\n## First", "\n" * 600 + "## First")],
    "line_length": [
        ("docs/GUIDE.md", "For users.", "For users." + " word" * 30),
        ("tools/run", "Runs it.", "Runs it." + " word" * 30),
        ("tools/running.py", "", '"""Runs it."""' + "  # word" * 30),
    ],
    "paths_of_machines": [("README.md", "more", "/ho" + "me/me/more")],
    "pictures": [
        ("docs/pictures/one.txt", "", "layers One\nrow: box\n"),
    ],
    "words": [
        ("docs/GUIDE.md", "For users.", "For users." + "\nword" * 500),
        ("README.md", "House is small.", "House is small." + "\nword" * 200),
    ],
    "measured": [
        ("README.md", "33,737", "33,738"),
        ("README.md", "33,737", "3,737"),
        ("docs/PERFORMANCE.md", "33,737", "33,7370"),
    ],
}


class Rules(unittest.TestCase):
    def setUp(self):
        self.most = lint.MOST_WORDS, lint.MOST_WORDS_OF_README
        lint.MOST_WORDS, lint.MOST_WORDS_OF_README = 400, 200

    def tearDown(self):
        lint.MOST_WORDS, lint.MOST_WORDS_OF_README = self.most

    def test_a_sound_house_breaks_none(self):
        self.assertEqual(breaches(SOUND), [])

    def test_each_rule_has_a_planted_breach(self):
        self.assertEqual(set(PLANTED), set(lint.RULES))

    def test_each_planted_breach_is_told(self):
        for rule, plants in PLANTED.items():
            for path, old, new in plants:
                with self.subTest(rule=rule, path=path, old=old):
                    self.assertEqual(set(breaches(planted(path, old, new))), {rule})

    def test_a_version_of_the_program_is_that_of_all_places(self):
        changed = planted("crates/command_line/src/version.rt", "0.1.0", "0.1.1")
        self.assertEqual(breaches(changed), 5 * ["versions"])

    def test_an_abi_of_the_header_is_that_of_all_places(self):
        self.assertEqual(breaches(planted("embed/ripsawbean.h", "ABI 3", "ABI 4")), 3 * ["versions"])

    def test_an_edit_of_two_pairs_is_read_in_its_order(self):
        both = "file: src/lib.rt\nold:     1\nnew:     2\nold:     2\nnew:     3\n"
        self.assertEqual(
            breaches(planted("crates/low/must-fail/e3.edit", SOUND["crates/low/must-fail/e3.edit"], both)), []
        )

    def test_the_status_tells_a_breach(self):
        """A script that runs the lint goes by its status, and a person by its last line."""
        for files, status in [(SOUND, 0), (planted("README.md", "docs/GUIDE.md", "docs/GUIDES.md"), 1)]:
            with house_of(files) as top, mock.patch.object(lint, "TOP", top):
                with contextlib.redirect_stdout(io.StringIO()) as told:
                    self.assertEqual(lint.main(["links", "heads"]), status)
            self.assertEqual(told.getvalue().splitlines()[-1], "lint: 2 rules, %d breaches" % status)

    def test_numbers_are_read_in_words(self):
        told = {"12": 12, "twenty": 20, "twenty-one": 21, "Nineteen": 19, "several": None, "and": None}
        self.assertEqual({it: lint.number_of(it) for it in told}, told)
