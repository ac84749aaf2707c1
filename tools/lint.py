#!/usr/bin/env python3
"""`tools/lint.py [RULE..]` looks for breaches of the house's own rules, which no proof and no test sees. It takes a
second or two.

Each function below is a rule, and its comment says it. A breach is a line `path:line: rule: what`, and the status is
then 1. `tools/test_lint.py` plants a breach of each rule in a small house.
"""

import os
import re
import sys
from collections import defaultdict

import body_list
import git
import kit

TOP = os.path.dirname(os.path.dirname(os.path.abspath(__file__)))
LONGEST_CLAUSE = 160
MOST_LINES = 600
LONGEST_LINE = 120
MOST_WORDS = 26000
MOST_WORDS_OF_README = 1200
# README says what its project is, and each other page for whom it is.
README_OPENS = r"# (\w+)\n\s*\1 is "
PAGE_OPENS = r"# [^\n]*\n(?:\s*<!--.*?-->)?\s*\*?For "
# Comments that begin with a clause in the place of their subject. The number may only fall.
MOST_CLAUSES = 4
# The pages that the rules of words and figures leave alone, because scripts write them.
WRITTEN = ("docs/LAST-RUN.md",)
UNITS = """zero one two three four five six seven eight nine ten eleven twelve thirteen fourteen fifteen sixteen
seventeen eighteen nineteen""".split()
TENS = {"twenty": 20, "thirty": 30, "forty": 40, "fifty": 50, "sixty": 60}
# Files that nobody reads line by line. The page is built, as one file.
NOT_READ = (".svg", ".lock", ".tsv", ".transcript", ".json", ".png", ".wasm", "web/playground.html")

RULES = {}


def rule(function):
    RULES[function.__name__] = function
    return function


class House:
    """The files that git knows, and those that it doesn't know yet and doesn't ignore."""

    def __init__(self, top, logic=None):
        self.top = top
        listed = git.said(top, "ls-files", "-z", "--cached", "--others", "--exclude-standard")
        self.paths = sorted({it for it in listed.split("\0") if it and os.path.isfile(os.path.join(top, it))})
        self.read = {}
        self.given_logic = logic

    def text(self, path):
        if path not in self.read:
            with open(os.path.join(self.top, path), encoding="utf-8", errors="replace") as it:
                self.read[path] = it.read()
        return self.read[path]

    def lines(self, path):
        return enumerate(self.text(path).splitlines(), 1)

    def ending(self, *endings, under=""):
        return [it for it in self.paths if it.endswith(endings) and it.startswith(under)]

    def pages(self):
        """README.md and the pages of docs/, and not those of docs/web and docs/server, which stand round the core."""
        return [it for it in self.paths if re.fullmatch(r"README\.md|docs/[\w-]+\.md", it)]

    def crates(self):
        names = [line.partition("#")[0].partition(":") for line in self.text("crates.txt").splitlines()]
        return [head.split()[0] for head, colon, _ in names if colon]

    def logic(self):
        """The logic of the kit that is installed."""
        self.given_logic = self.given_logic or kit.logic()
        return self.given_logic


def line_at(text, at):
    return text.count("\n", 0, at) + 1


def closed_at(text, at):
    """Where the brace that opens at this place is closed."""
    depth = 0
    for found in re.compile("[{}]").finditer(text, at):
        depth += 1 if found[0] == "{" else -1
        if depth == 0:
            return found.start()
    return len(text) - 1


# A function's name, with a first group where it is public to all, or the beginning of a clause with its brace.
FUNCTION_OR_CLAUSE = re.compile(
    r'^ *(?:(pub )|pub\([a-z]+\) )?(?:const )?(?:unsafe )?(?:extern "C" )?fn \w+'
    r"|^ *(?:requires|ensures)\b[^{\n]*\{",
    re.M,
)


@rule
def clause_length(house):
    """A clause of a public function has at most 160 characters."""
    for path in house.ending(".rt", under="crates/"):
        text, is_public = house.text(path), False
        for found in FUNCTION_OR_CLAUSE.finditer(text):
            if not found[0].endswith("{"):
                is_public = found[1] is not None
            elif is_public:
                clause = " ".join(text[found.end() - 1 : closed_at(text, found.end() - 1) + 1].split())
                if len(clause) > LONGEST_CLAUSE:
                    yield path, line_at(text, found.start()), "a clause of %d characters" % len(clause)


# The name of a type, but for those that an `impl` has to give.
TYPE = re.compile(r"^ *(?:(?:pub(?:\([a-z]+\))? )?(?:struct|enum|trait)|pub type) (\w+)", re.M)


@rule
def names_once(house):
    """The name of a type stands in one crate, tests aside, but for those of tools/names-twice."""
    standing = defaultdict(dict)
    for path in [it for it in house.ending(".rt", under="crates/") if "_tests/" not in it]:
        for found in TYPE.finditer(house.text(path)):
            standing[found[1]].setdefault(path.split("/")[1], (path, line_at(house.text(path), found.start())))
    twice = {name: places for name, places in standing.items() if len(places) > 1}
    listed = house.text("tools/names-twice") if "tools/names-twice" in house.paths else ""
    known = {}
    for number, line in enumerate(listed.splitlines(), 1):
        if not line.startswith("#"):
            name, _, crates = line.partition(":")
            known[name] = number, set(crates.split())
    for name, places in sorted(twice.items()):
        if not set(places) <= known.get(name, (0, set()))[1]:
            path, number = list(places.values())[-1]
            yield path, number, "the type %s stands in the crates %s" % (name, ", ".join(sorted(places)))
    for name, (number, crates) in sorted(known.items()):
        if set(twice.get(name, ())) != crates:
            yield "tools/names-twice", number, "%s no longer stands in all of these crates: mend this line" % name


@rule
def subjects(house):
    """A comment of an item begins with the thing that it is about, and not with a clause (`What is left where ..`).
    `Whether` is what a yes means, `How many` what a number counts, and `Why` what an error tells."""
    found = []
    for path in house.ending(".rt", under="crates/"):
        before = ""
        for number, line in house.lines(path):
            if re.match(r" */// (?:What|Where|Which|That)\b", line) and not before.lstrip().startswith("///"):
                found.append((path, number))
            before = line
    if len(found) > MOST_CLAUSES:
        for path, number in found:
            yield path, number, "its comment begins with a clause"
    elif len(found) < MOST_CLAUSES:
        yield "tools/lint.py", 1, "MOST_CLAUSES is %d, and %d are left" % (MOST_CLAUSES, len(found))


@rule
def edits_apply(house):
    """The text that an edit replaces stands in its file exactly once, after the edit's earlier pairs."""
    for path in house.ending(".edit", under="crates/"):
        crate = "/".join(path.split("/")[:2])
        file, old, text, changed = None, None, "", 0
        for number, line in house.lines(path):
            if line.startswith("file: "):
                file = "%s/%s" % (crate, line[6:].strip())
                if file not in house.paths:
                    yield path, number, "there is no file %s" % line[6:]
                    break
                text = house.text(file)
            elif line.startswith("old: "):
                old = line[5:]
                if not file or text.count(old) != 1:
                    yield path, number, "its old text stands there %d times" % text.count(old)
                    break
            elif line.startswith("new:") and old:
                text = text.replace(old, line[5:])
                changed += 1
        else:
            if not changed:
                yield path, 1, "it changes nothing"


@rule
def wrong_bodies(house):
    """A wrong body begins with a line `what:` and a sentence."""
    for path in house.ending(".edit", under="crates/"):
        if path.split("/")[2] == "wrong-bodies" and not body_list.what_of(house.text(path)):
            yield path, 1, "it doesn't begin with `what: ` and a sentence"


def number_of(word):
    """The number that digits or a word spell, or None."""
    if re.fullmatch(r"\d+", word):
        return int(word)
    tens, _, unit = word.lower().partition("-")
    if tens in TENS and (not unit or unit in UNITS):
        return TENS[tens] + (UNITS.index(unit) if unit else 0)
    return UNITS.index(tens) if tens in UNITS and not unit else None


# Counts that pages tell in words of their own: these words, what is counted, and in which files.
OWN_FIGURES = (
    (r"`kept`'s\s+([\w-]+)\s+public\s+functions", r"^ *pub (?:const )?fn ", "crates/kept/src/"),
    (r"[Tt]our(?:\s+of|:)\s+([\w-]+)\s+steps", r"^    title: ", "web/playground/tour.mjs"),
)


def count_of(house, pattern, under):
    """How often a pattern stands in the files whose paths begin so."""
    return sum(len(re.findall(pattern, house.text(it), re.M)) for it in house.paths if it.startswith(under))


def figure(house, path, found, count):
    """The breach of a page that tells another count."""
    said = re.sub("[`*]", "", " ".join(found[0].split()))
    return path, line_at(house.text(path), found.start()), "`%s`, and there are %d" % (said, count)


@rule
def figures(house):
    """A count above ten in a page, of crates, must-fail edits, more wrong bodies or commands, is what stands there. So
    is any count of what OWN_FIGURES lists, and of the lines of a file in web/module."""
    commands = re.search(r"pub enum Cmd \{(.*?)^\}", house.text("crates/spans/src/calls/commands.rt"), re.M | re.S)
    edits = [it.split("/")[2] for it in house.ending(".edit", under="crates/")]
    counts = {
        "crates": len(house.crates()),
        "must-fail edits": edits.count("must-fail"),
        "more wrong bodies": edits.count("wrong-bodies"),
        "commands": len(re.findall(r"^    [A-Z]\w*(?: \{|,)", commands[1], re.M)) if commands else 0,
    }
    for path in house.pages():
        if path in WRITTEN:
            continue
        for kind, count in counts.items():
            for found in re.finditer(r"(?<![\d,.])\b([\w-]+)\s+%s\b" % kind, house.text(path)):
                told = number_of(found[1])
                if told is not None and told != count and told > 10:
                    yield figure(house, path, found, count)
    for path in house.ending(".md", ".mjs"):
        for words, pattern, under in OWN_FIGURES:
            for found in re.finditer(words, house.text(path)):
                if number_of(found[1]) != count_of(house, pattern, under):
                    yield figure(house, path, found, count_of(house, pattern, under))
        for found in re.finditer(r"`(module/[\w.]+)`\W*([\w-]+)\s+lines", house.text(path)):
            count = count_of(house, r"\n", "web/" + found[1])
            if number_of(found[2]) != count:
                yield figure(house, path, found, count)


def anchors(text):
    """The anchors of a page's headings."""
    heads = re.findall(r"^#+ (.*)$", text, re.M)
    return {re.sub(r"[^\w\- ]", "", it.lower()).replace(" ", "-") for it in heads}


@rule
def links(house):
    """A link leads somewhere, and a path in a page is there, unless it is in an `out` or has a name in capitals."""
    folders = {"/".join(it.split("/")[:n]) for it in house.paths for n in range(1, it.count("/") + 1)}
    for path in [it for it in house.paths if it.endswith(".md")]:
        at = os.path.dirname(path)
        for number, line in house.lines(path):
            for target in re.findall(r"\]\(([^)\s]+)\)", line):
                file, _, anchor = target.partition("#")
                if re.match(r"[a-z]+:", target):
                    continue
                to = os.path.normpath(os.path.join(at, file)) if file else path
                if to not in house.paths and to not in folders:
                    yield path, number, "the link %s leads nowhere" % target
                elif anchor and to.endswith(".md") and to in house.paths and anchor not in anchors(house.text(to)):
                    yield path, number, "%s has no heading #%s" % (to, anchor)
            for named in re.findall(r"`((?:crates|docs|embed|examples|bench|server|clients|web|arm64|tools)/[\w./-]+)`", line):
                to = named.rstrip("/")
                if "/out" in to or re.search(r"\b[A-Z]+(?:/|$)", to.replace(".md", "")):
                    continue
                if to not in house.paths and to not in folders and not any(it.startswith(to) for it in house.paths):
                    yield path, number, "there is no %s" % named


@rule
def claims(house):
    """A function or clause that PROOF claims something of is public in a crate that its section's heading names. A name
    that begins with `_` is the end of one."""
    crates, public = [], set()
    for number, line in house.lines("docs/PROOF.md") if "docs/PROOF.md" in house.paths else ():
        if line.startswith("## "):
            crates = re.findall(r"`(?:crates/)?(\w+)", line)
            sources = [it for crate in crates for it in house.ending(".rt", under="crates/%s/src/" % crate)]
            text = "".join(house.text(it) for it in sources)
            public = {*re.findall(r"pub (?:[\w\"]+ )*fn (\w+)", text), *re.findall(r"ensures (\w+) ", text)}
        elif crates and line.startswith("| `"):
            for name in re.findall(r"`(?:\w+::)?(\w+)`", line.split("|")[1]):
                ends = [it for it in public if it != name and it.endswith(name)] if name.startswith("_") else []
                if name not in public and not ends:
                    yield "docs/PROOF.md", number, "no crate of its heading has a public %s" % name


# The logic that README names, and the version and the logic that the program tells.
LOGIC = re.compile(r"\blogic ([0-9a-f]{8,})\b")
PROGRAMS = re.compile(r'"([\d.]+)\nproved with Rattle of logic (\w+)"')


@rule
def logic_of_readme(house):
    """README names the logic of the kit that is installed."""
    told = list(LOGIC.finditer(house.text("README.md")))
    if not told:
        yield "README.md", 1, "it names no logic"
    for it in told:
        yield from other_logic(house, "README.md", it, it[1])


@rule
def logic_of_program(house):
    """`mvfeed --version` tells the logic of the kit that is installed."""
    path = "crates/command_line/src/version.rt"
    if path not in house.paths:
        return
    told = PROGRAMS.search(house.text(path))
    if not told:
        yield path, 1, "it tells no version and logic"
    else:
        yield from other_logic(house, path, told, told[2])


def other_logic(house, path, found, told):
    """The breach of a file that tells another logic."""
    if told != house.logic():
        number = line_at(house.text(path), found.end())
        yield path, number, "it tells the logic %s, and the kit's is %s" % (told, house.logic())


# Where else the version stands. In the library it is a number with a byte for each part.
VERSIONS = {
    "embed/rust/Cargo.toml": r'^version = "(.*)"',
    "server/Cargo.toml": r'^version = "(.*)"',
    "embed/ripsawbean.h": r"^#define RIPSAWBEAN_VERSION (0x\w{6})$",
    "crates/ripsawbean/src/version.rt": r"^const VERSION: u32 = (0x\w{6});$",
    "embed/python/ripsawbean/handles.py": r'^VERSION = "(.*)"',
    "clients/python/pyproject.toml": r'^version = "(.*)"',
    "clients/javascript/package.json": r'^  "version": "(.*)"',
    "CHANGELOG.md": r"^## (\d+\.\d+\.\d+)\b",
}
# Where the number of the library's ABI stands beside ripsawbean.h, in a pattern of each place.
ABIS = {
    "embed/python/ripsawbean/handles.py": r'^INSTALLED = "libripsawbean\.so\.(\d+)"',
    "embed/test": r"@@RIPSAWBEAN_(\d+)\b",
    "packaging/debian/control.in": r"^Package: libripsawbean(\d+)$",
}


@rule
def versions(house):
    """The product's version is that of the program wherever it stands, and the library's ABI that of ripsawbean.h.
    Debian's list of symbols has the functions of ripsawbean.h."""
    program, header = "crates/command_line/src/version.rt", "embed/ripsawbean.h"
    told = PROGRAMS.search(house.text(program)) if program in house.paths else None
    for path, pattern in VERSIONS.items() if told else ():
        number = "0x%02x%02x%02x" % tuple(map(int, told[1].split(".")))
        yield from differing(house, path, pattern, number if "(0x" in pattern else told[1])
    abi = re.search(r"^#define RIPSAWBEAN_ABI (\d+)$", house.text(header), re.M) if header in house.paths else None
    for path, pattern in ABIS.items() if abi else ():
        yield from differing(house, path, pattern, abi[1])
    symbols = "packaging/debian/libripsawbean%s.symbols" % abi[1] if abi else ""
    if symbols in house.paths:
        functions = re.findall(r"^(?!static)\w[\w ]*?[ *](ripsawbean_\w+)\(", house.text(header), re.M)
        listed = re.findall(r"^ (ripsawbean_\w+)@RIPSAWBEAN_%s " % abi[1], house.text(symbols), re.M)
        for name in sorted(set(functions) ^ set(listed)):
            yield symbols, 1, "%s stands here or in %s alone" % (name, header)
    elif abi and "packaging/debian/control.in" in house.paths:
        yield "packaging/debian/control.in", 1, "there is no %s" % symbols


def differing(house, path, pattern, own):
    """The breach of a file whose pattern finds nothing, or another text than this."""
    if path in house.paths:
        found = re.search(pattern, house.text(path), re.M)
        if not found:
            yield path, 1, "it has no %s" % own
        elif found[1] != own:
            yield path, line_at(house.text(path), found.start()), "it has %s in place of %s" % (found[1], own)


@rule
def heads(house):
    """A file says at its top what it is: a source, a definition, a script, README; and a page for whom it is."""
    pages = house.pages()
    for path in house.paths:
        text = house.text(path) if not path.endswith((".png", ".wasm", ".ico")) else ""
        first = text.lstrip().split("\n", 1)[0]
        if path.endswith(".rt") and path.startswith("crates/"):
            if not first.startswith("//!") and not re.match(r"(?:ghost use [^\n]*\n|use [^\n]*\n|\s)*///", text):
                yield path, 1, "it begins with no comment"
        elif re.match(r"crates/\w+/specs/", path) and not path.endswith("/Lib.antt") and not first.startswith("--"):
            yield path, 1, "it begins with no comment"
        elif first.startswith("#!") and path != ".ci/run" and not re.match(r"#!.*\n\s*(?:#|\"\"\"|//|/\*)", text):
            yield path, 1, "it begins with no comment"
        elif path in pages and not re.match(README_OPENS if path == "README.md" else PAGE_OPENS, text, re.S):
            yield path, 1, "its first words don't say what it is, or for whom"


@rule
def file_length(house):
    """A file that people read has at most 600 lines."""
    for path in house.paths:
        if path.endswith(NOT_READ):
            continue
        count = house.text(path).count("\n")
        if count > MOST_LINES:
            yield path, MOST_LINES, "it has %d lines" % count


@rule
def line_length(house):
    """A line of a page, a script or a file of tools has at most 120 columns, unless it is of a table, or of a block of
    code in a page."""
    for path in house.paths:
        is_page, inside = path.endswith(".md"), False
        if not is_page and not path.startswith("tools/") and not house.text(path).startswith("#!"):
            continue
        for number, line in house.lines(path):
            inside ^= is_page and line.startswith("```")
            is_free = inside or re.match(r" *\||<|.*\]\(", line) if is_page else line.count("|") > 3
            if len(line) > LONGEST_LINE and not is_free:
                yield path, number, "a line of %d columns" % len(line)


@rule
def paths_of_machines(house):
    """No file names a place that is one machine's own."""
    own = re.compile(r"/(?<![\w.$}/]/)(?:work|root|opt|home|Users)\b(?!-)")
    for path in [it for it in house.paths if not it.startswith("tools/")]:
        for found in own.finditer(house.text(path)):
            yield path, line_at(house.text(path), found.start()), "the path %s" % found[0]


@rule
def pictures(house):
    """A picture is what its text says: `docs/pictures/draw.py` draws it."""
    sys.path.insert(0, os.path.join(TOP, "docs", "pictures"))
    import draw

    for path in house.ending(".txt", under="docs/pictures/"):
        svg = path[:-4] + ".svg"
        if svg not in house.paths or house.text(svg) != draw.drawn(house.text(path)):
            yield svg, 1, "it isn't what its text says"


@rule
def words(house):
    """README has at most 1,200 words, and the pages have 26,000 together; a word has a letter or a digit."""
    counts = {it: len(re.findall(r"\S*\w\S*", house.text(it))) for it in house.pages() if it not in WRITTEN}
    if counts["README.md"] > MOST_WORDS_OF_README:
        yield "README.md", 1, "it has %d words" % counts["README.md"]
    if sum(counts.values()) > MOST_WORDS:
        yield "docs", 1, "the pages have %d words" % sum(counts.values())


@rule
def measured(house):
    """A figure above 999 in a table of README stands in PERFORMANCE too."""
    known = house.text("docs/PERFORMANCE.md") if "docs/PERFORMANCE.md" in house.paths else ""
    for number, line in house.lines("README.md"):
        for told in re.findall(r"(?<![\d,.])\d{1,3}(?:,\d{3})+(?![\d,])", line) if line.startswith("|") else ():
            if not re.search(r"(?<![\d,.])%s(?![\d,])" % told, known):
                yield "README.md", number, "no table of docs/PERFORMANCE.md has %s" % told


def main(names):
    if names in (["--help"], ["-h"]):
        print("tools/lint.py [RULE..] keeps the house's own rules, which are:\n")
        for name, it in RULES.items():
            print("%s: %s" % (name, " ".join(it.__doc__.split())))
        return 0
    unknown = [it for it in names if it not in RULES]
    if unknown:
        sys.exit("there is no rule %s; there are %s" % (unknown[0], ", ".join(RULES)))
    house, found = House(TOP), 0
    for name in names or RULES:
        for path, number, what in RULES[name](house):
            print("%s:%d: %s: %s" % (path, number, name, what))
            found += 1
    print("lint: %d rules, %d breaches" % (len(names or RULES), found))
    return 1 if found else 0


if __name__ == "__main__":
    sys.exit(main(sys.argv[1:]))
