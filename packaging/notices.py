#!/usr/bin/env python3
"""`notices.py FOLDER` writes the notices of what is linked in beside Ripsawbean itself: of the library, of the server,
of the `programs`, which are the library and mvfeed, and of `all`, each as a file of that name.

Into the library and mvfeed crates of Rattle's kit are linked, as crates.txt and the sources of the kit's crates name
them. Into the server crates of Rust from Debian's packages are, as cargo names them, and the C library, because it is
one static program. Each has its licences beside its sources or in Debian's file of copyrights, or the notice says that
none is known.
"""

import os
import re
import subprocess
import sys
from dataclasses import dataclass, field
from pathlib import Path
from typing import Dict, Iterator, List, Set

TOP = Path(__file__).resolve().parent.parent
USED = re.compile(r"^\s*(?:pub(?:\([a-z]+\))? )?use (?:::)?([a-z_0-9]+)(?:::|;)|\b([a-z_0-9]+)::[A-Za-z_]", re.M)
AFTER = re.compile(r"[Cc]rate `([\w-]+)` (\d[\d.]*\d)(?: \(([^()`;]*?)[;,]? ?[;`)])?")
LICENCE = re.compile("LICEN[CS]E|COPYING|NOTICE|UNLICENSE")
LINE = "=" * 100
EXCEPTION = "GPL-3.0-or-later with the GCC Runtime Library Exception"
STARTS = "LGPL-2.1-or-later with an exception for programs that are linked with them"
# What is linked into the server of Debian's packages for C, and what becomes of it.
STATIC = """\
ripsawbean-server is one static program, so it has parts of the GNU C Library within: of libc.a and of its start files,
from Debian's package libc6-dev %(version)s. Their source is Debian's source package %(source)s, which
`apt-get source %(source)s=%(version)s` fetches where sources.list has a line `deb-src`. The library's licence is
LGPL-2.1-or-later, and some files have others; both stand below. Whoever wants the server over another version of that
library builds it anew: by server/build, in the repository at the commit that build-record.json names, on a system whose
libc.a is of that version. RIPSAWBEAN_LIB names the folder of libripsawbean.a, which this release has, so nothing is
proved for that. server/install names the packages."""


@dataclass
class Part:
    """What is linked in: its name, what is said of it, and the texts of its licences by the names of their files."""

    name: str
    said: str
    texts: Dict[str, str] = field(default_factory=dict)


def told(*words: str, folder: Path = TOP) -> str:
    return subprocess.run(words, cwd=folder, capture_output=True, check=True, text=True).stdout


def kit() -> Path:
    doc = Path(told("rt", "doc").strip()).parent
    return doc if (doc / "CRATES.md").exists() else doc / "rattle"


def own_crates() -> Dict[str, List[str]]:
    """The repository's crates, with those right below each."""
    found = {}
    for line in (TOP / "crates.txt").read_text().splitlines():
        head, colon, below = line.partition("#")[0].partition(":")
        if colon:
            found[head.split()[0]] = below.split()
    return found


def used_by(crate: str, folder: Path) -> Set[str]:
    """The kit's crates that a crate of the kit names."""
    found: Set[str] = set()
    for path in sorted((folder / crate / "src").rglob("*.rt")):
        text = re.sub(r"//.*", "", path.read_text(errors="replace"))
        found |= {one or other for one, other in USED.findall(text)}
    return {it for it in found if it != crate and (folder / it / "src").is_dir()}


def of_kit(name: str) -> Iterator[Part]:
    """The kit's crates that one of ours stands on."""
    own, folder = own_crates(), kit()
    waiting, seen = [name], set()
    while waiting:
        it = waiting.pop()
        if it not in seen:
            seen.add(it)
            waiting += own[it] if it in own else used_by(it, folder)
    for crate in sorted(seen - set(own)):
        page = folder / crate / "README.md"
        after = AFTER.search(page.read_text()) if page.exists() else None
        yield Part(crate, said_after(after) if after else "", texts_in(folder / crate))


def said_after(found: "re.Match[str]") -> str:
    return ", ".join(["after the Rust crate %s %s" % found.group(1, 2), *([found[3]] if found[3] else [])])


def texts_in(folder: Path) -> Dict[str, str]:
    return {it.name: it.read_text(errors="replace") for it in sorted(folder.iterdir()) if LICENCE.match(it.name)}


def of_server() -> Iterator[Part]:
    """The crates of Rust that the server is made of, and Rust's own library."""
    asked = [os.environ.get("CARGO", "cargo"), "tree", "--offline", "--locked", "--edges", "normal"]
    tree = told(*asked, "--prefix", "none", "--format", "{p}|{l}", folder=TOP / "server")
    for crate, licence in sorted({tuple(it.partition(" (*)")[0].split("|")) for it in tree.splitlines()}):
        name, version = crate.split()[:2]
        folder = Path("/usr/share/cargo/registry") / ("%s-%s" % (name, version[1:]))
        if folder.is_dir():
            yield Part("%s %s" % (name, version[1:]), licence, texts_in(folder) or of_debian(folder))
    yield Part("Rust's library, of " + told("rustc", "--version").strip(), "MIT OR Apache-2.0", of_rust())


def of_debian(folder: Path) -> Dict[str, str]:
    """Debian's file of copyrights, of the package that a crate comes from."""
    owner = told("dpkg-query", "--search", str(folder / "Cargo.toml")).partition(":")[0]
    return {owner + "/copyright": Path("/usr/share/doc", owner, "copyright").read_text()}


def of_rust() -> Dict[str, str]:
    root = Path(told("rustc", "--print", "sysroot").strip())
    debian = [Path("/usr/share/doc") / it for it in ("libstd-rust-web-dev", "libstd-rust-dev")]
    for place in (root / "share/doc/rust", *debian):
        for name in ("COPYRIGHT", "copyright"):
            if (place / name).exists():
                return {"COPYRIGHT": (place / name).read_text()}
    return {}


def of_c() -> Iterator[Part]:
    """What the server has of Debian's packages for C: of the C library, and of the compiler's own."""
    compiler = "libgcc-%s-dev" % told("gcc", "-dumpversion").split(".")[0].strip()
    for package, licence, text in (("libc6-dev", "LGPL-2.1-or-later", "LGPL-2.1"), (compiler, EXCEPTION, "GPL-3")):
        version = told("dpkg-query", "-W", "-f", "${Version}", package)
        yield Part("%s %s" % (package, version), licence, {"copyright": copyright_of(package), text: common(text)})


def copyright_of(package: str) -> str:
    return Path("/usr/share/doc", package, "copyright").read_text(errors="replace")


def common(licence: str) -> str:
    return Path("/usr/share/common-licenses", licence).read_text(errors="replace")


def said_of_c() -> str:
    asked = told("dpkg-query", "-W", "-f", "${source:Package} ${source:Version}", "libc6-dev").split()
    return STATIC % dict(zip(("source", "version"), asked))


def written(heads: Dict[str, List[Part]]) -> str:
    """The notices: under each head its parts, and behind them each text once."""
    out, texts = [], {}
    for head, parts in heads.items():
        out.append(head + "\n")
        for it in parts:
            said = ", ".join([it.said, *it.texts] if it.said else it.texts)
            out.append("%s: %s\n" % (it.name, said or "NO LICENCE IS KNOWN"))
            for name, text in it.texts.items():
                texts.setdefault(text, []).append("%s: %s" % (it.name, name))
    out += ["\n%s\n%s\n\n%s" % (LINE, "\n".join(names), text) for text, names in texts.items()]
    return "\n".join(out)


def main(out: str) -> None:
    program, library = list(of_kit("mvfeed")), list(of_kit("ripsawbean"))
    names = {it.name for it in library}
    of_library = {
        "Linked into libripsawbean are these crates of Rattle's kit, many of them ports of Rust crates.": library,
        "Linked into its shared library are parts of libgcc: %s." % EXCEPTION: [],
    }
    of_program = {
        "Linked into mvfeed are the same crates, and these.": [it for it in program if it.name not in names],
        "It has start files of the GNU C Library: %s." % STARTS: [],
        "It has parts of libgcc: %s." % EXCEPTION: [],
    }
    crates = "Beside libripsawbean these crates of Rust are linked into ripsawbean-server, or used to build it."
    server = {crates: list(of_server()), said_of_c(): list(of_c())}
    texts = {"library": of_library, "programs": {**of_library, **of_program}, "server": {**of_library, **server}}
    texts["all"] = {**of_library, **of_program, **server}
    for name, heads in texts.items():
        Path(out, name).write_text(written(heads))


if __name__ == "__main__":
    main(*sys.argv[1:])
