"""What the scripts ask of git. `top` is a checkout."""

import os
import re
import subprocess
from typing import Dict, List, Optional

Places = Dict[str, str]
# A changed line that is no comment: of Rattle, C, Rust and JavaScript, or of Python and a shell; and of specifications.
CODE_LINE = r"^[[:space:]]*([^/#[:space:]]|/[^/]|#[^ ])"
LINE_OF_ANTT = r"^[[:space:]]*([^-[:space:]]|-[^-])"
# What a test may read of a page.
CODE_OF_PAGE = re.compile(r"```.*?```|`[^`\n]+`|\d+", re.S)
# The page of the checks' rows is no source of anything.
PAGE_OF_ROWS = "docs/LAST-RUN.md"


def said(top: str, *words: str) -> str:
    """What git says. Where it fails, so does the caller, below git's own words."""
    ran = subprocess.run(["git", "-C", top, *words], stdout=subprocess.PIPE, check=True, text=True)
    return ran.stdout.strip()


def asked(top: str, *words: str) -> Optional[str]:
    """What git says, or none where it fails, or isn't there."""
    try:
        ran = subprocess.run(["git", "-C", top, *words], capture_output=True, text=True)
    except FileNotFoundError:
        return None
    return None if ran.returncode else ran.stdout.strip()


def commit(top: str) -> str:
    """The name of the commit, as people write it."""
    return said(top, "rev-parse", "--short", "HEAD")


def committed(top: str, places: List[str]) -> Optional[Places]:
    """What git names each place, or none where one has changes, or there is no git."""
    if asked(top, "status", "--porcelain", "--", *places) != "":
        return None
    found = {place: asked(top, "rev-parse", "--verify", "--quiet", "HEAD:" + place) for place in places}
    return {place: name for place, name in found.items() if name} if all(found.values()) else None


def is_changed(top: str, since: str, places: List[str]) -> bool:
    """Whether these places changed since a commit, in files or in later commits. Comments don't count, nor pages: of
    one that is a place itself the code and the numbers count. Where all is a place, each byte counts. Of a commit that
    isn't here: yes."""
    asks = ["diff", "--name-only", "--no-renames", since, "--", *places]
    if "." in places:
        return asked(top, *asks, ":!" + PAGE_OF_ROWS) != ""
    for is_antt, line in ((False, CODE_LINE), (True, LINE_OF_ANTT)):
        told = asked(top, *asks[:1], "-G", line, *asks[1:], ":!*.md")
        if told is None or any(it.endswith(".antt") == is_antt for it in told.splitlines()):
            return True
    return any(is_page_changed(top, since, it) for it in places if it.endswith(".md"))


def is_page_changed(top: str, since: str, page: str) -> bool:
    """Whether the code or the numbers of a page are others than in a commit."""
    was, path = asked(top, "show", "%s:%s" % (since, page)), os.path.join(top, page)
    if was is None or not os.path.exists(path):
        return True
    with open(path, encoding="utf-8") as it:
        return CODE_OF_PAGE.findall(it.read()) != CODE_OF_PAGE.findall(was)


def copy(top: str, to: str) -> None:
    """Copies what is committed into a folder, which a kit then takes for a repository."""
    packed = subprocess.run(["git", "-C", top, "archive", "HEAD"], check=True, stdout=subprocess.PIPE).stdout
    subprocess.run(["tar", "-x", "-C", to], check=True, input=packed)
    os.mkdir(os.path.join(to, ".git"))
