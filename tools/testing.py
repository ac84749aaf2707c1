"""What tests of the scripts share: small repositories in place of this one, and commands that only play theirs."""

import contextlib
import importlib.machinery
import importlib.util
import os
import shutil
import subprocess
import sys
import tempfile
import unittest

import git

HERE = os.path.dirname(os.path.abspath(__file__))
TOP = os.path.dirname(HERE)


def script(name):
    """A script without an ending, as a module."""
    loader = importlib.machinery.SourceFileLoader(name.replace("-", "_"), os.path.join(HERE, name))
    made = importlib.util.module_from_spec(importlib.util.spec_from_loader(loader.name, loader))
    sys.modules[loader.name] = made
    loader.exec_module(made)
    return made


def player(name):
    """What plays a command."""
    with open(os.path.join(HERE, "players", name), encoding="utf-8") as it:
        return it.read()


def put(top, path, text):
    """Puts a text into a file, which goes where there is none. What begins as a script does can be run."""
    path = os.path.join(top, path)
    if text is None:
        with contextlib.suppress(FileNotFoundError):
            os.remove(path)
        return
    os.makedirs(os.path.dirname(path), exist_ok=True)
    with open(path, "w", encoding="utf-8") as it:
        it.write(text)
    if text.startswith("#!"):
        os.chmod(path, 0o755)


def commit(top):
    """Commits all that stands there, and tells the commit."""
    for words in (["init", "-q"], ["add", "-A"], ["commit", "-q", "--allow-empty", "-m", "a change"]):
        subprocess.run(["git", "-C", top, "-c", "user.name=a", "-c", "user.email=a@b", *words], check=True)
    return git.commit(top)


class Housed(unittest.TestCase):
    """Tests in a repository of their own. `room` is its folder, where `bin` has what plays other commands."""

    def setUp(self):
        self.room = tempfile.mkdtemp()
        self.addCleanup(shutil.rmtree, self.room)
        self.top = os.path.join(self.room, "house")
        os.mkdir(self.top)

    def write(self, path, text):
        put(self.top, path, text)

    def text(self, path):
        with open(os.path.join(self.top, path), encoding="utf-8") as it:
            return it.read()

    def lines(self, path):
        """The lines of a file, or none where it isn't there."""
        return self.text(path).splitlines() if os.path.exists(os.path.join(self.top, path)) else []

    def take_tools(self):
        shutil.copytree(HERE, os.path.join(self.top, "tools"), ignore=shutil.ignore_patterns("__pycache__"))

    def commit(self):
        return commit(self.top)

    def environment(self, **more):
        """This one, where `bin` comes first."""
        path = os.path.join(self.room, "bin") + os.pathsep + os.environ["PATH"]
        return {**os.environ, "PATH": path, **more}
