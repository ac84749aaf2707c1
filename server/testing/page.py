"""Runs the pieces of docs/OPERATING.md as they stand there.

    ```python ..      is run as a program, and has to end with status 0
    ``` $ COMMAND ..  is given to one shell, in the page's order; the lines below a command are its output

Ports and the program's name are those of the test, and it sleeps longer, since the machine may be busy with other
things. A command that installs or builds is left out: it was done before.
"""

import os
import re
import signal
import subprocess
import sys

from machine import TOP, free_port

PAGE = os.path.join(TOP, "docs", "OPERATING.md")
BLOCK = re.compile(r"^```(\w*)\n(.*?)^```$", re.M | re.S)
DONE_BEFORE = re.compile(r"apt-get |server/install|server/build|embed/build")
MARK = "--- this command has ended with"


class Page:
    def __init__(self, folder, program):
        self.folder, self.faults, self.pieces = folder, [], 0
        self.text = open(PAGE).read()
        ports = {port: str(free_port()) for port in ("7077", "7078", "7079", "6400")}
        self.replaced = {**ports, "./mvfeed": program, "sleep 1": "sleep 3"}
        for name in ("server", "examples", "embed", "clients"):
            os.symlink(os.path.join(TOP, name), os.path.join(folder, name))
        clients = os.path.join(TOP, "clients", "python")
        self.environment = {**os.environ, "PYTHONPATH": ":".join((clients, os.environ.get("PYTHONPATH", "")))}
        self.shell = subprocess.Popen(["sh"], cwd=folder, text=True, stdin=subprocess.PIPE, stdout=subprocess.PIPE,
                                      stderr=subprocess.STDOUT, start_new_session=True)

    def close(self):
        """Ends the shell, and all that the page has started in it."""
        os.killpg(self.shell.pid, signal.SIGKILL)
        self.shell.wait()

    def run(self):
        for block in BLOCK.finditer(self.text):
            language, body = block.groups()
            if language == "python":
                self.run_program(body)
            elif body.startswith("$ "):
                self.run_commands(body)
            else:
                self.faults.append("nothing runs this piece: " + body[:80])
            self.pieces += 1

    def fitted(self, text):
        for written, there in self.replaced.items():
            text = text.replace(written, there)
        return text

    def run_program(self, body):
        words = ["timeout", "120", sys.executable, "-c", self.fitted(body)]
        done = subprocess.run(words, cwd=self.folder, env=self.environment, text=True, capture_output=True)
        if done.returncode:
            self.faults.append("%s: status %d: %s" % (body.split("\n")[0], done.returncode, done.stderr[-500:]))

    def run_commands(self, body):
        for piece in re.split(r"^\$ ", body, flags=re.M)[1:]:
            command, _, wanted = piece.partition("\n")
            if DONE_BEFORE.match(command):
                continue
            self.shell.stdin.write("%s\necho '%s' $?\n" % (self.fitted(command), MARK))
            self.shell.stdin.flush()
            told = []
            while not told or not told[-1].startswith(MARK):
                told.append(self.shell.stdout.readline())
                if not told[-1]:
                    raise RuntimeError("the shell has ended at: " + command)
            if "".join(told[:-1]) != self.fitted(wanted):
                self.faults.append("%s\n    told %r\n    and not %r" % (command, "".join(told[:-1]), wanted))


def run_page(folder, program):
    """The number of pieces that were run, and what was wrong."""
    page = Page(folder, program)
    try:
        page.run()
    finally:
        page.close()
    return page.pieces, page.faults
