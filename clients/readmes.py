#!/usr/bin/env python3
"""Runs the programs of the clients' READMEs beside a real server, as a newcomer would. SERVER names what serves.

A program that consumes is killed by kill -9 and started again, and its store is compared with the database.
"""

from __future__ import annotations

import json
import os
import re
import shutil
import sqlite3
import subprocess
import sys
import tempfile
import time
from typing import Callable, Dict, List

sys.dont_write_bytecode = True
HERE = os.path.dirname(os.path.abspath(__file__))
sys.path[:0] = [os.path.join(HERE, "kit"), os.path.join(HERE, "python")]
from real import Server  # noqa: E402
from ripsawbean_client import connect  # noqa: E402

SERVER = os.environ.get("SERVER") or os.path.join(HERE, "..", "server", "run")
LONGEST = 60.0
ENDLESS = "db.feed(\""


def programs(page: str, language: str) -> List[str]:
    with open(os.path.join(HERE, page, "README.md"), encoding="utf-8") as file:
        return re.findall(r"^```%s\n(.*?)^```" % language, file.read(), re.M | re.S)


def at(url: str, program: str) -> str:
    return program.replace("http://127.0.0.1:7077", url).replace("connect()", 'connect("%s")' % url)


def sqlite_rows(folder: str) -> Dict[str, str]:
    with sqlite3.connect(os.path.join(folder, "stock.db")) as db:
        return {key.decode(): value.decode() for key, value in db.execute("SELECT key, value FROM stock")}


def json_rows(folder: str) -> Dict[str, str]:
    with open(os.path.join(folder, "stock.json"), encoding="utf-8") as file:
        return dict(json.load(file)["rows"])


def run(command: List[str], program: str, folder: str, rows: Callable[[str], Dict[str, str]]) -> str:
    """Runs one program. What is wrong, or nothing."""
    server = Server(SERVER, None)
    try:
        url = "http://" + server.host
        path = os.path.join(folder, "program" + {"node": ".mjs", "java": ".java"}.get(command[0], ".py"))
        with open(path, "w", encoding="utf-8") as file:
            file.write(at(url, program))
        if "consume(" in program:
            return consumed(command + [path], folder, url, rows)
        done = subprocess.run(command + [path], cwd=folder, capture_output=True, text=True, timeout=LONGEST)
        return done.stderr[-1000:] if done.returncode else ""
    finally:
        server.close()


def consumed(command: List[str], folder: str, url: str, rows: Callable[[str], Dict[str, str]]) -> str:
    with connect(url) as db:
        for turn in range(3):
            child = subprocess.Popen(command, cwd=folder, stderr=subprocess.PIPE, text=True)
            db.put("stock/%d" % turn, str(turn))
            db.put("stock/apple", str(turn))
            db.delete("stock/0")
            wanted = {row.key.decode(): (row.value or b"").decode() for row in db.scan("stock/", "stock0")}
            until, found = time.monotonic() + LONGEST, None
            while found != wanted and time.monotonic() < until and child.poll() is None:
                time.sleep(0.05)
                try:
                    found = rows(folder)
                except (OSError, sqlite3.Error):
                    pass
            child.kill()
            told = child.communicate()[1]
            if found != wanted:
                return "turn %d: %s, and not %s: %s" % (turn, found, wanted, told[-1000:])
    return ""


def main() -> int:
    passed = failed = 0
    pages = [("python", "python", [sys.executable, "-B"], sqlite_rows), ("javascript", "js", ["node"], json_rows)]
    if shutil.which("javac"):
        jar = tempfile.TemporaryDirectory()
        subprocess.run([os.path.join(HERE, "java", "build"), jar.name], check=True)
        pages.append(("java", "java", ["java", "-cp", os.path.join(jar.name, "ripsawbean-client.jar")], json_rows))
    for page, language, command, rows in pages:
        os.environ["PYTHONPATH"] = os.path.join(HERE, "python")
        for number, program in enumerate(programs(page, language)):
            if ENDLESS in program:
                continue
            with tempfile.TemporaryDirectory() as folder:
                os.mkdir(os.path.join(folder, "node_modules"))
                os.symlink(os.path.join(HERE, "javascript"), os.path.join(folder, "node_modules", "ripsawbean-client"))
                why = run(command, program, folder, rows)
            went = "FAILED: " + why if why else "passed"
            print("program %d of %s/README.md: %s" % (number + 1, page, went), flush=True)
            passed, failed = passed + (not why), failed + bool(why)
    print("readmes: %d passed, %d failed" % (passed, failed))
    return 1 if failed or not passed else 0


if __name__ == "__main__":
    sys.exit(main())
