"""Each request of server/API.md is run in its order, and its answer is the one that stands below it.

`server/test` runs it, and so does `server/python testing/test_reference.py` in server/.
"""

import asyncio
import os
import re
import sys
import unittest

sys.path[:0] = [os.path.dirname(os.path.abspath(__file__))]
from machine import TOP  # noqa: E402
from test_served import served  # noqa: E402

PAGE = os.path.join(TOP, "server", "API.md")
BLOCK = re.compile(r"^```\n(.*?)^```$", re.M | re.S)
REFUSAL = re.compile(r"Refusal::(?:new\(\s*(\d+)|(busy(?:_for)?)\()\s*,?\s*\"(\w+)\"")


def listed():
    """Statuses and names of the table of refusals."""
    with open(PAGE) as page:
        rows = [line.split("|")[1:3] for line in page if re.match(r"\| \d+ \|", line)]
    return {(int(status), name) for status, names in rows for name in re.findall(r"`(\w+)`", names)}


class Reference(unittest.IsolatedAsyncioTestCase):
    async def test_each_request_is_answered_as_it_says(self):
        with open(PAGE) as page:
            text = page.read()
        count = 0
        async with served("--history", "3600") as client:
            for block in BLOCK.findall(text):
                for piece in re.split(r"^\$ ", block, flags=re.M)[1:]:
                    command, _, wanted = piece.partition("\n")
                    fitted = command.replace("localhost:7077", "127.0.0.1:%d" % client.port)
                    process = await asyncio.create_subprocess_shell(fitted, stdout=asyncio.subprocess.PIPE)
                    told, _ = await process.communicate()
                    self.assertEqual(told.decode().rstrip("\n"), wanted.rstrip("\n"), command)
                    count += 1
        self.assertGreater(count, 25)

    def test_each_refusal_of_the_modules_is_in_its_table(self):
        folder, found = os.path.join(TOP, "server", "src", "api"), set()
        for path in [os.path.join(at, name) for at, _, names in os.walk(folder) for name in names] + [folder + ".rs"]:
            with open(path) as source:
                for status, _, name in REFUSAL.findall(source.read().partition("#[cfg(test)]")[0]):
                    found.add((int(status or 503), name))
        self.assertGreater(len(found), 20)
        self.assertEqual(found - listed(), set())


if __name__ == "__main__":
    unittest.main()
