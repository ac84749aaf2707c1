"""Goes through the page with keys alone, and keeps four pictures of it. A folder that is named gets four under load too."""

import asyncio
import os
import pathlib
import subprocess
import sys

from . import loaded, quiet
from .browser import tab_of
from .load import load
from .scene import scene
from .steps import expect
from .strangers import strangers

SERVER = pathlib.Path(__file__).resolve().parent.parent
RUN = os.environ.get("SERVER", SERVER / "run")
IS_NAMED = len(sys.argv) > 1
FOLDER = pathlib.Path(sys.argv[1]) if IS_NAMED else SERVER.parent / "docs" / "server"
LOOKS = ((1280, 900, "light", 0.75), (1280, 900, "dark", 0.75), (400, 850, "light", 0.75), (400, 850, "dark", 0.75))


class Server:
    """One of its own, for a block. Sessions of the scene, which wait and don't answer a ping, aren't ended by it."""

    def __init__(self, *options):
        self.options = ("--port", "0", "--max-age", "600", "--heartbeat", "600", *options)

    def __enter__(self):
        self.process = subprocess.Popen([RUN, *self.options], stdout=subprocess.PIPE, text=True)
        return self.process.stdout.readline().split()[-1]

    def __exit__(self, *_):
        self.process.terminate()
        self.process.wait()


async def look(tab, width, height, scheme):
    await tab.look(width, height, scheme)
    await quiet.edges(tab, width)
    await quiet.above_the_fold(tab, height)


async def in_quiet():
    with Server("--history", "1") as base:
        async with scene(base), tab_of(base + "/") as tab:
            await tab.look(1280, 900, "light")
            await quiet.by_keys(tab)
            await quiet.events_by_keys(tab)
            await quiet.rows_by_keys(tab)
            FOLDER.mkdir(parents=True, exist_ok=True)
            for width, height, scheme, scale in LOOKS:
                await look(tab, width, height, scheme)
                await tab.keep(FOLDER / ("page-%d-%s.png" % (width, scheme)), scale)
            await quiet.an_example_by_keys(tab)
            await quiet.words(tab)
            await quiet.hostile(tab)
            await quiet.lists(tab)
            await quiet.new_numbers(tab)
            await quiet.left_out(tab)
            no_complaints(tab)


async def under_load():
    with Server("--history", "5") as base:
        async with load(base) as loading, tab_of(base + "/") as tab:
            await tab.look(1280, 900, "light")
            await loaded.spans(tab)
            await loaded.numbers(tab, loading)
            await loaded.a_pause(tab)
            await loaded.a_held_event(tab)
            for width, height, scheme, scale in LOOKS:
                await look(tab, width, height, scheme)
                if IS_NAMED:
                    await tab.keep(FOLDER / ("loaded-%d-%s.png" % (width, scheme)), scale)
            await loaded.no_stutter(tab, loading)
            no_complaints(tab)


def no_complaints(tab):
    wrong = [one for one in tab.complaints if "/state" not in one]
    expect("the browser has no complaint %s" % "".join(wrong), not wrong)


async def main():
    await in_quiet()
    await under_load()
    await strangers(Server)


asyncio.run(main())
