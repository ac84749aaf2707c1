"""One tab of a headless Chromium, driven over its DevTools socket."""

import asyncio
import base64
import contextlib
import json
import os
import re
import shutil
import signal
import subprocess
import tempfile

import aiohttp

KEYS = {"Enter": 13, "Tab": 9, "Escape": 27, "ArrowUp": 38, "ArrowDown": 40, "End": 35, "Home": 36, " ": 32}
FLAGS = (
    "--headless", "--no-sandbox", "--disable-gpu", "--no-first-run", "--hide-scrollbars", "--remote-debugging-port=0",
)


class Tab:
    def __init__(self, socket):
        self.socket, self.asked, self.waiting = socket, 0, {}
        self.complaints = []  # exceptions and errors of the page
        self.traced = None  # what was traced so far, or None

    async def listen(self):
        async for message in self.socket:
            told = json.loads(message.data)
            if "id" in told:
                self.waiting.pop(told["id"]).set_result(told)
            elif told["method"] in ("Runtime.exceptionThrown", "Log.entryAdded"):
                self.complaints.append(json.dumps(told["params"]))
            elif told["method"] == "Tracing.dataCollected":
                self.traced += told["params"]["value"]
            elif told["method"] == "Tracing.tracingComplete":
                self.trace_ends.set()

    async def ask(self, method, **parameters):
        self.asked += 1
        answer = self.waiting[self.asked] = asyncio.get_running_loop().create_future()
        await self.socket.send_str(json.dumps({"id": self.asked, "method": method, "params": parameters}))
        told = await asyncio.wait_for(answer, 30)
        if "error" in told:
            raise RuntimeError("%s: %s" % (method, told["error"]))
        return told["result"]

    async def value(self, expression):
        told = await self.ask("Runtime.evaluate", expression=expression, returnByValue=True, awaitPromise=True)
        return told["result"].get("value")

    async def until(self, expression, seconds=20):
        for _ in range(int(seconds * 20)):
            if await self.value(expression):
                return
            await asyncio.sleep(0.05)
        raise AssertionError("it never came: %s" % expression)

    async def press(self, key, times=1):
        text = {"Enter": "\r"}.get(key, key if len(key) == 1 else "")
        for _ in range(times):
            for kind in ("keyDown", "keyUp"):
                event = {"type": kind, "key": key, "code": key, "windowsVirtualKeyCode": KEYS.get(key, 0)}
                if text and kind == "keyDown":
                    event["text"] = text
                await self.ask("Input.dispatchKeyEvent", **event)

    async def tasks(self, seconds):
        """How long each task of the page's main thread ran in so many seconds: milliseconds of the processor.

        So the times are the page's own, however busy the machine is.
        """
        self.traced, self.trace_ends = [], asyncio.Event()
        await self.ask("Tracing.start", categories="toplevel,devtools.timeline,disabled-by-default-devtools.timeline")
        await asyncio.sleep(seconds)
        await self.ask("Tracing.end")
        await asyncio.wait_for(self.trace_ends.wait(), 30)
        names = {one["tid"]: one["args"]["name"] for one in self.traced if one["name"] == "thread_name"}
        main = max(
            (tid for tid, name in names.items() if name == "CrRendererMain"),
            key=lambda tid: sum(one.get("tdur", 0) for one in self.traced if one["tid"] == tid))
        return [
            one["tdur"] / 1000 for one in self.traced
            if one["tid"] == main and one["name"] == "RunTask" and "tdur" in one]

    async def write(self, text):
        await self.ask("Input.insertText", text=text)

    async def look(self, width, height, scheme):
        size = {"width": width, "height": height, "deviceScaleFactor": 1, "mobile": width < 600}
        await self.ask("Emulation.setDeviceMetricsOverride", **size)
        await self.ask("Emulation.setEmulatedMedia", features=[{"name": "prefers-color-scheme", "value": scheme}])
        await asyncio.sleep(1)

    async def keep(self, path, scale):
        """The whole page as a picture."""
        size = (await self.ask("Page.getLayoutMetrics"))["cssContentSize"]
        clip = {"x": 0, "y": 0, "width": size["width"], "height": size["height"], "scale": scale}
        told = await self.ask("Page.captureScreenshot", format="png", captureBeyondViewport=True, clip=clip)
        path.write_bytes(base64.b64decode(told["data"]))


@contextlib.asynccontextmanager
async def tab_of(address, *flags):
    home = tempfile.mkdtemp()
    process = subprocess.Popen(
        ["chromium", *FLAGS, *flags, "--user-data-dir=" + home, "about:blank"],
        stdout=subprocess.DEVNULL, stderr=subprocess.PIPE, text=True, start_new_session=True)
    try:
        found = (re.search(r"ws://127.0.0.1:(\d+)/", line) for line in process.stderr)
        port = next(one[1] for one in found if one)
        async with aiohttp.ClientSession() as client:
            pages = json.loads(await (await client.get("http://127.0.0.1:%s/json" % port)).text())
            page = next(one for one in pages if one["type"] == "page")
            async with client.ws_connect(page["webSocketDebuggerUrl"], max_msg_size=0) as socket:
                tab = Tab(socket)
                listening = asyncio.ensure_future(tab.listen())
                for domain in ("Page", "Runtime", "Log"):
                    await tab.ask(domain + ".enable")
                await tab.ask("Page.navigate", url=address)
                yield tab
                listening.cancel()
    finally:
        os.killpg(process.pid, signal.SIGTERM)
        process.wait()
        shutil.rmtree(home, ignore_errors=True)
