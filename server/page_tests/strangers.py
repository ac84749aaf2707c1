"""Pages of other sites in a real browser: whatever they try, nothing of it arrives.

One page comes from another port of loopback. The other comes from a name of a network, over plain HTTP, where a browser
says nothing of the site that asks; there the browser has shown the token before, and could show it again.
"""

import contextlib
import json
import os
import tempfile

import aiohttp
from aiohttp import web

from .browser import tab_of
from .steps import expect

TOKEN = "0123456789abcdef-mine"
NAMES = "--host-resolver-rules=MAP *.example 127.0.0.1"
# All ways that a page has to send something. The result names those that were told anything.
TRIES = """(async () => {
    const base = %s, told = [];
    const lines = (name) => "begin\\nput . stranger/" + name + " x\\ncommit .\\n";
    const post = (name, more) => fetch(base + "/call", { method: "POST", body: lines(name), ...more }).then(
        async (reply) => { if ((await reply.text()) !== "") told.push(name); }, () => {});
    await post("cors", { credentials: "include" });
    await post("no-cors", { mode: "no-cors", credentials: "include", headers: { "Content-Type": "text/plain" } });
    navigator.sendBeacon(base + "/call", lines("beacon"));
    for (const [tag, path] of [["img", "/feed?consumer=img"], ["script", "/feed?consumer=script"], ["iframe", "/feed?consumer=iframe"]]) {
        const it = document.createElement(tag);
        it.src = base + path;
        document.body.append(it);
    }
    const frame = document.createElement("iframe");
    frame.name = "target";
    const form = document.createElement("form");
    Object.assign(form, { action: base + "/call", method: "POST", enctype: "text/plain", target: "target" });
    const field = document.createElement("textarea");
    [field.name, field.value] = ["begin\\nput . stranger/form x\\ncommit .\\n#", ""];
    form.append(field);
    document.body.append(frame, form);
    form.submit();
    const events = new EventSource(base + "/feed?consumer=events", { withCredentials: true });
    events.onopen = () => told.push("events");
    const socket = new WebSocket(base.replace("http", "ws") + "/session");
    socket.onopen = () => { told.push("session"); socket.send(lines("session")); };
    await new Promise((done) => setTimeout(done, 3000));
    return told;
})()"""


@contextlib.asynccontextmanager
async def page_of_another_site():
    """A page with nothing on it, at a port of its own."""
    app = web.Application()
    app.router.add_get("/", lambda _: web.Response(text="<!doctype html><title>a stranger</title>", content_type="text/html"))
    runner = web.AppRunner(app)
    await runner.setup()
    site = web.TCPSite(runner, "127.0.0.1", 0)
    await site.start()
    try:
        yield site._server.sockets[0].getsockname()[1]
    finally:
        await runner.cleanup()


async def nothing_arrived(base, headers={}):
    async with aiohttp.ClientSession(base, headers=headers) as client:
        rows = await (await client.post("/call", data="begin\nscan . - -\n")).text()
        names = await (await client.get("/consumer")).text()
        holders = [json.loads(line) for line in (await (await client.get("/holders")).text()).splitlines()]
    expect("no row came from another site", "=> rows 0" in rows)
    expect("no name of a consumer", names == "")
    expect("and no feed", not [one for one in holders if one["kind"] == "feed"])


async def from_another_port(make_server):
    with make_server() as base:
        async with page_of_another_site() as port, tab_of("http://127.0.0.1:%d/" % port) as tab:
            await tab.until("document.title === 'a stranger'")
            told = await tab.value(TRIES % json.dumps(base))
            expect("a page of another port is told nothing", told == [])
        await nothing_arrived(base)


async def from_a_name_of_the_network(make_server):
    """The token was shown as Basic's password, and stays with the site that asked for it."""
    with tempfile.NamedTemporaryFile("w") as file:
        file.write(TOKEN + "\n")
        file.flush()
        os.chmod(file.name, 0o600)
        with make_server("--token", file.name, "--host", "data.example") as base:
            port = base.rsplit(":", 1)[1]
            with_port = "http://data.example:" + port
            own = "http://anyone:%s@data.example:%s/" % (TOKEN, port)
            async with page_of_another_site() as other, tab_of(own, NAMES) as tab:
                await tab.until("document.title !== '' && location.host === 'data.example:%s'" % port)
                # By the whole address, because Chromium takes no relative one where the page's own has a password.
                known = await tab.value("fetch(location.origin + '/metrics').then((reply) => reply.status)")
                expect("the browser has shown the token", known == 200)
                await tab.ask("Page.navigate", url="http://evil.example:%d/" % other)
                await tab.until("document.title === 'a stranger'")
                told = await tab.value(TRIES % json.dumps(with_port))
                expect("a page of another name is told nothing", told == [])
            await nothing_arrived(base, {"Authorization": "Bearer " + TOKEN})


async def strangers(make_server):
    await from_another_port(make_server)
    await from_a_name_of_the_network(make_server)
