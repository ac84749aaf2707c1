"""The page while some 700 events come a second."""

import asyncio
import json

from .steps import FOCUS, MOMENT, NEWER, SENTENCE, VIEW, expect, number, tab_to, tile

TEXTS = "[...document.querySelectorAll('#picture svg %s')].map((it) => it.textContent.trim())"
LANES, SPANS = TEXTS % ".name title", TEXTS % ".below title"
NAMES = TEXTS.replace("textContent", "firstChild.data") % ".name"
DRAWN = "document.querySelector('#picture .drawing').innerHTML.length + %s" % SENTENCE
LATER = "[...document.querySelectorAll('.event[aria-selected=true] ~ .event')].length"
VITALS = "document.getElementById('vitals').textContent"
HAVE_WAITED = """['oldest', 'closing'].every((key) =>
    parseFloat(document.querySelector(`.tile[data-key=${key}] b`).textContent) > 4)"""  # the page may be a second late
ROWS = "document.getElementById('events').textContent"
LONGEST_TASK = 50  # milliseconds of the processor: from there on a task is seen as a stutter
SEEN = """(() => {
    const row = document.querySelector('.event[aria-selected=true]').getBoundingClientRect();
    const list = document.getElementById('events').getBoundingClientRect();
    return row.top >= list.top - 1 && row.bottom <= list.bottom + 1;
})()"""


async def spans(tab):
    """Of a feed that was opened before all that the page has read."""
    await tab.until(LANES + ".some((it) => it.startsWith('feed'))")
    told = await tab.value(SPANS)
    expect("a feed that was opened long ago has its span", "meta/ … meta0" in told and "order/ … order0" in told)
    says = await tab.value("document.getElementById('holders').textContent")
    expect("and so it has among who holds what", "meta/ … meta0" in says)
    feeds = [one for one in await tab.value(LANES) if one.startswith("feed")]
    expect("cancelled feeds take no room from live ones", feeds == ["feed 5", "feed 7", "feed 8"])
    keys = await tab.value(NAMES)
    is_cut = any("…" in one for one in keys)
    expect("keys that begin and end alike are told apart", is_cut and len(set(keys)) == len(keys))


async def numbers(tab, load):
    """Beside what the server has told in the meantime."""
    await load.stall()
    before, began = await load.calls(), asyncio.get_running_loop().time()
    await asyncio.sleep(6)
    rate = (await load.calls() - before) / (asyncio.get_running_loop().time() - began)
    shown = number(await tile(tab, "calls"))
    expect("calls a second: %d, and %d are made" % (shown, rate), abs(shown - rate) < 0.35 * rate)
    commits, rows = number(await tile(tab, "commits")), number(await tile(tab, "rows"))
    expect("%g commits a second, of 5 to 9 calls each" % commits, shown / 9.5 < commits < shown / 4.5)
    taken, told = await load.memory(), number(await tile(tab, "memory"))
    expect("%g MB of memory, and %.1f are taken" % (told, taken), abs(told - taken) < 1 + 0.25 * taken)
    await tab.until(HAVE_WAITED)
    oldest, delay = number(await tile(tab, "oldest")), number(await tile(tab, "closing"))
    expect("the oldest transaction is of %g seconds, and closing waits for it" % oldest, oldest > 4 and delay > 4)
    first = await tab.value("document.querySelector('#holders li').textContent")
    expect("who holds closed comes first", first.startswith("transaction") and "holds closed" in first)
    lag = number(await tile(tab, "lag"))
    await load.end_stall()
    await tab.until("document.querySelector('.tile[data-key=oldest] b').textContent !== '%g'" % oldest)
    expect("%d rows a second while closing waits, and a lag of %d rows" % (rows, lag), lag > 100)


async def a_pause(tab):
    await tab.press("p")
    await tab.until(VIEW + " === 'paused'")
    await asyncio.sleep(0.3)
    before, vitals = [await tab.value(it) for it in (DRAWN, ROWS, MOMENT)], await tab.value(VITALS)
    await asyncio.sleep(7)  # so that the live history has left these events behind
    after = [await tab.value(it) for it in (DRAWN, ROWS, MOMENT)]
    expect("the key P stops the picture and the events", before == after)
    expect("the numbers go on", vitals != await tab.value(VITALS))
    newer = number((await tab.value(NEWER)).split()[0])
    expect("and it is told how much has come since: %d events" % newer, newer > 1000)
    await tab.press("p")
    await tab.until(VIEW + " === 'live' && " + MOMENT + " !== " + json.dumps(before[2]))
    expect("and goes on by the same key", True)


async def slow_tabs(tab):
    """By Tab through the whole page, slower than it is drawn."""
    await tab.value("document.activeElement.blur()")
    await tab_to(tab, "pause")
    for _ in range(12):
        await asyncio.sleep(1.2)
        await tab.press("Tab")
        if await tab.value(FOCUS) == "events":
            break
    expect("one who goes slowly by Tab comes through what is drawn anew", await tab.value(FOCUS) == "events")


async def a_held_event(tab):
    await slow_tabs(tab)
    await tab.press("ArrowUp", 3)
    await tab.until(VIEW + " === 'held'")
    await asyncio.sleep(0.3)
    before = [await tab.value(it) for it in (MOMENT, SENTENCE)]
    await asyncio.sleep(8)  # so that the live history has left it behind
    expect("later events come below one that was chosen", await tab.value(LATER) > 20)
    expect("one that was chosen stays in the picture", before == [await tab.value(it) for it in (MOMENT, SENTENCE)])
    expect("and in view among the events", await tab.value(SEEN))
    await tab.press("ArrowUp", 3)
    await tab.until(MOMENT + " !== " + json.dumps(before[0]))
    expect("and one goes on from it by keys", await tab.value(SEEN))
    await tab.press("p")
    await tab.until(VIEW + " === 'live'")


async def no_stutter(tab, load):
    tasks = sorted(await tab.tasks(10))
    busy, longest = sum(tasks) / 10, tasks[-1]
    print("page: at %d events a second the main thread works %d ms a second; its longest tasks take %s ms" %
          (load.rate, busy, ", ".join("%.1f" % one for one in tasks[-5:])))
    expect("no task is long enough to be seen", longest < LONGEST_TASK)
