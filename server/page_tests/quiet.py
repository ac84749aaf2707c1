"""The page of a database with something to see, where each event can be followed: all by keys."""

import json
import pathlib
import re

from .steps import EMPTIED, FOCUS, LOG, MOMENT, SENTENCE, VIEW, expect, tab_to

TOP = pathlib.Path(__file__).resolve().parent.parent.parent
AGES = """Promise.all([import('/page/metrics.mjs'), import('/page/vitals.mjs')]).then(([{ Metrics }, { Vitals }]) => {
    const server = { identity: "a", calls: 5, rows: 2, sessions: 3, oldest: "7" };
    const holders = { server, transaction: [{ timestamp: "7", seat: 1, age: 3 }], feed: [], consumer: [] };
    const live = { metrics: new Metrics(%s), holders, seen: { events: 0, commits: 0 } };
    const [vitals, list] = [new Vitals(), document.createElement("dl")];
    vitals.take(0, live);
    vitals.draw(list, live);
    return ["oldest", "closing"].map((it) => list.querySelector(`[data-key=${it}] b`).textContent);
})"""
HOSTILE = ("<img%20src=x%20onerror=window.hit=1>", "\"><svg/onload=window.hit=1>", "'onmouseover='window.hit=1", "${window.hit=1}",
           "<script>window.hit=1</script>", "<a%20href=javascript:window.hit=1>x</a>", "&lt;img%20src=x&gt;", "</title><b>x</b>")
MADE_OF_IT = "document.querySelectorAll('main :is(img, script, a, iframe, object, [onerror], [onload], [onmouseover])').length"
LEFT_OUT = """import('/page/holders.mjs').then(({ Holders }) => {
    const server = { identity: "a", sessions: 1, closed: "9", horizon: "0", limit: "9", holder: "closed", oldest: null };
    const feed = { number: "1", opened: null, consumer: null, streamed: true, seat: null, floor: "9", told: 1, lag: 0 };
    const consumer = { name: "c", stored: "9", held: true, generation: "1", feed: "2", protection: "1", lag: 0 };
    const parts = Object.fromEntries(["seats", "held", "holders", "holders-more", "holders-folded"].map((name) =>
        [name, document.createElement(name === "holders-more" ? "details" : "ol")]));
    parts["holders-more"].append(document.createElement("summary"));
    new Holders((name) => parts[name]).draw({ server, transaction: [], protection: [], consumer: [consumer],
        feed: [feed, { ...feed, number: "2", consumer: "c" }] });
    return [...parts.holders.querySelectorAll(".says")].map((it) => it.textContent);
})"""
ROWS = "document.getElementById('rows').textContent"
PREFIX_EMPTIED = "document.getElementById('prefix').value = ''"
AS_OF = "document.getElementById('as-of').textContent"
NEW_FAULTS = {"full", "toomany"}  # of a server that limits what is held


async def by_keys(tab):
    await tab.until("document.querySelectorAll('.mark').length > 10")
    await tab_to(tab, "mark")
    await tab.press("ArrowUp", 3)
    before = await tab.value(SENTENCE)
    await tab.press("Enter")
    await tab.until(SENTENCE + " !== " + json.dumps(before))
    expect("a mark of the picture tells what it means, and stays", await tab.value(VIEW) == "paused")
    await tab.press("Escape")
    await tab.press("p")
    await tab.until(VIEW + " === 'live'")
    await tab.press("/")
    expect("the key / goes to the command line", await tab.value(FOCUS) == "lines")
    await tab.write("begin\nget . apple\nput . fig 2")
    await tab.press("Enter")
    await tab.until(LOG + ".includes('fig 2 => written')")
    await tab.until(MOMENT + ".includes('fig 2 => written')")
    await tab.press("ArrowUp")
    expect("an earlier line comes back", "put . fig 2" in await tab.value("document.getElementById('lines').value"))
    await tab.value(EMPTIED)


async def events_by_keys(tab):
    await tab.press("p")  # is a letter there, as it should be
    await tab.value(EMPTIED)
    await tab.value("document.activeElement.blur()")
    await tab_to(tab, "own")
    shown = "document.querySelectorAll('.event').length"
    before = await tab.value(shown)
    await tab.press(" ")
    await tab.until("%s > %d" % (shown, before))
    await tab.press(" ")
    await tab.until("%s === %d" % (shown, before))
    expect("the server's own calls are left out of the events, and come when asked for", True)
    await tab_to(tab, "events")
    last = await tab.value(MOMENT)
    await tab.press("ArrowUp", 2)
    await tab.until(VIEW + " === 'held'")
    expect("an earlier event is shown", await tab.value(MOMENT) != last)
    await tab.press("End")
    await tab.until(VIEW + " === 'live'")
    expect("and the last one again", await tab.value(MOMENT) == last)


async def rows_by_keys(tab):
    """Rows come by the client: those of some keys, with the timestamps of their transactions."""
    await tab.press("/")
    await tab_to(tab, "prefix")
    await tab.write("ap")
    await tab.press("Enter")
    await tab.until(ROWS + ".includes('apple')")
    expect("rows are shown by the keys' first letters", await tab.value(ROWS) == "apple422")
    await tab.value(PREFIX_EMPTIED)
    await tab.press("Enter")
    await tab.until(ROWS + ".includes('pear')")
    expect("or all, as of one timestamp", (await tab.value(AS_OF)).startswith("as of "))
    await tab.write("no such")
    await tab.press("Enter")
    await tab.until(AS_OF + ".startsWith('none at ')")
    expect("and it is said where there are none", await tab.value(ROWS) == "")


async def an_example_by_keys(tab):
    await tab.press("/")
    await tab_to(tab, "guide")
    await tab.press("ArrowDown")
    await tab_to(tab, "run")
    await tab.press("Enter")
    await tab.until(LOG + ".includes('=> toolate')")
    expect("an example of the guide runs", "its timestamps moved by 1000" in await tab.value(LOG))
    await tab_to(tab, "log")


async def words(tab):
    """Faults and refusals have a sentence each; what is long is cut, and whole when it is asked for."""
    await tab.press("/")
    long = "x" * 200 + "%20the" + "y" * 200
    await tab.write("begin 99999999999999999\nwhat\nget 1 apple\nbegin\nput . %s" % ("long " + long))
    await tab.press("Enter")
    await tab.until("document.querySelector('#log .cut') !== null")
    said = await tab.value("[...document.querySelectorAll('#log .says')].map((it) => it.textContent).slice(-3)")
    starts = ("The timestamp lies more than --ahead", "No command has this name.", "The transaction is decided")
    expect("a fault or a refusal has its words beside it",
           len(said) == 3 and all(text.startswith(start) for text, start in zip(said, starts)))
    cut = "[...document.querySelectorAll('#log .cut')].at(-1)"
    expect("a long word is cut in the middle", re.fullmatch("x+…y+", await tab.value(cut + ".textContent")))
    expect("and whole in its tooltip", await tab.value(cut + ".title") == long)
    await tab_to(tab, "cut")
    await tab.press("Enter")
    expect("and when it is asked for", await tab.value(cut + ".textContent") == long)
    await tab.press("/")
    await tab.write("abort .")
    await tab.press("Enter")
    await tab.until(LOG + ".includes('=> aborted')")


async def hostile(tab):
    """Keys, values, bounds and lines that would be markup are text, wherever the page shows them."""
    await tab.press("/")  # is a letter there, where the focus was there already
    await tab.value(EMPTIED)
    for word in HOSTILE:
        opened = "open %s - 0" % word, "open - %s 0" % word
        lines = "begin", "put . %s %s" % (word, word), "get . " + word, *opened, "commit .", word  # which is a fault
        await tab.write("\n".join(lines))
        await tab.press("Enter")
        await tab.until("document.getElementById('lines').value === ''")
    await tab.until("(%s.match(/committed 1/g) ?? []).length >= %d" % (LOG, len(HOSTILE)))
    await tab_to(tab, "events")
    await tab.press("ArrowUp", 20)
    await tab.press("End")
    await tab.until(VIEW + " === 'live'")
    expect("no key, value, bound or line becomes markup", await tab.value(MADE_OF_IT) == 0)
    expect("or is run", await tab.value("window.hit === undefined"))


async def lists(tab):
    """Every name in the lists of the guide and the README has words on the page."""
    guide, readme = ((TOP / path).read_text() for path in ("docs/GUIDE.md", "server/README.md"))
    faults = set(re.findall(r"^\| \d{1,2} \| `(\w+)` \|", guide + readme, re.M))
    refusals = set(await tab.value("import('/picture/picture.mjs').then((it) => [...it.REFUSALS])"))
    names = sorted(faults | refusals | NEW_FAULTS | {"nomemory"})
    expect("the lists are found", len(faults) > 12 and len(refusals) > 12)
    script = "import('/page/says.mjs').then((it) => %s.filter((name) => !/^[A-Z].+\\.$/.test(it.saysOf(name))))"
    missing = await tab.value(script % json.dumps(names))
    expect("each of %d faults and refusals has a sentence" % len(names), missing == [])


async def new_numbers(tab):
    """Ages are those of /metrics where it tells them, and else those of /holders."""
    told = "ripsawbean_oldest_transaction_seconds 12.3\nripsawbean_closing_delay_seconds 8\n"
    expect("ages are read from the numbers", await tab.value(AGES % json.dumps(told)) == ["12", "8.0"])
    expect("or from who holds what", await tab.value(AGES % "''") == ["3.0", "3.0"])


async def left_out(tab):
    """A token for some keys is told of feeds of others without their bounds."""
    told = await tab.value(LEFT_OUT)
    expect("bounds that are left out have words", len(told) == 2 and all("your token isn't for" in it for it in told))


async def edges(tab, width):
    wide = await tab.value("document.documentElement.scrollWidth")
    expect("at %d pixels nothing reaches over the edge" % width, wide == width)


async def above_the_fold(tab, height):
    """The first of who holds what are seen without scrolling."""
    last = "[...document.querySelectorAll('#holders li')].slice(0, 3).at(-1).getBoundingClientRect().bottom"
    expect("who holds what is seen above the fold", await tab.value(last) <= height)
