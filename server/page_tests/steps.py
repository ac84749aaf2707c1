"""What each part of the test uses: expectations, and the page's words."""

LOG = "document.getElementById('log').textContent"
MOMENT = "document.getElementById('moment').textContent"
VIEW = "document.getElementById('view').textContent"
NEWER = "document.getElementById('newer').textContent"
SENTENCE = "document.querySelector('#picture .sentence').textContent"
FOCUS = """(it => it.closest('.mark') ? 'mark' : it.closest('.cut') ? 'cut' : it.closest('summary') ? 'summary' : it.id)
    (document.activeElement)"""
EMPTIED = """(area => { area.value = ''; area.dispatchEvent(new Event('input')); })(document.getElementById('lines'))"""


def expect(what, is_so):
    if not is_so:
        raise AssertionError(what)
    print("page: %s" % what, flush=True)


async def tab_to(tab, name):
    """Tab by Tab, as far as one may have to go."""
    for _ in range(30):
        await tab.press("Tab")
        if await tab.value(FOCUS) == name:
            return
    raise AssertionError("Tab doesn't reach %s" % name)


async def tile(tab, name):
    """The number of a tile at the top, as it is shown."""
    return await tab.value("document.querySelector('.tile[data-key=%s] b').textContent" % name)


def number(text):
    return float(text.replace(",", ""))
