"""Tests of the page in Chromium, without a window: that it works, by the keyboard alone too, and that it can be read at
1280 and at 400 pixels, light and dark. web/test runs it over web/playground.html; PAGE names another place of the page.
"""

import os
import re
import shutil
import unittest
from pathlib import Path

from selenium import webdriver
from selenium.webdriver.common.by import By
from selenium.webdriver.common.keys import Keys
from selenium.webdriver.support.ui import WebDriverWait

WEB = Path(__file__).resolve().parent.parent
PAGE = os.environ.get("PAGE", (WEB / "playground.html").as_uri())
WIDTHS = (1280, 400)
SCHEMES = ("light", "dark")
LEAST_CONTRAST = 4.5
STORIES = re.findall(r"^  (\w+): \{$", (WEB / "playground" / "examples.mjs").read_text(), flags=re.M)
OPENING = re.search(r'title: "(.*)"', (WEB / "playground" / "examples.mjs").read_text())[1]
STEPS = [f"tour-{number}" for number in range(1, 11)]


def guide_transcripts():
    blocks = (WEB.parent / "docs" / "GUIDE.md").read_text().split("```")[1::2]
    return [it.removeprefix("\n") for it in blocks if re.match(r"\n?0 \d+ ", it)]


def script_of(transcript):
    return "".join(f"{line}\n" for line in re.findall(r"^\d+ (\d+ .*) => .*$", transcript, flags=re.M))


def start():
    options = webdriver.ChromeOptions()
    options.binary_location = shutil.which("chromium")
    for word in ("--headless=new", "--no-sandbox", "--disable-gpu", "--hide-scrollbars"):
        options.add_argument(word)
    options.set_capability("goog:loggingPrefs", {"browser": "ALL"})
    return webdriver.Chrome(service=webdriver.chrome.service.Service(shutil.which("chromedriver")), options=options)


class Page(unittest.TestCase):
    @classmethod
    def setUpClass(cls):
        cls.browser = start()
        cls.addClassCleanup(cls.browser.quit)

    def setUp(self):
        self.size(1280)
        self.scheme("light")

    def tearDown(self):
        self.assertEqual([it["message"] for it in self.browser.get_log("browser")], [])

    # ---- the browser

    def command(self, name, **words):
        return self.browser.execute_cdp_cmd(name, words)

    def size(self, width, height=900):
        size = {"width": width, "height": height, "deviceScaleFactor": 1, "mobile": False}
        self.command("Emulation.setDeviceMetricsOverride", **size)

    def scheme(self, name):
        self.command("Emulation.setEmulatedMedia", features=[{"name": "prefers-color-scheme", "value": name}])

    def open(self, name=""):
        self.browser.get("about:blank")
        self.browser.get(f"{PAGE}#{name}")
        self.until(lambda: self.all(".picture svg"))

    def until(self, holds):
        WebDriverWait(self.browser, 10, 0.05).until(lambda _: holds())

    def one(self, selector):
        return self.browser.find_element(By.CSS_SELECTOR, selector)

    def all(self, selector):
        return self.browser.find_elements(By.CSS_SELECTOR, selector)

    def ask(self, expression, *words):
        return self.browser.execute_script(f"return {expression}", *words)

    def press(self, *keys):
        for key in keys:
            self.browser.switch_to.active_element.send_keys(key)

    def tab_to(self, selector):
        for _ in range(60):
            if self.ask("document.activeElement.matches(arguments[0])", selector):
                return
            self.press(Keys.TAB)
        self.fail(f"Tab never reaches {selector}")

    # ---- the page

    def transcript(self):
        return self.ask("[...document.querySelectorAll('.event')].map((it) => it.textContent).join('')")

    def answers(self):
        return [it.text for it in self.all(".event > :is(.ok, .no)")]

    def sentence(self):
        return self.one(".sentence").text

    def run_script(self, lines):
        self.ask("document.getElementById('script').open = true")
        self.ask("document.getElementById('lines').value = arguments[0]", lines)
        self.one("#run").click()

    def mark(self, name):
        return self.one(f'[data-mark="{name}"]')


class Working(Page):
    def test_transcripts_of_the_guide(self):
        self.open("new")
        transcripts = guide_transcripts()
        self.assertGreaterEqual(len(transcripts), 12)
        for it in transcripts:
            self.run_script(script_of(it))
            self.assertEqual(self.transcript(), it)

    def test_the_tour_by_the_keyboard_alone(self):
        self.open("new")
        self.tab_to("#tour .main")
        titles, seen = [], []
        for _ in range(10):
            self.press(Keys.ENTER)
            self.until(lambda: self.ask("document.activeElement.matches('#tour .main')"))
            titles.append(self.one("#tour b").text)
            seen.append(self.answers()[-1])
        self.assertEqual([it.split()[0] for it in titles], [str(it) for it in range(1, 11)])
        self.assertEqual(seen[3], "toolate")
        self.assertEqual(seen[6], "closed 29 0")
        self.assertEqual(seen[8], "collected 29 1")
        self.assertIn('{"resolved":"40"}', self.transcript())
        self.press(Keys.ENTER)
        self.until(lambda: self.transcript() == "")

    def test_the_tour_says_what_its_words_mean(self):
        for step, words in [
            (4, "so it comes too late"),
            (7, "nothing at or below a timestamp will ever change"),
            (8, "no row at or below 29 is still to come"),
            (9, "Below the horizon nothing is read"),
        ]:
            self.open(f"tour-{step}")
            self.assertIn(words, self.one("#tour p").text)

    def test_the_tour_is_left_at_each_step_and_the_database_stays(self):
        for step in STEPS:
            self.open(step)
            before = self.transcript()
            self.one("#tour [data-step=leave]").send_keys(Keys.ENTER)
            self.assertEqual(self.one("#tour .main").text, "Take the tour")
            self.assertTrue(self.ask("document.activeElement.matches('#tour .main')"))
            self.assertEqual(self.transcript(), before)
        self.press(Keys.ENTER)
        self.until(lambda: self.one("#tour b").text.startswith("1 of 10"))
        self.browser.back()
        self.browser.back()
        self.until(lambda: self.one("#tour b").text.startswith("10 of 10"))

    def test_it_opens_on_two_sessions_and_one_read(self):
        self.open()
        self.assertEqual(len(self.all(".seat")), 2)
        self.assertEqual(self.ask("document.getElementById('examples').selectedOptions[0].text"), OPENING)
        self.assertEqual(self.answers()[-1], "value 3")
        marks = [it.get_attribute("data-mark") for it in self.all(".mark")]
        self.assertEqual(len([it for it in marks if it.startswith("read ")]), 1)
        self.assertEqual([it for it in marks if it.startswith("resolved ")], ["resolved 1 15"])
        self.assertEqual(self.one("#seat-0").get_attribute("placeholder"), "such as begin 30")
        self.assertEqual(self.one("#seat-1").get_attribute("placeholder"), "such as commit 20")

    def test_calls_are_typed(self):
        self.open("new")
        self.tab_to("#seat-0")
        self.press("begin 10", Keys.ENTER, "put  10 a 1 ", Keys.ENTER, "get 10", Keys.UP, Keys.ENTER)
        self.assertEqual(self.answers(), ["started", "written", "written"])
        self.assertEqual(self.one(".own").text, "undecided 10")
        self.press("get 10", Keys.UP, Keys.UP, Keys.DOWN, Keys.DOWN, " a", Keys.ENTER)
        self.assertEqual(self.answers()[3:], ["value 1"])
        self.tab_to("#more")
        self.press(Keys.ENTER)
        self.assertTrue(self.ask("document.activeElement.matches('#seat-2')"))
        self.press("commit 10", Keys.ENTER)
        self.assertEqual(self.answers()[-1], "notowner")
        self.assertEqual(self.sentence(), "Session 0 began transaction 10: it alone goes on with it.")

    def wrong(self, seat):
        return [it.text for it in self.all(f"#wrong-{seat} p")]

    def test_a_wrong_command_stays_in_its_box(self):
        self.open("new")
        self.tab_to("#seat-0")
        self.press("begin 10", Keys.ENTER, "put 10 a", Keys.HOME, Keys.ENTER)
        usage = "put TS KEY VALUE, such as put 10 apple 3"
        self.assertEqual(self.wrong(0), ["put takes 3 words behind it, and here are 2.", usage])
        self.assertEqual(self.ask("document.activeElement.value"), "put 10 a")
        self.assertEqual(self.ask("document.activeElement.selectionStart"), len("put 10 a"))
        self.assertEqual(self.ask("document.activeElement.selectionEnd"), len("put 10 a"))
        self.assertEqual(self.one("#seat-0").get_attribute("aria-invalid"), "true")
        self.assertIn(usage, self.described("#seat-0"))
        self.assertEqual(self.answers(), ["started"])
        self.one("#more").click()
        self.assertEqual([len(self.wrong(it)) for it in range(3)], [2, 0, 0])
        self.one("#seat-0").send_keys(" 1", Keys.ENTER)
        self.assertEqual(self.answers(), ["started", "written"])
        self.assertEqual(self.wrong(0), [])
        self.assertEqual(self.one("#seat-0").get_attribute("aria-invalid"), "false")
        for back in (Keys.BACKSPACE, Keys.UP):
            self.press("x", Keys.ENTER)
            self.assertEqual(len(self.wrong(0)), 1)
            self.press(back)
            self.assertEqual(self.wrong(0), [])

    def test_a_pasted_line_is_answered_with_what_to_leave_out(self):
        self.open("new")
        self.one("#seat-0").send_keys("begin 10", Keys.ENTER)
        for seat, line, said in [
            (0, "0 get 10 a", "Leave out the session: this box is session 0's."),
            (1, "0 0 begin 10 => started", "Leave out the position, the session and the answer: this box is session 1's."),
            (0, "get . a", "write the transaction's timestamp, here 10."),
        ]:
            self.paste(f"#seat-{seat}", line)
            self.press(Keys.ENTER)
            self.assertIn(said, self.wrong(seat)[0])
            self.assertEqual(self.one(f"#seat-{seat}").get_attribute("value"), line)
        self.paste("#seat-0", "0 begin 20\n0 commit 20\n")
        self.assertIn("these are 2", self.wrong(0)[0])
        self.assertEqual(self.answers(), ["started"])

    def paste(self, selector, text):
        self.command("Browser.grantPermissions", permissions=["clipboardReadWrite", "clipboardSanitizedWrite"])
        self.one(selector).clear()
        self.one(selector).click()
        self.browser.execute_async_script("navigator.clipboard.writeText(arguments[0]).then(arguments[1])", text)
        self.press(Keys.CONTROL + "v")

    def test_faulty_lines_of_a_script_are_told_in_the_transcript(self):
        self.open("new")
        self.run_script("0 begin 10\n0 put 10 a\n1 0 commit 10 => committed 0\n")
        self.assertEqual(self.answers(), ["started"])
        self.assertEqual([it.text for it in self.all(".fault")], [
            "0 put 10 a: wordcount. put takes 3 words behind it, and here are 2.",
            "1 0 commit 10 => committed 0: unknowncommand. Leave out the position and the answer.",
        ])

    def test_long_keys_are_cut_in_the_middle_and_read_whole(self):
        keys = [f"customers/europe/germany/{it}" for it in ("17/name", "17/street", "18/name")]
        for width in WIDTHS:
            self.size(width)
            self.open("new")
            self.run_script("0 begin 10\n" + "".join(f"0 put 10 {it} 1\n" for it in keys))
            shown = self.ask("[...document.querySelectorAll('.picture .name')].map((it) => it.firstChild.data.trim())")
            cut = [it for it in shown if "…" in it]
            self.assertEqual(len(set(cut)), 3)
            for one, key in zip(cut, keys):
                head, tail = one.split("…")
                self.assertTrue(head and tail and key.startswith(head) and key.endswith(tail), one)
            nodes = self.command("Accessibility.getFullAXTree")["nodes"]
            aloud = [it["name"]["value"] for it in nodes if not it["ignored"] and it["role"]["value"] == "image"]
            self.assertEqual(aloud, keys)

    def described(self, selector):
        described = self.one(selector).get_attribute("aria-describedby")
        return self.one(f"#{described}").text

    def test_a_new_database_begins_again_and_again(self):
        self.open("first")
        for _ in range(2):
            self.one("#anew").click()
            self.until(lambda: self.transcript() == "")
            self.one("#seat-0").send_keys("begin 10", Keys.ENTER)
            self.assertEqual(self.transcript(), "0 0 begin 10 => started\n")

    def test_an_earlier_event_is_shown(self):
        self.open("first")
        self.tab_to("#transcript")
        self.press(Keys.UP)
        self.assertIn("8 0 put 15 apple 4 => toolate", self.one("#moment").text)
        self.assertIn("A write at 15 would make that answer wrong", self.sentence())
        self.press(Keys.HOME)
        self.assertEqual([it.get_attribute("data-mark") for it in self.all(".mark")], ["transaction 10"])
        self.one("#moment button").click()
        self.assertIn("9 1 commit 20 => committed 0", self.one("#moment").text)
        self.all(".event")[3].click()
        self.assertIn("3 0 commit 10 => committed 2", self.one("#moment").text)

    def test_marks_tell_what_they_mean(self):
        self.open("shop")
        self.mark("refusal 28").click()
        self.assertIn("Transaction 38 has read apple and found the version of 22", self.sentence())
        self.mark("read apple 22 38").click()
        self.assertIn("no write of apple between 22 and 38", self.sentence())
        self.mark("resolved 1 28").click()
        self.assertIn("says resolved 28: all at or below 28 is closed and was told", self.sentence())
        self.mark("closed").click()
        self.assertIn("nothing at or below it will ever change", self.sentence())
        self.one("#seat-0").send_keys("begin 28", Keys.ENTER)
        self.assertIn("so nothing begins at 28", self.sentence())

    def test_marks_by_the_keyboard(self):
        self.open("first")
        self.tab_to(".mark")
        self.press(Keys.UP, Keys.UP, Keys.UP, Keys.UP, Keys.LEFT, Keys.LEFT, Keys.LEFT)
        self.assertEqual(self.ask("document.activeElement.dataset.mark"), "transaction 10")
        self.press(Keys.DOWN, Keys.ENTER)
        self.assertIn("apple is 3 from 10 on", self.sentence())
        self.press(Keys.ESCAPE)
        self.assertIn("Transaction 20 is committed", self.sentence())

    def test_a_long_history_zooms(self):
        self.open("new")
        self.run_script("".join(f"0 begin {it}\n0 put {it} k{it % 12} {it}\n0 commit {it}\n" for it in range(1, 101)))
        self.assertTrue(self.all('[data-mark="transaction 100"]'))
        self.assertFalse(self.all('[data-mark="transaction 1"]'))
        self.one("[data-zoom=all]").click()
        self.assertEqual(len(self.all('[data-mark^="transaction"]')), 100)
        self.one("[data-zoom=closer]").click()
        self.one("[data-zoom=earlier]").click()
        self.assertFalse(self.all('[data-mark="transaction 100"]'))
        self.assertIn("not shown", self.one(".zoom").text)
        self.one("[data-zoom=keys]").click()
        self.one("[data-zoom=all]").click()
        self.assertTrue(self.all('[data-mark="version k11 95"]'))

    def test_the_state_in_words(self):
        self.open("horizon")
        self.all(".event")[12].click()
        words = self.one(".state").text
        self.assertIn("Closed is 40", words)
        self.assertIn("since feed 1 holds it", words)
        self.assertIn("25 behind closed", words)

    def test_what_is_typed_is_no_markup(self):
        self.open("new")
        self.run_script("0 begin 1\n0 put 1 <img/src=x/onerror=alert(1)> <b>\n0 get 1 <script>\n")
        self.assertEqual(self.answers(), ["started", "written", "none"])
        self.assertFalse(self.all(".picture img, .picture b b, #transcript img, #transcript script"))

    def test_the_transcript_is_copied(self):
        self.open("first")
        self.command("Browser.grantPermissions", permissions=["clipboardReadWrite", "clipboardSanitizedWrite"])
        self.one("#copy").click()
        self.until(lambda: self.one("#copy").text == "Copied")
        self.assertEqual(self.ask("navigator.clipboard.readText()"), "mvfeed 2\n" + self.transcript())

    def test_a_browser_that_is_too_old_is_told(self):
        old = self.command("Page.addScriptToEvaluateOnNewDocument", source="WebAssembly.validate = () => false;")
        self.addCleanup(self.command, "Page.removeScriptToEvaluateOnNewDocument", **old)
        self.browser.get("about:blank")
        self.browser.get(PAGE)
        self.until(lambda: self.one("#unsupported").is_displayed())
        self.assertIn("needs WebAssembly with a 64-bit memory", self.one("#unsupported").text)
        self.assertFalse(self.one("#tour").is_displayed())


class Legible(Page):
    """Each story and each step of the tour, at both widths and in both schemes."""

    def see(self, check):
        for width in WIDTHS:
            for name in [*STORIES, *STEPS, "new"]:
                with self.subTest(width=width, name=name):
                    self.size(width)
                    self.open(name)
                    check(width)

    def test_nothing_is_wider_than_the_page(self):
        self.see(lambda width: self.assertLessEqual(self.ask("document.documentElement.scrollWidth"), width))

    def test_no_text_of_the_picture_is_cut_off(self):
        self.see(lambda _: self.assertEqual(self.ask(CUT_OFF), []))

    def test_no_text_of_the_picture_lies_on_another(self):
        self.see(lambda _: self.assertEqual(self.ask(OVERLAPS), []))

    def test_each_timestamp_of_the_tour_has_its_number(self):
        for width in WIDTHS:
            self.size(width)
            for name in STEPS:
                with self.subTest(width=width, name=name):
                    self.open(name)
                    ticks = self.ask("document.querySelectorAll('.picture line.axis').length") - 1
                    self.assertEqual(len(self.all(".picture .tick")), ticks)

    def test_no_title_of_an_example_is_cut_off(self):
        for width in WIDTHS:
            self.size(width)
            self.open()
            with self.subTest(width=width):
                self.assertEqual(self.ask(CUT_TITLES), [])

    def test_no_word_round_the_picture_is_cut_off(self):
        for width in WIDTHS:
            self.size(width)
            self.open()
            self.one("#seat-0").send_keys("put 10 " + 20 * "a-long-key/", Keys.ENTER)
            self.one("#seat-1").send_keys("0 1 get . " + 20 * "a-long-key/" + " => none", Keys.ENTER)
            self.ask("document.querySelectorAll('details').forEach((it) => it.open = true)")
            with self.subTest(width=width):
                self.assertLessEqual(self.ask("document.documentElement.scrollWidth"), width)
                self.assertEqual(self.ask(CUT_WORDS), [])

    def test_contrast(self):
        for scheme in SCHEMES:
            self.scheme(scheme)
            self.open("shop")
            colours = self.ask(COLOURS)
            grounds = ["paper", "ground", "closed-ground", "choice"]
            words = ["ink", "soft", "bad", "closed", "horizon", "behind", *(f"seat-{it}" for it in range(8))]
            for ground in grounds:
                for word in words:
                    with self.subTest(scheme=scheme, ground=ground, word=word):
                        self.assertGreaterEqual(contrast(colours[word], colours[ground]), LEAST_CONTRAST)


# The texts of the drawing that leave it, and the pairs of texts of which one lies on the other.
CUT_OFF = """[...document.querySelectorAll(".drawing text")].filter((it) => {
  const [own, all] = [it, it.closest("svg")].map((it) => it.getBoundingClientRect());
  const isWide = own.left < all.left - 1 || own.right > all.right + 1;
  return own.width && (isWide || own.top < all.top - 1 || own.bottom > all.bottom + 1);
}).map((it) => it.textContent)"""
# The titles that need a wider select than there is: each alone in one that is as wide as its title.
CUT_TITLES = """(() => {
  const select = document.getElementById("examples");
  const alone = select.cloneNode();
  alone.style.width = "max-content";
  select.after(alone);
  const wide = (option) => (alone.replaceChildren(option.cloneNode(true)), alone.getBoundingClientRect().width);
  const room = select.getBoundingClientRect().width;
  const cut = [...select.options].filter((it) => wide(it) > room + 1).map((it) => it.text);
  alone.remove();
  return cut;
})()"""
# What is wider within than its own box, but for boxes to type into.
CUT_WORDS = """[...document.querySelectorAll("header *, #tour *, aside *")].filter((it) =>
  !it.matches("input, textarea, select, option") && it.clientWidth > 0 && it.scrollWidth > it.clientWidth + 1)
  .map((it) => it.outerHTML.slice(0, 80))"""
OVERLAPS = """(() => {
  const texts = [...document.querySelectorAll(".drawing text")];
  const meet = (one, other) => {
    const [a, b] = [one, other].map((it) => it.getBoundingClientRect());
    return a.left < b.right - 1 && b.left < a.right - 1 && a.top < b.bottom - 3 && b.top < a.bottom - 3;
  };
  const pairs = texts.flatMap((one, i) => texts.slice(i + 1).map((other) => [one, other]));
  return pairs.filter((it) => meet(...it)).map((it) => it.map((text) => text.textContent).join(" | "));
})()"""
# The colours that the style sheets name, by their names.
COLOURS = """(() => {
  const rules = [...document.styleSheets].flatMap((it) => [...it.cssRules]).filter((it) => it.selectorText === ":root");
  const names = rules.flatMap((it) => [...it.style]).filter((it) => it.startsWith("--"));
  const style = getComputedStyle(document.documentElement);
  return Object.fromEntries(names.map((it) => [it.slice(2), style.getPropertyValue(it).trim()]));
})()"""


def contrast(one, other):
    dark, light = sorted((luminance(one), luminance(other)))
    return (light + 0.05) / (dark + 0.05)


def luminance(colour):
    """Of #rrggbb, as the Web Content Accessibility Guidelines define it."""
    parts = [int(colour[i : i + 2], 16) / 255 for i in (1, 3, 5)]
    red, green, blue = [it / 12.92 if it <= 0.03928 else ((it + 0.055) / 1.055) ** 2.4 for it in parts]
    return 0.2126 * red + 0.7152 * green + 0.0722 * blue


if __name__ == "__main__":
    unittest.main()
