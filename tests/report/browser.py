"""browser.py QUAYRUDDER FOLDER [PICTURES]: the page that `quayrudder report` makes, tried in headless Chromium.

FOLDER has what archive.sh makes, and `many` with as many holdings as make the page long. Where PICTURES is given, pictures of
the page are left there.
"""
import base64
import itertools
import pathlib
import re
import subprocess
import sys
import time
import unittest

from selenium import webdriver
from selenium.webdriver.chrome.service import Service
from selenium.webdriver.common.by import By
from selenium.webdriver.common.keys import Keys
from selenium.webdriver.support.ui import Select

COMMAND, FOLDER = (pathlib.Path(word).resolve() for word in sys.argv[1:3])
PICTURES = [pathlib.Path(word) for word in sys.argv[3:4]]
HOSTILE = "archive/<script>window.harmed=1<"

# The lowest contrast of any text that is shown, and where it is.
CONTRAST = r"""
const parse = (text) => text.match(/[\d.]+/g).map(Number);
const light = ([r, g, b]) => [r, g, b].map((v) => v / 255).map((v) => v <= 0.03928 ? v / 12.92 : ((v + 0.055) / 1.055) ** 2.4)
  .reduce((sum, v, place) => sum + v * [0.2126, 0.7152, 0.0722][place], 0);
const ground = (element) => {
  for (let at = element; at; at = at.parentElement) {
    const colour = parse(getComputedStyle(at).backgroundColor);
    if (colour.length < 4 || colour[3] > 0) return colour;
  }
  return [255, 255, 255];
};
const has_text = (element) => [...element.childNodes].some((node) => node.nodeType === 3 && node.data.trim());
const shown = [...document.body.querySelectorAll("*")].filter((e) => has_text(e) && e.checkVisibility() && !e.closest(":disabled, script"));
return shown.map((element) => {
  const [a, b] = [light(parse(getComputedStyle(element).color)), light(ground(element))].sort((x, y) => y - x);
  return [(a + 0.05) / (b + 0.05), element.outerHTML.slice(0, 80)];
}).sort((x, y) => x[0] - y[0])[0];
"""

# What has the focus, and whether that is seen.
FOCUSED = """
const element = document.activeElement;
return element === document.body ? ["", ""] : [element.id || element.textContent.trim(), getComputedStyle(element).outlineStyle];
"""


def report(folder, page):
    subprocess.run([COMMAND, "report", folder, "-o", page, "--force"], cwd=FOLDER, stderr=subprocess.DEVNULL, check=False)
    return FOLDER / page


def browser():
    options = webdriver.ChromeOptions()
    options.binary_location = "/usr/bin/chromium"
    for word in ["--headless=new", "--no-sandbox", "--disable-gpu", "--disable-dev-shm-usage", "--window-size=1200,1000"]:
        options.add_argument(word)
    options.set_capability("goog:loggingPrefs", {"browser": "ALL"})
    return webdriver.Chrome(service=Service("/usr/bin/chromedriver"), options=options)


class Browser(unittest.TestCase):
    """A page of one folder, opened anew for each test."""

    folder = None

    @classmethod
    def setUpClass(cls):
        cls.file = report(cls.folder, f"{cls.folder}.html")
        cls.driver = browser()

    @classmethod
    def tearDownClass(cls):
        cls.driver.quit()

    def setUp(self):
        self.driver.execute_cdp_cmd("Emulation.setEmulatedMedia", {"media": "", "features": []})
        self.driver.get_log("browser")
        self.open(self.file)

    def open(self, file, part=""):
        self.driver.get("about:blank")
        self.driver.get(f"{file.as_uri()}{part}")
        self.until(lambda: self.js("return document.documentElement.dataset.ready") == "yes", 60)

    def js(self, text, *words):
        return self.driver.execute_script(text, *words)

    def one(self, selector):
        return self.driver.find_element(By.CSS_SELECTOR, selector)

    def texts(self, selector):
        return self.js("return [...document.querySelectorAll(arguments[0])].map((element) => element.innerText.trim())", selector)

    def until(self, holds, seconds=5):
        end = time.monotonic() + seconds
        while not holds():
            self.assertLess(time.monotonic(), end, "waited too long")
            time.sleep(0.02)

    def keys(self, *words):
        webdriver.ActionChains(self.driver).send_keys(*words).perform()

    def names(self):
        return self.texts("#rows th")

    def holding(self, name):
        self.driver.find_element(By.LINK_TEXT, name).send_keys(Keys.ENTER)
        self.until(lambda: self.one("#one").is_displayed())

    def media(self, **features):
        wanted = [{"name": name.replace("_", "-"), "value": value} for name, value in features.items() if name != "media"]
        self.driver.execute_cdp_cmd("Emulation.setEmulatedMedia", {"media": features.get("media", ""), "features": wanted})

    def tree(self):
        nodes = self.driver.execute_cdp_cmd("Accessibility.getFullAXTree", {})["nodes"]
        return [node for node in nodes if not node["ignored"]]

    def roles(self):
        value = lambda node, key: node.get(key, {}).get("value", "")
        return [(value(node, "role"), value(node, "name")) for node in self.tree()]


class Page(Browser):
    folder = "archive"

    def test_it_opens_without_a_complaint_and_fetches_nothing(self):
        self.assertEqual(self.driver.title, "Archive report: archive")
        self.assertEqual(self.driver.get_log("browser"), [])
        fetched = self.js("return performance.getEntriesByType('resource').map((e) => e.name)")
        self.assertEqual([name for name in fetched if not name.startswith("data:")], [])

    def test_what_needs_attention_comes_first(self):
        self.assertEqual(self.texts("#all h2"), ["Needs attention", "Totals", "Keep dates", "Holdings"])
        damaged, refused = self.texts("#trouble-list li")
        self.assertIn("archive/lysozyme/scan_0007 damaged", damaged)
        self.assertIn("differs from its sum", damaged)
        self.assertIn("Restore the holding from its copy. Then check it with", damaged)
        self.assertIn("refusal 20: the ledger is malformed", refused)
        self.assertEqual(self.names()[:2], ["archive/lysozyme/scan_0007", "archive/lysozyme/scan_0008"])

    def test_totals_and_keep_dates(self):
        tiles = dict(text.split("\n") for text in self.texts("#totals > div"))
        expected = {"Holdings": "15", "Whole": "13", "Refused": "1", "Damaged": "1", "Corrections standing": "3 in 2 holdings"}
        self.assertEqual({key: tiles[key] for key in expected}, expected)
        months = self.texts("#due tbody th")
        self.assertEqual((months[0], months[1], len(months)), ("2024-06 (passed)", "2026-01 (passed)", 9))
        widths = self.js("return [...document.querySelectorAll('.bar')].map((e) => e.getBoundingClientRect().width)")
        self.assertGreater(max(widths), 1.5 * min(widths))

    def test_it_sorts_by_mouse_and_by_keyboard(self):
        head = self.one("th[data-key=kept_until]")
        dates = lambda: [text for text in self.texts("#rows td.date") if text[0].isdigit()]
        for sort in ["ascending", "descending"]:
            head.find_element(By.TAG_NAME, "button").send_keys(Keys.ENTER)
            self.assertEqual(head.get_attribute("aria-sort"), sort)
            self.assertEqual(dates(), sorted(dates(), reverse=sort == "descending"))
            self.assertFalse(self.texts("#rows td.date")[-1][0].isdigit(), "what is not known stands last")
        self.one("th[data-key=bytes] button").click()
        sizes = [int(text.replace(",", "")) for text in self.texts("#rows td:nth-child(3)")]
        self.assertEqual((sizes, head.get_attribute("aria-sort")), (sorted(sizes), "none"))

    def test_it_searches_and_filters(self):
        self.one("#search").send_keys("iNSULIN/f")
        self.until(lambda: len(self.names()) == 3)
        self.assertEqual(self.one("#found").text, "rows 1 to 3 of 3 holdings found among 15")
        self.one("#search").send_keys("-nothing")
        self.until(lambda: self.names() == [])
        self.one("#search").send_keys(Keys.CONTROL, "a")
        self.one("#search").send_keys(Keys.DELETE)
        self.until(lambda: len(self.names()) == 15)
        scans, frames = "archive/lysozyme/scan_000", "archive/Insulin/frame_"
        for shown, names in [("those with corrections", [f"{scans}2", f"{scans}5"]), ("those that may be purged", [f"{frames}1", f"{frames}2"]),
                             ("those that need attention", [f"{scans}7", f"{scans}8"])]:
            Select(self.one("#filter")).select_by_visible_text(shown)
            self.until(lambda: self.names() == names)

    def test_pages_of_rows(self):
        self.js("const size = document.getElementById('size'); size.options[0].value = 4; size.value = 4; size.dispatchEvent(new Event('change'))")
        first = self.names()
        self.one("#next").click()
        self.assertEqual((len(first), len(set(first + self.names())), self.one("#pages").text), (4, 8, "of 4"))
        self.one("#last").click()
        self.assertEqual((len(self.names()), self.one("#next").is_enabled()), (3, False))
        last = self.names()
        for page, names in [("1", first), ("99", last), ("0", first), ("4", last), ("-7", first)]:
            self.one("#page").send_keys(Keys.CONTROL, "a")
            self.one("#page").send_keys(page, Keys.ENTER)
            self.until(lambda: self.names() == names)

    def test_a_holding_has_its_own_view(self):
        self.holding("archive/lysozyme/scan_0002")
        self.assertEqual(self.js("return document.activeElement.id"), "one-title")
        self.assertEqual(self.driver.title, "archive/lysozyme/scan_0002 - archive report")
        corrections, lines = self.driver.find_elements(By.CSS_SELECTOR, "#one table")
        cells = [[cell.text for cell in row.find_elements(By.TAG_NAME, "td")] for row in corrections.find_elements(By.CSS_SELECTOR, "tbody tr")]
        self.assertEqual(cells[0], ["2", "38,650", "100", "250", "4,000,000", "90"])
        self.assertEqual([row[:2] for row in cells], [["2", "38,650"], ["3", "8,094"]])
        said = lines.find_element(By.TAG_NAME, "tbody").text.split("\n")
        self.assertEqual(said[3:], ["4 pixel 77,140 corrected from 47 to 31 withdrawn", "5 withdrawal"])
        self.assertIn("not yet: archive/lysozyme/scan_0002 is kept until 2032-02-15 by line 1.", self.one("#one-body").text)
        self.driver.back()
        self.until(lambda: self.one("#all").is_displayed())

    def test_corrected_pixels_are_marked_where_they_are(self):
        self.holding("archive/lysozyme/scan_0002")
        box = self.js("const b = document.querySelector('.frame img').getBoundingClientRect(); return [b.x, b.y, b.width, b.height]")
        marks = self.js("return [...document.querySelectorAll('circle')].map((c) => { const b = c.getBoundingClientRect(); return [b.x + b.width / 2, b.y + b.height / 2] })")
        # 384 columns and 256 rows by threes: the last square of the rows is cut off by two rows.
        for (x, y), (row, column) in zip(sorted(marks, key=lambda mark: -mark[0]), [(100, 250), (21, 30)], strict=True):
            self.assertAlmostEqual(x, box[0] + box[2] * (column + 0.5) / 384, delta=1)
            self.assertAlmostEqual(y, box[1] + box[3] * (row + 0.5) / 258, delta=1)

    def test_a_damaged_holding_says_what_to_do(self):
        self.holding("archive/lysozyme/scan_0007")
        said = self.one("#one-body").text
        self.assertIn("Restore the holding from its copy.", said)
        self.assertIn("a sweep leaves it alone while that is so", said)
        self.one(".back a").click()
        self.until(lambda: self.js("return document.activeElement.id") == "holdings-title")

    def test_hostile_names_are_text(self):
        self.assertIn(HOSTILE, self.names())
        self.assertIn("archive/</script><img src=x onerror=window.harmed=1>", self.names())
        self.assertIn("archive/turned\\u{202e}gnp.exe", self.names())
        self.holding(HOSTILE)
        self.assertEqual((self.one("#one-title").text, self.driver.title), (HOSTILE, f"{HOSTILE} - archive report"))
        self.assertIsNone(self.js("return window.harmed"))
        self.assertEqual(self.js("return document.querySelectorAll('img[src=x], #one script').length"), 0)

    def test_the_policy_holds_back_what_is_not_the_pages_own(self):
        blocked = self.driver.execute_async_script(
            "const [done, found] = [arguments[0], []];"
            "document.addEventListener('securitypolicyviolation', (e) => found.push(e.effectiveDirective));"
            "const add = (tag, set) => document.body.append(Object.assign(document.createElement(tag), set));"
            "add('script', { textContent: 'window.harmed = 1' });"
            "add('style', { textContent: 'body { display: none }' });"
            "add('img', { src: 'https://example.invalid/a.png' });"
            "fetch('https://example.invalid/').catch(() => setTimeout(() => done(found.sort()), 200));"
        )
        self.assertEqual(blocked, ["connect-src", "img-src", "script-src-elem", "style-src-elem"])
        self.assertIsNone(self.js("return window.harmed"))

    def test_the_accessibility_tree_of_the_list(self):
        roles = self.roles()
        landmarks = {"banner", "main", "navigation", "contentinfo", "search", "status"}
        self.assertEqual(landmarks - {role for role, _ in roles}, set())
        for named in [("heading", "Needs attention"), ("region", "Totals"), ("searchbox", "Search names"), ("combobox", "Show"),
                      ("button", "Kept until"), ("columnheader", "Kept until"), ("rowheader", "archive/Insulin/frame_1"),
                      ("link", "archive/Insulin/frame_1"), ("link", "Skip to the holdings"), ("button", "Next"), ("spinbutton", "Page"),
                      ("navigation", "Pages of the table"), ("link", HOSTILE)]:
            self.assertIn(named, roles)
        unnamed = [role for role, name in roles if role in ("link", "button", "searchbox", "combobox", "spinbutton", "region", "heading") and not name]
        self.assertEqual(unnamed, [])

    def test_the_accessibility_tree_of_a_holding(self):
        self.holding("archive/lysozyme/scan_0002")
        roles = self.roles()
        for named in [("heading", "archive/lysozyme/scan_0002"), ("article", "archive/lysozyme/scan_0002"), ("columnheader", "Old count"),
                      ("image", "The frame of archive/lysozyme/scan_0002, 2 corrected pixels marked"), ("table", "Lines of the ledger")]:
            self.assertIn(named, roles)
        self.assertNotIn(("heading", "Totals"), roles)

    def test_the_keyboard_reaches_everything_and_shows_where_it_is(self):
        self.js("document.activeElement.blur()")
        met = []
        for _ in range(60):
            self.keys(Keys.TAB)
            met.append(self.js(FOCUSED))
        self.assertEqual(met[0][0], "Skip to the holdings")
        wanted = {"search", "filter", "size", "Name", "Corrections", "archive/Insulin/frame_1"}
        self.assertEqual(wanted - {name for name, _ in met}, set())
        self.assertEqual([name for name, outline in met if outline == "none" and name], [])

    def test_contrast_in_light_and_dark(self):
        for scheme, part in itertools.product(["light", "dark"], ["", "#holding-4", "#holding-0"]):
            self.media(prefers_color_scheme=scheme)
            self.open(self.file, part)
            least, where = self.js(CONTRAST)
            self.assertGreaterEqual(least, 4.5, f"{scheme} {part}: {where}")

    def test_dark_is_not_light(self):
        grounds = []
        for scheme in ["light", "dark"]:
            self.media(prefers_color_scheme=scheme)
            grounds.append(self.js("return getComputedStyle(document.body).backgroundColor"))
        self.assertNotEqual(*grounds)

    def test_it_prints(self):
        self.media(media="print", prefers_color_scheme="dark")
        shown = lambda selector: self.one(selector).is_displayed()
        self.assertEqual([shown(part) for part in ["#controls", "nav", "#totals", "#trouble", "#holdings"]], [False, False, True, True, True])
        self.assertEqual(self.js("return getComputedStyle(document.body).backgroundColor"), "rgb(255, 255, 255)")
        width = self.js("return [document.documentElement.scrollWidth, innerWidth]")
        self.assertLessEqual(*width)
        printed = base64.b64decode(self.driver.execute_cdp_cmd("Page.printToPDF", {})["data"])
        self.assertIn(len(re.findall(rb"/Type /Page\b", printed)), [2, 3])

    def test_it_fits_a_narrow_window(self):
        self.driver.execute_cdp_cmd("Emulation.setDeviceMetricsOverride", {"width": 360, "height": 700, "deviceScaleFactor": 1, "mobile": True})
        self.open(self.file)
        width = self.js("return document.documentElement.scrollWidth")
        self.driver.execute_cdp_cmd("Emulation.clearDeviceMetricsOverride", {})
        self.assertLessEqual(width, 360)


class ManyRows(Browser):
    folder = "many"

    def milliseconds(self, selector):
        return self.js("const start = performance.now(); document.querySelector(arguments[0]).click(); return performance.now() - start", selector)

    def test_sorting_and_searching_do_not_freeze(self):
        number = self.js("return JSON.parse(document.getElementById('summary').textContent).totals.holdings")
        self.assertGreaterEqual(number, 20000)
        for key in ["name", "bytes", "kept_until", "corrections", "sums", "state", "may_purge"]:
            self.assertLess(self.milliseconds(f"th[data-key={key}] button"), 500, key)
            self.assertEqual(len(self.names()), 50)
        self.one("#search").send_keys("h0019999")
        self.until(lambda: len(self.names()) == 1, 3)
        self.holding(self.names()[0])
        self.assertIn("h0019999", self.one("#one-title").text)


def pictures(folder):
    """The two pictures of the manual, each of a whole page."""
    page, driver = report("archive", "archive.html"), browser()
    for name, part, scheme in [("report.png", "", "light"), ("report-holding.png", "#holding-8", "dark")]:
        driver.execute_cdp_cmd("Emulation.setEmulatedMedia", {"features": [{"name": "prefers-color-scheme", "value": scheme}]})
        driver.get("about:blank")
        driver.get(page.as_uri() + part)
        time.sleep(1)
        height = driver.execute_script("document.activeElement.blur(); return document.documentElement.scrollHeight")
        clip = {"x": 0, "y": 0, "width": 1180, "height": height, "scale": 0.85}
        taken = driver.execute_cdp_cmd("Page.captureScreenshot", {"captureBeyondViewport": True, "clip": clip})
        (folder / name).write_bytes(base64.b64decode(taken["data"]))
    driver.quit()


if __name__ == "__main__":
    if PICTURES:
        pictures(*PICTURES)
    else:
        unittest.main(argv=sys.argv[:1])
