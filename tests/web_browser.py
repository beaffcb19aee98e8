"""The page in Chromium, by what a person does with it, and sets as members.

It ends with status 77 if Chromium, its driver or Selenium is missing.
"""

import shutil
import sys
import time

SKIPPED = 77
NEEDED = [("chromium", "chromium"), ("chromedriver", "chromium-driver")]


def missing():
    """What is missing, with the Debian package that brings it, or nothing."""
    for tool, package in NEEDED:
        if not shutil.which(tool):
            return f"{tool} is missing; on Debian the package {package} brings it"
    try:
        import selenium  # noqa: F401
    except ImportError:
        return f"{sys.executable} has no selenium; on Debian the package python3-selenium brings it to /usr/bin/python3"
    return None


if why := missing():
    print(f"web: SKIPPED: {why}")
    sys.exit(SKIPPED)

from selenium import webdriver  # noqa: E402
from selenium.webdriver.common.action_chains import ActionChains  # noqa: E402
from selenium.webdriver.common.by import By  # noqa: E402
from selenium.webdriver.common.keys import Keys  # noqa: E402
from selenium.webdriver.support.ui import WebDriverWait  # noqa: E402

# The operations, by their answers: 1 for values in the left set alone, 2 for those in the right
# alone, 4 for those in both, 8 for those in neither.
UNION, INTERSECTION, DIFFERENCE, SYMMETRIC_DIFFERENCE, COMPLEMENT = 7, 4, 1, 3, 10
WORDS = {"left": 1, "right": 2, "both": 4, "neither": 8}
# Every boundary of the rows lies below this number.
FAR = 64


def members(*ranges):
    """The membership of ranges, of which an end of None is none. A reversed range has no
    members."""
    return lambda value: any(start <= value and (end is None or value < end) for start, end in ranges)


def boundaries(has, below=FAR):
    """Where membership switches, from the least value on."""
    before = [False, *(has(value) for value in range(below))]
    return [value for value in range(below) if before[value] != before[value + 1]]


def text_of(found):
    """The ranges between boundaries, as people write them."""
    ends = [*found, ""] if len(found) % 2 else found
    return ", ".join(f"{start}..{end}" for start, end in zip(ends[::2], ends[1::2]))


def combined(a, b, answers):
    """The membership of an operation's result: 1 answers for the left alone, 2 for the right
    alone, 4 for both, 8 for neither."""
    return lambda value: bool(answers & {(True, False): 1, (False, True): 2, (True, True): 4, (False, False): 8}[a(value), b(value)])


class Page:
    """The page in the browser, by what a person does with it."""

    def __init__(self, driver, folder):
        self.driver, self.folder, self.address = driver, folder, (folder / "index.html").resolve().as_uri()

    def open(self, view="sets"):
        self.driver.get("about:blank")
        self.driver.get(f"{self.address}#{view}")
        WebDriverWait(self.driver, 30).until(lambda it: it.execute_script("return document.documentElement.dataset.ready") == "true")
        # The lines are drawn once they have a width.
        WebDriverWait(self.driver, 30).until(lambda it: it.find_elements(By.CSS_SELECTOR, "[role=tabpanel]:not([hidden]) svg.line .off"))

    def fragment(self):
        """The address after its "#", once it has followed the last change."""
        time.sleep(0.25)
        return self.run("return location.hash.slice(1)")

    def sets(self):
        """Both texts, and the operation."""
        answers = sum(it for it in WORDS.values() if self.id(f"sets-takes-{it}").is_selected())
        return (self.id("sets-a").get_property("value"), self.id("sets-b").get_property("value"), answers)

    def button(self, view, words):
        """The button of a view with these words."""
        return next(it for it in self.all(f"#view-{view} button") if words in it.text)

    def id(self, name):
        return self.driver.find_element(By.ID, name)

    def all(self, selector):
        return self.driver.find_elements(By.CSS_SELECTOR, selector)

    def run(self, script, *words):
        return self.driver.execute_script(script, *words)

    def text(self, name):
        return self.id(name).text

    def type(self, name, text):
        """Replaces the text of a field, key by key."""
        self.id(name).send_keys(Keys.CONTROL, "a")
        self.id(name).send_keys(Keys.DELETE)
        self.id(name).send_keys(text)

    def chips(self, row):
        """The boundaries in the list beside a picture."""
        return self.run("return [...document.querySelectorAll(arguments[0])].map((it) => Number(it.dataset.value))", f"#{row}-boundaries .chip")

    def dots(self, row):
        """The boundaries in a picture: the value and whether the dot is a filled one."""
        found = self.run("return [...document.querySelectorAll(arguments[0])].map((it) => [Number(it.dataset.value), it.classList.contains('start')])", f"#{row}-row .dot")
        return [tuple(it) for it in found]

    def choose(self, answers):
        """Clicks the four boxes until they give these answers."""
        for answer in (1, 2, 4, 8):
            box = self.id(f"sets-takes-{answer}")
            if box.is_selected() != bool(answers & answer):
                ActionChains(self.driver, duration=20).move_to_element(box).click().perform()

    def line(self, row):
        return self.driver.find_element(By.CSS_SELECTOR, f"#{row}-row svg.line")

    def x(self, row, value, start=0, end=24):
        """Where a value stands on a line, from the middle of it: the picture has a margin of 22
        pixels at both sides."""
        wide = self.line(row).size["width"] - 44
        return round((value - start) / (end - start) * wide - wide / 2)

    def drag(self, row, start, end, y=-10):
        """Drags from a value to another, or past the edge of the line if the second is None."""
        line = self.line(row)
        last = line.size["width"] // 2 - 1 if end is None else self.x(row, end)
        steps = ActionChains(self.driver, duration=20).move_to_element_with_offset(line, self.x(row, start), y).click_and_hold()
        steps.move_to_element_with_offset(line, (self.x(row, start) + last) // 2, y).move_to_element_with_offset(line, last, y).release().perform()

    def press(self, *keys):
        self.driver.switch_to.active_element.send_keys(*keys)

    def focus(self, node):
        self.run("arguments[0].focus()", node)

    def media(self, **features):
        self.driver.execute_cdp_cmd("Emulation.setEmulatedMedia", {"features": [{"name": name.replace("_", "-"), "value": value} for name, value in features.items()]})

    def size(self, width, height):
        self.driver.execute_cdp_cmd("Emulation.setDeviceMetricsOverride", {"width": width, "height": height, "deviceScaleFactor": 1, "mobile": width < 600})

    def complaints(self):
        """What the browser wrote to its console."""
        return [it["message"] for it in self.driver.get_log("browser")]


class Counted:
    """Counts checks, and says which failed."""

    def __init__(self):
        self.passed = self.failed = self.skipped = 0

    def same(self, what, found, expected):
        if found == expected:
            self.passed += 1
        else:
            self.failed += 1
            print(f"web: FAILED: {what}: the page shows {found!r}, and {expected!r} was expected")

    def skip(self, what, why):
        self.skipped += 1
        print(f"web: {what}: SKIPPED: {why}")


def browser(*more):
    """Chromium without a window. It's Debian's, and so is its driver."""
    options = webdriver.ChromeOptions()
    options.binary_location = shutil.which("chromium")
    for word in ("--headless=new", "--no-sandbox", "--hide-scrollbars", "--disable-dev-shm-usage", "--window-size=1200,1300", *more):
        options.add_argument(word)
    options.set_capability("goog:loggingPrefs", {"browser": "ALL"})
    service = webdriver.chrome.service.Service(shutil.which("chromedriver"))
    return webdriver.Chrome(service=service, options=options)


def check_result(page, check, what, has, window=24):
    """Compares all that the page says of a result with its members."""
    found = boundaries(has)
    inside = [value for value in range(FAR) if has(value)]
    endless = has(FAR)
    gaps = boundaries(lambda value: value < window and not has(value))
    check.same(f"{what}: the boundaries", page.chips("sets-result"), found)
    check.same(f"{what}: the dots", page.dots("sets-result"), [(value, i % 2 == 0) for i, value in enumerate(found)])
    check.same(f"{what}: the text", page.text("sets-text"), text_of(found) or "nothing: no range")
    check.same(f"{what}: the members", page.text("sets-members"), "no end" if endless else str(len(inside)))
    check.same(f"{what}: the gaps", page.text("sets-gaps"), text_of(gaps) or "none")
