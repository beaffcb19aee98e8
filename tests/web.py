#!/usr/bin/env python3
"""Opens the page from disk in Chromium, types, drags and clicks, and compares what it shows.

    tests/web.py                     all of it
    tests/web.py --page FOLDER       another copy of the folder web
    tests/web.py --shots FOLDER      keeps a picture of each view there; else they lie in a folder that is removed

What is expected is worked out here value by value, by membership, and never by the library. The last line is 'N passed,
M failed, K skipped', and the status is 77 if Chromium, its driver or Selenium is missing.
"""

import argparse
import statistics
import sys
import tempfile
import traceback
from pathlib import Path

from web_browser import Counted, Keys, Page, WebDriverWait, browser
from web_guide import (
    chips, explanations, first_screen, links, links_elsewhere, links_of_changes, links_on_the_page, memory, steps,
    undoing, undoing_by_keys, undoing_elsewhere, undoing_typing,
)
from web_sets import (
    drawing, faults, greatest, keys, linking, many_ranges, named_operations, old_results, touching, touching_ranges, typed_sets, windows,
)
from web_views import characters, pieces

ROOT = Path(__file__).resolve().parent.parent
# A keystroke in a set of 10,000 ranges takes no longer than this from the key to the picture, in
# milliseconds.
LONGEST = 50


def keystrokes(page, check):
    """Keys in a set of 10,000 ranges, as the page measures them."""
    page.open()
    [many] = [it for it in page.all(".example") if "10,000" in it.text]
    many.click()
    field = page.id("sets-a")
    ranges = [tuple(int(it) for it in part.split("..")) for part in field.get_attribute("value").split(", ")]
    page.run("document.getElementById('sets-intersection').closest('label').click()")
    page.type("sets-b", "0..99999999")
    check.same("10,000 ranges", (len(ranges), page.text("sets-ranges"), page.text("sets-members")), (10000, "10,000", f"{sum(end - start for start, end in ranges):,}"))
    field.send_keys(Keys.END)
    times = []
    for key in ", 200000..200001, 300000..300007":
        before = page.run("return document.getElementById('time').dataset.count")
        field.send_keys(key)
        WebDriverWait(page.driver, 10).until(lambda it: it.execute_script("return document.getElementById('time').dataset.count") != before)
        times.append(float(page.run("return document.getElementById('time').dataset.painted")))
    median = statistics.median(times)
    print(f"web: a key in 10,000 ranges takes {median:.1f} ms to the picture, {max(times):.1f} ms at most, {min(times):.1f} ms at least")
    check.same("the two more", page.text("sets-ranges"), "10,002")
    # The least, since what else runs on the machine only adds to it.
    check.same(f"a key takes less than {LONGEST} ms", min(times) < LONGEST, True)


def for_everyone(page, check):
    """Names for screen readers, no sideways scrolling on a phone, dark and light."""
    unnamed = """
        return [...document.querySelectorAll("a, button, input, select, summary, [role=slider], [role=img]")]
            .filter((it) => !(it.getAttribute("aria-label") || it.textContent.trim() || it.labels?.[0]?.textContent.trim()))
            .map((it) => it.outerHTML);
    """
    for view in ("sets", "pieces", "characters"):
        page.size(1200, 1300)
        page.open(view)
        check.same(f"{view}: nothing is without a name", page.run(unnamed), [])
        for width in (320, 375):
            page.size(width, 800)
            page.open(view)
            check.same(f"{view}: no sideways scrolling at {width}", page.run("return document.documentElement.scrollWidth") <= width, True)
    hosts = page.run("return [...new Set(performance.getEntriesByType('resource').map((it) => new URL(it.name).protocol))]")
    check.same("nothing is asked of another host", [it for it in hosts if it != "file:"], [])
    brightness = "return getComputedStyle(document.body).backgroundColor.match(/[0-9.]+/g).slice(0, 3).reduce((a, b) => a + Number(b), 0) / 3"
    page.size(1200, 1300)
    for scheme, is_bright in (("light", True), ("dark", False)):
        page.media(prefers_color_scheme=scheme)
        page.open()
        check.same(f"{scheme} is {scheme}", page.run(brightness) > 128, is_bright)
    page.id("theme").click()
    check.same("light by the button", page.run(brightness) > 128, True)
    page.media(prefers_color_scheme="light")


def pictures(page, check, folder):
    """A picture of each view, light, dark and on a phone."""
    for view in ("sets", "pieces", "characters"):
        for name, width, height, scheme in (("light", 1200, 1450, "light"), ("dark", 1200, 1450, "dark"), ("phone", 375, 2300, "light")):
            page.size(width, 600)
            page.media(prefers_color_scheme=scheme)
            page.open(view)
            for _ in range(12 if view == "pieces" else 0):
                page.id("pieces-random").click()
            page.size(width, page.run("return Math.min(document.documentElement.scrollHeight, arguments[0])", height))
            file = folder / f"{view}-{name}.png"
            page.driver.save_screenshot(str(file))
            check.same(f"a picture of {view}, {name}", file.stat().st_size > 20_000, True)


GROUPS = [
    typed_sets, named_operations, faults, old_results, touching_ranges, drawing, touching, keys, linking, greatest, many_ranges, windows, pieces, characters,
    first_screen, explanations, steps, chips, undoing, undoing_by_keys, undoing_typing, undoing_elsewhere,
    links, links_of_changes, links_on_the_page, links_elsewhere, memory, keystrokes, for_everyone,
]


def main(words):
    arguments = argparse.ArgumentParser()
    arguments.add_argument("--page", type=Path, default=ROOT / "web")
    arguments.add_argument("--shots", type=Path)
    arguments.add_argument("groups", nargs="*", help="the names of the functions to run, if not all of them")
    chosen = arguments.parse_args(words)
    check, driver = Counted(), browser()
    try:
        page = Page(driver, chosen.page)
        page.size(1200, 1300)
        page.media(prefers_color_scheme="light")
        for group in GROUPS:
            if chosen.groups and group.__name__ not in chosen.groups:
                continue
            try:
                group(page, check)
            except Exception:
                check.same(f"{group.__name__} runs to its end", traceback.format_exc(limit=-3), None)
            check.same(f"{group.__name__}: the console", page.complaints(), [])
        with tempfile.TemporaryDirectory() as folder:
            if not chosen.groups:
                shots = chosen.shots or Path(folder)
                shots.mkdir(parents=True, exist_ok=True)
                pictures(page, check, shots)
    finally:
        driver.quit()
    print(f"{check.passed} passed, {check.failed} failed, {check.skipped} skipped")
    return 1 if check.failed else 0


if __name__ == "__main__":
    sys.exit(main(sys.argv[1:]))
