"""The pictures of sets, as Chromium draws them: no word is cut or lies on another, and each can be read on light and on dark."""

import shutil
import tempfile
import unittest
from datetime import date, datetime, timedelta, timezone
from ipaddress import IPv4Network
from pathlib import Path

from selenium import webdriver

from range_sets import RangeMap, RangeSet

MOST, HOUR, NOON = 2**63 - 1, 3_600_000_000, datetime(2026, 5, 4, 12)
SETS = [
    RangeSet(),
    ~RangeSet(),
    RangeSet([(0, 10), (20, None)]),
    ~RangeSet([(0, 10), (20, 30)]),
    RangeSet((5, None)),
    RangeSet((None, 5)),
    RangeSet([(-MOST, MOST)]),
    RangeSet([(0, 1), (MOST - 1, MOST)]),
    RangeSet([(0, 5), (6, 7), (MOST - 9, None)]),
    RangeSet([(MOST - 1, None)]),
    RangeSet((1_700_000_000_000_000 + 8 * n * HOUR, 1_700_000_000_000_000 + (8 * n + 5) * HOUR) for n in range(6)),
    RangeSet((1000 * n, 1000 * n + 400) for n in range(12)),
    RangeSet((2 * n, 2 * n + 1) for n in range(1000)),
    RangeSet((NOON + n * timedelta(hours=8), NOON + n * timedelta(hours=8) + timedelta(minutes=90)) for n in range(6)),
    RangeSet([(NOON.replace(tzinfo=timezone.utc), NOON.replace(hour=13, tzinfo=timezone.utc))]),
    ~RangeSet([(NOON, NOON.replace(hour=13))]),
    RangeSet([(date(2026, 5, 1), date(2026, 5, 4)), (date(2026, 5, 9), None)]),
    RangeSet(kind="date"),
    ~RangeSet(kind="float"),
    RangeSet([(-1e300, 0.1), (0.25, 1e300)]),
    RangeSet([(0.5, float("inf"))]),
    RangeSet([(timedelta(hours=1), timedelta(days=900))]),
    RangeSet([IPv4Network("10.0.0.0/8"), IPv4Network("192.168.0.0/16"), IPv4Network("240.0.0.0/4")]),
    RangeSet([(0, 2**64 - 1)], unsigned=True),
    RangeSet([(2**63, 2**63 + 1)], unsigned=True),
    RangeSet([("WWWWWWWW", "mmmmmmmm"), ("www", None)]),
    RangeMap([((0, 5), "low"), ((5, 7), "WWWWWWWW"), ((7, 12), "M" * 99), ((20, None), "high")]),
    RangeMap([((10 * n, 10 * n + 9), f"Wm{n}") for n in range(1000)]),
    RangeMap([((None, None), ["a"])]),
    RangeMap(),
]
# The words of each picture, by the box that each takes within it, and its colour by the picture's text and its page.
SCRIPT = """
    return [...document.querySelectorAll("svg")].map((svg) => [...svg.querySelectorAll("text")].map((it) => {
        const [box, around] = [it.getBoundingClientRect(), svg.getBoundingClientRect()];
        return [it.textContent, box.left - around.left, box.top - around.top, box.right - around.left, box.bottom - around.top,
                getComputedStyle(it).fill, getComputedStyle(document.body).color];
    }));
"""


class Pictures(unittest.TestCase):
    def setUp(self):
        options = webdriver.ChromeOptions()
        options.binary_location = shutil.which("chromium")
        for word in ("--headless=new", "--no-sandbox", "--disable-dev-shm-usage", "--window-size=700,1200"):
            options.add_argument(word)
        self.driver = webdriver.Chrome(service=webdriver.chrome.service.Service(shutil.which("chromedriver")), options=options)
        self.addCleanup(self.driver.quit)

    def test_words(self):
        with tempfile.TemporaryDirectory() as folder:
            page = Path(folder, "page.html")
            for background, text in (("white", "black"), ("black", "white")):
                drawn = "".join(f"<div>{it._repr_svg_()}</div>" for it in SETS)
                page.write_text(
                    f"<!doctype html><meta charset=utf-8><body style='background: {background}; color: {text}'>{drawn}", encoding="utf-8"
                )
                self.driver.get(page.as_uri())
                pictures = self.driver.execute_script(SCRIPT)
                self.assertEqual(len(pictures), len(SETS))
                for made, words in zip(SETS, pictures):
                    with self.subTest(made=made, text=text):
                        self.assertTrue(words)
                        for i, (word, left, top, right, bottom, colour, around) in enumerate(words):
                            self.assertTrue(0 <= left and right <= 640 and 0 <= top and bottom <= 56, (word, left, right, top, bottom))
                            self.assertEqual(colour, around)
                            for other in words[:i]:
                                apart = right <= other[1] or left >= other[3] or bottom <= other[2] or top >= other[4]
                                self.assertTrue(apart, (word, other[0]))


if __name__ == "__main__":
    unittest.main()
