"""Tests of the pieces of a file, and of classes of characters."""

import re
from pathlib import Path

from web_browser import (
    COMPLEMENT, DIFFERENCE, INTERSECTION, SYMMETRIC_DIFFERENCE, UNION, ActionChains, Keys, WebDriverWait, boundaries, combined,
)

UNICODE = Path("/usr/share/unicode")


def held(commands, limit):
    """The offsets that are there after commands, and whether the last was refused, piece by
    piece."""
    there, refused = set(), False
    for name, start, end in commands:
        pieces = set(range(start // 1024, end // 1024))
        after = there | pieces if name == "Arrived" else there - pieces
        refused = len(boundaries(lambda it: it in after, 66)) > limit
        there = there if refused else after
    return there, refused


def pieces(page, check):
    """Pieces arrive and are lost, under a limit."""
    page.open("pieces")
    check.same("at first", (page.text("pieces-received"), page.text("pieces-used")), ("0 of 65,536 bytes", "0 of 32"))
    page.open("pieces&limit=8")
    commands, refusals = [], 0
    for name in ["next"] * 3 + ["random"] * 14 + ["lose"] * 3 + ["next"] * 2:
        page.id(f"pieces-{name}").click()
        said = page.all("#pieces-log li")[0].text
        word, start, end = re.match(r"(Arrived|Lost): ([0-9,]+)\.\.([0-9,]+)", said).groups()
        commands.append((word, int(start.replace(",", "")), int(end.replace(",", ""))))
        there, refused = held(commands, 8)
        refusals += refused
        found = [it * 1024 for it in boundaries(lambda it: it in there, 66)]
        gone = [it * 1024 for it in boundaries(lambda it: it < 64 and it not in there, 66)]
        check.same(f"{name}: what is there", page.chips("pieces-there"), found)
        check.same(f"{name}: what is missing", page.chips("pieces-missing"), gone)
        check.same(f"{name}: how much", page.text("pieces-received"), f"{1024 * len(there):,} of 65,536 bytes")
        check.same(f"{name}: the bar", page.run("return document.getElementById('pieces-progress').value"), 1024 * len(there))
        check.same(f"{name}: the boundaries", (page.text("pieces-used"), len(page.all(".slot.used"))), (f"{len(found)} of 8", len(found)))
        check.same(f"{name}: a refusal", ("Refused" in page.text("pieces-answer"), "refused" in said), (refused, refused))
        words = re.findall(r"Err|Ok|TooMany|[{}()]", page.text("view-pieces"))
        check.same(f"{name}: words that are no code", words, [])
    check.same("the limit was met", refusals > 0, True)
    check.same("no arrow where the file ends", len(page.all("#view-pieces .arrow")), 0)
    page.focus(page.id("pieces-limit"))
    page.press(Keys.END)
    there, _ = held(commands, 64)
    check.same("under a higher limit", (page.text("pieces-received"), page.text("pieces-used")), (f"{1024 * len(there):,} of 65,536 bytes", f"{len(boundaries(lambda it: it in there, 66))} of 64"))
    page.open("pieces")
    refusals = 0
    while page.text("pieces-received") != "65,536 of 65,536 bytes":
        page.id("pieces-random").click()
        refusals += "Refused" in page.text("pieces-answer")
    # Three of them on average, and by a limit of 8 two hundred.
    check.same("few random pieces are refused", refusals < 25, True)
    page.id("pieces-again").click()
    page.id("pieces-play").click()
    WebDriverWait(page.driver, 10).until(lambda it: len(page.all("#pieces-log li")) > 1)
    page.id("pieces-play").click()
    check.same("what plays stops", page.text("pieces-play"), "Play")
    page.id("pieces-again").click()
    for _ in range(64):
        page.id("pieces-next").click()
    check.same("all of it", (page.text("pieces-received"), page.chips("pieces-there"), page.chips("pieces-missing")), ("65,536 of 65,536 bytes", [0, 65536], []))


def categories():
    """The general category of each code point, by UnicodeData.txt, which the table isn't made
    of."""
    found = dict.fromkeys(range(0x110000), "Cn")
    first = None
    for line in (UNICODE / "UnicodeData.txt").read_text(encoding="utf-8").splitlines():
        code, name, category = line.split(";")[:3]
        code = int(code, 16)
        start = first if name.endswith("Last>") else code
        first = code
        found.update(dict.fromkeys(range(start, code + 1), category))
    return found


def script_of(name):
    """The code points of a script."""
    found = set()
    for line in (UNICODE / "Scripts.txt").read_text(encoding="utf-8").splitlines():
        if match := re.match(rf"([0-9A-F]+)(?:\.\.([0-9A-F]+))?\s*; {name} #", line):
            found.update(range(int(match[1], 16), int(match[2] or match[1], 16) + 1))
    return found


def characters(page, check):
    """Operations on classes of characters."""
    if not (UNICODE / "UnicodeData.txt").exists():
        check.skip("classes of characters", f"{UNICODE} is missing; on Debian the package unicode-data brings it")
        return
    version = re.search(r"-([\d.]+)\.txt", (UNICODE / "Scripts.txt").read_text(encoding="utf-8").splitlines()[0])[1]
    page.open("characters")
    if f"Unicode {version}" not in page.text("view-characters"):
        check.skip("classes of characters", f"the page has another version of Unicode than {version}")
        return
    by_code = categories()
    classes = {
        "Grek": script_of("Greek"), "Latn": script_of("Latin"), "Cyrl": script_of("Cyrillic"),
        "Lu": {it for it, category in by_code.items() if category == "Lu"},
        "L": {it for it, category in by_code.items() if category[0] == "L"},
        "Zs": {it for it, category in by_code.items() if category == "Zs"},
    }
    rows = [
        ("Grek", "Lu", INTERSECTION), ("Latn", "L", DIFFERENCE), ("Cyrl", "Grek", UNION), ("Zs", "Lu", COMPLEMENT),
        ("Latn", "Latn", SYMMETRIC_DIFFERENCE), ("L", "Lu", SYMMETRIC_DIFFERENCE),
    ]
    for a, b, answers in rows:
        for name, chosen in (("a", a), ("b", b)):
            page.run("arguments[0].value = arguments[1]; arguments[0].dispatchEvent(new Event('change'))", page.id(f"characters-{name}-class"), chosen)
        for answer in (1, 2, 4, 8):
            box = page.id(f"characters-takes-{answer}")
            if box.is_selected() != bool(answers & answer):
                ActionChains(page.driver, duration=20).move_to_element(box).click().perform()
        in_a, in_b = classes[a], classes[b]
        has = combined(in_a.__contains__, in_b.__contains__, answers)
        inside = [it for it in range(0x110000) if has(it)]
        ranges = sum(1 for it in inside if it == 0 or not has(it - 1))
        what = f"{a} and {b} by {answers}"
        check.same(f"{what}: how many", page.text("characters-count"), f"{len(inside):,} code points, {ranges:,} ranges")
        shown = page.run("return [...document.querySelectorAll('#characters-cells li')].map((it) => parseInt(it.title.slice(2), 16))")
        check.same(f"{what}: the characters", shown, inside[:256])
