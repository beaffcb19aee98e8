"""Tests of "Two sets": what is typed, drawn, moved by keys and pointed at."""

import re

from web_browser import (
    COMPLEMENT, DIFFERENCE, INTERSECTION, SYMMETRIC_DIFFERENCE, UNION, ActionChains, Keys,
    boundaries, check_result, combined, members, text_of,
)

PAIRS = [
    ("2..5, 10..14", [(2, 5), (10, 14)], "5..8, 12..", [(5, 8), (12, None)]),
    ("0..5, 5..10", [(0, 5), (5, 10)], "", []),
    ("0..5, 6..10", [(0, 5), (6, 10)], "5..6", [(5, 6)]),
    (" 20.. ,3..8,4..6", [(20, None), (3, 8), (4, 6)], "0..", [(0, None)]),
    ("12..4, 7..7", [(12, 4), (7, 7)], "1..2, 3..4, 5..6, 7..8", [(1, 2), (3, 4), (5, 6), (7, 8)]),
    ("0..10, 15..20", [(0, 10), (15, 20)], "5..17", [(5, 17)]),
]
NAMED = {
    "union": UNION, "intersection": INTERSECTION, "difference": DIFFERENCE,
    "symmetric-difference": SYMMETRIC_DIFFERENCE, "complement": COMPLEMENT,
}
# A text, the character at which it stops being one of ranges, counted from one, and what was
# expected there.
FAULTS = [
    ("0..10; 20..", 6, "a comma or the end"),
    ("0..10, x", 8, "a number"),
    ("0.10", 3, "a dot"),
    ("5.", 3, "a dot"),
    ("5 ..6", 2, "a dot"),
    ("5x", 2, "a dot"),
    ("-5", 1, "a number from 0 on"),
    ("3..7, -5, 9", 7, "a number from 0 on"),
    ("0..5,", 6, "a number"),
    ("é..5", 1, "a number"),
    ("0..5, 7..9 ü", 12, "a comma or the end"),
    ("-3..5", 1, "a number from 0 on"),
    ("0..5, 7..-0", 10, "a number from 0 on"),
    ("99999999999999999999..-1", 23, "a number from 0 on"),
]
TOO_LARGE = "A number is larger than 18446744073709551615."
# How many boundaries a list leaves out, and the window of a picture.
MORE = "return document.querySelector('#sets-a-row .more').textContent"
WINDOW = "const it = document.querySelector('#sets-a-row svg.line'); return [it.getAttribute('aria-valuemin'), it.getAttribute('aria-valuemax')]"
# A text, and all that is said of it.
ANSWERS = [
    ("5", "For one number write 5..6 instead."),
    (" 5 ", "For one number write 5..6 instead."),
    ("0..3, 007, 9", "For one number write 7..8 instead."),
    ("18446744073709551614", "For one number write 18446744073709551614..18446744073709551615 instead."),
    ("18446744073709551615", "For one number write 18446744073709551615.. instead."),
    ("18446744073709551616", TOO_LARGE),
    ("0..18446744073709551616", TOO_LARGE),
]


def typed_sets(page, check):
    """Each of the sixteen operations on each pair that is typed, by the boxes."""
    for text_a, a, text_b, b in PAIRS:
        page.open()
        page.type("sets-a", text_a)
        page.type("sets-b", text_b)
        check.same(f"the boundaries of {text_a!r}", page.chips("sets-a"), boundaries(members(*a)))
        for answers in range(16):
            page.choose(answers)
            check_result(page, check, f"{text_a!r} and {text_b!r} by {answers}", combined(members(*a), members(*b), answers))


def named_operations(page, check):
    """Each operation that has a name, by its button: it sets the boxes too."""
    a, b = members((9, 11), (13, 15)), members((10, 11), (14, 17))
    for name, answers in NAMED.items():
        page.open()
        page.choose(0)
        page.run("arguments[0].closest('label').click()", page.id(f"sets-{name}"))
        check_result(page, check, name, combined(a, b, answers))
        check.same(f"{name}: the boxes", sum(it for it in (1, 2, 4, 8) if page.id(f"sets-takes-{it}").is_selected()), answers)


def faults(page, check):
    """A malformed text names its character, marked where it stands, and leaves the set as it
    was."""
    page.open()
    for text, character, expected in FAULTS:
        page.type("sets-a", "3..7")
        page.type("sets-a", text)
        said = page.text("sets-a-fault")
        check.same(f"what is said of {text!r}", said.startswith(f"Character {character}: {expected} was expected"), True)
        check.same(f"the field with {text!r} is invalid", page.id("sets-a").get_attribute("aria-invalid") is not None, True)
        mark = page.run("""
            const input = document.getElementById("sets-a");
            const probe = document.body.appendChild(document.createElement("span"));
            probe.style.cssText = `font: ${getComputedStyle(input).font}; white-space: pre; position: absolute`;
            probe.textContent = input.value.slice(0, arguments[0]);
            const left = probe.getBoundingClientRect().width + parseFloat(getComputedStyle(input).paddingLeft) + 1;
            probe.remove();
            return document.querySelector("#sets-a-row .fault-mark").getBoundingClientRect().left - input.getBoundingClientRect().left - left;
        """, character - 1)
        check.same(f"the mark below character {character} of {text!r}", abs(mark) < 4, True)
    page.type("sets-a", "3..7")
    page.id("sets-a").send_keys(";")
    check.same("a set after a fault", page.chips("sets-a"), [3, 7])
    page.id("sets-a").send_keys(Keys.BACKSPACE)
    check.same("no fault is left", page.text("sets-a-fault"), "")
    for text, expected in ANSWERS:
        page.type("sets-a", "3..7")
        page.type("sets-a", text)
        check.same(f"what is answered to {text!r}", (page.text("sets-a-fault"), page.run("return document.getElementById('sets-a').matches('[aria-invalid]')")), (expected, True))


def old_results(page, check):
    """A set whose text has a fault is dimmed, and so is a result that depends on it."""
    page.open()
    parts = {
        "A": ["#sets-a-row .picture", "#sets-a-row .boundary-list"], "B": ["#sets-b-row .picture", "#sets-b-row .boundary-list"],
        "result": ["#sets-result-row .picture", "#sets-result-row .boundary-list", "#sets-text", "#sets-members", "#sets-ranges", "#sets-gaps"],
    }
    opacity = """
        let [opacity, node] = [1, document.querySelector(arguments[0])];
        for (; node; node = node.parentElement) opacity *= getComputedStyle(node).opacity;
        return opacity;
    """

    def dimmed():
        return {name for name, selectors in parts.items() for it in selectors if page.run(opacity, it) < 0.5}

    def whole():
        return {name for name, selectors in parts.items() for it in selectors if page.run(opacity, it) == 1}

    for faulty in ("A", "B", "AB"):
        page.type("sets-a", "2..5;" if "A" in faulty else "2..5")
        page.type("sets-b", "5..8;" if "B" in faulty else "5..8")
        for answers in range(16):
            page.choose(answers)
            # A result depends on a set if some value's membership in that set alone changes whether
            # it's a member.
            depends = {
                "A": any(combined(lambda _: False, lambda _: b, answers)(0) != combined(lambda _: True, lambda _: b, answers)(0) for b in (False, True)),
                "B": any(combined(lambda _: a, lambda _: False, answers)(0) != combined(lambda _: a, lambda _: True, answers)(0) for a in (False, True)),
            }
            expected = {*faulty} | ({"result"} if any(depends[it] for it in faulty) else set())
            check.same(f"what is dimmed by {answers} where {faulty} has a fault", (dimmed(), whole()), (expected, {*parts} - expected))
    page.choose(UNION)
    page.type("sets-a", "2..5")
    check.same("the other set has a fault still", dimmed(), {"B", "result"})
    page.drag("sets-b", 10, 12)
    check.same("a drawing mends the text", (dimmed(), page.chips("sets-result")), (set(), [2, 8, 10, 12]))
    page.type("sets-a", "x")
    check.same("a fault again", dimmed(), {"A", "result"})
    page.all(".example")[0].click()
    check.same("an example mends the text", dimmed(), set())


def touching_ranges(page, check):
    """Ranges that touch are one: their dots vanish, and the list has two boundaries."""
    page.open()
    page.type("sets-a", "0..5, 6..10")
    check.same("apart", (page.dots("sets-a"), page.chips("sets-a")), ([(0, True), (5, False), (6, True), (10, False)], [0, 5, 6, 10]))
    page.drag("sets-a", 5, 6)
    check.same("drawn together", (page.dots("sets-a"), page.chips("sets-a")), ([(0, True), (10, False)], [0, 10]))
    check.same("the text after that", page.id("sets-a").get_attribute("value"), "0..10")
    page.type("sets-a", "0..5, 5..10")
    check.same("typed together", (page.dots("sets-a"), page.chips("sets-a")), ([(0, True), (10, False)], [0, 10]))


def drawing(page, check):
    """The mouse puts ranges in, takes them out, and moves boundaries."""
    page.open()
    page.type("sets-b", "")
    page.type("sets-a", "")
    rows = [
        ("a range is drawn", 3, 8, [(3, 8)]),
        ("from right to left", 14, 11, [(3, 8), (11, 14)]),
        ("out of a member", 4, 6, [(3, 4), (6, 8), (11, 14)]),
        ("a boundary is moved", 14, 20, [(3, 4), (6, 8), (11, 20)]),
        ("past the edge", 22, None, [(3, 4), (6, 8), (11, 20), (22, None)]),
        ("an end past the edge", 20, None, [(3, 4), (6, 8), (11, None)]),
        ("past its other end", 3, 5, [(6, 8), (11, None)]),
    ]
    for what, start, end, ranges in rows:
        page.drag("sets-a", start, end, y=-10)
        has = members(*ranges)
        check.same(f"{what}: A", (page.chips("sets-a"), page.id("sets-a").get_attribute("value")), (boundaries(has), text_of(boundaries(has))))
        check_result(page, check, what, has)
    check.same("an arrow where there is no end", len(page.all("#sets-a-row .arrow")), 1)
    page.type("sets-a", "0..5, 5..10")
    line = page.line("sets-a")
    ActionChains(page.driver, duration=20).move_to_element_with_offset(line, page.x("sets-a", 10), -10).click().perform()
    check.same("a click alone changes nothing", page.id("sets-a").get_attribute("value"), "0..5, 5..10")
    for what, start, end in (("a boundary", 10, 14), ("a range", 14, 20)):
        steps = ActionChains(page.driver, duration=20).move_to_element_with_offset(line, page.x("sets-a", start), -10).click_and_hold()
        steps.move_to_element_with_offset(line, page.x("sets-a", end), -10).send_keys(Keys.ESCAPE).release().perform()
        check.same(f"{what} that Escape gives up", page.chips("sets-a"), [0, 10])


def touching(page, check):
    """A finger draws as the mouse does."""
    page.size(375, 900)
    page.open()
    page.type("sets-b", "")
    page.type("sets-a", "")
    box = page.run("const it = document.querySelector('#sets-a-row svg.line'); it.scrollIntoView({ block: 'center' }); return it.getBoundingClientRect().toJSON()")
    places = [{"x": box["x"] + box["width"] / 2 + page.x("sets-a", value), "y": box["y"] + 34} for value in (4, 6, 9)]
    touch = [("touchStart", places[:1]), ("touchMove", places[1:2]), ("touchMove", places[2:]), ("touchEnd", [])]
    for kind, points in touch:
        page.driver.execute_cdp_cmd("Input.dispatchTouchEvent", {"type": kind, "touchPoints": points})
    check.same("a range drawn by a finger", page.chips("sets-a"), [4, 9])
    page.size(1200, 1300)


def keys(page, check):
    """The keys do what the mouse does."""
    page.open()
    page.type("sets-b", "")
    page.type("sets-a", "")
    line = page.line("sets-a")
    page.focus(line)
    page.press(Keys.HOME)
    page.press(Keys.ARROW_RIGHT * 3)
    for _ in range(4):
        page.press(Keys.SHIFT, Keys.ARROW_RIGHT)
    page.press(Keys.ENTER)
    check.same("a selection is put in", page.chips("sets-a"), [3, 7])
    check.same("what a screen reader says", line.get_attribute("aria-valuetext"), "7: no member, 2 boundaries at or below")
    page.press(Keys.ARROW_LEFT * 2)
    page.press(Keys.DELETE)
    check.same("a value is taken out", page.chips("sets-a"), [3, 5, 6, 7])
    page.focus(page.all("#sets-a-boundaries .chip")[1])
    page.press(Keys.ARROW_RIGHT)
    check.same("a boundary that is moved against another goes with it", page.chips("sets-a"), [3, 7])
    page.focus(page.all("#sets-a-boundaries .chip")[1])
    page.press(Keys.ARROW_RIGHT)
    page.press(Keys.ARROW_RIGHT)
    check.same("a boundary is moved", page.chips("sets-a"), [3, 9])
    check.same("the keyboard stays at it", page.run("return document.activeElement.dataset.value"), "9")
    page.focus(page.all("#sets-a-boundaries .chip")[0])
    page.press(Keys.ARROW_LEFT * 5)
    check.same("no boundary goes below 0", page.chips("sets-a"), [0, 9])
    page.focus(page.id("tab-sets"))
    page.press(Keys.ARROW_RIGHT)
    check.same("the next tab", [page.id(f"view-{it}").is_displayed() for it in ("sets", "pieces", "characters")], [False, True, False])


def linking(page, check):
    """What is pointed at in the list is marked in every picture, and the other way round. The
    probe counts boundaries."""
    page.open()
    page.focus(page.all("#sets-a-boundaries .chip")[1])
    marked = "return [...document.querySelectorAll('#view-sets .dot.linked')].map((it) => it.closest('.row').id)"
    check.same("a boundary of both sets, from the list", page.run(marked), ["sets-a-row", "sets-b-row", "sets-result-row"])
    page.choose(SYMMETRIC_DIFFERENCE)
    page.focus(page.all("#sets-a-boundaries .chip")[1])
    check.same("the result has it no more", page.run(marked), ["sets-a-row", "sets-b-row"])
    page.choose(UNION)
    page.focus(page.all("#sets-a-boundaries .chip")[1])
    check.same("a line through every picture", len(page.all("#view-sets .link")), 3)
    line = page.line("sets-b")
    ActionChains(page.driver, duration=20).move_to_element_with_offset(line, page.x("sets-b", 17), -10).perform()
    listed = "return [...document.querySelectorAll('#view-sets .chip.linked')].map((it) => [it.closest('.row').id, it.dataset.value])"
    check.same("a boundary from the picture", page.run(listed), [["sets-b-row", "17"], ["sets-result-row", "17"]])
    rows = {"sets-a": members((9, 11), (13, 15)), "sets-b": members((10, 11), (14, 17)), "sets-result": members((9, 11), (13, 17))}
    for value in (0, 9, 10, 11, 14, 17, 23):
        ActionChains(page.driver, duration=20).move_to_element_with_offset(line, page.x("sets-b", value), 25).perform()
        for row, has in rows.items():
            many = sum(it <= value for it in boundaries(has))
            noun = "boundary" if many == 1 else "boundaries"
            expected = f"{value} is {'in' if has(value) else 'out'} {many} {noun} at or below: {'odd' if many % 2 else 'even'}"
            check.same(f"{value} in {row}", page.id(f"{row}-readout").get_property("textContent"), expected)


def greatest(page, check):
    """The greatest boundary there can be is shown as others are, alone too."""
    for text, boundaries_of in (("18446744073709551615..", ["18446744073709551615"]), ("5..7, 18446744073709551615..", ["5", "7", "18446744073709551615"])):
        page.open()
        page.type("sets-b", "")
        page.type("sets-a", text)
        for row in ("sets-a", "sets-result"):
            check.same(f"{row} of {text!r}", [it.text for it in page.all(f"#{row}-boundaries .chip")], boundaries_of)
            check.same(f"{row} of {text!r}: its dots", [len(page.dots(row)), len(page.all(f"#{row}-row .arrow"))], [len(boundaries_of), 1])
        page.all("#sets-a-boundaries .chip")[-1].click()
        number = len(boundaries_of) - 1
        expected = f"18446744073709551614 is out {number} {'boundary' if number == 1 else 'boundaries'} at or below: even"
        check.same(f"{text!r}: the greatest value is asked about", page.id("sets-a-readout").get_property("textContent"), expected)
    page.type("sets-a", "18446744073709551615..")
    start, end = page.run(WINDOW)
    check.same("a bead for each value", len(page.all("#sets-a-row .bead")), int(end) - int(start))
    for text in ("18446744073709551615..", "5..18446744073709551615"):
        page.open()
        page.type("sets-a", text)
        page.focus(page.all("#sets-a-boundaries .chip")[-1])
        page.press(Keys.ARROW_RIGHT)
        check.same(f"no boundary of {text!r} goes above the greatest", page.id("sets-a").get_property("value"), text)
    page.type("sets-a", "18446744073709551614..18446744073709551615")
    page.focus(page.line("sets-a"))
    page.press(Keys.END)
    page.press(Keys.DELETE)
    page.press(Keys.SHIFT, Keys.PAGE_UP)
    page.press(Keys.ENTER)
    check.same("no selection goes above the greatest", page.id("sets-a").get_property("value"), "18446744073709551614..18446744073709551615")


def many_ranges(page, check):
    """Of more boundaries than the list has room for the others are counted; ranges too narrow to tell apart are shaded, column by
    column."""
    page.open()
    for ranges, more in ((24, ""), (25, "and 2 more")):
        page.type("sets-a", ", ".join(f"{2 * i}..{2 * i + 1}" for i in range(ranges)))
        check.same(f"{ranges} ranges: what the list leaves out", page.run(MORE), more)
    page.type("sets-a", ", ".join(f"{2 * i}..{2 * i + 1}" for i in range(24)) + ", 90..")
    check.same("49 boundaries: what the list leaves out", page.run(MORE), "and 1 more")
    has = members(*[(3 * i, 3 * i + 1) for i in range(100)], (300, 400), *[(600 + 3 * i, 603 + 3 * i - i % 2) for i in range(150)])
    text = text_of(boundaries(has, 1100))
    page.run("const it = document.getElementById('sets-a'); it.value = arguments[0]; it.dispatchEvent(new Event('input'))", text)
    start, end = map(int, page.run(WINDOW))
    paths = {it: page.run(f"return document.querySelector('#sets-a-row path.{it}').getAttribute('d')") for it in ("some", "all")}
    wide = page.run("return document.querySelector('#sets-a-row svg.line').getBoundingClientRect().width") - 44
    columns = int(wide // 2)
    edges = [start + (end - start) * i // columns for i in range(columns + 1)]
    expected = {"some": [], "all": []}
    for i, (first, after) in enumerate(zip(edges, edges[1:])):
        inside = [has(value) for value in range(first, max(after, first + 1))]
        if any(inside):
            expected["all" if all(inside) else "some"].append(22 + i * wide / columns)
    for name, places in expected.items():
        found = [float(it) for it in re.findall(r"M([0-9.]+) ", paths[name])]
        apart = max((abs(a - b) for a, b in zip(found, places)), default=0)
        check.same(f"columns where {name} are members", (len(found), apart < 0.06), (len(places), True))


def windows(page, check):
    """A range that reaches past the window has no arrow, and its boundary is in no list until it
    is shown."""
    page.open()
    page.type("sets-b", "")
    page.type("sets-a", "4..40")
    page.all("#view-sets .window button")[3].click()
    start, end = map(int, page.run(WINDOW))
    has = members((4, 40))
    check.same("the dots in the window", page.dots("sets-a"), [(it, i == 0) for i, it in enumerate([4, 40]) if start <= it <= end])
    check.same("no arrow", len(page.all("#sets-a-row .arrow")), 0)
    check.same("the gaps in the window", page.text("sets-gaps"), text_of(boundaries(lambda it: start <= it < end and not has(it))) or "none")
