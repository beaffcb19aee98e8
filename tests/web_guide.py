"""Tests of what the page says of itself, of what it offers to try, of undo, and of links."""

import re

from web_browser import (
    COMPLEMENT, DIFFERENCE, INTERSECTION, SYMMETRIC_DIFFERENCE, UNION, WORDS, By, Keys, Page, WebDriverWait,
    boundaries, browser, check_result, combined, members,
)

# A chip's text, what it says that this shows, and the ranges that A then has.
CHIPS = [
    ("0..5, 5..10", "touching: one range", [(0, 10)]),
    ("0..5, 6..10", "5 is left out", [(0, 5), (6, 10)]),
    ("3..8, 4..6, 20..", "overlapping; no end", [(3, 8), (20, None)]),
    ("12..4", "ends before it starts: empty", []),
    ("1..2, 3..4, 5..6, 7..8", "four single numbers", [(1, 2), (3, 4), (5, 6), (7, 8)]),
]
# What is to be tried: the words of the link, A, B, the operation, and the boundaries of the result.
STEPS = [
    ("Ranges that touch", "0..5, 5..10", [(0, 5), (5, 10)], "", [], UNION),
    ("A △ B", "2..5, 10..14", [(2, 5), (10, 14)], "5..8, 12..", [(5, 8), (12, None)], SYMMETRIC_DIFFERENCE),
    ("not A", "2..5, 10..14", [(2, 5), (10, 14)], "", [], COMPLEMENT),
]
BOTH_OR_NEITHER = INTERSECTION | WORDS["neither"]
FIRST = ("9..11, 13..15", "10..11, 14..17", UNION)
# Their ranges.
HOURS = [(9, 11), (13, 15)], [(10, 11), (14, 17)]
# What is asked of the first content: the words of the link, and the operation.
ASKED = [("one busy", UNION), ("both busy", INTERSECTION), ("both free", WORDS["neither"])]
# An address, and the texts and the operation with which the page then is.
LINKS = [
    ("sets", *FIRST),
    ("", *FIRST),
    ("something", *FIRST),
    ("sets&a=1..2,4..&b=3..9&op=left", "1..2, 4..", "3..9", DIFFERENCE),
    ("sets&a=12..4&b=&op=", "12..4", "", 0),
    ("sets&a=0..3%2C%205..&op=left,right,neither", "0..3, 5..", FIRST[1], 11),
    ("sets&b=7..8", FIRST[0], "7..8", UNION),
    ("sets&op=both,whatever,__proto__", *FIRST[:2], INTERSECTION),
    ("sets&op=xyz", *FIRST),
    ("sets&op=__proto__,Left", *FIRST),
    ("sets&whatever&__proto__=1&b=%", FIRST[0], "%", UNION),
]


def first_screen(page, check):
    """What is seen before anything is scrolled: the busy hours of two people, what can be asked of them, and the answer."""
    for width, height in ((1440, 900), (380, 800)):
        page.size(width, height)
        page.open()
        bottom = page.run("return document.querySelector('#sets-result-row .picture').getBoundingClientRect().bottom")
        check.same(f"the result at {width} by {height}", bottom <= height, True)
        check.same(f"the explanation is folded at {width}", page.all(".about")[0].get_property("open"), False)
    page.size(1200, 1300)
    page.open()
    check.same("the first content", "Busy hours of two people" in page.all(".story")[0].text, True)
    check.same("its sets", page.sets(), FIRST)
    for link, (words, answers) in zip(page.all(".story a"), ASKED, strict=True):
        check.same("a question", link.text, words)
        page.type("sets-a", "3..4")
        link.click()
        page.fragment()
        check.same(f"{words}: the sets", page.sets(), (*FIRST[:2], answers))
        check_result(page, check, words, combined(members(*HOURS[0]), members(*HOURS[1]), answers))


def explanations(page, check):
    """What a range set is, in two sentences and a picture, and how to draw."""
    page.open()
    page.all(".about summary")[0].click()
    about = page.all(".about p")[0].text
    check.same("the sentences", (len(re.findall(r"\.(?: |$)", about)), "A range set is a set of numbers" in about, "odd number of boundaries" in about), (2, True, True))
    texts = page.run("return [...document.querySelectorAll('.sketch text')].map((it) => [it.textContent, Number(it.getAttribute('x')), it.matches('.in, .in *')])")
    has = members((2, 5))
    x = {int(text): x for text, x, _ in texts[2:10]}
    check.same("the picture's numbers", sorted(x), list(range(8)))
    counts = [(text, x[value], has(value)) for value in range(8) for text in [str(sum(it <= value for it in boundaries(has)))]]
    check.same("the picture's counts", [tuple(it) for it in texts[10:18]], counts)
    check.same("the picture's labels", [text for text, _, _ in texts[:2] + texts[18:]], ["filled: in", "open: out", "even: out", "odd: a member", "even: out"])
    check.same("the labels stand at their dots", [it[1] for it in texts[:2]], [x[2], x[5]])
    dots = page.run("return [...document.querySelectorAll('.sketch circle')].map((it) => [Number(it.getAttribute('cx')), getComputedStyle(it).fill === getComputedStyle(it).stroke])")
    check.same("the picture's dots", dots, [[x[2], True], [x[5], False]])
    check.same("how to draw", "drag to put a range in" in page.text("view-sets"), True)
    for row in ("sets-a", "sets-b"):
        keys = page.id(page.line(row).get_attribute("aria-describedby"))
        check.same(f"{row}: the keys, for a screen reader", "Enter puts the selection in" in keys.get_property("textContent"), True)
    page.all(".hints summary")[0].click()
    check.same("the keys, for the eye", page.id("sets-keys").is_displayed(), True)
    for view, word in (("pieces", "The tracker keeps"), ("characters", "A class of characters is")):
        page.open(view)
        check.same(f"{view}: what it is", word in page.all(f"#view-{view} > p")[0].text, True)


def steps(page, check):
    """What is to be tried, one after the other, by mouse and by key; and back again."""
    page.open()
    links = page.all(".steps a")
    check.same("the links", [it.text for it in links], [it[0] for it in STEPS])
    for link, (what, text_a, a, text_b, b, answers) in zip(links, STEPS):
        link.click()
        page.fragment()
        check.same(f"{what}: the sets", page.sets(), (text_a, text_b, answers))
        check_result(page, check, what, combined(members(*a), members(*b), answers))
        check.same(f"{what}: the address says no more than the link", page.fragment(), link.get_attribute("href").split("#")[1])
    page.driver.back()
    page.fragment()
    check.same("back in the browser", page.sets(), (STEPS[1][1], STEPS[1][3], STEPS[1][5]))
    page.focus(links[0])
    page.press(Keys.ENTER)
    page.fragment()
    check.same("by key", page.sets(), (STEPS[0][1], STEPS[0][3], STEPS[0][5]))


def chips(page, check):
    """Each chip says that it sets A, and what its text shows; and it does."""
    page.open()
    group = page.all(".examples")[0]
    check.same("what the chips do", page.text(group.get_attribute("aria-labelledby")), "Set A to")
    found = page.all(".example")
    check.same("the chips", [tuple(it.text.split("\n")) for it in found], [(text, shows) for text, shows, _ in CHIPS] + [("10,000 ranges", "drawn as shades")])
    for chip, (text, _, ranges) in zip(found, CHIPS):
        chip.click()
        check.same(f"the chip {text}: A", (page.id("sets-a").get_property("value"), page.chips("sets-a")), (text, boundaries(members(*ranges))))
        check.same(f"the chip {text}: B and the operation", page.sets()[1:], FIRST[1:])


def able(page):
    """Whether there is something to undo, and something to do again."""
    return tuple(page.button("sets", it).get_attribute("aria-disabled") == "false" for it in ("Undo", "Redo"))


def changes(page):
    """Changes of two sets, one after the other: what each is, how it is made, and how the page then is."""

    def move_chip():
        page.focus(page.all("#sets-a-boundaries .chip")[-1])
        page.press(Keys.ARROW_LEFT)

    def step(i):
        page.all(".steps a")[i].click()
        page.fragment()

    return [
        ("typing", lambda: page.type("sets-a", "1..3, 5..9"), ("1..3, 5..9", FIRST[1], UNION)),
        ("typing in the other field", lambda: page.type("sets-b", "2..6"), ("1..3, 5..9", "2..6", UNION)),
        ("typing once more", lambda: page.type("sets-b", ""), ("1..3, 5..9", "", UNION)),
        ("an operation", lambda: page.choose(BOTH_OR_NEITHER), ("1..3, 5..9", "", BOTH_OR_NEITHER)),
        ("a drawing", lambda: page.drag("sets-a", 12, 16), ("1..3, 5..9, 12..16", "", BOTH_OR_NEITHER)),
        ("a boundary moved by key", move_chip, ("1..3, 5..9, 12..15", "", BOTH_OR_NEITHER)),
        ("a chip", lambda: page.all(".example")[3].click(), ("12..4", "", BOTH_OR_NEITHER)),
        ("a step", lambda: step(1), (STEPS[1][1], STEPS[1][3], STEPS[1][5])),
    ]


def undoing(page, check):
    """Each change is undone and done again, and in the end all of them are undone."""
    page.open()
    undo, redo = page.button("sets", "Undo"), page.button("sets", "Redo")
    check.same("nothing to undo at first", able(page), (False, False))
    undo.click()
    check.same("nothing is undone at first", page.sets(), FIRST)
    # The boxes are clicked one by one, so an operation takes several steps: those before it are
    # gone back to as well.
    before = FIRST
    for what, act, expected in changes(page):
        act()
        check.same(f"{what}: before it is undone", (page.sets(), able(page)), (expected, (True, False)))
        undo.click()
        if what != "an operation":
            check.same(f"{what}: undone", (page.sets(), able(page)[1]), (before, True))
        redo.click()
        check.same(f"{what}: done again", (page.sets(), able(page)), (expected, (True, False)))
        before = expected
    check_result(page, check, "what is done again", combined(members((2, 5), (10, 14)), members((5, 8), (12, None)), SYMMETRIC_DIFFERENCE))
    page.focus(undo)
    for _ in range(30):
        page.press(Keys.ENTER)
    check.same("all of it undone, by key", (page.sets(), able(page)), (FIRST, (False, True)))
    check.same("the button keeps the focus", page.run("return document.activeElement === arguments[0]", undo), True)
    check_result(page, check, "all of it undone", combined(members(*HOURS[0]), members(*HOURS[1]), UNION))


def undoing_by_keys(page, check):
    """The keys undo and do again, until another change is made. In a field they are the field's."""
    page.open()
    page.type("sets-a", "1..3")
    typed = ("1..3", *FIRST[1:])
    page.focus(page.button("sets", "Undo"))
    page.press(Keys.ENTER)
    check.same("undone by key", page.sets(), FIRST)
    page.press(Keys.CONTROL, "y")
    check.same("Ctrl+Y", page.sets(), typed)
    page.press(Keys.CONTROL, "z")
    check.same("Ctrl+Z", page.sets(), FIRST)
    page.press(Keys.CONTROL, Keys.SHIFT, "z")
    check.same("Ctrl+Shift+Z", page.sets(), typed)
    page.press(Keys.CONTROL, "z")
    page.drag("sets-a", 20, 22)
    check.same("a change ends what could be done again", able(page), (True, False))
    page.open()
    page.type("sets-a", "1..3")
    page.choose(INTERSECTION)
    before = page.sets()
    page.focus(page.id("sets-a"))
    page.press(Keys.CONTROL, "z")
    check.same("in a field Ctrl+Z is the field's", (page.sets()[0] != before[0], page.sets()[2]), (True, INTERSECTION))


def undoing_typing(page, check):
    """What is typed in a field is one step, and a fault is none."""
    page.open()
    page.type("sets-a", "1..2;")
    page.button("sets", "Undo").click()
    check.same("a fault is undone to the text before it", (page.sets()[0], page.text("sets-a-fault")), ("1..2", ""))
    page.open()
    page.id("sets-a").send_keys(", 20..21", Keys.BACKSPACE * 8)
    check.same("what is typed and deleted is no step", (page.sets(), able(page)), (FIRST, (False, False)))
    page.id("sets-a").send_keys(";")
    page.button("sets", "Undo").click()
    check.same("a fault with nothing before it", (page.sets(), page.text("sets-a-fault"), able(page)), (FIRST, "", (False, False)))
    page.open()
    page.type("sets-a", "1..3")
    page.focus(page.line("sets-a"))
    page.type("sets-a", "1..4")
    page.button("sets", "Undo").click()
    check.same("a field that is come back to is another step", page.sets(), ("1..3", *FIRST[1:]))


def undoing_elsewhere(page, check):
    """Pieces that come while it plays are undone as one, and so is a limit that is drawn; and
    classes of characters are."""
    page.open("pieces")
    for name in ("next", "next", "lose", "random"):
        page.id(f"pieces-{name}").click()
    page.button("pieces", "Undo").click()
    page.button("pieces", "Undo").click()
    check.same("pieces: a loss and an arrival undone", (page.text("pieces-received"), page.chips("pieces-there")), ("2,048 of 65,536 bytes", [0, 2048]))
    page.id("pieces-again").click()
    page.button("pieces", "Undo").click()
    check.same("pieces: a new start undone", page.chips("pieces-there"), [0, 2048])
    page.id("pieces-play").click()
    WebDriverWait(page.driver, 10).until(lambda it: len(page.all("#pieces-log li")) > 4)
    page.id("pieces-play").click()
    page.button("pieces", "Undo").click()
    check.same("pieces: what was played undone", (page.chips("pieces-there"), len(page.all("#pieces-log li"))), ([0, 2048], 2))
    page.focus(page.id("pieces-limit"))
    page.press(Keys.ARROW_RIGHT * 4)
    check.same("pieces: a limit", page.text("pieces-used"), "2 of 36")
    page.button("pieces", "Undo").click()
    check.same("pieces: a limit undone", (page.text("pieces-used"), page.id("pieces-limit").get_property("value")), ("2 of 32", "32"))
    page.focus(page.id("pieces-limit"))
    page.press(Keys.ARROW_RIGHT)
    page.button("pieces", "Undo").click()
    check.same("pieces: a limit after one that was undone", (page.text("pieces-used"), page.chips("pieces-there")), ("2 of 32", [0, 2048]))
    page.open("characters")
    page.id("characters-union").find_element(By.XPATH, "..").click()
    many = page.text("characters-count")
    page.run("arguments[0].value = 'Latn'; arguments[0].dispatchEvent(new Event('change'))", page.id("characters-a-class"))
    page.button("characters", "Undo").click()
    check.same("characters: a class undone", (page.text("characters-count"), page.id("characters-a-class").get_property("value")), (many, "Grek"))
    page.button("characters", "Undo").click()
    check.same("characters: an operation undone", page.id("characters-intersection").is_selected(), True)


def links(page, check):
    """The address names the tab and what is in it. A tab's name alone is a link too."""
    for fragment, *expected in LINKS:
        page.open(fragment)
        check.same(f"the link {fragment!r}", (page.id("view-sets").is_displayed(), page.sets()), (True, tuple(expected)))
    for fragment in ("sets", "pieces", "characters"):
        page.open(fragment)
        shown = [it.get_attribute("id") for it in page.all("[role=tabpanel]") if it.is_displayed()]
        check.same(f"the link {fragment!r}: the tab, and the address stays", (shown, page.fragment()), ([f"view-{fragment}"], fragment))
    page.open("")
    check.same("no fragment is added where nothing has changed", page.fragment(), "")
    page.open("sets&a=5")
    check.same("a link with a fault", (page.sets()[0], page.text("sets-a-fault"), page.chips("sets-a")), ("5", "For one number write 5..6 instead.", [9, 11, 13, 15]))


def change_sets(page):
    """Changes both sets and the operation. Gives the address, and how the page then is."""
    page.open("")
    page.type("sets-a", "1..3, 7..4")
    page.choose(SYMMETRIC_DIFFERENCE)
    page.drag("sets-b", 20, 22)
    return page.fragment(), page.sets()


def links_of_changes(page, check):
    """A change is in the address, which brings it back: when it is opened, and from another tab."""
    written, state = change_sets(page)
    check.same("what the address says", written, "sets&a=1..3,7..4&b=10..11,14..17,20..22&op=left,right")
    check.same("that it's a link", page.text("linked"), "The address is a link to this state.")
    page.open(written)
    check.same("the link brings it back", (page.sets(), page.fragment()), (state, written))
    page.id("tab-characters").click()
    page.fragment()
    page.id("tab-sets").click()
    check.same("from another tab", (page.fragment(), page.sets()), (written, state))
    page.run("""
        const a = document.getElementById("sets-a");
        a.value = "6..7";
        a.dispatchEvent(new Event("input"));
        document.getElementById("tab-pieces").click();
    """)
    page.fragment()
    page.driver.back()
    check.same("back, when the tab was left at once", (page.fragment().split("&")[1], page.sets()[0]), ("a=6..7", "6..7"))
    page.type("sets-a", "1..3")
    page.id("sets-a").send_keys(";")
    check.same("a text with a fault isn't written", page.fragment().split("&")[1], "a=1..3")
    page.open()
    page.all(".example")[-1].click()
    check.same("a state that is too long", (page.fragment(), page.text("linked")), ("sets", "This state is too long for a link."))


def links_on_the_page(page, check):
    """A link that the page itself has changes the sets, and can be undone."""
    written, state = change_sets(page)
    page.run("location.hash = 'sets&a=3..4&b=&op=left'")
    page.fragment()
    check.same("a link on the page", page.sets(), ("3..4", "", DIFFERENCE))
    page.button("sets", "Undo").click()
    check.same("a link on the page, undone", (page.sets(), page.fragment()), (state, written))
    page.run("location.hash = 'sets&b=7..8'")
    page.fragment()
    check.same("what a link on the page doesn't name is as at first", page.sets(), (FIRST[0], "7..8", UNION))
    page.button("sets", "Undo").click()
    page.run("location.hash = 'sets'")
    check.same("a name alone leaves the state", (page.fragment(), page.sets()), (written, state))


def links_elsewhere(page, check):
    """The pieces that came and their limit, and the classes of characters, are in the address too."""
    page.open("pieces&limit=12&did=0..2048,8192..9216,-1024..2048,3..2,0..99999999999999999999999,65536..65537,x")
    check.same("pieces: the link", (page.chips("pieces-there"), page.text("pieces-used")), ([0, 1024, 8192, 9216], "4 of 12"))
    written = page.fragment()
    check.same("pieces: what isn't of the file is left out", written, "pieces&limit=12&did=0..2048,8192..9216,-1024..2048")
    page.open("pieces&limit=some&did=0..2048")
    check.same("pieces: a limit that is no number", (page.chips("pieces-there"), page.text("pieces-used"), page.fragment()), ([0, 2048], "2 of 32", "pieces&limit=32&did=0..2048"))
    page.open(written)
    page.id("pieces-lose").click()
    page.id("pieces-random").click()
    there, written = page.chips("pieces-there"), page.fragment()
    page.open(written)
    check.same("pieces: the link brings it back", (page.chips("pieces-there"), page.fragment()), (there, written))
    page.open("characters&a=Latn&b=whatever&op=left,both")
    found = page.id("characters-a-class").get_property("value"), page.id("characters-b-class").get_property("value")
    check.same("characters: the link", (found, page.fragment()), (("Latn", "Lu"), "characters&a=Latn&b=Lu&op=left,both"))


def memory(page, check):
    """Where the browser has no more memory the page says so, and what was there before can be
    seen."""
    driver = browser("--js-flags=--wasm-max-mem-pages=20")
    try:
        page = Page(driver, page.folder)
        page.open()
        check.same("nothing has stopped", page.id("failed").is_displayed(), False)
        page.all(".example")[-1].click()
        check.same("what is said", page.text("failed").startswith("The page has stopped, perhaps out of memory"), True)
    finally:
        driver.quit()
