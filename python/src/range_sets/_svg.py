"""A picture of a set or a map for notebooks: a number line, with a filled dot at each start and an open one at each end.

If there is no end, or if the start is the least element and that isn't zero, there is an arrow. Above the ranges of a map stand their
values. Words and the line have the colour of the text around the picture.
"""

from __future__ import annotations

from itertools import islice, zip_longest

from ._typing import TYPE_CHECKING

if TYPE_CHECKING:
    from typing import Iterator

    from ._core import Boundaries, Steps
    from ._kind import Kind

_WIDTH, _HEIGHT, _MARGIN, _LINE, _DOT = 640, 56, 40, 20, 5
# More ranges than this can't be told apart.
_MANY = 100
# No digit is wider, and no letter, in letters of 12 pixels; and so much stands between two labels.
_DIGIT, _LETTER, _GAP = 8, 13, 6
# A longer value is cut.
_LONG = 20
_COLOUR = "#1f77b4"
# A title of more ranges is shortened.
_MANY_IN_TITLE = 8


# A start and an end, by their numbers, and the value of a map or nothing.
_Drawn = tuple[int, "int | None", str]


def draw(boundaries: Boundaries, kind: Kind) -> str:
    """The picture of a set."""
    shown = list(boundaries[: 2 * _MANY])
    return _drawn([(*pair, "") for pair in zip_longest(shown[::2], shown[1::2])], kind, (len(boundaries) + 1) // 2)


def draw_map(steps: Steps) -> str:
    """The picture of a map."""
    code = steps.kind.code
    first = islice(steps.items(None, None), _MANY)
    shown = [(code(start), None if end is None else code(end), _in_short(repr(value))) for (start, end), value in first]
    return _drawn(shown, steps.kind, len(steps))


def _drawn(shown: list[_Drawn], kind: Kind, count: int) -> str:
    """The picture of the first ranges of so many."""
    lowest = kind.least if kind.is_open_below else None
    numbers = sorted({it for pair in shown for it in pair[:2] if it is not None and it != lowest})
    first, last = (kind.place(numbers[0]), kind.place(numbers[-1])) if numbers else (0, 0)

    def place(number: int) -> float:
        part = (kind.place(number) - first) / (last - first) if last > first else 0.5
        return round(_MARGIN + part * (_WIDTH - 2 * _MARGIN), 1)

    parts, drawn, middles = [f"<title>{_title(shown, kind, count)}</title>"], 0.0, []
    for start, end, value in shown:
        left, right = 8 if start == lowest else place(start), _WIDTH - 8 if end is None else place(end) - _DOT
        parts += [_line(drawn, left, "currentColor", 1), _line(left, right, _COLOUR, 4)]
        parts.append(_arrow(2, 14) if start == lowest else _dot(left, _COLOUR))
        parts.append(_arrow(_WIDTH - 2, _WIDTH - 14) if end is None else _dot(place(end), "none"))
        drawn = right + 2 * _DOT
        middles += [((left + right) / 2, value)] if value else []
    parts.append(_line(drawn, _WIDTH, "currentColor", 1))
    more = f"and {count - _MANY} more" if count > _MANY else ""
    room = _WIDTH - 4 - (_LETTER * len(more) + _GAP if more else 0)
    digit = _LETTER if kind.is_ordered else _DIGIT
    below = _labels([(place(it), str(kind.value(it))) for it in numbers], digit, _WIDTH)
    parts += [_text(x, y, "middle", text) for y, it in ((44, below), (11, _labels(middles, _LETTER, room))) for x, text in sorted(it)]
    if not numbers and not middles:
        parts.append(_text(_WIDTH / 2, 44, "middle", f"{'all' if count else 'no'} {kind.plural}"))
    if more:
        parts.append(_text(_WIDTH - 4, 12, "end", more))
    return (
        f'<svg xmlns="http://www.w3.org/2000/svg" role="img" width="{_WIDTH}" height="{_HEIGHT}" viewBox="0 0 {_WIDTH} {_HEIGHT}" '
        f'font-family="sans-serif">{"".join(parts)}</svg>'
    )


def _title(shown: list[_Drawn], kind: Kind, count: int) -> str:
    ends = [(str(kind.value(start)), "" if end is None else str(kind.value(end)), value) for start, end, value in shown[:_MANY_IN_TITLE]]
    ranges = [_plain(f"{start}..{end}{': ' if value else ''}{value}") for start, end, value in ends]
    return ", ".join([*ranges, *["..."] * (count > _MANY_IN_TITLE)]) or f"no {kind.plural}"


def _in_short(text: str) -> str:
    return text if len(text) <= _LONG else f"{text[: _LONG - 3]}..."


def _plain(text: str) -> str:
    """A text that stands in the picture: a reader of XML takes each of its characters as it is."""
    shown = "".join(it if it.isprintable() else "\ufffd" for it in text)
    return shown.replace("&", "&amp;").replace("<", "&lt;").replace(">", "&gt;")


def _labels(wanted: list[tuple[float, str]], letter: int, room: float) -> Iterator[tuple[float, str]]:
    """The middle of each label that has room near its place: the first, the last, and what fits between them. A letter is so wide."""
    taken: list[tuple[float, float]] = []
    for at, text in wanted[:1] + wanted[:0:-1]:
        width = letter * len(text)
        start = min(max(at - width / 2, 0), room - width)
        if start >= 0 and all(start >= right + _GAP or start + width + _GAP <= left for left, right in taken):
            taken.append((start, start + width))
            yield round(start + width / 2, 1), text


def _line(start: float, end: float, colour: str, width: int) -> str:
    return "" if end <= start else f'<line x1="{start}" y1="{_LINE}" x2="{end}" y2="{_LINE}" stroke="{colour}" stroke-width="{width}"/>'


def _dot(at: float, fill: str) -> str:
    return f'<circle cx="{at}" cy="{_LINE}" r="{_DOT}" fill="{fill}" stroke="{_COLOUR}" stroke-width="2"/>'


def _text(x: float, y: int, anchor: str, text: str) -> str:
    return f'<text x="{x}" y="{y}" font-size="12" text-anchor="{anchor}" fill="currentColor">{_plain(text)}</text>'


def _arrow(tip: int, base: int) -> str:
    return f'<path d="M {base} {_LINE - 7} L {tip} {_LINE} L {base} {_LINE + 7} Z" fill="{_COLOUR}"/>'
