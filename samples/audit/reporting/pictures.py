"""Pictures as SVG, drawn in whole numbers: columns over time or age, bars by category, an area by month.
Each has a title that says in words what it shows; the figures stand in a table beside it."""

import html
from typing import NamedTuple

WIDTH, LEFT, RIGHT = 3600, 480, 3420
TOP, BOTTOM, HEIGHT = 80, 1500, 1800
MARK, MOST_WIDE = 75, 400  # the width of a digit, and of an upright bar at most
FILLS = {"": "#1f4e79", "P5": "#9c4a00", "MA": "#4d4d4d", "second": "#9c4a00"}


class Bar(NamedTuple):
    """A bar: its label, its height as a whole number, and the key of its fill."""

    label: str
    size: int
    fill: str = ""


def step_of(most: int) -> int:
    """The step of an axis up to a number: 1, 2 or 5 times a power of ten, four steps at most."""
    step = 1
    while True:
        for factor in (1, 2, 5):
            if 4 * step * factor >= most:
                return step * factor
        step *= 10


def top_of(most: int, step: int) -> int:
    """The end of an axis: the first multiple of its step that is enough."""
    return step * max(1, -(-most // step))


def axis_text(number: int, step: int) -> str:
    if number == 0:
        return "0"
    if step >= 1_000_000:
        return f"{number // 1_000_000}M"
    return f"{number // 1000}k" if step >= 1000 else str(number)


def text_at(x: int, y: int, words: str, anchor: str = "middle") -> str:
    return f'<text x="{x}" y="{y}" text-anchor="{anchor}">{html.escape(words)}</text>'


def svg(title: str, height: int, parts: list[str]) -> str:
    inside = "\n".join(parts)
    return f'<svg viewBox="0 0 {WIDTH} {height}" role="img" aria-label="{html.escape(title)}">\n{inside}\n</svg>'


def height_of(size: int, top: int) -> int:
    return (BOTTOM - TOP) * size // top


def grid(top: int, step: int) -> list[str]:
    """The lines of the axis of sizes, from 0 to the top."""
    parts = []
    for size in range(0, top + 1, step):
        y = BOTTOM - height_of(size, top)
        parts.append(
            f'<line x1="{LEFT}" y1="{y}" x2="{RIGHT}" y2="{y}" stroke="#bbbbbb" stroke-width="8"/>'
        )
        parts.append(text_at(LEFT - 40, y + 45, axis_text(size, step), "end"))
    return parts


def labels(bars: list[Bar]) -> list[str]:
    """Some labels below the bars, evenly spaced, the first one among them."""
    room, wide = RIGHT - LEFT, MARK * max([len(bar.label) for bar in bars] + [2]) + 2 * MARK
    every = max(1, -(-len(bars) * wide // room))
    return [
        text_at(LEFT + (2 * place + 1) * room // (2 * len(bars)), BOTTOM + 180, bars[place].label)
        for place in range(0, len(bars), every)
    ]


def columns(title: str, bars: list[Bar]) -> str:
    """Upright bars side by side."""
    most = max([bar.size for bar in bars], default=1)
    step = step_of(most)
    top, room, parts = top_of(most, step), RIGHT - LEFT, grid(top_of(most, step), step)
    for place, bar in enumerate(bars):
        left, right = LEFT + place * room // len(bars), LEFT + (place + 1) * room // len(bars)
        wide, tall = min(MOST_WIDE, right - left - min(60, (right - left) // 5)), height_of(
            bar.size, top
        )
        parts.append(
            f'<rect x="{(left + right - wide) // 2}" y="{BOTTOM - tall}" width="{wide}" height="{tall}" fill="{FILLS[bar.fill]}"/>'
        )
    return svg(title, HEIGHT, parts + labels(bars))


def rows(title: str, bars: list[Bar], texts: list[str]) -> str:
    """Lying bars one below the other, each with a text at its end."""
    most, parts, left, room = max([bar.size for bar in bars] + [1]), [], 1350, 1250
    for place, (bar, text) in enumerate(zip(bars, texts)):
        y, long = 40 + 200 * place, room * bar.size // most
        parts.append(text_at(left - 50, y + 120, bar.label, "end"))
        parts.append(
            f'<rect x="{left}" y="{y + 10}" width="{max(long, 12 if bar.size else 0)}" height="150" fill="{FILLS[bar.fill]}"/>'
        )
        parts.append(text_at(left + long + 50, y + 120, text, "start"))
    return svg(title, 80 + 200 * len(bars), parts)


def area(title: str, points: list[Bar]) -> str:
    """A filled line over time."""
    most = max(point.size for point in points)
    step = step_of(most)
    top, room, last = top_of(most, step), RIGHT - LEFT, max(1, len(points) - 1)
    line = [
        f"{LEFT + place * room // last},{BOTTOM - height_of(point.size, top)}"
        for place, point in enumerate(points)
    ]
    shape = f'<polygon points="{LEFT},{BOTTOM} {" ".join(line)} {LEFT + (len(points) - 1) * room // last},{BOTTOM}" fill="{FILLS[""]}"/>'
    return svg(title, HEIGHT, [shape, *grid(top, step), *labels(points)])
