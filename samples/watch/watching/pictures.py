"""Pictures as SVG for a page that is read on paper too: black, grey and hatched, each with its words and its table beside it."""
from __future__ import annotations

import html
from typing import Any, List, NamedTuple

WIDTH, HEIGHT, LEFT, RIGHT, TOP, BOTTOM = 720, 280, 64, 708, 34, 250
HATCHED = '<defs><pattern id="NAME" width="6" height="6" patternUnits="userSpaceOnUse" patternTransform="rotate(45)"><rect width="6" height="6" fill="#fff"/><rect width="2" height="6" fill="#222"/></pattern></defs>'
FONT = "font-family:sans-serif;font-size:13px;fill:#111"


class Group(NamedTuple):
    """A label, and a value of every series, None for what isn't known."""

    label: str
    values: List[Any]


def escaped(text: object) -> str:
    return html.escape(str(text))


def text_at(x: float, y: float, words: str, anchor: str = "middle") -> str:
    return f'<text x="{x:.0f}" y="{y:.0f}" text-anchor="{anchor}" style="{FONT}">{escaped(words)}</text>'


def name_of(title: str) -> str:
    """The name of a picture's own pattern: a page has more pictures than one."""
    return "hatched-" + "".join(letter if letter.isalnum() else "-" for letter in title.lower())


def fills(title: str) -> tuple[str, str]:
    return "#222", f"url(#{name_of(title)})"


def step_of(most: float) -> float:
    """The step of an axis: 1, 2 or 5 times a power of ten, five steps at most."""
    step = 0.001
    while True:
        for factor in (1, 2, 5):
            if 5 * step * factor >= most:
                return step * factor
        step *= 10


def number_text(value: float | None) -> str:
    """A number as it stands on an axis and in a table."""
    if value is None:
        return "none"
    return f"{value:,.0f}" if value == int(value) else f"{value:,.3f}".rstrip("0")


def svg(title: str, about: str, height: int, parts: list[str]) -> str:
    inside = "\n".join([HATCHED.replace("NAME", name_of(title)), *parts])
    return f'<svg xmlns="http://www.w3.org/2000/svg" viewBox="0 0 {WIDTH} {height}" role="img" aria-label="{escaped(title)}. {escaped(about)}">\n<title>{escaped(title)}</title>\n<desc>{escaped(about)}</desc>\n{inside}\n</svg>'


def axis(top: float, step: float) -> list[str]:
    parts, count = [], round(top / step)
    for nth in range(count + 1):
        y = BOTTOM - (BOTTOM - TOP) * nth / count
        parts.append(
            f'<line x1="{LEFT}" y1="{y:.1f}" x2="{RIGHT}" y2="{y:.1f}" stroke="#999" stroke-width="1"/>'
        )
        parts.append(text_at(LEFT - 6, y + 4, number_text(round(nth * step, 6)), "end"))
    return parts


def legend(title: str, series: list[str]) -> list[str]:
    parts, x = [], LEFT
    for place, name in enumerate(series):
        parts.append(
            f'<rect x="{x}" y="8" width="14" height="14" fill="{fills(title)[place]}" stroke="#222"/>'
        )
        parts.append(text_at(x + 20, 20, name, "start"))
        x += 40 + 8 * len(name)
    return parts


def columns(title: str, groups: list[Group], series: list[str], limit: float | None = None) -> str:
    """Upright bars by group, a bar for every series. `limit` draws a line that nothing should pass."""
    known = [value for group in groups for value in group.values if value is not None]
    most = max([*known, limit or 0, 0.001])
    step = step_of(most)
    top = step * max(1, -(-most // step))
    parts, room = axis(top, step), (RIGHT - LEFT) / max(1, len(groups))
    wide = min(60, room * 0.8) / len(series)
    every = max(
        1, -(-len(groups) * max([len(group.label) for group in groups] + [1]) * 9 // (RIGHT - LEFT))
    )
    for nth, group in enumerate(groups):
        middle = LEFT + room * (nth + 0.5)
        for place, value in enumerate(group.values):
            tall = (BOTTOM - TOP) * (value or 0) / top
            parts.append(
                f'<rect x="{middle + wide * (place - len(series) / 2):.1f}" y="{BOTTOM - tall:.1f}" width="{wide:.1f}" height="{tall:.1f}" fill="{fills(title)[place]}" stroke="#222" stroke-width="{1 if value else 0}"/>'
            )
        if nth % every == 0:
            parts.append(text_at(middle, BOTTOM + 20, group.label))
    if limit:
        y = BOTTOM - (BOTTOM - TOP) * limit / top
        parts.append(
            f'<line x1="{LEFT}" y1="{y:.1f}" x2="{RIGHT}" y2="{y:.1f}" stroke="#111" stroke-width="2" stroke-dasharray="8 5"/>'
        )
    return svg(title, said_of(groups, series), HEIGHT, [*legend(title, series), *parts])


def rows(title: str, groups: list[Group], series: list[str]) -> str:
    """Lying bars one below the other, of one series, each with its number."""
    most, left = max([group.values[0] for group in groups] + [1]), 190
    parts = []
    for nth, group in enumerate(groups):
        y, long = 10 + 26 * nth, (RIGHT - left - 60) * group.values[0] / most
        parts.append(text_at(left - 8, y + 14, group.label, "end"))
        parts.append(
            f'<rect x="{left}" y="{y}" width="{long:.1f}" height="18" fill="{fills(title)[0]}"/>'
        )
        parts.append(text_at(left + long + 8, y + 14, number_text(group.values[0]), "start"))
    return svg(title, said_of(groups, series), 20 + 26 * len(groups), parts)


def said_of(groups: list[Group], series: list[str]) -> str:
    """What a picture shows, in words: its extremes."""
    said = []
    for place, name in enumerate(series):
        known = [
            (group.values[place], group.label)
            for group in groups
            if group.values[place] is not None
        ]
        if known:
            most, least = max(known), min(known)
            said.append(
                f"{name}: from {number_text(least[0])} ({least[1]}) to {number_text(most[0])} ({most[1]})"
            )
    return "; ".join(said) or "No values"


def cell_text(name: str, value: float | None) -> str:
    if value is not None and name == "Dollars":
        return f"{value:,.2f}"
    return f"{value:.3f}" if value is not None and name.endswith("seconds") else number_text(value)


def table(caption: str, heads: list[str], groups: list[Group]) -> str:
    """A table with a row for every group. A column of dollars has cents, one of seconds milliseconds."""
    head = "".join(f'<th scope="col">{escaped(name)}</th>' for name in heads)
    lines = []
    for group in groups:
        texts = [cell_text(name, value) for name, value in zip(heads[1:], group.values)]
        lines.append(
            f'<tr><th scope="row">{escaped(group.label)}</th>'
            + "".join(f"<td>{text}</td>" for text in texts)
            + "</tr>"
        )
    return (
        f"<table>\n<caption>{escaped(caption)}</caption>\n<thead><tr>{head}</tr></thead>\n<tbody>\n"
        + "\n".join(lines)
        + "\n</tbody>\n</table>"
    )
