"""Charts of a page, as SVG: bars with intervals, lines, and how often values come. They need nothing from elsewhere."""

import html
import math
from dataclasses import dataclass
from typing import Mapping, Optional, Sequence

COLOURS = ("#1f77b4", "#d62728", "#2ca02c", "#9467bd", "#ff7f0e", "#17becf", "#8c564b", "#e377c2", "#7f7f7f", "#bcbd22")
WIDTH, LEFT, RIGHT, TOP, BOTTOM = 720, 130, 150, 34, 34


def colour(index: int) -> str:
    return COLOURS[index % len(COLOURS)]


def steps(low: float, high: float, most: int = 7) -> list[float]:
    """Round numbers between two others, this many at most and one.

    >>> steps(0, 10), steps(-130, 170)
    ([0, 2, 4, 6, 8, 10], [-100, -50, 0, 50, 100, 150])
    >>> steps(0, 1), steps(3, 3)
    ([0.0, 0.2, 0.4, 0.6, 0.8, 1.0], [3])
    """
    width = max(high - low, 1e-9)
    power = math.floor(math.log10(width)) - 1
    while True:
        for lead in (1, 2, 5):
            unit = lead * 10.0**power
            if width / unit <= most:
                numbers = range(math.ceil(low / unit - 1e-9), math.floor(high / unit + 1e-9) + 1)
                digits = 9 if power < 0 and width > 1e-6 else None
                return [round(number * unit, digits) for number in numbers]
        power += 1


@dataclass
class Scale:
    """Where values are: `low` at `start`, and `high` at `end`."""

    low: float
    high: float
    start: float
    end: float

    def at(self, value: float) -> float:
        """
        >>> Scale(0, 10, 100, 200).at(5)
        150.0
        """
        return round(self.start + (value - self.low) / ((self.high - self.low) or 1) * (self.end - self.start), 1)


def text(x: float, y: float, said: object, anchor: str = "start") -> str:
    """
    >>> text(1, 2, "<a>")
    '<text x="1" y="2" text-anchor="start">&lt;a&gt;</text>'
    """
    return f'<text x="{x}" y="{y}" text-anchor="{anchor}">{html.escape(str(said))}</text>'


def stroke(x1: float, y1: float, x2: float, y2: float, paint: str, width: float = 1) -> str:
    return f'<line x1="{x1}" y1="{y1}" x2="{x2}" y2="{y2}" stroke="{paint}" stroke-width="{width}"/>'


def picture(title: str, height: float, parts: Sequence[str]) -> str:
    return (
        f'<svg viewBox="0 0 {WIDTH} {height}" width="{WIDTH}" height="{height}" role="img" '
        f'font-family="sans-serif" font-size="13"><title>{html.escape(title)}</title>'
        + text(LEFT, 18, title) + "".join(parts) + "</svg>\n"
    )


def grid(scale: Scale, top: float, bottom: float) -> list[str]:
    """The lines of round numbers, from left to right."""
    parts = []
    for value in steps(scale.low, scale.high):
        parts.append(stroke(scale.at(value), top, scale.at(value), bottom, "#ddd"))
        parts.append(text(scale.at(value), bottom + 16, f"{value:g}", "middle"))
    return parts


def stacked(pictures: Sequence[str]) -> str:
    """Pictures below each other, as a file of SVG.

    >>> stacked([picture("a", 50, []), picture("b", 60, [])]).count('y="50.0"')
    1
    """
    parts, height = [], 0.0
    for each in pictures:
        parts.append(each.replace("<svg ", f'<svg y="{height}" ', 1))
        height += float(each.split('height="', 1)[1].split('"', 1)[0])
    head = f'<svg xmlns="http://www.w3.org/2000/svg" viewBox="0 0 {WIDTH} {height}" width="{WIDTH}" height="{height}">\n'
    return head + f'<rect width="{WIDTH}" height="{height}" fill="white"/>\n' + "".join(parts) + "</svg>\n"


@dataclass
class Bar:
    """A line of a chart of bars. `half` is half of its interval."""

    name: str
    value: float
    half: float = 0.0
    reported: Optional[str] = None


def bars(title: str, rows: Sequence[Bar]) -> str:
    """A bar for each row, from 0 to its value, with its interval.

    >>> bars("x", [Bar("a", 50, 20), Bar("b", -50, 20)]).count("<rect")
    2
    """
    low = min([0.0, *[row.value - row.half for row in rows]])
    high = max([0.0, *[row.value + row.half for row in rows]])
    bottom = TOP + 26 * max(1, len(rows))
    scale = Scale(low, high, LEFT, WIDTH - RIGHT)
    parts = grid(scale, TOP, bottom)
    for index, row in enumerate(rows):
        middle = TOP + 26 * index + 13
        left, right = sorted((scale.at(0), scale.at(row.value)))
        width = max(1.0, round(right - left, 1))
        size = f'width="{width}" height="16"'
        parts.append(f'<rect x="{left}" y="{middle - 8}" {size} fill="{colour(index)}" opacity="0.75"/>')
        if row.half:
            ends = scale.at(row.value - row.half), scale.at(row.value + row.half)
            parts.append(stroke(ends[0], middle, ends[1], middle, "#222", 1.5))
            parts += [stroke(end, middle - 5, end, middle + 5, "#222", 1.5) for end in ends]
        parts.append(text(LEFT - 8, middle + 5, row.name, "end"))
        parts.append(text(WIDTH - RIGHT + 8, middle + 5, row.reported or f"{row.value:g}"))
    return picture(title, bottom + BOTTOM, parts)


def curves(title: str, series: Mapping[str, Sequence[tuple[float, float]]], low: float, high: float) -> str:
    """A line for each name through its points, of which about 300 are drawn.

    >>> curves("x", {"a": [(0, 0.5), (1, 1.0)], "b": []}, 0, 1).count("<polyline")
    1
    """
    bottom = TOP + 220
    last = max([1.0, *[points[-1][0] for points in series.values() if points]])
    across, up = Scale(0, last, LEFT, WIDTH - RIGHT), Scale(low, high, bottom, TOP)
    parts = grid(across, TOP, bottom)
    for value in steps(low, high):
        parts.append(stroke(LEFT, up.at(value), WIDTH - RIGHT, up.at(value), "#ddd"))
        parts.append(text(LEFT - 8, up.at(value) + 5, f"{value:g}", "end"))
    for index, (name, points) in enumerate(series.items()):
        if not points:
            continue
        some = [*points[:: len(points) // 300 + 1], points[-1]]
        drawn = " ".join(f"{across.at(x)},{up.at(y)}" for x, y in some)
        parts.append(f'<polyline points="{drawn}" fill="none" stroke="{colour(index)}" stroke-width="1.8"/>')
        place = f'x="{WIDTH - RIGHT + 10}" y="{TOP + 20 * index}"'
        parts.append(f'<rect {place} width="12" height="12" fill="{colour(index)}"/>')
        parts.append(text(WIDTH - RIGHT + 28, TOP + 11 + 20 * index, name))
    return picture(title, max(bottom + BOTTOM, TOP + 20 * len(series)), parts)


def histogram(title: str, values: Sequence[int], paint: int = 0) -> str:
    """How often values come, in at most 24 groups of the same width.

    >>> histogram("x", [5, 5, 9]).count("<rect")
    2
    """
    low, high = min(values, default=0), max(values, default=0)
    wide = (high - low) // 24 + 1
    counts: dict[int, int] = {}
    for value in values:
        counts[(value - low) // wide] = counts.get((value - low) // wide, 0) + 1
    bottom = TOP + 120
    across = Scale(low, low + wide * (max(counts, default=0) + 1), LEFT, WIDTH - RIGHT)
    up = Scale(0, max(counts.values(), default=1), bottom, TOP)
    parts = grid(across, TOP, bottom)
    for value in (each for each in steps(up.low, up.high, 4) if each == int(each)):
        parts.append(stroke(LEFT, up.at(value), WIDTH - RIGHT, up.at(value), "#ddd"))
        parts.append(text(LEFT - 8, up.at(value) + 5, f"{value:g}", "end"))
    for group, count in counts.items():
        left, right = across.at(low + wide * group), across.at(low + wide * (group + 1))
        size = f'width="{max(1.0, round(right - left - 1, 1))}" height="{round(bottom - up.at(count), 1)}"'
        parts.append(f'<rect x="{left}" y="{up.at(count)}" {size} fill="{colour(paint)}" opacity="0.75"/>')
    return picture(title, bottom + BOTTOM, parts)
