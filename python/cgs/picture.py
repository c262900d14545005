"""The parameter plane as an SVG picture."""

from __future__ import annotations

from collections import Counter
from collections.abc import Sequence
from dataclasses import dataclass
from html import escape

from .kinds import kind, words
from .plane import Corner, Plane, Window
from .system import Entry

SIDE = 560
LEFT, RIGHT, TOP, BOTTOM = 44, 16, 16, 40
TONES = 3
DASHES = ("", "7 4", "2 3", "9 3 2 3", "1 4", "12 4")
SHAPES = ("dot", "square", "cross", "diamond", "ring", "plus", "triangle")


class Scale:
    """From the window to pixels."""

    def __init__(self, window: Window) -> None:
        self.window = window
        self.unit = SIDE / (max(window[1] - window[0], window[3] - window[2]) + 1.2)
        self.width = LEFT + RIGHT + self.unit * (window[1] - window[0] + 1.2)
        self.height = TOP + BOTTOM + self.unit * (window[3] - window[2] + 1.2)

    def x(self, value: float) -> float:
        """The place of a value of the first axis."""
        return round(LEFT + self.unit * (value - self.window[0] + 0.6), 1)

    def y(self, value: float) -> float:
        """The place of a value of the second axis, which goes up."""
        return round(TOP + self.unit * (self.window[3] + 0.6 - value), 1)


def outline(name: str, x: float, y: float, size: float) -> str:
    """The outline of a mark around a place."""
    half, full = f"{size:.1f}", f"{2 * size:.1f}"
    more, twice = f"{1.25 * size:.1f}", f"{2.5 * size:.1f}"
    corner, above, left = f"{x - size:.1f} {y - size:.1f}", f"{x} {y - 1.25 * size:.1f}", f"{x - 1.25 * size:.1f} {y}"
    return {
        "dot": f"M{x} {y}h0",
        "square": f"M{corner}h{full}v{full}h-{full}z",
        "cross": f"M{corner}l{full} {full}m0-{full}l-{full} {full}",
        "diamond": f"M{above}l{more} {more}l-{more} {more}l-{more}-{more}z",
        "ring": f"M{x - size:.1f} {y}a{half} {half} 0 1 0 {full} 0a{half} {half} 0 1 0-{full} 0",
        "plus": f"M{above}v{twice}M{left}h{twice}",
        "triangle": f"M{above}l{more} {full}h-{twice}z",
    }[name]


@dataclass(frozen=True)
class Mark:
    """The mark of the points of an entry: its kind and one of the tones of it for the colour, a shape, and the points."""

    entry: Entry
    tone: int
    shape: str
    points: tuple[tuple[int, int], ...]

    @property
    def told(self) -> str:
        """What the mark stands for."""
        return f"segment {self.entry.name}: {words(self.entry)}"


def marks(plane: Plane) -> list[Mark]:
    """The marks of the entries with points: the entry with the most points has the plain dot, the others have shapes by turns."""
    shown = [(entry, points) for entry, points in plane.points if points]
    most = max((len(points) for _, points in shown), default=0)
    dotted = next((entry for entry, points in shown if len(points) == most), None)
    others = [entry for entry, _ in shown if entry is not dotted]
    found, seen = [], Counter[str]()
    for entry, points in shown:
        shape = "dot" if entry is dotted else SHAPES[1 + others.index(entry) % (len(SHAPES) - 1)]
        found.append(Mark(entry, seen[kind(entry)] % TONES, shape, points))
        seen[kind(entry)] += 1
    return found


def mark_path(mark: Mark, outlines: Sequence[str]) -> str:
    """All marks of one entry as one path."""
    return f'<path class="mark {mark.shape} {kind(mark.entry)} v{mark.tone}" d="{"".join(outlines)}"><title>{escape(mark.told)}</title></path>'


def ticks(low: int, high: int) -> list[int]:
    """Some round numbers from low to high."""
    step = next(step for step in (1, 2, 5, 10, 20, 50, 100, 200, 500, 10**6) if (high - low) / step <= 9)
    return [value for value in range(low, high + 1) if value % step == 0]


def frame(plane: Plane, scale: Scale) -> str:
    """The ground, the grid lines and the axes with their numbers and names."""
    left, right, low, high = plane.window
    x0, x1, y0, y1 = scale.x(left - 0.6), scale.x(right + 0.6), scale.y(low - 0.6), scale.y(high + 0.6)
    parts = [f'<rect class="ground" x="{x0}" y="{y1}" width="{x1 - x0:.1f}" height="{y0 - y1:.1f}"/>']
    for value in ticks(left, right):
        word = "axis" if value == 0 else "grid"
        parts.append(f'<path class="{word}" d="M{scale.x(value)} {y1}V{y0}"/>')
        parts.append(f'<text class="tick" x="{scale.x(value)}" y="{y0 + 15:.1f}">{value}</text>')
    for value in ticks(low, high):
        word = "axis" if value == 0 else "grid"
        parts.append(f'<path class="{word}" d="M{x0} {scale.y(value)}H{x1}"/>')
        parts.append(f'<text class="tick end" x="{x0 - 7:.1f}" y="{scale.y(value) + 4:.1f}">{value}</text>')
    parts.append(f'<text class="name" x="{(x0 + x1) / 2:.1f}" y="{y0 + 34:.1f}">{escape(plane.axes[0])}</text>')
    parts.append(f'<text class="name" x="{x0 - 32:.1f}" y="{(y0 + y1) / 2 + 5:.1f}">{escape(plane.axes[1])}</text>')
    return "".join(parts)


def line(corners: Sequence[Corner], scale: Scale) -> str:
    """A curve from corner to corner; corners nearer than a pixel to the last one are left out."""
    text, last = "", None
    for place, (x, y) in enumerate(corners):
        here = scale.x(x), scale.y(y)
        if last is None or place == len(corners) - 1 or abs(here[0] - last[0]) + abs(here[1] - last[1]) >= 2:
            text += f"{'L' if text else 'M'}{here[0]:g} {here[1]:g}"
            last = here
    return text


def picture(plane: Plane) -> str:
    """The picture without its legend."""
    scale, found = Scale(plane.window), marks(plane)
    size = min(5.2, scale.unit * 0.27)
    parts = [frame(plane, scale)]
    for place, curve in enumerate(plane.curves):
        path = "".join(line(corners, scale) for corners in curve.lines)
        dash = f' stroke-dasharray="{DASHES[place % len(DASHES)]}"' if DASHES[place % len(DASHES)] else ""
        parts.append(f'<path class="curve" d="{path}"{dash}><title>{escape(curve.label)} = 0</title></path>')
    for mark in found:
        parts.append(mark_path(mark, [outline(mark.shape, scale.x(x), scale.y(y), size) for x, y in mark.points]))
    box = f'viewBox="0 0 {scale.width:.0f} {scale.height:.0f}"'
    return f'<svg class="plane" {box} role="img" aria-label="The plane of {escape(" and ".join(plane.axes))}">{"".join(parts)}</svg>'


def legend(plane: Plane) -> str:
    """The legend: the marks with the paths, then the curves."""
    rows = []
    for mark in marks(plane):
        name = escape(mark.entry.name)
        label = f'<span class="path">{name}</span>: {escape(words(mark.entry))} <span class="count">{len(mark.points)}</span>'
        sign = mark_path(mark, [outline(mark.shape, 10, 10, 5)])
        rows.append(f'<li><a href="#s-{name}"><svg width="20" height="20">{sign}</svg> {label}</a></li>')
    curves = []
    for place, curve in enumerate(plane.curves):
        dash = f' stroke-dasharray="{DASHES[place % len(DASHES)]}"' if DASHES[place % len(DASHES)] else ""
        sample = f'<svg width="34" height="12"><path class="curve" d="M1 6H33"{dash}/></svg>'
        curves.append(f"<li>{sample} <code>{escape(shortened(curve.label))} = 0</code></li>")
    head = "<h3>Conditions over the reals</h3>" if curves else ""
    return f'<ul class="legend">{"".join(rows)}</ul>{head}<ul class="legend curves">{"".join(curves)}</ul>'


def shortened(text: str) -> str:
    """A text that is not too long for a legend."""
    return text if len(text) <= 60 else text[:57] + "..."
