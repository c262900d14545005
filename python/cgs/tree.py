"""The tree of cases as an SVG picture: branches from left to right, a row for each entry."""

from __future__ import annotations

from dataclasses import dataclass
from html import escape

from .kinds import kind, sign, words
from .lines import path_text
from .system import Entry, Path, System

ROW = 30
STEP = 44
MARGIN = 18
LABEL = 260


@dataclass(frozen=True)
class Spot:
    """Where a node stands, in pixels."""

    x: float
    y: float


def layout(entries: tuple[Entry, ...]) -> dict[Path, Spot]:
    """The place of each node: an entry has a row of its own, and a branch stands halfway between its first and its last child."""
    spots: dict[Path, Spot] = {}
    rows: dict[Path, list[float]] = {}
    for place, entry in enumerate(entries):
        y = MARGIN + ROW * (place + 0.5)
        for length in range(len(entry.path) + 1):
            rows.setdefault(entry.path[:length], []).append(y)
    for path, found in rows.items():
        spots[path] = Spot(MARGIN + STEP * len(path), (found[0] + found[-1]) / 2)
    return spots


def edge(parent: Spot, child: Spot, number: int) -> str:
    """The line from a branch to its child, with the child's number."""
    middle = parent.x + STEP * 0.45
    line = f'<path class="edge" d="M{parent.x:g} {parent.y:g}C{middle:g} {parent.y:g} {middle:g} {child.y:g} {child.x:g} {child.y:g}"/>'
    return line + f'<text class="step" x="{child.x - 19:g}" y="{child.y - 5:g}">{number}</text>'


def leaf(entry: Entry, spot: Spot, right: float) -> str:
    """The sign of an entry with its label, a link to its card."""
    name = entry.name
    shape = {
        "finite": f'<circle cx="{spot.x:g}" cy="{spot.y:g}" r="10.5"/>',
        "none": f'<rect x="{spot.x - 9.5:g}" y="{spot.y - 9.5:g}" width="19" height="19" rx="2"/>',
        "free": f'<path d="M{spot.x:g} {spot.y - 12.5:g}l12.5 12.5-12.5 12.5-12.5-12.5z"/>',
        "refused": f'<path d="M{spot.x:g} {spot.y - 12:g}l12 21h-24z"/>',
    }[kind(entry)]
    label = f'<text class="path" x="{right:g}" y="{spot.y + 4.5:g}">{escape(name)}</text>'
    told = f'<text class="told" x="{right + 12 + 7.6 * len(name):g}" y="{spot.y + 4.5:g}">{escape(words(entry))}</text>'
    rule = f'<path class="guide" d="M{spot.x + 14:g} {spot.y:g}H{right - 8:g}"/>' if right - spot.x > 40 else ""
    mark = f'<text class="sign" x="{spot.x:g}" y="{spot.y + 4:g}">{escape(sign(entry))}</text>'
    return f'{rule}<a class="leaf {kind(entry)}" href="#s-{escape(name)}">{shape}{mark}{label}{told}</a>'


def tree(system: System) -> str:
    """The whole tree."""
    entries = system.entries
    if not entries:
        return '<p class="note">There is no entry: no point meets the conditions.</p>'
    spots = layout(entries)
    deepest = max(len(entry.path) for entry in entries)
    right = MARGIN + STEP * deepest + 24
    width = right + LABEL + 7.6 * max(len(entry.name) for entry in entries)
    height = 2 * MARGIN + ROW * len(entries)
    edges = "".join(edge(spots[path[:-1]], spot, path[-1]) for path, spot in spots.items() if path)
    ends = {entry.path for entry in entries}
    inner = "".join(
        f'<circle class="branch" cx="{spot.x:g}" cy="{spot.y:g}" r="3"><title>{path_text(path)}</title></circle>'
        for path, spot in spots.items()
        if path not in ends
    )
    leaves = "".join(leaf(entry, spots[entry.path], right) for entry in entries)
    size = f'width="{width:g}" height="{height:g}" viewBox="0 0 {width:g} {height:g}"'
    return f'<svg class="tree" {size} role="img" aria-label="The tree of cases">{edges}{inner}{leaves}</svg>'
