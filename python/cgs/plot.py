"""The parameter plane as a figure of matplotlib, the same as on a page."""

from __future__ import annotations

from collections.abc import Mapping, Sequence
from typing import Any

from .errors import ProblemFault
from .kinds import DARK, LIGHT, kind, words
from .picture import DASHES, marks, shortened, ticks
from .plane import WINDOW, Plane, plane
from .system import System

MARKERS = {"dot": ".", "square": "s", "cross": "x", "diamond": "D", "ring": "o", "plus": "P", "triangle": "^"}
GROUNDS = {False: ("#ffffff", "#1b1e22", "#dcdfe2", "#30353b"), True: ("#1a1e22", "#e9ebee", "#333a41", "#c9ced4")}


def draw_points(axes: Any, found: Plane, tones: Mapping[str, Sequence[str]]) -> None:
    """The marks of each entry, with a line for the legend."""
    for mark in marks(found):
        colour, is_dot = tones[kind(mark.entry)][mark.tone], mark.shape == "dot"
        axes.scatter(
            [x for x, _ in mark.points],
            [y for _, y in mark.points],
            s=18 if is_dot else 30,
            marker=MARKERS[mark.shape],
            facecolors="none" if mark.shape == "ring" else colour,
            edgecolors=colour if mark.shape == "ring" else None,
            alpha=0.65 if is_dot else 1,
            zorder=3,
            label=f"{mark.entry.name}: {words(mark.entry)}",
        )


def draw_curves(axes: Any, found: Plane, ink: str) -> None:
    """The real zeros of the conditions."""
    for place, curve in enumerate(found.curves):
        dash = DASHES[place % len(DASHES)]
        style: Any = (0, [float(length) for length in dash.split()]) if dash else "solid"
        for number, corners in enumerate(curve.lines):
            label = f"{shortened(curve.label)} = 0" if number == 0 else None
            axes.plot([x for x, _ in corners], [y for _, y in corners], color=ink, linewidth=1.1, linestyle=style, zorder=2, label=label)


def figure(
    system: System,
    *,
    axes: Sequence[str] | None = None,
    fixed: Mapping[str, int] | None = None,
    window: Sequence[int] = WINDOW,
    workers: int = 1,
    is_dark: bool = False,
) -> Any:
    """A figure of the plane of two parameters; ProblemFault where the list has not two that are free. Computed, not proved."""
    from matplotlib.figure import Figure

    found = plane(system, axes=axes, fixed=fixed, window=window, workers=workers)
    if found is None:
        raise ProblemFault(None, "count", "say with axes= which two parameters span the plane, and with fixed= what the others are")
    ground, ink, grid, curve = GROUNDS[is_dark]
    made = Figure(figsize=(8.4, 5.4), facecolor=ground, layout="constrained")
    drawn = made.add_subplot(facecolor=ground)
    drawn.set_axisbelow(True)
    drawn.grid(color=grid, linewidth=0.8)
    drawn.tick_params(colors=ink)
    drawn.set_xlabel(found.axes[0], color=ink)
    drawn.set_ylabel(found.axes[1], color=ink)
    for spine in drawn.spines.values():
        spine.set_color(grid)
    left, right, low, high = found.window
    drawn.set(xlim=(left - 0.6, right + 0.6), ylim=(low - 0.6, high + 0.6), xticks=ticks(left, right), yticks=ticks(low, high), aspect="equal")
    draw_curves(drawn, found, curve)
    draw_points(drawn, found, DARK if is_dark else LIGHT)
    drawn.legend(loc="upper left", bbox_to_anchor=(1.02, 1), borderaxespad=0, frameon=False, labelcolor=ink, fontsize="small")
    return made
