"""The plane of two parameters: which entry holds each integer point of a window, and where the conditions vanish over the reals."""

from __future__ import annotations

from collections.abc import Iterable, Iterator, Mapping, Sequence
from dataclasses import dataclass
from fractions import Fraction

from .errors import CgsError, ProblemFault
from .factors import factored
from .rational import RationalPolynomial
from .ring import Exponents
from .run import locate
from .system import Entry, System

Corner = tuple[float, float]
Window = tuple[int, int, int, int]
WINDOW: Window = (-12, 12, -12, 12)
CELLS = 160
MOST_CURVES = 24
MOST_POINTS = 40_000


@dataclass(frozen=True)
class Curve:
    """The real zeros of a factor of a condition in a window, as lines from point to point, and the factor as a text."""

    label: str
    lines: tuple[tuple[Corner, ...], ...]


@dataclass(frozen=True)
class Plane:
    """What the picture of a parameter plane has.

    `axes` are the two parameters, `fixed` the numbers of the others, `window` the least and greatest of the first and of the second. `points` has the
    points of each entry, in the order of the entries. `is_located` tells whether the program placed them, or this module by the conditions.
    """

    axes: tuple[str, str]
    fixed: tuple[tuple[str, int], ...]
    window: Window
    points: tuple[tuple[Entry, tuple[tuple[int, int], ...]], ...]
    curves: tuple[Curve, ...]
    is_located: bool


def chosen_axes(parameters: Sequence[str], axes: Sequence[str] | None, fixed: Mapping[str, int]) -> tuple[str, str] | None:
    """The two parameters of the plane, or None where they cannot be told: those asked for, else those that are not fixed."""
    names = tuple(map(str, axes)) if axes is not None else tuple(name for name in parameters if name not in fixed)
    if axes is None and len(names) != 2:
        return None
    if len(set(names)) != 2 or not set(names) <= set(parameters):
        raise ProblemFault(None, "count", f"a plane has two of the parameters {' '.join(parameters)}")
    missing = [name for name in parameters if name not in names and name not in fixed]
    if missing:
        raise ProblemFault(None, "count", f"the other parameters need a number: {' '.join(missing)}")
    return names[0], names[1]


def grid(window: Window) -> Iterator[tuple[int, int]]:
    """The integer points of a window."""
    for y in range(window[2], window[3] + 1):
        for x in range(window[0], window[1] + 1):
            yield x, y


def entries_by_program(system: System, numbers: Sequence[Mapping[str, int]], workers: int) -> list[Entry | None] | None:
    """The entry of each point as `locate` tells, or None where the program cannot be asked, or has another list."""
    if system.problem is None or "_y" in system.ring.names:
        return None
    try:
        asked = system.problem.with_points(numbers)
        found = locate(asked, workers=workers, budget=system.budget, depth=system.depth, keep_refused=True)
    except CgsError:
        return None
    by_path = {entry.path: entry for entry in system.entries}
    if any(place.path is not None and place.path not in by_path for place in found.places):
        return None
    return [None if place.path is None else by_path[place.path] for place in found.places]


def conditions(entries: Iterable[Entry]) -> list[RationalPolynomial]:
    """The factors of the conditions of some entries, each once."""
    found: dict[RationalPolynomial, None] = {}
    for entry in entries:
        for part in (*entry.zero, *entry.nonzero):
            found.update(dict.fromkeys(factor for factor, _ in factored(part).factors))
    return list(found)


def in_plane(part: RationalPolynomial, axes: tuple[str, str], fixed: Mapping[str, int]) -> list[RationalPolynomial]:
    """The factors of a polynomial in the two axes, after the other parameters have their numbers."""
    import sympy

    table: dict[Exponents, Fraction] = {}
    for value, exponents in part.terms:
        powers = dict(zip(part.names, exponents))
        for name, number in fixed.items():
            value *= Fraction(number) ** powers[name]
        key = powers[axes[0]], powers[axes[1]]
        table[key] = table.get(key, Fraction(0)) + value
    kept = sorted(((value, key) for key, value in table.items() if value), key=lambda term: term[1], reverse=True)
    if not kept:
        return []
    _, factors = sympy.factor_list(RationalPolynomial(axes, tuple(kept)).poly)
    return [RationalPolynomial(axes, tuple((Fraction(int(value)), key) for key, value in factor.terms())) for factor, _ in factors]


def values(table: Mapping[tuple[int, int], float], xs: Sequence[float], ys: Sequence[float]) -> list[list[float]]:
    """The values of a polynomial on a grid, row by row."""
    degree = max(power for power, _ in table)
    rows = []
    for y in ys:
        line = [0.0] * (degree + 1)
        for (power, other), value in table.items():
            line[power] += value * y**other
        row = []
        for x in xs:
            total = 0.0
            for value in reversed(line):
                total = total * x + value
            row.append(total)
        rows.append(row)
    return rows


def crossing(one: Corner, other: Corner, value: float, next_value: float) -> Corner:
    """Where a line between two corners of a cell is 0."""
    share = value / (value - next_value)
    return round(one[0] + share * (other[0] - one[0]), 4), round(one[1] + share * (other[1] - one[1]), 4)


def pieces(rows: Sequence[Sequence[float]], xs: Sequence[float], ys: Sequence[float]) -> Iterator[tuple[Corner, Corner]]:
    """The lines in which the cells of a grid are crossed by the zeros."""
    for j in range(len(ys) - 1):
        for i in range(len(xs) - 1):
            around = (rows[j][i], rows[j][i + 1], rows[j + 1][i + 1], rows[j + 1][i])
            if min(around) >= 0 or max(around) < 0:
                continue
            corners = ((xs[i], ys[j]), (xs[i + 1], ys[j]), (xs[i + 1], ys[j + 1]), (xs[i], ys[j + 1]))
            cuts = [
                crossing(corners[k], corners[(k + 1) % 4], around[k], around[(k + 1) % 4])
                for k in range(4)
                if (around[k] >= 0) != (around[(k + 1) % 4] >= 0)
            ]
            yield from zip(cuts[::2], cuts[1::2])


def chained(found: Iterator[tuple[Corner, Corner]]) -> tuple[tuple[Corner, ...], ...]:
    """Pieces joined where they meet."""
    ends: dict[Corner, list[Corner]] = {}
    chains: list[list[Corner]] = []
    for one, other in found:
        if one == other:
            continue
        ends.setdefault(one, []).append(other)
        ends.setdefault(other, []).append(one)
    starts = [corner for corner, others in ends.items() if len(others) == 1] + list(ends)
    for start in starts:
        while ends[start]:
            chain, here = [start], start
            while ends[here]:
                following = ends[here].pop()
                ends[following].remove(here)
                chain.append(following)
                here = following
            chains.append(chain)
    return tuple(map(tuple, chains))


def curve(part: RationalPolynomial, window: Window) -> Curve | None:
    """The zeros of a polynomial in the two axes in the window, or None where there are none that change its sign."""
    left, right, low, high = window[0] - 0.6, window[1] + 0.6, window[2] - 0.6, window[3] + 0.6
    xs = [left + (right - left) * k / CELLS for k in range(CELLS + 1)]
    ys = [low + (high - low) * k / CELLS for k in range(CELLS + 1)]
    table = {(exponents[0], exponents[1]): float(value) for value, exponents in part.terms}
    lines = chained(pieces(values(table, xs, ys), xs, ys))
    return Curve(str(part), lines) if lines else None


def checked_window(window: Sequence[int]) -> Window:
    """A window, or a ProblemFault where it is none."""
    left, right, low, high = map(int, window)
    if not (left < right and low < high and (right - left + 1) * (high - low + 1) <= MOST_POINTS):
        raise ProblemFault(None, "count", f"a window is the least and greatest of each axis, with at most {MOST_POINTS} points")
    return left, right, low, high


def plane(
    system: System,
    *,
    axes: Sequence[str] | None = None,
    fixed: Mapping[str, int] | None = None,
    window: Sequence[int] = WINDOW,
    workers: int = 1,
) -> Plane | None:
    """The plane of two parameters, or None where the list has not two that are free. Points are placed by the program where it can be asked."""
    given = {str(name): int(number) for name, number in (fixed or {}).items()}
    chosen = chosen_axes(system.ring.parameters, axes, given)
    if chosen is None:
        return None
    seen = checked_window(window)
    others = {name: given[name] for name in system.ring.parameters if name not in chosen}
    spots = list(grid(seen))
    numbers = [{chosen[0]: x, chosen[1]: y, **others} for x, y in spots]
    located = entries_by_program(system, numbers, workers)
    holders = [system.at(each) for each in numbers] if located is None else located
    by_path: dict[tuple[int, ...], list[tuple[int, int]]] = {entry.path: [] for entry in system.entries}
    for spot, entry in zip(spots, holders):
        if entry is not None:
            by_path[entry.path].append(spot)
    points = tuple((entry, tuple(by_path[entry.path])) for entry in system.entries)
    parts = conditions(entry for entry, found in points if found)
    distinct = dict.fromkeys(factor for part in parts for factor in in_plane(part, chosen, others))
    curves = [made for factor in distinct if (made := curve(factor, seen)) is not None]
    return Plane(chosen, tuple(others.items()), seen, points, tuple(curves[:MOST_CURVES]), located is not None)
