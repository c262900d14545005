"""One page that says all of a list: self-contained, without scripts and without the network."""

from __future__ import annotations

import pathlib
from collections import Counter
from collections.abc import Callable, Iterable, Mapping, Sequence
from html import escape

from .factors import factored
from .kinds import KINDS, kind, sign, words
from .mathml import equation, relation, sum_of
from .picture import legend, picture
from .plane import WINDOW, Plane, plane
from .problem import Problem
from .rational import read_polynomial
from .ring import Polynomial
from .system import Entry, Refused, Segment, System
from .tree import tree

Tell = Callable[[str, int, int], None]


def quiet(stage: str, done: int, total: int) -> None:
    """Tells nothing of how far the work is."""


def style() -> str:
    """The style of a page."""
    return pathlib.Path(__file__).with_name("page.css").read_text(encoding="utf-8")


def plural(count: int, one: str, many: str) -> str:
    """A number with its noun."""
    return f"{count} {one if count == 1 else many}"


def conditions(word: str, parts: Iterable[Polynomial]) -> str:
    """The conditions of a word, `zero` or `nonzero`, with their factors."""
    mark = "=" if word == "zero" else "\N{NOT EQUAL TO}"
    return "".join(f'<li title="{escape(f"{word} {part}")}">{relation(factored(part), mark)}</li>' for part in parts)


def members(parts: Iterable[Polynomial]) -> str:
    """The polynomials of a basis."""
    return "".join(f'<li title="{escape(f"basis {part}")}">{sum_of(read_polynomial(part))}</li>' for part in parts)


def told(entry: Segment) -> str:
    """What a list tells of a segment, in its own words."""
    pairs = [("solvable", "yes" if entry.solvable else "no"), ("finite", "yes" if entry.finite else "no"), ("standard", str(entry.standard))]
    shown = "".join(f"<div><dt>{word}</dt><dd>{value}</dd></div>" for word, value in pairs)
    untested = '<p class="note">Untested: it was not found out whether the conditions contradict each other.</p>' if entry.untested else ""
    return f'<dl class="told">{shown}</dl>{untested}'


def body(entry: Entry) -> str:
    """The conditions and the basis of an entry."""
    given = conditions("zero", entry.zero) + conditions("nonzero", entry.nonzero)
    where = f"<ul>{given}</ul>" if given else '<p class="note">everywhere</p>'
    if isinstance(entry, Refused):
        basis = '<p class="note">Nothing is known of the equations here.</p>'
    elif entry.basis:
        basis = f"<ul>{members(entry.basis)}</ul>"
    else:
        basis = '<p class="note">No member: all equations became 0 = 0.</p>'
    return f'<div class="columns"><div><h4>Where</h4>{where}</div><div><h4>Basis</h4>{basis}</div></div>'


def card(entry: Entry) -> str:
    """The card of an entry."""
    name = escape(entry.name)
    head = f'<h3><span class="badge {kind(entry)}">{escape(sign(entry))}</span> <span class="path">{name}</span> {escape(words(entry))}</h3>'
    facts = told(entry) if isinstance(entry, Segment) else ""
    printed = f'<details><summary>As the program prints it</summary><pre tabindex="0">{escape(str(entry))}</pre></details>'
    return f'<article class="card {kind(entry)}" id="s-{name}"><header>{head}{facts}</header>{body(entry)}{printed}</article>'


def summary(system: System) -> str:
    """How many entries of each kind there are."""
    counts = Counter(kind(entry) for entry in system.entries)
    shown = [f'<li><span class="badge {each}"></span> <b>{counts[each]}</b> {words_}</li>' for each, words_ in KINDS.items() if counts[each]]
    return f'<ul class="summary">{"".join(shown)}</ul>'


def question(system: System) -> str:
    """The problem: its ring, its equations and its conditions."""
    ring, problem = system.ring, system.problem
    parameters = ", ".join(ring.parameters) or "none"
    facts = [("Parameters", parameters), ("Variables", ", ".join(ring.variables)), ("Order", ring.order), ("Numbers", f"modulo {ring.modulus}")]
    shown = "".join(f"<div><dt>{word}</dt><dd>{escape(value)}</dd></div>" for word, value in facts)
    equations = given = ""
    if problem is not None:
        equations = "".join(f"<li>{equation(read_polynomial(part))}</li>" for part in problem.polys)
        given = conditions("zero", problem.zero) + conditions("nonzero", problem.nonzero)
    lists = f'<ul class="equations">{equations}</ul>' if equations else ""
    lists += f'<p class="given">given that</p><ul class="equations">{given}</ul>' if given else ""
    return f'<div class="question"><dl>{shown}</dl><div>{lists}</div></div>'


def plane_section(found: Plane | None) -> str:
    """The picture of the parameter plane with its legend and what it rests on."""
    if found is None:
        return ""
    fixed = "".join(f", {name} = {number}" for name, number in found.fixed)
    by = "the program (<code>locate</code>)" if found.is_located else "this page by the conditions of the list (computed, not proved)"
    note = (
        f"Each mark is a pair of integers, taken modulo the prime{escape(fixed)}. Its segment was found by {by}. The curves are the real zeros "
        "of the factors of these segments' conditions, with coefficients read as simple fractions: computed, not proved. A factor that does not "
        "change its sign has no curve."
    )
    head = f"<h2>The plane of {escape(found.axes[0])} and {escape(found.axes[1])}</h2>"
    row = f'<div class="plane-row"><div>{picture(found)}</div><div>{legend(found)}</div></div>'
    return f'<section class="plane-part">{head}{row}<p class="note">{note}</p></section>'


def notes(system: System) -> str:
    """What the page rests on."""
    modulus = system.ring.modulus
    return (
        "<footer><p>Proved of the program that printed the list: the cases are complete and do not overlap, and each basis is a minimal Gröbner "
        "basis at every point of its segment. Computed here, not proved: factors, fractions, pictures. A number of solutions is that of the "
        "standard monomials, so it counts multiplicities, in a field that is large enough. A coefficient modulo "
        f"{modulus} is shown as a number near 0, or as a simple fraction that is the same number there; conditions are shown without a constant "
        "factor. What a card opens is as printed.</p></footer>"
    )


def title_of(problem: Problem | None, title: str) -> str:
    """The title of a page."""
    return title or (problem.title if problem is not None else "") or "A comprehensive Gröbner system"


def content(system: System, found: Plane | None, title: str, tell: Tell) -> str:
    """All that stands between the marks of the body."""
    head = f"<header><h1>{escape(title)}</h1>{question(system)}{summary(system)}</header>"
    cards = []
    for place, entry in enumerate(system.entries):
        tell("cards", place, len(system.entries))
        cards.append(card(entry))
    trees = f'<section class="tree-part"><h2>The cases</h2><div class="scroll" tabindex="0">{tree(system)}</div></section>'
    count = plural(len(system.segments), "segment", "segments")
    count += f", {len(system.refused)} refused" if system.refused else ""
    listed = f'<section><h2>{count}</h2><div class="cards">{"".join(cards)}</div></section>'
    whole = f'<section><details><summary>The whole list as printed</summary><pre tabindex="0">{escape(str(system))}</pre></details></section>'
    return f"<main>{head}{trees}{plane_section(found)}{listed}{whole}{notes(system)}</main>"


def page(
    system: System,
    *,
    title: str = "",
    axes: Sequence[str] | None = None,
    fixed: Mapping[str, int] | None = None,
    window: Sequence[int] = WINDOW,
    workers: int = 1,
    tell: Tell = quiet,
) -> str:
    """The page of a list.

    Where the list has two parameters, or `axes` names two and `fixed` has a number for each other one, the page has a picture of their plane with the
    integer points of `window` (the least and greatest of the first, and of the second). `tell` is called with a stage and how far it is.
    """
    tell("plane", 0, 1)
    found = plane(system, axes=axes, fixed=fixed, window=window, workers=workers)
    named = title_of(system.problem, title)
    inside = content(system, found, named, tell)
    tell("done", 1, 1)
    head = f'<meta charset="utf-8"><meta name="viewport" content="width=device-width,initial-scale=1"><title>{escape(named)}</title>'
    icon = '<link rel="icon" href="data:,">'
    return f'<!DOCTYPE html>\n<html lang="en"><head>{head}{icon}<style>{style()}</style></head>\n<body>{inside}</body></html>\n'


def frame(system: System, height: int = 640) -> str:
    """The page in a frame of its own, as notebooks show it."""
    return f'<iframe srcdoc="{escape(page(system))}" style="width:100%;height:{height}px;border:0" title="The list"></iframe>'
