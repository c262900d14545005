"""What `basis`, `locate` and `discover` print."""

from __future__ import annotations

from dataclasses import dataclass
from typing import Any

from .errors import TextFault
from .lines import Lines, number, path_of, path_text
from .problem import Problem
from .ring import Polynomial, Ring, texts
from .system import CAUSES, System, read_polynomials, read_system


@dataclass(frozen=True)
class Basis:
    """The reduced Gröbner basis with ascending leads, the parameters being further variables below the others."""

    ring: Ring
    members: tuple[Polynomial, ...]

    @classmethod
    def parse(cls, text: str, ring: Ring) -> Basis:
        """The basis of a text of `basis` that is no refusal."""
        lines = Lines(text)
        members = read_polynomials(lines, "basis", ring)
        if number(lines.need("members")) != len(members):
            raise TextFault("the count is not that of the members")
        lines.finish()
        return cls(ring, members)

    @property
    def polys(self) -> tuple[Any, ...]:
        """The members as SymPy polynomials over the field."""
        return tuple(member.poly for member in self.members)

    def __str__(self) -> str:
        return "".join(line + "\n" for line in [*texts("basis", self.members), f"members {len(self.members)}"])


@dataclass(frozen=True)
class Place:
    """A point and the entry that holds it.

    `path` is that of the entry, or None where the point violates the conditions of the problem; `cause` is empty unless the entry was refused;
    `basis` is the monic minimal Gröbner basis at the point.
    """

    point: tuple[int, ...]
    path: tuple[int, ...] | None
    cause: str
    basis: tuple[Polynomial, ...]

    @property
    def name(self) -> str:
        """The path as the program prints it, or `nowhere`."""
        return "nowhere" if self.path is None else path_text(self.path)

    def __str__(self) -> str:
        entry = "nowhere" if self.path is None else f"refused {self.name} {self.cause}" if self.cause else f"segment {self.name}"
        return "".join(line + "\n" for line in [" ".join(["point", *map(str, self.point)]), entry, *texts("basis", self.basis)])


@dataclass(frozen=True)
class Located:
    """For each point of a problem, in its order, the entry that holds it."""

    places: tuple[Place, ...]

    @classmethod
    def parse(cls, text: str, ring: Ring) -> Located:
        """The places of a text of `locate`."""
        lines, places = Lines(text), []
        while (point := lines.take("point")) is not None:
            places.append(read_place(lines, point, ring))
        if number(lines.need("points")) != len(places):
            raise TextFault("the count is not that of the points")
        lines.finish()
        return cls(tuple(places))

    def __str__(self) -> str:
        return "".join(str(place) for place in self.places) + f"points {len(self.places)}\n"


def read_place(lines: Lines, point: str, ring: Ring) -> Place:
    """The place of a point whose line was taken."""
    numbers = tuple(number(word) for word in point.split(" ")) if point else ()
    if lines.take("nowhere") is not None:
        return Place(numbers, None, "", ())
    if (words := lines.take("refused")) is not None:
        name, _, cause = words.partition(" ")
        if cause not in CAUSES:
            raise TextFault(f"line {lines.place}: refused {words}")
        return Place(numbers, path_of(name), cause, ())
    return Place(numbers, path_of(lines.need("segment")), "", read_polynomials(lines, "basis", ring))


@dataclass(frozen=True)
class Discovered:
    """Where the thesis of a problem follows, and what the system becomes where the thesis is 0 too.

    At each point of a segment of `refutation` whose basis is 1, the thesis is 0 wherever all polynomials of the problem are.
    """

    refutation: System
    with_thesis: System

    @classmethod
    def parse(cls, text: str, problem: Problem, *, budget: int | None = None, depth: int | None = None) -> Discovered:
        """The two lists of a text of `discover`."""
        lines = Lines(text)
        if lines.next() != "refutation":
            raise TextFault("the first line is not `refutation`")
        refutation = read_system(lines, problem.refutation(), budget=budget, depth=depth)
        if lines.next() != "with thesis":
            raise TextFault(f"line {lines.place} is not `with thesis`")
        with_thesis = read_system(lines, problem.with_thesis(), budget=budget, depth=depth)
        lines.finish()
        return cls(refutation, with_thesis)

    def __str__(self) -> str:
        return f"refutation\n{self.refutation}with thesis\n{self.with_thesis}"
