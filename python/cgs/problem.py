"""A problem: what is asked of the program."""

from __future__ import annotations

import os
import pathlib
import re
from collections.abc import Iterable, Sequence
from dataclasses import dataclass, field
from fractions import Fraction
from typing import Any

from .errors import ProblemFault
from .expressions import number_in_field, polynomial
from .reader import MOST_DEGREE, MOST_NAME_BYTES, MOST_NAMES, read
from .ring import MODULI, ORDERS, Polynomial, Ring, texts

Names = str | Iterable[Any]
NAME = re.compile(r"[A-Za-z][A-Za-z0-9_]*")


def names_of(given: Names) -> tuple[str, ...]:
    """The names in a string, where commas or spaces separate them, or those of symbols."""
    if isinstance(given, str):
        return tuple(given.replace(",", " ").split())
    return tuple(str(name) for name in given)


def checked_ring(modulus: int, parameters: tuple[str, ...], variables: tuple[str, ...], order: str) -> Ring:
    """The ring of a problem, or a ProblemFault that says what the program does not take."""
    if modulus not in MODULI:
        raise ProblemFault(None, "field", f"{modulus} is none of the moduli {', '.join(map(str, MODULI))}")
    if order not in ORDERS:
        raise ProblemFault(None, "order", f"{order} is none of the orders {', '.join(ORDERS)}")
    if len(parameters) > MOST_NAMES or not 1 <= len(variables) <= MOST_NAMES:
        raise ProblemFault(None, "count", f"there may be 0 to {MOST_NAMES} parameters, and 1 to {MOST_NAMES} variables")
    names = parameters + variables
    for place, name in enumerate(names):
        if not NAME.fullmatch(name) or len(name) > MOST_NAME_BYTES or name in names[:place]:
            raise ProblemFault(None, "name", f"{name!r} is no name, is too long, or was given before")
    return Ring(modulus, parameters, variables, order)


def checked(given: Any, ring: Ring, word: str) -> Polynomial:
    """The polynomial of a line that begins with a word, or a ProblemFault where it may not stand there."""
    found = polynomial(given, ring)
    count, most = len(ring.parameters), MOST_DEGREE - (word == "thesis")
    if any(sum(exponents) > most for _, exponents in found.terms):
        raise ProblemFault(None, "degree", f"a degree above {most}")
    if word in ("zero", "nonzero") and any(any(exponents[count:]) for _, exponents in found.terms):
        raise ProblemFault(None, "variable", f"a condition has the parameters alone: {found}")
    return found


def checked_point(given: Any, ring: Ring) -> tuple[int, ...]:
    """A point: one number of the field for each parameter, given in their order or by their names; fractions are sent into the field."""
    if isinstance(given, dict):
        by_name = {str(name): value for name, value in given.items()}
        if sorted(by_name) != sorted(ring.parameters):
            raise ProblemFault(None, "count", f"a point has a number for each of {' '.join(ring.parameters)}")
        given = [by_name[name] for name in ring.parameters]
    try:
        numbers = tuple(number_in_field(Fraction(str(number)), ring.modulus) for number in given)
    except (ValueError, ZeroDivisionError):
        raise ProblemFault(None, "syntax", f"no point of rational numbers: {given}") from None
    if len(numbers) != len(ring.parameters):
        raise ProblemFault(None, "count", f"a point has {len(ring.parameters)} numbers")
    return numbers


@dataclass(frozen=True, init=False)
class Problem:
    """Polynomials that are to be 0, in variables and parameters over a prime field, with conditions on the parameters.

    Polynomials are strings (with brackets, powers and fractions), SymPy expressions or equations, or numbers. Fractions are sent into the field,
    and FieldFault is raised where a denominator vanishes there. Where the program would find a fault, ProblemFault is raised. `title` is no part
    of the problem: pages show it.
    """

    ring: Ring
    polys: tuple[Polynomial, ...]
    zero: tuple[Polynomial, ...]
    nonzero: tuple[Polynomial, ...]
    thesis: Polynomial | None
    points: tuple[tuple[int, ...], ...]
    title: str = field(compare=False)

    def __init__(
        self,
        polys: Sequence[Any],
        *,
        variables: Names,
        parameters: Names = (),
        field: int = 32003,
        order: str = "lex",
        zero: Sequence[Any] = (),
        nonzero: Sequence[Any] = (),
        thesis: Any = None,
        points: Iterable[Any] = (),
        title: str = "",
    ) -> None:
        if isinstance(polys, str) or isinstance(zero, str) or isinstance(nonzero, str):
            raise ProblemFault(None, "expression", "polynomials are given in a list")
        ring = checked_ring(field, names_of(parameters), names_of(variables), order)
        self._set("ring", ring)
        self._set("polys", tuple(checked(given, ring, "poly") for given in polys))
        self._set("zero", tuple(checked(given, ring, "zero") for given in zero))
        self._set("nonzero", tuple(checked(given, ring, "nonzero") for given in nonzero))
        self._set("thesis", None if thesis is None else checked(thesis, ring, "thesis"))
        self._set("points", tuple(checked_point(given, ring) for given in points))
        self._set("title", title)

    def _set(self, name: str, value: Any) -> None:
        object.__setattr__(self, name, value)

    @classmethod
    def parse(cls, text: str | bytes) -> Problem:
        """The problem of the text of a file; ProblemFault with its line and kind where the text has a fault. The first comment is the title."""
        data = text.encode() if isinstance(text, str) else text
        draft = read(data)
        assert draft.ring is not None
        return cls.of(draft.ring, draft.polys, draft.zero, draft.nonzero, draft.thesis, draft.points, title_of(data))

    @classmethod
    def of(
        cls,
        ring: Ring,
        polys: Iterable[Polynomial],
        zero: Iterable[Polynomial] = (),
        nonzero: Iterable[Polynomial] = (),
        thesis: Polynomial | None = None,
        points: Iterable[tuple[int, ...]] = (),
        title: str = "",
    ) -> Problem:
        """The problem with these polynomials of a ring, which are taken as they are."""
        made = cls.__new__(cls)
        made._set("ring", ring)
        made._set("polys", tuple(polys))
        made._set("zero", tuple(zero))
        made._set("nonzero", tuple(nonzero))
        made._set("thesis", thesis)
        made._set("points", tuple(points))
        made._set("title", title)
        return made

    @classmethod
    def read(cls, path: str | os.PathLike[str]) -> Problem:
        """The problem of a file."""
        return cls.parse(pathlib.Path(path).read_bytes())

    @classmethod
    def from_singular(cls, text: str, **options: Any) -> Problem:
        """The problem of a ring and an ideal as Singular takes and prints them; see `cgs.singular.read_singular`."""
        from .singular import read_singular

        return read_singular(text, **options)

    @classmethod
    def from_macaulay2(cls, text: str, **options: Any) -> Problem:
        """The problem of a ring and an ideal as Macaulay2 takes and prints them; see `cgs.macaulay2.read_macaulay2`."""
        from .macaulay2 import read_macaulay2

        return read_macaulay2(text, **options)

    def to_singular(self) -> str:
        """The same for Singular; `from_singular` reads it back."""
        from .singular import singular_text

        return singular_text(self)

    def to_macaulay2(self) -> str:
        """The same for Macaulay2; `from_macaulay2` reads it back."""
        from .macaulay2 import macaulay2_text

        return macaulay2_text(self)

    def __str__(self) -> str:
        """The canonical text, as `cgs check` prints it."""
        ring = self.ring
        lines = [f"field {ring.modulus}", " ".join(["parameters", *ring.parameters]), " ".join(["variables", *ring.variables]), f"order {ring.order}"]
        lines += texts("zero", self.zero) + texts("nonzero", self.nonzero) + texts("poly", self.polys)
        lines += [] if self.thesis is None else [f"thesis {self.thesis}"]
        lines += [" ".join(["point", *map(str, point)]) for point in self.points]
        return "".join(line + "\n" for line in [*lines, "end"])

    def with_points(self, points: Iterable[Any]) -> Problem:
        """The same problem with other points."""
        made = tuple(checked_point(point, self.ring) for point in points)
        return Problem.of(self.ring, self.polys, self.zero, self.nonzero, self.thesis, made, self.title)

    def with_thesis(self) -> Problem:
        """The same problem with its thesis as one more polynomial, the last."""
        if self.thesis is None:
            raise ProblemFault(0, "no-thesis")
        return Problem.of(self.ring, (*self.polys, self.thesis), self.zero, self.nonzero, self.thesis, self.points, self.title)

    def refutation(self) -> Problem:
        """The problem with the variable `_y` above all others and `_y*T-1` as its last polynomial, T being the thesis."""
        if self.thesis is None:
            raise ProblemFault(0, "no-thesis")
        ring, count = self.ring, len(self.ring.parameters)
        above = Ring(ring.modulus, ring.parameters, ("_y", *ring.variables), ring.order)

        def lifted(part: Polynomial, power: int = 0) -> dict[tuple[int, ...], int]:
            return {exponents[:count] + (power,) + exponents[count:]: value for exponents, value in part.coefficients.items()}

        last = lifted(self.thesis, 1)
        last[(0,) * len(above.names)] = -1
        parts = [[above.polynomial(lifted(part)) for part in block] for block in (self.polys, self.zero, self.nonzero)]
        return Problem.of(above, [*parts[0], above.polynomial(last)], parts[1], parts[2], None, self.points, self.title)


def title_of(data: bytes) -> str:
    """The first sentence of the comment that a file begins with, or nothing."""
    lines = []
    for line in data.split(b"\n"):
        if not line.startswith(b"#"):
            break
        lines.append(line.lstrip(b"# ").decode(errors="replace").strip())
    return " ".join(lines).split(". ")[0].rstrip(".")
