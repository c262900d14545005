"""Lists over the rationals, read off lists modulo several primes. Computed, not proved: no bound says which primes behave as the rationals do."""

from __future__ import annotations

import math
from collections.abc import Callable, Iterable, Sequence
from dataclasses import dataclass
from fractions import Fraction
from typing import Any

from .errors import CgsError, FieldFault, ProblemFault
from .expressions import number_in_field
from .lines import path_text
from .problem import Names, Problem
from .ring import MODULI, Exponents, Polynomial, Ring
from .run import solve
from .system import Entry, Path, Segment, Standard, System

PRIMES = (65521, 32003)
Solver = Callable[[Problem], System]


def joined(residues: Sequence[int], primes: Sequence[int]) -> tuple[int, int]:
    """The number from 0 to the product of the primes that has these residues, and that product (Chinese remainders)."""
    value, product = 0, 1
    for residue, prime in zip(residues, primes):
        value += product * ((residue - value) * pow(product, -1, prime) % prime)
        product *= prime
    return value, product


def fraction(value: int, product: int) -> Fraction | None:
    """The fraction n/d that is `value` modulo `product` with |n| and d at most sqrt(product/2), or None. There is never more than one.

    Two such fractions n/d and m/e would have n*e - m*d divisible by the product and at most as great in size; see Wang, Guy and Davenport (1982).
    """
    bound = math.isqrt((product - 1) // 2)
    above, below = (product, 0), (value % product, 1)
    while below[0] > bound:
        quotient = above[0] // below[0]
        above, below = below, (above[0] - quotient * below[0], above[1] - quotient * below[1])
    numerator, denominator = below
    if denominator < 0:
        numerator, denominator = -numerator, -denominator
    if not 0 < denominator <= bound or math.gcd(numerator, denominator) != 1:
        return None
    return Fraction(numerator, denominator)


@dataclass(frozen=True)
class RationalPolynomial:
    """A polynomial with rational coefficients, its terms from the greatest to the least."""

    names: tuple[str, ...]
    terms: tuple[tuple[Fraction, Exponents], ...]

    @property
    def poly(self) -> Any:
        """The same as a SymPy `Poly` over QQ."""
        import sympy

        coefficients = {exponents: sympy.Rational(value.numerator, value.denominator) for value, exponents in self.terms}
        return sympy.Poly.from_dict(coefficients, *map(sympy.Symbol, self.names), domain="QQ")

    @property
    def expr(self) -> Any:
        """The same as a SymPy expression."""
        return self.poly.as_expr()

    def _sympy_(self) -> Any:
        return self.expr

    def __str__(self) -> str:
        text = "".join(self._term_text(*term) for term in self.terms) or "+0"
        return text.removeprefix("+")

    def _term_text(self, value: Fraction, exponents: Exponents) -> str:
        factors = [name if exponent == 1 else f"{name}^{exponent}" for name, exponent in zip(self.names, exponents) if exponent]
        if abs(value) != 1 or not factors:
            factors.insert(0, str(abs(value)))
        return ("-" if value < 0 else "+") + "*".join(factors)


@dataclass(frozen=True)
class RationalSegment:
    """A segment whose polynomials were read back with rational coefficients; see `Segment` for what it tells."""

    path: Path
    zero: tuple[RationalPolynomial, ...]
    nonzero: tuple[RationalPolynomial, ...]
    basis: tuple[RationalPolynomial, ...]
    solvable: bool
    finite: bool
    standard: Standard

    @property
    def name(self) -> str:
        """The path as the program prints it."""
        return path_text(self.path)

    def __str__(self) -> str:
        lines = [f"segment {self.name}"]
        for word, block in (("zero", self.zero), ("nonzero", self.nonzero), ("basis", self.basis)):
            lines += [f"{word} {polynomial}" for polynomial in block]
        lines += [f"solvable {'yes' if self.solvable else 'no'}", f"finite {'yes' if self.finite else 'no'}", f"standard {self.standard}"]
        return "".join(line + "\n" for line in lines)


@dataclass(frozen=True)
class NotLifted:
    """An entry that was not lifted, and why."""

    path: Path
    reason: str

    @property
    def name(self) -> str:
        """The path as the program prints it."""
        return path_text(self.path)

    def __str__(self) -> str:
        return f"not lifted {self.name}: {self.reason}\n"


@dataclass(frozen=True)
class RationalSystem:
    """What a list seems to be over the rationals: computed, not proved.

    `primes` are those whose lists were joined, `check` the one against which the result was checked. `is_whole` tells whether all lists have the
    same paths and every entry was lifted; where it is False, the segments need not cover all points.
    """

    segments: tuple[RationalSegment, ...]
    not_lifted: tuple[NotLifted, ...]
    primes: tuple[int, ...]
    check: int

    @property
    def is_whole(self) -> bool:
        """Whether nothing was left out."""
        return not self.not_lifted

    def __getitem__(self, name: str) -> RationalSegment:
        """The segment at a path that is written as the program does; KeyError where none was lifted."""
        for segment in self.segments:
            if segment.name == name:
                return segment
        raise KeyError(name)

    def __str__(self) -> str:
        text = "".join(map(str, self.segments)) + "".join(map(str, self.not_lifted))
        primes = " ".join(map(str, self.primes))
        return text + f"lifted {len(self.segments)} of {len(self.segments) + len(self.not_lifted)}, primes {primes}, checked by {self.check}\n"


class Unlike(CgsError):
    """Why an entry is not lifted."""


def lifted_polynomial(parts: Sequence[Polynomial], check: Polynomial) -> RationalPolynomial:
    """The polynomial over the rationals whose residues are `parts`, checked against one prime more; Unlike where there is none."""
    ring = parts[0].ring
    primes = [part.ring.modulus for part in parts]
    tables = [part.coefficients for part in parts]
    if len({part.lead if part else None for part in (*parts, check)}) != 1:
        raise Unlike("its polynomials have other leads modulo another prime")
    terms = []
    for exponents in sorted({exponents for table in tables for exponents in table}, key=ring.key, reverse=True):
        value = fraction(*joined([table.get(exponents, 0) for table in tables], primes))
        if value is None:
            raise Unlike("a coefficient is no fraction within the bound: more primes may help")
        terms.append((value, exponents))
    try:
        residues = {exponents: number_in_field(value, check.ring.modulus) for value, exponents in terms}
    except FieldFault:
        raise Unlike(f"a denominator vanishes modulo {check.ring.modulus}, by which it is checked") from None
    if {exponents: value for exponents, value in residues.items() if value} != check.coefficients:
        raise Unlike(f"its coefficients are others modulo {check.ring.modulus}, by which it is checked")
    return RationalPolynomial(ring.names, tuple(terms))


def lifted_block(blocks: Sequence[tuple[Polynomial, ...]]) -> tuple[RationalPolynomial, ...]:
    """A list of conditions, or a basis, over the rationals; the last block is the one to check against."""
    if len({len(block) for block in blocks}) != 1:
        raise Unlike("it has another number of polynomials modulo another prime")
    return tuple(lifted_polynomial(parts[:-1], parts[-1]) for parts in zip(*blocks))


def lifted_segment(entries: Sequence[Entry | None]) -> RationalSegment:
    """The segment of entries with one path, the last of which is the one to check against; Unlike where there is none."""
    segments = [entry for entry in entries if isinstance(entry, Segment)]
    if None in entries:
        raise Unlike("the list modulo another prime has no entry there")
    if len(segments) < len(entries):
        raise Unlike("it is refused modulo one of the primes")
    first = segments[0]
    if len({(each.solvable, each.finite, each.standard, each.untested) for each in segments}) != 1:
        raise Unlike("its verdicts are others modulo another prime")
    if first.untested:
        raise Unlike("it is untested")
    blocks = [lifted_block([getattr(each, word) for each in segments]) for word in ("zero", "nonzero", "basis")]
    return RationalSegment(first.path, blocks[0], blocks[1], blocks[2], first.solvable, first.finite, first.standard)


def joined_systems(systems: Sequence[System]) -> RationalSystem:
    """One list over the rationals of lists modulo several primes, the last of which is the one to check against."""
    tables: list[dict[Path, Entry]] = [{entry.path: entry for entry in system} for system in systems]
    segments, left = [], []
    for path in sorted({path for table in tables for path in table}):
        try:
            segments.append(lifted_segment([table.get(path) for table in tables]))
        except Unlike as why:
            left.append(NotLifted(path, str(why)))
    moduli = [system.ring.modulus for system in systems]
    return RationalSystem(tuple(segments), tuple(left), tuple(moduli[:-1]), moduli[-1])


def solve_rational(
    polys: Sequence[Any],
    *,
    variables: Names,
    parameters: Names = (),
    order: str = "lex",
    zero: Sequence[Any] = (),
    nonzero: Sequence[Any] = (),
    primes: Iterable[int] = PRIMES,
    check: int | None = None,
    workers: int = 1,
    budget: int | None = None,
    depth: int | None = None,
    solver: Solver | None = None,
) -> RationalSystem:
    """The list over the rationals, as far as lists modulo `primes` and modulo the prime `check` agree. Computed, not proved.

    The polynomials are given over the rationals, as for `Problem`. `check` is the greatest modulus that is none of the primes, unless it is given.
    `solver` takes the place of the program, for lists that are there already.
    """
    chosen = tuple(primes)
    tested = next(prime for prime in reversed(MODULI) if prime not in chosen) if check is None else check
    if not chosen or len(set(chosen)) < len(chosen) or tested in chosen:
        raise ProblemFault(None, "field", "the primes are to be different from each other, and the one to check by is to be none of them")

    def ask(problem: Problem) -> System:
        return solve(problem, workers=workers, budget=budget, depth=depth, keep_refused=True)

    rest: dict[str, Any] = {"variables": variables, "parameters": parameters, "order": order, "zero": zero, "nonzero": nonzero}
    problems = [Problem(polys, field=prime, **rest) for prime in (*chosen, tested)]
    return joined_systems([(solver or ask)(problem) for problem in problems])


def reading(value: int, modulus: int, most: int = 2000) -> Fraction:
    """How a residue is best read: as an integer near 0, as a simple fraction, or else as the integer of least size.

    Each is the residue modulo the modulus; which one was meant nobody can tell.
    """
    nearest = value if value <= modulus // 2 else value - modulus
    found = fraction(value, modulus)
    if abs(nearest) * 20 > modulus and found is not None and abs(found.numerator) * found.denominator <= min(most, modulus // 4):
        return found
    return Fraction(nearest)


def read_polynomial(part: Polynomial) -> RationalPolynomial:
    """A polynomial with each coefficient as `reading` reads it."""
    ring: Ring = part.ring
    return RationalPolynomial(ring.names, tuple((reading(value, ring.modulus), exponents) for value, exponents in part.terms))
