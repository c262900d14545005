"""Conditions as products of simpler ones, by SymPy. Computed, not proved."""

from __future__ import annotations

from dataclasses import dataclass
from fractions import Fraction
from functools import lru_cache

from .rational import RationalPolynomial, read_polynomial
from .ring import Polynomial

MOST_TERMS = 60


@dataclass(frozen=True)
class Factored:
    """A number that is not 0, and factors with their powers, whose product is a polynomial."""

    unit: Fraction
    factors: tuple[tuple[RationalPolynomial, int], ...]


@lru_cache(maxsize=4096)
def factored(part: Polynomial) -> Factored:
    """The factors of a polynomial over the rationals, after its coefficients were read as simple fractions.

    Their product is the polynomial modulo the modulus. SymPy factors no polynomial in several names over a prime field, so they may have factors
    there. A polynomial with more than MOST_TERMS terms is left as it is.
    """
    import sympy

    given = read_polynomial(part)
    if not given.terms or len(given.terms) > MOST_TERMS:
        return Factored(Fraction(1), ((given, 1),))
    unit, found = sympy.factor_list(given.poly)
    factors = tuple((ordered(factor, part), int(power)) for factor, power in found)
    return Factored(Fraction(int(unit.p), int(unit.q)), factors)


def ordered(factor: object, part: Polynomial) -> RationalPolynomial:
    """A factor of SymPy with its terms in the order of the ring."""
    table = {tuple(exponents): Fraction(int(value.p), int(value.q)) for exponents, value in factor.terms()}  # type: ignore[attr-defined]
    names = part.ring.names
    return RationalPolynomial(names, tuple((table[exponents], exponents) for exponents in sorted(table, key=part.ring.key, reverse=True)))
