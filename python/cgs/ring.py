"""Rings over a prime field in two blocks of names, and their polynomials exactly as the program prints them."""

from __future__ import annotations

import re
from collections.abc import Iterable, Mapping
from dataclasses import dataclass
from functools import cached_property
from typing import Any

from .errors import TextFault

MODULI = (2, 3, 5, 7, 11, 13, 101, 251, 257, 1009, 10007, 32003, 65521)
ORDERS = ("lex", "grlex", "grevlex")

Exponents = tuple[int, ...]
Term = tuple[int, Exponents]

FACTOR = re.compile(r"([A-Za-z_][A-Za-z0-9_]*)(?:\^([1-9][0-9]*))?")


def block_key(order: str, exponents: Exponents) -> tuple[int, ...]:
    """A key by which monomials in one block of names are compared: greater keys belong to greater monomials."""
    if order == "lex":
        return exponents
    if order == "grlex":
        return (sum(exponents), *exponents)
    return (sum(exponents), *(-exponent for exponent in reversed(exponents)))


@dataclass(frozen=True)
class Ring:
    """The polynomials in parameters and variables over the field of `modulus` elements, with a kind of order for each of the two blocks."""

    modulus: int
    parameters: tuple[str, ...]
    variables: tuple[str, ...]
    order: str = "lex"

    @cached_property
    def names(self) -> tuple[str, ...]:
        """The parameters, then the variables: the places of the exponents."""
        return self.parameters + self.variables

    @cached_property
    def places(self) -> dict[str, int]:
        """The place of each name."""
        return {name: place for place, name in enumerate(self.names)}

    def key(self, exponents: Exponents) -> tuple[tuple[int, ...], tuple[int, ...]]:
        """A key by which monomials are compared: the variables decide, then the parameters."""
        count = len(self.parameters)
        return block_key(self.order, exponents[count:]), block_key(self.order, exponents[:count])

    def polynomial(self, coefficients: Mapping[Exponents, int]) -> Polynomial:
        """The canonical polynomial with these coefficients, which are reduced by the modulus."""
        reduced = {exponents: value % self.modulus for exponents, value in coefficients.items()}
        ordered = sorted((exponents for exponents, value in reduced.items() if value), key=self.key, reverse=True)
        return Polynomial(self, tuple((reduced[exponents], exponents) for exponents in ordered))

    def parse(self, text: str) -> Polynomial:
        """The polynomial that the program printed as `text`; TextFault where it cannot have printed that."""
        terms = () if text == "0" else tuple(self._term(piece, text) for piece in text.split("+"))
        found = Polynomial(self, terms)
        if str(found) != text:
            raise TextFault(f"no printed polynomial: {text}")
        return found

    def _term(self, piece: str, text: str) -> Term:
        """The coefficient and the exponents of one printed term."""
        exponents = [0] * len(self.names)
        coefficient = 1
        for place, factor in enumerate(piece.split("*")):
            named = FACTOR.fullmatch(factor)
            if named and named[1] in self.places:
                exponents[self.places[named[1]]] += int(named[2] or 1)
            elif place == 0 and re.fullmatch(r"[1-9][0-9]{0,5}", factor) and int(factor) < self.modulus:
                coefficient = int(factor)
            else:
                raise TextFault(f"{factor!r} is no factor of a polynomial in {' '.join(self.names)}: {text}")
        return coefficient, tuple(exponents)

    @cached_property
    def symbols(self) -> tuple[Any, ...]:
        """A SymPy symbol for each name."""
        import sympy

        return tuple(sympy.Symbol(name) for name in self.names)

    @cached_property
    def domain(self) -> Any:
        """The field as a domain of SymPy, with the elements 0 to modulus - 1."""
        import sympy

        return sympy.GF(self.modulus, symmetric=False)


@dataclass(frozen=True)
class Polynomial:
    """A polynomial over a prime field: its terms from the greatest to the least, each with a coefficient from 1 to modulus - 1."""

    ring: Ring
    terms: tuple[Term, ...]

    def __str__(self) -> str:
        """The text that the program prints."""
        return "+".join(self._term_text(*term) for term in self.terms) or "0"

    def _term_text(self, coefficient: int, exponents: Exponents) -> str:
        factors = [name if exponent == 1 else f"{name}^{exponent}" for name, exponent in zip(self.ring.names, exponents) if exponent]
        if coefficient != 1 or not factors:
            factors.insert(0, str(coefficient))
        return "*".join(factors)

    def __bool__(self) -> bool:
        """Whether it is not 0."""
        return bool(self.terms)

    @property
    def is_one(self) -> bool:
        """Whether it is the polynomial 1."""
        return len(self.terms) == 1 and self.terms[0][0] == 1 and not any(self.terms[0][1])

    @property
    def lead(self) -> Exponents:
        """The exponents of the greatest monomial, of parameters and variables. The polynomial 0 has none, which raises ValueError."""
        if not self.terms:
            raise ValueError("the polynomial 0 has no lead")
        return self.terms[0][1]

    @property
    def coefficients(self) -> dict[Exponents, int]:
        """The coefficient of each monomial."""
        return {exponents: coefficient for coefficient, exponents in self.terms}

    def value(self, numbers: Mapping[str, int]) -> int:
        """Its value, 0 to modulus - 1, at a number for each name that it has."""
        modulus, total = self.ring.modulus, 0
        for coefficient, exponents in self.terms:
            for name, exponent in zip(self.ring.names, exponents):
                if exponent:
                    coefficient = coefficient * pow(numbers[name], exponent, modulus) % modulus
            total += coefficient
        return total % modulus

    @cached_property
    def poly(self) -> Any:
        """The same as a SymPy `Poly` over the field, with all names of the ring as its generators."""
        import sympy

        return sympy.Poly.from_dict(self.coefficients, *self.ring.symbols, domain=self.ring.domain)

    @property
    def expr(self) -> Any:
        """The same as a SymPy expression with the coefficients 0 to modulus - 1."""
        return self.poly.as_expr()

    def _sympy_(self) -> Any:
        return self.expr


def texts(word: str, polynomials: Iterable[Polynomial]) -> list[str]:
    """A line for each polynomial, which begins with a word."""
    return [f"{word} {polynomial}" for polynomial in polynomials]
