"""From expressions to polynomials over a field: strings are read by a parser of their own, never evaluated; SymPy adds and multiplies."""

from __future__ import annotations

import re
from collections.abc import Mapping
from fractions import Fraction
from math import comb
from typing import Any, Literal

from .errors import FieldFault, ProblemFault
from .ring import Exponents, Polynomial, Ring

Rational = dict[Exponents, Fraction]
TOKEN = re.compile(r"\s*(?:(?P<name>[A-Za-z_][A-Za-z0-9_]*)|(?P<number>[0-9]+)|(?P<sign>\*\*|[-+*/^()]))")
SHORT_TOKEN = re.compile(r"\s*(?:(?P<name>[A-Za-z])|(?P<number>[0-9]+)|(?P<sign>\*\*|[-+*/^()]))")
MOST_EXPONENT = 32767
MOST_TERMS = 100_000
MOST_BITS = 100_000


def wrong(said: str, kind: str = "expression") -> ProblemFault:
    """The fault of an expression."""
    return ProblemFault(None, kind, said)


class Expression:
    """A parser of sums, products, quotients by numbers, powers and brackets.

    In the form `implied` factors may stand side by side: `2x y` is 2*x*y. In the form `short`, that of Singular, names also have one letter, and a
    number after a name is its exponent: `2x2y` is 2*x^2*y.
    """

    def __init__(self, text: str, names: tuple[str, ...], form: Literal["plain", "implied", "short"] = "plain") -> None:
        from sympy import QQ
        from sympy.polys.orderings import lex
        from sympy.polys.rings import PolyRing

        self._ring = PolyRing(names, QQ, lex)
        self._gens = dict(zip(names, self._ring.gens))
        self._text, self._is_short, self._is_implied = text, form == "short", form != "plain"
        self._tokens = self._cut(text)

    def _cut(self, text: str) -> list[tuple[str, str]]:
        """The tokens with their kinds."""
        pattern, found, place, end = SHORT_TOKEN if self._is_short else TOKEN, [], 0, len(text.rstrip())
        while place < end:
            token = pattern.match(text, place)
            if token is None or token.lastgroup is None:
                raise wrong(f"{text[place:].strip()[:20]!r} cannot stand in a polynomial: {text[:200]}")
            found.append((token.lastgroup, token[token.lastgroup]))
            place = token.end()
        return found[::-1]

    def _next(self) -> tuple[str, str]:
        return self._tokens[-1] if self._tokens else ("end", "")

    def _take(self, *signs: str) -> str:
        """The next token if it is one of the signs, else nothing."""
        kind, text = self._next()
        if kind == "sign" and text in signs:
            self._tokens.pop()
            return text
        return ""

    def read(self) -> Rational:
        """The coefficients of the whole text."""
        total = self._sum()
        if self._tokens:
            raise wrong(f"{self._next()[1]!r} cannot stand there: {self._text[:200]}")
        return {tuple(exponents): Fraction(int(value.numerator), int(value.denominator)) for exponents, value in total.items()}

    def _sum(self) -> Any:
        total = -self._product() if self._take("-") else self._plus_product()
        while sign := self._take("+", "-"):
            term = self._product()
            total = total + term if sign == "+" else total - term
            if len(total) > MOST_TERMS:
                raise wrong(f"more than {MOST_TERMS} terms")
        return total

    def _plus_product(self) -> Any:
        self._take("+")
        return self._product()

    def _product(self) -> Any:
        total = self._power()
        while True:
            if self._take("*"):
                total = total * self._power()
            elif self._take("/"):
                total = self._quotient(total, self._power())
            elif self._is_implied and (self._next()[0] in ("name", "number") or self._next() == ("sign", "(")):
                total = total * self._power()
            else:
                return total

    def _quotient(self, total: Any, divisor: Any) -> Any:
        if not divisor or not divisor.is_ground:
            raise wrong(f"a quotient by what is no number, or by 0: {self._text[:200]}")
        return total.quo_ground(divisor.LC)

    def _power(self) -> Any:
        base, is_name = self._atom()
        if self._take("^", "**"):
            return self._raised(base, self._exponent())
        if self._is_short and is_name and self._next()[0] == "number":
            return self._raised(base, self._exponent())
        return base

    def _exponent(self) -> int:
        kind, text = self._next()
        if kind != "number" or len(text) > 5 or int(text) > MOST_EXPONENT:
            raise wrong(f"an exponent is a number up to {MOST_EXPONENT}: {self._text[:200]}", "exponent" if kind == "number" else "expression")
        self._tokens.pop()
        return int(text)

    def _raised(self, base: Any, exponent: int) -> Any:
        if len(base) > 1 and comb(exponent + len(base) - 1, exponent) > MOST_TERMS:
            raise wrong(f"a power with more than {MOST_TERMS} terms: {self._text[:200]}")
        longest = max((max(int(value.numerator).bit_length(), int(value.denominator).bit_length()) for value in base.values()), default=0)
        if longest > 1 and longest * exponent > MOST_BITS:
            raise wrong(f"a number with more than {MOST_BITS} bits: {self._text[:200]}")
        return base**exponent if exponent else self._ring.one

    def _atom(self) -> tuple[Any, bool]:
        """A name, a number or a bracket, and whether it is a name."""
        kind, text = self._next()
        if self._take("("):
            inner = self._sum()
            if not self._take(")"):
                raise wrong(f"a bracket is not closed: {self._text[:200]}")
            return inner, False
        if self._take("-"):
            return -self._power(), False
        if kind == "number":
            self._tokens.pop()
            return self._ring(int(text)), False
        if kind != "name":
            raise wrong(f"something is missing before {text!r}: {self._text[:200]}" if text else f"it ends too early: {self._text[:200]}")
        self._tokens.pop()
        if text not in self._gens:
            raise wrong(f"{text} is neither a parameter nor a variable", "unknown")
        return self._gens[text], True


def from_sympy(expression: Any, names: tuple[str, ...]) -> Rational:
    """The coefficients of a SymPy expression, or of a number, in symbols with these names."""
    import sympy

    expression = sympy.sympify(expression, strict=True)
    if isinstance(expression, sympy.Equality):
        expression = expression.lhs - expression.rhs
    if isinstance(expression, sympy.Poly):
        expression = expression.as_expr()
    by_name = {str(symbol): symbol for symbol in expression.free_symbols}
    for name in sorted(by_name):
        if name not in names:
            raise wrong(f"{name} is neither a parameter nor a variable", "unknown")
    if expression.atoms(sympy.Float):
        raise wrong(f"a decimal is no exact number; write sympy.Rational(1, 2) for 0.5: {str(expression)[:200]}")
    symbols = [by_name.get(name, sympy.Symbol(name)) for name in names]
    try:
        found = sympy.Poly(expression, *symbols, domain="QQ")
    except (sympy.PolynomialError, sympy.CoercionFailed, ValueError, TypeError):
        raise wrong(f"no polynomial with rational coefficients: {str(expression)[:200]}") from None
    return {tuple(exponents): Fraction(int(value.p), int(value.q)) for exponents, value in found.terms() if value}


def rational(given: Any, names: tuple[str, ...]) -> Rational:
    """The coefficients of a polynomial over the rationals: of a string, a SymPy expression, an equation or a number."""
    if isinstance(given, str):
        try:
            return Expression(given, names).read()
        except RecursionError:
            raise wrong("its brackets are nested too deeply") from None
    return from_sympy(given, names)


def number_in_field(value: Fraction, modulus: int) -> int:
    """A fraction as an element of the field, 0 to modulus - 1; FieldFault where the modulus divides its denominator."""
    if value.denominator % modulus == 0:
        raise FieldFault(f"{value} has no place in the field of {modulus} elements, since {modulus} divides {value.denominator}")
    return value.numerator * pow(value.denominator, -1, modulus) % modulus


def in_field(coefficients: Mapping[Exponents, Fraction], ring: Ring) -> Polynomial:
    """The polynomial over the field of a ring."""
    return ring.polynomial({exponents: number_in_field(value, ring.modulus) for exponents, value in coefficients.items()})


def polynomial(given: Any, ring: Ring) -> Polynomial:
    """The polynomial of a ring that is given as a string, a SymPy expression, a number, or as such a polynomial itself."""
    if isinstance(given, Polynomial) and given.ring == ring:
        return given
    if isinstance(given, Polynomial):
        given = str(given)
    return in_field(rational(given, ring.names), ring)
