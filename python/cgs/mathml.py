"""Polynomials in MathML. A long sum is a row of small formulas, so that a page can break it between its terms."""

from __future__ import annotations

from collections.abc import Iterable
from fractions import Fraction
from html import escape

from .factors import Factored
from .rational import RationalPolynomial
from .ring import Exponents

SHORT_TERMS = 6
MINUS = "\N{MINUS SIGN}"
OPEN, CLOSED = '<mo stretchy="false" form="prefix">(</mo>', '<mo stretchy="false" form="postfix">)</mo>'
THIN = '<mspace width="0.12em"></mspace>'


def math(inside: str) -> str:
    """A formula."""
    return f"<math>{inside}</math>"


def name(text: str) -> str:
    """A name; the digits at its end are its index, as in x1."""
    stem = text.rstrip("0123456789")
    if stem and stem != text:
        return f"<msub><mi>{escape(stem)}</mi><mn>{text[len(stem) :]}</mn></msub>"
    return f"<mi>{escape(text)}</mi>"


def power(base: str, exponent: int) -> str:
    """A base, which is one formula, with its exponent."""
    return base if exponent == 1 else f"<msup>{base}<mn>{exponent}</mn></msup>"


def size(value: Fraction) -> str:
    """A fraction that is not negative."""
    if value.denominator == 1:
        return f"<mn>{value.numerator}</mn>"
    return f'<mfrac displaystyle="false"><mn>{value.numerator}</mn><mn>{value.denominator}</mn></mfrac>'


def monomial(names: tuple[str, ...], exponents: Exponents) -> str:
    """A product of powers."""
    return THIN.join(power(name(each), exponent) for each, exponent in zip(names, exponents) if exponent)


def term(names: tuple[str, ...], value: Fraction, exponents: Exponents, is_first: bool) -> str:
    """A term with its sign."""
    sign = MINUS if value < 0 else "+"
    leading = (f'<mo form="prefix">{sign}</mo>' if value < 0 else "") if is_first else f'<mo form="infix">{sign}</mo>'
    number = size(abs(value)) if abs(value) != 1 or not any(exponents) else ""
    return leading + number + (THIN if number and any(exponents) else "") + monomial(names, exponents)


def terms(polynomial: RationalPolynomial) -> list[str]:
    """The terms of a polynomial with their signs."""
    found = [term(polynomial.names, value, exponents, place == 0) for place, (value, exponents) in enumerate(polynomial.terms)]
    return found or ["<mn>0</mn>"]


def wrapped(parts: Iterable[str], after: str = "") -> str:
    """Parts of a formula, and what stands after them; a few are one formula, many are a row of formulas."""
    found = list(parts)
    if len(found) <= SHORT_TERMS:
        return math("<mrow>" + "".join(found) + after + "</mrow>")
    found[-1] += after
    return " ".join(math(f"<mrow>{part}</mrow>") for part in found)


def sum_of(polynomial: RationalPolynomial) -> str:
    """A polynomial."""
    return wrapped(terms(polynomial))


def equation(polynomial: RationalPolynomial) -> str:
    """That a polynomial is 0."""
    return wrapped(terms(polynomial), '<mo form="infix">=</mo><mn>0</mn>')


def factor(polynomial: RationalPolynomial, exponent: int) -> list[str]:
    """A factor with its power: a name, or a bracket, which is cut between its terms where it is long."""
    inside = terms(polynomial)
    if len(polynomial.terms) == 1 and polynomial.terms[0][0] == 1 and sum(polynomial.terms[0][1]) == 1:
        return [power(inside[0], exponent)]
    inside[0] = OPEN + inside[0]
    inside[-1] += power(CLOSED, exponent)
    return inside if len(inside) > SHORT_TERMS else [f"<mrow>{''.join(inside)}</mrow>"]


def relation(found: Factored, sign: str) -> str:
    """That a product of factors is 0, or is not: `sign` stands between it and 0. The number before the factors is left out."""
    after = f'<mo form="infix">{sign}</mo><mn>0</mn>'
    if not found.factors:
        return math(f"<mrow>{size(abs(found.unit))}{after}</mrow>")
    if len(found.factors) == 1 and found.factors[0][1] == 1:
        return wrapped(terms(found.factors[0][0]), after)
    parts = [part for polynomial, exponent in found.factors for part in factor(polynomial, exponent)]
    parts[-1] += after
    if sum(len(polynomial.terms) for polynomial, _ in found.factors) <= SHORT_TERMS + 1:
        return math("<mrow>" + THIN.join(parts) + "</mrow>")
    return " ".join(math(f"<mrow>{part}</mrow>") for part in parts)
