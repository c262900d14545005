"""Fractions from residues, and lists over the rationals."""

from fractions import Fraction

import cgs
import pytest
from cgs.rational import fraction, joined, joined_systems, reading, solve_rational
from conftest import needs_program
from hypothesis import given
from hypothesis import strategies as st

PRIMES = [65521, 32003]


@given(st.integers(-32000, 32000), st.integers(1, 32000))
def test_fraction_is_read_back(numerator, denominator):
    value = Fraction(numerator, denominator)
    residues = [value.numerator * pow(value.denominator, -1, prime) % prime for prime in PRIMES]
    assert fraction(*joined(residues, PRIMES)) == value


@given(st.integers(0, 65521 * 32003 - 1))
def test_fraction_is_within_the_bound(value):
    product = 65521 * 32003
    found = fraction(value, product)
    if found is not None:
        assert 2 * max(abs(found.numerator), found.denominator) ** 2 <= product
        assert (found.numerator - value * found.denominator) % product == 0


@pytest.mark.parametrize("value, wanted", [(24009, "27/4"), (24891, "-2/9"), (16002, "1/2"), (31999, "-4"), (10667, "-2/3"), (1, "1")])
def test_reading(value, wanted):
    assert reading(value, 32003) == Fraction(wanted)


@given(st.integers(0, 32002))
def test_reading_is_the_residue(value):
    found = reading(value, 32003)
    assert (found.numerator - value * found.denominator) % 32003 == 0


def lifted(polys, **options):
    found = solve_rational(polys, **options)
    assert found.is_whole
    assert found.check == 10007
    return found


@needs_program
def test_quadratic():
    found = lifted(["a*x^2+b*x+c"], variables="x", parameters="a b c")
    assert str(found["0"]) == "segment 0\nnonzero a\nbasis a*x^2+b*x+c\nsolvable yes\nfinite yes\nstandard 2\n"
    assert [segment.name for segment in found.segments] == ["0", "1.1", "1.2.0", "1.2.3"]


@needs_program
def test_cubic():
    found = lifted(["x^3+a*x+b", "3*x^2+a"], variables="x", parameters="a b")
    assert list(map(str, found["1"].zero)) == ["a^3+27/4*b^2"]
    assert list(map(str, found["1"].basis)) == ["b*x-2/9*a^2"]
    assert list(map(str, found["2.3.2"].basis)) == ["x^2"]


@needs_program
def test_quartic():
    """x^4 + a*x + b has a double root where its discriminant 256*b^3 - 27*a^4 is 0."""
    found = lifted(["x^4+a*x+b", "4*x^3+a"], variables="x", parameters="a b")
    assert list(map(str, found["0"].nonzero)) == ["a^4-256/27*b^3"]
    assert found["0"].solvable is False


@needs_program
def test_heron():
    found = lifted(
        ["x^2+y^2-b^2", "x^2-2*a*x+a^2+y^2-c^2", "s-2*a*y"], variables="x y s", parameters="a b c", nonzero=["a"]
    )
    assert str(found["0"].basis[0]) == "s^2+a^4-2*a^2*b^2-2*a^2*c^2+b^4-2*b^2*c^2+c^4"
    assert list(map(str, found["2.1"].basis)) == ["s^2+a^4-4*a^2*c^2", "a*y-1/2*s", "a*x-1/2*a^2"]


@needs_program
def test_two_circles():
    found = lifted(["x^2+y^2-1", "x^2-2*a*x+a^2+y^2-r"], variables="x y", parameters="a r")
    assert list(map(str, found["2.1"].basis)) == ["a*y^2+1/4*a^3-a", "a*x-1/2*a^2"]


@needs_program
def test_not_to_be_lifted():
    """Modulo 3 the derivative of a cubic is a number, so the list has another shape."""
    found = solve_rational(["x^3+a*x+b", "3*x^2+a"], variables="x", parameters="a b", primes=(3, 65521))
    assert not found.is_whole
    assert found.segments == ()
    assert {entry.name for entry in found.not_lifted} >= {"0", "1", "2.3.2"}


def list_of(prime, number):
    """A list modulo a prime with one segment, in whose basis a number stands."""
    ring = cgs.Ring(prime, ("a",), ("x",))
    member = ring.polynomial({(0, 1): 1, (0, 0): number})
    return cgs.System(ring, (cgs.Segment((), (), (), (member,), True, True, 1),))


def test_check_prime_refuses():
    found = joined_systems([list_of(prime, 5) for prime in PRIMES] + [list_of(10007, 6)])
    assert "its coefficients are others modulo 10007" in str(found)
    assert joined_systems([list_of(prime, 5) for prime in [*PRIMES, 10007]]).is_whole


def test_no_fraction_within_the_bound():
    found = joined_systems([list_of(65521, 1), list_of(32003, 12345), list_of(10007, 1)])
    assert not found.is_whole


def test_primes_differ():
    with pytest.raises(cgs.ProblemFault):
        solve_rational(["x"], variables="x", primes=(7, 7))
    with pytest.raises(cgs.FieldFault):
        solve_rational(["x/7"], variables="x", primes=(7,), check=32003)
