"""Texts and parsers, with inputs made by chance."""

import string

import sympy
from cgs import Problem, Ring, Segment, System, TextFault
from cgs.expressions import rational
from cgs.ring import MODULI, ORDERS
from cgs.system import Refused
from hypothesis import given
from hypothesis import strategies as st

WORDS = st.sampled_from(["field", "end", "poly", "zero", "x", "y1", "a", "b", "lambda", "I", "E", "S", "pi", "x_2"])
NAMES = st.one_of(WORDS, st.from_regex(r"[A-Za-z][A-Za-z0-9_]{0,5}", fullmatch=True))
LETTERS = st.sampled_from(string.ascii_letters)


@st.composite
def rings(draw, names=NAMES, moduli=MODULI):
    found = draw(st.lists(names, min_size=1, max_size=5, unique=True))
    count = draw(st.integers(0, len(found) - 1))
    return Ring(draw(st.sampled_from(moduli)), tuple(found[:count]), tuple(found[count:]), draw(st.sampled_from(ORDERS)))


@st.composite
def polynomials(draw, ring, has_variables=True):
    count = len(ring.names) if has_variables else len(ring.parameters)
    exponents = st.tuples(*[st.integers(0, 12)] * count).map(lambda found: found + (0,) * (len(ring.names) - count))
    return ring.polynomial(draw(st.dictionaries(exponents, st.integers(-70000, 70000), max_size=6)))


@st.composite
def problems(draw, names=NAMES):
    ring = draw(rings(names))
    many, conditions = st.lists(polynomials(ring), max_size=3), st.lists(polynomials(ring, False), max_size=2)
    points = st.lists(st.tuples(*[st.integers(0, ring.modulus - 1)] * len(ring.parameters)), max_size=2)
    return Problem.of(ring, draw(many), draw(conditions), draw(conditions), draw(st.none() | polynomials(ring)), draw(points))


@st.composite
def systems(draw):
    ring = draw(rings())
    conditions = st.lists(polynomials(ring, False), max_size=2).map(tuple)
    path, flag = st.lists(st.integers(0, 300), max_size=4).map(tuple), st.booleans()
    basis, standard = st.lists(polynomials(ring), max_size=2).map(tuple), st.integers(0, 10**6) | st.sampled_from(["many", "none"])
    segment = st.builds(Segment, path, conditions, conditions, basis, flag, flag, standard, flag)
    refused = st.builds(Refused, path, st.sampled_from(["budget", "degree", "depth"]), conditions, conditions)
    return System(ring, tuple(draw(st.lists(segment | refused, max_size=4))))


@given(st.data())
def test_polynomial(data):
    ring = data.draw(rings())
    part = data.draw(polynomials(ring))
    assert ring.parse(str(part)) == part
    assert ring.polynomial(part.coefficients) == part


@given(problems())
def test_problem(problem):
    assert Problem.parse(str(problem)) == problem
    assert Problem.from_singular(problem.to_singular()) == problem
    if not any("_" in name for name in problem.ring.names):
        assert Problem.from_macaulay2(problem.to_macaulay2()) == problem


@given(problems(LETTERS))
def test_problem_with_letters(problem):
    assert Problem.from_singular(problem.to_singular()) == problem


@given(systems())
def test_system(system):
    assert System.parse(str(system), system.ring) == system


@given(systems(), st.data())
def test_system_with_a_byte_less(system, data):
    """A text that lacks a byte is another list, or none."""
    text = str(system)
    place = data.draw(st.integers(0, len(text) - 1))
    try:
        found = System.parse(text[:place] + text[place + 1 :], system.ring)
    except TextFault:
        return
    assert str(found) == text[:place] + text[place + 1 :]


@given(st.text(alphabet="xya0123456789+-*/^() ", max_size=30))
def test_expression_of_any_text(text):
    """Any text is a polynomial or a fault of the problem, and nothing else."""
    try:
        rational(text, ("x", "y", "a"))
    except Exception as fault:
        assert type(fault).__name__ == "ProblemFault"


SUMS = st.recursive(
    st.sampled_from(["x", "y", "a", "1", "2", "7/3"]),
    lambda inner: st.tuples(inner, st.sampled_from(["+", "-", "*"]), inner).map(lambda found: f"({''.join(found)})")
    | st.tuples(inner, st.integers(0, 3)).map(lambda found: f"({found[0]})^{found[1]}"),
    max_leaves=8,
)


@given(SUMS)
def test_expression_is_that_of_sympy(text):
    names = ("x", "y", "a")
    symbols = dict(zip(names, sympy.symbols("x y a")))
    wanted = sympy.parse_expr(text.replace("^", "**").replace("7/3", "Rational(7,3)"), {**symbols, "Rational": sympy.Rational})
    assert rational(text, names) == rational(wanted, names)
