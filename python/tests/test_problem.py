"""Problems from strings and SymPy expressions, and to Singular and back; no program is needed."""

import pathlib

import pytest
import sympy
from cgs import FieldFault, Problem, ProblemFault
from cgs.macaulay2 import read_macaulay2
from cgs.run import fault
from cgs.singular import read_singular

TOP = pathlib.Path(__file__).resolve().parents[2]
EXAMPLES = sorted((TOP / "examples").glob("**/*.cgs"))


def test_from_strings_and_expressions():
    a, b, x, y = sympy.symbols("a b x y")
    one = Problem(["(a*x - b)^2", "y - x/2 + 1"], variables="x y", parameters="a b", field=7)
    other = Problem([(a * x - b) ** 2, sympy.Eq(y + 1, x / 2)], variables=[x, y], parameters=[a, b], field=7)
    assert one == other
    assert str(one) == "field 7\nparameters a b\nvariables x y\norder lex\npoly a^2*x^2+5*a*b*x+b^2\npoly 3*x+y+1\nend\n"


def test_order_of_terms():
    made = Problem(["y^3+x^2*y+x*y^2*a+x"], variables="x y", parameters="a", order="grevlex", field=101)
    assert str(made.polys[0]) == "x^2*y+a*x*y^2+y^3+x"


@pytest.mark.parametrize(
    "polys, options, kind",
    [
        (["z"], {}, "unknown"),
        ([sympy.Symbol("z")], {}, "unknown"),
        (["x/2"], {"field": 2}, "fraction"),
        ([sympy.Rational(1, 3)], {"field": 3}, "fraction"),
        (["1/x"], {}, "expression"),
        (["x/0"], {}, "expression"),
        (["x^40000"], {}, "exponent"),
        (["x^32767*a"], {}, "degree"),
        (["__import__('os')"], {}, "expression"),
        (["x+"], {}, "expression"),
        (["(x"], {}, "expression"),
        ([""], {}, "expression"),
        ([0.5], {}, "expression"),
        ([sympy.sin(sympy.Symbol("x"))], {}, "expression"),
        ([sympy.sqrt(2)], {}, "expression"),
        (["x"], {"zero": ["x"]}, "variable"),
        (["x"], {"field": 4}, "field"),
        (["x"], {"order": "lexical"}, "order"),
        (["x"], {"parameters": "a a"}, "name"),
        (["x"], {"parameters": "a 2"}, "name"),
        (["x"], {"variables": ""}, "count"),
        (["x"], {"points": [(1, 2)]}, "count"),
        (["x"], {"points": [("a",)]}, "syntax"),
        (["x"], {"points": [("1/0",)]}, "syntax"),
        (["(x+a+1)^9999"], {}, "expression"),
        (["((9^32767)^32767)^32767*x"], {}, "expression"),
        (["(" * 5000 + "x" + ")" * 5000], {}, "expression"),
        (["x"], {"thesis": "x^32767"}, "degree"),
    ],
)
def test_fault(polys, options, kind):
    with pytest.raises(ProblemFault) as caught:
        Problem(polys, **{"variables": "x", "parameters": "a", **options})
    assert (caught.value.line, caught.value.kind) == (None, kind)


def test_fraction_without_place():
    with pytest.raises(FieldFault, match="1/6 has no place in the field of 3 elements, since 3 divides 6"):
        Problem(["x + 1/6"], variables="x", field=3)


def test_points():
    made = Problem(["a*x-b"], variables="x", parameters="a b", points=[(1, -1), {"b": "1/2", "a": 3}, (sympy.Rational(1, 2), 0)])
    assert made.points == ((1, 32002), (3, 16002), (16002, 0))
    assert made.with_points([]).points == ()


@pytest.mark.parametrize("file", EXAMPLES, ids=lambda file: file.stem)
def test_sympy_keeps_the_polynomials(file):
    problem = Problem.read(file)
    ring = problem.ring
    again = Problem(
        [part.expr for part in problem.polys],
        variables=ring.variables,
        parameters=ring.parameters,
        field=ring.modulus,
        order=ring.order,
        zero=[part.expr for part in problem.zero],
        nonzero=[part.expr for part in problem.nonzero],
        thesis=problem.thesis,
        points=problem.points,
    )
    assert again == problem


@pytest.mark.parametrize("file", EXAMPLES, ids=lambda file: file.stem)
def test_singular_and_back(file):
    problem = Problem.read(file)
    assert Problem.from_singular(problem.to_singular()) == problem


LONG = """// coefficients: ZZ/32003(a, b)
// number of vars : 2
//        block   1 : ordering lp
//                  : names    x y
//        block   2 : ordering C
I[1]=(a)*x^2*y+3*y-1
I[2]=(a+1)*x^2+(b)*x*y
I[3]=x+(16001*b)
"""


def test_as_singular_prints():
    wanted = Problem(["a*x^2*y+3*y-1", "(a+1)*x^2+b*x*y", "x-b/2"], variables="x y", parameters="a b")
    assert read_singular(LONG) == wanted
    short = LONG.replace("x^2*y", "x2y").replace("x^2", "x2").replace("x*y", "xy").replace("16001*b", "16001b")
    assert read_singular(short) == wanted


def test_singular_rings():
    assert read_singular("ring s = 0,(x1,y,a),(dp(2),dp(1));\nideal J = x1^2*y-1/2*a,\n  -3;", field=7) == Problem(
        ["x1^2*y-a/2", "-3"], variables="x1 y", parameters="a", field=7, order="grevlex"
    )
    assert read_singular("ring r = 7,(x,y,a),Dp; ideal J = xa; ideal K = y;", parameters="a", ideal="K") == Problem(
        ["y"], variables="x y", parameters="a", field=7, order="grlex"
    )


@pytest.mark.parametrize(
    "ring, ideals",
    [("", "ideal I=x;"), ("0,x,lp", "ideal I=x;"), ("7,x,ds", "ideal I=x;"), ("7,x,lp", ""), ("7,x,lp", "ideal I=x; ideal J=x;")],
)
def test_no_singular_problem(ring, ideals):
    with pytest.raises(ProblemFault):
        read_singular(f"ring r = {ring};\n{ideals}")


@pytest.mark.parametrize("file", EXAMPLES, ids=lambda file: file.stem)
def test_macaulay2_and_back(file):
    problem = Problem.read(file)
    assert Problem.from_macaulay2(problem.to_macaulay2()) == problem


ANSWERED = """
i1 : R = ZZ/32003[a,b][x,y, MonomialOrder=>Lex]

i2 : I = ideal(a*x^12*y+3*y-1, (a+1)*x^2+b*y*x, x-b)

               12                    2
o2 = ideal (a*x  y + 3y - 1, (a + 1)x  + b*x*y, x - b)

o2 : Ideal of R
"""


def test_as_macaulay2_prints():
    wanted = Problem(["a*x^12*y+3*y-1", "(a+1)*x^2+b*x*y", "x-b"], variables="x y", parameters="a b")
    assert read_macaulay2(ANSWERED) == wanted
    described = "((ZZ/32003)[a..b])[x..y, Degrees => {2:1}, MonomialOrder => VerticalList{MonomialSize => 32, Lex => 2, Position => Up}]\n"
    assert read_macaulay2(described + "ideal(a*x^12*y+3*y-1,(a+1)*x^2+b*x*y,x-b)") == wanted
    external = "ideal map(R^1,R^{{-3, -1}, {-2, -1}, {-1, -1}},{{a*x^12*y+3*y-1, (a+1)*x^2+b*x*y, x-b}})"
    assert read_macaulay2(described + external) == wanted


def test_macaulay2_rings():
    made = read_macaulay2("S = QQ[x,y,a]\nI = ideal x\nJ = ideal(y/2,3_S)", parameters="a", field=7, ideal="J")
    assert made == Problem(["y/2", "3"], variables="x y", parameters="a", field=7, order="grevlex")
    with pytest.raises(ProblemFault, match="no names with _"):
        Problem(["x_1"], variables="x_1").to_macaulay2()
    with pytest.raises(ProblemFault, match="toString"):
        read_macaulay2("QQ[x]\n            1  2\no16 = ideal(-x  - 3)\n            2\n", field=7)


def test_fault_lines():
    assert (fault("fault line 5 unknown\n").line, fault("fault words value\n").kind) == (5, "value")
