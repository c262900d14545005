"""Systems of two to seven parameters modulo 32003, which solve.sh and workers.sh time."""
from timed import problem

systems = [
    # linkages
    ("four-bar-free", "a b c", "x y u v", "lex", ["x^2+y^2-a", "u^2-2*u+1+v^2-b", "x^2-2*x*u+u^2+y^2-2*y*v+v^2-c"]),
    ("four-bar-grevlex", "a b c", "x y u v", "grevlex", ["x^2+y^2-a", "u^2-2*u+1+v^2-b", "x^2-2*x*u+u^2+y^2-2*y*v+v^2-c"]),
    ("direction", "r a b", "c s", "lex", ["c^2+s^2-1", "r*c-a", "r*s-b"]),
    # squared distances: the determinants of Cayley and Menger
    ("distances-plane", "d e f", "x y", "lex", ["x^2+y^2-d", "x^2-2*x+1+y^2-e", "x^2+y^2-2*y+1-f"]),
    ("distances-free", "p q d e f", "x y", "lex", ["x^2+y^2-d", "x^2-2*x+1+y^2-e", "x^2-2*p*x+p^2+y^2-2*q*y+q^2-f"]),
    ("distances-space", "a b c d", "x y z", "grevlex",
     ["x^2+y^2+z^2-a", "x^2-2*x+1+y^2+z^2-b", "x^2+y^2-2*y+1+z^2-c", "x^2+y^2+z^2-2*z+1-d"]),
    # after Weispfenning
    ("weispfenning", "u v", "x y", "lex", ["v*x*y+u*x^2+x", "u*y^2+x^2"]),
    # a flat tetrahedron by its squared edges, and the cosines between four directions in space, in two orders
    ("tetrahedron", "a b c d e f", "t u v w z", "lex",
     ["u+v+w+z", "t+a*v+b*w+c*z", "t+a*u+d*w+e*z", "t+b*u+d*v+f*z", "t+c*u+e*v+f*w"]),
    ("cosines", "a b c d e f", "x y z w", "grevlex", ["x+a*y+b*z+c*w", "a*x+y+d*z+e*w", "b*x+d*y+z+f*w", "c*x+e*y+f*z+w"]),
    ("cosines-grlex", "a b c d e f", "x y z w", "grlex", ["x+a*y+b*z+c*w", "a*x+y+d*z+e*w", "b*x+d*y+z+f*w", "c*x+e*y+f*z+w"]),
    # linear systems
    ("linear-two-rows", "a b c d e f", "x y", "lex", ["a*x+b*y-e", "c*x+d*y-f"]),
    ("linear-diagonal", "a b c d e", "x y z", "lex", ["a*x+y+z-d", "x+b*y+z-e", "x+y+c*z-1"]),
    ("linear-band", "a b c d", "x y z", "lex", ["a*x+b*y+c*z-1", "b*x+a*y+d*z", "c*x+d*y+a*z"]),
    ("linear-symmetric", "a b c d e", "x y z", "lex", ["a*x+b*y+c*z-1", "b*x+a*y+d*z-e", "c*x+d*y+a*z"]),
    # double roots, and common roots
    ("cubic-free", "a b c d", "x", "lex", ["a*x^3+b*x^2+c*x+d", "3*a*x^2+2*b*x+c"]),
    ("quartic", "a b c", "x", "lex", ["x^4+a*x^2+b*x+c", "4*x^3+2*a*x+b"]),
    ("two-quadratics", "a b c d", "x", "lex", ["a*x^2+b*x+c", "x^2+d*x+1"]),
    # curves
    ("singular-cubic-curve", "a b", "x y", "lex", ["y^2-x^3-a*x-b", "3*x^2+a", "2*y"]),
    ("conic-and-parabola", "a b c d e f", "x y", "grevlex", ["a*x^2+b*x*y+c*y-1", "d*x^2+e*y+f"]),
    # an ellipse or hyperbola in its axes, and any other conic
    ("conics", "a b c d e f s", "x y", "grevlex", ["x^2+s*y^2-1", "a*x^2+b*x*y+c*y^2+d*x+e*y+f"]),
    ("conic-and-line", "a b c d", "x y", "lex", ["a*x^2+b*y^2-1", "c*x+d*y-1"]),
    # steady states of three species, of which each limits itself and meets another (Lotka, Volterra)
    ("lotka-volterra", "a b c d e f", "x y z", "grevlex", ["x-a*x^2-b*x*y", "y-c*x*y-d*y^2", "z-e*x*z-f*z^2"]),
    # five products that vanish, as multipliers and slacks do, beside a system in space
    ("complementarity", "a b c d e", "p q r s t u v w", "grevlex",
     ["a*p", "b*q", "c*r", "d*s", "e*t", "u^5+v^5+w^5-1", "u^4*v+v^4*w+w^4*u-2", "u^3*v^2+v^3*w^2+w^3*u^2-3"]),
]


def text(name):
    """The problem file of a system."""
    return next(problem(*given[1:]) for given in systems if given[0] == name)
