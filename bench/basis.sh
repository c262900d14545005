#!/bin/sh
# Times `cgs basis` on known systems modulo 32003 in the three orders: seconds and the greatest resident memory of each run,
# which is stopped after 60 seconds. With --units it also finds the least budget that is enough, by up to eighty more runs.
# Names of systems pick some.
# Usage: bench/basis.sh [--units] [NAME..]
set -eu
here=$(cd "$(dirname "$0")" && pwd)
PYTHONPATH=$here python3 -B - "$here/../crates/cgs/out/cgs" "$@" <<'PY'
import itertools, sys
from timed import Run, problem
program, words = sys.argv[1], sys.argv[2:]
units_wanted = "--units" in words
picked = [word for word in words if word != "--units"]
MODULUS = 32003
GREATEST_BUDGET = 1000000000000

def names(count):
    return ["x%d" % i for i in range(count)]

def katsura(n):
    """n+1 unknowns: the convolution of the symmetric sequence with itself, and its sum."""
    u = lambda i: "x%d" % abs(i)
    rows = ["x0" + "".join("+2*" + u(i) for i in range(1, n + 1)) + "-1"]
    for m in range(n):
        inside = [i for i in range(-n, n + 1) if abs(m - i) <= n]
        rows.append("+".join("%s*%s" % (u(i), u(m - i)) for i in inside) + "-" + u(m))
    return names(n + 1), rows

def cyclic(n):
    """The sums of the products of k neighbours in a ring of n roots are 0, and the product of all is 1."""
    rows = ["+".join("*".join("x%d" % ((i + j) % n) for j in range(k)) for i in range(n)) for k in range(1, n)]
    return names(n), rows + ["*".join(names(n)) + "-1"]

def noonburg(n):
    """A neural network: each unknown times the sum of the squares of the others, less 11/10 of it, plus 1."""
    share = 11 * pow(10, -1, MODULUS) % MODULUS
    rows = ["+".join("x%d*x%d^2" % (i, j) for j in range(n) if j != i) + "-%d*x%d+1" % (share, i) for i in range(n)]
    return names(n), rows

def two_circles():
    return ["x", "y"], ["x^2+y^2-1", "x^2-2*a*x+a^2+y^2-r"]

def sparse(count, unknowns):
    """Polynomials of three terms of degree at most 4 that vanish where each unknown is 1, by a congruential generator."""
    state = 1
    def draw(below):
        nonlocal state
        state = (1664525 * state + 1013904223) % 2**32
        return state // 65536 % below
    def monomial():
        return "*".join(["1"] + ["x%d" % draw(unknowns) for _ in range(draw(5))])
    rows = []
    for _ in range(count):
        c, d = 1 + draw(100), 1 + draw(100)
        rows.append("%d*%s+%d*%s-%d*%s" % (c, monomial(), d, monomial(), c + d, monomial()))
    return names(unknowns), rows

systems = [("katsura4", "", katsura(4)), ("katsura5", "", katsura(5)), ("cyclic4", "", cyclic(4)), ("cyclic5", "", cyclic(5)),
           ("noonburg3", "", noonburg(3)), ("two-circles", "a r", two_circles()), ("sparse40", "", sparse(40, 6))]

def run(text, budget):
    return Run(program, ["basis", "--budget", str(budget)], text)

def least_budget(text):
    """The least budget with which the run ends as with the greatest, between powers of two and then by halving."""
    above = 1
    while run(text, above).status == 3:
        above *= 2
    below = above // 2
    while above - below > 1:
        middle = (above + below) // 2
        if run(text, middle).status == 3:
            below = middle
        else:
            above = middle
    return above

print("%-12s %-8s %9s %10s %14s  %s" % ("system", "order", "seconds", "kilobytes", "units", "end"))
for (name, parameters, (variables, rows)), order in itertools.product(systems, ["lex", "grlex", "grevlex"]):
    if picked and name not in picked:
        continue
    text = problem(parameters, " ".join(variables), order, rows)
    whole = run(text, GREATEST_BUDGET)
    units = str(least_budget(text)) if units_wanted and whole.status == 0 else "-"
    print("%-12s %-8s %9.3f %10d %14s  %s" % (name, order, whole.seconds, whole.kilobytes, units, whole.last_line()), flush=True)
PY
