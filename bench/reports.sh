#!/bin/sh
# Times what `cgs solve` reports of monomial ideals with many standard monomials, and `cgs locate` at many points: seconds, of them
# those of a processor in the program, the greatest resident memory, and the `standard` line or the last line. A run is stopped
# after 60 seconds.
# Usage: bench/reports.sh
set -eu
here=$(cd "$(dirname "$0")" && pwd)
PYTHONPATH=$here python3 -B - "$here/../crates/cgs/out/cgs" <<'PY'
import sys
from timed import Run, problem
program = sys.argv[1]


def axes(names, degree):
    """Powers of the variables and all products of two: the monomials along the axes are standard."""
    products = ["%s*%s" % (x, y) for i, x in enumerate(names) for y in names[i + 1:]]
    return products + ["%s^%d" % (x, degree) for x in names]


def box(names, sides):
    """Powers of the variables: the monomials below them are standard."""
    return ["%s^%d" % (x, side) for x, side in zip(names, sides)]


def staircase(steps):
    """The monomials under a staircase of so many steps."""
    return ["x^%d*y^%d" % (i, steps - i) for i in range(steps + 1)]


def monomials_apart(count):
    """Variables, each with a parameter of its own before it: a segment for each choice of the parameters that vanish."""
    rows = ["a%d*x%d" % (i, i) for i in range(1, count + 1)]
    return problem(*(" ".join("%s%d" % (name, i) for i in range(1, count + 1)) for name in "ax"), "lex", rows)


three = ["x", "y", "z"]
eight = ["x%d" % i for i in range(1, 9)]
systems = [
    ("axes_3", three, axes(three, 16000)),
    ("axes_8", eight, axes(eight, 16000)),
    ("box_a_million", ["x", "y"], box(["x", "y"], [1000, 1000])),
    ("box_above_a_million", ["x", "y"], box(["x", "y"], [101, 9901])),
    ("box_far_above", three, box(three, [10000, 10000, 10000])),
    ("box_8", eight, box(eight, [5] * 8)),
    ("box_8_below_a_million", eight, box(eight, [3, 3, 3, 7, 11, 13, 37, 1])),
    ("staircase", ["x", "y"], staircase(100)),
]
quadratic = problem("a b c", "x", "lex", ["a*x^2+b*x+c"])
segments = monomials_apart(7)


def with_points(text, points):
    return text.replace("end\n", "".join("point %s\n" % point for point in points) + "end\n")


def row(name, run, said):
    print("%-21s %9.3f %9.3f %10d  %s" % (name, run.seconds, run.processor_seconds, run.kilobytes, said), flush=True)


def last_row(name, words, text):
    run = Run(program, words, text)
    row(name, run, run.last_line())


print("%-21s %9s %9s %10s  %s" % ("problem", "seconds", "processor", "kilobytes", "said"))
for name, variables, rows in systems:
    run = Run(program, ["solve"], problem("", " ".join(variables), "lex", rows))
    lines = [line for line in run.output.splitlines() if line.startswith("standard ")]
    row(name, run, lines[0] if lines else run.last_line())
last_row("locate_20000_in_4", ["locate"], with_points(quadratic, ("%d %d %d" % (i % 7, i % 5, i % 3) for i in range(20000))))
choices = (" ".join(str(i >> j & 1) for j in range(7)) for i in range(10000))
last_row("locate_10000_in_128", ["locate"], with_points(segments, choices))
PY
