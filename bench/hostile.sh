#!/bin/sh
# Times the commands on small texts that ask much of long lists: many conditions, many polynomials of which none divides another, and
# branches with many children. It prints for each the seconds of a processor, the greatest resident megabytes and the last line.
# - conditions: 65,000 conditions a + k that must not be 0, by a budget of 1.
# - powers: a^(i+1)*x^(n-i)*y^i for i from 0 to 400, so that each branch has some 400 children of long lists.
# - sums: (a + i)*x^i*y^(n-i) for i from 0 to 160.
# - parameters: 4,000 polynomials a + k, by a budget of 1.
# - monomials: x^i*y^(n-i) for i from 0 to 1600, without a parameter.
# Usage: [CGS=PROGRAM] bench/hostile.sh [NAME]..
set -eu
here=$(cd "$(dirname "$0")" && pwd)
PYTHONPATH=$here python3 -B - "${CGS:-$here/../crates/cgs/out/cgs}" "$@" <<'PY'
import sys
from timed import Run
program, names = sys.argv[1], sys.argv[2:]

def text(variables, lines):
    return "\n".join(["field 65521", "parameters a", "variables " + variables, "order lex", *lines, "end", ""])

def homogeneous(n, line):
    return text("x y", ["poly " + line % {"i": i, "j": n - i, "k": i + 1} for i in range(n + 1)])

rows = {
    "conditions": (["solve", "--budget", "1"], text("x", ["nonzero a+%d" % k for k in range(1, 65001)] + ["poly a"])),
    "powers": (["solve"], homogeneous(400, "a^%(k)d*x^%(j)d*y^%(i)d")),
    "sums": (["solve"], homogeneous(160, "a*x^%(i)d*y^%(j)d+%(i)d*x^%(i)d*y^%(j)d")),
    "parameters": (["basis", "--budget", "1"], text("x", ["poly a+%d" % k for k in range(1, 4001)])),
    "monomials": (["solve"], homogeneous(1600, "x^%(i)d*y^%(j)d")),
}
for name, (words, given) in rows.items():
    if not names or name in names:
        ended = Run(program, words, given)
        print("%s: %.2f s, %d megabytes: %s" % (name, ended.processor_seconds, ended.kilobytes // 1024, ended.last_line()), flush=True)
PY
