#!/bin/sh
# Times sums, products and divisions of polynomials in two variables modulo 32003, by `cgs_bench` (crates/cgs_bench).
# It prints nanoseconds of a processor for each term of the two summands, for each pair of terms of the two factors, and for each unit of
# a division, which has a divisor of ten terms and runs again until the units are spent. The multiples of the divisor land
# near their leads, or far below them. Where FLINT is installed (Debian's libflint-dev), each call of it that does the same
# (flint.c) is timed in the same run, and the ratio to it is printed.
set -eu
here=$(cd "$(dirname "$0")" && pwd)
work=$(mktemp -d)
trap 'rm -rf "$work"' EXIT
gcc -O2 -o "$work/flint" "$here/flint.c" -lflint 2>/dev/null || echo "FLINT's column is left out: flint.c does not compile (libflint-dev)"
python3 - "$here/../crates/cgs_bench/out/cgs_bench" "$work/flint" <<'PY'
import os, subprocess, sys
program, flint = sys.argv[1:]
ROUNDS = 25

def seconds(operation, terms, times):
    """Seconds of a processor that a run takes."""
    child = os.posix_spawn(program, [program, operation, str(terms), str(times)], os.environ)
    _, ended, used = os.wait4(child, 0)
    if ended:
        sys.exit("bench/arithmetic.sh: %s %d ended with %d" % (operation, terms, os.waitstatus_to_exitcode(ended)))
    return used.ru_utime + used.ru_stime

def by_flint(operation, terms, times):
    """The name and the nanoseconds of each call of FLINT that does the operation."""
    if not os.path.exists(flint):
        return []
    lines = subprocess.run([flint, operation, str(terms), str(times)], stdout=subprocess.PIPE, text=True).stdout.splitlines()
    return [(name, float(found)) for name, found in map(str.split, lines)]

def print_row(operation, terms, times, parts):
    """The least of all rounds, less the least of as many runs that do nothing with the polynomials, and the least of FLINT's, by turns."""
    idle, least, others = [], [], {}
    for _ in range(ROUNDS):
        idle.append(seconds(operation, terms, 0))
        least.append(seconds(operation, terms, times))
        for name, found in by_flint(operation, terms, times):
            others[name] = min(found, others.get(name, found))
    own = (min(least) - min(idle)) / times / parts * 1e9
    ratios = "".join("  %s %.1f (%.2f)" % (name, other, own / other) for name, other in others.items())
    print("%-10s %8d %12.1f%s" % (operation, terms, own, ratios), flush=True)

print("%-10s %8s %12s  %s" % ("operation", "terms", "nanoseconds", "FLINT (ratio)" if os.path.exists(flint) else ""))
rows = [("add", 10, 300000), ("add", 1000, 10000), ("add", 100000, 50), ("product", 1000, 3)]
for operation, terms, times in rows:
    parts = 2 * terms if operation == "add" else terms * terms
    print_row(operation, terms, times, parts)
for operation in ["divide", "divide_far"]:
    for terms in [10, 1000, 30000, 300000]:
        print_row(operation, terms, 1000000, 1)
PY
