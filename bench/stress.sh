#!/bin/sh
# Runs `cgs solve` many times and compares bytes; a run of more than 20 seconds is taken for one that hangs. It ends with 1 at a fault.
# - With 1 to 16 workers in turn, a thousand times on a small problem and on a large one: the bytes and the status of one worker.
# - With 4 workers on the small problem, where the n-th allocation is refused, for each n up to 2,000: no byte and status 7, or the bytes
#   and the status of a run with ample memory.
# Usage: bench/stress.sh [TIMES [ALLOCATIONS]]
set -eu
here=$(cd "$(dirname "$0")" && pwd)
work=$(mktemp -d)
trap 'rm -rf "$work"' EXIT
gcc -O1 -shared -fPIC -o "$work/refuse.so" "$here/refuse.c"
PYTHONPATH=$here python3 -B - "$here/../crates/cgs/out/cgs" "$here/../examples/quadratic.cgs" "$work/refuse.so" "$@" <<'PY'
import pathlib, sys
from systems import text
from timed import Run
program, small, library = sys.argv[1], pathlib.Path(sys.argv[2]).read_text(), sys.argv[3]
times, allocations = (int(word) for word in (sys.argv[4:] + ["1000", "2000"][len(sys.argv) - 4:]))
faults = 0

def run(count, given, **environment):
    return Run(program, ["solve", "--workers", str(count)], given, most_seconds=20, environment=environment)

def fault(what, ended):
    global faults
    faults += 1
    print("%s: status %s, %d bytes" % (what, ended.status, len(ended.output)), flush=True)

for name, given in [("small", small), ("large", text("linear-band"))]:
    wanted = run(1, given)
    for i in range(times):
        count = i % 16 + 1
        ended = run(count, given)
        if (ended.status, ended.output) != (wanted.status, wanted.output):
            fault("%s, %d workers, run %d" % (name, count, i), ended)
    print("%s: %d runs with 1 to 16 workers" % (name, times), flush=True)

wanted, refusals = run(1, small), 0
for n in range(1, allocations + 1):
    ended = run(4, small, LD_PRELOAD=library, REFUSED=str(n))
    refusals += ended.status == 7
    if (ended.status, ended.output) not in [(7, ""), (wanted.status, wanted.output)]:
        fault("allocation %d refused" % n, ended)
print("%d allocations refused, one a run: %d of status 7" % (allocations, refusals), flush=True)
sys.exit("bench/stress.sh: %d faults" % faults if faults else 0)
PY
