#!/bin/sh
# Times `cgs solve` on each problem in examples/ and on systems of two to seven parameters modulo 32003: seconds, the greatest
# resident memory, and the numbers of segments and refused entries. A run is stopped after 60 seconds. Names pick some.
# Usage: bench/solve.sh [NAME..]
set -eu
here=$(cd "$(dirname "$0")" && pwd)
PYTHONPATH=$here python3 -B - "$here" "$@" <<'PY'
import pathlib, sys
from systems import systems
from timed import Run, problem
here, picked = pathlib.Path(sys.argv[1]), sys.argv[2:]
program = str(here / "../crates/cgs/out/cgs")

texts = [(path.stem, path.read_text()) for path in sorted((here / "../examples").glob("*.cgs"))]
texts += [(name, problem(parameters, variables, order, rows)) for name, parameters, variables, order, rows in systems]

print("%-21s %9s %10s  %s" % ("problem", "seconds", "kilobytes", "end"))
for name, text in texts:
    if picked and name not in picked:
        continue
    run = Run(program, ["solve"], text)
    print("%-21s %9.3f %10d  %s" % (name, run.seconds, run.kilobytes, run.last_line()), flush=True)
PY
