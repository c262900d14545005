#!/bin/sh
# Runs each command on a quadratic equation where one allocation of the process finds no memory: the first, the second, and so on, until the
# process makes no more; `stress` on the problem of 0. Each run has to end within 20 seconds, with status 7 and no byte, or with the status and the bytes of a run with ample
# memory. It prints for each command how many allocations there are (with three workers up to the run that first had none refused) and
# how many runs ended with 7, and ends with 1 at a fault.
# Usage: bench/allocations.sh [PROGRAM]
set -eu
here=$(cd "$(dirname "$0")" && pwd)
work=$(mktemp -d)
trap 'rm -rf "$work"' EXIT
gcc -O1 -shared -fPIC -o "$work/refuse.so" "$here/refuse.c"
PYTHONPATH=$here python3 -B - "${1:-$here/../crates/cgs/out/cgs}" "$here/../examples/quadratic.cgs" "$work" <<'PY'
import os, pathlib, sys
from timed import Run
program, given, work = sys.argv[1], pathlib.Path(sys.argv[2]).read_text(), pathlib.Path(sys.argv[3])
located = given.replace("end\n", "point 0 2 1\npoint 0 0 0\nend\n")
thesis = given.replace("end\n", "thesis x\nend\n")
rows = [(["check"], given), (["basis"], given), (["solve", "--workers", "1"], given), (["solve", "--workers", "3"], given),
        (["solve", "--workers", "3", "--history"], given), (["locate"], located), (["locate", "--workers", "3"], located),
        (["discover"], thesis), (["stress", "0"], ""), (["stress", "0", "--workers", "3"], "")]
faults = 0

def list_alone(output):
    """What does not depend on the order in which the workers came."""
    return output.split("history ")[0]

for words, text in rows:
    wanted = Run(program, words, text, most_seconds=20)
    refused, number, is_made = 0, 0, True
    while is_made:
        number += 1
        told = work / "refused"
        told.write_bytes(b"")
        environment = {"LD_PRELOAD": str(work / "refuse.so"), "REFUSED": str(number), "REFUSED_TOLD": str(told)}
        ended = Run(program, words, text, most_seconds=20, environment=environment)
        is_made = told.stat().st_size > 0
        refused += ended.status == 7
        is_usual = (ended.status, list_alone(ended.output)) == (wanted.status, list_alone(wanted.output))
        if not is_usual and (ended.status, ended.output) != (7, ""):
            faults += 1
            print("%s, allocation %d: status %s, %d bytes" % (" ".join(words), number, ended.status, len(ended.output)), flush=True)
    print("%s: %d allocations, %d runs of status 7" % (" ".join(words), number - 1, refused), flush=True)
sys.exit("bench/allocations.sh: %d faults" % faults if faults else 0)
PY
