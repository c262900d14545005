#!/bin/sh
# Times one worker at a board, by `cgs_bench` (crates/cgs_bench): 10,000 and then 1,000,000 branches claimed and given back, of chains of
# 2,000 branches (a path has a number for each level above it), of a star and of a binary tree. It prints seconds, nanoseconds a branch,
# and the bytes that a branch of the tree takes in the greatest resident memory.
# Usage: bench/board.sh [SCALE], where the greater trees have 1/SCALE as many branches
set -eu
here=$(cd "$(dirname "$0")" && pwd)
PYTHONPATH=$here python3 -B - "$here/../crates/cgs_bench/out/cgs_bench" "$@" <<'PY'
import math, sys
from timed import Run
program = sys.argv[1]
most = 1000000 // (int(sys.argv[2]) if len(sys.argv) > 2 else 1)

def run(width, levels, times):
    done = Run(program, ["tree", str(width), str(levels), str(times)], "", most_seconds=600)
    if done.status != 0:
        sys.exit("bench/board.sh: %s" % done.last_line())
    return done

def trees(branches):
    """Name, width, levels below the root, boards, and branches of one board."""
    levels = int(math.log2(branches))
    return [("chain", 1, 1999, branches // 2000, 2000), ("star", branches - 1, 1, 1, branches), ("binary", 2, levels - 1, 1, 2**levels - 1)]

idle = run(1, 0, 0)
print("%-7s %9s %6s %9s %12s %18s" % ("tree", "branches", "boards", "seconds", "ns a branch", "bytes a branch"))
for branches in (10000, most):
    for name, width, levels, boards, size in trees(branches):
        done = run(width, levels, boards)
        each = (done.seconds - idle.seconds) * 1e9 / (boards * size)
        print("%-7s %9d %6d %9.3f %12.0f %18.0f" % (name, size, boards, done.seconds, each, (done.kilobytes - idle.kilobytes) * 1024 / size), flush=True)
PY
