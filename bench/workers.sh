#!/bin/sh
# Times `cgs solve` with 1, 2, 4 and 8 workers on three systems of bench/systems.py: branches, milliseconds of one worker for a branch, and
# for each number of workers seconds and the part that they are of one worker's, both the medians of five rounds that try each number in
# turn. It ends with 1 where the bytes differ from those of one worker. Nothing else should run meanwhile.
# Then it tells of one worker what the top call of one worker, by `cgs_bench solve`, takes beside it, and, where valgrind is there, which
# part of all instructions goes by under the lock of the board, which is that of its `claim` and `give`.
# Usage: bench/workers.sh [NAME..], with names of that table
set -eu
here=$(cd "$(dirname "$0")" && pwd)
PYTHONPATH=$here python3 -B - "$here/../crates" "$@" <<'PY'
import os, re, shutil, subprocess, sys, tempfile
from statistics import median
from systems import text
from timed import Run
crates, picked = sys.argv[1], sys.argv[2:] or ["conics", "tetrahedron", "cosines-grlex"]
program, alone = crates + "/cgs/out/cgs", crates + "/cgs_bench/out/cgs_bench"
counts, rounds = [1, 2, 4, 8], 5

def with_workers(count):
    return [program, "solve", "--workers", str(count)]

def timed(commands, name):
    """In each round the runs of these commands, one after another."""
    return [[Run(command[0], command[1:], text(name)) for command in commands] for _ in range(rounds)]

def seconds(runs, at):
    return median(row[at].seconds for row in runs)

def part(runs, at):
    return median(row[at].seconds / row[0].seconds for row in runs)

def branches(name):
    return int(Run(program, ["solve", "--history"], text(name)).output.split("\nhistory ")[1].split()[0]) // 2

def locked(name):
    """The part of all instructions that the board's `claim` and `give` take, in hundredths."""
    with tempfile.TemporaryDirectory() as folder:
        given, counted = folder + "/given", folder + "/counted"
        with open(given, "w") as file:
            file.write(text(name))
        with open(given) as file:
            subprocess.run(["valgrind", "-q", "--tool=callgrind", "--callgrind-out-file=" + counted] + with_workers(4),
                           stdin=file, stdout=subprocess.DEVNULL, check=True)
        told = subprocess.run(["callgrind_annotate", "--inclusive=yes", "--threshold=100", counted],
                              stdout=subprocess.PIPE, check=True).stdout.decode()
    numbers = [int(n.replace(",", "")) for n in re.findall(r"([\d,]+) .*(?:PROGRAM TOTALS|::Board::(?:claim|give)\b)", told)]
    return 100 * sum(numbers[1:]) / numbers[0]

print("%-18s %8s %9s" % ("system", "branches", "each, ms") + "".join("%9d %5s" % (count, "part") for count in counts))
same = True
for name in picked:
    runs, number = timed([with_workers(count) for count in counts], name), branches(name)
    line = "%-18s %8d %9.1f" % (name, number, seconds(runs, 0) / number * 1000)
    line += "".join("%9.3f %5.2f" % (seconds(runs, at), part(runs, at)) for at in range(len(counts)))
    same = same and all(run.output == runs[0][0].output for row in runs for run in row)
    print(line, flush=True)
print("\n%-18s %9s %9s %5s %16s" % ("system", "1 worker", "no thread", "part", "under the lock"))
for name in picked:
    runs = timed([[alone, "solve"], with_workers(1)] if os.path.exists(alone) else [with_workers(1)], name)
    line = "%-18s %9.3f" % (name, seconds(runs, -1))
    line += " %9.3f %5.2f" % (seconds(runs, 0), part(runs, 1)) if os.path.exists(alone) else " %9s %5s" % ("-", "-")
    line += " %14.1f %%" % locked(name) if shutil.which("valgrind") else "   (no valgrind)"
    print(line, flush=True)
if not same:
    sys.exit("bench/workers.sh: other bytes than with one worker")
PY
