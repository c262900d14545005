#!/bin/sh
# Times `cgs check` on inputs of up to 1,048,576 bytes: seconds and the greatest resident memory of each run.
# Usage: bench/check.sh [FOLDER]
set -eu
here=$(cd "$(dirname "$0")" && pwd)
program=$here/../crates/cgs/out/cgs
folder=${1:-$(mktemp -d)}
"$here/inputs.sh" "$folder"
printf '%-22s %9s %8s %10s\n' input bytes seconds kilobytes
for input in "$folder"/*; do
    python3 - "$program" "$input" <<'PY'
import os, resource, subprocess, sys, time
program, name = sys.argv[1:]
with open(name, "rb") as text:
    start = time.perf_counter()
    ended = subprocess.run([program, "check"], stdin=text, stdout=subprocess.DEVNULL)
    seconds = time.perf_counter() - start
peak = resource.getrusage(resource.RUSAGE_CHILDREN).ru_maxrss
print("%-22s %9d %8.3f %10d  status %d" % (os.path.basename(name), os.path.getsize(name), seconds, peak, ended.returncode))
PY
done
