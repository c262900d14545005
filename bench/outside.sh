#!/bin/sh
# Runs the program where everything outside fails or is short, and on large and deep input. It prints a row for each run, or for each kind of
# runs: what was tried, the status, seconds, the greatest resident kilobytes and whether it is what docs/FORMATS.md says; it ends with 1
# where a row differs. A run that works on is cut after a few seconds: it must have written nothing, and stand within its limit of memory.
# What is interrupted goes through strace; where there is none, those rows are left out.
# Usage: bench/outside.sh [PROGRAM]
set -eu
here=$(cd "$(dirname "$0")" && pwd)
PYTHONPATH=$here python3 -B - "$here" "${1:-$here/../crates/cgs/out/cgs}" <<'PY'
import os, pathlib, resource, shutil, subprocess, sys, tempfile, threading, time
from systems import text
from timed import problem
here, program = pathlib.Path(sys.argv[1]), sys.argv[2]
folder = tempfile.TemporaryDirectory()
quadratic = (here / "../examples/quadratic.cgs").read_bytes()
altitudes = (here / "../examples/altitudes.cgs").read_bytes()
MEBIBYTE = 2**20
differ = 0

class Ended:
    """How a run ended: exit status (None: it was cut), output, seconds and greatest resident kilobytes, of which the interpreter that starts
    it takes some 11,000."""

    def __init__(self, words, given=b"", seconds=60, memory=None, stack=None, before=(), **streams):
        def limit():
            for kind, most in ((resource.RLIMIT_AS, memory), (resource.RLIMIT_STACK, stack)):
                if most:
                    resource.setrlimit(kind, (most, most))

        path = pathlib.Path(folder.name, "given")
        path.write_bytes(given)
        with open(path, "rb") as source, tempfile.TemporaryFile() as printed:
            start, cut = time.perf_counter(), threading.Event()
            child = subprocess.Popen(list(before) + [program] + words, preexec_fn=limit, **{"stdin": source, "stdout": printed, **streams})
            clock = threading.Timer(seconds, lambda: (cut.set(), child.terminate()))
            clock.start()
            _, ended, used = os.wait4(child.pid, 0)
            clock.cancel()
            child.returncode = os.waitstatus_to_exitcode(ended)
            self.seconds, self.kilobytes = time.perf_counter() - start, used.ru_maxrss
            self.status = None if cut.is_set() else child.returncode
            printed.seek(0)
            self.output = printed.read()

def row(what, ended, statuses, output=None):
    """Prints a row: the status has to be one of these, and the output this one where it is told, or none after 5, 7 and a cut."""
    global differ
    wanted = b"" if ended.status in (5, 7, None) else output
    holds = ended.status in statuses and (wanted is None or ended.output == wanted)
    differ += not holds
    status = "cut" if ended.status is None else ended.status
    print("%-62s %4s %7.2f s %9d kB  %s" % (what, status, ended.seconds, ended.kilobytes, "yes" if holds else "NO"), flush=True)

def shell(words, redirected):
    """A run on the quadratic equation that a shell starts with redirected streams."""
    return Ended(words, quadratic, before=["/bin/sh", "-c", 'exec "$0" "$@" ' + redirected])

def gone(words, given, taken):
    """A run whose reader takes so many bytes and is gone."""
    ours, theirs = os.pipe()
    if taken:
        threading.Thread(target=lambda: (os.read(ours, taken), os.close(ours))).start()
    else:
        os.close(ours)
    ended = Ended(words, given, stdout=theirs)
    os.close(theirs)
    return ended

def interrupted(words, call, status):
    """Rows for the runs where the first call on the input or the output is interrupted, the second, and so on, until no call is."""
    ample, number = Ended(words, quadratic), 0
    while True:
        number += 1
        log = pathlib.Path(folder.name, "log")
        stream = pathlib.Path(folder.name, "given" if call == "read" else "taken")
        strace = ["strace", "-f", "-qq", "-o", str(log), "-P", str(stream), "-e", "inject=%s:error=EINTR:when=%d" % (call, number)]
        if call == "read":
            ended = Ended(words, quadratic, before=strace)
        else:
            with open(stream, "wb") as taken:
                ended = Ended(words, quadratic, before=strace, stdout=taken)
            ended.output = stream.read_bytes()
        if "INJECTED" not in log.read_text():
            break
        row("%s: %s %d interrupted" % (" ".join(words), call, number), ended, (status,), b"")
    row("%s: no %s interrupted" % (" ".join(words), call), ended, (ample.status,), ample.output)

def file(header, lines):
    """A problem file of these lines between its header and its end, as many as fit into a mebibyte."""
    kept, size = [header], len(header) + len("end\n")
    for line in lines:
        size += len(line) + 1
        if size > MEBIBYTE:
            break
        kept.append(line + "\n")
    return ("".join(kept) + "end\n").encode()

def header(parameters="a b", variables="x y", order="lex"):
    return "field 32003\nparameters %s\nvariables %s\norder %s\n" % (parameters, variables, order)

def large_texts():
    """The large files: what they are, their text and the commands, and whether `check` has to end by itself."""
    yield "1 MiB of poly lines", file(header(), ("poly x+%d" % i for i in range(MEBIBYTE)))
    names = [[chr(97 + i) * 31 + kind for i in range(8)] for kind in "px"]
    sums = ("poly " + "+".join("%s*%s^%d" % (names[0][i % 8], names[1][(i // 8) % 8], i // 64 % 9 + 1) for i in range(k, k + 16)) for k in range(MEBIBYTE))
    yield "1 MiB of 8 by 8 names", file(header(*map(" ".join, names), "grevlex"), sums)
    singles = "a b c d e f g h y z r s t u v".split()
    products = [""] + ["*" + n for n in singles] + ["*%s*%s" % (m, n) for i, m in enumerate(singles) for n in singles[:i]]
    terms = ["x^%d%s" % (i, product) for product in products[:100] for i in range(1, 1001)]
    yield "a polynomial of 100,000 terms", file(header("a b c d e f g h", "x y z r s t u v"), ["poly " + "+".join(terms)])

for command in ["check", "basis", "solve", "locate", "discover"]:
    row(command + ": standard input closed", shell([command], "<&-"), (5,))
    row(command + ": a folder as standard input", shell([command], "</"), (5,))
    row(command + ": /dev/zero as standard input", shell([command], "</dev/zero"), (4,), b"fault line 0 long\n")
for words in [["check"], ["basis"], ["solve"], ["locate"], ["discover"], ["stress", "1"], []]:
    named = " ".join(words) or "no word"
    row(named + ": standard output full", shell(words, ">/dev/full"), (6,))
    row(named + ": standard output closed", shell(words, ">&-"), (6,))
    row(named + ": the reader gone before", gone(words, quadratic, 0), (6,))
row("stress 1: standard input closed", shell(["stress", "1"], "<&-"), (0,), Ended(["stress", "1"]).output)
if shutil.which("strace"):
    for words in [["check"], ["solve"], ["solve", "--workers", "3"], ["locate"]]:
        interrupted(words, "read", 5)
        interrupted(words, "write", 6)
else:
    print("no strace: nothing is interrupted")

for words in [["check"], ["basis"], ["solve"], ["solve", "--workers", "3"], ["locate"], ["discover"], ["stress", "1"]]:
    ample = Ended(words, altitudes)
    row("%s: 64 MB of memory" % " ".join(words), Ended(words, altitudes, memory=64 * MEBIBYTE), (ample.status,), ample.output)
band = text("linear-band").encode()
alone = Ended(["solve"], band)
row("solve: 1 worker", alone, (0,))
row("solve: 64 workers", Ended(["solve", "--workers", "64"], band), (0,), alone.output)
row("solve: 64 workers, 64 MB of memory", Ended(["solve", "--workers", "64"], band, memory=64 * MEBIBYTE), (0, 7), alone.output)
shared = ["env", "MALLOC_ARENA_MAX=1"]
row("solve: 64 workers, 64 MB of memory, one reserve", Ended(["solve", "--workers", "64"], band, memory=64 * MEBIBYTE, before=shared), (0,), alone.output)
rows = ["+".join("*".join("x%d" % ((i + j) % 8) for j in range(k)) for i in range(8)) for k in range(1, 8)] + ["x0*x1*x2*x3*x4*x5*x6*x7-1"]
endless = problem("", " ".join("x%d" % i for i in range(8)), "lex", rows).encode()
for workers in ["1", "4"]:
    words = ["solve", "--workers", workers, "--budget", "1000000000000", "--depth", "255"]
    row("solve --workers %s: a budget of 10^12, cut after 5 seconds" % workers, Ended(words, endless, 5, 512 * MEBIBYTE), (None, 0, 7))

for what, given in large_texts():
    for command in ["check", "basis", "solve"]:
        for memory in [64, 1024] if command == "solve" else [64]:
            statuses = (0, 7) if command == "check" else (0, 3, 7, None)
            row("%s: %s, %d MB of memory" % (command, what, memory), Ended([command], given, 5, memory * MEBIBYTE), statuses)
many = next(large_texts())[1]
row("check: the reader gone after 10 bytes of a large text", gone(["check"], many, 10), (6,))

def staircase(steps):
    """A problem on whose tree a path has one number more than there are steps, in the branch where each power of the parameter vanishes."""
    return file(header("a", "x"), ("poly a^%d*x^%d" % (steps - i, i + 1) for i in range(steps)))

words = ["solve", "--depth", "255", "--workers"]
ample = Ended(words + ["1"], staircase(128))
row("solve: a tree of depth 129, 1 worker", ample, (0,))
row("solve: a tree of depth 129, 3 workers, a stack of 256 kB", Ended(words + ["3"], staircase(128), stack=MEBIBYTE // 4), (0,), ample.output)
for what, lines, statuses in [
    ("a thesis of degree 32766", ["poly x", "thesis x^32766"], (0,)),
    ("a thesis of degree 32766 that is refused", ["poly a*x", "thesis x^32766"], (3,)),
    ("a thesis of degree 32766 and a slow list", ["poly a*x-1", "thesis x^32766"], (0, 3, 7, None)),
    ("a thesis of degree 32767", ["poly a*x", "thesis x^32767"], (4,)),
]:
    row("discover: " + what, Ended(["discover"], file(header("a", "x"), lines), 10, 64 * MEBIBYTE), statuses)
row("solve: a tree of depth 255, a stack of 256 kB", Ended(words + ["1"], staircase(254), 600, stack=MEBIBYTE // 4), (0,))
print("%d rows differ" % differ)
sys.exit(1 if differ else 0)
PY
