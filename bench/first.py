"""Tries how the script `cgs` builds the program, with a stand-in for the toolchain that sleeps and touches files in place of proving. It
copies the script and crates.txt into a folder with small sources, and prints a line for each thing that it looks at: the order of the
crates, how many at a time, what is told, interruption, failure, a source that changed, no toolchain. It ends with 1 where one differs.
Usage: python3 bench/first.py
"""
import os, pathlib, re, shutil, signal, subprocess, sys, tempfile, time

TOP = pathlib.Path(__file__).resolve().parent.parent
# the crates that the program does not stand on
ASIDE = {"cgs_bench", "cgs_rows", "cgs_meeting"}
STAND_IN = '''#!/usr/bin/env python3
import concurrent.futures, os, pathlib, re, subprocess, sys, tempfile, threading, time
crates = pathlib.Path("..")
below = {line.split(":")[0]: line.split(":")[1].split() for line in open("../../crates.txt") if re.match("[a-z]", line)}
below = {name: [it for it in parts if it in below] for name, parts in below.items()}
under, printing, log = {}, threading.Lock(), open(os.environ["LOG"], "a")

def visit(name):
    if name not in under:
        under[name] = set(below[name]).union(*[visit(it) for it in below[name]])
    return under[name]

def tell(text):
    with printing:
        print(text, flush=True)

def note(*words):
    with printing:
        print(time.monotonic(), *words, file=log, flush=True)

def stamp_of(name):
    text = "".join(path.read_text() for path in sorted((crates / name / "src").iterdir()))
    return text + "".join(stamp_of(it) for it in below[name])

def work(name):
    if not all(runs[it].result() for it in under[name]):
        return False
    stamp = crates / name / "out/rlib/stamp"
    if not stamp.exists() or stamp.read_text() != stamp_of(name):
        note("begin", name)
        subprocess.run(["sleep", str(len((crates / name / "src/lib.rt").read_bytes()) / 1e5)])
        if name == os.environ.get("FAILS"):
            note("end", name)
            tell(f"== {name}\\nsrc/lib.rt:1:1: error[goal]: {name} is not proved\\nrattle build: nothing was built")
            return False
        stamp.parent.mkdir(parents=True, exist_ok=True)
        stamp.write_text(stamp_of(name))
        note("end", name)
    tell(f"== {name}\\nfn {name}::one: proved")
    return True

visit("cgs")
room = tempfile.mkdtemp()
note("rt", *sys.argv[1:])
if sys.argv[1:4] == ["all", "check", "--jobs"]:
    tell("only= functions=0")
    order, runs = sorted(under, key=lambda it: len(under[it])), {}
    with concurrent.futures.ThreadPoolExecutor(int(sys.argv[4])) as pool:
        for name in order:
            runs[name] = pool.submit(work, name)
    tell("== summary\\n" + "\\n".join(f"{it}: ok" if runs[it].result() else f"{it}: failed (1)" if it == os.environ.get("FAILS")
                                     else f"{it}: not run, since one failed" for it in order))
    status = not all(it.result() for it in runs.values())
elif sys.argv[1:] == ["run", "--", "stress", "0"]:
    time.sleep(float(os.environ.get("LINKS", "0")))
    status = os.environ.get("FAILS") == "run"
    tell("rt: running out/cgs" if not status else "LLVM did not compile what was proved")
    if not status:
        pathlib.Path("out/cgs").write_text('#!/bin/sh\\necho "program $*"\\n[ "$1" = solve ] || exit 2\\n')
        os.chmod("out/cgs", 0o755)
else:
    status = 2
os.rmdir(room)
sys.exit(status)
'''


class Tree:
    """A copy of the script over small sources, with a folder for the stand-in and one for temporary files."""

    def __init__(self, at):
        self.at, self.top = at, at / "a top"
        for name in ("bin", "tmp", "a top"):
            (at / name).mkdir()
        for name in ("cgs", "crates.txt"):
            shutil.copy(TOP / name, self.top / name)
        lines = [line.split(":") for line in (TOP / "crates.txt").read_text().splitlines() if re.match("[a-z]", line)]
        self.below = {name: [it for it in parts.split() if it.startswith("cgs_")] for name, parts in lines}
        for number, name in enumerate(self.below):
            source = self.top / "crates" / name / "src/lib.rt"
            source.parent.mkdir(parents=True)
            source.write_text(f"// {name}\n" + "// a line of a source\n" * (50 + 397 * number % 1000))
        (at / "bin/rt").write_text(STAND_IN)
        (at / "bin/rt").chmod(0o755)
        self.program, self.log = self.top / "crates/cgs/out/cgs", at / "log"

    def start(self, *words, has_rt=True, **environment):
        self.log.write_text("")
        path = f"{self.at}/bin:" * has_rt + "/usr/bin:/bin"
        environment = {**environment, "PATH": path, "LOG": str(self.log), "TMPDIR": str(self.at / "tmp")}
        return subprocess.Popen([str(self.top / "cgs"), *words], stdin=subprocess.DEVNULL, stdout=subprocess.PIPE, stderr=subprocess.PIPE,
                                env=environment, text=True, start_new_session=True)

    def run(self, *words, **named):
        child = self.start(*words, **named)
        printed, said = child.communicate(timeout=120)
        return child.returncode, printed, said.splitlines()

    def events(self):
        return [line.split()[1:] for line in self.log.read_text().splitlines()]

    def begun(self):
        return [name for kind, name, *_ in self.events() if kind == "begin"]

    def built(self):
        return {path.parts[-4] for path in self.top.glob("crates/*/out/rlib/stamp")}

    def is_clean(self):
        return not list((self.at / "tmp").iterdir())

    def touch(self, name, text=""):
        time.sleep(0.02)
        with open(self.top / "crates" / name / "src/lib.rt", "a") as source:
            source.write(text)
        os.utime(source.name)


def parallel(events, below):
    """The greatest number of crates at a time, and whether each began after those below it had ended."""
    running, ended, most, in_order = set(), set(), 0, True
    for kind, name, *_ in events:
        if kind == "begin":
            in_order = in_order and all(it in ended for it in below[name])
            running.add(name)
            most = max(most, len(running))
        elif kind == "end":
            running.remove(name)
            ended.add(name)
    return most, in_order


def is_running(mark):
    """Whether a process is left that has the mark in its environment."""
    for path in pathlib.Path("/proc").glob("[0-9]*/environ"):
        try:
            if mark in path.read_bytes() and "(first.py)" not in path.with_name("stat").read_text() and path.parent.name != str(os.getpid()):
                return True
        except OSError:
            pass
    return False


def tried(tree):
    """Yields what was looked at, and whether it is so."""
    needed = len(tree.below.keys() - ASIDE)
    status, _, said = tree.run("solve", has_rt=False)
    yield "no program and no toolchain: status 9", status == 9 and "not on the path" in said[0]
    start = time.monotonic()
    status, printed, said = tree.run("solve", "--workers", "2")
    took = time.monotonic() - start
    most, in_order = parallel(tree.events(), tree.below)
    lanes = int(re.search(r"to prove (\d+) at a time", said[1])[1])
    told = [re.fullmatch(rf"cgs: (\d+) of {needed} crates done: (\w+)(; about \d+ min left)?", line) for line in said[2:-1]]
    yield f"the first build ends with the program's own status and output ({took:.1f} s)", (status, printed) == (0, "program solve --workers 2\n")
    yield "each crate begins after those below it have ended", in_order and len(tree.begun()) == needed
    yield f"{most} crates at a time, of at most {lanes}", 1 < most <= lanes or lanes == 1
    yield "each crate is told once, in turn", all(told) and [int(it[1]) for it in told] == list(range(1, needed + 1))
    yield "most lines tell what is left", sum(it[3] is not None for it in told) > needed // 2
    yield "nothing that the program does not stand on is built", tree.built().isdisjoint(ASIDE)
    yield "no folder is left", tree.is_clean()
    status, printed, said = tree.run("solve")
    yield "the next call builds nothing, and says nothing", (status, printed, said, tree.events()) == (0, "program solve\n", [], [])
    tree.touch("cgs_text", "// one more line\n")
    status, printed, said = tree.run("solve")
    yield "a source that changed is told in one line", status == 0 and said[0].startswith("cgs: crates/cgs_text/src/lib.rt is newer than the program")
    yield "only that crate and those above it are proved again", sorted(tree.begun()) == ["cgs", "cgs_program", "cgs_text"]
    tree.touch("cgs_text")
    status, _, said = tree.run("solve")
    yield "a source of the same text is told, and nothing proved", status == 0 and "newer" in said[0] and tree.begun() == []
    yield "and once alone", tree.run("solve")[2] == []
    tree.touch("cgs_text")
    status, printed, said = tree.run("solve", has_rt=False)
    yield "with no toolchain the program runs as it was, with one line", (status, printed, len(said)) == (0, "program solve\n", 1)
    tree.touch("cgs_bench")
    tree.run("solve")
    tree.touch("cgs_rows", "// more\n")
    yield "a source that the program does not stand on counts for nothing", tree.run("solve")[2] == []
    tree.touch("cgs_terms", "// more\n")
    status, printed, said = tree.run("solve", FAILS="cgs_poly")
    yield "a crate that fails: status 9, and what was said of it alone", (status, printed) == (9, "") and [
        it for it in said if it.startswith(("src/", "fn ", "=="))] == ["== cgs_poly", "src/lib.rt:1:1: error[goal]: cgs_poly is not proved"]
    yield "it is told when it fails", "cgs: cgs_poly is not proved; the crates that do not stand on it are built all the same" in said
    yield "what does not stand on it is kept", {"cgs_terms", "cgs_bucket"} <= set(tree.begun()) and tree.is_clean()
    status, printed, said = tree.run("solve")
    yield "the next call proves it and those above it", status == 0 and "cgs_terms" not in tree.begun() and "cgs_poly" in tree.begun()
    tree.touch("cgs", "// more\n")
    status, _, said = tree.run("solve", FAILS="run")
    yield "a program that is not linked: status 9, and what was said", status == 9 and "LLVM did not compile what was proved" in said
    ends = (signal.SIGINT, "Ctrl-C", 130), (signal.SIGTERM, "an end from outside", 143), (signal.SIGHUP, "a closed terminal", 129)
    for number, name, status in ends:
        tree.touch("cgs_list", f"// {name}\n")
        child = tree.start("solve", MARK="first-build")
        while len(tree.events()) < 16:
            time.sleep(0.02)
        (os.killpg if number != signal.SIGTERM else os.kill)(child.pid, number)
        printed, said = child.communicate(timeout=60)
        time.sleep(0.2)
        ended = {name for kind, name, *_ in tree.events() if kind == "end"}
        yield f"{name}: status {status}, nothing printed, and a line", (child.returncode, printed) == (status, "") and "interrupted" in said
        yield "no process and no folder is left, and no program", not is_running(b"first-build") and tree.is_clean() and not tree.program.exists()
        tree.run("solve")
        yield f"the {len(ended)} crates that were done are kept", len(ended) > 2 and ended.isdisjoint(tree.begun()) and tree.program.exists()
    tree.touch("cgs", "// more\n")
    child = tree.start("solve", LINKS="2")
    while ["rt", "run", "--", "stress", "0"] not in tree.events():
        time.sleep(0.02)
    child.terminate()
    child.communicate(timeout=60)
    yield "the same while the program is linked", child.returncode == 143 and tree.is_clean() and not tree.program.exists()
    os.symlink(tree.top / "cgs", tree.at / "linked")
    environment = {"PATH": f"{tree.at}/bin:/usr/bin:/bin", "LOG": str(tree.log), "TMPDIR": str(tree.at / "tmp")}
    ran = subprocess.run([str(tree.at / "linked"), "solve"], cwd="/", env=environment, stdin=subprocess.DEVNULL, capture_output=True, text=True,
                         check=False)
    yield "a symbolic link from another folder", (ran.returncode, ran.stdout) == (0, "program solve\n")


def main():
    differ = 0
    with tempfile.TemporaryDirectory() as folder:
        for what, is_so in tried(Tree(pathlib.Path(folder))):
            print(f"{'yes' if is_so else 'NO '} {what}", flush=True)
            differ += not is_so
    print(f"{differ} differ")
    return 1 if differ else 0


if __name__ == "__main__":
    sys.exit(main())
