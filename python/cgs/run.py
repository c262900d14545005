"""Running the program: it is found, given a text on its standard input, and its answer or its status is made an object or an exception."""

from __future__ import annotations

import os
import pathlib
import shutil
import subprocess
from collections.abc import Sequence
from dataclasses import dataclass

from .answers import Basis, Discovered, Located
from .errors import OutOfLimits, ProblemFault, ProgramMissing, TextFault, WordsFault, failure
from .problem import Problem
from .system import System

FAULT_STATUSES = (2, 4)
ANSWER_STATUSES = (0, 3)


@dataclass(frozen=True)
class Printed:
    """What a run printed, and whether a part of it was refused."""

    text: str
    is_refused: bool


def program() -> str:
    """The path of the program: that of the environment variable CGS, else `cgs` on the path, else the script of the checkout around this module.

    The script would build a program that is not there, which takes long; so it is taken only where the program is built.
    """
    named = os.environ.get("CGS")
    if named:
        return named
    found = shutil.which("cgs")
    if found:
        return found
    top = pathlib.Path(__file__).resolve().parents[2]
    if (top / "crates/cgs/out/cgs").is_file():
        return str(top / "cgs")
    raise ProgramMissing("no program: set the environment variable CGS to its path, put `cgs` on the PATH, or build it by `./cgs check`")


def fault(text: str) -> Exception:
    """The exception of a fault line."""
    words = text.split()
    if len(words) == 4 and words[:2] == ["fault", "line"]:
        return ProblemFault(int(words[2]), words[3])
    if len(words) == 3 and words[:2] == ["fault", "words"]:
        return WordsFault(words[2])
    return TextFault(f"no fault line: {text[:200]}")


def run(words: Sequence[str], given: str | bytes = b"") -> Printed:
    """Runs the program with these words, and with `given` as its standard input. Every status but 0 and 3 raises its exception."""
    data = given.encode() if isinstance(given, str) else given
    try:
        ran = subprocess.run([program(), *words], input=data, capture_output=True, check=False)
    except OSError as said:
        raise ProgramMissing(f"the program cannot be run: {said}") from said
    if ran.returncode in FAULT_STATUSES:
        raise fault(ran.stdout.decode(errors="replace"))
    if ran.returncode not in ANSWER_STATUSES:
        raise failure(ran.returncode, ran.stderr.decode(errors="replace"))
    return Printed(ran.stdout.decode(), ran.returncode == 3)


def options(workers: int, budget: int | None, depth: int | None) -> list[str]:
    """The words of the options."""
    words = [] if workers == 1 else ["--workers", str(workers)]
    words += [] if budget is None else ["--budget", str(budget)]
    return words if depth is None else [*words, "--depth", str(depth)]


def check(text: str | bytes) -> Problem:
    """The problem of a file's text as the program understands it; ProblemFault where it has a fault."""
    return Problem.parse(run(["check"], text).text)


def basis(problem: Problem, *, budget: int | None = None) -> Basis:
    """The reduced Gröbner basis of the polynomials and the `zero` conditions; OutOfLimits where the run was refused."""
    printed = run(["basis", *options(1, budget, None)], str(problem))
    if printed.is_refused:
        raise OutOfLimits(None, printed.text.removeprefix("refused").strip())
    return Basis.parse(printed.text, problem.ring)


def solve(
    problem: Problem, *, workers: int = 1, budget: int | None = None, depth: int | None = None, history: bool = False, keep_refused: bool = False
) -> System:
    """The comprehensive Gröbner system. Where entries were refused, OutOfLimits holds it, unless `keep_refused` asks for it all the same."""
    words = ["solve", *options(workers, budget, depth), *(["--history"] if history else [])]
    printed = run(words, str(problem))
    system = System.parse(printed.text, problem, budget=budget, depth=depth)
    if printed.is_refused and not keep_refused:
        raise OutOfLimits(system)
    return system


def locate(problem: Problem, *, workers: int = 1, budget: int | None = None, depth: int | None = None, keep_refused: bool = False) -> Located:
    """For each point of the problem the segment that holds it, in the list that `solve` would print with the same limits."""
    printed = run(["locate", *options(workers, budget, depth)], str(problem))
    located = Located.parse(printed.text, problem.ring)
    if printed.is_refused and not keep_refused:
        raise OutOfLimits(located)
    return located


def discover(problem: Problem, *, workers: int = 1, budget: int | None = None, depth: int | None = None, keep_refused: bool = False) -> Discovered:
    """Where the thesis of the problem follows from its polynomials."""
    printed = run(["discover", *options(workers, budget, depth)], str(problem))
    found = Discovered.parse(printed.text, problem, budget=budget, depth=depth)
    if printed.is_refused and not keep_refused:
        raise OutOfLimits(found)
    return found
