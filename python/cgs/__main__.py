"""The command `cgs-report PROBLEM -o PAGE`, or `python3 -m cgs`: it solves a problem, and writes its list as a page."""

from __future__ import annotations

import argparse
import itertools
import pathlib
import sys
import threading
from collections.abc import Sequence
from typing import TextIO

from .errors import CgsError, OutOfLimits, ProblemFault, WordsFault
from .html import page
from .problem import Problem
from .run import solve
from .system import System

WIDTH = 24
STAGES = {"solve": "solving", "plane": "asking for the points of the plane", "cards": "writing the segments", "done": "done"}
EXITS = "status 0: the page was written; 3: it was, and a part of the list is refused; 2, 4 to 9: as the program; 130: interrupted; 1: another fault"


class Progress:
    """A bar on standard error, where that is a terminal. While the program works, which does not tell how far it is, the bar runs to and fro."""

    def __init__(self, stream: TextIO) -> None:
        self._stream, self._is_shown = stream, stream.isatty()
        self._stop = threading.Event()
        self._runner: threading.Thread | None = None

    def tell(self, stage: str, done: int, total: int) -> None:
        """Shows how far a stage is; a total of 0 says that nobody knows."""
        self._rest()
        if not self._is_shown:
            return
        if total == 0 or stage == "plane":
            self._stop.clear()
            self._runner = threading.Thread(target=self._run, args=(stage,), daemon=True)
            self._runner.start()
        elif stage == "done":
            self._write("", "")
        else:
            count = WIDTH * done // total
            self._write("\N{FULL BLOCK}" * count + "\N{LIGHT SHADE}" * (WIDTH - count), f"{STAGES[stage]} {done + 1} of {total}")

    def _run(self, stage: str) -> None:
        places = itertools.cycle([*range(WIDTH - 3), *range(WIDTH - 3, 0, -1)])
        seconds = 0.0
        while not self._stop.wait(0.1):
            seconds += 0.1
            place = next(places)
            bar = "\N{LIGHT SHADE}" * place + "\N{FULL BLOCK}" * 3 + "\N{LIGHT SHADE}" * (WIDTH - 3 - place)
            self._write(bar, f"{STAGES[stage]}, {seconds:.0f} s")

    def _rest(self) -> None:
        if self._runner is not None:
            self._stop.set()
            self._runner.join()
            self._runner = None

    def _write(self, bar: str, said: str) -> None:
        self._stream.write(f"\r\033[K{bar} {said}" if bar else "\r\033[K")
        self._stream.flush()

    def close(self) -> None:
        """Takes the bar away."""
        self._rest()
        if self._is_shown:
            self._write("", "")


def pair(text: str) -> tuple[str, int]:
    """The name and the number of `NAME=NUMBER`."""
    name, equals, value = text.partition("=")
    if not equals or not value.lstrip("-").isdigit():
        raise argparse.ArgumentTypeError(f"{text} is not NAME=NUMBER")
    return name.strip(), int(value)


def window(text: str) -> tuple[int, ...]:
    """The four numbers of a window."""
    parts = text.split(",")
    if len(parts) != 4 or not all(part.strip().lstrip("-").isdigit() for part in parts):
        raise argparse.ArgumentTypeError(f"{text} is not LEFT,RIGHT,LOW,HIGH")
    return tuple(int(part) for part in parts)


def parser() -> argparse.ArgumentParser:
    """The words of the command."""
    made = argparse.ArgumentParser(prog="cgs-report", description="Solves a problem and writes its list as one page.", epilog=EXITS)
    made.add_argument("problem", help="a problem file, or - for standard input")
    made.add_argument("-o", "--output", metavar="PAGE", help="the page to write; standard output where it is left out")
    made.add_argument("--workers", type=int, default=1, metavar="N", help="threads of the program, 1 to 64")
    made.add_argument("--budget", type=int, metavar="N", help="units of work for each branch")
    made.add_argument("--depth", type=int, metavar="N", help="how often a case may be split")
    made.add_argument("--axes", metavar="A,B", help="the two parameters of the picture")
    made.add_argument("--fix", type=pair, action="append", default=[], metavar="NAME=NUMBER", help="a number for another parameter")
    made.add_argument("--window", type=window, default=(-12, 12, -12, 12), metavar="LEFT,RIGHT,LOW,HIGH", help="as in --window=-5,5,0,20")
    made.add_argument("--title", default="", help="the title of the page")
    return made


def report(words: argparse.Namespace, progress: Progress) -> int:
    """Solves and writes; the status of the command."""
    data = sys.stdin.buffer.read() if words.problem == "-" else pathlib.Path(words.problem).read_bytes()
    problem = Problem.parse(data)
    progress.tell("solve", 0, 0)
    status = 0
    try:
        system = solve(problem, workers=words.workers, budget=words.budget, depth=words.depth)
    except OutOfLimits as limits:
        assert isinstance(limits.partial, System)
        system, status = limits.partial, 3
    axes = words.axes.split(",") if words.axes else None
    text = page(system, title=words.title, axes=axes, fixed=dict(words.fix), window=words.window, workers=words.workers, tell=progress.tell)
    if words.output in (None, "-"):
        sys.stdout.buffer.write(text.encode())
    else:
        pathlib.Path(words.output).write_text(text, encoding="utf-8")
    return status


def main(given: Sequence[str] | None = None) -> int:
    """The command; it returns its exit status."""
    words = parser().parse_args(given)
    progress = Progress(sys.stderr)
    try:
        return report(words, progress)
    except ProblemFault as fault:
        said = str(fault) if fault.line is None else f"{words.problem}:{fault.line}: {fault.kind}"
        status = 4
    except CgsError as fault:
        said, status = str(fault), 2 if isinstance(fault, WordsFault) else getattr(fault, "status", 1)
    except OSError as fault:
        said, status = str(fault), 1
    except KeyboardInterrupt:
        said, status = "interrupted", 130
    finally:
        progress.close()
    print(f"cgs-report: {said}", file=sys.stderr)
    return status if status > 0 else 1


if __name__ == "__main__":
    sys.exit(main())
