"""The list that `solve` prints: segments with a basis, and entries that were refused."""

from __future__ import annotations

from collections.abc import Iterator, Mapping, Sequence
from dataclasses import dataclass, field
from typing import TYPE_CHECKING, Any, Literal

from .errors import TextFault
from .lines import Lines, number, path_of, path_text
from .ring import Polynomial, Ring, texts

if TYPE_CHECKING:
    from .problem import Problem

Path = tuple[int, ...]
Standard = int | Literal["many", "none"]
CAUSES = ("budget", "degree", "depth")


def holds(zero: Sequence[Polynomial], nonzero: Sequence[Polynomial], numbers: Mapping[str, int]) -> bool:
    """Whether all of `zero` and none of `nonzero` vanish at a number for each parameter. Computed here, not proved."""
    return all(part.value(numbers) == 0 for part in zero) and all(part.value(numbers) != 0 for part in nonzero)


@dataclass(frozen=True)
class Segment:
    """An entry with a basis: it serves at each point where all of `zero` and none of `nonzero` vanish.

    `solvable` is False exactly where 1 is in the ideal, `finite` tells whether finitely many monomials in the variables are standard, and
    `standard` how many are: a number up to a million, "many" or "none". `untested` says that it was not found out whether the conditions
    contradict each other.
    """

    path: Path
    zero: tuple[Polynomial, ...]
    nonzero: tuple[Polynomial, ...]
    basis: tuple[Polynomial, ...]
    solvable: bool
    finite: bool
    standard: Standard
    untested: bool = False

    @property
    def name(self) -> str:
        """The path as the program prints it: `1.2.0`, or `-` for the root."""
        return path_text(self.path)

    @property
    def polys(self) -> tuple[Any, ...]:
        """The basis as SymPy polynomials over the field."""
        return tuple(member.poly for member in self.basis)

    def has(self, numbers: Mapping[str, int]) -> bool:
        """Whether a point, a number for each parameter, lies in it. Computed here, not proved."""
        return holds(self.zero, self.nonzero, numbers)

    def __str__(self) -> str:
        """The lines of the entry, as the program prints them."""
        lines = [f"segment {self.name}", *texts("zero", self.zero), *texts("nonzero", self.nonzero)]
        lines += ["untested"] if self.untested else []
        lines += texts("basis", self.basis)
        lines += [f"solvable {yes_no(self.solvable)}", f"finite {yes_no(self.finite)}", f"standard {self.standard}"]
        return "".join(line + "\n" for line in lines)


@dataclass(frozen=True)
class Refused:
    """An entry without a basis, since a limit was reached: `budget`, `degree` or `depth`. Of the ideal there nothing is known."""

    path: Path
    cause: str
    zero: tuple[Polynomial, ...]
    nonzero: tuple[Polynomial, ...]

    @property
    def name(self) -> str:
        """The path as the program prints it."""
        return path_text(self.path)

    def has(self, numbers: Mapping[str, int]) -> bool:
        """Whether a point, a number for each parameter, lies in it. Computed here, not proved."""
        return holds(self.zero, self.nonzero, numbers)

    def __str__(self) -> str:
        """The lines of the entry, as the program prints them."""
        lines = [f"refused {self.name} {self.cause}", *texts("zero", self.zero), *texts("nonzero", self.nonzero)]
        return "".join(line + "\n" for line in lines)


Entry = Segment | Refused


@dataclass(frozen=True)
class Claim:
    """A worker took the branch at a path."""

    worker: int
    path: Path

    def __str__(self) -> str:
        return f"claim {self.worker} {path_text(self.path)}\n"


@dataclass(frozen=True)
class Give:
    """A worker gave a branch back, with so many children, and 1 entry or 0."""

    worker: int
    path: Path
    children: int
    entries: int

    def __str__(self) -> str:
        return f"give {self.worker} {path_text(self.path)} {self.children} {self.entries}\n"


Event = Claim | Give


@dataclass(frozen=True)
class System:
    """A comprehensive Gröbner system: the entries in the order of their paths, and the history where it was asked for.

    `str(system)` is the program's text, byte for byte. `problem`, `budget` and `depth` tell what it was made from and are no part of the text;
    the pictures use them to ask the program again.
    """

    ring: Ring
    entries: tuple[Entry, ...]
    history: tuple[Event, ...] | None = None
    problem: Problem | None = field(default=None, compare=False, repr=False)
    budget: int | None = field(default=None, compare=False, repr=False)
    depth: int | None = field(default=None, compare=False, repr=False)

    @classmethod
    def parse(cls, text: str, problem: Problem | Ring, *, budget: int | None = None, depth: int | None = None) -> System:
        """The system of a text of `solve`, for the problem, or the ring, from which it was made. TextFault where it is no such text."""
        lines = Lines(text)
        system = read_system(lines, problem, budget=budget, depth=depth)
        lines.finish()
        return system

    def __str__(self) -> str:
        """The text of the program, byte for byte."""
        text = "".join(str(entry) for entry in self.entries)
        text += f"segments {len(self.segments)} refused {len(self.refused)}\n"
        if self.history is not None:
            text += f"history {len(self.history)}\n" + "".join(str(event) for event in self.history)
        return text

    @property
    def segments(self) -> tuple[Segment, ...]:
        """The entries with a basis."""
        return tuple(entry for entry in self.entries if isinstance(entry, Segment))

    @property
    def refused(self) -> tuple[Refused, ...]:
        """The entries without one."""
        return tuple(entry for entry in self.entries if isinstance(entry, Refused))

    def __iter__(self) -> Iterator[Entry]:
        return iter(self.entries)

    def __len__(self) -> int:
        return len(self.entries)

    def __getitem__(self, name: str) -> Entry:
        """The entry at a path that is written as the program does; KeyError where there is none."""
        for entry in self.entries:
            if entry.name == name:
                return entry
        raise KeyError(name)

    def at(self, numbers: Mapping[str, int]) -> Entry | None:
        """The entry that has a point, a number for each parameter, or None. Computed here from the conditions; `locate` asks the program."""
        return next((entry for entry in self.entries if entry.has(numbers)), None)

    def html(self, **options: Any) -> str:
        """One page that says all of this list; the options are those of `cgs.html.page`."""
        from .html import page

        return page(self, **options)

    def _repr_html_(self) -> str:
        from .html import frame

        return frame(self)

    def plot(self, **options: Any) -> Any:
        """The parameter plane as a figure of matplotlib; the options are those of `cgs.plot.figure`."""
        from .plot import figure

        return figure(self, **options)


def yes_no(value: bool) -> str:
    """The word of the list for a truth value."""
    return "yes" if value else "no"


def read_polynomials(lines: Lines, word: str, ring: Ring) -> tuple[Polynomial, ...]:
    """The polynomials of the lines that come next and begin with a word."""
    found = []
    while (text := lines.take(word)) is not None:
        found.append(ring.parse(text))
    return tuple(found)


def read_told(lines: Lines, word: str, choices: Mapping[str, bool]) -> bool:
    """What the next line, which begins with a word, tells."""
    text = lines.need(word)
    if text not in choices:
        raise TextFault(f"line {lines.place}: {word} {text}")
    return choices[text]


def read_standard(lines: Lines) -> Standard:
    """The number of standard monomials, or the word in its place."""
    text = lines.need("standard")
    if text == "many":
        return "many"
    return "none" if text == "none" else number(text)


def read_segment(lines: Lines, name: str, ring: Ring) -> Segment:
    """The segment whose first line was taken."""
    path, yes = path_of(name), {"yes": True, "no": False}
    zero, nonzero = read_polynomials(lines, "zero", ring), read_polynomials(lines, "nonzero", ring)
    untested = lines.take("untested") is not None
    basis = read_polynomials(lines, "basis", ring)
    solvable, finite = read_told(lines, "solvable", yes), read_told(lines, "finite", yes)
    return Segment(path, zero, nonzero, basis, solvable, finite, read_standard(lines), untested)


def read_refused(lines: Lines, words: str, ring: Ring) -> Refused:
    """The refused entry whose first line was taken."""
    name, _, cause = words.partition(" ")
    if cause not in CAUSES:
        raise TextFault(f"line {lines.place}: refused {words}")
    return Refused(path_of(name), cause, read_polynomials(lines, "zero", ring), read_polynomials(lines, "nonzero", ring))


def read_event(lines: Lines) -> Event:
    """The next event of a history."""
    words = lines.next().split(" ")
    if words[0] == "claim" and len(words) == 3:
        return Claim(number(words[1]), path_of(words[2]))
    if words[0] == "give" and len(words) == 5:
        return Give(number(words[1]), path_of(words[2]), number(words[3]), number(words[4]))
    raise TextFault(f"line {lines.place} is no event: {' '.join(words)}")


def read_system(lines: Lines, problem: Problem | Ring, *, budget: int | None = None, depth: int | None = None) -> System:
    """The list that comes next, with its history if one follows."""
    ring, asked = (problem, None) if isinstance(problem, Ring) else (problem.ring, problem)
    entries: list[Entry] = []
    while True:
        if (name := lines.take("segment")) is not None:
            entries.append(read_segment(lines, name, ring))
        elif (words := lines.take("refused")) is not None:
            entries.append(read_refused(lines, words, ring))
        else:
            break
    closing = lines.need("segments")
    history = None
    if (count := lines.take("history")) is not None:
        history = tuple(read_event(lines) for _ in range(number(count)))
    system = System(ring, tuple(entries), history, asked, budget, depth)
    if closing != f"{len(system.segments)} refused {len(system.refused)}":
        raise TextFault(f"the counts are not those of the entries: segments {closing}")
    return system
