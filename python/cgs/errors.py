"""What can go wrong: one exception for each status of the program, and a few for what never reached it."""

from __future__ import annotations

from typing import TYPE_CHECKING

if TYPE_CHECKING:
    from .answers import Basis, Discovered, Located
    from .system import System


class CgsError(Exception):
    """The root of all exceptions of this module."""


class ProblemFault(CgsError):
    """The problem is at fault (status 4 of the program, or found before the program was asked).

    `kind` is the word of docs/FORMATS.md (`syntax`, `unknown`, `degree`, ...), and `line` the line of the file, from 1 on, or 0 for the file as
    a whole. `line` is None where the problem was made from expressions; then `kind` may be `fraction` or `expression` too.
    """

    def __init__(self, line: int | None, kind: str, said: str = "") -> None:
        super().__init__(said or f"line {line}: {kind}")
        self.line = line
        self.kind = kind


class FieldFault(ProblemFault):
    """A fraction has no place in the field, since the modulus divides its denominator."""

    def __init__(self, said: str) -> None:
        super().__init__(None, "fraction", said)


class TextFault(CgsError):
    """A text is none that the program writes."""


class WordsFault(CgsError):
    """The words are at fault (status 2). `kind` is `none`, `command`, `option`, `repeat` or `value`."""

    def __init__(self, kind: str) -> None:
        super().__init__(f"the words are at fault: {kind}")
        self.kind = kind


class OutOfLimits(CgsError):
    """A part was refused, since a limit was reached (status 3).

    `partial` is the answer with its refused parts; what is not refused in it is right. It is None where `basis` was refused; `cause` has the
    reason then.
    """

    def __init__(self, partial: System | Located | Discovered | Basis | None, cause: str = "") -> None:
        super().__init__(f"refused: {cause}" if cause else "a part was refused; `partial` has what was found")
        self.partial = partial
        self.cause = cause


class ProgramFailed(CgsError):
    """The program ended without an answer. `status` is its exit status, negative for a signal."""

    def __init__(self, status: int, said: str) -> None:
        super().__init__(f"{said} (status {status})")
        self.status = status


class InputFailed(ProgramFailed):
    """The program could not read its standard input (status 5)."""


class OutputFailed(ProgramFailed):
    """The program could not write its standard output (status 6)."""


class MemoryShort(ProgramFailed):
    """Memory was short (status 7): fewer workers or a smaller budget may help."""


class WordsUnreadable(ProgramFailed):
    """A word was no UTF-8 (status 8)."""


class NotBuilt(ProgramFailed):
    """The script `cgs` could not build the program (status 9)."""


class ProgramMissing(CgsError):
    """There is no program: neither the environment variable CGS, nor a `cgs` on the path or in a checkout above this module."""


STATUSES: dict[int, tuple[type[ProgramFailed], str]] = {
    5: (InputFailed, "the program could not read its input"),
    6: (OutputFailed, "the program could not write its answer"),
    7: (MemoryShort, "memory was short"),
    8: (WordsUnreadable, "a word was no UTF-8"),
    9: (NotBuilt, "the program could not be built"),
}


def failure(status: int, said: str = "") -> ProgramFailed:
    """The exception of a status that comes with no answer; `said` is what the program wrote on standard error."""
    kind, meaning = STATUSES.get(status, (ProgramFailed, "the program ended without an answer"))
    return kind(status, f"{meaning}: {said.strip()}" if said.strip() else meaning)
