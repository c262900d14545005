"""Reading the program's texts line by line."""

from __future__ import annotations

import re

from .errors import TextFault


class Lines:
    """The lines of a text, taken one after the other. `place` is the number of the line that was taken last."""

    def __init__(self, text: str) -> None:
        if text and not text.endswith("\n"):
            raise TextFault("the last line has no end")
        self._lines = text.split("\n")[:-1]
        self.place = 0

    def take(self, word: str) -> str | None:
        """What stands after a word that begins the next line, or None, and then the line is still the next one."""
        if self.place == len(self._lines):
            return None
        first, _, rest = self._lines[self.place].partition(" ")
        if first != word:
            return None
        self.place += 1
        return rest

    def need(self, word: str) -> str:
        """What stands after a word that has to begin the next line."""
        rest = self.take(word)
        if rest is None:
            raise TextFault(f"line {self.place + 1} does not begin with {word}")
        return rest

    def next(self) -> str:
        """The whole next line."""
        if self.place == len(self._lines):
            raise TextFault(f"the text ends after line {self.place}")
        self.place += 1
        return self._lines[self.place - 1]

    def finish(self) -> None:
        """Raises TextFault where a line is left."""
        if self.place < len(self._lines):
            raise TextFault(f"line {self.place + 1} should not be there: {self._lines[self.place][:80]}")


def number(text: str) -> int:
    """A number as the program prints it: digits, without leading zeros."""
    if not re.fullmatch(r"0|[1-9][0-9]{0,18}", text):
        raise TextFault(f"no number: {text[:80]}")
    return int(text)


def path_of(text: str) -> tuple[int, ...]:
    """The numbers of a path that is printed as `1.2.0`, or `-` for the root."""
    return () if text == "-" else tuple(number(piece) for piece in text.split("."))


def path_text(path: tuple[int, ...]) -> str:
    """The text of a path."""
    return ".".join(str(step) for step in path) or "-"
