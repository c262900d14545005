"""Reading a problem file, as docs/FORMATS.md says: the same problem, or the same first fault, as the program finds."""

from __future__ import annotations

import re
from collections.abc import Iterator
from dataclasses import dataclass, field

from .errors import ProblemFault
from .ring import MODULI, ORDERS, Exponents, Polynomial, Ring

MOST_BYTES = 1_048_576
MOST_DIGITS = 18
MOST_NAME_BYTES = 32
MOST_NAMES = 8
MOST_DEGREE = 32767
HEADER = ("field", "parameters", "variables", "order")
BODY = ("zero", "nonzero", "poly", "thesis", "point", "end")
TOKEN = re.compile(rb"[ \t]*(?:([A-Za-z][A-Za-z0-9_]*)|([0-9]+)|([-+*^]))")


@dataclass
class Draft:
    """What was read of a problem so far."""

    modulus: int = 0
    parameters: tuple[str, ...] = ()
    variables: tuple[str, ...] = ()
    ring: Ring | None = None
    polys: list[Polynomial] = field(default_factory=list)
    zero: list[Polynomial] = field(default_factory=list)
    nonzero: list[Polynomial] = field(default_factory=list)
    thesis: Polynomial | None = None
    points: list[tuple[int, ...]] = field(default_factory=list)
    seen: int = 0
    has_ended: bool = False


class LineFault(Exception):
    """The kind of a fault of the line that is being read."""


def content_lines(data: bytes) -> Iterator[tuple[int, bytes]]:
    """The lines that are not passed over, with their numbers."""
    for place, line in enumerate(data.split(b"\n"), 1):
        line = line.removesuffix(b"\r")
        bare = line.strip(b" \t")
        if bare and not bare.startswith(b"#"):
            yield place, line


def tokens(line: bytes) -> list[str]:
    """The tokens of a line: names, numbers and signs."""
    found, place, end = [], 0, len(line.rstrip(b" \t"))
    while place < end:
        token = TOKEN.match(line, place)
        if token is None:
            raise LineFault("byte")
        if token[2] and len(token[2]) > MOST_DIGITS:
            raise LineFault("literal")
        if token[1] and len(token[1]) > MOST_NAME_BYTES:
            raise LineFault("name")
        found.append((token[1] or token[2] or token[3]).decode("ascii"))
        place = token.end()
    return found


def read_product(words: list[str], ring: Ring, has_variables: bool, most: int) -> tuple[int, Exponents]:
    """The coefficient and the exponents of the product that the words begin with, which are taken away."""
    coefficient, exponents = 1, [0] * len(ring.names)
    while True:
        word = words.pop(0) if words else ""
        if word.isdigit():
            coefficient = coefficient * int(word) % ring.modulus
        elif word and word not in "+-*^":
            exponents[read_place(word, ring, has_variables)] += read_exponent(words)
        else:
            raise LineFault("syntax")
        if sum(exponents) > most:
            raise LineFault("degree")
        if not words or words[0] != "*":
            return coefficient, tuple(exponents)
        words.pop(0)


def read_place(name: str, ring: Ring, has_variables: bool) -> int:
    """The place of a name, which has to be a parameter's where variables may not stand."""
    if name not in ring.places:
        raise LineFault("unknown")
    if not has_variables and name in ring.variables:
        raise LineFault("variable")
    return ring.places[name]


def read_exponent(words: list[str]) -> int:
    """The exponent that the words begin with, or 1; it is taken away."""
    if not words or words[0] != "^":
        return 1
    if len(words) < 2 or not words[1].isdigit():
        raise LineFault("syntax")
    exponent = int(words[1])
    del words[:2]
    if exponent > MOST_DEGREE:
        raise LineFault("exponent")
    return exponent


def read_polynomial(words: list[str], ring: Ring, *, has_variables: bool = True, most: int = MOST_DEGREE) -> Polynomial:
    """The polynomial that the words spell, with like terms added up."""
    total: dict[Exponents, int] = {}
    sign = words.pop(0) if words and words[0] in "+-" else "+"
    while True:
        coefficient, exponents = read_product(words, ring, has_variables, most)
        total[exponents] = total.get(exponents, 0) + (coefficient if sign == "+" else -coefficient)
        if not words:
            return ring.polynomial(total)
        sign = words.pop(0)
        if sign not in "+-":
            raise LineFault("syntax")


def read_names(words: list[str], given: tuple[str, ...], least: int) -> tuple[str, ...]:
    """The names of a line, none of which was given before."""
    for place, name in enumerate(words):
        if not name[0].isalpha():
            raise LineFault("syntax")
        if name in given or name in words[:place]:
            raise LineFault("name")
    if not least <= len(words) <= MOST_NAMES:
        raise LineFault("count")
    return tuple(words)


def read_header(draft: Draft, word: str, words: list[str]) -> None:
    """One of the first four lines."""
    if word == "parameters":
        draft.parameters = read_names(words, (), 0)
        return
    if word == "variables":
        draft.variables = read_names(words, draft.parameters, 1)
        return
    if len(words) != 1 or words[0].isdigit() != (word == "field") or words[0] in "+-*^":
        raise LineFault("syntax")
    if word == "field":
        draft.modulus = int(words[0])
        if draft.modulus not in MODULI:
            raise LineFault("field")
        return
    if words[0] not in ORDERS:
        raise LineFault("order")
    draft.ring = Ring(draft.modulus, draft.parameters, draft.variables, words[0])


def read_body(draft: Draft, ring: Ring, word: str, words: list[str]) -> None:
    """One of the lines after the first four."""
    if word == "end":
        if words:
            raise LineFault("syntax")
        draft.has_ended = True
    elif word == "point":
        if not all(number.isdigit() for number in words):
            raise LineFault("syntax")
        if len(words) != len(ring.parameters):
            raise LineFault("count")
        draft.points.append(tuple(int(number) % ring.modulus for number in words))
    elif word == "thesis":
        if draft.thesis is not None:
            raise LineFault("thesis")
        draft.thesis = read_polynomial(words, ring, most=MOST_DEGREE - 1)
    else:
        into = {"poly": draft.polys, "zero": draft.zero, "nonzero": draft.nonzero}[word]
        into.append(read_polynomial(words, ring, has_variables=word == "poly"))


def read_line(draft: Draft, line: bytes) -> None:
    """One line that is not passed over."""
    if draft.has_ended:
        raise LineFault("after")
    word, *words = tokens(line)
    expected = BODY if draft.seen == len(HEADER) else (HEADER[draft.seen],)
    if word not in expected:
        raise LineFault("place")
    if draft.ring is None:
        read_header(draft, word, words)
        draft.seen += 1
    else:
        read_body(draft, draft.ring, word, words)


def read(data: bytes) -> Draft:
    """The problem of a file; ProblemFault with the line and the kind of its first fault where it has one."""
    if len(data) > MOST_BYTES:
        raise ProblemFault(0, "long")
    draft = Draft()
    for place, line in content_lines(data):
        try:
            read_line(draft, line)
        except LineFault as fault:
            raise ProblemFault(place, str(fault)) from None
    if not draft.has_ended:
        raise ProblemFault(len(data.removesuffix(b"\n").split(b"\n")) + 1 if data else 1, "end")
    return draft
