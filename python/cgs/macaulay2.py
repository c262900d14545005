"""Problems as Macaulay2 takes and prints them: the parameters are the variables of the ring of the coefficients."""

from __future__ import annotations

import re
from collections.abc import Iterable

from .errors import ProblemFault
from .expressions import Expression, in_field
from .problem import Names, Problem, checked_ring, names_of
from .ring import Polynomial, Ring
from .singular import pieces

ORDER_WORDS = {"lex": "Lex", "grlex": "GLex", "grevlex": "GRevLex"}
RING = re.compile(r"\(?\(?(ZZ\s*/\s*(\d+)|QQ)\)?\s*\[([^\]]*)\]\)?(?:\s*\[([^\]]*)\])?")
ANSWER = re.compile(r"^o(\d+) = ")


def fault(said: str) -> ProblemFault:
    return ProblemFault(None, "expression", said)


def ring_names(inside: str) -> tuple[str, ...]:
    """The names between the brackets of a ring, without its options; `a..d` is a, b, c, d."""
    found: list[str] = []
    for piece in pieces(inside):
        first, dots, last = piece.partition("..")
        if "=>" in piece:
            continue
        if not dots:
            found.append(piece)
        elif len(first) == len(last) == 1 and first <= last:
            found += map(chr, range(ord(first), ord(last) + 1))
        else:
            raise fault(f"names from {first} to {last}")
    return tuple(found)


def order_of(inside: str) -> str:
    """The kind of order that the options of a ring say; without any it is grevlex."""
    if "GLex" in inside or ("Weights" in inside and "Lex" in inside):
        return "grlex"
    return "lex" if re.search(r"\bLex\b", inside) else "grevlex"


def ring_of(text: str, parameters: Names | None, field: int | None) -> Ring:
    """The ring of a problem, of the first ring that a text has."""
    found = RING.search(text)
    if found is None:
        raise fault("there is no ring as ZZ/32003[a,b][x,y]")
    blocks = [inside for inside in (found[3], found[4]) if inside is not None]
    names = [ring_names(inside) for inside in blocks]
    chosen = names_of(parameters) if parameters is not None else names[0] if len(names) == 2 else ()
    modulus = int(found[2] or 0) if field is None else field
    if modulus == 0:
        raise ProblemFault(None, "field", "the coefficients are rational: say with field= which prime they are taken modulo")
    variables = tuple(name for block in names for name in block if name not in chosen)
    return checked_ring(modulus, chosen, variables, order_of(blocks[-1]))


def merged(above: str, line: str) -> str:
    """One line of two, of which the upper one has the exponents of the lower one."""
    found, width, is_exponent = [], max(len(above), len(line)), False
    for up, low in zip(above.ljust(width), line.ljust(width)):
        if up != " " and (low != " " or not up.isdigit()):
            raise fault(f"a fraction or a matrix stands in the printed form; print it with toString: {line.strip()[:100]}")
        if up != " " and not is_exponent:
            found.append("^")
        found.append(low if up == " " else up)
        is_exponent = up != " "
    return "".join(found)


def flattened(text: str) -> str:
    """A text in which exponents that are printed above their line stand in it."""
    lines, found = text.split("\n"), []
    for place, line in enumerate(lines):
        following = lines[place + 1] if place + 1 < len(lines) else ""
        if ANSWER.match(following) and re.fullmatch(r"[ 0-9]*[0-9][ 0-9]*", line):
            continue
        above = lines[place - 1] if place else ""
        is_answer = ANSWER.match(line) and re.fullmatch(r"[ 0-9]*[0-9][ 0-9]*", above)
        found.append(merged(above, line) if is_answer else line)
    return "\n".join(found)


def bracket(text: str, start: int) -> str:
    """What stands in the bracket that opens at a place."""
    depth = 0
    for place in range(start, len(text)):
        depth += (text[place] in "([{") - (text[place] in ")]}")
        if depth == 0:
            return text[start + 1 : place]
    raise fault(f"a bracket is not closed: {text[start : start + 100]}")


def members(text: str, start: int) -> list[str]:
    """The pieces of the bracket at a place, or the one word there; for `map(.., .., {{f, g}})` those of the inner list."""
    if text.startswith("map(", start):
        return pieces(bracket(bracket(pieces(bracket(text, start + 3))[2], 0), 0))
    if text[start] in "({":
        return pieces(bracket(text, start))
    return [text[start:].split("\n", 1)[0].strip(" ;")]


def stated(text: str, name: str) -> list[str]:
    """The pieces of the list that a name stands for, or of its one polynomial."""
    found = re.search(rf"\b{name}\s*=\s*", text)
    return [] if found is None else members(text, found.end())


def ideal_pieces(text: str, name: str | None) -> list[str]:
    """The generators of an ideal: of the one with a name, else of `cgsPolys`, else of the last that is printed."""
    for wanted in [name] if name else ["cgsPolys"]:
        found = re.search(rf"\b{wanted}\s*=\s*(?:ideal\s*)?", text)
        if found:
            return members(text, found.end())
    ideals = list(re.finditer(r"\bideal\s*(?=[({\w])", text))
    if not ideals or name:
        raise fault(f"there is no ideal {name or ''}".rstrip())
    return members(text, ideals[-1].end())


def read_macaulay2(text: str, *, parameters: Names | None = None, field: int | None = None, ideal: str | None = None) -> Problem:
    """The problem of a ring and an ideal as Macaulay2 takes them, as `toString`, `toExternalString` and `describe` print them, or as it answers,
    with exponents on a line above.

    `ideal` names the ideal of the polynomials; without it, it is `cgsPolys`, or the last one. `field` is needed where the coefficients are
    rational. `parameters` says which names are parameters where the ring does not.
    """
    ring = ring_of(text, parameters, field)
    flat = flattened(text)

    def made(given: Iterable[str]) -> list[Polynomial]:
        bare = (re.sub(r"\b(\d+)_[A-Za-z]\w*", r"\1", piece) for piece in given)
        return [in_field(Expression(piece, ring.names, form="implied").read(), ring) for piece in bare]

    thesis = made(stated(flat, "cgsThesis"))
    points = [tuple(map(int, pieces(bracket(point, 0)))) for point in stated(flat, "cgsPoints")]
    return Problem(
        made(ideal_pieces(flat, ideal)),
        variables=ring.variables,
        parameters=ring.parameters,
        field=ring.modulus,
        order=ring.order,
        zero=made(stated(flat, "cgsZero")),
        nonzero=made(stated(flat, "cgsNonzero")),
        thesis=thesis[0] if thesis else None,
        points=points,
    )


def element(polynomial: Polynomial) -> str:
    """A polynomial as an element of the ring, also where it is a number."""
    text = str(polynomial)
    return f"{text}_cgsRing" if text.isdigit() else text


def list_text(polynomials: Iterable[Polynomial]) -> str:
    return "{" + ", ".join(map(element, polynomials)) + "}"


def macaulay2_text(problem: Problem) -> str:
    """A problem as Macaulay2 takes it; `read_macaulay2` reads it back. Names with `_` are refused, since Macaulay2 has none."""
    ring = problem.ring
    for name in ring.names:
        if "_" in name:
            raise ProblemFault(None, "name", f"Macaulay2 has no names with _: {name}")
    blocks = [block for block in (ring.parameters, ring.variables) if block]
    order = f"MonomialOrder => {ORDER_WORDS[ring.order]}"
    text = f"cgsRing = ZZ/{ring.modulus}" + "".join(f"[{', '.join([*block, order])}]" for block in blocks) + "\n"
    text += f"cgsPolys = {'ideal ' if problem.polys else ''}{list_text(problem.polys)}\n"
    text += f"cgsZero = {list_text(problem.zero)}\n" if problem.zero else ""
    text += f"cgsNonzero = {list_text(problem.nonzero)}\n" if problem.nonzero else ""
    text += f"cgsThesis = {element(problem.thesis)}\n" if problem.thesis is not None else ""
    points = ", ".join("{" + ", ".join(map(str, point)) + "}" for point in problem.points)
    return text + (f"cgsPoints = {{{points}}}\n" if problem.points else "")
