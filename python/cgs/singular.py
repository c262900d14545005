"""Problems as Singular takes and prints them: the parameters are those of the coefficients."""

from __future__ import annotations

import re
from collections.abc import Iterable
from dataclasses import dataclass
from typing import Any, Literal

from .errors import ProblemFault
from .expressions import Expression, in_field
from .problem import Names, Problem, checked_ring, names_of
from .ring import Polynomial, Ring

ORDER_WORDS = {"lex": "lp", "grlex": "Dp", "grevlex": "dp"}
ORDERS_OF = {word: order for order, word in ORDER_WORDS.items()}
DECLARED = re.compile(r"\bring\s+\w+\s*=\s*(.*?);", re.S)
COEFFICIENTS = re.compile(r"^//\s*coefficients:\s*(ZZ/(\d+)|QQ)(?:\(([^)]*)\))?", re.M)
BLOCK = re.compile(r"^//\s*block\s+\d+\s*:\s*ordering\s+(\w+)\s*\n//\s*:\s*names\s+(.*)$", re.M)
STATED = re.compile(r"\b(?:ideal|poly|list)\s+(\w+)\s*(?:=\s*(.*?))?;", re.S)
PRINTED = re.compile(r"^\s*(\w+)\[(\d+)\]\s*=\s*(.*?)\s*;?\s*$", re.M)
POINT = re.compile(r"^// point((?: \d+)*)$", re.M)


@dataclass(frozen=True)
class Blocks:
    """What a text says of its ring: the characteristic, the parameters of the coefficients, and the variables with their orders, block by block."""

    characteristic: int
    parameters: tuple[str, ...]
    blocks: tuple[tuple[str, tuple[str, ...]], ...]


def fault(said: str) -> ProblemFault:
    return ProblemFault(None, "expression", said)


def pieces(text: str) -> list[str]:
    """The pieces of a text between the commas that stand in no bracket."""
    found, depth, start = [], 0, 0
    for place, letter in enumerate(text):
        depth += (letter in "([{") - (letter in ")]}")
        if letter == "," and depth == 0:
            found.append(text[start:place].strip())
            start = place + 1
    found.append(text[start:].strip())
    return found if any(found) else []


def bare(text: str) -> str:
    """A text without the bracket around it."""
    text = text.strip()
    return text[1:-1].strip() if text.startswith("(") and text.endswith(")") else text


def declared(text: str) -> Blocks:
    """The ring of a declaration: coefficients, variables, orders."""
    parts = pieces(text)
    if len(parts) != 3:
        raise fault(f"no ring with coefficients, variables and an order: {text[:200]}")
    first, *parameters = pieces(bare(parts[0]))
    number = first.removeprefix("ZZ/").replace("QQ", "0")
    if not number.isdigit():
        raise fault(f"no characteristic: {first}")
    names = tuple(pieces(bare(parts[1])))
    orders = [order for order in pieces(bare(parts[2]) if "," in parts[2] else parts[2]) if order.lower() != "c"]
    blocks, start = [], 0
    for order in orders:
        word, _, count = order.rstrip(")").partition("(")
        end = start + int(count) if count else len(names)
        blocks.append((word.strip(), names[start:end]))
        start = end
    return Blocks(int(number), tuple(parameters), tuple(blocks))


def printed(text: str) -> Blocks:
    """The ring as Singular prints it."""
    coefficients = COEFFICIENTS.search(text)
    if coefficients is None:
        raise fault("there is no ring: neither `ring r = ...;` nor what Singular prints of one")
    blocks = tuple((word, tuple(names.split())) for word, names in BLOCK.findall(text))
    return Blocks(int(coefficients[2] or 0), names_of(coefficients[3] or ""), blocks)


def ring_of(found: Blocks, parameters: Names | None, field: int | None) -> Ring:
    """The ring of a problem. The parameters are those asked for, else those of the coefficients, else the second block."""
    names = tuple(name for _, block in found.blocks for name in block)
    words = {word for word, _ in found.blocks}
    if len(words) != 1 or not words <= set(ORDERS_OF):
        raise fault(f"the order is to be one of {', '.join(ORDERS_OF)}, the same for all blocks: {' '.join(sorted(words))}")
    chosen = found.parameters if parameters is None else names_of(parameters)
    if parameters is None and not chosen and len(found.blocks) == 2:
        chosen = found.blocks[1][1]
    modulus = found.characteristic if field is None else field
    if modulus == 0:
        raise ProblemFault(None, "field", "the coefficients are rational: say with field= which prime they are taken modulo")
    return checked_ring(modulus, chosen, tuple(name for name in names if name not in chosen), ORDERS_OF[words.pop()])


def statements(text: str) -> dict[str, list[str]]:
    """The polynomials that each name stands for, as texts, from declarations and from what is printed."""
    found: dict[str, list[str]] = {}
    without = re.sub(r"//[^\n]*", "", text)
    for name, given in STATED.findall(without):
        found[name] = pieces(given)
    for name, place, given in PRINTED.findall(without):
        if place == "1":
            found[name] = []
        found.setdefault(name, []).append(given)
    return found


def read_singular(text: str, *, parameters: Names | None = None, field: int | None = None, ideal: str | None = None) -> Problem:
    """The problem of a ring and an ideal, declared or printed, in the long or the short form.

    `ideal` names the ideal of the polynomials where there are several; else it is `cgs_polys`, or the one that is there. `field` is needed where
    the coefficients are rational. `parameters` says which names are parameters where the ring does not.
    """
    stated = DECLARED.search(text)
    ring = ring_of(declared(stated[1]) if stated else printed(text), parameters, field)
    found = statements(text)
    extra = {name: found.pop(name, []) for name in ("cgs_zero", "cgs_nonzero", "cgs_thesis")}
    name = ideal or ("cgs_polys" if "cgs_polys" in found else next(iter(found), ""))
    if name not in found or (ideal is None and name != "cgs_polys" and len(found) > 1):
        raise fault(f"which ideal is meant? There are: {' '.join(found) or 'none'}")
    form: Literal["plain", "short"] = "short" if all(len(each) == 1 for each in ring.names) else "plain"

    def made(given: Iterable[str]) -> list[Polynomial]:
        return [in_field(Expression(piece, ring.names, form).read(), ring) for piece in given]

    thesis = made(extra["cgs_thesis"])
    points: list[Any] = [tuple(map(int, numbers.split())) for numbers in POINT.findall(text)]
    return Problem(
        made(found[name]),
        variables=ring.variables,
        parameters=ring.parameters,
        field=ring.modulus,
        order=ring.order,
        zero=made(extra["cgs_zero"]),
        nonzero=made(extra["cgs_nonzero"]),
        thesis=thesis[0] if thesis else None,
        points=points,
    )


def ideal_text(name: str, polynomials: Iterable[Polynomial]) -> str:
    """A declaration of an ideal; one without a value has no generators."""
    given = ",\n  ".join(map(str, polynomials))
    return f"ideal {name} = {given};\n" if given else f"ideal {name};\n"


def singular_text(problem: Problem) -> str:
    """A problem as Singular takes it; `read_singular` reads it back. Points stand in comments."""
    ring = problem.ring
    coefficients = ",".join([str(ring.modulus), *ring.parameters])
    text = f"ring cgs_ring = ({coefficients}),({','.join(ring.variables)}),{ORDER_WORDS[ring.order]};\n"
    text += ideal_text("cgs_polys", problem.polys)
    text += ideal_text("cgs_zero", problem.zero) if problem.zero else ""
    text += ideal_text("cgs_nonzero", problem.nonzero) if problem.nonzero else ""
    text += f"poly cgs_thesis = {problem.thesis};\n" if problem.thesis is not None else ""
    return text + "".join("// point" + "".join(f" {number}" for number in point) + "\n" for point in problem.points)
