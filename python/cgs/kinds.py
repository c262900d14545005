"""The four kinds of entries that the pages and pictures tell apart, each by a colour, a sign and words."""

from __future__ import annotations

from .system import Entry, Refused

KINDS = {"finite": "finitely many solutions", "none": "no solution", "free": "infinitely many solutions", "refused": "refused"}
SIGNS = {"none": "\N{EMPTY SET}", "free": "\N{INFINITY}", "refused": "?"}

# three tones for each kind, on a light and on a dark ground, after Okabe and Ito (2008); a test looks at them with eyes that lack a kind of cones
LIGHT = {
    "finite": ("#005fa3", "#4b3fa8", "#1577b8"),
    "none": ("#c44e00", "#7d3300", "#a8442f"),
    "free": ("#008a63", "#00594a", "#4d7a12"),
    "refused": ("#3a3f45", "#3a3f45", "#3a3f45"),
}
DARK = {
    "finite": ("#4ba6ee", "#a9a1f5", "#8cc8f2"),
    "none": ("#ff8f4d", "#d9a066", "#ff9d94"),
    "free": ("#4fe3b3", "#3fb899", "#b4d45a"),
    "refused": ("#e4e7eb", "#e4e7eb", "#e4e7eb"),
}


def kind(entry: Entry) -> str:
    """The kind of an entry: a key of KINDS."""
    if isinstance(entry, Refused):
        return "refused"
    if not entry.solvable:
        return "none"
    return "finite" if entry.finite else "free"


def sign(entry: Entry) -> str:
    """What stands in the sign of an entry: the number of its solutions, or a sign."""
    if isinstance(entry, Refused) or entry.standard == "none" or not entry.solvable:
        return SIGNS[kind(entry)]
    text = str(entry.standard)
    return text if len(text) < 4 else "\N{GREATER-THAN OR EQUAL TO}1k"


def words(entry: Entry) -> str:
    """What is told of an entry, in words."""
    if isinstance(entry, Refused):
        return f"refused: {entry.cause}"
    if not entry.solvable:
        return "no solution"
    if not entry.finite:
        return "infinitely many solutions"
    if entry.standard == "many":
        return "more than a million solutions"
    return "1 solution" if entry.standard == 1 else f"{entry.standard} solutions"
