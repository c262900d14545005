"""cgs: comprehensive Gröbner systems from Python, over the program of the same name.

What the program prints is proved; what this module tells beyond that (fractions, factors, pictures) is computed, not proved.
"""

from .answers import Basis, Discovered, Located, Place
from .errors import (
    CgsError,
    FieldFault,
    InputFailed,
    MemoryShort,
    NotBuilt,
    OutOfLimits,
    OutputFailed,
    ProblemFault,
    ProgramFailed,
    ProgramMissing,
    TextFault,
    WordsFault,
    WordsUnreadable,
)
from .problem import Problem
from .rational import RationalSystem, solve_rational
from .ring import MODULI, Polynomial, Ring
from .run import basis, check, discover, locate, solve
from .system import Claim, Give, Refused, Segment, System

__version__ = "1.0.0"

__all__ = [
    "MODULI",
    "Basis",
    "CgsError",
    "Claim",
    "Discovered",
    "FieldFault",
    "Give",
    "InputFailed",
    "Located",
    "MemoryShort",
    "NotBuilt",
    "OutOfLimits",
    "OutputFailed",
    "Place",
    "Polynomial",
    "Problem",
    "ProblemFault",
    "ProgramFailed",
    "ProgramMissing",
    "RationalSystem",
    "Refused",
    "Ring",
    "Segment",
    "System",
    "TextFault",
    "WordsFault",
    "WordsUnreadable",
    "basis",
    "check",
    "discover",
    "locate",
    "solve",
    "solve_rational",
]
