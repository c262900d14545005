"""What the tests share: the checkout, and whether there is a program."""

import pathlib
import re

import pytest
from cgs import ProgramMissing, System
from cgs.run import program
from hypothesis import HealthCheck, settings

settings.register_profile("cgs", max_examples=25, deadline=None, database=None, derandomize=True, suppress_health_check=[HealthCheck.too_slow])
settings.load_profile("cgs")

TOP = pathlib.Path(__file__).resolve().parents[2]


def has_program() -> bool:
    try:
        program()
    except ProgramMissing:
        return False
    return True


needs_program = pytest.mark.skipif(not has_program(), reason="the program is not built")


def gallery_text(name: str) -> str:
    """The list of an example as the gallery shows it whole."""
    text = (TOP / "docs/GALLERY.md").read_text()
    found = re.search(rf"\$ \./cgs solve < examples/{name}\.cgs\n(.*?)\n```", text, re.S)
    assert found is not None
    return found[1] + "\n"


def gallery_system(name: str) -> System:
    from cgs import Problem

    return System.parse(gallery_text(name), Problem.read(TOP / f"examples/{name}.cgs"))
