"""Singular and Macaulay2 themselves, where they are installed: they take what is written for them, and agree with the lists at points."""

import itertools
import shutil
import subprocess

import cgs
import pytest
from cgs.singular import ORDER_WORDS
from conftest import TOP, gallery_system

needs_singular = pytest.mark.skipif(shutil.which("Singular") is None, reason="Singular is not installed")
needs_macaulay2 = pytest.mark.skipif(shutil.which("M2") is None, reason="Macaulay2 is not installed")
NAMES = ["two-circles", "heron", "watt", "pole-placement", "three-bar"]


def singular(text):
    """What Singular prints for a text."""
    return subprocess.run(["Singular", "-q"], input=text.encode(), capture_output=True, timeout=100, check=True).stdout.decode()


@needs_singular
@pytest.mark.parametrize("name", NAMES)
@pytest.mark.parametrize("short", [0, 1])
def test_singular_prints_the_same(name, short):
    problem = cgs.Problem.read(TOP / f"examples/{name}.cgs")
    printed = singular(problem.to_singular() + f"short={short};\ncgs_ring;\ncgs_polys;\nquit;\n")
    wanted = cgs.Problem.of(problem.ring, problem.polys)
    assert cgs.Problem.from_singular(printed) == wanted


def specialised(part, numbers):
    """A polynomial at a point, as a text in the variables."""
    ring, count = part.ring, len(part.ring.parameters)
    table = {}
    for value, exponents in part.terms:
        for name, exponent in zip(ring.parameters, exponents):
            value = value * pow(numbers[name], exponent, ring.modulus) % ring.modulus
        table[exponents[count:]] = table.get(exponents[count:], 0) + value
    return str(cgs.Ring(ring.modulus, (), ring.variables, ring.order).polynomial(table))


def points_of(system, most=4):
    """Some points of each segment, among those with small numbers."""
    found = {entry.name: [] for entry in system}
    for numbers in itertools.product([0, 1, 2, -1, 5, 3], repeat=len(system.ring.parameters)):
        point = dict(zip(system.ring.parameters, numbers))
        entry = system.at(point)
        if entry is not None and len(found[entry.name]) < most:
            found[entry.name].append(point)
    return found


@needs_singular
@pytest.mark.parametrize("name", NAMES)
def test_singular_agrees_at_points(name):
    """At each point Singular's own basis and that of the segment have the same leads, and each reduces the other to 0."""
    system = gallery_system(name)
    ring, problem = system.ring, system.problem
    text = f"ring cgs_ring = {ring.modulus},({','.join(ring.variables)}),{ORDER_WORDS[ring.order]};\nideal cgs_i; ideal cgs_s; ideal cgs_b;\n"
    count = 0
    for entry_name, points in points_of(system).items():
        for point in points:
            text += f"cgs_i = {','.join(specialised(part, point) for part in problem.polys)};\ncgs_s = std(cgs_i);\n"
            text += f"cgs_b = {','.join(specialised(part, point) for part in system[entry_name].basis) or '0'};\nattrib(cgs_b,\"isSB\",1);\n"
            text += "if ((size(reduce(cgs_b,cgs_s))==0) and (size(reduce(cgs_i,cgs_b))==0) and (size(cgs_b)==size(minbase(lead(cgs_s)))))\n"
            text += '{ "agree"; } else { "differ"; }\n'
            count += 1
    answers = singular(text + "quit;\n").split()
    assert count > len(system)
    assert answers == ["agree"] * count


@needs_macaulay2
@pytest.mark.parametrize("name", ["two-circles", "three-bar"])
def test_macaulay2_prints_the_same(name, tmp_path):
    problem = cgs.Problem.read(TOP / f"examples/{name}.cgs")
    wanted = cgs.Problem.of(problem.ring, problem.polys)
    script = tmp_path / "script.m2"
    script.write_text(problem.to_macaulay2() + "print toExternalString cgsRing\nprint toString cgsPolys\nprint toExternalString cgsPolys\n")
    ran = subprocess.run(["M2", "--script", str(script)], capture_output=True, timeout=100, check=True)
    ring, plain, external = ran.stdout.decode().split("\n")[:3]
    for ideal in (plain, external):
        assert cgs.Problem.from_macaulay2(f"{ring}\n{ideal}\n") == wanted
    asked = (problem.to_macaulay2() + "cgsPolys\n").encode()
    answered = subprocess.run(["M2", "-q", "--no-readline"], input=asked, capture_output=True, timeout=100, check=True)
    lines = answered.stdout.decode().split("\n")
    last = max(place for place, line in enumerate(lines) if "= ideal (" in line)
    assert cgs.Problem.from_macaulay2("\n".join([ring, *lines[last - 1 : last + 1]])) == wanted
