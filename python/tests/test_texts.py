"""Every text of the cases is read and printed again, byte for byte; no program is needed."""

import pathlib

import pytest
from cgs import Basis, Discovered, Located, Problem, ProblemFault, System

TOP = pathlib.Path(__file__).resolve().parents[2]


def words(case):
    return (case / "args").read_text().split("\n") if (case / "args").exists() else []


def cases(*commands, statuses=("0", "3")):
    """The cases of these commands that end with one of the statuses."""
    for case in sorted((TOP / "cases").iterdir()):
        if case.is_dir() and words(case)[:1] and words(case)[0] in commands and (case / "stdout").exists():
            status = (case / "status").read_text().strip() if (case / "status").exists() else "0"
            if status in statuses and (case / "stdin").exists():
                yield pytest.param(case, id=case.name)


def given(case):
    return Problem.parse((case / "stdin").read_bytes())


@pytest.mark.parametrize("case", cases("check"))
def test_problem(case):
    text = (case / "stdout").read_text()
    assert str(given(case)) == text
    assert str(Problem.parse(text)) == text
    assert Problem.parse(text) == given(case)


@pytest.mark.parametrize("case", cases("solve"))
def test_system(case):
    text = (case / "stdout").read_text()
    system = System.parse(text, given(case))
    assert str(system) == text
    assert System.parse(str(system), system.ring) == system


@pytest.mark.parametrize("case", cases("basis", statuses=("0",)))
def test_basis(case):
    text = (case / "stdout").read_text()
    assert str(Basis.parse(text, given(case).ring)) == text


@pytest.mark.parametrize("case", cases("locate"))
def test_located(case):
    text = (case / "stdout").read_text()
    assert str(Located.parse(text, given(case).ring)) == text


@pytest.mark.parametrize("case", cases("discover"))
def test_discovered(case):
    text = (case / "stdout").read_text()
    assert str(Discovered.parse(text, given(case))) == text


@pytest.mark.parametrize("case", cases("check", "basis", "solve", "locate", "discover", statuses=("4",)))
def test_fault(case):
    """The reader finds the same first fault as the program; what `locate` and `discover` miss is told by them alone."""
    _, _, line, kind = (case / "stdout").read_text().split()
    if kind in ("no-point", "no-thesis"):
        pytest.skip("told by the command")
    with pytest.raises(ProblemFault) as caught:
        given(case)
    assert (caught.value.line, caught.value.kind) == (int(line), kind)


@pytest.mark.parametrize("file", sorted((TOP / "examples").glob("**/*.cgs")), ids=lambda file: file.stem)
def test_example(file):
    problem = Problem.read(file)
    assert problem.title
    assert Problem.parse(str(problem)) == problem
