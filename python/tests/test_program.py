"""The program itself: every example through it and back, and each status as its exception."""

import pathlib
import subprocess
import sys

import cgs
import pytest
from cgs.run import program, run
from conftest import TOP, needs_program

pytestmark = needs_program
SLOW = {"cosines", "six-edges"}
EXAMPLES = sorted((TOP / "examples").glob("*.cgs"))
QUADRATIC = cgs.Problem(["a*x^2+b*x+c"], variables="x", parameters="a b c")


def printed(command, text):
    return subprocess.run([program(), *command], input=text.encode(), stdout=subprocess.PIPE, check=False).stdout.decode()


@pytest.mark.parametrize("file", EXAMPLES, ids=lambda file: file.stem)
def test_example(file):
    problem = cgs.Problem.read(file)
    assert cgs.check(file.read_text()) == problem
    assert printed(["check"], file.read_text()) == str(problem)
    text = printed(["solve", "--workers", "4"], file.read_text())
    system = cgs.System.parse(text, problem) if file.stem in SLOW else cgs.solve(problem)
    assert str(system) == text
    assert cgs.System.parse(text, problem) == system
    if problem.thesis is not None:
        assert str(cgs.discover(problem)) == printed(["discover"], file.read_text())
    if problem.points:
        assert str(cgs.locate(problem)) == printed(["locate"], file.read_text())
    if file.stem == "two-circles":
        assert str(cgs.basis(problem)) == printed(["basis"], file.read_text())


def test_history():
    system = cgs.solve(QUADRATIC, history=True)
    assert system.history is not None
    assert isinstance(system.history[0], cgs.Claim)
    assert cgs.System.parse(str(system), QUADRATIC) == system


def test_out_of_limits():
    with pytest.raises(cgs.OutOfLimits) as caught:
        cgs.solve(QUADRATIC, depth=1)
    assert [entry.name for entry in caught.value.partial] == ["0", "1.1", "1.2"]
    assert caught.value.partial.refused[0].cause == "depth"
    assert cgs.solve(QUADRATIC, depth=1, keep_refused=True) == caught.value.partial
    with pytest.raises(cgs.OutOfLimits) as caught:
        cgs.basis(cgs.Problem(["x^2-1", "x*y-1"], variables="x y", field=7), budget=15)
    assert caught.value.cause == "budget"
    with pytest.raises(cgs.OutOfLimits):
        cgs.locate(QUADRATIC.with_points([(0, 0, 1)]), depth=1)
    thesis = cgs.Problem(["a*x^2+b*x+c"], variables="x", parameters="a b c", thesis="x")
    with pytest.raises(cgs.OutOfLimits):
        cgs.discover(thesis, depth=1)


def test_faults():
    with pytest.raises(cgs.ProblemFault) as caught:
        cgs.check("field 7\nparameters a\nvariables x\norder lex\npoly a*z\nend\n")
    assert (caught.value.line, caught.value.kind) == (5, "unknown")
    with pytest.raises(cgs.ProblemFault) as caught:
        cgs.locate(QUADRATIC)
    assert (caught.value.line, caught.value.kind) == (0, "no-point")
    for words, kind in [([], "none"), (["solv"], "command"), (["check", "--fast"], "option"), (["solve", "--depth", "0"], "value")]:
        with pytest.raises(cgs.WordsFault) as words_caught:
            run(words)
        assert words_caught.value.kind == kind


ASK = {"basis": cgs.basis, "solve": cgs.solve, "locate": cgs.locate, "discover": cgs.discover}


def cases():
    """The cases with a status, but for those that close or fill a stream: the words, the input and the status."""
    for case in sorted((TOP / "cases").iterdir()):
        if not (case / "status").exists() or (case / "into").exists():
            continue
        status = int((case / "status").read_text())
        words = (case / "args").read_text().split() if (case / "args").exists() else []
        if status in (2, 4) or (status == 3 and words[0] in ASK and (case / "stdin").exists()):
            yield pytest.param(words, case, status, id=case.name)


@pytest.mark.parametrize("words, case, status", cases())
def test_case(words, case, status):
    given = (case / "stdin").read_bytes() if (case / "stdin").exists() else b""
    said = (case / "stdout").read_text()
    if status == 3:
        limits = {word[2:]: int(value) for word, value in zip(words[1::2], words[2::2])}
        with pytest.raises(cgs.OutOfLimits) as refused:
            ASK[words[0]](cgs.Problem.parse(given), **limits)
        assert refused.value.cause in said if words[0] == "basis" else str(refused.value.partial) == said
    elif status == 2:
        with pytest.raises(cgs.WordsFault) as words_caught:
            run(words, given)
        assert said == f"fault words {words_caught.value.kind}\n"
    else:
        with pytest.raises(cgs.ProblemFault) as caught:
            run(words, given)
        assert said == f"fault line {caught.value.line} {caught.value.kind}\n"


def ends_with(folder, status, said=""):
    """A program that only ends with a status."""
    made = pathlib.Path(folder) / "cgs"
    made.write_text(f"#!/bin/sh\ncat >/dev/null\necho '{said}' >&2\nexit {status}\n")
    made.chmod(0o755)
    return str(made)


@pytest.mark.parametrize(
    "status, kind",
    [
        (5, cgs.InputFailed),
        (6, cgs.OutputFailed),
        (7, cgs.MemoryShort),
        (8, cgs.WordsUnreadable),
        (9, cgs.NotBuilt),
        (77, cgs.ProgramFailed),
    ],
)
def test_status(status, kind, tmp_path, monkeypatch):
    monkeypatch.setenv("CGS", ends_with(tmp_path, status, "why"))
    with pytest.raises(kind, match="why") as caught:
        cgs.solve(QUADRATIC)
    assert caught.value.status == status


def test_no_program(tmp_path, monkeypatch):
    monkeypatch.setenv("CGS", str(tmp_path / "nothing"))
    with pytest.raises(cgs.ProgramMissing):
        cgs.solve(QUADRATIC)


def test_report(tmp_path):
    page = tmp_path / "page.html"
    words = [sys.executable, "-m", "cgs", str(TOP / "examples/two-circles.cgs"), "-o", str(page), "--workers", "2"]
    ran = subprocess.run(words, cwd=TOP / "python", capture_output=True, check=False)
    assert (ran.returncode, ran.stdout, ran.stderr) == (0, b"", b"")
    assert "found by the program" in page.read_text()
    ran = subprocess.run([*words, "--depth", "1"], cwd=TOP / "python", capture_output=True, check=False)
    assert (ran.returncode, ran.stderr) == (3, b"")
    bad = tmp_path / "bad.cgs"
    bad.write_text("field 9\n")
    ran = subprocess.run([sys.executable, "-m", "cgs", str(bad)], cwd=TOP / "python", capture_output=True, check=False)
    assert (ran.returncode, ran.stderr.decode()) == (4, f"cgs-report: {bad}:1: field\n")
