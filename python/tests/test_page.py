"""The page: its parts, its colours, and what a browser says of it."""

import html.parser
import itertools
import re
import shutil
import subprocess

import cgs
import pytest
from cgs.factors import factored
from cgs.html import style
from cgs.kinds import DARK, LIGHT
from cgs.plane import chosen_axes, plane
from conftest import gallery_system

CHROMIUM = shutil.which("chromium")
VOID = {"meta", "link", "br"}


class Checker(html.parser.HTMLParser):
    """Counts tags, collects what a page refers to, and looks whether each tag is closed."""

    def __init__(self):
        super().__init__()
        self.open, self.ids, self.links, self.outside = [], [], [], []

    def handle_starttag(self, tag, attrs):
        given = dict(attrs)
        if tag not in VOID:
            self.open.append(tag)
        self.ids += [given["id"]] if "id" in given else []
        target = given.get("href") or given.get("src") or ""
        self.links += [target[1:]] if target.startswith("#") else []
        self.outside += [target] if target and not target.startswith(("#", "data:")) else []

    def handle_startendtag(self, tag, attrs):
        self.handle_starttag(tag, attrs)
        if tag not in VOID:
            self.open.pop()

    def handle_endtag(self, tag):
        assert self.open.pop() == tag


@pytest.mark.parametrize("name", ["two-circles", "cubic", "four-bar", "quadratic", "watt", "pole-placement", "three-planes"])
def test_page_is_whole(name):
    system = gallery_system(name)
    text = system.html()
    checker = Checker()
    checker.feed(text)
    assert checker.open == []
    assert checker.outside == []
    assert len(set(checker.ids)) == len(checker.ids) == len(system)
    assert set(checker.links) == set(checker.ids)
    assert "http:" not in text and "https:" not in text and "<script" not in text
    assert (len(system.ring.parameters) == 2) == ('class="plane"' in text)


def test_refused_and_titles():
    text = "segment 0\nnonzero a\nuntested\nbasis a*x+1\nsolvable yes\nfinite yes\nstandard 1\nrefused 1 budget\nzero a\nsegments 1 refused 1\n"
    system = cgs.System.parse(text, cgs.Ring(7, ("a",), ("x",)))
    page = system.html(title="<One>")
    assert "refused: budget" in page and "&lt;One&gt;" in page and "Untested" in page
    assert system._repr_html_().startswith("<iframe srcdoc=")
    empty = cgs.System.parse("segments 0 refused 0\n", cgs.Ring(7, ("a",), ("x",)))
    assert "There is no entry" in empty.html()


def test_factors_multiply_to_the_condition():
    for name in ["two-circles", "watt", "four-bar", "cubic", "slider-crank"]:
        system = gallery_system(name)
        for entry in system:
            for part in (*entry.zero, *entry.nonzero):
                found, modulus = factored(part), part.ring.modulus
                product = part.poly.one.mul_ground(found.unit.numerator * pow(found.unit.denominator, -1, modulus))
                for factor, power in found.factors:
                    product *= factor.poly.set_domain(part.ring.domain) ** power
                assert product == part.poly


def test_plane():
    found = plane(gallery_system("two-circles"))
    assert found is not None and found.axes == ("a", "r")
    assert {entry.name: len(points) for entry, points in found.points} == {"0": 576, "1.0": 24, "1.4.3.2": 1, "2.1": 24}
    assert [curve.label for curve in found.curves] == ["a", "r-1"]
    assert plane(gallery_system("quadratic")) is None
    fixed = plane(gallery_system("quadratic"), fixed={"a": 1}, window=(-3, 3, -3, 3))
    assert fixed is not None and fixed.axes == ("b", "c")
    assert [len(points) for _, points in fixed.points] == [49, 0, 0, 0]


def test_axes():
    assert chosen_axes(["a", "b", "c"], None, {}) is None
    assert chosen_axes(["a", "b", "c"], ["c", "a"], {"b": 1}) == ("c", "a")
    for axes, fixed in [(["a", "z"], {}), (["a", "a"], {}), (["a", "b"], {})]:
        with pytest.raises(cgs.ProblemFault):
            chosen_axes(["a", "b", "c"], axes, fixed)


def test_figure():
    pytest.importorskip("matplotlib")
    system = gallery_system("watt")
    for is_dark in (False, True):
        drawn = system.plot(is_dark=is_dark, window=(-3, 3, -2, 2))
        labels = drawn.axes[0].get_legend_handles_labels()[1]
        assert "0: no solution" in labels and "p^2+q^2-2 = 0" in labels
    with pytest.raises(cgs.ProblemFault):
        gallery_system("quadratic").plot()


def linear(colour):
    """The three parts of a colour, in light."""
    parts = [int(colour[place : place + 2], 16) / 255 for place in (1, 3, 5)]
    return [part / 12.92 if part <= 0.04045 else ((part + 0.055) / 1.055) ** 2.4 for part in parts]


def luminance(colour):
    return sum(weight * part for weight, part in zip((0.2126, 0.7152, 0.0722), linear(colour)))


def contrast(one, other):
    high, low = sorted((luminance(one), luminance(other)), reverse=True)
    return (high + 0.05) / (low + 0.05)


# Machado, Oliveira and Fernandes (2009): how the parts of a colour look without red, green or blue cones
BLIND = {
    "red": ((0.152286, 1.052583, -0.204868), (0.114503, 0.786281, 0.099216), (-0.003882, -0.048116, 1.051998)),
    "green": ((0.367322, 0.860646, -0.227968), (0.280085, 0.672501, 0.047413), (-0.011820, 0.042940, 0.968881)),
    "blue": ((1.255528, -0.076749, -0.178779), (-0.078411, 0.930809, 0.147602), (0.004733, 0.691367, 0.303900)),
}


def perceived(colour, matrix):
    """A colour in the space of Oklab, after a matrix was applied to its light."""
    red, green, blue = (max(0.0, min(1.0, sum(weight * part for weight, part in zip(row, linear(colour))))) for row in matrix)
    long = (0.4122214708 * red + 0.5363325363 * green + 0.0514459929 * blue) ** (1 / 3)
    middle = (0.2119034982 * red + 0.6806995451 * green + 0.1073969566 * blue) ** (1 / 3)
    short = (0.0883024619 * red + 0.2817188376 * green + 0.6299787005 * blue) ** (1 / 3)
    return (
        0.2104542553 * long + 0.7936177850 * middle - 0.0040720468 * short,
        1.9779984951 * long - 2.4285922050 * middle + 0.4505937099 * short,
        0.0259040371 * long + 0.7827717662 * middle - 0.8086757660 * short,
    )


def variables(dark):
    """The colours of the page."""
    light, _, rest = style().partition("@media (prefers-color-scheme: dark)")
    return dict(re.findall(r"--([\w]+): (#[0-9a-f]{6})", rest.split("* {")[0] if dark else light))


@pytest.mark.parametrize("dark", [False, True])
def test_colours(dark):
    """Kinds differ for every eye, and all marks stand out from the sheet; beside its colour each has a shape of its own."""
    colours = variables(dark)
    kinds = [colours[name] for name in ("none", "finite", "free", "refused")]
    for matrix in (((1, 0, 0), (0, 1, 0), (0, 0, 1)), *BLIND.values()):
        for one, other in itertools.combinations(kinds, 2):
            distance = sum((a - b) ** 2 for a, b in zip(perceived(one, matrix), perceived(other, matrix))) ** 0.5
            assert distance > 0.05, (one, other)
    tones = DARK if dark else LIGHT
    for name, three in tones.items():
        assert colours[name] == three[0]
        assert name == "refused" or [colours[f"{name}{place}"] for place in range(3)] == list(three)
        assert all(contrast(colour, colours["sheet"]) >= 4 for colour in three)
    for colour in kinds:
        assert contrast(colour, colours["on"]) >= 4
    for name in ("ink", "soft"):
        assert contrast(colours[name], colours["ground"]) >= 4.5


@pytest.mark.skipif(CHROMIUM is None, reason="there is no chromium")
def test_browser(tmp_path):
    """A browser has nothing to say in its console, and paints the picture."""
    page, shot = tmp_path / "page.html", tmp_path / "shot.png"
    page.write_text(gallery_system("two-circles").html(), encoding="utf-8")
    words = [CHROMIUM, "--headless", "--no-sandbox", "--disable-gpu", "--hide-scrollbars", "--window-size=1000,1600", "--enable-logging=stderr"]
    words += ["--host-resolver-rules=MAP * ~NOTFOUND", f"--user-data-dir={tmp_path / 'profile'}", f"--screenshot={shot}", page.as_uri()]
    ran = subprocess.run(words, capture_output=True, timeout=100, check=False)
    assert ran.returncode == 0
    assert b"CONSOLE" not in ran.stderr
    image = pytest.importorskip("matplotlib.image").imread(shot)
    for colour in ("none", "finite", "free"):
        wanted = [int(variables(False)[colour][place : place + 2], 16) / 255 for place in (1, 3, 5)]
        assert (abs(image[:, :, :3] - wanted).max(axis=2) < 0.01).sum() > 100, colour
