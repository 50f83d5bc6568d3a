"""Answers in a notebook: as dicts, in one line, and as pictures."""

import json
import numpy as np
import os
import pytest
import re
from collections.abc import Iterator
from dataclasses import replace
from typing import Any
from xml.etree import ElementTree

import olr
from conftest import TOP, Program
from olr.model.answers import AboutReference, PlaceOfReference, about
from olr.model.pieces import Pieces
from olr.model.questions import NUMBERS, What

EXAMPLES = TOP / "examples"
SLOW, BREAKDOWN, ROADWORKS = (
    "CwVF/yN2yRpnBAFUAAgbpwYBAf9kK0Fa",
    "CwVF+yN2yhpnBAFdAAsaFg==",
    "CwVGnSN2zhvHCgDX/tIzAw==",
)
UNMATCHED, REFUSED, KIOSK = (
    "CwVGnSN2zhtnBgEB/2IjAQ==",
    "CwVGnSN2zhvHCgDX",
    "KwVGnCN20HPDBwFCATFjT5Y=",
)
FITTING = (SLOW, BREAKDOWN, ROADWORKS, UNMATCHED, KIOSK)


@pytest.fixture(autouse=True)
def environment(program: Program, monkeypatch: pytest.MonkeyPatch) -> None:
    """Paths of maps are asked with the program of the tests."""
    monkeypatch.setenv("OLR_PROGRAM", os.fspath(program.path))


@pytest.fixture
def town() -> Iterator[olr.Map]:
    """The map of the examples, with the usual tolerances."""
    with olr.Map(EXAMPLES) as asked:
        yield asked


@pytest.fixture
def plain_town() -> Iterator[olr.Map]:
    """That map without its bans, with the program's own tolerances."""
    nodes, lines = EXAMPLES / "nodes.csv", EXAMPLES / "lines.csv"
    with olr.Map(nodes, lines, profile="program") as asked:
        yield asked


# ---- answers as dicts, and in one line


@pytest.mark.parametrize("what", NUMBERS)
def test_dicts_are_the_programs_json(what: What, town: olr.Map) -> None:
    """To the byte, with the names and the order of the program; a fault isn't one."""
    for text in FITTING:
        (answer,) = town.answers(what, [text])
        assert isinstance(answer, AboutReference)
        said = json.dumps(answer.to_dict(), separators=(",", ":")).encode()
        assert said == town.raw_answer(what, text)
        assert about(answer, text) == answer and "ref" not in answer.to_dict()


def test_the_dict_of_a_reference(program: Program) -> None:
    for text in (*FITTING, "CwVF/yN2yRpnBAFUAAgbpwYBAf9kK0Fa"):
        shown = program.run("show", "--format", "json", "--", text).stdout
        assert json.dumps(olr.decode(text).to_dict(), separators=(",", ":")) == shown.rstrip()


def test_answers_in_one_line(plain_town: olr.Map) -> None:
    """What they say is on the pages, or in the program's text."""
    ambiguous = plain_town.places(ROADWORKS)
    page = plain_town.match(BREAKDOWN, page=3)
    texts = {
        "<Places: ambiguous, 2 places, total 64, margin 7>": ambiguous,
        "<PlaceOfReference: gap 7, 1 matching, total 71, 6 lines, 701.7 m, cursor 71:1.1>": ambiguous.places[
            1
        ],
        "<Places: none>": plain_town.places(UNMATCHED),
        "<Page: 3 matchings, total 8 to 29, more behind 29:1.2>": page,
        "<Page: 1 matching, total 8>": plain_town.match(SLOW),
        "<Page: no matching>": plain_town.match(UNMATCHED),
        "<Matching: total 8, 4 lines, 561.5 m, cursor 8:1.1.1>": plain_town.match(SLOW).matchings[
            0
        ],
        "<Candidates: 2 points, 2 + 2 lines>": plain_town.candidates(ROADWORKS),
        "<Why: leg 1, try lowest 2, radius 172>": plain_town.why(UNMATCHED),
        "<Why: match>": plain_town.why(SLOW),
        "<Reference: line, 3 points>": olr.decode(SLOW),
        "<Reference: point-along-line, 2 points>": olr.decode(KIOSK),
    }
    for text, answer in texts.items():
        assert repr(answer) == text


# ---- pictures


def drawn(answer: Any) -> ElementTree.Element:
    """What a notebook shows of an answer: it has to be well-formed."""
    return ElementTree.fromstring(answer._repr_html_())


def lines_of(answer: Any, of_reference: bool = False) -> list[list[tuple[float, float]]]:
    """The routes of its picture, those below first; or the line through the points of its reference, which is dashed."""
    found = drawn(answer).iter("{http://www.w3.org/2000/svg}polyline")
    lines = [one.attrib for one in found if ("stroke-dasharray" in one.attrib) == of_reference]
    pairs = [[pair.split(",") for pair in line["points"].split()] for line in lines]
    return [[(float(x), float(y)) for x, y in line] for line in pairs]


def assert_drawn_as(line: list[tuple[float, float]], path: Any) -> None:
    """A line has the shape of a path on the map: its degrees of longitude are shorter than those of latitude."""
    pixels, degrees = np.array(line), np.array(path)
    shrunk = np.cos(np.radians(degrees[:, 1].mean()))
    plane = (degrees - degrees[0]) * [shrunk, -1]
    steps = pixels - pixels[0]
    scale = np.abs(steps).max() / np.abs(plane).max()
    assert np.abs(steps - plane * scale).max() < 0.3
    assert pixels.min() >= 0 and pixels[:, 0].max() <= 324 and pixels[:, 1].max() <= 224


def test_a_route_is_drawn_where_its_shape_was_asked_for(plain_town: olr.Map) -> None:
    """The best one on top; without a shape there is a table alone, which says so. The paths are those of the map's files."""
    network = olr.Network.read(EXAMPLES)
    places = plain_town.places(ROADWORKS, shape=True)
    page = plain_town.match(ROADWORKS, shape=True)
    kiosk = plain_town.match(KIOSK, shape=True).matchings[0]
    assert "No route is drawn" not in places._repr_html_()
    below, above = lines_of(places)
    first, second = (place.matching.outer for place in places.places)
    assert first and second
    assert_drawn_as(above, network.path(first))
    assert_drawn_as(below, network.path(second))
    for answer in (places.places[0], places.places[0].matching, page):
        assert_drawn_as(lines_of(answer)[-1], network.path(first))
    assert_drawn_as(lines_of(kiosk)[-1], network.path(kiosk.route))
    for other in (plain_town.places(ROADWORKS), replace(kiosk, shape=None)):
        assert not lines_of(other) and "No route is drawn" in other._repr_html_()


def test_the_points_of_a_reference_are_drawn(town: olr.Map) -> None:
    """Without a map; and of an answer that knows its reference."""
    reference = olr.decode(SLOW)
    path = [(point.lon / 1e6, point.lat / 1e6) for point in reference.points]
    known = about(town.why(SLOW), SLOW)
    for answer in (reference, known):
        (line,) = lines_of(answer, of_reference=True)
        assert_drawn_as(line, path)
        texts = drawn(answer).iter("{http://www.w3.org/2000/svg}text")
        assert [text.text for text in texts] == ["1", "2", "3"]
    for answer in (olr.Page([]), about(olr.Page([]), REFUSED)):
        assert not lines_of(answer, of_reference=True)


def test_the_tables(plain_town: olr.Map) -> None:
    def cells(answer: Any, tag: str = "td") -> list[str | None]:
        return [cell.text for cell in drawn(answer).iter(tag)]

    heads = ["place", "total", "lines", "metres", "cursor", "gap", "matchings"]
    places = plain_town.places(ROADWORKS)
    assert cells(places, "th") == heads
    assert cells(places)[:7] == ["1", "64", "107 201 501 503", "565.8", "64:1.2", "0", "1"]
    assert cells(places)[9] == "107 201 202 109 901 902"
    assert cells(plain_town.why(UNMATCHED)) == ["12:1.1", "lowest", "2", "160:1.3", "radius", "172"]
    assert cells(plain_town.candidates(SLOW))[:5] == ["1", "1", "13", "104", "2"]
    assert cells(olr.decode(SLOW), "th")[:6] == ["point", "class", "form", "interval", "lat", "lon"]
    assert cells(olr.decode(SLOW))[:6] == ["1", "3", "2", "4", "49.871246", "7.415739"]
    page = plain_town.match(BREAKDOWN)
    many = replace(page, matchings=[*page.matchings] * 3)
    assert len(cells(many, "tr")) == 11
    assert re.search(r"\b2 more aren't shown\.", "".join(drawn(many).itertext()))
    long = replace(
        page.matchings[0], outer=Pieces([olr.Piece(line, 0, 10) for line in range(1, 9)])
    )
    assert cells(long)[1:3] == ["1 2 3 4 5 6 ...", "8.0"]


def test_texts_of_others_are_escaped() -> None:
    """Cursors and names of a wrong program are no markup of a notebook."""
    evil = "<script>alert(1)</script>\"'&"
    matching = olr.Matching(evil, (), (), Pieces([], evil), 1, Pieces([], evil), None)
    place = PlaceOfReference(0, matching, 1)
    answers = [
        matching,
        about(olr.Page([matching], evil), evil),
        about(olr.Places(1, (place,), evil, 1), evil),  # type: ignore[arg-type]
    ]
    for answer in answers:
        assert "<script" not in answer._repr_html_()
        assert evil.partition("@")[0] in "".join(drawn(answer).itertext())
