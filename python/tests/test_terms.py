"""What speaks for and against places, by hand: what answers say of it, and what a feed shows."""

import json
import numpy as np
import pytest
from typing import Any

import olr
from confidences import made_terms
from conftest import TOP, Program
from drawing import Drawing
from olr.confidence.feed import statistics_of
from olr.confidence.terms import Terms, terms_of
from olr.confidence.weights import OF_PLACE, WEIGHTS, differences_of, probabilities
from olr.geometry.parts import ends_of
from olr.model.answers import Places, ReferencePoint
from olr.model.objects import read_answer
from olr.tools import run
from olr.trials.encoder import INTERVAL, text_of
from pathlib import Path

NOTHING = {"bearing": 0, "class": 0, "distance": 0, "form": 0}


def point(end: int, **others: Any) -> dict[str, Any]:
    """A point that lies so many decimetres from the proper end of its line, as the program's JSON has it."""
    usual = {"at": end, "line": 1, "penalty": 0, "parts": NOTHING, "distance": 0, "sectors": 0}
    return usual | {"classes": 0, "form": 3, "end": end} | others


def answer(points: list[Any], legs: list[tuple[int, int]], cost: int, lines: int) -> Places:
    """An answer with one place, in detail. A leg is its length, and the number of intervals that the reference tells."""
    matching = {
        "cost": cost,
        "cursor": "0:1",
        "inner": None,
        "legs": [
            {"greatest": 586 * (n + 1) - 1, "least": 586 * n, "length": length, "limit": 3}
            | {"penalty": 0}
            for length, n in legs
        ],
        "outer": None,
        "points": points,
        "route": [[line, 0, 1000] for line in range(lines)],
        "total": 0,
        "turns_back": False,
    }
    place = {"cost": cost, "gap": 0, "matching": matching, "members": 1, "rank": 1}
    made = {"cut": False, "looked": 1, "margin": None, "next": None, "places": [place]}
    text = json.dumps(made | {"verdict": "unique"}, separators=(",", ":"))
    found = read_answer("places", text.encode(), None)
    assert isinstance(found, Places)
    return found


def test_terms_by_hand() -> None:
    """A first point 20 m after the start of its line and 40 m beside it, with a direction off by two sectors; one 80 m after it, on a line of
    another class and form; and a last one 30 m before its end. The first leg is told to be shorter than 175.8 m, and is 230 m long.
    """
    parts = NOTHING | {"class": 10, "form": 15}
    points = [
        point(200, distance=4000, sectors=2),
        point(800, classes=1, form=2, parts=parts),
        point(300, at=1700),
    ]
    one = answer(points, [(2300, 2), (3200, 5)], 4150, 3)
    terms = terms_of([None, one, Places(0, (), "none")])
    assert (terms.sizes.tolist(), terms.counts.tolist()) == ([0, 1, 0], [3])
    assert (terms.first().tolist(), terms.owners().tolist()) == ([0], [1])
    assert (terms.costs.tolist(), terms.lines.tolist()) == ([4150], [3])
    assert terms.turns_back.tolist() == [False]
    assert terms.end.tolist() == [200, 800, 300]
    assert ends_of([one.places[0].matching.points]) == [100]
    assert (terms.distance.tolist(), terms.sectors.tolist()) == ([4000, 0, 0], [2, 0, 0])
    assert (terms.classes.tolist(), terms.other_form.tolist()) == ([0, 1, 0], [False, True, False])
    assert terms.least.tolist() == [2 * INTERVAL, 5 * INTERVAL]
    assert terms.greatest.tolist() == [3 * INTERVAL - 1, 6 * INTERVAL - 1]
    # 2,300 less 1,757 decimetres are 308.8 thousandths of 1,758.
    assert (terms.longer().tolist(), terms.lengths().tolist()) == ([308, 0], [5500])
    assert terms.worst_point(terms.sectors).tolist() == [2]
    assert terms.worst_leg(terms.longer()).tolist() == [308]


def test_what_weights_count() -> None:
    """An answer with two places of three points, of which the second one costs 20 points more; one without; and one with a place of two points
    on one line, which is a tenth longer than is told. Of points and legs the worst one counts, and distances in thousandths of the route.
    """
    terms = made_terms(
        [2, 0, 1],
        [3, 3, 2],
        costs=[300, 900, 150],
        turns_back=[True, False, False],
        lines=[9, 4, 1],
        distance=[100, 300, 200, 500, 400, 700, 600, 800],
        sectors=[0, 0, 0, 1, 0, 2, 0, 0],
        length=[4900, 4900, 4308, 5099, 5500],
    )
    found = differences_of(terms)
    assert found.sizes.tolist() == [2, 1]
    expected = [[3, 0, 0, 0, 1], [7, 2, 21, 600, 0], [14, 0, 100, 0, 0]]
    assert found.of_place.tolist() == expected
    assert found.of_none.tolist() == [[1, 1, 12, 98], [1, 0, 4, 74]]


def test_a_route_without_a_length() -> None:
    """Then a point's distance is told as of a route of a decimetre."""
    terms = made_terms([2], [2, 2], distance=[7, 5, 7, 5], least=[0, 0], length=[0, 1])
    assert differences_of(terms).of_place[:, 0].tolist() == [700, 700]


def test_the_most_that_is_counted() -> None:
    """A point 20 km off, a leg that is far too long, and many points and lines."""
    long = made_terms([1], [2], distance=[2_000_000, 0], length=[3_000_000], lines=[200_000])
    found = differences_of(long)
    assert found.of_place.tolist() == [[66, 0, 1000, 0, 0]]
    assert found.of_none.tolist() == [[1, 0, 1264, 1000]]
    many = differences_of(
        made_terms([1], [103], distance=[5000] * 103, length=[0] * 102, least=[0] * 102)
    )
    assert many.of_place[0, 0] == 1000 and many.of_none[0].tolist() == [1, 98, 4, 0]


def test_a_leg_that_is_too_short() -> None:
    """Told to be 293 m or longer, and 200 m long."""
    terms = terms_of([answer([point(0), point(0)], [(2000, 5)], 0, 1)])
    # 2,930 less 2,000 decimetres are 264.5 thousandths of 3,516.
    assert terms.longer().tolist() == [-264]


def test_nothing() -> None:
    terms = terms_of([None, Places(0, (), "none")])
    assert (terms.sizes.tolist(), len(terms.first()), len(terms.costs)) == ([0, 0], 0, 0)
    assert differences_of(terms).of_place.shape == (0, len(OF_PLACE))


def of_three(**others: Any) -> Terms:
    """Those of a place of three points and two legs, of which the reference tells 450 to 508.6 m."""
    usual = {"least": [4500] * 2, "greatest": [5085] * 2, "length": [5000] * 2, "lines": [3]}
    return made_terms([1], [3], **usual | others)


@pytest.mark.parametrize("length, off", [(9707, 0.0), (10678, 0.1), (8736, 0.1)])
def test_how_far_long_legs_are_off(length: int, off: float) -> None:
    """From the middle of the interval that the reference says, in both directions."""
    found = of_three(length=[3000, length], least=[2914, 9414], greatest=[3499, 9999])
    numbers = statistics_of(found, np.zeros(len(WEIGHTS)))
    median = "median share by which long legs differ from the middle of what it says"
    assert numbers[median] == pytest.approx(off, abs=1e-4)


def at_a_stub(folder: Path) -> tuple[Path, str]:
    """A map, and a reference at a stub from node 2 to node 4: its best matching runs down the stub and back."""
    drawing = Drawing({1: (-9000, 0), 2: (0, 0), 3: (9000, 0), 4: (0, 2000)})
    drawing.way(1, [1, 2, 3])
    drawing.way(2, [2, 4])
    drawn = str(drawing.write(folder / "drawn.osm"))
    words = ["import", "osm", drawn, "--out", str(folder / "map"), "--dead-ends", "allow"]
    assert run(words) == 0
    last = ReferencePoint(6, 3, 0, 9000, 24)
    return folder / "map", text_of([ReferencePoint(6, 3, 0, 0, 4, interval=25, lowest=6), last])


def test_a_route_that_turns_back(program: Program, tmp_path: Path) -> None:
    folder, text = at_a_stub(tmp_path)
    with olr.Map(folder, program=program.path, profile="program") as town:
        found = town.match(text, detail=True).matchings
        likely = town.places(text, within=14_620, order="likely", detail=True)
    assert [one.turns_back for one in found] == [True, False]
    assert [one.rank for one in likely] == [2, 1] and [one.cost for one in likely] == [
        one.cost for one in reversed(found)
    ]


def test_the_program_counts_the_same(program: Program, tmp_path: Path) -> None:
    """What weights are fitted to is that by which it tells probabilities. It does so in whole numbers, so they differ by less than 1e-4."""
    rows = (TOP / "examples/messages.tsv").read_text().splitlines()[:4]
    stub, turned = at_a_stub(tmp_path)
    sure, found = olr.Confidence.default(), []
    for folder, texts in (
        (TOP / "examples", [row.split("\t")[1] for row in rows]),
        (stub, [turned]),
    ):
        with olr.Map(folder, program=program.path, confidence=sure) as town:
            found += [
                town.places(text, within=14_620, most=100, order="likely", detail=True)
                for text in texts
            ]
    places = [place for answer in found for place in answer]
    assert any(place.matching.turns_back for place in places)
    weights = np.array([float(sure.weights[name]) for name in WEIGHTS])
    told = probabilities(weights, differences_of(terms_of(found)))
    assert [place.probability for place in places] == pytest.approx(1e6 * told.of_place, abs=100)
    assert [one.none_of_these for one in found] == pytest.approx(1e6 * told.of_none, abs=100)
