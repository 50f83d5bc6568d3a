"""Roads of vector files by hand: their own ends, and what is said of classes."""

import numpy as np
import pytest
from collections.abc import Sequence
from pathlib import Path

from olr.counts import Counts
from olr.errors import ToolError
from olr.importing.roads import Kind, Road, Source, cut_roads
from olr.model.road_map import Position
from olr.vector.fields import Fields, Meanings
from olr.vector.joining import Joined, join_roads
from olr.vector.reading import VectorRoad
from olr.vector.table import ValueTable, text_of
from olr.vector.whole import require_whole_shapefile

LAT_METRES = 111_195.0
"""Metres of a degree on the sphere of the earth's size; at the equator of longitude too."""
ONE_WAY = Kind(3, 3, True, False)
MEETS = "places where an end of a road meets another road, which is cut there"


def joined_roads(roads: Sequence[Sequence[tuple[float, float]]]) -> tuple[Joined, Counts]:
    """Roads with coordinates in metres east and north of a place on the equator, joined within a metre."""
    made = [
        VectorRoad(id, Source(f"{id}"), ONE_WAY, np.array(points, dtype=float) / LAT_METRES)
        for id, points in enumerate(roads, 1)
    ]
    counts = Counts()
    return join_roads(made, 1.0, False, counts), counts


@pytest.mark.parametrize("is_reversed", [False, True])
@pytest.mark.parametrize("east, visits", [(0.2, 0), (-0.4, 1)])
def test_a_road_that_passes_its_own_end(east: float, visits: int, is_reversed: bool) -> None:
    """Of three ends in a row the first one is the node, so that a road may begin two tolerances away from its own end. It isn't cut
    there, as it is where it passes it further on."""
    third = [(1.8, 0.0), (east, 0.6), (east, 60.0)]
    roads: list[list[tuple[float, float]]] = [[(-50, 0), (0, 0)], [(0.9, 0), (0.9, -50)]]
    roads.append(third[::-1] if is_reversed else third)
    joined, counts = joined_roads(roads)
    ends = [road.vertices[0] for road in joined.roads], [it.vertices[-1] for it in joined.roads]
    node = ends[1][0]
    assert ends[0][1] == node and ends[1 if is_reversed else 0][2] == node
    assert counts.changed[MEETS] == visits
    assert len(joined.roads[2].vertices) == 3


@pytest.mark.parametrize(
    "classes, is_hinted",
    [
        ("1", False),
        ("12", True),
        ("15", True),
        ("012", False),
        ("126", False),
        ("127", False),
        ("25", False),
        ("28", True),
        ("1678", True),
        ("018", False),
        ("8", False),
    ],
)
def test_classes_that_seem_to_be_counted_from_1(classes: Sequence[str], is_hinted: bool) -> None:
    """Where there are several, and none is 0: some are 8, or some 1 and none 6 or 7."""
    counts = Counts()
    meanings = Meanings(Fields("kind", "3"), ["kind"], ValueTable(), counts)
    for value in classes:
        meanings.kind_of({"kind": value})
    meanings.count_unnamed()
    assert len(counts.hints) == is_hinted
    if is_hinted:
        assert counts.hints[0].startswith(
            f"field kind has classes from {classes[0]} to {classes[-1]}"
        )


def test_an_end_within_a_bend() -> None:
    """It is near both segments of the bend, and cuts the road once."""
    joined, counts = joined_roads([[(0, 0), (10, 0), (10, 10)], [(9.4, 0.6), (0, 50)]])
    assert counts.changed[MEETS] == 1
    assert joined.roads[0].vertices == [1, 3, 2] and joined.roads[1].vertices == [3, 4]


def test_an_end_beside_the_end_of_a_road() -> None:
    """It is no part of it, but lies beside the road before it: there the road is cut."""
    joined, counts = joined_roads([[(0, 0), (100, 0)], [(99.2, 0.9), (99.2, 50)]])
    assert counts.changed[MEETS] == 1
    assert joined.roads[0].vertices == [1, 3, 2] and joined.roads[1].vertices == [3, 4]


def test_three_nodes_in_one_microdegree() -> None:
    """The least stands for all of them, whichever are merged first."""
    here, there = Position(5, 5), Position(900, 5)
    for chain in ([(3, 2), (2, 1)], [(2, 1), (3, 2)], [(1, 2), (1, 3)]):
        ends = [*chain, (3, 9)]
        roads = [Road(id, Source(f"{id}"), ONE_WAY, pair) for id, pair in enumerate(ends, 1)]
        positions = {1: here, 2: here, 3: here, 9: there}
        cut = cut_roads(roads, positions, Counts())
        assert cut.merged == {2: 1, 3: 1}
        assert [list(part.vertices) for part in cut.parts] == [[1, 9]]


@pytest.mark.parametrize(
    "value, text",
    [(None, ""), (True, "true"), (3.0, "3"), (2.5, "2.5"), (-0.5, "-0.5"), (7, "7"), (" x ", "x")],
)
def test_values_as_texts(value: object, text: str) -> None:
    assert text_of(value) == text


@pytest.mark.parametrize("missing", [0, 1, 2, 8])
def test_a_shapefile_that_was_cut_short(missing: int, tmp_path: Path) -> None:
    """Its index has the places and sizes of its records, in words of two bytes: none may reach beyond the end of the file."""
    sizes = (20, 30)
    places = (50, 50 + sizes[0])
    words = [word for pair in zip(places, sizes) for word in pair]
    length = 50 + 4 * len(sizes)
    head = bytes(24) + length.to_bytes(4, "big") + bytes(72)
    (tmp_path / "a.shx").write_bytes(head + b"".join(word.to_bytes(4, "big") for word in words))
    (tmp_path / "a.shp").write_bytes(bytes(2 * (places[1] + sizes[1]) - missing))
    if not missing:
        return require_whole_shapefile(tmp_path / "a.shp", "a")
    with pytest.raises(ToolError, match="a.shp"):
        require_whole_shapefile(tmp_path / "a.shp", "a")
