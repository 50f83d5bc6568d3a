"""What fields of a map's files spell, and what is measured of positions, by hand."""

import numpy as np
import pytest
from pyproj import Geod

from olr.counts import Counts
from olr.curve import places_on_curve
from olr.model.box import Box
from olr.model.measure import lengths, position_of
from olr.model.pieces import Piece, Pieces
from olr.model.road_map import Position
from olr.model.values import id_of, kind_of, lat_of, length_of, lon_of, shape_of

ELLIPSOID = Geod(ellps="WGS84")


@pytest.mark.parametrize(
    "text, number",
    [
        ("1", 1),
        ("007", 7),
        ("0000000000000001", 1),
        ("00000000000000001", None),
        ("9007199254740992", 2**53),
        ("9007199254740993", None),
        ("0", None),
        ("", None),
        ("-1", None),
        ("+1", None),
        (" 1", None),
        ("1.0", None),
        ("²", None),
        ("٣", None),
    ],
)
def test_ids(text: str, number: int | None) -> None:
    """A number has 1 to 16 decimal digits (docs/specification/map.md)."""
    assert id_of(text) == number


@pytest.mark.parametrize(
    "text, lon, lat",
    [
        ("-5", -5, -5),
        ("-0", 0, 0),
        ("-0000000000000005", -5, -5),
        ("80000000", 80_000_000, 80_000_000),
        ("-80000001", -80_000_001, None),
        ("180000000", 180_000_000, None),
        ("-180000001", None, None),
        ("--5", None, None),
        ("-", None, None),
        ("5-", None, None),
    ],
)
def test_coordinates(text: str, lon: int | None, lat: int | None) -> None:
    assert (lon_of(text), lat_of(text)) == (lon, lat)


def test_kinds_and_lengths() -> None:
    assert [kind_of(text) for text in ("0", "7", "8", "")] == [0, 7, None, None]
    assert [length_of(text) for text in ("0", "10000000", "10000001")] == [0, 10_000_000, None]


@pytest.mark.parametrize(
    "text, numbers",
    [
        ("", []),
        ("1 -2", [1, -2]),
        ("1 -2;3 4", [1, -2, 3, 4]),
        ("1 -2;", None),
        ("1  2", None),
        ("1,2", None),
        ("180000001 0", None),
        ("0 80000001", None),
        ("0 -80000001", None),
        ("-180000001 0", None),
    ],
)
def test_shapes(text: str, numbers: list[int] | None) -> None:
    assert shape_of(text) == numbers


def test_lengths_of_polylines() -> None:
    """Each is measured by itself, in whole decimetres, and has one at least."""
    one = [Position(0, 0), Position(10_000, 0), Position(10_000, 10_000)]
    other = [Position(7_000_000, 50_000_000), Position(7_000_000, 50_000_000)]
    third = [Position(0, 80_000_000), Position(1_000_000, 80_000_000)]
    metres = [ELLIPSOID.line_length([0, 0.01, 0.01], [0, 0, 0.01])]
    metres.append(ELLIPSOID.line_length([0, 1], [80, 80]))
    expected = [round(10 * metres[0]), 1, round(10 * metres[1])]
    assert lengths([one, other, third]) == expected


def test_the_nearest_position() -> None:
    assert position_of(7.4187735, -49.8712964) == Position(7_418_774, -49_871_296)


def test_the_length_of_pieces() -> None:
    assert Pieces([Piece(7, 5, 20), Piece(8, 0, 30), Piece(9, 4, 4)]).length() == 45


@pytest.mark.parametrize(
    "lon, lat, is_in",
    [
        (1, 2, True),
        (3, 2, True),
        (1, 4, True),
        (3, 4, True),
        (0, 3, False),
        (4, 3, False),
        (2, 1, False),
        (2, 5, False),
    ],
)
def test_a_box_has_its_edges(lon: int, lat: int, is_in: bool) -> None:
    assert Box(1, 2, 3, 4).holds(Position(lon, lat)) == is_in


def test_the_ends_of_the_curve() -> None:
    """It begins in the south-west of the earth, and ends in the south-east; longitude 180 is on it too."""
    lon, lat = (np.array(edges) for edges in ([-180_000_000, 180_000_000], [-180_000_000] * 2))
    assert places_on_curve(lon, lat).tolist() == [0, 2**48 - 1]


def test_counts_add_up() -> None:
    counts = Counts()
    for number in (2, 0, 3):
        counts.change("roads that were cut", number)
        counts.leave_out("roads that are shut", number)
    assert counts.as_table() == {
        "changed": {"roads that were cut": 5},
        "left_out": {"roads that are shut": 5},
    }
