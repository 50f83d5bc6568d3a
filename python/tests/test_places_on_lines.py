"""Pieces of lines on a map by hand: where they begin and end at vertices, and of which version of the map they have to be."""

import numpy as np
import pytest
from pathlib import Path

import olr
from olr.comparing.places import Limits, Spot, Stretch, difference, likeliest_places
from olr.errors import MapRefused, ToolError
from olr.geometry.network import middle
from olr.model.answers import (
    Candidate,
    Leg,
    Matching,
    PlaceOfReference,
    Places,
    Shape,
    SpotsOnRoute,
)
from olr.model.pieces import Piece, Pieces, Place, Spots, between
from olr.model.pieces import Spot as MicroSpot
from stores import folder_of

# 0.002 degrees east along the equator, with vertices at a quarter and at half of it: shares that have exact numbers.
NODES = "id,lon,lat\n1,0,0\n2,2000,0\n"
LINES = "id,from,to,class,form,length,shape\n7,1,2,3,3,2000,500 0;1000 0\n8,2,1,3,3,2000,\n"


@pytest.fixture
def network(tmp_path: Path) -> olr.Network:
    """That map as arrays."""
    return olr.Network.read(folder_of(tmp_path / "map", NODES, LINES, "from,to\n"))


@pytest.mark.parametrize(
    "start, end, east",
    [
        (0, 2000, [0, 500, 1000, 2000]),
        (0, 500, [0, 500]),
        (0, 1000, [0, 500, 1000]),
        (500, 1000, [500, 1000]),
        (500, 2000, [500, 1000, 2000]),
        (1000, 2000, [1000, 2000]),
        (499, 501, [499, 500, 501]),
        (501, 999, [501, 999]),
        (1000, 1000, [1000, 1000]),
    ],
)
def test_a_piece_that_ends_at_a_vertex(
    start: int, end: int, east: list[int], network: olr.Network
) -> None:
    """Each vertex is there once."""
    points = network.path([(7, start, end)])
    assert (points * 1e6).round(6).tolist() == [[it, 0] for it in east]


def test_pieces_one_behind_the_other(network: olr.Network) -> None:
    """Where one ends and the next one begins there is one point."""
    points = network.path([(7, 0, 500), (7, 500, 2000), (8, 0, 1000)])
    assert (points[:, 0] * 1e6).round(6).tolist() == [0, 500, 1000, 2000, 1000]


def test_pieces_of_another_version(network: olr.Network) -> None:
    with pytest.raises(MapRefused, match="is another version than the answer is of"):
        network.path(Pieces(b"[[7,0,2000]]", "other"))


@pytest.mark.parametrize("at, is_on", [(-1, False), (0, True), (2000, True), (2001, False)])
def test_positions_on_a_line(at: int, is_on: bool, network: olr.Network) -> None:
    """From its start to its end."""
    if is_on:
        assert network.points_at(np.array([(7, at)]))[0, 0] * 1e6 == pytest.approx(at)
        assert len(network.path([(7, at, at)])) == 2
        return
    said = f"position {at} isn't on line 7 of the map in .*, which is 2000 dm long"
    with pytest.raises(ToolError, match=said):
        network.points_at(np.array([(7, at)]))
    with pytest.raises(ToolError, match=said):
        network.path([(7, 0, at)])


def test_a_place_on_a_line_that_is_driven_twice() -> None:
    """It is where the route has its position."""
    route = Pieces([Piece(7, 0, 10), Piece(8, 0, 5), Piece(7, 20, 40)])
    found = between(route, Place(7, 30), Place(7, 35))
    assert found == [Piece(7, 30, 35)]
    assert between(route, Place(7, 4), Place(7, 35)) == [
        Piece(7, 4, 10),
        Piece(8, 0, 5),
        Piece(7, 20, 35),
    ]
    assert middle(route, Place(7, 4), Place(7, 35)) == Place(7, 22)
    assert middle(route, Place(7, 4), Place(7, 4)) == Place(7, 4)


def test_a_map_that_changes_while_it_is_read(
    tmp_path: Path, monkeypatch: pytest.MonkeyPatch
) -> None:
    digests = iter(["one", "other"])
    monkeypatch.setattr("olr.geometry.network.digest_of", lambda *_: next(digests))
    folder = folder_of(tmp_path / "map", NODES, LINES, "from,to\n")
    with pytest.raises(ToolError, match="was changed while it was read: read it again"):
        olr.Network.read(folder)


def test_places_that_differ_by_just_so_much() -> None:
    """They are the same if no run of one that the other lacks is longer than it may be."""
    old = Stretch(np.array([[0.0, 0.0], [0.002, 0.0]]))
    new = Stretch(np.array([[0.0, 0.0], [0.0015, 0.0]]))
    found = difference(old, new, Limits(10, 1000))
    assert found.is_same and found.old_alone is not None and found.new_alone == 0
    assert found.old_alone == pytest.approx(0.0005 * 111_319.49 - 10, abs=0.5)
    assert difference(old, new, Limits(10, found.old_alone)).is_same
    assert not difference(old, new, Limits(10, found.old_alone - 1e-6)).is_same


@pytest.mark.parametrize(
    "at, lead", [(0, (1, 0)), (500, (1, 0)), (1000, (1, 0)), (1001, (0, 1)), (2000, (0, 1))]
)
def test_the_direction_of_travel_at_a_point(at: int, lead: tuple[int, int], tmp_path: Path) -> None:
    """At a bend it is that of the way there, and at the start of a line that of the way on."""
    bent = "id,from,to,class,form,length,shape\n7,1,2,3,3,2000,1000 0\n"
    folder = folder_of(tmp_path / "bent", "id,lon,lat\n1,0,0\n2,1000,1000\n", bent, "from,to\n")
    network = olr.Network.read(folder)
    route, point = Pieces([Piece(7, 0, 2000)], network.digest), Candidate(0, 7, 0)
    place, here = Place(7, at), MicroSpot(0, 0)
    one = Matching(
        *("0:1", (Leg(2000, 0),), (point, point), route, 0),
        earliest=place,
        latest=place,
        shape=Shape(Spots([here, here])),
        spot=SpotsOnRoute(here, here, here),
    )
    places = [Places(1, (PlaceOfReference(0, one, 1),), "unique")]
    _, (shape,) = likeliest_places(places, network)
    assert isinstance(shape, Spot)
    assert (np.diff(shape.behind, axis=0)[0] * 1e7).round().tolist() == [10 * it for it in lead]
