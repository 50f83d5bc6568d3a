"""What one place has and another lacks, and how far they are apart: by hand, and beside points that are sampled."""

import math
import numpy as np
import pytest
import random
from shapely.geometry import LineString
from typing import Any

import olr
from conftest import TOP
from olr.comparing.places import Limits, Spot, Stretch, difference, likeliest_places
from olr.geometry.agreement import agreement
from olr.geometry.plane import DEGREE, Plane, Segments
from olr.geometry.stretches import hausdorff, longest_lacking, share_within, within
from olr.model.answers import (
    Candidate,
    Leg,
    Matching,
    PlaceOfReference,
    Places,
    Shape,
    SpotsOnRoute,
)
from olr.model.pieces import Piece, Pieces, Place
from olr.model.pieces import Spot as MicroSpot
from olr.model.pieces import Spots as MicroSpots

LIMITS = Limits(across=10, apart=75)
Spots = list[tuple[float, float]]


def segments(*points: tuple[float, float]) -> Segments:
    """Those of a polyline in metres."""
    return Segments.of(np.array(points, dtype=np.float64))


def stretch(*points: tuple[float, float]) -> Stretch:
    """A place of points in metres, at the equator."""
    return Stretch(np.array(points, dtype=np.float64).reshape(-1, 2) / DEGREE)


ROAD = (0, 0), (1000, 0)


@pytest.mark.parametrize(
    ("one", "other", "lacking"),
    [
        (ROAD, ROAD, (0, 0)),
        (ROAD, ((0, 9.9), (1000, 9.9)), (0, 0)),
        (ROAD, ((0, 10.1), (1000, 10.1)), (1000, 1000)),
        (ROAD, ROAD[::-1], (1000, 1000)),
        (ROAD, ((0, 0), (300, 0), (300, 0), (999, 0), (1000, 0)), (0, 0)),
        # Ten metres in front of an end and behind one are near it.
        (ROAD, ((200, 0), (700, 0)), (290, 0)),
        # Up to where it is 10 m aside it is near: behind that, the run goes on around the corner.
        (ROAD, ((0, 0), (500, 0), (500, 400)), (490, 400)),
        # Two runs aren't added up: 100 to 220 and 600 to 700 of a road lie 20 m aside.
        (
            ROAD,
            ((0, 0), (100, 0), (100, 20), (220, 20), (220, 0), (600, 0), (600, 20), (700, 20))
            + ((700, 0), (1000, 0)),
            (100, 160),
        ),
        # 45 degrees are the same direction: 10 m aside it is 14.14 m along, of 141.4.
        (ROAD, ((0, 0), (100, 100)), (1000 - 100 * 0.1 * math.sqrt(2), 127.28)),
        # It goes around a square twice, and once: nothing is lacking.
        (
            ((0, 0), (200, 0), (200, 200), (0, 200), (0, 0)) * 2,
            ((0, 0), (200, 0), (200, 200), (0, 200), (0, 0)),
            (0, 0),
        ),
        # It turns back at the end, where the other one doesn't.
        (((0, 0), (1000, 0), (600, 0)), ROAD, (400, 0)),
        # Without a length there is nothing to lack.
        (((5, 5), (5, 5)), ROAD, (0, 1000)),
    ],
)
def test_longest_run_by_hand(one: Any, other: Any, lacking: tuple[float, float]) -> None:
    found = (
        longest_lacking(segments(*one), segments(*other), 10),
        longest_lacking(segments(*other), segments(*one), 10),
    )
    assert found == pytest.approx(lacking, abs=0.02)


@pytest.mark.parametrize(
    ("one", "other", "shares"),
    [
        (ROAD, ROAD, (1, 1)),
        # Up to 10 m behind its end.
        (ROAD, ((0, 0), (500, 0)), (0.51, 1)),
        (ROAD, ((0, 0), (490, 0), (490, 490)), (0.5, 0.5)),
        # At right angles there is no common direction; at 45 degrees 10 m aside is 14.14 m along, before the crossing and behind it.
        (ROAD, ((500, -500), (500, 500)), (0, 0)),
        (ROAD, ((400, -100), (600, 100)), (0.02828, 0.1)),
        (ROAD, ROAD[::-1], (0, 0)),
        (ROAD, ((0, 8), (1000, 8)), (1, 1)),
        (ROAD, ((0, 12), (1000, 12)), (0, 0)),
        # A stretch that is there twice, and reaches 10 m farther at both ends.
        (ROAD, ((100, 0), (300, 0), (300, 50), (100, 50), (100, 0), (300, 0)), (0.22, 4 / 7)),
        # Once to the end and back again: half of it is the road.
        (((0, 0), (1000, 0), (0, 0)), ROAD, (0.5, 1)),
        # Segments of 0.1 to 400 m, and points that are repeated.
        (ROAD, ((0, 0), (0.1, 0), (0.1, 0), (400, 0), (800, 0), (800, 30)), (0.81, 80 / 83)),
        # What is far away, and what has no length.
        (ROAD, ((0, 5000), (1000, 5000)), (0, 0)),
        (ROAD, ((5, 0), (5, 0)), (0, 0)),
        (((5, 5), (5, 5)), ((5, 5), (5, 5)), (0, 0)),
    ],
)
def test_shares_by_hand(one: Any, other: Any, shares: tuple[float, float]) -> None:
    """They are those of the agreement too, in degrees at the equator."""
    found = (
        share_within(segments(*one), segments(*other), 10),
        share_within(segments(*other), segments(*one), 10),
    )
    assert found == pytest.approx(shares, abs=0.0001)
    assert all(0 <= share <= 1 for share in found)
    points = (stretch(*one).points, stretch(*other).points)
    for some in (points, points[::-1]):
        assert agreement(*some, 10) == pytest.approx(min(shares), abs=0.0001)


def test_nothing_agrees_with_no_points() -> None:
    road, none = stretch(*ROAD).points, stretch().points
    assert agreement(road, none, 10) == agreement(none, road, 10) == agreement(none, none, 10) == 0


def drawn(draw: random.Random) -> Spots:
    """A polyline that wanders, at times straight on or back, with steps of 0.5 to 200 m."""
    east, north, heading = draw.uniform(-50, 50), draw.uniform(-50, 50), draw.uniform(-0.5, 0.5)
    points = [(east, north)]
    for _ in range(draw.randint(1, 90)):
        heading += draw.choice([0, 0, draw.uniform(-1, 1), draw.uniform(-0.1, 0.1), math.pi])
        step = draw.choice([0, 0.5, 20, 60, 200]) * draw.uniform(0.5, 1)
        east, north = east + step * math.cos(heading), north + step * math.sin(heading)
        points.append((east, north))
    return points


def shaken(draw: random.Random, points: Spots) -> Spots:
    """The points of a polyline, some of which are elsewhere or gone."""
    reach = draw.choice([0, 3, 12, 40])
    kept = [one for one in points if draw.random() < 0.9]
    aside = [(x + draw.uniform(-reach, reach), y + draw.uniform(-reach, reach)) for x, y in kept]
    return aside if len(aside) > 1 else points


def sampled(one: Spots, other: Spots, across: float) -> tuple[float, float]:
    """The longest run that is lacking, and how much isn't, by points that are at most 0.2 m apart, each of which stands for as much of its
    segment."""
    ends = np.array([pair for pair in zip(other, other[1:]) if pair[0] != pair[1]])
    first, leads = ends[:, 0], ends[:, 1] - ends[:, 0]
    longest = run = there = 0.0
    for start, end in zip(np.array(one[:-1]), np.array(one[1:])):
        lead = end - start
        length, alike = float(np.hypot(*lead)), leads @ lead > 0
        count = math.ceil(length * 5)
        points = start + lead * ((np.arange(count) + 0.5) / max(count, 1))[:, None]
        from_first = points[:, None] - first[alike]
        share = (from_first * leads[alike]).sum(axis=2) / (leads[alike] ** 2).sum(axis=1)
        aside = from_first - np.clip(share, 0, 1)[:, :, None] * leads[alike]
        for is_near in (np.hypot(aside[:, :, 0], aside[:, :, 1]) <= across).any(axis=1).tolist():
            run = 0.0 if is_near else run + length / count
            there += length / count if is_near else 0.0
            longest = max(longest, run)
    return longest, there


def test_runs_and_shares_beside_samples() -> None:
    draw = random.Random(5)
    differing = 0
    for _ in range(40):
        one = drawn(draw)
        other = draw.choice([shaken(draw, one), drawn(draw)])
        across = draw.choice([2, 10, 30])
        whole = LineString(one).length
        found = longest_lacking(segments(*one), segments(*other), across)
        share = share_within(segments(*one), segments(*other), across)
        longest, there = sampled(one, other, across)
        assert found == pytest.approx(longest, abs=0.5)
        assert share * whole == pytest.approx(there, abs=0.5 + whole / 1000)
        differing += 0 < found < whole - 1
    assert differing > 12


def test_hausdorff_by_hand() -> None:
    """The last two: halfway between two roads that lead away from a corner, no corner is as far from them."""
    road = np.array(ROAD, dtype=np.float64)
    assert hausdorff(road, road + (0, 30)) == pytest.approx(30)
    assert hausdorff(road, road[::-1]) == 0
    assert hausdorff(road, road + (200, 0)) == pytest.approx(200)
    assert hausdorff(road, np.array([(5.0, 7.0), (5.0, 7.0)])) == pytest.approx(math.hypot(995, 7))
    bracket = np.array([(0.0, 0.0), (0.0, 300.0), (600.0, 300.0), (600.0, 0.0)])
    lower = np.array([(0.0, 0.0), (600.0, 0.0)])
    assert hausdorff(bracket, lower) == pytest.approx(300)
    assert hausdorff(
        np.array([(0.0, 0.0), (1000.0, 0.0)]),
        np.array([(0.0, 0.0), (0.0, 400.0), (1000.0, 400.0), (1000.0, 0.0)]),
    ) == pytest.approx(400, abs=0.5)


def sampled_hausdorff(one: Spots, other: Spots) -> float:
    """By points that are half a metre apart."""
    greatest = 0.0
    for first, second in (
        (LineString(one), LineString(other)),
        (LineString(other), LineString(one)),
    ):
        for at in np.arange(0, first.length, 0.5):
            greatest = max(greatest, first.interpolate(at).distance(second))
    return greatest


def test_hausdorff_beside_samples() -> None:
    draw = random.Random(9)
    for _ in range(12):
        one = drawn(draw)[:12]
        other = draw.choice([shaken(draw, one), drawn(draw)[:12]])
        if LineString(one).length == 0 or LineString(other).length == 0:
            continue
        found = hausdorff(np.array(one), np.array(other))
        assert found == pytest.approx(sampled_hausdorff(one, other), abs=0.8)


def test_lines_that_are_long() -> None:
    """Of 10,000 segments each, of which a run of 300 m isn't on the other one."""
    along = np.arange(10_001) * 5.0
    one = np.stack([along, 30 * np.sin(along / 300)], axis=1)
    other = one + (0, 3)
    other[(along >= 40_000) & (along <= 40_300)] += (0, 100)
    found = longest_lacking(Segments.of(one), Segments.of(other), 10)
    assert 280 < found < 310
    share = share_within(Segments.of(one), Segments.of(other), 10)
    assert share == pytest.approx(1 - found / float(Segments.of(one).lengths.sum()))
    assert hausdorff(one, other) == pytest.approx(103, abs=4)


def test_places_that_cover_nothing() -> None:
    road, short, none = stretch(*ROAD), stretch((0, 0), (70, 0)), stretch()
    spot = stretch((3, 4), (3, 4))
    assert difference(none, none, LIMITS) == (True, None, 0, 0, None)
    assert difference(spot, spot, LIMITS) == (True, 0, 0, 0, None)
    assert difference(none, spot, LIMITS).agreement is None
    is_same, moved, *alone, agreed = difference(none, road, LIMITS)
    assert (is_same, moved, agreed) == (False, None, 0)
    assert alone == pytest.approx([0, 1000])
    assert difference(short, none, LIMITS)[:2] == (True, None)
    is_same, moved, *alone, agreed = difference(spot, short, LIMITS)
    assert (is_same, agreed) == (True, 0)
    assert alone == pytest.approx([0, 70])
    assert moved == pytest.approx(math.hypot(67, 4))


def test_agreement_is_no_matter_of_apart() -> None:
    """It is the lesser share, which is that of the longer place: 60 m of 100 and the 10 m behind them."""
    road, most = stretch((0, 0), (100, 0)), stretch((0, 0), (60, 0))
    for one, other in ((road, most), (most, road)):
        found = difference(one, other, LIMITS)
        assert (found.is_same, found.agreement) == (True, 0.7)
    assert difference(road, road, LIMITS).agreement == 1
    assert difference(road, stretch((0, 11), (100, 11)), LIMITS).agreement == 0
    assert difference(road, stretch((0, 11), (100, 11)), Limits(12, 75)).agreement == 1
    # 110 m of 300, with three digits.
    assert difference(road, stretch((0, 0), (300, 0)), LIMITS).agreement == 0.367


def test_apart_is_up_to_where_places_are_the_same() -> None:
    road = stretch(*ROAD)
    longer, too_long = stretch((0, 0), (1084.9, 0)), stretch((0, 0), (1085.1, 0))
    assert difference(road, longer, LIMITS).is_same
    assert not difference(road, too_long, LIMITS).is_same
    assert difference(road, too_long, Limits(10, 75.2)).is_same
    assert not difference(road, stretch((0, 1), (1000, 1)), Limits(0, 75)).is_same
    # A stretch as long as that isn't longer.
    alone = difference(road, longer, LIMITS).new_alone
    assert alone is not None and difference(road, longer, Limits(10, alone)).is_same


def spot(x: float, y: float, lead: tuple[float, float], reach: float = 500) -> Spot:
    """A point in metres, on a straight route that goes so far to either side of it."""
    (east, north), at = lead, np.array((x, y))
    way = np.multiply(lead, reach)
    line = np.array([at - way, at + way])
    behind = np.array([at - (east / 10, north / 10), at])
    return Spot(at / DEGREE, behind / DEGREE, line / DEGREE)


@pytest.mark.parametrize(
    ("other", "is_same"),
    [
        (spot(0, 0, (1, 0)), True),
        (spot(0, 9.9, (1, 0)), True),
        (spot(0, 10.1, (1, 0)), False),
        (spot(70, 9, (1, 0)), True),
        (spot(76, 0, (1, 0)), False),
        (spot(0, 0, (-1, 0)), False),
        (spot(0, 0, (0, 1)), False),
        (spot(0, 0, (0.8, 0.6)), True),
        # 50 m on and on a road that begins there: the first point isn't on that.
        (spot(50, 0, (1, 0), 20), False),
    ],
)
def test_points_along_lines(other: Spot, is_same: bool) -> None:
    here = spot(0, 0, (1, 0))
    there = other.point * DEGREE
    for found in (difference(here, other, LIMITS), difference(other, here, LIMITS)):
        assert found.is_same == is_same
        assert found.moved == pytest.approx(math.hypot(*there), abs=1e-6)
        assert found.old_alone is None and found.new_alone is None


def test_points_along_lines_agree_as_their_routes_do() -> None:
    """Routes of 1,000 m, one of which begins 300 m farther on, or leads back."""
    here = spot(0, 0, (1, 0))
    assert difference(here, here, LIMITS).agreement == 1
    assert difference(here, spot(70, 9, (1, 0)), LIMITS).agreement == pytest.approx(
        0.934, abs=0.001
    )
    assert difference(here, spot(300, 0, (1, 0)), LIMITS).agreement == 0.71
    assert difference(here, spot(0, 0, (-1, 0)), LIMITS).agreement == 0


def test_a_point_at_either_end_of_its_line() -> None:
    """Line 701 of the example begins and ends at a node: the decimetre behind its start is its first one, and that behind its end the last."""
    network = olr.Network.read(TOP / "examples")
    (index,) = network.indices_of(np.array([701]))
    length = int(network.length[index])
    for at, decimetre in ((0, (701, 0, 1)), (length, (701, length - 1, length))):
        points, place = (Candidate(at, 701, 0),) * 2, Place(701, at)
        route = Pieces([Piece(701, 0, length)])
        (spot,) = (network.points_at(np.array([place])) * 1e6).round().astype(int).tolist()
        here = MicroSpot(*spot)
        shape, spots = Shape(MicroSpots([here, here])), SpotsOnRoute(here, here, here)
        matching = Matching(
            *("", (Leg(0, 0),), points, route, 0, None, None, place, place),
            shape=shape,
            spot=spots,
        )
        answer = Places(1, (PlaceOfReference(0, matching, 1),), "unique")
        _, (found,) = likeliest_places([answer], network)
        assert isinstance(found, Spot)
        assert found.behind.tolist() == network.path([decimetre]).tolist()
        assert found.route.tolist() == network.path(route).tolist()
        assert (found.point * 1e6).round().tolist() == [*here]


def test_a_degree_of_longitude_is_shorter_in_the_north() -> None:
    """At 60 degrees half as long: 20 m to the east of a road that leads north are 360 millionths of a degree there."""
    plane = Plane.around(np.array([(10.0, 60.0), (10.0, 60.0)]))
    (east, north), *_ = plane.metres(np.array([(10.001, 60.001)]))
    assert (east, north) == (pytest.approx(55.66, abs=0.01), pytest.approx(111.32, abs=0.01))
    one = np.array([(10.0, 59.999), (10.0, 60.001)])
    other = one + (0.000_170, 0)
    assert difference(Stretch(one), Stretch(other), LIMITS).is_same
    assert not difference(Stretch(one), Stretch(other + (0.000_020, 0)), LIMITS).is_same


def test_a_segment_of_no_direction_is_nowhere() -> None:
    """Right angles aren't the same direction."""
    one, others = segments((0, 0), (100, 0)), segments((50, -50), (50, 50), (51, 150))
    numbers, _ = within(one, others, 10)
    assert not len(numbers)
    numbers, found = within(one, segments((50, -50), (50, 50), (60, 50), (70, 0)), 10)
    assert numbers.tolist() == [0] and 50 < found.start[0] < found.end[0] < 90
    assert longest_lacking(segments((0, 0), (0, 0)), segments(*ROAD), 10) == 0
