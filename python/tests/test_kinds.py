"""The kinds of maps and senders of `bench/kinds.py`: maps that the program reads, and what is made of roads by hand."""

import importlib.util
import math
import pytest
import random
from pathlib import Path
from typing import Any

from conftest import TOP, Program
from olr.model.answers import ReferencePoint
from olr.model.map_folder import read_map, write_map
from olr.model.road_map import MICRODEGREE, Ban, Line, Node, Position, RoadMap
from olr.trials.roads import Roads
from vector_files import write_tempe

_SPEC = importlib.util.spec_from_file_location("kinds", TOP / "bench/kinds.py")
assert _SPEC is not None and _SPEC.loader is not None
kinds: Any = importlib.util.module_from_spec(_SPEC)
_SPEC.loader.exec_module(kinds)


@pytest.fixture(scope="module")
def tempe(tmp_path_factory: pytest.TempPathFactory) -> RoadMap:
    """The streets of Tempe."""
    return read_map(write_tempe(tmp_path_factory.mktemp("tempe") / "map"))


def chain(count: int) -> RoadMap:
    """So many two-way roads of 100 m in a row to the east, on the equator. Turning back is banned between them."""
    step = round(100 / MICRODEGREE)
    nodes = [Node(number, Position(step * number, 0)) for number in range(count + 1)]
    lines = [
        line
        for number in range(count)
        for line in (
            Line(10 * number, number, number + 1, 3, 3, 1000, ()),
            Line(10 * number + 1, number + 1, number, 3, 3, 1000, ()),
        )
    ]
    inner = range(1, count)
    bans = [Ban(10 * it - 10, 10 * it - 9) for it in inner] + [
        Ban(10 * it + 1, 10 * it) for it in inner
    ]
    return RoadMap(nodes, lines, bans)


@pytest.mark.parametrize("kind", kinds.KINDS)
def test_the_program_reads_both_maps(
    kind: str, tempe: RoadMap, program: Program, tmp_path: Path
) -> None:
    pair = kinds.KINDS[kind].maps(tempe, random.Random(1))
    for side, one in pair._asdict().items():
        write_map(one, tmp_path / side, {})
        assert program.fault(tmp_path / side) == ""
    assert (pair.sender == pair.receiver) == (kind == "own")


def test_a_road_that_is_cut() -> None:
    """Both directions at one new node between 30 and 70 m, where turning back is banned. Lengths add up."""
    found = kinds.split(chain(1), 100, random.Random(1))
    (new,) = (node for node in found.nodes if node.id > 1)
    metres = new.position.lon * MICRODEGREE
    assert 30 <= metres <= 70 and new.position.lat == 0
    lengths = {(line.start, line.end): line.length for line in found.lines}
    first = pytest.approx(10 * metres, abs=1)
    assert lengths == {
        (0, new.id): first,
        (new.id, 0): first,
        (new.id, 1): 1000 - lengths[0, new.id],
        (1, new.id): 1000 - lengths[0, new.id],
    }
    ids = {(line.start, line.end): line.id for line in found.lines}
    assert set(found.bans) == {
        Ban(ids[0, new.id], ids[new.id, 0]),
        Ban(ids[1, new.id], ids[new.id, 1]),
    }


def test_nodes_where_nothing_branches_off() -> None:
    """Three roads become one of 300 m, with the nodes as points of its shape. Nothing is banned any more."""
    found = kinds.dissolved(chain(3))
    step = round(100 / MICRODEGREE)
    inner = (Position(step, 0), Position(2 * step, 0))
    there, back = sorted(found.lines, key=lambda line: int(line.start))
    assert (there.start, there.end, there.length, there.shape) == (0, 3, 3000, inner)
    assert (back.start, back.end, back.length, back.shape) == (3, 0, 3000, inner[::-1])
    assert len(found.nodes) == 2 and not found.bans


def test_a_map_that_is_shifted(tempe: RoadMap) -> None:
    """All nodes and shapes by 20 m, in one direction."""
    found = kinds.shifted(tempe, 20, random.Random(1))
    pairs = [(one.position, two.position) for one, two in zip(tempe.nodes, found.nodes)]
    for one, two in zip(tempe.lines, found.lines):
        pairs += zip(one.shape, two.shape, strict=True)
    offs = {(other.lon - one.lon, other.lat - one.lat) for one, other in pairs}
    for lon, lat in offs:
        east = lon * MICRODEGREE * math.cos(math.radians(33.4))
        assert math.hypot(east, lat * MICRODEGREE) == pytest.approx(20, abs=0.2)
    assert max(lat for _, lat in offs) - min(lat for _, lat in offs) <= 1


def test_roads_that_are_added(tempe: RoadMap) -> None:
    """A tenth of 293 roads, both directions of each, between nodes 100 to 500 m apart that no road joined."""
    found = kinds.with_more_roads(tempe, 10, random.Random(1))
    new = found.lines[len(tempe.lines) :]
    assert found.lines[: len(tempe.lines)] == list(tempe.lines) and len(new) == 2 * 29
    joined = {(line.start, line.end) for line in tempe.lines}
    assert joined.isdisjoint((line.start, line.end) for line in new)
    assert all(1000 <= line.length <= 5000 for line in new)


def test_carriageways_and_roundabouts(tempe: RoadMap) -> None:
    """Both directions of some roads lie apart, so that they aren't one road any more; rings are of one way, and of 14 m."""
    found = kinds.with_carriageways(tempe, random.Random(1))
    doubled = [line for line in found.lines if line.form == 2]
    ring = [line for line in found.lines if line.form == 4]
    # Of 293 roads, within four standard deviations of 30 percent.
    assert abs(len(doubled) / 2 - 0.3 * 293) < 4 * math.sqrt(0.3 * 0.7 * 293)
    opposite = Roads(found).opposite
    assert ring and not any(line.id in opposite for line in (*doubled, *ring))
    following = {line.start: line for line in ring}
    line, length = ring[0], 0
    while not length or line is not ring[0]:
        length += line.length
        line = following[line.end]
    assert length == pytest.approx(2 * math.pi * 140, abs=4)


def test_a_sender_with_habits() -> None:
    """Lengths are an interval more, and bearings from one sector less to two more, in the mean .6 of a sector more."""
    point = ReferencePoint(3, 3, 0, 0, 0, interval=255, lowest=3)
    draws = random.Random(1)
    found = [kinds.other_habits([point], draws)[0] for _ in range(500)]
    turned = [(it.sector + 16) % 32 - 16 for it in found]
    assert set(turned) == {-1, 0, 1, 2} and all(it.interval == 255 for it in found)
    # The standard deviation of one is 1.02.
    assert abs(sum(turned) / 500 - 0.6) < 4 * 1.02 / math.sqrt(500)
    last = ReferencePoint(3, 3, 0, 0, 0)
    assert kinds.other_habits([last], draws)[0].interval is None
