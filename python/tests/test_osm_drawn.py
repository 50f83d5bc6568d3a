"""Drawn files with every kind of trouble at once: no step of a road is lost, and none is made up."""

import pytest
import random
from collections import Counter
from collections.abc import Sequence
from typing import get_args

from conftest import Import
from drawing import Drawing
from olr.errors import ToolError
from olr.importing.u_turns import UTurns
from olr.model.road_map import Position, RoadMap
from olr.osm.importing import Options

Step = tuple[Position, Position]
ONE_WAY = {"yes": (True, False), "-1": (False, True), "no": (True, True)}


def steps(positions: Sequence[Position | None]) -> Counter[Step]:
    """The steps from each position to the next one, where both are there and aren't the same."""
    pairs = zip(positions, positions[1:])
    return Counter((a, b) for a, b in pairs if a is not None and b is not None and a != b)


def steps_of_map(road_map: RoadMap) -> Counter[Step]:
    """The steps of all lines of a map."""
    places = {node.id: node.position for node in road_map.nodes}
    total: Counter[Step] = Counter()
    for line in road_map.lines:
        total += steps([places[line.start], *line.shape, places[line.end]])
    return total


@pytest.mark.parametrize("seed", range(40))
def test_steps_are_those_of_the_ways(imported: Import, seed: int) -> None:
    draws = random.Random(seed)
    reach = draws.choice((2, 30, 3000))
    nodes = {
        id: (draws.randint(-reach, reach) + draws.choice((0, 0.3)), draws.randint(-reach, reach))
        for id in range(1, draws.randint(3, 200))
    }
    there = {id: Position(round(lon - 0.1), lat) for id, (lon, lat) in nodes.items()}
    drawing = Drawing(nodes)
    expected: Counter[Step] = Counter()
    for way in range(1, draws.randint(2, 20)):
        # Ids up to 10 more than there are: nodes that the file lacks.
        members = draws.choices(
            range(1, len(nodes) + draws.choice((1, 10))), k=draws.choice((1, 2, 5, 150))
        )
        if draws.random() < 0.3:
            members.append(members[0])
        one_way = draws.choice(list(ONE_WAY))
        drawing.way(way, members, oneway=one_way)
        forward, backward = ONE_WAY[one_way]
        positions = [there.get(member) for member in members]
        expected += steps(positions) if forward else Counter()
        expected += steps(positions[::-1]) if backward else Counter()
    for _ in range(20):
        kind = draws.choice(("no_left_turn", "no_u_turn", "only_right_turn", "no_entry"))
        drawing.turn(kind, draws.randint(1, 20), draws.randint(1, len(nodes)), draws.randint(1, 20))
    options = Options(u_turns=draws.choice(get_args(UTurns)))
    if not expected:
        with pytest.raises(ToolError, match="has no roads"):
            imported(drawing, options)
        return
    road_map = imported(drawing, options).road_map
    assert steps_of_map(road_map) == expected
    assert all(len(line.shape) <= 64 and line.start != line.end for line in road_map.lines)
    assert len({line.id for line in road_map.lines}) == len(road_map.lines)
