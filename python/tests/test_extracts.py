"""The extracts that Debian's package python-osmnx-doc ships, compared with what osmnx makes of them."""

import pytest
import warnings
from collections import Counter
from pathlib import Path
from typing import Any

from conftest import Program
from olr.counts import Counts
from olr.model.map_folder import write_map
from olr.model.road_map import RoadMap
from olr.osm.importing import Options, import_osm

FOLDER = Path("/usr/share/doc/python-osmnx-doc/examples/tests/input_data")
EXTRACTS = ["West-Oakland.osm.bz2", "planet_10.068,48.135_10.071,48.137.osm"]


def graph_of(file: Path, ways: set[int]) -> Any:
    """The graph that osmnx makes of the ways of a file, with its own cut of them."""
    with warnings.catch_warnings():
        warnings.simplefilter("ignore")
        import osmnx

        whole = osmnx.graph_from_xml(file, simplify=False, retain_all=True)
        others = [edge for edge in whole.edges(keys=True) if whole.edges[edge]["osmid"] not in ways]
        whole.remove_edges_from(others)
        lone = [node for node, degree in whole.degree() if degree == 0]
        whole.remove_nodes_from(lone)
        return osmnx.simplify_graph(whole)


def streets_at_nodes(road_map: RoadMap) -> Counter[int]:
    """How many parts of roads meet at each node."""
    ends = {
        (origin.source, origin.part): (line.start, line.end)
        for line, origin in zip(road_map.lines, road_map.origins)
    }
    return Counter(node for pair in ends.values() for node in pair)


@pytest.mark.parametrize("name", EXTRACTS)
@pytest.mark.parametrize("service", [False, True])
def test_as_osmnx(program: Program, tmp_path: Path, name: str, service: bool) -> None:
    import osmnx

    if not FOLDER.exists():
        pytest.fail("the extracts aren't here: run ./olr-tools setup --tests")
    made = import_osm(FOLDER / name, Options(service=service), Counts())
    road_map = made.road_map
    write_map(road_map, tmp_path / "map", made.about)
    assert program.fault(tmp_path / "map") == ""

    graph = graph_of(FOLDER / name, {int(origin.source) for origin in road_map.origins})
    metres = sum(length for *_, length in graph.edges(data="length"))
    # osmnx measures on a sphere, which may be 0.6 percent off.
    assert sum(line.length for line in road_map.lines) / 10 == pytest.approx(metres, rel=0.006)
    streets = osmnx.stats.count_streets_per_node(graph)
    junctions = {node for node, number in streets.items() if number > 2}
    assert {node for node, number in streets_at_nodes(road_map).items() if number > 2} == junctions
    dead_ends = {node for node, number in streets.items() if number == 1}
    assert {node for node, number in streets_at_nodes(road_map).items() if number == 1} == dead_ends
