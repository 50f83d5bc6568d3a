"""Geometries of answers: where pieces and places are, and tables of them."""

import geopandas
import numpy as np
import pytest
import random
import subprocess
from collections.abc import Sequence
from pathlib import Path
from pyproj import Geod
from typing import Any

import olr
from asking import draw_map, draw_references
from conftest import REFERENCE, TOP, Program
from olr.errors import ToolError
from olr.geometry.network import middle
from olr.model.map_folder import read_map
from olr.model.pieces import Pieces, Place, Spot

ELLIPSOID = Geod(ellps="WGS84")
KIOSK = "KwVGnCN20HPDBwFCATFjT5Y="
ROADWORKS = "CwVGnSN2zhvHCgDX/tIzAw=="


@pytest.fixture(scope="module")
def folder(tmp_path_factory: pytest.TempPathFactory) -> Path:
    """A drawn map."""
    return draw_map(tmp_path_factory.mktemp("drawn") / "map", 800, 1600)


@pytest.fixture(scope="module")
def network(folder: Path) -> olr.Network:
    """That map as arrays."""
    return olr.Network.read(folder)


def test_what_is_read(folder: Path, network: olr.Network) -> None:
    road_map = read_map(folder)
    positions = {node.id: node.position for node in road_map.nodes}
    assert network.node_id.tolist() == sorted(positions)
    for line in road_map.lines:
        points = [positions[line.start], *line.shape, positions[line.end]]
        drawn = np.round(network.path([(line.id, 0, line.length)]) * 1e6).astype(int)
        assert drawn.tolist() == [list(point) for point in points]


def test_lengths_of_pieces(folder: Path, network: olr.Network) -> None:
    draw = random.Random(1)
    for line in read_map(folder).lines[:150]:
        start = draw.randrange(line.length)
        end = draw.randrange(start, line.length) + 1
        whole = ELLIPSOID.line_length(*network.path([(line.id, 0, line.length)]).T)
        path = network.path([(line.id, start, end)])
        part = ELLIPSOID.line_length(*path.T)
        assert part == pytest.approx(whole * (end - start) / line.length, rel=3e-3, abs=0.01)
        points = network.points_at(np.array([(line.id, start), (line.id, end)]))
        assert np.allclose(path[[0, -1]], points, atol=1e-12, rtol=0)


def test_coordinates_of_answers(folder: Path, network: olr.Network, program: Program) -> None:
    """They are those of the map's files, to a microdegree: each is rounded to a whole one. Of routes and their parts, of points and of near
    lines, which lie so far from their points as is told."""
    seen = 0
    with olr.Map.of_folder(folder, radius=300, bearing=16, program=program.path) as asked:
        for text in draw_references(folder, 60):
            try:
                page, why = asked.match(text, shape=True), asked.why(text, nearest=5, shape=True)
            except olr.Fault:
                continue
            for matching in page:
                drawn = matching.shape
                assert drawn is not None and matching.route[0]
                parts = [(matching.route, drawn.route), (matching.outer, drawn.outer)]
                for pieces, spots in [*parts, (matching.inner, drawn.inner)]:
                    path = [] if pieces is None else network.path(pieces)
                    assert_same(spots or (), path)
                    seen += 1
                places = np.array([(one.line, one.at) for one in matching.points])
                of_points = [one.spot for one in matching.points if one.spot]
                assert_same(of_points, network.points_at(places))
            points = olr.decode(text, program=program.path).points
            for point, near in zip(points, why.points):
                for line in near.nearest:
                    assert line.spot is not None
                    assert_same([line.spot], network.points_at(np.array([(line.line, line.at)])))
                    here = point.lon / 1e6, point.lat / 1e6
                    _, _, metres = ELLIPSOID.inv(*here, line.spot.lon / 1e6, line.spot.lat / 1e6)
                    assert metres == pytest.approx(line.distance / 100, rel=0.01, abs=1)
                    seen += 1
    assert seen > 500


def assert_same(spots: Sequence[Spot], points: Any) -> None:
    """Spots are these points, to a microdegree. Of neighbours that are equal one is left."""
    whole = np.array(spots).reshape(-1, 2)
    exact = np.array(points).reshape(-1, 2) * 1e6
    for one, others in [*((it, exact) for it in whole), *((it, whole) for it in exact)]:
        assert np.abs(others - one).max(axis=1).min() <= 1


def test_a_folder_alone() -> None:
    """As `olr.Map` takes it."""
    town = olr.Network(TOP / "examples")
    assert repr(town) == f"<Network of {TOP}/examples: 20 nodes, 41 lines>"


def test_pieces_that_arent_there(network: olr.Network, tmp_path: Path) -> None:
    with pytest.raises(ToolError, match="has no line 5: read the map that the answer is of"):
        network.path([(5, 0, 10)])
    line, length = int(network.line_id[0]), int(network.length[0])
    for start, end in ((length, 0), (6, 5)):
        with pytest.raises(ToolError, match=f"line {line} from {start} to {end} runs backwards: g"):
            network.path([(line, 0, 7), (line, start, end)])
    assert len(network.path([(line, 5, 5)])) == 2
    with pytest.raises(ToolError, match="can't be read"):
        olr.Network.read(tmp_path / "none")
    (tmp_path / "nodes.csv").write_text("id,lon,lat\n1,0,0\n")
    (tmp_path / "lines.csv").write_text("id,from,to,class,form,length,shape\n1,1,2,0,0,5,\n")
    with pytest.raises(ToolError, match="lacks nodes"):
        olr.Network.read(tmp_path)
    (tmp_path / "lines.csv").write_text("id,from,to,class,form,length,shape\n1,1,2,0,0,x,\n")
    with pytest.raises(
        ToolError, match="record 1 of the lines isn.t one of a map: run olr-tools check"
    ):
        olr.Network.read(tmp_path)
    (tmp_path / "lines.csv").write_text("id,from,to,class,form,length,shape\n")
    assert len(olr.Network.read(tmp_path).line_id) == 0
    assert not len(network.path([]))


@pytest.mark.parametrize(
    ("earliest", "latest", "expected"),
    [
        ((1, 10), (1, 30), (1, 20)),
        ((1, 90), (2, 20), (2, 5)),
        ((1, 100), (2, 0), (1, 100)),
        ((2, 50), (2, 50), (2, 50)),
        ((1, 0), (3, 9), (2, 4)),
    ],
)
def test_halfway(
    earliest: tuple[int, int], latest: tuple[int, int], expected: tuple[int, int]
) -> None:
    route = Pieces([(1, 0, 100), (2, 0, 100), (3, 0, 9)])  # type: ignore[list-item]
    assert middle(route, Place(*earliest), Place(*latest)) == expected


def test_types_of_tables(program: Program) -> None:
    """They don't depend on the answers."""
    with olr.Map.of_folder(TOP / "examples", program=program.path) as town:
        pages = list(town.matches([REFERENCE, KIOSK, "", "CwVGnSN2zhtnBgEB/2IjAQ=="], shape=True))
        places = [town.places(REFERENCE, shape=True)]
    types = []
    several: list[Sequence[olr.Page | olr.Places | olr.Fault]]
    several = [[], [pages[2]], [pages[3]], [pages[1]], pages, places]
    for answers in several:
        table = olr.to_geodataframe(answers)
        types.append({name: str(kind) for name, kind in table.dtypes.items()})
        texts = table[["verdict", "cursor", "fault"]].values.ravel()
        assert all(text is None or isinstance(text, str) for text in texts)
    penalties = ("total", "point_penalty", "leg_penalty")
    counts = ("likely", "rank", "gap", "margin", "turns_back", "members", "candidates")
    numbers = dict.fromkeys((*penalties, *counts), "Int64")
    sure = ("probability", "none_of_these", "map_differs", "map_differs_low", "map_differs_high")
    lengths = ("ends_m", "from_m", "to_m", "outer_m", "inner_m")
    metres = dict.fromkeys((*sure, *lengths), "float64")
    words = ("verdict", "part", "lines", "sources", "names", "reasons", "cursor", "fault")
    texts = dict.fromkeys(words, "object")
    assert types == [{"key": "int64", "geometry": "geometry", **numbers, **metres, **texts}] * 6


@pytest.mark.parametrize("suffix", [".gpkg", ".geojson", ".shp"])
def test_tables(program: Program, tmp_path: Path, suffix: str) -> None:
    examples = TOP / "examples"
    network = olr.Network.read(examples)
    texts = [REFERENCE, ROADWORKS, "CwVGnSN2zhvHCgDX", "CwVGnSN2zhtnBgEB/2IjAQ=="]
    with olr.Map(
        examples / "nodes.csv", examples / "lines.csv", program=program.path, profile="program"
    ) as town:
        table = olr.to_geodataframe(town.matches(texts, shape=True), keys=["a", "b", "c", "d"])
        likely = town.places(ROADWORKS, order="likely", shape=True)
        places = olr.to_geodataframe([likely], part="inner")
        kiosk = olr.to_geodataframe([town.match(KIOSK, shape=True)])
        with pytest.raises(ValueError, match="longer"):
            olr.to_geodataframe([town.match(KIOSK, shape=True)], keys=[])
        bare: list[olr.Page | olr.Places] = [town.match(KIOSK), town.places(KIOSK)]
        for answer in bare:
            with pytest.raises(ValueError, match="no geometries: ask for them with shape=True"):
                olr.to_geodataframe([answer])
        with pytest.raises(TypeError, match="Why has no matchings"):
            olr.to_geodataframe([town.why(KIOSK)])  # type: ignore[list-item]
    assert table["key"].tolist() == ["a", "b", "b", "c", "d"]
    assert table["verdict"].tolist() == ["match", "match", "match", "fault", "none"]
    assert table["total"].dropna().tolist() == [8, 64, 71]
    assert table["fault"].tolist()[3] == "BadLength 12"
    assert table.geometry.isna().tolist() == [False, False, False, True, True]
    # The likeliest place is the second one by totals.
    assert places[["key", "gap", "margin"]].values.tolist() == [[0, 7, 7], [0, 0, 7]]
    point = kiosk.geometry[0]
    assert point.geom_type == "Point"
    (halfway,) = network.points_at(np.array([(701, (2697 + 2716) // 2)])).tolist()
    assert [point.x, point.y] == pytest.approx(halfway, abs=1e-6)
    file = tmp_path / f"table{suffix}"
    table.to_file(file)
    assert geopandas.read_file(file)["total"].dropna().astype(int).tolist() == [8, 64, 71]
    listed = subprocess.run(
        ["ogrinfo", "-so", "-al", file], capture_output=True, text=True, check=True
    ).stdout
    assert "Feature Count: 5" in listed and "WGS 84" in listed
