"""Stores: what they hold, how they are made, and maps of some of their lines."""

import fiona
import json
import numpy as np
import os
import pytest
import random
import sqlite3
import subprocess
from pathlib import Path

from asking import draw_map
from drawing import Drawing as Streets
from drawn_maps import draw_files
from olr.model.map_folder import read_map
from olr.model.measure import lengths
from olr.regions import blocks as blocks_module
from olr.regions import packing
from olr.regions.blocks import Blocks, Directory
from olr.regions.index import fill_index, outwards
from olr.regions.making import make_store_of_folder
from olr.regions.plane import Disc, Discs, scale_at
from olr.regions.store import Sizes, Store
from olr.tools import run
from region_maps import Drawing
from stores import BANS, LINES, NODES, all_lines, folder_of, map_with_bans, texts
from vector_files import road, write


@pytest.fixture
def file(tmp_path: Path) -> Path:
    """Where a store is made."""
    return tmp_path / "stores" / "some.gpkg"


def test_all_lines_give_the_same_bytes(tmp_path: Path, file: Path) -> None:
    assert make_store_of_folder(folder_of(tmp_path / "map"), file) == Sizes(2, 2, 1)
    with Store.open(file) as store:
        assert store.sizes_of(all_lines(store)) == store.sizes == Sizes(2, 2, 1)
        store.write_map(all_lines(store), tmp_path / "again")
    assert texts(tmp_path / "again") == {"nodes.csv": NODES, "lines.csv": LINES, "bans.csv": BANS}


@pytest.mark.parametrize("seed", range(25))
def test_drawn_maps_come_back(seed: int, tmp_path: Path, file: Path) -> None:
    """Whatever the order, the quotes and the ends of records are."""
    place = tmp_path / "map"
    place.mkdir()
    for name, text in draw_files(random.Random(seed)).items():
        (place / name).write_bytes(text)
    make_store_of_folder(place, file)
    whole = read_map(place)
    with Store.open(file) as store:
        store.write_map(all_lines(store), tmp_path / "again")
    again = read_map(tmp_path / "again")
    assert list(again.lines) == sorted(whole.lines)
    assert set(again.bans) == set(whole.bans)
    ends = {node for line in whole.lines for node in (line.start, line.end)}
    assert list(again.nodes) == sorted(node for node in whole.nodes if node.id in ends)


def test_a_part_has_the_bans_between_its_lines(tmp_path: Path, file: Path) -> None:
    drawing = Drawing()
    spots = [(0, 0), (1000, 0), (2000, 0), (3000, 0)]
    first, second, third = (drawing.line(*pair) for pair in zip(spots, spots[1:]))
    drawing.bans = [(first, second), (second, third)]
    make_store_of_folder(drawing.write(tmp_path / "map"), file)
    with Store.open(file) as store:
        assert store.lines_meeting([Disc(0, 0, 1, 10_000)]).tolist() == [first]
        beside = [Disc(2000, 0, 1, 10_000), Disc(3000, 0, 1, 10_000)]
        part = store.lines_meeting(beside)
        assert part.tolist() == [second, third]
        assert store.sizes_of(part) == Sizes(3, 2, 1)
        store.write_map(part, tmp_path / "part")
        assert store.lines_meeting([]).tolist() == []
        store.write_map(store.lines_meeting([]), tmp_path / "empty")
    assert texts(tmp_path / "part")["bans.csv"] == f"from,to\n{second},{third}\n"
    assert texts(tmp_path / "empty")["lines.csv"] == LINES.splitlines()[0] + "\n"


def test_a_part_takes_no_longer_in_a_larger_store(tmp_path: Path, file: Path) -> None:
    """Blocks and the places of lines are looked up: no query goes through a whole table of the store, once it is open."""
    make_store_of_folder(folder_of(tmp_path), file)
    with Store.open(file) as store:
        asked: list[str] = []
        store._connection.set_trace_callback(asked.append)
        store.write_map(np.array([7, 8]), tmp_path / "part")
        store.write_map(store.lines_meeting([Disc(0, 0, 1, 10_000)]), tmp_path / "part")
        store._connection.set_trace_callback(None)
        plans = [store._connection.execute(f"EXPLAIN QUERY PLAN {query}") for query in asked]
        steps = [step for plan in plans for *_, step in plan if step.startswith("SCAN")]
    assert len(asked) == 2 and set(steps) == {"SCAN json_each VIRTUAL TABLE INDEX 1:"}


@pytest.mark.parametrize("count", [0, 1, 40, 1000])
def test_blocks_that_meet_boxes(count: int, monkeypatch: pytest.MonkeyPatch) -> None:
    """Beside a comparison of each block with each box, in levels of three."""
    monkeypatch.setattr(blocks_module, "FAN", 3)
    draw = np.random.default_rng(count)
    west, south = draw.integers(-10_000, 10_000, (2, count))
    wide, tall = draw.integers(0, 400, (2, count))
    boxes = np.stack([west, south, west + wide, south + tall]).astype(np.int32)
    blocks = Blocks(sqlite3.connect(":memory:"), Directory(boxes, []))
    asked = np.concatenate([boxes[:, ::9] + 7, np.array([[5], [-3000], [900], [2000]])], axis=1)
    met = {number: set(map(tuple, those.T.tolist())) for number, those in blocks.meeting(asked)}
    for number, (west, south, east, north) in enumerate(boxes.T.tolist()):
        wanted = {
            (w, s, e, n)
            for w, s, e, n in asked.T.tolist()
            if w <= east and e >= west and s <= north and n >= south
        }
        assert met.get(number, set()) == wanted


def test_few_blocks_are_kept(tmp_path: Path, file: Path, monkeypatch: pytest.MonkeyPatch) -> None:
    """Those that were read longest ago are read again, and a map is the same."""
    monkeypatch.setattr(packing, "LINES", 20)
    whole = map_with_bans(tmp_path / "map")
    make_store_of_folder(whole, file)
    with Store.open(file) as store:
        lines = all_lines(store)
        assert len(store._blocks._kept) == 20
        store.write_map(lines, tmp_path / "all")
    monkeypatch.setattr(blocks_module, "CACHE_BYTES", 10_000)
    with Store.open(file) as store:
        assert all_lines(store).tolist() == lines.tolist()
        store.write_map(lines, tmp_path / "few")
        kept = [size for _, size in store._blocks._kept.values()]
        assert 1 < len(kept) < 10 and sum(kept) == store._blocks._bytes <= 10_000
    assert texts(tmp_path / "all") == texts(tmp_path / "few")


def test_no_more_lines_than_a_map_may_have(
    tmp_path: Path, file: Path, monkeypatch: pytest.MonkeyPatch
) -> None:
    """Once there are too many, the other blocks aren't read."""
    monkeypatch.setattr(packing, "LINES", 20)
    make_store_of_folder(map_with_bans(tmp_path / "map"), file)
    earth = Discs.of([Disc(0.0, 0.0, 1e8, 1752)])
    for limit, most, blocks in (
        ("MOST_LINES", 50, 3),
        ("MOST_LINES", 399, 20),
        ("MOST_BANS", 19, 20),
    ):
        with monkeypatch.context() as patch, Store.open(file) as store:
            patch.setattr(f"olr.model.road_map.{limit}", most)
            assert store.lines_within_limits(earth) is None
            assert len(store._blocks._kept) == blocks
    with Store.open(file) as store:
        found = store.lines_within_limits(earth)
        assert found is not None and np.array_equal(found, all_lines(store))


@pytest.mark.parametrize("count", [0, 1, 51, 52, 3000])
def test_the_index_of_the_layer(count: int) -> None:
    """Beside one into which SQLite put the same boxes one by one."""
    draw = np.random.default_rng(count)
    ids = draw.permutation(10 * count)[:count] + 1
    lon, lat = np.round(draw.uniform(-80, 80, (2, count)), 6)
    wide, tall = np.round(draw.exponential(0.5, (2, count)), 6)
    edges = np.stack([lon - wide, lon + wide, lat - tall, lat + tall])
    connection = sqlite3.connect(":memory:")
    for name in ("packed", "grown"):
        connection.execute(
            f"CREATE VIRTUAL TABLE {name} USING rtree (id, west, east, south, north)"
        )
    sides = zip(edges, (-1, 1, -1, 1))
    fill_index(connection, "packed", ids, np.stack([outwards(*one) for one in sides]))
    rows = zip(ids.tolist(), *edges.tolist())
    connection.executemany("INSERT INTO grown VALUES (?, ?, ?, ?, ?)", rows)
    assert connection.execute("SELECT rtreecheck('packed')").fetchone() == ("ok",)
    found = np.array(connection.execute("SELECT * FROM packed ORDER BY id").fetchall()).reshape(
        -1, 5
    )
    order = np.argsort(ids)
    assert found[:, 0].tolist() == ids[order].tolist()
    beyond = (found[:, 1:].T - edges[:, order]) * np.array([[-1], [1], [-1], [1]])
    assert (beyond >= 0).all() and (beyond < 1e-5).all()
    for west, south in draw.uniform(-80, 80, (30, 2)).tolist():
        where = (
            f"east >= {west} AND west <= {west + 9} AND north >= {south} AND south <= {south + 9}"
        )
        packed, grown = (
            set(connection.execute(f"SELECT id FROM {name} WHERE {where}"))
            for name in ("packed", "grown")
        )
        is_met = (edges[1] >= west) & (edges[0] <= west + 9)
        is_met &= (edges[3] >= south) & (edges[2] <= south + 9)
        assert {(id,) for id in ids[is_met].tolist()} <= packed <= grown
    connection.execute("DELETE FROM packed WHERE id % 2")
    connection.execute("INSERT INTO packed VALUES (99999, 0, 1, 0, 1)")
    assert connection.execute("SELECT rtreecheck('packed')").fetchone() == ("ok",)


def test_lines_meeting_discs_are_never_too_few(tmp_path: Path, file: Path) -> None:
    """Beside the distance of each line's polyline, measured another way."""
    from shapely.affinity import scale
    from shapely.geometry import LineString, Point

    whole = draw_map(tmp_path / "map", 300, 600)
    road_map = read_map(whole)
    positions = {node.id: node.position for node in road_map.nodes}
    make_store_of_folder(whole, file)
    draw = random.Random(1)
    with Store.open(file) as store:
        for _ in range(20):
            lon, lat = positions[draw.choice(list(positions))]
            radius, wide = draw.choice([1.0, 100.0, 5000.0]), scale_at(lat) / 10_000
            met = store.lines_meeting([Disc(lon, lat, radius, scale_at(lat))])
            middle = Point(lon * wide, lat)
            for line in road_map.lines:
                shape = [positions[line.start], *line.shape, positions[line.end]]
                flat = scale(LineString(shape), wide, 1, origin=(0, 0))
                if flat.distance(middle) * 0.11132 <= radius:
                    assert line.id in met


def test_the_lines_of_many_discs(tmp_path: Path, file: Path) -> None:
    """All lines of each, and few more."""
    make_store_of_folder(draw_map(tmp_path / "map", 1500, 3000), file)
    with Store.open(file) as store:
        _, (west, south, _, _) = store.boxes_near(Disc(0, 0, 1e8, 1752))
        draw = random.Random(2)
        discs = [
            Disc(west[place], south[place], draw.uniform(20, 200), 6500)
            for place in draw.sample(range(len(west)), 40)
        ]
        found = np.concatenate([store.lines_meeting([disc]) for disc in discs])
        each, together = np.unique(found), store.lines_meeting(discs)
        assert set(each) <= set(together)
        assert len(each) <= len(together) < 1.5 * len(each) < 0.6 * store.sizes.lines


def test_other_programs_open_it(tmp_path: Path, file: Path) -> None:
    make_store_of_folder(folder_of(tmp_path / "map"), file)
    assert fiona.listlayers(file) == ["lines", "nodes"]
    with fiona.open(file, layer="lines") as layer:
        assert layer.crs.to_epsg() == 4326
        first, second = layer
        assert dict(first["properties"])["length"] == 1113
        assert first["id"] == "7"
        assert list(first["geometry"]["coordinates"]) == [
            (0, 0),
            (0.0003, 0.000001),
            (0.0006, 0.000002),
            (0.001, -0.000005),
        ]
        assert len(list(layer.filter(bbox=(0.0002, 0.000001, 0.0004, 0.000001)))) == 1
    said = subprocess.run(["ogrinfo", "-so", file, "lines"], capture_output=True, text=True)
    assert "Feature Count: 2" in said.stdout and said.stderr == ""


def test_how_much_shorter_lines_are(tmp_path: Path, file: Path) -> None:
    """300 lines of the length of their shapes, and one of a tenth of it; lengths as on the ellipsoid."""
    drawing = Drawing()
    for number in range(300):
        spots = [(1000 * number, 50_000_000), (1000 * number + 900, 50_000_000)]
        drawing.line(*spots, length=lengths([spots])[0])  # type: ignore[list-item]
    odd = drawing.line((5000, 50_000_000), (5000, 50_010_000), length=1112)
    make_store_of_folder(drawing.write(tmp_path / "map"), file)
    with Store.open(file) as store:
        known = store.shortness
        assert 1.0 <= known.usual < 1.003
        assert known.greatest == pytest.approx(10.01, abs=0.01)
        assert known.lines.tolist() == [odd]
        assert known.excess[0] == pytest.approx(1113.2 - 111.2 * known.usual, abs=0.1)
        nowhere, near = Disc(0, 0, 1.0, 10_000), Disc(5000, 50_000_000, 1.0, 6428)
        starting = Discs.of([nowhere, near, nowhere])
        meeting = Discs.of([nowhere, nowhere, near])
        assert known.excess_of(starting, meeting).tolist() == [0.0, *[known.excess[0]] * 2]


def test_the_command(
    tmp_path: Path, file: Path, capsys: pytest.CaptureFixture[str], monkeypatch: pytest.MonkeyPatch
) -> None:
    place = folder_of(tmp_path / "map")
    (place / "bans.csv").unlink()
    words = ["regions", str(place), "--out", str(file)]
    assert run(words) == 0
    assert capsys.readouterr().out == f"{file}: 2 nodes, 2 lines, 0 bans\n"
    assert run(words) == 1
    assert "is there: name another file, or replace it by --force" in capsys.readouterr().err
    assert run([*words, "--force"]) == 0
    assert run(["regions", str(place / "nodes.csv"), "--out", str(file), "--force"]) == 1
    assert "make a map of it first, by olr-tools import" in capsys.readouterr().err
    assert run(["regions", str(tmp_path), "--out", str(file), "--force"]) == 1
    assert "there is no map in" in capsys.readouterr().err
    assert run(["regions", str(place), "--out", str(place), "--force"]) == 1
    assert "is a folder: name a file" in capsys.readouterr().err
    with Store.open(file) as store:
        assert store.sizes.lines == 2


def test_the_command_of_an_osm_file(
    tmp_path: Path, file: Path, capsys: pytest.CaptureFixture[str]
) -> None:
    streets = Streets({1: (0, 0), 2: (100, 0), 3: (200, 0), 4: (100, 90)})
    streets.way(7, [1, 2, 3], "primary")
    streets.way(8, [2, 4])
    source = streets.write(tmp_path / "streets.osm")
    place, of_folder = tmp_path / "map", tmp_path / "of_folder.gpkg"
    assert run(["import", "osm", str(source), "--out", str(place)]) == 0
    assert run(["regions", str(place), "--out", str(of_folder)]) == 0
    said = capsys.readouterr().out.splitlines()[-1].removeprefix(str(of_folder))
    assert run(["regions", str(source), "--out", str(file)]) == 0
    assert capsys.readouterr().out == f"{file}{said}\n"
    folders = [tmp_path / "first", tmp_path / "second"]
    for stored, folder in zip((of_folder, file), folders):
        with Store.open(stored) as store:
            store.write_map(np.array(sorted(line.id for line in read_map(place).lines)), folder)
    for name in ("nodes.csv", "lines.csv", "bans.csv"):
        assert (folders[0] / name).read_bytes() == (folders[1] / name).read_bytes()
    assert read_map(folders[1]).lines == sorted(read_map(place).lines)
    assert run(["regions", str(source), "--out", str(file)]) == 1
    assert "is there: name another file" in capsys.readouterr().err


@pytest.mark.parametrize("limit", ["MOST_LINES", "MOST_NODES", "MOST_BANS"])
def test_imports_beyond_the_limits_become_stores(
    limit: str, tmp_path: Path, capsys: pytest.CaptureFixture[str], monkeypatch: pytest.MonkeyPatch
) -> None:
    """The same map as below the limits, and the other way round again."""
    streets = Streets({1: (0, 0), 2: (1000, 0), 3: (2000, 0), 4: (3000, 0)})
    for way in (1, 2, 3):
        streets.way(way, [way, way + 1])
    osm = ["import", "osm", str(streets.write(tmp_path / "streets.osm"))]
    points = [[(500_000, 5_000_000), (500_500, 5_000_000), (501_000, 5_000_000)]]
    vector = ["import", "vector", str(write(tmp_path / "roads.gpkg", [road(points[0])] * 3))]
    vector += ["--class", "3", "--form", "3"]
    for number, words in enumerate((osm, vector)):
        small, out = tmp_path / f"small{number}", tmp_path / f"out{number}"
        assert run([*words, "--out", str(small)]) == 0
        assert run([*words, "--out", str(out)]) == 0
        with monkeypatch.context() as patch:
            patch.setattr(f"olr.model.road_map.{limit}", -1)
            assert run([*words, "--out", str(out), "--force"]) == 0
        assert f"{out}/map.gpkg: " in capsys.readouterr().out
        assert sorted(os.listdir(out)) == ["ids.csv", "import.json", "map.gpkg"]
        assert json.loads((out / "import.json").read_text())["lines"] > 0
        with Store.open(out) as store:
            store.write_map(all_lines(store), tmp_path / f"again{number}")
        assert texts(tmp_path / f"again{number}") == texts(small)
        assert run([*words, "--out", str(out), "--force"]) == 0
        assert sorted(os.listdir(out)) == sorted(os.listdir(small))
