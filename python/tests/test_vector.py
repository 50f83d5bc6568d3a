"""`olr-tools import vector`: which features become lines, and what the values of fields mean."""

import fiona
import math
import pytest
from collections.abc import Iterator, Sequence
from pathlib import Path

from conftest import Program
from olr.checking.files import check_files
from olr.tools import run
from olr.vector.table import kind_among, read_value_table, text_of
from vector_files import STREETS, about, assert_refused, road, rows, write

WORDS = ("--class", "kind", "--form", "carriageways", "--oneway", "dir", "--id", "code")
TABLE = """
[class]
main = 2
side = 5
path = false
[form]
1 = 3
2 = 2
[oneway]
forward = ["F"]
backward = ["T"]
both = ["B", ""]
closed = ["N"]
"""


def length(points: Sequence[tuple[float, float]]) -> float:
    """The length of a polyline in its own units."""
    return sum(math.dist(a, b) for a, b in zip(points, points[1:]))


@pytest.fixture
def table(tmp_path: Path) -> Path:
    """A table of values."""
    file = tmp_path / "table.toml"
    file.write_text(TABLE)
    return file


@pytest.fixture
def out(tmp_path: Path) -> Iterator[Path]:
    """The folder of a map. A map that was written has no fault."""
    folder = tmp_path / "map"
    yield folder
    if folder.exists():
        assert check_files(folder, 1)[0].kept == []


def test_geopackage(tmp_path: Path, table: Path, out: Path, program: Program) -> None:
    """A crossing of two roads in metres of UTM, the second of which goes one way, against its drawing."""
    x, y = 500_000.0, 5_500_000.0
    roads = [
        road([(x, y), (x + 60, y), (x + 100, y)], code=7),
        road([(x + 100, y), (x + 200, y + 10)], code=8),
        road([(x + 100, y), (x + 100, y + 50)], "side", 2, "T", code=9),
    ]
    file = write(tmp_path / "roads.gpkg", roads)
    assert (
        run(["import", "vector", str(file), *WORDS, "--mapping", str(table), "--out", str(out)])
        == 0
    )
    # 5,500 km of UTM are 5,502.201 km of the meridian, which are 49.652543 degrees.
    assert rows(out, "nodes.csv")[0] == ["1", "9000000", "49652543"]
    lines = {row[0]: row[1:] for row in rows(out, "lines.csv")}
    assert {id: row[:4] + row[5:] for id, row in lines.items()} == {
        "70000": ["1", "2", "2", "3", "9000831 49652543"],
        "70001": ["2", "1", "2", "3", "9000831 49652543"],
        "80000": ["2", "3", "2", "3", ""],
        "80001": ["3", "2", "2", "3", ""],
        "90001": ["4", "2", "5", "2", ""],
    }
    # A metre of UTM on its central meridian is 1 / 0.9996 m on the ellipsoid; a microdegree is 0.1 m.
    for id, metres in (("70000", 100.0), ("80000", math.hypot(100, 10)), ("90001", 50.0)):
        assert int(lines[id][4]) == pytest.approx(metres / 0.09996, abs=1.5)
    # At node 2 only two lines start, since the third road leads into it alone.
    assert rows(out, "bans.csv") == [["70000", "70001"], ["80001", "80000"]]
    assert rows(out, "ids.csv")[-1] == ["90001", "9", "backward", "0", ""]
    assert about(out)["left_out"] == about(out)["changed"] == {}
    assert about(out)["crs"] == "ETRS89 / UTM zone 32N"
    assert program.fault(out) == ""


def test_values(tmp_path: Path, table: Path, out: Path, capsys: pytest.CaptureFixture[str]) -> None:
    """What isn't named by the table, no value at all, and values that leave a road out."""
    line = [(9.0, 49.0), (9.001, 49.0)]
    roads = [
        road(line, "track"),
        road(line, None),
        road(line, "path"),
        road(line, dir="N"),
        road(line, carriageways=5, dir="X"),
        road(None),
        road((9.0, 49.0), type="Point"),
    ]
    file = write(tmp_path / "roads.geojson", roads, "GeoJSON", 4326)
    assert (
        run(["import", "vector", str(file), *WORDS, "--mapping", str(table), "--out", str(out)])
        == 0
    )
    assert about(out)["left_out"] == {
        'roads whose class isn\'t known: "track"': 1,
        'roads whose class isn\'t known: ""': 1,
        "roads that the table leaves out by their class": 1,
        "roads that are closed in both directions": 1,
        "records without a geometry": 1,
        "records that are not lines, but of type Point": 1,
    }
    assert about(out)["changed"] == {
        'forms that aren\'t known, taken as 0 (unknown): "5"': 1,
        'roads whose direction isn\'t known, taken as two-way: "X"': 1,
    }
    assert [row[:5] for row in rows(out, "lines.csv")] == [
        ["10000", "1", "2", "2", "0"],
        ["10001", "2", "1", "2", "0"],
    ]
    assert 'left out: roads whose class isn\'t known: "track": 1' in capsys.readouterr().err


def test_many_values_that_arent_known(tmp_path: Path, out: Path) -> None:
    """Twenty are counted by their names, however often and wherever they come, and all others together."""
    line = [(9.0, 49.0), (9.001, 49.0)]
    roads = [road(line, f"kind {n}") for n in [*range(25), *range(25)]]
    file = write(tmp_path / "roads.geojson", [*roads, road(line, "3")], "GeoJSON", 4326)
    words = ["import", "vector", str(file), "--class", "kind", "--form", "3", "--out", str(out)]
    assert run(words) == 0
    reason = "roads whose class isn't known"
    named = {f'{reason}: "kind {n}"': 2 for n in range(20)}
    assert about(out)["left_out"] == named | {f"{reason}: other values": 10}


def test_parts_and_long_shapes(tmp_path: Path, table: Path, out: Path) -> None:
    """A record of two line strings is one road of several parts; a part has 64 points at most; heights are dropped."""
    long = [(9.0 + i / 10_000, 49.0 + (i % 2) / 10_000, 3.0) for i in range(133)]
    roads = [road([long, [(9.5, 49.0, 0.0), (9.6, 49.0, 1.0)]], code=4, type="MultiLineString")]
    file = write(tmp_path / "roads.gpkg", roads, crs=4326)
    assert (
        run(["import", "vector", str(file), *WORDS, "--mapping", str(table), "--out", str(out)])
        == 0
    )
    parts = [row for row in rows(out, "ids.csv") if row[2] == "forward"]
    assert [row[0] for row in parts] == ["40000", "40002", "40004", "40006"]
    shapes = [row[6].count(";") + 1 for row in rows(out, "lines.csv") if row[6]]
    assert max(shapes) <= 64
    assert about(out)["changed"] == {"roads cut past 64 shape points": 1}


def test_places_that_are_not_read(tmp_path: Path, out: Path) -> None:
    """Beyond latitude 80, and off the earth."""
    roads = [
        road([(9.0, 49.0), (9.001, 49.0)]),
        road([(9.0, 79.0), (9.001, 80.1)]),
        road([(500.0, 1.0), (501.0, 1.0)]),
        road([(9.0, 49.0)]),
    ]
    file = write(tmp_path / "roads.geojson", roads, "GeoJSON", 4326)
    words = ["import", "vector", str(file), "--class", "3", "--form", "3", "--out", str(out)]
    assert run(words) == 0
    assert about(out)["left_out"] == {
        "line strings beyond latitude 80": 1,
        "line strings beyond longitude 180": 1,
        "line strings without two vertices": 1,
    }


def test_ids(tmp_path: Path, out: Path) -> None:
    """Ids that aren't whole numbers are kept as sources, and the records are counted instead."""
    roads = [road([(9.0, 49.0), (9.001, 49.0)], "A1"), road([(9.001, 49.0), (9.002, 49.0)], "B2")]
    file = write(tmp_path / "roads.gpkg", roads, crs=4326)
    words = [
        "import",
        "vector",
        str(file),
        "--class",
        "3",
        "--form",
        "carriageways",
        "--id",
        "kind",
    ]
    assert run([*words, "--out", str(out)]) == 0
    assert rows(out, "ids.csv") == [
        ["10000", "A1", "forward", "0", ""],
        ["10001", "A1", "backward", "0", ""],
        ["20000", "B2", "forward", "0", ""],
        ["20001", "B2", "backward", "0", ""],
    ]
    assert rows(out, "bans.csv") == [["10000", "10001"], ["20001", "20000"]]
    reason = "roads numbered by their records, since not all of field kind are whole numbers"
    assert about(out)["changed"] == {reason: 2}


def test_same_files(tmp_path: Path, table: Path) -> None:
    """The same input gives the same files; --u-turns allowed leaves the bans out, and plain most of them."""
    for name in ("a", "b", "plain", "allowed"):
        words = ["import", "vector", str(STREETS), "--class", "5", "--form", "3", "--id", "ID"]
        more = [] if name in "ab" else ["--u-turns", name]
        assert run([*words, *more, "--out", str(tmp_path / name)]) == 0
    for file in ("nodes.csv", "lines.csv", "bans.csv", "ids.csv", "import.json"):
        assert (tmp_path / "a" / file).read_bytes() == (tmp_path / "b" / file).read_bytes()
    assert rows(tmp_path / "allowed", "bans.csv") == []
    assert 0 < 2 * len(rows(tmp_path / "plain", "bans.csv")) < len(rows(tmp_path / "a", "bans.csv"))


def test_box(tmp_path: Path, out: Path) -> None:
    """Whole roads that reach into the box, with the ids that they have without it."""
    words = ["import", "vector", str(STREETS), "--class", "5", "--form", "3"]
    assert run([*words, "--out", str(tmp_path / "all")]) == 0
    assert run([*words, "--bbox", "-111.84,33.41,-111.83,33.42", "--out", str(out)]) == 0
    taken, everything = rows(out, "ids.csv"), rows(tmp_path / "all", "ids.csv")
    assert 100 < len(taken) < len(everything)
    assert {tuple(row) for row in taken} < {tuple(row) for row in everything}
    left_out = about(out)["left_out"]["line strings outside the box"]
    assert 2 * left_out == len(everything) - len(taken)
    inside = sum(
        -111_840_000 <= int(lon) <= -111_830_000 and 33_410_000 <= int(lat) <= 33_420_000
        for _, lon, lat in rows(tmp_path / "all", "nodes.csv")
    )
    assert len(rows(out, "nodes.csv")) > inside > 50


def test_streets_of_tempe(tmp_path: Path, out: Path, program: Program) -> None:
    """A shapefile in feet: 293 streets, all two-way, and the length that its own geometry has."""
    words = ["import", "vector", str(STREETS), "--class", "5", "--form", "3", "--id", "ID"]
    assert run([*words, "--out", str(out)]) == 0
    lines = rows(out, "lines.csv")
    assert len(lines) == 2 * 293
    with fiona.open(str(STREETS)) as streets:
        feet = sum(length(feature["geometry"]["coordinates"]) for feature in streets)
    # The grid of the reference system is 1 / 10,000 too short on its central meridian, which is near.
    assert sum(int(row[5]) for row in lines) / 20 == pytest.approx(feet * 0.3048, rel=3e-4)
    assert program.fault(out) == ""
    assert run(["check", str(out)]) == 0


@pytest.mark.parametrize(
    ("words", "error"),
    [
        (["--class", "klass"], "has no field klass: its fields are kind, carriageways, dir, code"),
        (["--class", "8"], "has no field 8"),
        (["--oneway", "1"], "has no field 1"),
        (["--layer", "rivers"], "has no layer rivers: it has roads"),
        (["--crs", "EPSG:0"], "the coordinate reference system isn't known: EPSG:0"),
        (["--mapping", "/nowhere.toml"], "/nowhere.toml can't be read: No such file or directory"),
    ],
)
def test_wrong_words(
    words: list[str], error: str, tmp_path: Path, capfd: pytest.CaptureFixture[str]
) -> None:
    file = write(tmp_path / "roads.gpkg", [road([(9.0, 49.0), (9.001, 49.0)])], crs=4326)
    assert_refused(file, words, error, tmp_path, capfd)


def test_files_that_are_no_layers(tmp_path: Path, capfd: pytest.CaptureFixture[str]) -> None:
    line = [road([(9.0, 49.0), (9.001, 49.0)])]
    two = write(tmp_path / "two.gpkg", line, crs=4326, layer="streets")
    write(two, line, crs=4326, layer="rivers")
    assert_refused(two, [], "has 2 layers: name one by --layer: ", tmp_path, capfd)

    bare = write(tmp_path / "bare.shp", line, "ESRI Shapefile", None)
    assert_refused(bare, [], "doesn't say its coordinate reference system", tmp_path, capfd)

    empty = write(tmp_path / "empty.gpkg", [], crs=4326)
    assert_refused(empty, [], "has no roads for the map: layer empty", tmp_path, capfd)

    assert_refused(tmp_path / "none.gpkg", [], "there is no such file", tmp_path, capfd)

    text = tmp_path / "text.geojson"
    text.write_text("this is no file of roads\n")
    assert_refused(text, [], "can't be read", tmp_path, capfd)

    cut = tmp_path / "cut.geojson"
    cut.write_text('{"type": "FeatureCollection", "features": [{"type": "Feature", "geo')
    assert_refused(cut, [], "can't be read", tmp_path, capfd)

    whole = write(tmp_path / "whole.gpkg", line * 2000, crs=4326).read_bytes()
    for size in (10, 4000, len(whole) // 2, len(whole) - 2000):
        part = tmp_path / "part.gpkg"
        part.write_bytes(whole[:size])
        assert_refused(part, [], "can't be read", tmp_path, capfd)


def test_the_table_of_the_page(top: Path, tmp_path: Path) -> None:
    """The table in docs/IMPORT_VECTOR.md is one."""
    page = (top / "docs/IMPORT_VECTOR.md").read_text(encoding="utf-8")
    file = tmp_path / "table.toml"
    file.write_text(page.split("```toml\n")[1].split("```")[0])
    table = read_value_table(file)
    assert kind_among(table.classes, "local street") == (True, 6)
    assert kind_among(table.classes, "path") == (True, None)
    assert kind_among(table.classes, "anything") == (True, 7)
    assert kind_among(table.forms, text_of(1.0)) == (True, 3)
    assert kind_among(table.forms, "anything") == (False, None)
    assert [table.direction_of(value) for value in ("f", "TF", "", "N", "yes")] == [
        "forward",
        "backward",
        "both",
        "closed",
        None,
    ]


@pytest.mark.parametrize(
    ("table", "error"),
    [
        ("class = 3", "class isn't a section"),
        ("[klass]", "there is no section klass"),
        ("[class]\nmain = 8", 'the class of "main" is 8'),
        ("[class]\nmain = true", 'the class of "main" is True'),
        ("[oneway]\nfore = []", "oneway has no fore"),
        ("[oneway]\nboth = 1", "both isn't a list"),
        ('[oneway]\nboth = ["x"]\nclosed = ["X"]', 'oneway has "x" as both and as closed'),
        ("[class", "isn't TOML"),
    ],
)
def test_tables_that_are_wrong(
    table: str, error: str, tmp_path: Path, capfd: pytest.CaptureFixture[str]
) -> None:
    file = write(tmp_path / "roads.gpkg", [road([(9.0, 49.0), (9.001, 49.0)])], crs=4326)
    wrong = tmp_path / "table.toml"
    wrong.write_text(table)
    assert_refused(file, ["--mapping", str(wrong)], error, tmp_path, capfd)
