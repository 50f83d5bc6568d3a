"""`olr-tools import vector` on files that were cut short or are damaged, and on those that seem to mean something else."""

import pytest
import struct
from collections.abc import Sequence
from pathlib import Path

from olr.tools import run
from vector_files import about, assert_refused, road, rows, write

NUMBER = 20
"""Of the records of a file."""
HEAD, RECORD = 100, 88
"""Bytes of the header of a .shp, and of a record with two points."""
Capture = pytest.CaptureFixture[str]


def roads(kinds: Sequence[str] = ("3",) * NUMBER) -> list[dict[str, object]]:
    """A road of two points for each class, one behind the other."""
    return [
        road([(9.0 + i / 1000, 49.0), (9.001 + i / 1000, 49.0)], kind, code=i + 1)
        for i, kind in enumerate(kinds)
    ]


@pytest.fixture
def shapefile(tmp_path: Path) -> Path:
    """A Shapefile of `NUMBER` roads."""
    folder = tmp_path / "shapes"
    folder.mkdir()
    file = write(folder / "roads.shp", roads(), "ESRI Shapefile", 4326)
    assert file.stat().st_size == HEAD + NUMBER * RECORD
    return file


def first_and_size(table: Path) -> tuple[int, int]:
    """Where the first record of a .dbf begins, and the size of each."""
    first, size = struct.unpack("<HH", table.read_bytes()[8:12])
    return first, size


def patch(file: Path, place: int, data: bytes) -> None:
    """Writes some bytes into a file."""
    whole = bytearray(file.read_bytes())
    whole[place : place + len(data)] = data
    file.write_bytes(whole)


def cut(file: Path, size: int) -> None:
    """Cuts a file short."""
    file.write_bytes(file.read_bytes()[:size])


@pytest.mark.parametrize(
    ("size", "records"), [(HEAD + 5 * RECORD + 30, 5), (HEAD + 19 * RECORD, 19), (HEAD, 0)]
)
def test_shapes_that_were_cut_short(
    shapefile: Path, size: int, records: int, tmp_path: Path, capfd: Capture
) -> None:
    cut(shapefile, size)
    error = f"{shapefile} was cut short: it has {records} of its 20 records"
    assert_refused(shapefile, [], error, tmp_path, capfd)
    assert_refused(shapefile.parent, ["--layer", "roads"], error, tmp_path, capfd)


@pytest.mark.parametrize("records", [0, 7, 19])
def test_a_table_that_was_cut_short(
    shapefile: Path, records: int, tmp_path: Path, capfd: Capture
) -> None:
    table = shapefile.with_suffix(".dbf")
    first, size = first_and_size(table)
    cut(table, first + records * size + size // 2)
    error = f"{table} was cut short: it has {records} of its 20 records"
    assert_refused(shapefile, [], error, tmp_path, capfd)


def test_a_table_without_a_header(shapefile: Path, tmp_path: Path, capfd: Capture) -> None:
    table = shapefile.with_suffix(".dbf")
    cut(table, 10)
    error = f"{table} was cut short: it has 0 of its 20 records"
    assert_refused(shapefile, [], error, tmp_path, capfd)


def test_a_table_of_other_shapes(shapefile: Path, tmp_path: Path, capfd: Capture) -> None:
    table = shapefile.with_suffix(".dbf")
    patch(table, 4, struct.pack("<I", 19))
    error = f"{table} has 19 records, and roads.shp 20"
    assert_refused(shapefile, [], error, tmp_path, capfd)


def test_a_damaged_record(shapefile: Path, tmp_path: Path, capfd: Capture) -> None:
    """The third road says that it has a million parts."""
    patch(shapefile, HEAD + 2 * RECORD + 8 + 36, struct.pack("<I", 1_000_000))
    error = f"{shapefile} can't be read: record 3 of 20: Corrupted .shp file"
    assert_refused(shapefile, [], error, tmp_path, capfd)


def test_records_that_were_deleted(shapefile: Path, tmp_path: Path) -> None:
    """A deleted record stays in the file, with a mark in the table. It isn't read, and nothing is wrong with that."""
    table = shapefile.with_suffix(".dbf")
    first, size = first_and_size(table)
    patch(table, first + 4 * size, b"*")
    out = tmp_path / "map"
    words = ["import", "vector", str(shapefile), "--class", "3", "--form", "3", "--out", str(out)]
    assert run(words) == 0
    assert len(rows(out, "lines.csv")) == 2 * (NUMBER - 1)


def test_records_without_a_geometry(tmp_path: Path) -> None:
    """They are no damage."""
    file = write(tmp_path / "roads.shp", [*roads(), road(None)], "ESRI Shapefile", 4326)
    out = tmp_path / "map"
    words = ["import", "vector", str(file), "--class", "3", "--form", "3", "--out", str(out)]
    assert run(words) == 0
    assert about(out)["left_out"] == {"records without a geometry": 1}


@pytest.mark.parametrize(
    ("more", "error"),
    [
        (10, "can't be read: record 20 of 20: "),
        (0, "was cut short: it has 19 of its 20 records"),
        (-1, "can't be read: record 19 of 20: "),
    ],
)
def test_another_format_that_was_cut_short(
    more: int, error: str, tmp_path: Path, capfd: Capture
) -> None:
    """GDAL says nothing of it where the cut is just before the last record. A record begins with its size."""
    file = write(tmp_path / "roads.fgb", roads(), "FlatGeobuf", 4326)
    data = file.read_bytes()
    last = next(n for n in range(1, len(data)) if struct.unpack("<I", data[-4 - n : -n]) == (n,))
    cut(file, len(data) - last - 4 + more)
    assert_refused(file, [], f"{file} {error}", tmp_path, capfd)


def test_a_format_that_does_not_say_how_many_records_it_has(tmp_path: Path) -> None:
    file = write(tmp_path / "roads.gml", roads(), "GML", 4326)
    out = tmp_path / "map"
    words = ["import", "vector", str(file), "--class", "3", "--form", "3", "--out", str(out)]
    assert run(words) == 0
    assert len(rows(out, "lines.csv")) == 2 * NUMBER


METRES = [(500_000.0, 5_500_000.0), (500_100.0, 5_500_000.0)]
DOUBT = "in WGS 84 coordinates such as 500000 5500000 are beyond latitude 80 or not on the earth"


@pytest.mark.parametrize("words", [[], ["--bbox", "8.9,49.6,9.1,49.7"]])
def test_coordinates_that_are_no_degrees(words: list[str], tmp_path: Path, capfd: Capture) -> None:
    """A GeoJSON of metres: the format has no other system than WGS 84. With the right one it is read."""
    file = write(tmp_path / "roads.geojson", [road(METRES)], "GeoJSON", 4326)
    out = tmp_path / "map"
    import_words = ["import", "vector", str(file), "--class", "3", "--form", "3", *words]
    assert run([*import_words, "--out", str(out)]) == 1
    error = capfd.readouterr().err.splitlines()[-1]
    assert error.startswith(f"olr-tools: {file} has no roads for the map") and DOUBT in error
    assert "name it by --crs, such as --crs EPSG:25832" in error
    assert run([*import_words, "--crs", "EPSG:25832", "--out", str(out)]) == 0
    assert "hint" not in capfd.readouterr().err


def test_some_coordinates_that_are_no_degrees(tmp_path: Path, capfd: Capture) -> None:
    """The others are imported, with a hint."""
    line = [(9.0, 49.0), (9.001, 49.0)]
    file = write(tmp_path / "roads.geojson", [road(line), road(METRES)], "GeoJSON", 4326)
    words = ["import", "vector", str(file), "--class", "3", "--form", "3"]
    assert run([*words, "--out", str(tmp_path / "map")]) == 0
    hints = [row for row in capfd.readouterr().err.splitlines() if row.startswith("hint: ")]
    assert len(hints) == 1 and DOUBT in hints[0] and "--crs" in hints[0]


def test_roads_across_longitude_180_say_nothing_of_the_system(
    tmp_path: Path, capfd: Capture
) -> None:
    lines = [road([(9.0, 49.0), (9.001, 49.0)]), road([(179.9, 1.0), (-179.9, 1.0)])]
    file = write(tmp_path / "roads.geojson", lines, "GeoJSON", 4326)
    words = ["import", "vector", str(file), "--class", "3", "--form", "3"]
    assert run([*words, "--out", str(tmp_path / "map")]) == 0
    assert "hint" not in capfd.readouterr().err


@pytest.mark.parametrize(
    ("classes", "table", "hint"),
    [
        ("12345678", "", "field kind has classes from 1 to 8, and none is 0"),
        ("38", "", "field kind has classes from 3 to 8, and none is 0"),
        ("12345", "", "field kind has classes from 1 to 5, and none is 0"),
        ("1234567", "", None),
        ("012345678", "", None),
        ("234567", "", None),
        ("3333", "", None),
        ("12345678", '[class]\n"1" = 0\n"*" = 7\n', None),
    ],
)
def test_classes_that_are_counted_from_1(
    classes: str, table: str, hint: str | None, tmp_path: Path, capfd: Capture
) -> None:
    file = write(tmp_path / "roads.gpkg", roads(classes), crs=4326)
    words = ["import", "vector", str(file), "--class", "kind", "--form", "3"]
    if table:
        (tmp_path / "table.toml").write_text(table)
        words += ["--mapping", str(tmp_path / "table.toml")]
    assert run([*words, "--out", str(tmp_path / "map")]) == 0
    hints = [row for row in capfd.readouterr().err.splitlines() if row.startswith("hint: ")]
    assert len(hints) == (hint is not None)
    if hint is not None:
        assert hints[0].startswith(f"hint: {hint}: ")
        assert "[class] of a table by --mapping" in hints[0]
