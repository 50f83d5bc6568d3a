"""Packed vector files, which are known by their first bytes: they give the map of what is in them, or the error has the command to unpack
them."""

import bz2
import gzip
import lzma
import pytest
import subprocess
import zipfile
from collections.abc import Mapping
from pathlib import Path

from conftest import Tools
from vector_files import DRIVERS, assert_refused, road, rows, write

WORDS = ("--class", "3", "--form", "3")
ROADS = [road([(9.0 + i / 1000, 49.0), (9.001 + i / 1000, 49.0)], code=i + 1) for i in range(20)]
Capture = pytest.CaptureFixture[str]


@pytest.fixture
def drawn(tmp_path: Path) -> Path:
    """A folder with the same roads in files of several formats."""
    folder = tmp_path / "drawn"
    folder.mkdir()
    for suffix, driver in DRIVERS.items():
        write(folder / f"roads{suffix}", ROADS, driver, 4326)
    return folder


def shapes(drawn: Path, place: str = "") -> dict[str, bytes]:
    """The files of the Shapefile, by their names in an archive."""
    suffixes = (".shp", ".shx", ".dbf", ".prj")
    return {f"{place}roads{one}": (drawn / f"roads{one}").read_bytes() for one in suffixes}


def archive(file: Path, files: Mapping[str, bytes]) -> Path:
    """A zip archive of some files."""
    with zipfile.ZipFile(file, "w", zipfile.ZIP_DEFLATED) as packed:
        for name, data in files.items():
            packed.writestr(name, data)
    return file


def lines_of(tools: Tools, file: Path) -> int:
    """How many lines the map of a file has. Nothing is left beside it."""
    before, out = sorted(file.parent.iterdir()), file.parent.parent / "map"
    ended = tools.run("import", "vector", file, *WORDS, "--out", out)
    assert ended.returncode == 0, ended.stderr
    assert sorted(file.parent.iterdir()) == before
    return len(rows(out, "lines.csv"))


@pytest.mark.parametrize("suffix", [".gpkg", ".geojson", ".fgb"])
@pytest.mark.parametrize("name", ["roads{}.gz", "roads", "roads{}"])
def test_gzip(tools: Tools, drawn: Path, suffix: str, name: str) -> None:
    data = (drawn / f"roads{suffix}").read_bytes()
    file = drawn / name.format(suffix)
    file.write_bytes(gzip.compress(data))
    assert lines_of(tools, file) == 40


@pytest.mark.parametrize("name", ["roads.zip", "roads", "a {b}.zip"])
@pytest.mark.parametrize("place", ["", "folder/", "folder/within/"])
def test_a_zipped_shapefile(tools: Tools, drawn: Path, name: str, place: str) -> None:
    """Of which some vendors have a folder, with a licence beside it."""
    files = {f"{place}LICENCE.txt": b"free"} | shapes(drawn, place)
    assert lines_of(tools, archive(drawn / name, files)) == 40


@pytest.mark.parametrize("suffix", [".gpkg", ".geojson", ".fgb"])
@pytest.mark.parametrize("more", [{}, {"LICENCE.txt": b"free", "__MACOSX/roads.json": b"x"}])
def test_another_zipped_file(
    tools: Tools, drawn: Path, suffix: str, more: Mapping[str, bytes]
) -> None:
    data = (drawn / f"roads{suffix}").read_bytes()
    file = archive(drawn / "roads.zip", {f"data/roads{suffix}": data} | more)
    assert lines_of(tools, file) == 40


@pytest.mark.parametrize("suffix", [".gpkg", ".geojson", ".fgb"])
def test_a_file_without_a_suffix(tools: Tools, drawn: Path, suffix: str) -> None:
    assert lines_of(tools, (drawn / f"roads{suffix}").rename(drawn / "unknown")) == 40


def test_a_shapefile_in_one_file(tools: Tools, drawn: Path) -> None:
    assert lines_of(tools, archive(drawn / "roads.shz", shapes(drawn))) == 40


@pytest.mark.parametrize("name", ["roads.gdb.zip", "roads"])
def test_a_zipped_geodatabase(tools: Tools, drawn: Path, name: str) -> None:
    folder = drawn / "roads.gdb"
    command = ["ogr2ogr", "-f", "OpenFileGDB", str(folder), str(drawn / "roads.shp")]
    subprocess.run(command, check=True)
    files = {f"roads.gdb/{one.name}": one.read_bytes() for one in folder.iterdir()}
    assert lines_of(tools, archive(drawn / name, files)) == 40


def test_several_layers_in_an_archive(drawn: Path, tmp_path: Path, capfd: Capture) -> None:
    twice = shapes(drawn, "north/") | shapes(drawn, "south/")
    file = archive(tmp_path / "roads.zip", twice)
    error = f"{file} is packed: unpack it first: unzip {file}"
    assert_refused(file, [], error, tmp_path, capfd)


def test_a_layer_of_an_archive(tools: Tools, drawn: Path, tmp_path: Path) -> None:
    """Of several Shapefiles in one folder one is named."""
    others = {name.replace("roads", "rails"): data for name, data in shapes(drawn).items()}
    file = archive(drawn / "roads.zip", shapes(drawn) | others)
    ended = tools.run("import", "vector", file, *WORDS, "--out", tmp_path / "map")
    assert ended.returncode == 1 and "has 2 layers: name one by --layer: " in ended.stderr
    words = (*WORDS, "--layer", "rails", "--out", tmp_path / "map")
    assert tools.run("import", "vector", file, *words).returncode == 0


@pytest.mark.parametrize(
    "name, command",
    [
        ("roads.geojson.xz", "xz -dc {file} > roads.geojson"),
        ("roads.geojson.bz2", "bzip2 -dc {file} > roads.geojson"),
        ("roads", "xz -dc {file} > unpacked"),
    ],
)
def test_a_file_that_has_to_be_unpacked(
    drawn: Path, tmp_path: Path, name: str, command: str, capfd: Capture
) -> None:
    file, data = tmp_path / name, (drawn / "roads.geojson").read_bytes()
    file.write_bytes((bz2 if name.endswith("bz2") else lzma).compress(data))
    error = f"{file} is packed: unpack it first: {command.format(file=file)}"
    assert_refused(file, [], error, tmp_path, capfd)


@pytest.mark.parametrize("left", [slice(0, -30), slice(0, 200)])
@pytest.mark.parametrize("packing", ["gzip", "zip"])
def test_a_packed_file_that_was_cut_short(
    drawn: Path, tmp_path: Path, left: slice, packing: str, capfd: Capture
) -> None:
    file, data = tmp_path / "roads", (drawn / "roads.geojson").read_bytes()
    if packing == "gzip":
        file.write_bytes(gzip.compress(data))
    else:
        archive(file, {"roads.geojson": data})
    file.write_bytes(file.read_bytes()[left])
    assert_refused(file, [], f"{file} can't be unpacked: ", tmp_path, capfd)


@pytest.mark.parametrize("packing", ["gzip", "zip"])
def test_another_checksum(drawn: Path, tmp_path: Path, packing: str, capfd: Capture) -> None:
    """GDAL reads such a file without a word."""
    data = (drawn / "roads.geojson").read_bytes()
    changed = data.replace(b"9.001", b"9.002", 1)
    assert len(changed) == len(data) and changed != data
    file = tmp_path / "roads"
    if packing == "gzip":
        right, wrong = gzip.compress(data), gzip.compress(changed)
        file.write_bytes(wrong[:-8] + right[-8:])
    else:
        with zipfile.ZipFile(file, "w") as packed:
            packed.writestr("roads.geojson", data)
        whole = file.read_bytes()
        assert whole.count(data) == 1
        file.write_bytes(whole.replace(data, changed))
    assert_refused(file, [], f"{file} can't be unpacked: ", tmp_path, capfd)
