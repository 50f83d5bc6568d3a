"""An OpenStreetMap file is known by its first bytes, whatever its name."""

import bz2
import gzip
import lzma
import pytest
from pathlib import Path

from conftest import Tools
from drawing import Drawing, write_pbf
from vector_files import rows

ZST = b"\x28\xb5\x2f\xfd\x04\x00\x11\x00\x00AB\x1a\x7f\xe8\x4b"
"""A packed file, of two letters."""


@pytest.fixture
def drawn(tmp_path: Path) -> Path:
    """A file of one street."""
    drawing = Drawing({1: (0, 0), 2: (1000, 0)})
    drawing.way(7, [1, 2])
    return drawing.write(tmp_path / "drawn.osm")


def is_read(tools: Tools, file: Path) -> bool:
    """Whether an import of a file makes the map of the street, and leaves nothing else."""
    there = set(file.parent.iterdir())
    out = file.parent / "map"
    ended = tools.run("import", "osm", file, "--out", out)
    assert set(file.parent.iterdir()) - there <= {out}
    return ended.returncode == 0 and [row[0] for row in rows(out, "lines.csv")] == [
        "70000",
        "70001",
    ]


NAMES = ["extract", "extract.osm", "extract.pbf", "extract.osm.gz", "EXTRACT.OSM.BZ2", "a b.csv"]


@pytest.mark.parametrize("name", NAMES)
@pytest.mark.parametrize("packing", ["", "gzip", "bzip2", "pbf"])
def test_a_name_says_nothing(
    tools: Tools, drawn: Path, tmp_path: Path, name: str, packing: str
) -> None:
    folder = tmp_path / "there"
    folder.mkdir()
    text = drawn.read_bytes()
    if packing == "pbf":
        text = write_pbf(drawn, tmp_path / "drawn.pbf").read_bytes()
    if packing in ("gzip", "bzip2"):
        text = (gzip if packing == "gzip" else bz2).compress(text)
    (folder / name).write_bytes(text)
    assert is_read(tools, folder / name)


@pytest.mark.parametrize("before", ["\ufeff", "\n", "<!-- by hand -->\n"])
def test_what_stands_before_the_root(tools: Tools, drawn: Path, before: str) -> None:
    file = drawn.with_name("extract")
    file.write_text(before + drawn.read_text())
    assert is_read(tools, file)


def test_a_store_of_a_file_without_a_suffix(tools: Tools, drawn: Path, tmp_path: Path) -> None:
    file, store = drawn.rename(tmp_path / "extract"), tmp_path / "store.gpkg"
    ended = tools.run("regions", file, "--out", store)
    assert ended.returncode == 0 and ended.stdout == f"{store}: 2 nodes, 2 lines, 0 bans\n"


@pytest.mark.parametrize(
    "name, command",
    [
        ("extract.osm.xz", "xz -dc {file} > extract.osm"),
        ("extract", "xz -dc {file} > unpacked"),
        ("an extract.osm.zst", "zstd -dc '{file}' > 'an extract.osm'"),
        ("extract.zip", "unzip {file}"),
        ("extract.osm.pbf.gz", "gzip -dc {file} > extract.osm.pbf"),
    ],
)
@pytest.mark.parametrize("words", [["import", "osm"], ["regions"]])
def test_a_file_that_has_to_be_unpacked(
    tools: Tools, drawn: Path, tmp_path: Path, name: str, command: str, words: list[str]
) -> None:
    file = tmp_path / name
    pbf = write_pbf(drawn, tmp_path / "drawn.pbf").read_bytes()
    kinds = {".zst": ZST, ".zip": b"PK\3\4", ".gz": gzip.compress(pbf)}
    file.write_bytes(kinds.get(file.suffix, lzma.compress(pbf)))
    ended = tools.run(*words, file, "--out", tmp_path / "out")
    assert ended.returncode == 1
    line = f"olr-tools: {file} is packed: unpack it first: {command.format(file=file)}\n"
    assert ended.stderr == line


@pytest.mark.parametrize("content", [b"", b"PK", b"\x1f\x8b", b"BZh9", b"no map"])
def test_a_file_of_no_format(tools: Tools, tmp_path: Path, content: bytes) -> None:
    file = tmp_path / "extract"
    file.write_bytes(content)
    ended = tools.run("import", "osm", file, "--out", tmp_path / "map")
    assert ended.returncode == 1 and len(ended.stderr.splitlines()) == 1
    assert ended.stderr.startswith(f"olr-tools: {file} can't be read as OpenStreetMap data: ")
    ended = tools.run("regions", file, "--out", tmp_path / "store.gpkg")
    assert ended.returncode == 1 and "isn't an OpenStreetMap file" in ended.stderr
