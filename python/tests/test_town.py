"""The town of the examples as an OpenStreetMap file: the same map but for ids."""

import bz2
import csv
import gzip
import json
import osmium
import pytest
from pathlib import Path

from conftest import REFERENCE, Program, Tools
from olr.model.map_folder import read_map
from olr.model.road_map import Line


def key(line: Line) -> tuple[object, ...]:
    """A line without its id and its length."""
    return line.start, line.end, line.road_class, line.form, line.shape


def test_the_map_is_that_of_the_examples(
    tools: Tools, program: Program, top: Path, tmp_path: Path
) -> None:
    folder = tmp_path / "town"
    words = ["import", "osm", top / "examples/town.osm", "--out", folder, "--service"]
    ended = tools.run(*words, "--u-turns", "allowed")
    assert ended.returncode == 0
    assert program.fault(folder) == ""
    drawn, example = read_map(folder), read_map(top / "examples")
    assert drawn.nodes == example.nodes
    assert {key(line) for line in drawn.lines} == {key(line) for line in example.lines}
    lengths = {key(line): line.length for line in drawn.lines}
    assert all(abs(lengths[key(line)] - line.length) < 25 for line in example.lines)

    names = {line.id: key(line) for line in [*drawn.lines, *example.lines]}
    banned = {(names[ban.first], names[ban.second]) for ban in drawn.bans}
    expected = {(names[ban.first], names[ban.second]) for ban in example.bans[:2]}
    assert banned == expected


def test_from_import_to_match(tools: Tools, program: Program, top: Path, tmp_path: Path) -> None:
    folder = tmp_path / "town"
    ended = tools.run("import", "osm", top / "examples/town.osm", "--out", folder)
    assert ended.stdout == (
        f"{folder}: 19 nodes, 39 lines, 23 bans (2 of turn restrictions, 21 of U-turns)\n"
    )
    matched = program.run("match", REFERENCE, "--map", folder).stdout.splitlines()
    assert matched[0].startswith("matching ")
    routes = [line for line in matched if line.startswith("route ")]
    with (folder / "ids.csv").open(encoding="utf-8", newline="") as stream:
        sources = {row["line"]: row["source"] for row in csv.DictReader(stream)}
    pieces = [piece.split("@")[0] for piece in routes[0].split()[1:]]
    assert [sources[line] for line in pieces] == ["2", "4", "6", "9"]
    assert matched[-1] == "end"


def test_what_is_said_of_the_import(tools: Tools, top: Path, tmp_path: Path) -> None:
    tools.run("import", "osm", top / "examples/town.osm", "--out", tmp_path / "town")
    about = json.loads((tmp_path / "town/import.json").read_text(encoding="utf-8"))
    assert about == {
        "bans": {"all": 23, "turn_restrictions": 2, "u_turns": 21},
        "bbox": None,
        "changed": {},
        "dead_ends": "allow",
        "file": "town.osm",
        "importer": "osm",
        "left_out": {
            "service roads (--service takes them in)": 1,
            "ways that are closed to motor vehicles": 1,
            "ways that are not roads: highway=footway": 1,
        },
        "kept": {},
        "lines": 39,
        "nodes": 19,
        "service": False,
        "tags": None,
        "u_turns": "dead-ends",
    }


@pytest.mark.parametrize("suffix", [".osm.bz2", ".osm.gz", ".osm.pbf"])
def test_other_formats_give_the_same_map(
    tools: Tools, top: Path, tmp_path: Path, suffix: str
) -> None:
    town = top / "examples/town.osm"
    file = tmp_path / f"town{suffix}"
    if suffix == ".osm.pbf":
        write_pbf(town, file)
    elif suffix == ".osm.bz2":
        file.write_bytes(bz2.compress(town.read_bytes()))
    else:
        file.write_bytes(gzip.compress(town.read_bytes()))
    for source, folder in ((town, "one"), (file, "two")):
        assert tools.run("import", "osm", source, "--out", tmp_path / folder).returncode == 0
    for name in ("nodes.csv", "lines.csv", "bans.csv", "ids.csv"):
        assert (tmp_path / "one" / name).read_bytes() == (tmp_path / "two" / name).read_bytes()


def write_pbf(source: Path, target: Path) -> None:
    """Writes an OpenStreetMap file in another format."""
    writer = osmium.SimpleWriter(str(target))

    class Copy(osmium.SimpleHandler):
        """Writes what it reads."""

        def node(self, node: osmium.osm.Node) -> None:
            writer.add_node(node)

        def way(self, way: osmium.osm.Way) -> None:
            writer.add_way(way)

        def relation(self, relation: osmium.osm.Relation) -> None:
            writer.add_relation(relation)

    Copy().apply_file(str(source))
    writer.close()
