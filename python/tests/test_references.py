"""References to drawn paths of an imported map come back as the first matching."""

import json
import pytest
import random
import subprocess
from pathlib import Path

from conftest import Program
from exact_paths import LineGraph, drawn_references
from olr.counts import Counts
from olr.model.map_folder import read_map, write_map
from olr.osm.importing import Options, import_osm
from olr.trials.encoder import text_of

REFERENCES = 150


@pytest.fixture(scope="module")
def folder(tmp_path_factory: pytest.TempPathFactory, top: Path) -> Path:
    """A drawn town, imported."""
    place = tmp_path_factory.mktemp("drawn")
    file = place / "town.osm.pbf"
    script = top / "bench/generate_osm.py"
    command = [
        "/usr/bin/python3",
        str(script),
        "--blocks",
        "14",
        "--houses",
        "1",
        "--out",
        str(file),
    ]
    subprocess.run(command, check=True, timeout=600)
    made = import_osm(file, Options(), Counts())
    assert made.about["bans"]["turn_restrictions"] > 10
    write_map(made.road_map, place / "map", made.about)
    return place / "map"


def test_the_path_is_the_first_matching(program: Program, folder: Path, tmp_path: Path) -> None:
    drawn = drawn_references(LineGraph(read_map(folder)), REFERENCES, random.Random(5))
    records = tmp_path / "records"
    records.write_text("".join(f"{text_of(points)}\n" for _, points in drawn))
    ended = program.run("batch", "match", "--map", folder, "--page", "1", "--input", records)
    answers = [json.loads(line) for line in ended.stdout.splitlines()]
    assert len(answers) == REFERENCES
    found = 0
    for (path, _), record in zip(drawn, answers):
        assert record["fault"] is None
        matchings = record["answer"]["matchings"]
        found += bool(matchings) and lines_of_route(matchings[0]["route"]) == path
    print(f"{found} of {REFERENCES} paths are the first matching")
    assert found >= 0.98 * REFERENCES


def lines_of_route(route: list[list[int]]) -> list[int]:
    """The lines of a route. The pieces at its ends don't count if they are shorter than 5 m."""
    pieces = list(route)
    while len(pieces) > 1 and pieces[0][2] - pieces[0][1] < 50:
        pieces.pop(0)
    while len(pieces) > 1 and pieces[-1][2] - pieces[-1][1] < 50:
        pieces.pop()
    return [line for line, _, _ in pieces]
