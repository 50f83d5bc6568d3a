"""Commands that take a store in place of a folder: `match` and `view`, and `olr.Network`."""

import json
import numpy as np
import os
import pytest
import random
import shlex
import sqlite3
from pathlib import Path
from typing import Any

import olr
from conftest import REFERENCE, TOP, Program, Tools
from olr.model import road_map
from olr.model.fault_table import ROWS
from olr.model.map_folder import read_map
from olr.pages.view.scene import scene_of
from olr.regions.making import make_store_of_folder
from olr.tools import run
from runs import Town
from test_outputs import full_disk
from test_store_map import references, scratch

__all__ = ["scratch"]
EXAMPLES = TOP / "examples"
ROUNDED = 1e-12
"""Degrees: how far along its line a point is, is counted from the first line that was read."""


@pytest.fixture
def store(tmp_path: Path) -> Path:
    """The map of the examples as a store."""
    make_store_of_folder(EXAMPLES, tmp_path / "town.gpkg")
    return tmp_path / "town.gpkg"


def features(file: Path) -> Any:
    """The rows of a file."""
    return json.loads(file.read_text())["features"]


@pytest.mark.parametrize("question", [[], ["--places", "--part", "inner"], ["--why"]])
def test_match(question: list[str], town: Town, tmp_path: Path) -> None:
    """The rows of the folder, whatever is asked."""
    messages = tmp_path / "messages.tsv"
    texts = references(town, 60)
    messages.write_text("".join(f"m{number}\t{text}\n" for number, text in enumerate(texts)))
    for path, name in ((town.folder, "folder"), (town.store, "store")):
        out = tmp_path / f"{name}.geojson"
        words = ["match", messages, "--map", path, "--out", out, "--radius", 80, *question]
        assert run(list(map(str, words))) == 0
    found = features(tmp_path / "store.geojson")
    assert found == features(tmp_path / "folder.geojson") and len(found) >= 60


def test_view(store: Path, tmp_path: Path, capsys: pytest.CaptureFixture[str]) -> None:
    words = ["view", "m3", "--messages", EXAMPLES / "messages.tsv", "--map", store]
    assert run(list(map(str, [*words, "--out", tmp_path / "page.html"]))) == 0
    lines = capsys.readouterr().out.splitlines()
    assert lines[0] == f"{tmp_path}/page.html: unique" and lines[1].endswith(", profile feed")
    assert run(list(map(str, [*words, "--out", store, "--force"]))) == 1
    assert run(list(map(str, [*words, "--out", tmp_path / "page.html"]))) == 1


def test_the_scene_of_a_store(town: Town) -> None:
    """All that a page draws: where there are thousands of lines those around it are read."""
    texts = [text for text in references(town, 12) if len(text) > 20][:5]
    with olr.Map(town.folder) as folder, olr.Map(town.store) as asked:
        for text in texts:
            try:
                expected = scene_of(text, folder)
            except olr.Fault:
                continue
            found = scene_of(text, asked)
            for scene in (found, expected):
                scene["lines"].sort(key=lambda line: line["id"])
            assert found == expected


def test_a_network(town: Town) -> None:
    whole, part = olr.Network.read(town.folder), olr.Network.read(town.store)
    assert repr(part) == repr(whole).replace(str(town.folder), str(town.store))
    lines, draw = read_map(town.folder).lines, random.Random(2)
    for _ in range(8):
        some = draw.sample(lines, 3)
        pieces = [(line.id, line.length // 3, line.length) for line in some]
        assert np.allclose(part.path(pieces), whole.path(pieces), rtol=0, atol=ROUNDED)
        place = np.array([(some[1].id, some[1].length // 2)])
        assert np.allclose(part.points_at(place), whole.points_at(place), rtol=0, atol=ROUNDED)
    with pytest.raises(olr.ToolError, match="hasn't 1 of 1 lines"):
        part.path([(7, 0, 1)])


def test_a_network_of_another_version(town: Town, store: Path) -> None:
    with olr.Map(town.store) as asked:
        pages = [page for page in asked.matches(references(town, 40)) if isinstance(page, olr.Page)]
        route = next(page.matchings[0].route for page in pages if page.matchings)
        expected = olr.Network.read(town.folder).path(list(route))
        assert np.allclose(asked.network().path(route), expected, rtol=0, atol=ROUNDED)
        with pytest.raises(olr.MapRefused, match="another version than the answer"):
            olr.Network.read(store).path(route)
        with pytest.raises(olr.MapRefused, match="another version than the answer"):
            olr.Network.read(town.folder).path(route)


def test_check(
    store: Path, town: Town, capsys: pytest.CaptureFixture[str], monkeypatch: pytest.MonkeyPatch
) -> None:
    """What is said of the folder behind its faults, and of a large map that it is as it was written."""

    def said(path: Path) -> list[str]:
        assert run(["check", str(path)]) == 0
        return capsys.readouterr().out.splitlines()

    for path, folder in ((store, EXAMPLES), (town.store, town.folder)):
        found, expected = said(path), said(folder)
        behind = found.index("faults 0")
        assert found[behind:] == expected[expected.index("faults 0") :]
        counts = [line.partition(" of")[0] for line in expected[:3]]
        assert found[:3] == counts and found[3].startswith("digest ") and behind == 4
    monkeypatch.setattr(road_map, "MOST_LINES", 1)
    assert said(town.store)[4:] == [
        "faults 0",
        "lines that go more than half round the earth 0",
        "    the network and the lengths of a map of this size aren't looked at",
    ]


def test_no_room_for_scratch_files(store: Path, scratch: Path) -> None:
    network, pieces = olr.Network.read(store), [(104, 0, 2435), (107, 0, 2150), (201, 0, 324)]
    with full_disk(), pytest.raises(olr.ToolError) as raised:
        network.path(pieces)
    said = "scratch files can't be written: File too large: name another folder for scratch files by TMPDIR"
    assert str(raised.value) == said
    assert os.listdir(scratch) == []
    assert network.path(pieces).tolist() == olr.Network.read(EXAMPLES).path(pieces).tolist()


def test_check_of_a_damaged_store(store: Path, capsys: pytest.CaptureFixture[str]) -> None:
    with sqlite3.connect(store) as connection:
        connection.execute("UPDATE olr_contents SET content = CAST(content || x'00' AS BLOB)")
    assert run(["check", str(store)]) == 1
    found = capsys.readouterr().out.splitlines()[4:]
    assert found == [
        f"{store} is damaged, block 0 isn't what was written: make it again by olr-tools regions",
        "faults 1",
    ]


def test_an_import_that_becomes_a_store_says_what_to_run(
    tools: Tools, program: Program, tmp_path: Path, monkeypatch: pytest.MonkeyPatch
) -> None:
    """The last line, with the file of messages in place of a word."""
    monkeypatch.setattr(road_map, "MOST_LINES", 1)
    monkeypatch.chdir(tmp_path)
    ended = tools.run("import", "osm", EXAMPLES / "town.osm", "--out", "a town")
    monkeypatch.undo()
    assert ended.returncode == 0 and (tmp_path / "a town/map.gpkg").exists()
    *_, reason, command = ended.stdout.splitlines()
    assert (
        reason == "the map is too large for olr, so it became a store: docs/SCALE.md has its uses"
    )
    assert command == "olr-tools match MESSAGES --map 'a town' --out answers.gpkg"
    monkeypatch.chdir(tmp_path)
    words = [str(EXAMPLES / "messages.tsv") if w == "MESSAGES" else w for w in shlex.split(command)]
    ended = tools.run(*words[1:])
    assert ended.returncode == 0 and (tmp_path / "answers.gpkg").exists(), ended.stderr


def test_the_program_refuses_a_store(program: Program, store: Path) -> None:
    """By the words that docs/FAULTS.md has of it, with the commands that take one."""
    ended = program.run("match", REFERENCE, "--map", store)
    assert ended.returncode == 1 and ended.stderr == "olr: OpenFailed nodes\n"
    _, remedy = ROWS["OpenFailed FILE"]
    assert "olr-tools match MESSAGES --map STORE" in remedy
    assert "olr-tools run MESSAGES --store STORE" in remedy
