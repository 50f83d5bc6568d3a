"""`olr-tools check --fail`: what a job can fail for, and the status then."""

import pytest
import re
from collections.abc import Mapping
from dataclasses import replace
from pathlib import Path

from conftest import TOP
from olr.checking.files import LIMITS
from olr.checking.remarks import NAMES
from olr.model import road_map as limits_of_maps
from olr.model.map_folder import read_map, write_csv
from olr.model.road_map import Line, Node, Position, RoadMap
from olr.regions.making import make_store_of_folder
from olr.tools import run

EXAMPLES = TOP / "examples"
OF_EXAMPLES = {"dead-ends": 5, "networks": 1, "parts": 3, "sources": 1, "traps": 1}
"""What docs/CHECK.md shows of the examples; of all else there is nothing."""


def failed(folder: Path, name: str, allowed: int | None = None) -> bool:
    """Whether a map has more of something than is allowed. Its description is printed in either case."""
    limit = name if allowed is None else f"{name}={allowed}"
    status = run(["check", str(folder), "--fail", limit])
    assert status in (0, 3)
    return status == 3


def written(folder: Path, road_map: RoadMap) -> Path:
    """A folder with the files of a map."""
    folder.mkdir()
    write_csv(road_map, folder)
    return folder


def town() -> RoadMap:
    """The map of the examples."""
    return read_map(EXAMPLES)


@pytest.mark.parametrize("name", NAMES)
def test_numbers_of_the_examples(name: str, capsys: pytest.CaptureFixture[str]) -> None:
    """As many as there are may be; with one less it fails. Without a number no more may be than in any good map."""
    found = OF_EXAMPLES.get(name, 0)
    assert not failed(EXAMPLES, name, found)
    assert capsys.readouterr().err == ""
    if found:
        assert failed(EXAMPLES, name, found - 1)
        said = capsys.readouterr()
        line = rf"olr-tools: {name} {found} \(.+\), more than the {found - 1} of --fail {name}\n"
        assert re.fullmatch(line, said.err) and "\nfaults 0\n" in said.out
    assert failed(EXAMPLES, name) == (name in ("dead-ends", "parts", "sources", "traps"))


def test_several_limits(capsys: pytest.CaptureFixture[str]) -> None:
    words = ["--fail", "traps", "--fail", "networks", "--fail", "dead-ends=4"]
    assert run(["check", str(EXAMPLES), *words]) == 3
    lines = capsys.readouterr().err.splitlines()
    assert [line.split()[1] for line in lines] == ["traps", "dead-ends"]


def test_what_the_examples_lack(tmp_path: Path, monkeypatch: pytest.MonkeyPatch) -> None:
    """A map for each name of which the town has nothing."""
    plain = town()
    nodes, lines = plain.nodes, plain.lines
    far = [Node(901, Position(-179_000_000, 0)), Node(902, Position(179_000_000, 0))]
    apart = [Node(903, Position(7_300_000, 49_800_000)), Node(904, Position(7_301_000, 49_800_000))]
    near = Node(905, Position(apart[1].position.lon, apart[1].position.lat + 20))
    loose = [near, Node(906, Position(7_301_000, 49_801_000))]
    into_town = [
        Line(3, 903, 904, 3, 3, 800, ()),
        Line(4, 904, nodes[0].id, 3, 3, 90_000, ()),
    ]
    maps: Mapping[str, RoadMap] = {
        "islands": replace(
            plain, nodes=[*nodes, *apart], lines=[*lines, Line(3, 903, 904, 3, 3, 800, ())]
        ),
        "lengths": replace(plain, lines=[lines[0]._replace(length=9_000_000), *lines[1:]]),
        "near-dead-ends": replace(
            plain,
            nodes=[*nodes, *apart, *loose],
            lines=[*lines, Line(3, 903, 904, 3, 3, 800, ()), Line(4, 905, 906, 3, 3, 1000, ())],
        ),
        "nodes-without-a-line": replace(plain, nodes=[*nodes, apart[0]]),
        "passages": replace(
            plain,
            nodes=[*nodes, *apart],
            lines=[*lines, *into_town],
        ),
        "round-the-earth": replace(
            plain, nodes=[*nodes, *far], lines=[*lines, Line(3, 901, 902, 3, 3, 10, ())]
        ),
        "unit": replace(
            plain, lines=[line._replace(length=max(line.length // 10, 1)) for line in lines]
        ),
    }
    for name, made in maps.items():
        folder = written(tmp_path / name, made)
        assert failed(folder, name) and not failed(folder, name, 99), name
    ids = written(tmp_path / "ids", plain)
    (ids / "ids.csv").write_text("line,source,direction,part\n104,x,forward,0\n")
    assert failed(ids, "ids", 39) and not failed(ids, "ids", 40)
    (ids / "ids.csv").write_text("nothing")
    assert failed(ids, "ids") and not failed(ids, "ids", 1)
    monkeypatch.setitem(LIMITS, "nodes", len(nodes) + 1)
    assert failed(EXAMPLES, "close-to-the-limit") and not failed(EXAMPLES, "close-to-the-limit", 1)
    assert {*maps, "ids", "close-to-the-limit", *OF_EXAMPLES} == NAMES.keys()


def test_faults_come_first(tmp_path: Path, capsys: pytest.CaptureFixture[str]) -> None:
    """The status of a map with faults is 1, whatever may be."""
    folder = written(tmp_path / "map", town())
    (folder / "nodes.csv").write_text("id,lon,lat\nx,1,2\n")
    assert run(["check", str(folder), "--fail", "traps"]) == 1
    assert capsys.readouterr().err == ""


def test_stores(
    tmp_path: Path, capsys: pytest.CaptureFixture[str], monkeypatch: pytest.MonkeyPatch
) -> None:
    """They are as their folder. Beyond the limits nobody knows what isn't looked at, and that is said before anything is read."""
    store = tmp_path / "town.gpkg"
    make_store_of_folder(EXAMPLES, store)
    assert failed(store, "traps") and not failed(store, "traps", 1)
    monkeypatch.setattr(limits_of_maps, "MOST_LINES", 1)
    capsys.readouterr()
    assert run(["check", str(store), "--fail", "ids", "--fail", "traps"]) == 1
    ended = capsys.readouterr()
    said = f"{store} is beyond the limits of olr, and isn't looked at for traps: leave out --fail traps"
    assert (ended.out, ended.err) == ("", f"olr-tools: {said}\n")
    assert not failed(store, "round-the-earth") and not failed(store, "ids")


@pytest.mark.parametrize("limit", ["trap", "", "traps=", "traps=-1", "traps=x", "traps=1.5", "=1"])
def test_limits_that_are_none(limit: str, capsys: pytest.CaptureFixture[str]) -> None:
    assert run(["check", str(EXAMPLES), "--fail", limit]) == 2
    ended = capsys.readouterr()
    assert ended.out == "" and ended.err.startswith("olr-tools: Invalid value for '--fail': ")


def test_the_page_names_them() -> None:
    """docs/CHECK.md has each name beside the line that it is about."""
    page = (TOP / "docs/CHECK.md").read_text(encoding="utf-8")
    table = page.partition("## Failing a job")[2].partition("\n## ")[0]
    assert re.findall(r"(?m)^\| `([a-z-]+)` \|", table) == sorted(NAMES)
