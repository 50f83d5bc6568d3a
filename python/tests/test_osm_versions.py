"""Files with several versions of objects: histories, change files, and what was deleted in JOSM."""

import gzip
import pytest
from pathlib import Path

from conftest import Import, Tools
from drawing import Drawing, write_pbf
from vector_files import about, rows

STREET = {1: (0, 0), 2: (1000, 0), 3: (2000, 0), 4: (1000, 900)}
WAY = '<way id="7" version="1">'
CROSSING = '<relation id="1" version="1">'


def streets() -> Drawing:
    """Three streets that meet at node 2, and a restriction there."""
    drawing = Drawing(STREET)
    for id, end in ((7, 1), (8, 3), (9, 4)):
        drawing.way(id, [end, 2])
    drawing.turn("no_left_turn", 7, 2, 9)
    return drawing


def edited(folder: Path, *edits: tuple[str, str], name: str = "edited.osm") -> Path:
    """The file of the streets, with texts in place of others."""
    file = streets().write(folder / name)
    text = file.read_text()
    for old, new in edits:
        assert text.count(old) == 1
        text = text.replace(old, new)
    file.write_text(text)
    return file


def refusal(tools: Tools, file: Path) -> str:
    """The one line by which an import of a file ends."""
    out = file.parent / "map"
    ended = tools.run("import", "osm", file, "--out", out)
    assert ended.returncode == 1 and not out.exists()
    lines = ended.stderr.splitlines()
    assert len(lines) == 1 and lines[0].startswith("olr-tools: ")
    return lines[0].removeprefix("olr-tools: ")


@pytest.mark.parametrize("name", ["streets.osc", "streets.osm"])
def test_a_change_file(tools: Tools, tmp_path: Path, name: str) -> None:
    """Deleted ways have all that they had before, so they would be roads."""
    changes = ('<osm version="0.6">', '<osmChange version="0.6"><delete>')
    file = edited(tmp_path, changes, ("</osm>", "</delete></osmChange>"), name=name)
    assert refusal(tools, file) == (
        f"{file} is a change file: apply it to an extract by osmium apply-changes, and import that"
    )


def test_a_file_that_says_it_is_a_history(tools: Tools, tmp_path: Path) -> None:
    """Whatever its name is."""
    history = write_pbf(edited(tmp_path), tmp_path / "streets.osh.pbf")
    file = history.rename(tmp_path / "streets.osm.pbf")
    assert refusal(tools, file) == (
        f"{file} has the history of objects: take those of one time by osmium time-filter, and import that"
    )


@pytest.mark.parametrize(
    "start, end, other, what",
    [
        (WAY, "</way>", '<way id="7" version="2">', "way 7"),
        (WAY, "</way>", '<way id="7" version="2" visible="false">', "way 7"),
        (CROSSING, "</relation>", '<relation id="1" version="2">', "relation 1"),
    ],
)
def test_an_object_of_two_versions(
    tools: Tools, tmp_path: Path, start: str, end: str, other: str, what: str
) -> None:
    """As a history has it that doesn't say so: one version behind the other."""
    file = edited(tmp_path)
    text = file.read_text()
    behind = text.index(end, text.index(start)) + len(end)
    again = text[text.index(start) : behind].replace(start, other)
    file.write_text(text[:behind] + again + text[behind:])
    assert refusal(tools, file) == (
        f"{what} has versions 1 and 2: take the objects of one time by osmium time-filter"
    )


@pytest.mark.parametrize("versions", [(1, 2), (2, 1)])
def test_a_way_of_two_versions_far_apart(
    tools: Tools, tmp_path: Path, versions: tuple[int, int]
) -> None:
    """As in two extracts, one behind the other."""
    first, second = (f'<way id="7" version="{version}">' for version in versions)
    again = second + '<nd ref="1"/><nd ref="4"/><tag k="highway" v="road"/></way>'
    file = edited(tmp_path, (WAY, first), (CROSSING, again + CROSSING))
    assert f"way 7 has versions {versions[0]} and {versions[1]}: " in refusal(tools, file)


def test_an_object_that_is_there_twice(imported: Import) -> None:
    """With one version, as in two extracts that overlap."""
    drawing = streets()
    drawing.way(7, [1, 2])
    drawing.restriction(1, [("from", "way", 7)], restriction="no_left_turn")
    assert imported(drawing).counts.left_out == {
        "ways with the id of an earlier way": 1,
        "turn restrictions with the id of an earlier one": 1,
    }


DELETED = "that were deleted in JOSM"


@pytest.mark.parametrize("packed", [False, True])
def test_what_was_deleted_in_josm(tools: Tools, tmp_path: Path, packed: bool) -> None:
    """JOSM shows it no more, but saves it until it is uploaded."""
    file = edited(
        tmp_path,
        ('<way id="8" version="1">', "<way id='8' action='delete' version='1'>"),
        ('<relation id="1" version="1">', "<relation id='1' action='delete' version='1'>"),
        ('<way id="9" version="1">', "<way id='9' action='modify' version='1'>"),
    )
    if packed:
        text = file.read_bytes()
        file = tmp_path / "edited.osm.gz"
        file.write_bytes(gzip.compress(text))
    out = tmp_path / "map"
    assert tools.run("import", "osm", file, "--out", out).returncode == 0
    assert {row[0] for row in rows(out, "lines.csv")} == {"70000", "70001", "90000", "90001"}
    assert about(out)["left_out"] == {f"turn restrictions {DELETED}": 1, f"ways {DELETED}": 1}


def test_only_into_a_way_that_was_deleted_in_josm(tools: Tools, tmp_path: Path) -> None:
    """It is out of date: it bans nothing."""
    file = edited(
        tmp_path,
        ('<way id="9" version="1">', '<way id="9" version="1" action="delete">'),
        ("no_left_turn", "only_left_turn"),
    )
    out = tmp_path / "map"
    assert tools.run("import", "osm", file, "--out", out, "--u-turns", "allowed").returncode == 0
    assert rows(out, "bans.csv") == []
    reason = "turn restrictions only into a way that motor vehicles may not use"
    assert about(out)["left_out"][reason] == 1
