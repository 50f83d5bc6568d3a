"""What `check` tells of faults: all of them, with the record, its line in the file, its id, and what to do."""

import pytest
from pathlib import Path

from olr.checking.faults import shown
from olr.checking.files import LIMITS, check_files
from olr.model.fault_table import ROWS
from olr.tools import run

NODES = "id,lon,lat\n1,0,0\n2,1000,0\n3,2000,0\n"
LINES = "id,from,to,class,form,length,shape\n11,1,2,3,3,1113,\n12,2,3,3,3,1113,\n"


def texts(folder: Path, nodes: str = NODES, lines: str = LINES, bans: str = "") -> list[str]:
    """The texts of the faults of a map. Without bans it has no such file."""
    (folder / "nodes.csv").write_bytes(nodes.encode())
    (folder / "lines.csv").write_bytes(lines.encode())
    if bans:
        (folder / "bans.csv").write_bytes(bans.encode())
    return [fault.text() for fault in check_files(folder, 1000)[0].kept]


def test_all_faults_of_all_files(tmp_path: Path) -> None:
    nodes = NODES + "4,0.5,90000000\n\n4,7,7\n5,1\n"
    lines = LINES + "11,1,9,8,3,0,\n13,1,1,3,3,5,\n14,4,5,3,3,1,5 5;5 5\n"
    bans = "from,to\n11,12\n011,12\n12,11\n12,77\n"
    found = texts(tmp_path, nodes, lines, bans)
    assert [text.split(":")[0] for text in found] == [
        "Field nodes 4 2",
        "Field nodes 4 3",
        "Duplicate nodes 5",
        "Shape nodes 6",
        "Field lines 3 4",
        "Duplicate lines 3",
        "UnknownNode 3",
        "ZeroLength 3",
        "Degenerate 4",
        "Degenerate 5",
        "Duplicate bans 2",
        "NotAdjacent 3",
        "UnknownLine 4",
    ]
    assert found[2] == (
        "Duplicate nodes 5: nodes.csv record 5 (line 7) id 4: record 4 has it already. "
        "Give each node an id of its own, or drop the repeated record."
    )
    assert found[6].startswith("UnknownNode 3: lines.csv record 3 (line 4) id 11: nodes.csv has no")
    assert found[11].startswith("NotAdjacent 3: bans.csv record 3 (line 4) 12,11: line 12 ends at")


@pytest.mark.parametrize(
    ("nodes", "hint"),
    [
        ("id;lon;lat\n1;0;0\n", "with commas, not semicolons"),
        ("1,0,0\n", "Put the header id,lon,lat before the first record"),
        ("id,lat,lon\n1,0,0\n", "Put the columns into the order id,lon,lat"),
        ("", "Begin the file with the header"),
        ("i\x00d\x00,\x00", "not in UTF-16"),
        ("Id, Lon, Lat\n1,0,0\n", "in this spelling"),
        ("id,lon,lat\n1;0;0\n", "Separate fields by commas, not semicolons"),
        ("id,lon,lat\n1,7,415720,0\n", "decimal commas"),
        ('id,lon,lat\n1,"7,0\n2,8,0\n', "Close the double quote"),
        ("id,lon,lat\n1,7.415720,0\n", "times 1,000,000, rounded"),
        ("id,lon,lat\n1,0,-123456789\n", "Exchange longitude and latitude"),
        ("id,lon,lat\n1,0, 5\n", "Drop the blanks"),
        ("id,lon,lat\n1,+5,0\n", "Drop the plus sign"),
        ("id,lon,lat\n12345678901234567,5,0\n", "16 digits at most"),
        ("id,lon,lat\nA7,5,0\n", "a whole number of its own"),
    ],
)
def test_hints_for_nodes(nodes: str, hint: str, tmp_path: Path) -> None:
    assert hint in texts(tmp_path, nodes)[0]


@pytest.mark.parametrize(
    ("line", "hint"),
    [
        ("11,1,2,3,3,111.3,", "metres times 10"),
        ("11,1,2,9,3,1,", "0 (most important) to 7"),
        ("11,1,2,3,x,1,", "0 is unknown"),
        ("11,1,2,3,3,1", "has no shape with a comma"),
        ("11,1,2,3,3,1,5 5,6 6", "commas in a shape"),
        ("11,1,2,3,3,1,0.1 0.2", "times 1,000,000, rounded"),
        ("11,1,2,3,3,1,5 5; 6 6", "One blank is between"),
        ("11,1,2,3,3,1," + ";".join(["5 5"] * 65), "64 points at most"),
        ("11,1,2,3,3,1,0 0;5 5", "the shape begins at the line's first node"),
        ("11,1,2,3,3,1,5 5;1000 0", "the shape ends at the line's last node"),
        ("11,1,2,3,3,1,4 4;5 5;5 5", "points 2 and 3 of the shape are equal"),
    ],
)
def test_hints_for_lines(line: str, hint: str, tmp_path: Path) -> None:
    header = LINES.splitlines()[0]
    assert hint in texts(tmp_path, lines=f"{header}\n{line}\n")[0]


def test_nothing_is_told_that_only_follows(tmp_path: Path) -> None:
    """Lines whose nodes have a faulty position, and bans on faulty lines, have no fault of their own."""
    nodes = "id,lon,lat\n1,x,0\n2,y,0\n3,9,9,9\n"
    lines = LINES.replace("3,3,1113", "3,9,1113")
    assert [text.split(":")[0] for text in texts(tmp_path, nodes, lines, "from,to\n11,12\n")] == [
        "Field nodes 1 2",
        "Field nodes 2 2",
        "Shape nodes 3",
        "Field lines 1 5",
        "Field lines 2 5",
    ]
    assert [text.split(":")[0] for text in texts(tmp_path, "", LINES)] == ["Header nodes"]


def test_many_faults_are_counted(tmp_path: Path, capsys: pytest.CaptureFixture[str]) -> None:
    """Of each kind as many are shown as --most says. The status is 1."""
    texts(tmp_path, NODES + "x,0,0\n" * 30 + "7,0,x\n")
    assert run(["check", str(tmp_path), "--most", "2"]) == 1
    shown_lines = capsys.readouterr().out.splitlines()
    assert [line for line in shown_lines if line.startswith("Field nodes")][-1][:15] == (
        "Field nodes 34 "
    )
    assert "and 28 more of Field nodes in column 1: --most 30 shows them" in shown_lines
    assert shown_lines[-1] == "faults 31"


def test_texts_are_shown_on_one_line() -> None:
    assert shown("a\x00b\r\n\xc3\xa9\xff") == '"a\\x00b\\r\\né\\xff"'
    assert len(shown("9" * 1000)) < 50


def test_a_map_that_is_too_large_becomes_a_store(
    tmp_path: Path, monkeypatch: pytest.MonkeyPatch
) -> None:
    monkeypatch.setitem(LIMITS, "lines", 1)
    (found,) = texts(tmp_path)
    assert found.startswith("TooMany lines: lines.csv record 2 (line 3): ")
    assert "Make a store of the map by olr-tools regions" in found
    assert "`olr-tools regions DIR --out STORE`" in ROWS["TooMany FILE"][1]
