"""`olr-tools run --geometries --keep`: rows have what is kept of their records, and messages' own faults, in whatever order parts have them."""

import csv
import json
import pytest
import random
import re
from pathlib import Path
from typing import Any

from olr.errors import ToolError
from olr.messages.message import Message, Reading
from olr.messages.message_file import message_file
from olr.running.message_notes import notes_of
from runs import Town
from test_outputs import full_disk
from test_run_geometries import assert_same, olr_tools, rows_of

XML_FEED = Path(__file__).parent / "feeds_xml/openlr.xml"


def records(town: Town) -> list[dict[str, Any]]:
    """The town's references, in another order than that of the curve, with members."""
    draw = random.Random(5)
    lines = town.plain.read_text().splitlines()
    found = []
    for number, line in enumerate(lines):
        key, text = line.split("\t")
        one: dict[str, Any] = {
            "id": key,
            "ref": text,
            "n": number,
            "x": number / 2,
            "rank": str(key),
        }
        if number % 3:
            one |= {"mixed": draw.choice([1, "a", True]), "l": [number], "is": number % 2 == 0}
        found.append(one)
    return found


@pytest.fixture
def messages(town: Town, tmp_path: Path) -> Path:
    """A file of them."""
    file = tmp_path / "messages.jsonl"
    file.write_text("".join(json.dumps(one) + "\n" for one in records(town)))
    return file


def test_the_rows_of_match(here: None, town: Town, messages: Path, tmp_path: Path) -> None:
    """Of groups along a curve, of a run that goes on with other members, and of standard input's copy. The lines are the same, and pieces
    have nothing more."""
    words = ["--key", "id", "--keep", "all"]
    rows, pieces, whole = (tmp_path / f"{name}.gpkg" for name in ("rows", "pieces", "match"))
    asked = ["run", messages, "--store", town.store, "--out", tmp_path / "out", "--per-group", 40]
    assert olr_tools(*asked, *words, "--geometries", rows, "--pieces", pieces) == 0
    of_match = ["match", messages, "--map", town.folder, *words, "--out", whole]
    assert olr_tools(*of_match) == 0
    found, expected = rows_of(rows, "match"), rows_of(whole, "match")
    assert_same(found, expected)
    assert {type(row[name]) for row, _ in found for name in ("n", "is")} >= {int, bool}
    parts = [json.loads(line)["record"] for line in lines_of(tmp_path / "out")]
    assert parts != sorted(parts) and len(parts) == 300
    assert "n" not in rows_of(pieces, "pieces")[0][0]
    words[-1:] = ["x", "--keep", "l"]
    assert olr_tools(*asked, *words, "--resume", "--geometries", rows, "--force") == 0
    again = [(row["record"], row["x"], row["l"]) for row, _ in rows_of(rows, "match")]
    assert again == [(row["record"], row["x"], row["l"]) for row, _ in expected]
    assert list(rows_of(rows, "match")[0][0])[-2:] == ["x", "l"]


def lines_of(out: Path) -> list[bytes]:
    """The lines of all parts."""
    parts = sorted((out / "parts").iterdir())
    return [line for part in parts for line in part.read_bytes().splitlines()]


def record_and_rank(row: dict[str, str]) -> tuple[int, str]:
    """By what rows are sorted."""
    return int(row["record"]), row["rank"]


@pytest.mark.parametrize("keep", [[], ["--keep", "n", "--keep", "@id"]])
def test_own_faults(keep: list[str], here: None, town: Town, tmp_path: Path) -> None:
    """Those that `match` says, though the program was asked about an empty text. Records within records have their numbers."""
    lacking = re.findall(r"(?s)<o:OpenLR>.*?</o:OpenLR>", XML_FEED.read_text())[-1]
    items = [
        f"<jam id='{one['id']}'><n>{one['n']}</n><openlrBinary>{one['ref']}</openlrBinary>"
        f"<jam id='in {one['id']}'><openlrBinary>{one['ref']}</openlrBinary></jam></jam>"
        for one in records(town)[:40]
    ]
    items.insert(7, lacking)
    messages = tmp_path / "messages.xml"
    messages.write_text(
        f"<feed xmlns:o='http://www.openlr.org/openlr'>{''.join(items)}{lacking}</feed>"
    )
    rows, whole = tmp_path / "rows.csv", tmp_path / "match.csv"
    asked = ["run", messages, "--store", town.store, "--out", tmp_path / "out", "--per-group", 9]
    joined = tmp_path / "joined.jsonl"
    assert olr_tools(*asked, "--geometries", rows, *keep, "--join", joined) == 0
    numbers = [json.loads(line)["record"] for line in joined.open()]
    assert numbers == list(range(1, 83))
    assert olr_tools("match", messages, "--map", town.folder, "--out", whole, *keep) == 0
    found, expected = (list(csv.DictReader(file.open())) for file in (rows, whole))
    for row in [*found, *expected]:
        row.pop("candidates")
    assert sorted(found, key=record_and_rank) == sorted(expected, key=record_and_rank)
    faults = [row["fault"] for row in found]
    assert faults.count("PoiWithAccess") == 2
    empty = sum(b'"fault":"Empty"' in line for line in lines_of(tmp_path / "out"))
    assert empty == faults.count("Empty") + 2
    if keep:
        kept = {(row["key"], row["n"], row["@id"]) for row in found}
        assert {("3", "3", "3"), ("in 3", "", "in 3")} <= kept


def test_what_is_refused(
    here: None, town: Town, messages: Path, tmp_path: Path, capsys: pytest.CaptureFixture[str]
) -> None:
    """Before anything is begun; and scratch files that can't be written, which leave the rows as they were."""
    rows = tmp_path / "rows.csv"
    asked = ["run", messages, "--store", town.store, "--out", tmp_path / "out", "--page", 1]
    cases: list[tuple[list[object], int, str]] = [
        (["--keep", "n"], 2, "--keep is for --geometries"),
        (["--keep", "n", "--pieces", rows], 2, "--keep is for --geometries"),
        (["--keep", "sped", "--geometries", rows], 1, "has no sped in any record: name another by"),
    ]
    for more, status, said in cases:
        assert olr_tools(*asked, *more) == status
        assert said in capsys.readouterr().err and not (tmp_path / "out").exists()
    assert olr_tools(*asked) == 0
    words = [*asked, "--resume", "--keep", "n", "--geometries", rows]
    capsys.readouterr()
    with full_disk(5000):
        assert olr_tools(*words) == 1
    said = capsys.readouterr().err
    assert "scratch files can't be written: " in said and "by TMPDIR" in said
    assert said.count("\n") == 1 and not rows.exists()
    assert olr_tools(*words) == 0 and len(rows.read_text().splitlines()) == 301


def test_notes(tmp_path: Path) -> None:
    """What was noted, as it was, of the records that have something; and a file that changes before it is read again."""
    file = tmp_path / "messages.jsonl"
    values: list[dict[str, Any]] = [{"a": 1}, {}, {"a": 2.5, "b": ["ä", None]}, {"b": {}}]
    file.write_text("".join(json.dumps({"ref": "x", **one}) + "\n" for one in values))
    with message_file(file, Reading("jsonl", keep=("all",))) as found:
        with notes_of(found) as notes:
            noted = [notes.noted(Message(number, "k", "x")) for number in (4, 3, 2, 1, 5)]
        assert [(one.record, one.key, dict(one.kept)) for one in noted] == [
            (4, "k", {"a": None, "b": {}}),
            (3, "k", {"a": 2.5, "b": ["ä", None]}),
            (2, "k", {}),
            (1, "k", {"a": 1.0, "b": None}),
            (5, "k", {}),
        ]
        file.write_text(file.read_text() + "\n")
        with pytest.raises(ToolError, match="changed while it was read"), notes_of(found):
            pass
