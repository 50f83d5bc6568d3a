"""`olr-tools match`: from files of messages to files of geometries."""

import json
import os
import pytest
import re
import sqlite3
import subprocess
from pathlib import Path
from typing import Any

from conftest import ASKED_WITH_PROGRAM, OF_PROGRAM, REFERENCE, TOP, Program, Tools
from olr import tools as command_line
from olr.matching import columns as columns_of
from olr.matching.tables import Columns
from olr.model.questions import TOLERANCES

EXAMPLES = TOP / "examples"


@pytest.fixture(autouse=True)
def environment(program: Program, monkeypatch: pytest.MonkeyPatch) -> None:
    """The command finds the program by its environment."""
    monkeypatch.setenv("OLR_PROGRAM", os.fspath(program.path))


def info(file: Path) -> str:
    """What `ogrinfo` says of a file."""
    command = ["ogrinfo", "-al", str(file)]
    return subprocess.run(command, capture_output=True, text=True, check=True).stdout


def test_matchings(tools: Tools, tmp_path: Path) -> None:
    out = tmp_path / "new" / "out.gpkg"
    words = ["match", EXAMPLES / "messages.tsv", "--map", EXAMPLES, "--out", out]
    ended = tools.run(*words, *OF_PROGRAM)
    assert (ended.returncode, ended.stderr) == (0, "")
    assert ended.stdout.splitlines()[:-1] == [
        f"{out}: 8 rows of 5 references",
        "matched: 3",
        "none: 1",
        "refused, BadLength: 1",
        ASKED_WITH_PROGRAM,
    ]
    shown = info(out)
    assert "Layer name: match" in shown and "Feature Count: 8" in shown
    assert "fault (String) = BadLength 12" in shown
    assert shown.count("LINESTRING (") == 6
    assert os.listdir(out.parent) == ["out.gpkg"]


def test_places(tools: Tools, tmp_path: Path) -> None:
    out = tmp_path / "out.geojson"
    words = ["match", EXAMPLES / "messages.tsv", "--map", EXAMPLES, "--places", "--out", out]
    words += OF_PROGRAM
    ended = tools.run(*words, "--part", "inner", "--radius", 150)
    assert ended.stdout.splitlines()[1:4] == ["unique: 3", "none: 1", "refused, BadLength: 1"]
    features = json.loads(out.read_text())["features"]
    assert [feature["properties"]["key"] for feature in features] == ["m1", "m2", "m3", "m4", "m5"]
    assert [feature["properties"]["record"] for feature in features] == [1, 2, 3, 4, 5]
    assert features[0]["properties"]["members"] == 1
    assert features[4]["geometry"] is None
    again = tools.run(*words)
    assert (again.returncode, again.stderr) == (
        1,
        f"olr-tools: {out} is there: name another file, or replace it by --force\n",
    )
    assert tools.run(*words, "--force").returncode == 0


def test_why(tools: Tools, tmp_path: Path) -> None:
    out = tmp_path / "out.gpkg"
    words = ["match", EXAMPLES / "unmatched.tsv", "--map", EXAMPLES, "--why", "--out", out]
    assert tools.run(*words, *OF_PROGRAM).returncode == 0
    with sqlite3.connect(out) as base:
        rows = base.execute("select key, verdict, at, remedies from why order by key").fetchall()
    assert len(rows) == 4 and all(verdict != "match" for _, verdict, _, _ in rows)
    assert any("lowest 2" in remedies for _, _, _, remedies in rows)
    assert info(out).count("LINESTRING (") == 3


KIOSK, UNMATCHED = "KwVGnCN20HPDBwFCATFjT5Y=", "CwVGnSN2zhtnBgEB/2IjAQ=="
IN_FRONT = [("fid", "INTEGER"), ("geom", "GEOMETRY"), ("record", "INTEGER"), ("key", "TEXT")]
TYPES = {"int64": "INTEGER", "float": "REAL", "str": "TEXT"}
TABLES: list[Columns[Any]] = [columns_of.ANSWERS, columns_of.PIECES, columns_of.REASONS]
ANSWERS, PIECES, REASONS = (
    [(name, TYPES[column.kind]) for name, column in columns.items()] for columns in TABLES
)


@pytest.mark.parametrize(
    "records",
    [
        [],
        ["a\tbad"],
        [UNMATCHED],
        [KIOSK],
        [REFERENCE],
        ["a\tbad", REFERENCE, KIOSK, "7\t" + KIOSK],
    ],
)
@pytest.mark.parametrize(
    ("question", "columns"),
    [("match", ANSWERS), ("places", ANSWERS), ("why", REASONS)],
)
def test_columns_whatever_the_answers(
    question: str, columns: list[tuple[str, str]], records: list[str], tmp_path: Path
) -> None:
    """Lines and points, faults alone, keys that are missing, no rows: the layer has the same columns and types, as GeoPackage names
    them."""
    messages, out = tmp_path / "messages.tsv", tmp_path / "out.gpkg"
    messages.write_text("".join(f"{record}\n" for record in records))
    words = ["match", messages, "--format", "tab", "--map", EXAMPLES, "--out", out]
    words += [] if question == "match" else [f"--{question}"]
    assert command_line.run(list(map(str, words))) == 0
    with sqlite3.connect(out) as base:
        table = base.execute(f"select name, type from pragma_table_info('{question}')").fetchall()
        geometry = base.execute("select geometry_type_name from gpkg_geometry_columns").fetchall()
        numbers = base.execute(f"select record from {question} group by record").fetchall()
    assert table == [*IN_FRONT, *columns]
    assert geometry == [("GEOMETRY",)]
    assert numbers == [(number,) for number in range(1, len(records) + 1)]


def test_numbers_of_places(tmp_path: Path, capsys: pytest.CaptureFixture[str]) -> None:
    """The roadworks have a second place with a gap of 7, which is the likelier one. With `--within 6` the program wouldn't list it, with `--look
    1` it isn't looked for, and with `--most 1` the other one isn't shown, which changes no verdict.
    """
    (tmp_path / "messages.txt").write_text("CwVGnSN2zhvHCgDX/tIzAw==\n")
    for name in ("nodes.csv", "lines.csv"):
        (tmp_path / name).symlink_to(EXAMPLES / name)
    words = ["match", str(tmp_path / "messages.txt"), "--map", str(tmp_path), "--force"]
    words += ["--out", str(tmp_path / "out.gpkg")]
    for given, verdict, ranks in (
        ("--places", "ambiguous", [2, 1]),
        ("--places --within 6", "unique", [2, 1]),
        ("--places --most 1", "ambiguous", [2]),
        ("--places --look 1", "open", [1]),
        ("--places --apart 1000000", "unique", [1]),
    ):
        assert command_line.run([*words, *given.split()]) == 0
        assert capsys.readouterr().out.splitlines()[1] == f"{verdict}: 1"
        with sqlite3.connect(tmp_path / "out.gpkg") as base:
            found = base.execute("select rank from places order by likely").fetchall()
        assert [rank for (rank,) in found] == ranks
    for given, status, said in (
        ("--places --look 0", 1, "olr-tools: BadNumber look"),
        ("--most 1", 2, "--most is for places, not for match"),
        ("--why --page 1", 2, "--page is for match, not for why"),
        ("--radius 4294967296", 1, "radius is a whole number of metres from 1 to 1000"),
    ):
        assert command_line.run([*words, *given.split()]) == status
        assert said in capsys.readouterr().err


@pytest.mark.parametrize("name", ["compare", "match", "view"])
def test_help_has_units_ranges_and_defaults(
    name: str, top: Path, capsys: pytest.CaptureFixture[str]
) -> None:
    """Those of the guide's table of options."""
    assert command_line.run([name, "--help"]) == 0
    helped = " ".join(capsys.readouterr().out.split())
    page = (top / "docs/GUIDE.md").read_text(encoding="utf-8")
    rows = re.findall(r"(?m)^\| `(--\w+)`(?: \(`(\w+)`\))? \| ([^|]*) \| (\d+) \| ([^|]*) \|", page)
    of_command = {"", "places"} | ({"match"} if name == "match" else set())
    shown = [row for row in rows if row[1] in of_command]
    assert len(shown) == (11 if name == "match" else 10)
    for option, _, unit, default, scope in shown:
        text = re.search(rf" {option} N (.*?, by default .*?)\.", helped)
        known = "that of the profile" if option[2:] in TOLERANCES else default
        assert text is not None and text[1].endswith(f": {scope} {unit}, by default {known}")


@pytest.mark.parametrize(
    ("name", "text", "words"),
    [
        ("a.csv", b"key,text\n1,x\n", "has no column ref: name it by --ref: key, text"),
        ("a.jsonl", b"{}\n", "line 1 has no member ref: name it by --ref"),
        ("a.jsonl", b"{\n", "isn't JSON: parse error"),
        ("a.tsv", b"\xff\n", "isn't UTF-8: convert it"),
        ("none", None, "can't be read: No such file"),
    ],
)
def test_files_that_are_none(
    tools: Tools, tmp_path: Path, name: str, text: bytes | None, words: str
) -> None:
    file = tmp_path / name
    if text is not None:
        file.write_bytes(text)
    ended = tools.run("match", file, "--map", EXAMPLES, "--out", tmp_path / "out.gpkg")
    assert ended.returncode == 1 and words in ended.stderr
    assert ended.stderr.startswith("olr-tools: ") and ended.stderr.count("\n") == 1
    assert not (tmp_path / "out.gpkg").exists()


@pytest.mark.parametrize(
    ("words", "shown"),
    [
        (["--map", "none"], "none/nodes.csv can't be read: No such file"),
        (["--map", EXAMPLES, "--radius", "0"], "BadTolerance radius: the tolerance radius"),
        (["--map", EXAMPLES, "--out", "x.shp"], "has no suffix that is known"),
    ],
)
def test_runs_that_fail(tools: Tools, tmp_path: Path, words: list[object], shown: str) -> None:
    out = ["--out", tmp_path / "out.gpkg"] if "--out" not in words else []
    ended = tools.run("match", EXAMPLES / "messages.tsv", *words, *out)
    assert ended.returncode == 1 and shown in ended.stderr
    assert ended.stderr.count("\n") == 1 and os.listdir(tmp_path) == []


def test_a_program_that_isnt_there(
    tools: Tools, tmp_path: Path, monkeypatch: pytest.MonkeyPatch
) -> None:
    monkeypatch.setenv("OLR_PROGRAM", os.fspath(tmp_path / "none"))
    words = ["match", EXAMPLES / "messages.tsv", "--map", EXAMPLES]
    ended = tools.run(*words, "--out", tmp_path / "out.gpkg")
    assert ended.returncode == 1 and "that is what OLR_PROGRAM names" in ended.stderr
