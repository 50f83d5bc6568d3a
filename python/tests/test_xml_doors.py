"""References in XML that the binary form can't say, and what `match`, `compare`, `report` and `view` say of them: their own faults."""

import csv
import pytest
from pathlib import Path

from conftest import TOP, Program, Tools

FEED = TOP / "python/tests/feeds_xml/openlr.xml"
EXAMPLES = TOP / "examples"


@pytest.fixture(autouse=True)
def asked(program: Program, monkeypatch: pytest.MonkeyPatch) -> None:
    """The program to test with is asked."""
    monkeypatch.setenv("OLR_PROGRAM", str(program.path))


def faults(file: Path) -> list[tuple[str, str]]:
    """The keys and faults of rows, without repeats."""
    with file.open(newline="") as stream:
        rows = [(row["key"], row["fault"]) for row in csv.DictReader(stream)]
    return list(dict.fromkeys(rows))


EXPECTED = [("first", ""), ("second", ""), ("third", "Empty"), ("fourth", "PoiWithAccess")]


@pytest.mark.parametrize("question", [[], ["--places"], ["--why"]])
def test_match(tools: Tools, tmp_path: Path, question: list[str]) -> None:
    out = tmp_path / "rows.csv"
    ended = tools.run("match", FEED, "--map", EXAMPLES, "--out", out, *question)
    assert ended.returncode == 0 and "refused, PoiWithAccess: 1" in ended.stdout
    assert faults(out) == EXPECTED


def test_compare(tools: Tools, tmp_path: Path) -> None:
    out = tmp_path / "rows.csv"
    words = ["--map", EXAMPLES, "--with", EXAMPLES, "--out", out]
    assert tools.run("compare", FEED, *words).returncode == 0
    assert faults(out) == EXPECTED


def test_report(tools: Tools, tmp_path: Path) -> None:
    ended = tools.run("report", FEED, "--map", EXAMPLES, "--out", tmp_path / "page.html")
    assert ended.returncode == 0 and "refused, PoiWithAccess: 1" in ended.stdout


def test_view(tools: Tools, tmp_path: Path) -> None:
    words = ["--messages", FEED, "--map", EXAMPLES, "--out", tmp_path / "page.html"]
    ended = tools.run("view", "fourth", *words)
    assert (ended.returncode, ended.stdout) == (1, "")
    assert ended.stderr.startswith("olr-tools: PoiWithAccess: ")
    assert tools.run("view", "second", *words).returncode == 0
