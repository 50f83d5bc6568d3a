"""The lines of the map in the page of `report`: the more important ones, and how many more there are."""

import pytest
from pathlib import Path

from conftest import OF_PROGRAM, TOP, Program
from feeds import data_of
from olr.pages.report.counting import Probabilities
from olr.tools import run


def test_more_lines_than_a_page_has(
    program: Program, tmp_path: Path, monkeypatch: pytest.MonkeyPatch
) -> None:
    """All lines of the town of the examples are around its references."""
    monkeypatch.setenv("OLR_PROGRAM", str(program.path))
    monkeypatch.setattr("olr.pages.report.rows.MOST_LINES", 30)
    rows = (TOP / "examples/lines.csv").read_text().splitlines()[1:]
    classes = sorted(int(row.split(",")[3]) for row in rows)
    words = ["report", TOP / "examples/messages.tsv", "--map", TOP / "examples", *OF_PROGRAM]
    assert run([str(word) for word in (*words, "--out", tmp_path / "page.html")]) == 0
    data = data_of(tmp_path / "page.html")
    assert [line["class"] for line in data["lines"]] == classes[:30]
    assert data["cut"] == len(rows) - 30


@pytest.mark.parametrize(
    "probability, at",
    [(1_000_000, 0), (950_000, 0), (900_000, 0), (899_999, 1), (50_000, 9), (0, 9)],
)
def test_bins_of_probabilities(probability: int, at: int) -> None:
    """The first one is that of the greatest, with 1."""
    counts = Probabilities()
    counts.add(probability)
    assert [number for _, number in counts.rows()] == [int(place == at) for place in range(10)]
