"""`olr-tools compare` in a job: limits that end it with a status of their own, and its summary as JSON."""

import json
import os
import pytest
import shutil
from collections.abc import Sequence
from pathlib import Path
from typing import Any

from compared_maps import ALONG, STRAIGHT, at, road
from conftest import TOP, Program
from olr.tools import run

EXAMPLES = TOP / "examples"
LOST = (
    "2 of them have a place on the old map and none on the new one, more than the {} of --fail-lost"
)


@pytest.fixture(autouse=True)
def environment(program: Program, monkeypatch: pytest.MonkeyPatch, tmp_path: Path) -> None:
    """The command finds the program by its environment, and writes into a folder of its own."""
    monkeypatch.setenv("OLR_PROGRAM", os.fspath(program.path))
    monkeypatch.chdir(tmp_path)


@pytest.fixture
def today(tmp_path: Path) -> Path:
    """The town of the examples, without bans."""
    folder = tmp_path / "today"
    folder.mkdir()
    for name in ("nodes.csv", "lines.csv"):
        shutil.copy(EXAMPLES / name, folder)
    return folder


@pytest.fixture
def closed(today: Path, tmp_path: Path) -> Path:
    """The same without Mill Road: two messages of the examples lose their place."""
    folder = Path(shutil.copytree(today, tmp_path / "closed"))
    lines = (folder / "lines.csv").read_text().splitlines(keepends=True)
    kept = [line for line in lines if not line.startswith(("501,", "502,"))]
    (folder / "lines.csv").write_text("".join(kept))
    return folder


def compare(old: Path, new: Path, *words: object, messages: Path | None = None) -> int:
    """The status of the command, whose rows are in `changes.csv`."""
    file = messages or EXAMPLES / "messages.tsv"
    given = ["compare", file, "--map", old, "--with", new, "--out", "changes.csv", "--force"]
    return run(list(map(str, [*given, *words])))


@pytest.mark.parametrize(
    ("words", "status", "said"),
    [
        ((), 0, []),
        (("--fail-lost", 2), 0, []),
        (("--fail-lost", 1), 3, [LOST.format(1)]),
        (("--fail-lost", 0, "--fail-moved", 0), 3, [LOST.format(0)]),
        (("--fail-moved", 0), 0, []),
    ],
)
def test_references_that_are_lost(
    words: Sequence[object],
    status: int,
    said: list[str],
    today: Path,
    closed: Path,
    capsys: pytest.CaptureFixture[str],
) -> None:
    """All is written and said as without limits."""
    assert compare(today, closed) == 0
    rows, shown = Path("changes.csv").read_bytes(), capsys.readouterr().out
    Path("changes.csv").unlink()
    more = ("--page", "changes.html", "--summary", "summary.json")
    assert compare(today, closed, *words, *more) == status
    ended = capsys.readouterr()
    assert ended.err.splitlines() == [f"olr-tools: {line}" for line in said]
    assert [line for line in ended.out.splitlines() if ".html" not in line] == shown.splitlines()
    assert Path("changes.csv").read_bytes() == rows and Path("changes.html").exists()
    assert json.loads(Path("summary.json").read_text())["changes"]["lost"] == 2


def test_references_that_moved(tmp_path: Path, capsys: pytest.CaptureFixture[str]) -> None:
    """The only road is 11.13 m farther to the north."""
    old = road(*STRAIGHT).write(tmp_path / "old")
    new = road((0, 100), (10_000, 100)).write(tmp_path / "new")
    messages = tmp_path / "messages.tsv"
    messages.write_text(f"m\t{ALONG}\n" * 3)
    assert compare(old, new, "--fail-moved", 3, messages=messages) == 0
    capsys.readouterr()
    words = ("--fail-moved", 2, "--fail-lost", 0, "--summary", "summary.json")
    assert compare(old, new, *words, messages=messages) == 3
    said = "olr-tools: 3 of them moved, more than the 2 of --fail-moved\n"
    assert capsys.readouterr().err == said
    summary = json.loads(Path("summary.json").read_text())
    assert summary["moved_m"] == {"greatest": 11.1, "median": 11.1}
    assert [(it["option"], it["found"], it["passed"]) for it in summary["limits"]] == [
        ("--fail-lost", 0, False),
        ("--fail-moved", 3, True),
    ]


def test_what_the_new_map_refuses_is_lost(
    tmp_path: Path, capsys: pytest.CaptureFixture[str]
) -> None:
    """More than 64 roads are near both points. What the old map alone refuses is not, nor what both do."""
    crowded = road(*STRAIGHT)
    for north in range(20, 700, 10):
        crowded.line(at(0, north), at(10_000, north))
    one, other = road(*STRAIGHT).write(tmp_path / "one"), crowded.write(tmp_path / "other")
    messages = tmp_path / "messages.tsv"
    messages.write_text(f"m\t{ALONG}\nn\tCwVGnSN2zhvHCgDX\n")
    words = ("--fail-lost", 0, "--summary", "summary.json")
    for old, new, status, refused in (
        (one, other, 3, {"both": {"BadLength": 1}, "new": {"TooManyCandidates": 1}, "old": {}}),
        (other, one, 0, {"both": {"BadLength": 1}, "new": {}, "old": {"TooManyCandidates": 1}}),
        (other, other, 0, {"both": {"BadLength": 1, "TooManyCandidates": 1}, "new": {}, "old": {}}),
    ):
        assert compare(old, new, *words, messages=messages) == status
        summary = json.loads(Path("summary.json").read_text())
        assert summary["refused_by"] == refused
        assert (summary["changes"]["refused"], summary["changes"]["lost"]) == (2, 0)
    assert "1 of them have a place on the old map" in capsys.readouterr().err


def test_the_summary_as_json(today: Path, closed: Path, capsys: pytest.CaptureFixture[str]) -> None:
    """All members are there, sorted; numbers are those that are said."""
    assert compare(today, closed, "--summary", "deep/summary.json", "--across", 12) == 0
    text = Path("deep/summary.json").read_text()
    summary: dict[str, Any] = json.loads(text)
    assert text == json.dumps(summary, indent=2, sort_keys=True) + "\n"
    asked_with = summary.pop("asked_with")
    assert (asked_with["radius"], asked_with["across"], asked_with["profile"]) == (75, 12, "feed")
    assert summary == {
        "agree": 2,
        "certainty": {"less": 0, "more": 1, "same": 1},
        "changes": {"found": 0, "lost": 2, "moved": 0, "none": 0, "refused": 1, "same": 2},
        "cut_off": 0,
        "limits": [],
        "messages": str(EXAMPLES / "messages.tsv"),
        "moved_m": None,
        "new": str(closed),
        "old": str(today),
        "placed_by_both": 2,
        "references": 5,
        "refused_by": {"both": {"BadLength": 1}, "new": {}, "old": {}},
    }
    shown = capsys.readouterr().out
    for line in ("lost: 2", "same: 2", "certainty more: 1", "agree: 2 of 2 that both maps place"):
        assert line in shown.splitlines()


def test_a_summary_that_cant_be_written(
    today: Path, closed: Path, capsys: pytest.CaptureFixture[str]
) -> None:
    """Nothing is asked, and nothing is written."""
    Path("folder").mkdir()
    nodes = closed / "nodes.csv"
    before = nodes.read_bytes()
    for file, status, said in (
        ("folder", 1, "folder is a folder: name a file"),
        (nodes, 1, f"{nodes} is one of the inputs: name another file"),
        ("changes.csv", 2, "--summary and another option name one file, changes.csv: name two"),
        ("./changes.html", 2, "name one file, changes.html: name two"),
    ):
        assert compare(today, closed, "--page", "changes.html", "--summary", file) == status
        assert said in capsys.readouterr().err
    assert nodes.read_bytes() == before
    assert sorted(os.listdir()) == ["closed", "folder", "today"]


def test_a_summary_is_whole_or_as_it_was(
    today: Path, closed: Path, monkeypatch: pytest.MonkeyPatch
) -> None:
    """Without --force one that is there stays; where the rest fails, it is as it was."""
    summary = Path("summary.json")
    summary.write_text("old")
    words = ["compare", str(EXAMPLES / "messages.tsv"), "--map", str(today), "--with"]
    words += [str(closed), "--out", "changes.csv", "--summary", "summary.json"]
    assert run(words) == 1
    assert summary.read_text() == "old" and not Path("changes.csv").exists()
    monkeypatch.setattr("olr.commands.compare.summary_text", lambda *_: 1 / 0)
    with pytest.raises(ZeroDivisionError):
        run([*words, "--force"])
    assert summary.read_text() == "old" and sorted(os.listdir()) == [
        "closed",
        "summary.json",
        "today",
    ]


@pytest.mark.parametrize("option", ["--fail-lost", "--fail-moved"])
def test_limits_that_are_none(
    option: str, today: Path, closed: Path, capsys: pytest.CaptureFixture[str]
) -> None:
    for value in (-1, "many", "5%"):
        assert compare(today, closed, option, value) == 2
        assert f"Invalid value for '{option}'" in capsys.readouterr().err
    assert not Path("changes.csv").exists()
