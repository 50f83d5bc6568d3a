"""What the program says of probabilities is handed on as it is: in answers, tables and files, and where it says that there are none."""

import csv
import json
import os
import pandas
import pytest
from pathlib import Path
from typing import Any

import olr
from conftest import REFERENCE, TOP, Program, Tools, by_default
from confidences import write_confidence
from olr import content
from olr.asking.program import SHIPPED
from olr.confidence.confidence import Confidence, Range
from olr.content import sha256_of
from olr.matching.columns import ANSWERS
from olr.model.display import plain
from olr.model.profiles import FEED
from olr.model.questions import LIKELY
from olr.model.reasons import Reason, sentence_of
from olr.running.identity import same_confidence

KIOSK = "KwVGnCN20HPDBwFCATFjT5Y="
"""A point along a line."""
ROADWORKS = "CwVGnSN2zhvHCgDX/tIzAw=="
"""Without the town's bans two places."""
NOWHERE = "CwVGnSN2zhunAwEB/2IrAQ=="
TEXTS = [REFERENCE, ROADWORKS, KIOSK, NOWHERE, "?"]
OF_PLACE = ("probability", "reasons")
OF_ANSWER = ("none_of_these", "map_differs", "map_differs_low", "map_differs_high")
NOTE = (
    "no probabilities: radius is 80, not 75: make a file with your options by olr-tools calibrate"
)


@pytest.fixture(autouse=True)
def environment(program: Program, monkeypatch: pytest.MonkeyPatch) -> None:
    """The commands find the program by its environment."""
    monkeypatch.setenv("OLR_PROGRAM", os.fspath(program.path))


@pytest.fixture
def folder(tmp_path: Path) -> Path:
    """The map of the examples without its bans."""
    made = tmp_path / "town"
    made.mkdir()
    for name in ("nodes.csv", "lines.csv"):
        (made / name).write_bytes((TOP / "examples" / name).read_bytes())
    return made


@pytest.fixture
def messages(tmp_path: Path) -> Path:
    """A file of the references."""
    file = tmp_path / "messages.tsv"
    file.write_text("".join(f"m{number}\t{text}\n" for number, text in enumerate(TEXTS)))
    return file


def said(program: Program, folder: Path, *words: object) -> list[Any]:
    """What the program answers about the references, as JSON; None for a fault."""
    file = folder / "records"
    file.write_text("".join(f"{text}\n" for text in TEXTS))
    asked = by_default("batch", "places", "--map", folder, "--order", "likely", "--detail", *words)
    ended = program.run(*asked, "--input", file)
    return [json.loads(line)["answer"] for line in ended.stdout.splitlines()]


@pytest.mark.parametrize("words", [(), ("--radius", 80), ("--most", 1, "--within", 0)])
def test_answers(words: tuple[Any, ...], folder: Path, program: Program) -> None:
    """With all members, also those that are null."""
    numbers = {name[2:]: value for name, value in zip(words[::2], words[1::2])}
    radius = {name: numbers.pop(name) for name in ("radius",) if name in numbers}
    with olr.Map(folder, **radius) as town:
        found = list(town.answers("places", TEXTS, **numbers, **LIKELY))
    expected = said(program, folder, *words)
    assert [None if isinstance(one, olr.Fault) else one.to_dict() for one in found] == expected
    first, _, kiosk, nowhere, _ = expected
    has_none = bool(radius)
    assert first["differs"] == (["radius"] if radius else [])
    assert (first["none_of_these"] is None) == has_none == (first["map_differs"] is None)
    assert {one["probability"] is None for one in first["places"]} == {has_none}
    for name in ("none_of_these", "map_differs"):
        assert kiosk[name] is None
    assert {one[name] for one in kiosk["places"] for name in OF_PLACE} == {None}
    assert nowhere["none_of_these"] == (None if has_none else 1_000_000)


def test_what_was_not_asked_for(folder: Path) -> None:
    """There are no members then, and nothing in columns."""
    with olr.Map(folder) as town, olr.Map(folder, confidence=False) as other:
        table = olr.to_geodataframe([town.places(ROADWORKS, shape=True)], town)
        assert table[[*OF_PLACE, *OF_ANSWER, "likely", "ends_m"]].isna().all().all()
        assert table["rank"].tolist() == [1, 2]
        for found in (town.places(REFERENCE), other.places(REFERENCE, order="likely")):
            assert not {"differs", "none_of_these"} & found.to_dict().keys()
            assert not {*OF_PLACE} & found.to_dict()["places"][0].keys()
            assert found.places[0].probability is None is found.none_of_these


def columns_of(answer: Any, place: int) -> dict[str, Any]:
    """The columns of a place of an answer."""
    one = answer["places"][place] if answer["places"] else None
    reasons = one and one["reasons"]
    found: dict[str, Any] = dict.fromkeys(OF_ANSWER)
    if place == 0 and answer["none_of_these"] is not None:
        found["none_of_these"] = round(answer["none_of_these"] / 1e6, 3)
        for name, member in zip(OF_ANSWER[1:], ("value", "low", "high")):
            found[name] = answer["map_differs"] and answer["map_differs"][member] / 1000
    probability = one and one["probability"]
    found["probability"] = None if probability is None else round(probability / 1e6, 3)
    found["reasons"] = None if reasons is None else sentence_of([Reason(**it) for it in reasons])
    return found | {"rank": one and one["rank"], "likely": one and place + 1}


@pytest.mark.parametrize("radius", [75, 80])
def test_columns(
    radius: int, folder: Path, messages: Path, tools: Tools, program: Program, tmp_path: Path
) -> None:
    """Of the command, of a run, and of tables in Python. It is said why there are none."""
    answers = said(program, folder, "--radius", radius)
    expected = [
        columns_of(answer, place)
        for answer in answers
        if answer is not None
        for place in range(max(1, len(answer["places"])))
    ]
    out, rows = tmp_path / "out.csv", tmp_path / "rows.csv"
    words = [messages, "--map", folder, "--places", "--radius", radius, "--out"]
    match = tools.run("match", *words, out)
    run = tools.start("run", *words, tmp_path / "run", "--geometries", rows)
    for ended in (match, run):
        assert (ended.returncode, NOTE in ended.stdout.splitlines()) == (0, radius == 80), ended
    for file in (out, rows):
        with file.open(encoding="utf-8", newline="") as stream:
            lines = [row for row in csv.DictReader(stream) if row["verdict"] != "fault"]
        for row, one in zip(lines, expected, strict=True):
            for name, value in one.items():
                known = row[name] if name == "reasons" else float(row[name] or "nan")
                assert known == value if value is not None else known != known or known == ""
    with olr.Map(folder, radius=radius) as town:
        settings: dict[str, Any] = {**LIKELY, "shape": True}
        found: Any = [one for one in town.answers("places", TEXTS, **settings)]
        table = olr.to_geodataframe(found, town)
    table = table[table["verdict"] != "fault"].astype(object)
    table = table.where(table.notna(), None)
    assert table[list(expected[0])].to_dict("records") == expected


def test_a_run_has_the_lines_of_the_program(
    folder: Path, messages: Path, tools: Tools, program: Program, tmp_path: Path
) -> None:
    sure = write_confidence(tmp_path / "sure.json", Range(0.5, 0.25, 1), profile=FEED)
    words = ["run", messages, "--map", folder, "--places", "--most", 1, "--out", tmp_path / "run"]
    ended = tools.start(*words, "--confidence", sure, "--join", tmp_path / "lines")
    assert ended.returncode == 0, ended.stderr
    lines = [json.loads(line)["answer"] for line in (tmp_path / "lines").read_text().splitlines()]
    assert lines == said(program, folder, "--most", 1, "--confidence", sure)
    # Lines by another confidence are other ones.
    ended = tools.start(*words, "--resume")
    assert ended.returncode == 1 and "holds a run with other confidence" in ended.stderr


def test_a_confidence_of_a_call(folder: Path, program: Program, tmp_path: Path) -> None:
    """It takes the place of the map's."""
    sure = Confidence.of_file(write_confidence(tmp_path / "sure.json", profile=FEED))
    (answer,) = said(program, folder, "--confidence", sure.file)[1:2]
    with olr.Map(folder) as town:
        table = olr.locate(pandas.Series([ROADWORKS]), map=town, confidence=sure)
        view = olr.view(ROADWORKS, town, confidence=sure)
        mine = town.places(ROADWORKS, **{**LIKELY, "detail": False})  # type: ignore[arg-type]
    assert table["probability"][0] == columns_of(answer, 0)["probability"] == 0.385
    assert "None of these: probability 0.23." in view.page
    assert mine.places[0].probability != answer["places"][0]["probability"]
    other = olr.Map(folder, radius=80)
    with pytest.raises(olr.ToolError, match="says nothing of such answers: radius is 80, not"):
        olr.locate(pandas.Series(["?"]), map=other, confidence=sure)
    with pytest.raises(olr.ToolError, match="says nothing of such answers: radius is 80, not"):
        olr.view(ROADWORKS, other, confidence=sure)


@pytest.mark.parametrize("text", ["weights", "version"])
def test_a_bad_file(text: str, folder: Path, messages: Path, tools: Tools, tmp_path: Path) -> None:
    """One that the program refuses is named, by each command and in Python, and nothing is written."""
    content = json.loads(SHIPPED.read_text())
    content |= {"weights": content["weights"] | {"leg": -1}} if text == "weights" else {text: 2}
    file = tmp_path / "bad.json"
    file.write_text(json.dumps(content))
    about = f"{file} is no confidence file, as olr-tools calibrate writes it: BadConfidence"
    out, sure = tmp_path / "out.csv", ["--confidence", file]
    page = tmp_path / "out.html"
    for words in (
        ["match", messages, "--map", folder, "--places", "--out", out],
        ["run", messages, "--map", folder, "--places", "--out", tmp_path / "run"],
        ["compare", messages, "--map", folder, "--with", folder, "--out", out],
        ["report", messages, "--map", folder, "--out", page],
        ["view", REFERENCE, "--map", folder, "--out", page],
        ["page", "--map", folder, "--out", page],
        ["serve", "--map", folder, "--port", 0],
    ):
        ended = (tools.start if words[0] in ("run", "serve") else tools.run)(*words, *sure)
        assert ended.returncode == 1 and ended.stderr.startswith(f"olr-tools: {about}"), ended
    assert not list(tmp_path.glob("out.*"))
    with olr.Map(folder, confidence=file) as town:
        with pytest.raises(olr.Fault, match="BadConfidence"):
            town.places(REFERENCE)
        assert len(town.match(REFERENCE)) == 1


def test_a_file_that_is_not_there(folder: Path, messages: Path, tools: Tools) -> None:
    file = folder / "none.json"
    words = ["match", messages, "--map", folder, "--places", "--out", folder / "out.csv"]
    ended = tools.run(*words, "--confidence", file)
    assert ended.stderr.startswith(f"olr-tools: {file} can't be read: No such file")
    with olr.Map(folder, confidence=file) as town:
        with pytest.raises(olr.Fault, match="OpenFailed confidence"):
            town.match(REFERENCE)


def test_all_columns_have_a_source() -> None:
    """What the program says has a column each."""
    assert {*OF_PLACE, *OF_ANSWER} < set(ANSWERS)
    assert plain(Reason("lines", 3)) == {"at": None, "by": 3, "kind": "lines"}


def test_a_machine_with_another_confidence(tmp_path: Path, monkeypatch: pytest.MonkeyPatch) -> None:
    """A worker says so, before it asks, and where the file changes meanwhile."""
    monkeypatch.setattr(content, "SETTLED", 0)
    sure = write_confidence(tmp_path / "sure.json")
    with pytest.raises(olr.ToolError, match="on .*: .*sure.json is another confidence than that"):
        with same_confidence(sure, sha256_of(SHIPPED)):
            pass
    with pytest.raises(olr.ToolError, match="sure.json changed while it was used: go on by"):
        with same_confidence(sure, sha256_of(sure)) as file:
            assert file == sure
            write_confidence(sure, none=5)
    with same_confidence(sure, None) as file:
        assert file is None
