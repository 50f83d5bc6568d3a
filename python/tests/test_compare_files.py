"""`olr-tools compare`: files, stores, maps that change meanwhile, and words that are refused."""

import csv
import json
import os
import pytest
import shutil
import sqlite3
from collections.abc import Iterator
from pathlib import Path

import olr
from asking import draw_map, draw_references
from compared_maps import (
    ALONG,
    HALFWAY,
    INTERVAL,
    NO_PROBABILITIES,
    ORIGIN,
    STRAIGHT,
    at,
    pairs,
    pairs_of,
    road,
)
from conftest import ASKED_WITH_PROGRAM, OF_PROGRAM, REFERENCE, TOP, Program
from olr.asking.processes import AHEAD
from olr.comparing.asking import CHUNK, Comparison
from olr.comparing.columns import CHANGES
from olr.comparing.places import Limits
from olr.comparing.summary import Summary
from olr.asking.program import SHIPPED
from olr.messages import message_file
from olr.messages.message import Message, Reading
from olr.messages.reading import messages_of
from olr.regions.making import make_store_of_folder
from olr.tools import run
from region_maps import EAST, WEST, Point, first_position, text_of

EXAMPLES = TOP / "examples"
KIOSK, UNMATCHED = "KwVGnCN20HPDBwFCATFjT5Y=", "CwVGnSN2zhtnBgEB/2IjAQ=="


@pytest.fixture(autouse=True)
def environment(program: Program, monkeypatch: pytest.MonkeyPatch) -> None:
    """The command finds the program by its environment."""
    monkeypatch.setenv("OLR_PROGRAM", os.fspath(program.path))


def test_stores_and_folders(tmp_path: Path) -> None:
    """Two stores, and a store and a folder: the same rows as of two folders. In the new map every tenth line is missing."""
    old, new = draw_map(tmp_path / "old", 800, 1600), tmp_path / "new"
    new.mkdir()
    shutil.copy(old / "nodes.csv", new)
    lines = (old / "lines.csv").read_text().splitlines()
    kept = [line for number, line in enumerate(lines) if number % 10 != 1]
    (new / "lines.csv").write_text("\n".join(kept) + "\n")
    for folder in (old, new):
        make_store_of_folder(folder, folder.with_suffix(".gpkg"))
    texts = draw_references(old, 100)
    wanted = pairs(old, new, [*texts, HALFWAY])
    assert len({row["change"] for row, _ in wanted}) >= 4
    for one in (old, old.with_suffix(".gpkg")):
        for other in (new, new.with_suffix(".gpkg")):
            assert pairs(one, other, [*texts, HALFWAY]) == wanted


def test_each_row_is_that_of_match(tmp_path: Path, capsys: pytest.CaptureFixture[str]) -> None:
    """What a row says of a map is what `match --places` says of the likeliest place there, by the profile `feed`: of the town, and of the
    town without a street."""
    old, new = tmp_path / "old", tmp_path / "new"
    for folder in (old, new):
        shutil.copytree(EXAMPLES, folder)
    lines = (new / "lines.csv").read_text().splitlines()
    kept = [line for line in lines if line.split(",")[0] not in ("501", "502")]
    (new / "lines.csv").write_text("\n".join(kept) + "\n")
    (new / "bans.csv").unlink()
    messages, feed = tmp_path / "messages.tsv", ("--profile", "feed")
    shutil.copy(EXAMPLES / "messages.tsv", messages)
    found = pairs_of(old, new, messages, *feed)
    assert "no probabilities" not in capsys.readouterr().out
    probable = 0
    for side, folder in enumerate((old, new)):
        out = tmp_path / f"{folder.name}.csv"
        words = ["match", messages, "--map", folder, "--places", "--out", out, *feed]
        assert run(list(map(str, words))) == 0
        with out.open(encoding="utf-8", newline="") as stream:
            first = {row["record"]: row for row in csv.DictReader(stream) if row["likely"] in "1"}
        assert len(first) == len(found) == 5
        for pair in found:
            row, wanted = pair[side], first[pair[side]["record"]]
            same = ["verdict", "probability", "none_of_these", "reasons", "total", "margin"]
            for name in (*same, "turns_back", "outer_m", "lines"):
                assert row[name] == wanted[name]
            probable += row["probability"] != ""
    assert probable == 6
    capsys.readouterr()
    # The file that comes with the package, named.
    own = tmp_path / "own.json"
    shutil.copy(SHIPPED, own)
    assert pairs_of(old, new, messages, *feed, "--confidence", own) == found
    words = ["compare", messages, "--map", old, "--with", new, "--confidence", own]
    for more, said in (
        (OF_PROGRAM, "own.json says nothing of such answers: radius is 100, not 75"),
        (("--out", own, "--force"), "own.json"),
        (("--confidence", messages), "messages.tsv"),
    ):
        given = [*words, "--out", tmp_path / "other.csv", *more]
        assert run(list(map(str, given))) == 1
        assert said in capsys.readouterr().err
    assert own.read_bytes() == SHIPPED.read_bytes() and not (tmp_path / "other.csv").exists()


def test_looking_that_was_cut_off_is_said(
    tmp_path: Path, capsys: pytest.CaptureFixture[str]
) -> None:
    """One matching is all of a road, and not of two that are as near."""
    single, double = road(*STRAIGHT), road(*STRAIGHT)
    road((0, 120), (10_000, 120), drawing=double)
    one, other = single.write(tmp_path / "one"), double.write(tmp_path / "other")
    said = "cut off: 2 may have more places: give a greater --look"
    for words, line in (((one, other), said), ((other, one), said), ((one, one), None)):
        pairs(*words, [ALONG, "bad", ALONG], "--look", 1)
        assert (said in capsys.readouterr().out.splitlines()) == (line is not None)


def test_geometries_of_both_maps(tmp_path: Path, capsys: pytest.CaptureFixture[str]) -> None:
    """Of the road that moved, the one that is lost, and the text that is none, in a GeoPackage and as GeoJSON."""
    old, new = road(*STRAIGHT), road((0, 100), (10_000, 100))
    road((0, 20_000), (10_000, 20_000), drawing=old)
    west, south = first_position(at(0, 20_000))
    lost = text_of([Point(west, south, EAST, INTERVAL), Point(west + 10_000, south, WEST)])
    messages = tmp_path / "messages"
    messages.write_text(f"moved\t{ALONG}\nlost\t{lost}\nnone\tCwVGnSN2zhvHCgDX\nspot\t{HALFWAY}\n")
    words = ["compare", messages, *OF_PROGRAM, "--map", old.write(tmp_path / "old")]
    words += ["--with", new.write(tmp_path / "new"), "--out"]
    assert run(list(map(str, [*words, tmp_path / "out.geojson"]))) == 0
    assert capsys.readouterr().out.splitlines() == [
        f"{tmp_path / 'out.geojson'}: 8 rows of 4 references",
        "moved: 2",
        "lost: 1",
        "refused by both maps, BadLength: 1",
        "certainty same: 2",
        "agree: 0 of 2 that both maps place",
        "moved by: median 11.1 m, greatest 11.1 m",
        f"{ASKED_WITH_PROGRAM}, across 10 m",
        NO_PROBABILITIES,
    ]
    features = json.loads((tmp_path / "out.geojson").read_text())["features"]
    assert [one["properties"]["record"] for one in features] == [1, 1, 2, 2, 3, 3, 4, 4]
    west_end, south_end = (number / 1e6 for number in ORIGIN)
    before, after, gone, nothing, *bad, first, second = (one["geometry"] for one in features)
    ends = [[west_end, south_end], [west_end + 0.01, south_end]]
    assert [number for spot in before["coordinates"] for number in spot] == pytest.approx(
        [number for spot in ends for number in spot], abs=2e-7
    )
    assert [spot[1] for spot in after["coordinates"]] == pytest.approx([south_end + 0.0001] * 2)
    assert gone["type"] == "LineString" and [nothing, *bad] == [None] * 3
    assert second["coordinates"][1] - first["coordinates"][1] == pytest.approx(0.0001)
    assert run(list(map(str, [*words, tmp_path / "out.gpkg"]))) == 0
    with sqlite3.connect(tmp_path / "out.gpkg") as base:
        table = base.execute("select name, type from pragma_table_info('changes')").fetchall()
        rows = base.execute("select key, side, change, geom is null from changes").fetchall()
    types = {"int64": "INTEGER", "float": "REAL", "str": "TEXT"}
    assert table[2:] == [("record", "INTEGER"), ("key", "TEXT")] + [
        (name, types[column.kind]) for name, column in CHANGES.items()
    ]
    assert rows[:4] == [
        ("moved", "old", "moved", 0),
        ("moved", "new", "moved", 0),
        ("lost", "old", "lost", 0),
        ("lost", "new", "lost", 1),
    ]


@pytest.mark.parametrize("texts", [[], ["bad"], [UNMATCHED], [KIOSK], [REFERENCE, "", KIOSK]])
def test_rows_whatever_the_answers(texts: list[str], tmp_path: Path) -> None:
    """No message, none with a place, points alone: two rows each."""
    folder = tmp_path / "town"
    shutil.copytree(EXAMPLES, folder)
    assert len(pairs(folder, folder, texts, "--format", "tab")) == len(texts)


@pytest.mark.parametrize("suffix", ["", ".gpkg"])
@pytest.mark.parametrize("which", ["old", "new"])
def test_a_map_that_changes_meanwhile(
    suffix: str,
    which: str,
    tmp_path: Path,
    monkeypatch: pytest.MonkeyPatch,
    capsys: pytest.CaptureFixture[str],
) -> None:
    """Behind a thousand messages of a chunk each. A store is read again, so that is one error, and nothing is written. Files were read once: all
    answers are of what they were."""
    maps = {"old": road(*STRAIGHT), "new": road((0, 20_000), (10_000, 20_000))}
    files = {name: drawing.write(tmp_path / name) for name, drawing in maps.items()}
    if suffix:
        for name, folder in files.items():
            make_store_of_folder(folder, folder.with_suffix(suffix))
    messages = tmp_path / "messages"
    messages.write_text("bad\n" * 3000 + f"{ALONG}\n{UNMATCHED}\n" * 600)

    def read(file: Path, reading: Reading, name: str) -> Iterator[Message]:
        for message in messages_of(file, reading, name):
            if message.record == 3001:
                changed_map(files[which], suffix)
            yield message

    out = tmp_path / "out.csv"
    words = ["compare", messages, "--format", "tab", "--out", out, "--force"]
    words += ["--map", files["old"].with_suffix(suffix), "--with", files["new"].with_suffix(suffix)]
    assert suffix or run(list(map(str, words))) == 0
    expected = None if suffix else (out.read_bytes(), capsys.readouterr())
    monkeypatch.setattr(message_file, "messages_of", read)
    monkeypatch.setattr(message_file, "is_read_twice", lambda file: False)
    there = sorted(os.listdir(tmp_path))
    assert run(list(map(str, words))) == (1 if suffix else 0)
    shown = capsys.readouterr()
    if expected is not None:
        assert (out.read_bytes(), shown) == expected
        return
    assert shown.err.count("\n") == 1 and "changed" in shown.err and shown.out == ""
    assert sorted(os.listdir(tmp_path)) == there


def changed_map(folder: Path, suffix: str) -> None:
    """Gives a map, or its store, another road."""
    drawing = road((0, 30_000), (10_000, 30_000))
    shutil.rmtree(folder)
    drawing.write(folder)
    if suffix:
        folder.with_suffix(suffix).unlink()
        make_store_of_folder(folder, folder.with_suffix(suffix))


def test_no_more_are_held_than_are_asked(program: Program, tmp_path: Path) -> None:
    """A chunk of messages, and those by which folders are asked ahead."""
    folder = road(*STRAIGHT).write(tmp_path / "map")
    taken = 0

    def messages() -> Iterator[Message]:
        nonlocal taken
        for number in range(5000):
            taken += 1
            yield Message(number, None, ALONG if number % 3 else UNMATCHED)

    seen, summary = 0, Summary()
    with olr.Map(folder, program=program.path) as asked:
        comparison = Comparison(asked, asked, {}, Limits(10, 75))
        for chunk in comparison.chunks(messages()):
            seen += len(chunk.references)
            assert len(chunk.references) <= CHUNK and taken <= seen + CHUNK + AHEAD
            summary.add(chunk.references)
    assert seen == taken == 5000
    assert list(summary.lines()) == [
        "same: 3,333",
        "none: 1,667",
        "certainty same: 3,333",
        "agree: 3,333 of 3,333 that both maps place",
    ]


@pytest.mark.parametrize(
    ("words", "status", "said"),
    [
        (["--across", "1001"], 2, "--across"),
        (["--across", "x"], 2, "--across"),
        (["--apart", "-1"], 1, "BadNumber apart"),
        (["--radius", "0"], 1, "BadTolerance radius"),
        (["--out", "out.txt"], 1, "no suffix that is known"),
        (["--with", "nowhere"], 1, "nowhere"),
        (["--map", "nowhere"], 1, "nowhere"),
        (["--nearest", "3"], 2, "--nearest"),
    ],
)
def test_words_that_are_refused(
    words: list[str],
    status: int,
    said: str,
    tmp_path: Path,
    monkeypatch: pytest.MonkeyPatch,
    capsys: pytest.CaptureFixture[str],
) -> None:
    monkeypatch.chdir(tmp_path)
    usual = ["--map", str(EXAMPLES), "--with", str(EXAMPLES), "--out", "out.csv"]
    assert run(["compare", str(EXAMPLES / "messages.tsv"), *usual, *words]) == status
    assert said in capsys.readouterr().err
    assert os.listdir(tmp_path) == []


def test_a_file_that_is_there_stays(tmp_path: Path, capsys: pytest.CaptureFixture[str]) -> None:
    out = tmp_path / "out.csv"
    out.write_text("mine\n")
    words = ["compare", str(EXAMPLES / "messages.tsv"), "--map", str(EXAMPLES)]
    words += ["--with", str(EXAMPLES), "--out", str(out)]
    assert run(words) == 1
    assert "replace it by --force" in capsys.readouterr().err
    assert out.read_text() == "mine\n"
    assert run([*words, "--force"]) == 0
    assert out.read_text().startswith("record,key,side,change,")
