"""`olr-tools report --check`: which messages are picked, what the page has and the command says, and what is refused."""

import csv
import os
import pytest
import random
import shlex
from collections.abc import Sequence
from pathlib import Path
from typing import Any

from checked_feed import KEYS, READ, check, make_place
from conftest import REFERENCE, TOP, Program
from feeds import data_of, point_along_line
from olr.client.map_client import Map
from olr.confidence.messages import read_checked, start_of_line
from olr.errors import ToolError
from olr.messages.message import Message
from olr.model.answers import Matching, PlaceOfReference, Places
from olr.model.pieces import Pieces
from olr.pages.checked import picking
from olr.pages.checked.picking import Picked, Picking
from olr.regions.making import make_store_of_folder
from olr.tools import run

REFERENCES = [
    line.split("\t")[1] for line in (TOP / "examples/messages.tsv").read_text().split("\n")[:4]
]
SAMPLE = "a systematic sample by the probability of their likeliest places, drawn with seed 1"
POINT = point_along_line("CwVF+yN2yhpnBAFdAAsaFg==")


@pytest.fixture(scope="module", autouse=True)
def environment(program: Program) -> Any:
    """The command finds the program by its environment."""
    with pytest.MonkeyPatch.context() as patch:
        patch.setenv("OLR_PROGRAM", os.fspath(program.path))
        yield


# ---- which messages


def answer_with(probability: float | None) -> Places:
    """An answer whose likeliest place has a probability; for -1 one without a place."""
    matching = Matching("0:1.1", (), (), Pieces(()), 0)
    millionths = None if probability is None else round(1e6 * probability)
    places = (PlaceOfReference(0, matching, 1, probability=millionths),)
    return Places(1, places if probability != -1 else (), "unique")


def pick(messages: Sequence[tuple[str | None, str, float | None]], wanted: int) -> Picked:
    """Those that are picked of messages: each a key, a reference, and the probability of its likeliest place, -1 for none."""
    made = Picking()
    for record, (key, reference, probability) in enumerate(messages, 1):
        made.add(Message(record, key, reference), answer_with(probability))
    return made.picked(wanted)


def records(found: Picked) -> list[int]:
    """The records of what was picked."""
    return [drawn.message.record for drawn in found.sample]


@pytest.mark.parametrize("most", [20_000, 400])
def test_a_sample_of_all_probabilities(most: int, monkeypatch: pytest.MonkeyPatch) -> None:
    """One of each fortieth of all messages by their probability, or nearly so where not all are held: in another order, so that the first half of
    them is a sample too."""
    monkeypatch.setattr(picking, "MOST", most)
    ranks = list(range(1_000))
    random.Random(4).shuffle(ranks)
    messages = [(f"k{rank}", REFERENCE, rank / 1_000) for rank in ranks]
    found = pick(messages, 40)
    there = [ranks[record - 1] for record in records(found)]
    if most > 1_000:
        assert [rank // 25 for rank in sorted(there)] == list(range(40))
    assert all(abs(rank - (25 * at + 12)) < 100 for at, rank in enumerate(sorted(there)))
    assert 300 < sum(there[:20]) / 20 < 700 and there != sorted(there)
    assert (len(found.sample), found.possible, found.others, found.lines) == (40, 1_000, {}, 1_000)
    assert records(pick(messages, 40)) == records(found)


def test_a_sample_without_probabilities() -> None:
    """It is one by the order of the file."""
    found = pick([(f"k{at}", REFERENCE, None) for at in range(1_000)], 50)
    assert [(record - 1) // 20 for record in sorted(records(found))] == list(range(50))


def test_what_cant_be_checked() -> None:
    """It is counted, each message once; those of one key and one reference are one message."""
    one, two, *_ = REFERENCES
    usual = [(f"k{at}", one, 0.5) for at in range(25)]
    odd: list[tuple[str | None, str, float | None]] = [
        ("x1", "?", -1), ("x2", "?", -1), ("x3", POINT, 0.5),
        (None, one, 0.5), ("", one, 0.5),
        ("x4", one, -1),
        ("x\n5", one, 0.5), ("x\u20286", one, 0.5), ("x\r", one, 0.5), ("x\x0b", one, 0.5),
        ("twice", one, 0.5), ("twice", two, 0.5), ("twice", two, 0.5), ("lost", one, 0.5), ("lost", two, -1),
        ("same", one, 0.5), ("same", one, 0.5), ("same", POINT, 0.5),
    ]  # fmt: skip
    found = pick([*usual, *odd], 100)
    keys = [drawn.message.key for drawn in found.sample]
    assert sorted(filter(None, keys)) == sorted([*(f"k{at}" for at in range(25)), "same"])
    assert found.possible == 26 and found.lines == 25 + len(odd) - 4
    assert found.others == {
        picking.NO_LINE: 4, picking.NO_KEY: 2, picking.NO_PLACE: 2, picking.NOT_ONE_LINE: 4,
        picking.SEVERAL: 4,
    }  # fmt: skip
    assert picking.others_text("can't be checked: ", found.others).startswith(
        "can't be checked: 4 have no line reference, 4 have a key that isn't one line of a file, "
        "4 have a key that another reference has too, 2 have no key, 2 have no place"
    )


def test_too_few() -> None:
    """The error says how many calibrate needs, and why others can't be checked."""
    messages: list[tuple[str | None, str, float | None]] = [
        (f"k{at}", REFERENCE, 0.5) for at in range(19)
    ]
    with pytest.raises(ToolError) as caught:
        pick([*messages, (None, REFERENCE, 0.5)], 40)
    assert str(caught.value) == (
        "20 messages or more are needed for calibrate --checked, and 19 can be checked: 1 has no key"
    )
    assert len(pick([*messages, ("k19", REFERENCE, 0.5)], 40).sample) == 20


@pytest.mark.parametrize(
    "key", ["k", *KEYS, "\t", ",", '"', '""', "'", "", " ", "\ufeffk", "right", '"a"\t"b"', "\0"]
)
def test_lines_of_keys(key: str, tmp_path: Path) -> None:
    """What is written is read as that key, in the first line behind the names too."""
    file = tmp_path / "checked.csv"
    start = start_of_line(key)
    file.write_text(f"key,likeliest\n{start}wrong\nother,right\n", encoding="utf-8", newline="")
    assert read_checked(file) == {key: False, "other": True}


@pytest.mark.parametrize("end", ["\n", "\r", "\x0b", "\x0c", "\x1c", "\x85", "\u2028", "\u2029"])
def test_keys_that_no_line_has(end: str) -> None:
    assert start_of_line(f"a{end}b") is start_of_line(f"b{end}") is None


def test_a_key_that_is_longer_than_a_field() -> None:
    """The longest field that is read is a number of all of Python: other tests set it."""
    before = csv.field_size_limit(131_072)
    try:
        assert start_of_line("k" * 200_000) is None
    finally:
        csv.field_size_limit(before)


# ---- the command


@pytest.fixture(scope="module")
def place(tmp_path_factory: pytest.TempPathFactory) -> Path:
    """The map and the feed."""
    return make_place(tmp_path_factory.mktemp("place"))


def test_what_the_command_says(
    place: Path, tmp_path: Path, capsys: pytest.CaptureFixture[str]
) -> None:
    """How many were picked, what can't be checked, and what to do next, as the page says it too."""
    file = tmp_path / "page.html"
    command = "olr-tools calibrate --map tempe --for feed.csv --ref code --key id --checked checked.csv --out confidence.json"
    others = (
        "can't be checked: 60 have no key, 2 have a key that another reference has too, 1 has a key that isn't one line of a file, "
        "1 has no line reference"
    )
    few = "30 were wanted: no more can be checked"
    cases: list[tuple[int, int, list[str]]] = [(20, 20, []), (30, 27, [few])]
    for wanted, count, more in cases:
        assert check(place, file, "--check", wanted, "--force") == 0
        shown = capsys.readouterr().out.splitlines()
        drawn = f"{count} of 27 messages that can be checked: {SAMPLE}"
        assert shown[:-2] == [f"{file}: {drawn}", *more, others]
        assert shown[-2].startswith("asked with: ") and shown[-1] == f"then: {command}"
        data = data_of(file)
        assert len(data["rows"]) == len(data["scenes"]) == count and data["command"] == command
        told = [f"{text[0].upper()}{text[1:]}." for text in (drawn, *more, others)]
        assert data["drawn"] == told
    assert os.fspath(tmp_path) not in file.read_text(encoding="utf-8")
    assert os.fspath(place) not in file.read_text(encoding="utf-8")


def test_the_command_that_is_next(
    place: Path, tmp_path: Path, capsys: pytest.CaptureFixture[str]
) -> None:
    """It has the tolerances and how the messages are read; and of a feed that is too small it says so."""
    feed = tmp_path / "a feed.tsv"
    with (place / "feed.csv").open(encoding="utf-8", newline="") as stream:
        rows = list(csv.reader(stream))[9:29]
    feed.write_text("".join(f"{key}\t{text}\n" for key, text, _ in rows))
    words = [
        "--format",
        "tab",
        "--base64",
        "url",
        "--profile",
        "program",
        "--class",
        6,
        "--look",
        90,
    ]
    given = ["report", feed, "--map", place / "tempe", "--out", tmp_path / "page.html", *words]
    assert run(list(map(str, [*given, "--within", 50, "--check", 20]))) == 0
    shown = capsys.readouterr().out.splitlines()
    assert "systematic sample by the order in the file" in shown[0]
    assert shown[-2].startswith("no probabilities: radius is 100, not 75")
    assert shlex.split(shown[-1].removeprefix("then: ")) == [
        "olr-tools", "calibrate", "--map", "tempe", "--for", "a feed.tsv", "--format", "tab", "--base64", "url",
        "--profile", "program", "--class", "6", "--look", "90", "--differ", "D", "--checked", "checked.csv",
        "--out", "confidence.json",
    ]  # fmt: skip


def test_the_likeliest_place_alone(place: Path, tmp_path: Path) -> None:
    """It is that of the likely order, and nothing says how probable it is."""
    assert check(place, tmp_path / "page.html", "--check", 200, "--keep", "what") == 0
    data = data_of(tmp_path / "page.html")
    texts = [scene["reference"] for scene in data["scenes"]]
    with Map.of_folder(place / "tempe") as asked:
        answers = [asked.places(text, order="likely", detail=True) for text in texts]
    assert max(map(len, answers)) > 1
    for scene, answer, row in zip(data["scenes"], answers, data["rows"], strict=True):
        (entry,) = scene["entries"]
        assert entry["cursor"] == answer.places[0].matching.cursor
        assert entry["outer"] is not None and entry["probability"] == entry["reasons"] == ""
        assert scene["probability"] == [] and set(row) == {"record", "key", "kept", "start"}
    with (place / "feed.csv").open(encoding="utf-8", newline="") as stream:
        read = list(csv.reader(stream))
    assert [[read[row["record"]][0], row["kept"]] for row in data["rows"]] == [
        [row["key"], [f"street {row['record'] - 1} <b>"]] for row in data["rows"]
    ]


@pytest.mark.parametrize(
    ("words", "status", "error"),
    [
        (["--check", 19], 2, "19 is not in the range 20<=x<=1000"),
        (["--check", 1001], 2, "1001 is not in the range 20<=x<=1000"),
        (["--check", 40, "--live"], 2, "leave out --live and --rows"),
        (["--check", 40, "--rows", 10], 2, "leave out --live and --rows"),
        (
            ["--check", 40, "--key", "what"],
            1,
            "needed for calibrate --checked, and 0 can be checked",
        ),
    ],
)
def test_what_is_refused(
    words: list[object],
    status: int,
    error: str,
    place: Path,
    tmp_path: Path,
    capsys: pytest.CaptureFixture[str],
) -> None:
    """Nothing is written then."""
    feed = tmp_path / "feed.csv"
    feed.write_text(f"id,code,what\nk,{REFERENCE},\n")
    out = tmp_path / "page.html"
    given = ["report", feed, "--map", TOP / "examples", *READ, "--out", out, *words]
    assert run(list(map(str, given))) == status
    shown = capsys.readouterr().err
    assert error in shown and (status == 2 or shown.count("\n") == 1)
    assert list(tmp_path.iterdir()) == [feed]


def test_a_store(place: Path, tmp_path: Path, capsys: pytest.CaptureFixture[str]) -> None:
    """No file of checked answers about a store would be taken."""
    store, out = tmp_path / "map.gpkg", tmp_path / "page.html"
    make_store_of_folder(place / "tempe", store)
    given = ["report", place / "feed.csv", "--map", store, *READ, "--out", out, "--check", 40]
    assert run(list(map(str, given))) == 1
    assert "is a store, and calibrate takes checked answers about a map in a folder" in (
        capsys.readouterr().err
    )
    assert not out.exists()
