"""Whether a map is shifted against the points of references: what is found, who says so, and references that are moved."""

import csv
import json
import math
import numpy as np
import os
import pytest
import random
import re
from collections.abc import Iterator
from dataclasses import replace
from itertools import islice
from pathlib import Path
from unittest.mock import patch

from conftest import Program, REFERENCE
from olr.arrays import Floats
from olr.client.map_client import Map
from olr.confidence.calibrating import Wanted, calibrated
from olr.confidence.parts import Asking, Drawing
from olr.confidence.shift import Shift, fitted, shift_found
from olr.messages.message import Reading
from olr.messages.reading import messages_of
from olr.model.map_folder import read_map, write_map
from olr.model.profiles import FEED, tolerances_of
from olr.model.reference import first_position, moved, read_reference
from olr.model.road_map import MICRODEGREE, Position
from olr.tools import run
from olr.trials.changing import Spreads, changed_points
from olr.trials.encoder import text_of
from olr.trials.graph import Graph
from olr.trials.paths import Paths
from olr.trials.roads import Roads
from vector_files import write_tempe

TRUE = Shift(-12.0, -16.0)
"""20 m, 217 degrees from north."""
SAID = "your map seems shifted by 20 m to the south-west of the sender's"
ADVICE = f"{SAID}: match --shift auto moves the references so"
POINT_ALONG_LINE = "KwVGnCN20HPDBwFCATFjT5Y="
COUNT = 120


@pytest.fixture(scope="module", autouse=True)
def environment(program: Program) -> Iterator[None]:
    """The commands find the program by their environment."""
    with pytest.MonkeyPatch.context() as one:
        one.setenv("OLR_PROGRAM", os.fspath(program.path))
        yield


@pytest.fixture(scope="module")
def tempe(tmp_path_factory: pytest.TempPathFactory) -> Path:
    """The streets of Tempe: the sender's map."""
    return write_tempe(tmp_path_factory.mktemp("tempe") / "sender")


@pytest.fixture(scope="module")
def here(tempe: Path) -> Path:
    """The same map, shifted."""
    road_map = read_map(tempe)

    def there(one: Position) -> Position:
        scale = MICRODEGREE * math.cos(math.radians(one.lat / 1e6))
        north = round(TRUE.north / MICRODEGREE)
        return Position(one.lon + round(TRUE.east / scale), one.lat + north)

    nodes = [node._replace(position=there(node.position)) for node in road_map.nodes]
    lines = [one._replace(shape=tuple(map(there, one.shape))) for one in road_map.lines]
    folder = tempe.with_name("here")
    write_map(replace(road_map, nodes=nodes, lines=lines), folder, {})
    return folder


@pytest.fixture(scope="module")
def texts(tempe: Path) -> list[str]:
    """References on the sender's map, of points up to 8 m off each way."""
    road_map, draws = read_map(tempe), random.Random(3)
    drawn = Paths(road_map).drawn(Graph(road_map, Roads(road_map)), draws)
    spreads = Spreads(8, 1, 5, 10, 5)
    return [text_of(changed_points(one.points, spreads, draws)) for one in islice(drawn, COUNT)]


@pytest.fixture(scope="module")
def feed(texts: list[str], tempe: Path) -> Path:
    """The same as a file, with a text that is none."""
    file = tempe.with_name("feed.csv")
    file.write_text("key,ref\n" + "".join(f"k{at},{it}\n" for at, it in enumerate([*texts, "?"])))
    return file


def asides(
    true: tuple[float, float], count: int, spread: float, seed: int, directions: float = math.pi
) -> tuple[Floats, Floats]:
    """Directions across so many lines, which vary by so much, and how far they lie aside of points that are off by a normal spread."""
    draws = np.random.default_rng(seed)
    angles = draws.uniform(0, directions, count)
    across = np.stack([np.cos(angles), np.sin(angles)], axis=1)
    result: Floats = across @ np.array(true) + draws.normal(0, spread, count)
    return across, result


@pytest.mark.parametrize("true", [(14.0, -5.0), (-20.0, 0.0), (0.0, 4.0)])
def test_a_shift_that_lines_show(true: tuple[float, float]) -> None:
    """It is found within five standard errors of a least-squares fit, though a quarter of the points lie on other lines to one side."""
    across, found = asides(true, 400, 3.0, 1)
    found[::4] += 40 * np.sign(found[::4])
    shift = fitted(across, found)
    assert shift is not None and math.dist(shift, true) < 5 * 3.0 / math.sqrt(300 / 2)


def test_no_shift_is_certain() -> None:
    """Of too few points, of lines in one direction, of a shift of less than three metres, of points that are off by much besides, and of what may be due to chance."""
    assert fitted(*asides((14, -5), 50, 3, 2)) is not None
    assert fitted(*asides((14, -5), 49, 3, 2)) is None
    assert fitted(*asides((14, -5), 400, 3, 2, directions=1.2)) is not None
    assert fitted(*asides((14, -5), 400, 3, 2, directions=0.6)) is None
    assert fitted(*asides((0, 3.3), 4000, 3, 2)) is not None
    assert fitted(*asides((0, 2.7), 4000, 3, 2)) is None
    assert fitted(*asides((20, 0), 4000, 11, 2)) is not None
    assert fitted(*asides((20, 0), 4000, 13, 2)) is None
    assert all(fitted(*asides((0, 4), 60, 25, seed)) is None for seed in range(5))
    assert all(fitted(*asides((0, 0), 60, 25, seed)) is None for seed in range(200))
    assert fitted(np.zeros((0, 2)), np.zeros(0)) is None


def test_the_words_of_a_shift() -> None:
    words = ["north", "north-east", "east", "south-east", "south", "south-west", "west"]
    for number, word in enumerate([*words, "north-west", "north"]):
        for off in (-22, 0, 22):
            angle = math.radians(45 * number + off)
            shift = Shift(9.6 * math.sin(angle), 9.6 * math.cos(angle))
            assert str(shift) == f"10 m to the {word}"
    assert TRUE.sentence() == SAID


def test_points_of_a_path_are_moved() -> None:
    """By metres: at 60 degrees twice as many degrees to the east as to the north."""
    found = Shift(111.32, 111.32).applied(np.array([[7.0, 60.0], [8.0, 0.0]]))
    assert found == pytest.approx(np.array([[7.002, 60.001], [8.001, 0.001]]), abs=1e-9)


def test_what_is_found_of_maps(here: Path, tempe: Path, texts: list[str]) -> None:
    """The shift of one, and none of the sender's own. Too few references, texts that are none, and no references show none either."""
    with Map.of_folder(here) as asked:
        found = shift_found(asked, [*texts, "?", POINT_ALONG_LINE])
        assert found is not None and math.dist(found, TRUE) < 1.5
        assert shift_found(asked, texts[:10]) is shift_found(asked, []) is None
        assert shift_found(asked, ["?"] * 60) is None
        moved_so = [moved(text, *found) for text in texts]
        assert shift_found(asked, moved_so) is None
    with Map.of_folder(tempe) as asked:
        assert shift_found(asked, texts) is None
        # Farther away than lines are looked for.
        assert shift_found(asked, [moved(text, 80, 80) for text in texts]) is None


@pytest.mark.parametrize("text", [REFERENCE, POINT_ALONG_LINE])
@pytest.mark.parametrize(("east", "north"), [(-12.0, -16.0), (700.0, 3.0), (0.0, 0.0)])
def test_a_reference_that_is_moved(text: str, east: float, north: float) -> None:
    """All of its points lie farther by as much, to half a step of the format, and nothing else is another."""
    before, after = read_reference(text), read_reference(moved(text, east, north))
    assert before is not None and after is not None
    steps = {
        ((b.lon - a.lon) * math.cos(math.radians(49.87)), b.lat - a.lat)
        for a, b in zip(before.points, after.points)
    }
    assert len({round(lat) for _, lat in steps}) == 1
    for lon, lat in steps:
        assert abs(lon * MICRODEGREE - east) < 1.3 and abs(lat * MICRODEGREE - north) < 1.3
    same = [replace(a, lon=b.lon, lat=b.lat) for a, b in zip(before.points, after.points)]
    assert replace(before, points=tuple(same)) == after


def test_texts_that_are_not_moved() -> None:
    """What isn't a reference stays as it is; and no point is moved beyond longitude 180."""
    for text in ("", "?", "CwVF", "CwVF/yN2yRpnBAFUAAgbpwYBAf9kK0F"):
        assert moved(text, 20, 20) == text
    edge = first_position(moved(REFERENCE, 180 * 111_320.0, -16.0))
    assert edge == (180_000_000 - 32, 49_871_095)
    assert moved(f" {REFERENCE}\n", 0, 0) == REFERENCE


def test_check(
    here: Path, tempe: Path, feed: Path, tmp_path: Path, capsys: pytest.CaptureFixture[str]
) -> None:
    """The last line is about the shift; a map with faults isn't asked."""
    assert run(["check", str(here)]) == 0
    plain = capsys.readouterr().out
    assert run(["check", str(here), "--with", str(feed), "--ref", "ref"]) == 0
    assert capsys.readouterr().out == f"{plain}{ADVICE}\n"
    assert run(["check", str(tempe), "--with", str(feed)]) == 0
    assert capsys.readouterr().out.splitlines()[-1] == "no shift is certain"
    assert run(["check", str(here), "--ref", "ref"]) == 2
    assert "--format, --ref, --key and --base64 are for --with" in capsys.readouterr().err
    assert run(["check", str(here), "--with", str(tmp_path / "none")]) == 1
    assert capsys.readouterr().out == ""
    (tmp_path / "nodes.csv").write_text("no header\n")
    assert run(["check", str(tmp_path), "--with", str(feed)]) == 1
    assert capsys.readouterr().out.splitlines()[-1].startswith("faults ")


def test_report(
    here: Path, tempe: Path, feed: Path, tmp_path: Path, capsys: pytest.CaptureFixture[str]
) -> None:
    """The summary and the page say it, and of a map without a shift neither does."""
    for folder, count in ((here, 1), (tempe, 0)):
        page = tmp_path / f"{count}.html"
        words = ["report", str(feed), "--map", str(folder), "--out", str(page)]
        assert run(words) == 0
        assert capsys.readouterr().out.splitlines().count(ADVICE) == count
        assert page.read_text().count(f"Y{ADVICE[1:]}.") == count
    assert run([*words, "--force", "--map", str(here), "--rows", "5"]) == 0
    assert SAID not in capsys.readouterr().out


def test_calibrate_for(
    here: Path, tempe: Path, feed: Path, tmp_path: Path, capsys: pytest.CaptureFixture[str]
) -> None:
    """It says the shift of the feed, and its file has it; that of a map without one doesn't."""
    for folder, count in ((here, 1), (tempe, 0)):
        file = tmp_path / f"{count}.json"
        words = ["calibrate", "--map", str(folder), "--for", str(feed), "--references", "40"]
        assert run([*words, "--out", str(file)]) == 0
        assert capsys.readouterr().out.splitlines().count(ADVICE) == count
        about = json.loads(file.read_text())["about"]
        assert ("shift" in about) == bool(count)
        if count:
            assert math.dist((about["shift"]["east"], about["shift"]["north"]), TRUE) < 1.5


def test_calibrate_with_a_pair(
    here: Path, tempe: Path, tmp_path: Path, capsys: pytest.CaptureFixture[str]
) -> None:
    """Places are compared with true paths that are moved: nearly all are right, and hardly one without that."""
    file = tmp_path / "pair.json"
    words = ["calibrate", "--map", str(here), "--pair", str(tempe), "--references", "300"]
    assert run([*words, "--out", str(file)]) == 0
    said = f"{SAID}: true paths are moved so before they are compared"
    assert said in capsys.readouterr().out.splitlines()
    parts = json.loads(file.read_text())["about"]["parts"]
    assert sum(it["right"] for it in parts) > 0.85 * sum(it["answers"] for it in parts)
    with patch("olr.confidence.parts.shift_found", lambda *_: None):
        asking, wanted = Asking(tolerances_of(FEED)), Wanted(pair=tempe)
        about = calibrated(here, Drawing(100), asking, wanted).about
    assert sum(it["right"] for it in about["parts"]) < 0.2 * about["drawn"]


def rows(file: Path) -> list[dict[str, str]]:
    """The rows of a table."""
    with file.open(newline="") as stream:
        return list(csv.DictReader(stream))


def test_match(
    here: Path,
    tempe: Path,
    feed: Path,
    texts: list[str],
    tmp_path: Path,
    capsys: pytest.CaptureFixture[str],
) -> None:
    """With `auto` references are moved by what is found, so that the places are nearly those of the sender's map; what is kept of a message is
    as it was. The same shift in metres gives the same file."""
    words = ["match", str(feed), "--places", "--keep", "ref"]

    def lines_of(folder: Path, *more: str) -> list[str]:
        file = tmp_path / "out.csv"
        assert run([*words, "--map", str(folder), "--force", "--out", str(file), *more]) == 0
        found = {it["key"]: it for it in rows(file)[::-1]}
        assert [found[f"k{at}"]["ref"] for at in range(COUNT)] == texts
        return [found[f"k{at}"]["lines"] for at in range(COUNT)]

    wanted, plain = lines_of(tempe), lines_of(here)
    assert "points" not in capsys.readouterr().out
    auto = lines_of(here, "--shift", "auto")
    said = re.search(
        "(?m)^points moved by 20 m to the south-west: --shift (.*)$", out := capsys.readouterr().out
    )
    assert said is not None and out.count("points moved") == 1
    east, north = map(float, said[1].split(","))
    assert math.dist((east, north), TRUE) < 1.5
    same = [sum(a == b for a, b in zip(wanted, some)) for some in (plain, auto)]
    assert same[0] + 3 < same[1] > 0.95 * COUNT
    assert lines_of(here, "--shift", said[1]) == auto
    assert f"points moved by 20 m to the south-west: --shift {said[1]}\n" in capsys.readouterr().out
    assert lines_of(tempe, "--shift", "auto") == wanted
    assert "points not moved: no shift is certain\n" in capsys.readouterr().out


def test_every_question_is_about_what_was_moved(here: Path, feed: Path) -> None:
    """They are moved when they are read: in every form of base64, and none that is refused."""
    reading = Reading(shift=(-12.0, -16.0))
    before, after = (list(messages_of(feed, one)) for one in (Reading(), reading))
    assert [one.reference for one in after] == [moved(it.reference, -12, -16) for it in before]
    assert before[0].reference != after[0].reference and after[-1].reference == "?"


@pytest.mark.parametrize(
    ("words", "error"),
    [
        (["--shift", "5"], "auto or two numbers are needed, in metres from -1000 to 1000"),
        (["--shift", "5,x"], "auto or two numbers"),
        (["--shift", "nan,1"], "auto or two numbers"),
        (["--shift", "0,-1000.5"], "auto or two numbers"),
        (["--shift", "1,2,3"], "auto or two numbers"),
    ],
)
def test_what_is_refused(
    words: list[str],
    error: str,
    here: Path,
    feed: Path,
    tmp_path: Path,
    capsys: pytest.CaptureFixture[str],
) -> None:
    out = tmp_path / "out.csv"
    assert run(["match", str(feed), "--map", str(here), "--out", str(out), *words]) == 2
    assert error in capsys.readouterr().err
    assert not out.exists()


def test_standard_input(
    here: Path, feed: Path, tmp_path: Path, capsys: pytest.CaptureFixture[str]
) -> None:
    """It can't be read twice, so `auto` is refused before anything is asked. A file that isn't there is an error as ever."""
    out, pipe = tmp_path / "out.csv", tmp_path / "pipe"
    os.mkfifo(pipe)
    cases = {"-": "--shift auto reads FILE twice: name a file", str(tmp_path / "none"): "No such"}
    for file, error in {**cases, str(pipe): cases["-"]}.items():
        words = ["match", file, "--map", str(here), "--out", str(out), "--shift", "auto"]
        assert run(words) == (1 if "No such" in error else 2)
        assert error in capsys.readouterr().err
    assert not out.exists()
