"""`olr-tools calibrate`: what its files tell of references that weren't trials, and what the command says and refuses."""

import json
import numpy as np
import os
import pytest
import random
import re
import subprocess
import tempfile
from collections.abc import Iterator, Sequence
from itertools import islice
from pathlib import Path
from typing import Any, NamedTuple

from conftest import TOP, Program
from olr.arrays import Floats
from olr.confidence import calibrating
from olr.confidence.calibrating import Wanted, calibrated
from olr.confidence.confidence import Confidence
from olr.confidence.contents import text_of as text_of_file
from olr.confidence.messages import read_line_references
from olr.confidence.parts import (
    Asking,
    Drawing,
    Part,
    answered_by,
    is_right_by_geometry,
    parts_of,
    right_places,
)
from olr.confidence.weights import ORDER, WEIGHTS, differences_of, probabilities
from olr.counts import Counts
from olr.errors import ToolError
from olr.messages.message import Reading
from olr.model.map_folder import read_map, write_map, write_records
from olr.model.profiles import FEED, tolerances_of
from olr.model.road_map import Ban, Line, Node, Position, RoadMap
from olr.osm.importing import Options, import_osm
from olr.tools import run
from olr.trials.changing import Spreads, changed_points
from olr.trials.differing import Difference, differing
from olr.trials.encoder import text_of
from olr.trials.graph import Graph
from olr.trials.paths import Paths
from olr.trials.rightness import is_right
from olr.trials.roads import Roads
from vector_files import write_tempe

TRIALS = 1_000
"""References of a file: few, so that the tests are quick and their margins wide."""
COUNT = 150
KINDS = (Spreads().times(0), Spreads(8, 1, 5, 10, 5), Spreads(25, 2, 15, 20, 10))
VENDOR = Difference(5, 15, 4, 4, 0, 0)
ASKING = Asking(tolerances_of(FEED))


@pytest.fixture(scope="module", autouse=True)
def environment(program: Program) -> Any:
    """The command finds the program by its environment."""
    with pytest.MonkeyPatch.context() as patch:
        patch.setenv("OLR_PROGRAM", os.fspath(program.path))
        yield


@pytest.fixture(scope="module")
def tempe(tmp_path_factory: pytest.TempPathFactory) -> Path:
    """The streets of Tempe."""
    return write_tempe(tmp_path_factory.mktemp("tempe") / "map")


@pytest.fixture(scope="module")
def town(tmp_path_factory: pytest.TempPathFactory) -> Path:
    """A drawn town of some 500 lines."""
    folder = tmp_path_factory.mktemp("town")
    file = folder / "town.osm.pbf"
    words = ["--blocks", "10", "--houses", "1", "--seed", "4", "--out", str(file)]
    script = str(TOP / "bench/generate_osm.py")
    subprocess.run(["/usr/bin/python3", script, *words], check=True, capture_output=True)
    made = import_osm(file, Options(), Counts())
    write_map(made.road_map, folder / "map", made.about)
    return folder / "map"


@pytest.fixture(scope="module", autouse=True)
def trials() -> Iterator[None]:
    """Trials of the same numbers on the same map are drawn and asked once, since they are the same: `test_the_same_seed_gives_the_same_bytes`
    sees that."""
    made: dict[str, list[Part]] = {}

    def kept(road_map: RoadMap, drawing: Drawing, asking: Asking) -> list[Part]:
        like = None if drawing.likeness is None else vars(drawing.likeness)
        tolerances = sorted(asking.tolerances.items())
        words = (drawing._replace(likeness=None), like, asking._replace(tolerances={}), tolerances)
        key = f"{words} {road_map}"
        if key not in made:
            made[key] = list(parts_of(road_map, drawing, asking))
        return made[key]

    with pytest.MonkeyPatch.context() as patch:
        patch.setattr(calibrating, "parts_of", kept)
        yield


class Feed(NamedTuple):
    """References of a sender, and whether the likeliest place of each is right."""

    told: Sequence[float]
    """Of each answer that has a place."""
    right: Sequence[bool]
    confidence: Confidence


def of_vendor(sender: Path, folder: Path) -> Path:
    """Writes the version that another maker has of a map."""
    road_map = read_map(sender)
    other = differing(road_map, Roads(road_map), VENDOR, random.Random(f"{VENDOR}"))
    write_records(other.nodes, other.lines, other.bans, folder)
    return folder


@pytest.fixture(scope="module")
def vendors_tempe(tempe: Path, tmp_path_factory: pytest.TempPathFactory) -> Path:
    """The streets of Tempe, of another maker."""
    return of_vendor(tempe, tmp_path_factory.mktemp("tempe"))


@pytest.fixture(scope="module")
def vendors_town(town: Path, tmp_path_factory: pytest.TempPathFactory) -> Path:
    """The town, of another maker."""
    return of_vendor(town, tmp_path_factory.mktemp("town"))


def feed_of(sender: Path, folder: Path) -> Feed:
    """References on a map, asked of one in a folder, with a file of that one and for these."""
    road_map, other = read_map(sender), read_map(folder)
    draws = random.Random(1)
    graph = Graph(road_map, Roads(road_map))
    drawn = list(islice(Paths(road_map).drawn(graph, draws), COUNT))
    texts = [
        text_of(changed_points(one.points, KINDS[number % 3], draws))
        for number, one in enumerate(drawn)
    ]
    wanted = Wanted(feed=texts, messages=COUNT)
    confidence = calibrated(folder, Drawing(TRIALS), ASKING, wanted)
    with ASKING.map_of(folder) as asked:
        answered = answered_by(asked, texts, ASKING)
    terms = answered.terms
    lengths = {line.id: line.length for line in (*road_map.lines, *other.lines)}
    are_right = [
        is_right(lengths, drawn[owner].path, matching.outer or ())
        for owner, matching in zip(terms.owners().tolist(), answered.matchings)
    ]
    first = terms.first()
    weights = np.array([float(confidence.weights[name]) for name in WEIGHTS])
    told = probabilities(weights, differences_of(terms))
    sums = np.add.reduceat(told.of_place, first)
    assert sums + told.of_none == pytest.approx(1)
    right = right_places(terms, are_right) == first
    return Feed(told.of_place[first].tolist(), right.tolist(), confidence)


@pytest.mark.parametrize(
    ("sender", "name"),
    [
        ("tempe", "tempe"),
        ("vendors_tempe", "tempe"),
        ("vendors_town", "vendors_town"),
        ("town", "vendors_town"),
    ],
)
def test_what_is_told_is_seen(sender: str, name: str, request: pytest.FixtureRequest) -> None:
    """Of references on the map itself and on that of another vendor, by a recipe that no trial has. The margins are wide: 150 references,
    and a tenth of the trials that the command has by default. Both kinds of references are asked of one map, whose trials are drawn
    once: whose of the two maps the sender has doesn't matter."""
    feed = feed_of(request.getfixturevalue(sender), request.getfixturevalue(name))
    told, seen = float(np.mean(feed.told)), float(np.mean(feed.right))
    print(f"{sender} on {name}: told {told:.3f}, seen {seen:.3f} of {len(feed.told)}")
    assert abs(told - seen) < 0.2
    order = np.argsort(feed.told)
    right = np.array(feed.right)[order]
    low, high = right[: len(right) // 3], right[-(len(right) // 3) :]
    assert high.mean() > 0.85
    differs = feed.confidence.map_differs
    assert differs is not None
    if sender != name:
        # The difference of another vendor's map is 1, which lies in the interval.
        assert seen < 0.9 and differs.low <= 1 <= differs.high and low.mean() < high.mean() - 0.2
    else:
        assert seen > 0.9 and differs.low == 0 and differs.value < 0.5
    weights = feed.confidence.weights
    assert all(weights[it] >= 0 for it, weight in WEIGHTS.items() if weight.least == 0)
    assert 0 <= feed.confidence.level < 0.15


def calibrate(folder: Path, out: Path, *words: object) -> int:
    """Runs the command, and answers its status."""
    return run(["calibrate", "--map", str(folder), "--out", str(out), *map(str, words)])


@pytest.fixture(scope="module")
def messages(tempe: Path, tmp_path_factory: pytest.TempPathFactory) -> Path:
    """A hundred messages on the streets of Tempe, and a text that is none."""
    road_map = read_map(tempe)
    paths = Paths(road_map).drawn(Graph(road_map, Roads(road_map)), random.Random(9))
    file = tmp_path_factory.mktemp("messages") / "messages.csv"
    lines = [f"k{number},{text_of(one.points)}\n" for number, one in enumerate(islice(paths, 100))]
    file.write_text("".join(["id,code\n", *lines, "x,?\n"]))
    return file


FOR = ("--ref", "code", "--key", "id", "--references", 100)


def test_the_same_seed_gives_the_same_bytes(
    tempe: Path, messages: Path, tmp_path: Path, monkeypatch: pytest.MonkeyPatch
) -> None:
    monkeypatch.setattr(calibrating, "parts_of", parts_of)
    one, same, other = (tmp_path / name for name in ("one", "same", "other"))
    for file, seed in ((one, 5), (same, 5), (other, 6)):
        assert calibrate(tempe, file, "--for", messages, *FOR, "--seed", seed) == 0
    assert one.read_bytes() == same.read_bytes()
    assert json.loads(one.read_text())["weights"] != json.loads(other.read_text())["weights"]
    assert sorted(tmp_path.iterdir()) == [one, other, same]


def test_what_the_command_says(
    tempe: Path, messages: Path, tmp_path: Path, capsys: pytest.CaptureFixture[str]
) -> None:
    """Each weight with its unit; and the file has all that it was made from."""
    file = tmp_path / "new" / "file.json"
    words = ["--for", messages, *FOR, "--radius", 60, "--apart", 300]
    assert calibrate(tempe, file, *words) == 0
    made = Confidence.of_file(file)
    shown = capsys.readouterr().out.splitlines()
    assert shown[0] == f"{file}: 100 trial references"
    differs = made.map_differs
    assert differs is not None and shown[1] == (
        f"map differs: {differs.value:.1f} ({differs.low:.1f} to {differs.high:.1f}), 1 as that of another vendor"
    )
    counting = re.fullmatch("parts that count: ([3-5]) of 5", shown[2])
    assert counting is not None and round(made.about["counting"]) == int(counting[1])
    assert shown[3:-1] == [
        f"weight {name}: {made.weights[name] / ORDER:.4g} for {weight.unit}"
        for name, weight in WEIGHTS.items()
    ]
    assert len(WEIGHTS) == 9 and shown[-1].startswith("asked with: radius 60 m")
    assert (made.tolerances, made.apart) == ({**tolerances_of(FEED), "radius": 60}, 300)
    about = made.about
    assert (about["references"], about["drawn"], about["seed"], about["right"]) == (
        100,
        100,
        1,
        0.9,
    )
    assert about["map"]["lines"] == 586 and about["feed"]["references"] == 100
    assert len(about["feed"]["statistics"]) > 15 and about["differ"] is None is about["checked"]
    assert sum(part["answers"] for part in about["parts"]) <= 100 and len(about["parts"]) == 5
    assert text_of_file(made) == file.read_text()


def test_a_map_with_few_paths(tmp_path: Path, capsys: pytest.CaptureFixture[str]) -> None:
    """Three roads of 322 m in a row, where a sender's map has 12 paths at most: it is no error, and said once."""
    folder, file = tmp_path / "map", tmp_path / "file.json"
    nodes = [Node(number, Position(4_500 * number, 50_000_000)) for number in range(1, 5)]
    lines = [
        line
        for number in (1, 2, 3)
        for line in (
            Line(2 * number, number, number + 1, 3, 3, 3220, ()),
            Line(2 * number + 1, number + 1, number, 3, 3, 3220, ()),
        )
    ]
    bans = [Ban(2, 3), Ban(5, 4), Ban(4, 5), Ban(7, 6), Ban(3, 2), Ban(6, 7)]
    folder.mkdir()
    write_records(nodes, lines, bans, folder)
    assert calibrate(folder, file, "--references", 60) == 0
    made = Confidence.of_file(file).about
    shown = capsys.readouterr().out.splitlines()
    assert made["references"] == 60 and 3 <= made["drawn"] <= 36 and len(made["parts"]) == 3
    assert shown[:2] == [
        f"{file}: {made['drawn']} trial references",
        "of 60 that were wanted: the map has few such paths",
    ]
    assert sum("few such paths" in line for line in shown) == 1


def test_how_different_maps_are_may_be_stated(tempe: Path, tmp_path: Path) -> None:
    """Without a statement or a feed all parts count alike."""
    differs = []
    cases: dict[str, list[object]] = {
        "same": ["--differ", 0],
        "other": ["--differ", 1],
        "any": [],
    }
    for name, words in cases.items():
        file = tmp_path / name
        assert calibrate(tempe, file, "--references", TRIALS, *words) == 0
        made = Confidence.of_file(file)
        assert made.map_differs is not None
        differs.append(made.map_differs.value)
        counts = {part["counts"] for part in made.about["parts"]}
        assert (len(counts) == 1) == (name == "any")
    assert differs[0] < 0.2 < 0.35 < differs[2] < 0.85 < differs[1]


def test_a_pair_of_maps(tempe: Path, messages: Path, tmp_path: Path) -> None:
    """Of the same map twice hardly a place is wrong, and nothing is said of how different they are. The ids needn't be the same: those of
    the sender's map are others here."""
    road_map = read_map(tempe)
    lines = [line._replace(id=line.id + 7) for line in road_map.lines]
    bans = [ban._replace(first=ban.first + 7, second=ban.second + 7) for ban in road_map.bans]
    folder = tmp_path / "sender"
    folder.mkdir()
    write_records(road_map.nodes, lines, bans, folder)
    file = tmp_path / "pair.json"
    assert calibrate(tempe, file, "--pair", folder, "--for", messages, *FOR) == 0
    made = Confidence.of_file(file)
    assert made.map_differs is None and made.about["pair"] == "sender"
    parts = made.about["parts"]
    assert sum(part["right"] for part in parts) > 0.93 * sum(part["answers"] for part in parts)


def test_checked_answers(
    tempe: Path, messages: Path, tmp_path: Path, capsys: pytest.CaptureFixture[str]
) -> None:
    """Thirty answers that are all said to be wrong make none of these more probable."""
    checked = tmp_path / "checked.csv"
    checked.write_text("key,likeliest\n" + "".join(f"k{number},wrong\n" for number in range(30)))
    made = []
    cases: dict[str, list[object]] = {"one": [], "other": ["--checked", checked]}
    for name, words in cases.items():
        file = tmp_path / name
        assert calibrate(tempe, file, "--for", messages, *FOR, *words) == 0
        made.append(Confidence.of_file(file))
    before, after = made
    about = after.about["checked"]
    assert (about["answers"], about["right"]) == (30, 0) and about["shift"] > 1
    shift = after.weights["none"] - before.weights["none"]
    assert shift / ORDER == pytest.approx(about["shift"], abs=1e-5)
    assert 'checked: 0 of 30 right, which shifts "none of these" by +' in capsys.readouterr().out


def test_one_reference_that_was_checked_often(tempe: Path, messages: Path, tmp_path: Path) -> None:
    """Each answer counts. The file is as a spreadsheet writes it, with a mark of UTF-8."""
    code = messages.read_text().splitlines()[1].split(",")[1]
    feed, checked, file = (tmp_path / name for name in ("feed.csv", "checked.csv", "file.json"))
    feed.write_text("id,code\n" + "".join(f"k{number},{code}\n" for number in range(25)))
    lines = "".join(f"k{number},{'right' if number else 'wrong'}\n" for number in range(25))
    checked.write_text("key,likeliest\n" + lines, encoding="utf-8-sig")
    words = ["--for", feed, *FOR, "--differ", 0, "--checked", checked]
    assert calibrate(tempe, file, *words) == 0
    about = Confidence.of_file(file).about["checked"]
    assert (about["answers"], about["right"]) == (25, 24)


def test_two_messages_with_a_checked_key(messages: Path, tmp_path: Path) -> None:
    """It is refused unless both have one reference."""
    codes = [line.split(",")[1] for line in messages.read_text().splitlines()[1:3]]
    feed, reading = tmp_path / "feed.csv", Reading(ref="code", key="id")
    feed.write_text("id,code\n" + "".join(f"k{at},{codes[at // 2]}\n" for at in (0, 0, 1, 2)))
    keys = {"k0": True, "k1": True, "k2": False}
    assert {
        key: one.text for key, one in read_line_references(feed, reading, keys, 1).by_key.items()
    } == {
        "k0": codes[0],
        "k1": codes[0],
        "k2": codes[1],
    }
    feed.write_text(f"id,code\nk0,{codes[0]}\nk0,{codes[1]}\n")
    assert read_line_references(feed, reading, {}, 1).total == 2
    with pytest.raises(ToolError, match="two messages have the key 'k0'"):
        read_line_references(feed, reading, keys, 1)


@pytest.mark.parametrize(
    ("words", "status", "error"),
    [
        (["--ref", "code"], 2, "--format, --ref, --key and --base64 are for --for"),
        (["--checked", "none"], 2, "--checked is for --for"),
        (["--for", "none"], 1, "none can't be read"),
        (["--pair", "none"], 1, "none/nodes.csv can't be read: No such file"),
        (["--differ", 1, "--pair", "none"], 2, "give one of them"),
        (["--differ", 1.6], 2, "1.6 is not in the range"),
        (["--references", 0], 2, "0 is not in the range"),
        (["--radius", 0], 1, "radius is a whole number of metres"),
        (["--apart", -1], 1, "apart is a whole number of decimetres"),
        (["--profile", "other"], 2, "'other' is not one of"),
        (
            ["--radius", 1, "--bearing", 0, "--class", 0, "--references", 3, "--seed", 4],
            1,
            "no trial reference has a place: give wider tolerances",
        ),
    ],
)
def test_what_is_refused(
    words: list[object],
    status: int,
    error: str,
    tempe: Path,
    tmp_path: Path,
    capsys: pytest.CaptureFixture[str],
) -> None:
    assert calibrate(tempe, tmp_path / "file.json", *words) == status
    shown = capsys.readouterr().err.splitlines()
    assert error in shown[-1] and (status == 2 or len(shown) == 1)
    assert not list(tmp_path.iterdir())


@pytest.mark.parametrize(
    ("lines", "checked", "error"),
    [
        (79, None, "80 line references are needed .* and the feed has 79: say it by --differ"),
        (100, "k1,maybe\n", "line 1 isn't a key, a comma or a tab, and one of right, wrong"),
        (100, "k1\n", "line 1 isn't a key"),
        pytest.param(100, "k1" * 100_000, "line 1 isn't a key", id="a long line"),
        (100, 'k1,right\n"k2,right\nk3,right\n', "line 2 isn't a key"),
        (100, "k1,right\nk2\tright\nk1,wrong\n", "line 3 has the key 'k1' again"),
        (100, "nobody,right\n", "no message with a line reference has the key 'nobody'"),
        (100, "k1,right\nk2,wrong\n", "2 of 2 checked messages have a place, and 20 are needed"),
    ],
)
def test_feeds_and_checked_answers_that_say_too_little(
    lines: int,
    checked: str | None,
    error: str,
    tempe: Path,
    messages: Path,
    tmp_path: Path,
    capsys: pytest.CaptureFixture[str],
) -> None:
    """A feed that is too small is enough where it is stated how different the maps are."""
    feed, out = tmp_path / "feed.csv", tmp_path / "file.json"
    feed.write_text("".join(messages.read_text().splitlines(keepends=True)[: lines + 1]))
    words: list[object] = ["--for", feed, *FOR]
    if checked is not None:
        (tmp_path / "checked").write_text(checked)
        words += ["--checked", tmp_path / "checked"]
    assert calibrate(tempe, out, *words) == 1
    (shown,) = [it for it in capsys.readouterr().err.splitlines() if it.startswith("olr-tools")]
    assert re.search(error, shown) and not out.exists()
    if lines < 80:
        assert calibrate(tempe, out, *words, "--differ", 0.5) == 0


def test_a_place_on_another_map_is_right_by_its_geometry() -> None:
    """Each covers 90 percent of the other one by what lies within 15 m of it, also beyond its ends. A degree is 111,320 m there."""

    def straight(east: float, north: float = 0.0) -> Floats:
        return np.array([(0, north), (east, north)]) / 111_320

    for east, north, is_right_place in (
        (1000, 0, True),
        (910, 14, True),
        (890, 0, True),
        (880, 0, False),
        (1120, 0, True),
        (1135, 0, False),
        (1000, 17, False),
    ):
        assert is_right_by_geometry(straight(1000), straight(east, north)) == is_right_place
    assert not is_right_by_geometry(straight(1000), np.zeros((0, 2)))


def moved(node: Node) -> Node:
    """The node a degree farther to the north."""
    position = node.position
    return node._replace(position=position._replace(lat=position.lat + 1_000_000))


def test_pairs_that_are_none(
    tempe: Path, tmp_path: Path, capsys: pytest.CaptureFixture[str]
) -> None:
    """A sender's map of another region, and one with a ban of a line that it doesn't have."""
    road_map = read_map(tempe)
    nodes = [moved(node) for node in road_map.nodes]
    for bans, error in (
        (road_map.bans, "no trial reference has a place: .* or maps of the same region"),
        ([Ban(1, 10**9)], "sender 1: olr refuses the map: UnknownLine"),
    ):
        folder = tmp_path / f"sender {len(bans)}"
        folder.mkdir()
        write_records(nodes, road_map.lines, bans, folder)
        words = ["--pair", folder, "--references", 40]
        assert calibrate(tempe, tmp_path / "file.json", *words) == 1
        assert re.search(error, capsys.readouterr().err.splitlines()[-1])


def test_no_room_for_scratch_files(
    tempe: Path, tmp_path: Path, capsys: pytest.CaptureFixture[str], monkeypatch: pytest.MonkeyPatch
) -> None:
    monkeypatch.setattr(tempfile, "tempdir", str(tmp_path / "none"))
    assert calibrate(tempe, tmp_path / "file.json", "--references", 40) == 1
    assert "name another folder for scratch files by TMPDIR" in capsys.readouterr().err


@pytest.mark.parametrize("option", ["--map", "--pair"])
def test_a_store(
    option: str, tempe: Path, tmp_path: Path, capsys: pytest.CaptureFixture[str]
) -> None:
    store = tmp_path / "map.gpkg"
    assert run(["regions", str(tempe), "--out", str(store)]) == 0
    capsys.readouterr()
    words = {"--map": str(tempe), option: str(store), "--out": str(tmp_path / "file.json")}
    assert run(["calibrate", *(word for pair in words.items() for word in pair)]) == 1
    assert capsys.readouterr().err.startswith(f"olr-tools: {store} is a store, and calibrate draws")


def test_a_file_that_is_read_is_not_replaced(tempe: Path, messages: Path) -> None:
    assert calibrate(tempe, messages, "--for", messages, *FOR, "--force") == 1
    assert messages.read_text().startswith("id,code\n")
