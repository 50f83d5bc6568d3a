"""Scenes that a page makes by itself: beside those that the server makes of the same answers of the program."""

import base64
import json
import pytest
import random
from collections.abc import Mapping, Sequence
from pathlib import Path
from typing import Any, NamedTuple

from alone import Scripts
from asking import draw_map, draw_references
from blocks import Block, block
from browser import Browser
from confidences import FEED as TOLD
from confidences import write_confidence
from conftest import TOP, Program
from olr.asking.program import SHIPPED
from olr.confidence.confidence import Confidence, Range
from olr.model.fault import Fault
from olr.model.objects import raw_line
from olr.model.questions import NUMBERS, TOLERANCES, What
from olr.model.reference import NEGATIVE, POSITIVE
from olr.pages.alone.tables import tables
from olr.pages.view.scene import fits
from olr.serving import scene_texts
from olr.serving.queries import asked_of
from olr.serving.tasks import AroundTask, SceneTask
from olr.serving.wanted import likely_of, shaped
from region_maps import EAST, WEST, Point, hostile_map, hostile_text, text_of

MAKE = """
cases.map((one) => {
  const read = ({ answer, fault }) => (answer === null ? fault : exactJson(answer));
  const [candidates, places, page, why] = [one.candidates, one.places, one.page, one.why].map(read);
  const fits = fitsSomewhere(places, page);
  const answers = { show: exactJson(one.show), candidates, places, page, why: fits ? null : why };
  const scene = sceneOf({ ...one, ...answers, tables });
  const about = { fits, box: boxOf(scene), cursor: scene.entries.length ? scene.entries[0].cursor : null };
  const notes = notesOf(one.legs && exactJson(one.legs), one.numbers.lowest, tables.near);
  return { ...about, scene: Object.assign(scene, notes, linesDrawn(exactJson(one.lines))) };
})
"""
"""Scenes of what the program answers, each with whether there is a place, the box around it, and the first cursor."""
KIOSK = "KwVGnCN20HPDBwFCATFjT5Y="
Json = dict[str, Any]


@pytest.fixture(scope="module")
def alone(browser: Browser) -> Scripts:
    """The scripts."""
    return Scripts(browser)


class MapAsked(NamedTuple):
    """A map about which the program is asked."""

    program: Program
    folder: Path

    def lines(
        self, what: What, options: Mapping[str, str], texts: Sequence[str], confidence: Confidence
    ) -> list[bytes]:
        """What the program answers about references, asked as by the server."""
        names = {"profile", *tables()["tolerances"], *NUMBERS[what]}
        own = {name: value for name, value in options.items() if name in names}
        kind = asked_of(what, own, 1_000_000)
        words = list(shaped(likely_of(kind)).words)
        words += ["--confidence", str(confidence.file)] if what == "places" else []
        records = self.folder / "records.tsv"
        records.write_text("".join(f"{text}\n" for text in texts))
        ended = self.program.run("batch", what, "--map", self.folder, *words, "--input", records)
        lines = ended.stdout.encode().splitlines()
        assert len(lines) == len(texts), ended.stderr
        return lines

    def cases(
        self,
        texts: Sequence[str],
        options: Mapping[str, str],
        confidence: Confidence | None = None,
        map_name: str | None = "town",
    ) -> list[tuple[Json, Json]]:
        """What the scripts are given for each reference that is one, and the scene of the server."""
        shown = [(text, self.program.run("show", "--format", "json", "--", text)) for text in texts]
        known = [(text, ended.stdout.encode()) for text, ended in shown if ended.returncode == 0]
        asked, sure = [text for text, _ in known], confidence or Confidence.default()
        rows = zip(*(self.lines(what, options, asked, sure) for what in NUMBERS), strict=True)
        return [
            self._case(*about, dict(zip(NUMBERS, map(raw_line, row))), options, sure, map_name)
            for about, row in zip(known, rows, strict=True)
        ]

    def _case(
        self,
        text: str,
        said: bytes,
        raw: Mapping[What, Any],
        options: Mapping[str, str],
        confidence: Confidence,
        map_name: str | None,
    ) -> tuple[Json, Json]:
        read = {
            what: one.answer if one.fault is None else Fault(one.fault) for what, one in raw.items()
        }
        numbers = asked_of("places", options, 1_000_000).numbers()
        answers = (text, said, read["candidates"], read["places"], read["match"])
        task = SceneTask(numbers, confidence, *answers, read["why"], map_name, None)
        answered = scene_texts._answered(task)
        task = task._replace(why=None) if fits(answered) else task
        given = {
            "reference": text,
            "show": said.decode(),
            **{
                name: {"answer": None if raw[what].fault else raw[what].answer.decode()}
                | {"fault": raw[what].fault}
                for name, what in zip(("candidates", "page", "places", "why"), NUMBERS)
            },
            "confidence": json.loads((confidence.file or SHIPPED).read_text()),
            "numbers": numbers,
            "mapName": map_name,
        }
        first, scene = scene_texts.text_of(task).split(b"\n")
        box, cursor = json.loads(first)
        legs = None if cursor is None else self._legs(text, cursor, numbers)
        lines = self._said("lines", "--box", ",".join(map(str, box)), "--shape")
        around = AroundTask(scene, legs, lines, numbers["lowest"])
        whole = json.loads(scene_texts.with_surroundings(around))
        expected = {"fits": task.why is None, "box": box, "cursor": cursor}
        given |= {"legs": legs and legs.decode(), "lines": lines.decode()}
        return given, expected | {"scene": with_texts(whole)}

    def _legs(self, text: str, cursor: str, numbers: Mapping[str, int]) -> bytes:
        """What the program says of the legs of a matching."""
        tolerances = [word for name in TOLERANCES for word in (f"--{name}", str(numbers[name]))]
        words = [*tolerances, "--near", "15", "--at", cursor, "--format", "geojson"]
        return self._said("legs", *words, "--", text)

    def _said(self, what: str, *words: str) -> bytes:
        """What the program prints about the map."""
        ended = self.program.run(what, "--map", self.folder, *words)
        assert ended.returncode == 0, ended.stderr
        return ended.stdout.strip().encode()


def with_texts(scene: Json) -> Json:
    """A scene with ids as texts."""
    near = scene["why"]["near"] if scene["why"] else []
    for one in [*near, *(one for point in scene["candidates"] for one in point)]:
        one["line"] = str(one["line"])
    for line in scene["lines"]:
        line["id"] = str(line["id"])
    return scene


def assert_same(alone: Scripts, cases: Sequence[tuple[Json, Json]]) -> list[Json]:
    """The scripts make the same scenes, to the last digit. Answers them."""
    found = alone.value(MAKE, cases=[given for given, _ in cases], tables=tables())
    for one, (_, expected) in zip(found, cases, strict=True):
        assert one == expected
        assert list(one["scene"]) == list(expected["scene"])
    return [expected["scene"] for _, expected in cases]


def copied(folder: Path, place: Path, *names: str) -> Path:
    """A folder with some files of another one."""
    place.mkdir()
    for name in names:
        (place / name).write_bytes((folder / name).read_bytes())
    return place


def texts_of(*names: str) -> list[str]:
    """References of the examples."""
    lines = [line for name in names for line in (TOP / "examples" / name).read_text().splitlines()]
    return [*(line.split("\t")[1] for line in lines), KIOSK]


@pytest.mark.parametrize(
    ("names", "options"),
    [
        (("nodes.csv", "lines.csv"), {"profile": "feed"}),
        (
            ("nodes.csv", "lines.csv", "bans.csv"),
            {"profile": "program", "within": "9", "most": "2"},
        ),
        (("nodes.csv", "lines.csv"), {"profile": "program", "radius": "1", "class": "0"}),
        (
            ("nodes.csv", "lines.csv"),
            {"profile": "program", "percent": "0", "slack": "0", "lowest": "7", "look": "1"},
        ),
        (("nodes.csv", "lines.csv"), {"profile": "feed", "apart": "10", "look": "2", "most": "1"}),
    ],
)
def test_the_examples(
    alone: Scripts, program: Program, tmp_path: Path, names: Sequence[str], options: dict[str, str]
) -> None:
    folder = copied(TOP / "examples", tmp_path / "it's the map", *names)
    asked = MapAsked(program, folder)
    cases = asked.cases(texts_of("messages.tsv", "unmatched.tsv"), options, map_name=folder.name)
    scenes = assert_same(alone, cases)
    assert all(scene["command"].split("--map ")[1][0] == "'" for scene in scenes)
    assert {scene["kind"] for scene in scenes} == {"line", "point along line"}
    if options == {"profile": "feed"}:
        assert sum(bool(scene["probability"]) for scene in scenes) >= 4
    if "radius" in options:
        assert any("has no candidate" in scene["why"]["texts"][0] for scene in scenes)


@pytest.mark.parametrize("feed", [None, TOLD])
def test_another_confidence(
    alone: Scripts, program: Program, tmp_path: Path, feed: Json | None
) -> None:
    """It says how different the maps are. A map without a name has no command."""
    folder = copied(TOP / "examples", tmp_path / "map", "nodes.csv", "lines.csv")
    file = write_confidence(tmp_path / "file.json", Range(1.25, 0.35, 12.0), feed)
    confidence = Confidence.of_file(file)
    asked = MapAsked(program, folder)
    cases = asked.cases(texts_of("messages.tsv"), {"profile": "program"}, confidence, None)
    scenes = assert_same(alone, cases)
    word = "seem to" if feed else "that"
    said = f"{word} differ by 1.2 (0.3 to 12.0), 1 as another vendor's."
    assert any(text.endswith(said) for scene in scenes for text in scene["probability"])
    assert {scene["command"] for scene in scenes} == {""}


def test_a_drawn_town(alone: Scripts, program: Program, tmp_path: Path) -> None:
    folder = draw_map(tmp_path / "map", 600, 1200)
    asked = MapAsked(program, folder)
    cases = asked.cases(draw_references(folder, 30), {"profile": "program", "apart": "20"})
    scenes = assert_same(alone, cases)
    assert sum(len(scene["entries"]) for scene in scenes) > 30


@pytest.mark.parametrize("seed", range(4))
def test_hostile_maps(alone: Scripts, program: Program, tmp_path: Path, seed: int) -> None:
    """Far from the equator, and beside the meridian where longitudes are negative."""
    draw = random.Random(seed)
    drawing = hostile_map(draw, draw.choice([0, 45_000_000, -70_000_000]), draw.choice([0, -900]))
    folder = drawing.write(tmp_path / "map")
    asked = MapAsked(program, folder)
    texts = [hostile_text(draw, drawing) for _ in range(8)]
    assert_same(alone, asked.cases(texts, {"profile": "program", "radius": "300", "percent": "80"}))


OF_WORSE_CLASS = "shorter; the reference allows class 3 or better."
NEARLY = "is one of several paths within 1.5 percent: another one is"


@pytest.mark.parametrize(
    ("drawn", "note"),
    [
        (block(middle=True), f"Leg 2 {NEARLY} as short."),
        (block(south=(600, 684)), f"Leg 1 {NEARLY} 8.4 m longer."),
        (block(south=(600, 685)), None),
        (block(south=(600, 2468), behind=120_000), f"Leg 1 {NEARLY} 186.8 m longer."),
        (block(south=(600, 2469), behind=120_000), None),
        (block((190, 190), (190, 196), before=10, behind=10), f"Leg 1 {NEARLY} 0.6 m longer."),
        (
            block((190, 190), (190, 197), before=10, behind=10),
            f"Leg 1 {NEARLY.replace('1.5 percent', '1 m')} 0.7 m longer.",
        ),
        (block((190, 190), (190, 201), before=10, behind=10), None),
        (
            block(south=(600, 500), south_class=5),
            f"Leg 1: a road of class 5 would be 10.0 m {OF_WORSE_CLASS}",
        ),
        (block(south=(600, 501), south_class=5), None),
        (
            block(south=(477, 477), south_class=5, behind=20_000),
            f"Leg 1: a road of class 5 would be 24.6 m {OF_WORSE_CLASS}",
        ),
        (block(south=(477, 478), south_class=5, behind=20_000), None),
        (block(bans=[(1, 4)]), None),
        (Block(block().drawing, text_of([Point(0, 0, EAST, 1), Point(1000, 0, WEST)])), None),
    ],
)
def test_other_paths(
    alone: Scripts, program: Program, tmp_path: Path, drawn: Block, note: str | None
) -> None:
    """Ways round a block that are as short, longer by so much that it counts or doesn't, or shorter on roads of a worse class; on the second
    leg too. From a place on a line to one further on there is one path."""
    folder = drawn.drawing.write(tmp_path / "map")
    asked = MapAsked(program, folder)
    (scene,) = assert_same(alone, asked.cases([drawn.text], {"profile": "program"}))
    assert scene["notes"] == ([] if note is None else [note])
    assert len(scene["entries"]) >= 1


def test_a_tolerance_for_classes(alone: Scripts, program: Program, tmp_path: Path) -> None:
    drawn = block(south_class=5, south=(600, 500))
    folder = drawn.drawing.write(tmp_path / "map")
    options = {"profile": "program", "lowest": "1"}
    (scene,) = assert_same(alone, MapAsked(program, folder).cases([drawn.text], options))
    assert "the reference and --lowest 1 allow class 4 or better." in scene["notes"][0]


def test_offsets_that_leave_nothing(alone: Scripts, program: Program, tmp_path: Path) -> None:
    """Nothing is covered where both offsets are nearly the whole leg."""
    drawn = block()
    folder = drawn.drawing.write(tmp_path / "map")
    content = bytearray(base64.b64decode(drawn.text))
    content[-1] |= POSITIVE | NEGATIVE
    text = base64.b64encode(content + bytes([250, 250])).decode()
    (scene,) = assert_same(alone, MapAsked(program, folder).cases([text], {"profile": "program"}))
    assert (
        scene["offsets"]
        == "positive offset 250/256 of the first leg, negative offset 250/256 of the last leg"
    )
    assert [(one["outer"], one["length"]) for one in scene["entries"]] == [(None, "")]


def test_too_many_candidates(alone: Scripts, program: Program, tmp_path: Path) -> None:
    """More lines are around than are drawn, too."""
    nodes = ["id,lon,lat", "1,0,0", "2,1000,0"]
    lines = ["id,from,to,class,form,length,shape"]
    lines += [f"{number},1,2,{number % 8},3,1113,500 {number}" for number in range(1, 4011)]
    (tmp_path / "nodes.csv").write_text("\n".join(nodes) + "\n")
    (tmp_path / "lines.csv").write_text("\n".join(lines) + "\n")
    asked = MapAsked(program, tmp_path)
    (scene,) = assert_same(alone, asked.cases(["CwAAAAAAABtoAQBkAAAbGA=="], {"profile": "feed"}))
    assert (scene["cut"], scene["verdict"]["word"]) == (10, "refused")
    assert "more than 64 lines may carry point 1" in scene["verdict"]["text"]
