"""`olr-tools compare`: maps made by changing known roads of another one, and what geometry says of their references."""

import base64
import numpy as np
import os
import pytest
import random
import shutil
from collections import Counter
from collections.abc import Iterable, Sequence
from dataclasses import replace
from pathlib import Path
from typing import Any

from asking import draw_map, draw_references
from compared_maps import ALONG, HALFWAY, STRAIGHT, Pair, at, metres, pairs, road
from conftest import REFERENCE, TOP, Program
from exact_paths import LineGraph, drawn_references
from olr.client.map_client import Map
from olr.comparing.changes import Side, compared
from olr.comparing.places import Limits, Stretch
from olr.counts import Counts
from olr.messages.message import Message
from olr.model.answers import Matching, PlaceOfReference, Places
from olr.model.fault import Fault
from olr.model.map_folder import write_map
from olr.model.pieces import Pieces
from olr.model.road_map import MICRODEGREE, RoadMap
from olr.trials.encoder import text_of as text_of_points
from olr.vector.fields import Fields
from olr.vector.importing import import_vector
from olr.vector.options import Options
from region_maps import Drawing
from vector_files import STREETS

EXAMPLES = TOP / "examples"
KIOSK, UNMATCHED = "KwVGnCN20HPDBwFCATFjT5Y=", "CwVGnSN2zhtnBgEB/2IjAQ=="


@pytest.fixture(autouse=True)
def environment(program: Program, monkeypatch: pytest.MonkeyPatch) -> None:
    """The command finds the program by its environment."""
    monkeypatch.setenv("OLR_PROGRAM", os.fspath(program.path))


def changed(tmp_path: Path, old: Drawing, new: Drawing, *words: object, text: str = ALONG) -> Pair:
    """The rows of one reference on two maps that are drawn."""
    folder = Path(tmp_path, f"maps{len(list(tmp_path.iterdir()))}")
    (pair,) = pairs(old.write(folder / "old"), new.write(folder / "new"), [text], *words)
    return pair


def test_a_road_that_moves(tmp_path: Path) -> None:
    """80 microdegrees to the north are 8.91 m, 100 are 11.13 m."""
    near, far = road((0, 80), (10_000, 80)), road((0, 100), (10_000, 100))
    for one, other in ((road(*STRAIGHT), near), (near, road(*STRAIGHT))):
        old, new = changed(tmp_path, one, other)
        assert (old["change"], old["certainty"]) == ("same", "same")
        assert metres(old, "moved_m", "alone_m") == pytest.approx([8.91, 0], abs=0.01)
        assert metres(new, "alone_m", "agreement") == [0, 1]
    old, new = changed(tmp_path, road(*STRAIGHT), far)
    assert old["change"] == "moved"
    for row in (old, new):
        assert metres(row, "moved_m", "alone_m") == pytest.approx([11.13, 1113.2], abs=0.1)
        assert row["agreement"] == "0.0"
    assert changed(tmp_path, road(*STRAIGHT), far, "--across", 12)[0]["change"] == "same"
    assert changed(tmp_path, road(*STRAIGHT), near, "--across", 8)[0]["change"] == "moved"


@pytest.mark.parametrize(("wide", "lacks"), [(700, 57.92), (1000, 91.32)])
def test_a_detour(wide: int, lacks: float, tmp_path: Path) -> None:
    """22.26 m to the north, and so wide. Of the straight road what lies more than 10 m, 89.83 microdegrees, behind the corners isn't
    near the other one; of the other one all that isn't on the straight road, whose sides lead to another direction.
    """
    detour = road(
        *((0, 0), (4000, 0), (4000, 200), (4000 + wide, 200), (4000 + wide, 0), (10_000, 0))
    )
    alone = (wide + 400) * MICRODEGREE
    old, new = changed(tmp_path, road(*STRAIGHT), detour)
    assert old["change"] == "moved"
    assert metres(old, "moved_m", "alone_m") == pytest.approx([22.26, lacks], abs=0.02)
    assert metres(new, "alone_m") == pytest.approx([alone], abs=0.02)
    # It is longer by its two sides.
    longer = 10_400 * MICRODEGREE
    assert metres(new, "agreement") == pytest.approx([1 - alone / longer], abs=0.001)
    wider = round(alone * 10) + 1
    assert changed(tmp_path, road(*STRAIGHT), detour, "--apart", wider)[0]["change"] == "same"
    assert changed(tmp_path, road(*STRAIGHT), detour, "--apart", wider - 3)[0]["change"] == "moved"


def three_parts(left_out: int | None = None) -> Drawing:
    """The straight road in three parts, one of which may be left out."""
    drawing, ends = Drawing(), [0, 3000, 7000, 10_000]
    for number, (start, end) in enumerate(zip(ends, ends[1:])):
        if number != left_out:
            road((start, 0), (end, 0), drawing=drawing)
    return drawing


@pytest.mark.parametrize(
    ("left_out", "reason"), [(0, "point 1"), (1, "leg 1"), (2, "point 2"), (None, "point 1")]
)
def test_a_road_that_is_removed_or_added(left_out: int | None, reason: str, tmp_path: Path) -> None:
    """A part of it, or all of it: another road is 1.1 km to the north."""
    elsewhere = road((0, 10_000), (10_000, 10_000))
    whole, less = three_parts(), elsewhere if left_out is None else three_parts(left_out)
    road((0, 10_000), (10_000, 10_000), drawing=whole)
    old, new = changed(tmp_path, whole, less)
    assert (old["change"], old["certainty"], old["verdict"]) == ("lost", "", "unique")
    assert (new["verdict"], new["reason"], new["lines"]) == ("none", reason, "")
    assert (old["reason"], old["lines"], old["outer_m"]) == ("", "1;3;5", "1113.3")
    assert (old["agreement"], new["turns_back"], new["total"]) == ("", "", "")
    old, new = changed(tmp_path, less, whole)
    assert (new["change"], new["verdict"], new["reason"]) == ("found", "unique", "")
    assert (old["reason"], old["moved_m"], new["alone_m"]) == (reason, "", "")
    old, new = changed(tmp_path, less, less)
    assert (old["change"], old["reason"], new["reason"]) == ("none", reason, reason)


def test_the_remedy_of_what_is_lost(tmp_path: Path) -> None:
    """The only road left is 150 m away: a radius of 151 m reaches it."""
    far = road((0, 1348), (10_000, 1348))
    old, new = changed(tmp_path, road(*STRAIGHT), far)
    assert (new["change"], new["reason"], new["remedy"]) == ("lost", "point 1", "radius 151")
    assert (old["reason"], old["remedy"]) == ("", "")


def test_what_changes_without_the_road(tmp_path: Path) -> None:
    """New nodes, other ids, and lengths that are a tenth longer."""
    others = Drawing()
    for east in range(7):
        road((east, 20_000), (east, 30_000), drawing=others)
    road(*STRAIGHT, drawing=others)
    longer = Drawing()
    longer.line(at(0, 0), at(10_000, 0), length=12_245)
    for new in (three_parts(), others, longer):
        old, found = changed(tmp_path, road(*STRAIGHT), new)
        assert (old["change"], old["certainty"], old["agreement"]) == ("same", "same", "1.0")
        assert metres(old, "moved_m", "alone_m") == pytest.approx([0, 0], abs=0.02)
        assert old["lines"] != found["lines"] or new is longer
    assert found["outer_m"] == "1224.5"


def test_the_opposite_direction_is_another_place(tmp_path: Path) -> None:
    """A road that is one way now is lost by its direction, and found the other way round."""
    back = Drawing()
    back.line(at(10_000, 0), at(0, 0))
    old, new = changed(tmp_path, road(*STRAIGHT), back)
    assert (new["change"], new["reason"]) == ("lost", "point 1")
    old, new = changed(tmp_path, back, road(*STRAIGHT))
    assert (new["change"], old["reason"]) == ("found", "point 1")


def test_another_road_fits_as_well(tmp_path: Path) -> None:
    """A parallel road is 13.36 m away, which costs 13 points at each end. Of class 3 it is a second place, with a gap of 26; of class 5
    it costs 20 more at each end."""
    single, lesser, equal = (road(*STRAIGHT) for _ in range(3))
    road((0, 120), (10_000, 120), drawing=lesser, road_class=5)
    road((0, 120), (10_000, 120), drawing=equal, road_class=3)
    old, new = changed(tmp_path, lesser, equal)
    assert (old["change"], old["certainty"], old["moved_m"]) == ("same", "less", "0.0")
    assert (old["verdict"], old["margin"], old["total"]) == ("unique", "66", "0")
    assert (new["verdict"], new["margin"], new["total"]) == ("ambiguous", "26", "0")
    old, new = changed(tmp_path, equal, lesser)
    assert (old["change"], old["certainty"]) == ("same", "more")
    old, new = changed(tmp_path, equal, equal)
    assert (old["change"], old["certainty"]) == ("same", "same")
    # Verdicts are those within what is asked for, however long the list is by which places are judged.
    old, new = changed(tmp_path, lesser, equal, "--within", 25)
    assert (new["verdict"], new["margin"], new["certainty"]) == ("unique", "26", "same")
    old, new = changed(tmp_path, lesser, equal, "--within", 66)
    assert (old["verdict"], old["margin"], old["certainty"]) == ("ambiguous", "66", "same")
    # One matching is all of the single road, and not of two.
    old, new = changed(tmp_path, single, equal, "--look", 1)
    assert (old["verdict"], new["verdict"], old["certainty"]) == ("unique", "open", "less")
    old, new = changed(tmp_path, equal, single, "--look", 1)
    assert (old["certainty"], new["margin"]) == ("more", "")


def test_the_likeliest_place_is_compared(tmp_path: Path) -> None:
    """Of a parallel road 13.36 m away that is as long as the reference says, and one through its points that is 10 percent longer. The
    first one costs 26 points, the second one some hundred for its length, a fifth of which counts.
    """
    both, near, far = Drawing(), Drawing(), Drawing()
    for drawing in (both, near):
        drawing.line(at(0, 0), at(10_000, 0), length=12_245)
    for drawing in (both, far):
        drawing.line(at(0, 120), at(10_000, 120), length=11_133)
    old, new = changed(tmp_path, both, near, "--within", 200)
    assert (old["change"], old["agreement"], old["certainty"]) == ("same", "1.0", "more")
    assert (old["lines"], old["verdict"], old["total"]) == ("1", "ambiguous", new["total"])
    assert int(old["margin"]) == int(old["total"]) - 26
    # By their totals it is the second one, and not within 50 points of the first one: it is shown nevertheless.
    old, new = changed(tmp_path, both, far)
    assert (old["change"], old["agreement"], old["verdict"]) == ("moved", "0.0", "unique")
    assert (old["lines"], new["total"]) == ("1", "26")


@pytest.mark.parametrize(
    ("verdicts", "certainty"),
    [
        (("unique", "unique"), "same"),
        (("unique", "open"), "less"),
        (("unique", "ambiguous"), "less"),
        (("open", "unique"), "more"),
        (("open", "open"), "same"),
        (("open", "ambiguous"), "same"),
        (("ambiguous", "unique"), "more"),
        (("ambiguous", "open"), "same"),
        (("ambiguous", "ambiguous"), "same"),
    ],
)
def test_certainty(verdicts: tuple[Any, Any], certainty: str) -> None:
    matching = Matching("0:1.1", (), (), Pieces([]), 0)
    sides = [
        Side(Places(1, (PlaceOfReference(0, matching, 1),), verdict), Stretch(LINE))
        for verdict in verdicts
    ]
    found = compared(Message(1, None, ""), sides[0], sides[1], Limits(10, 75))
    assert (found.change, found.certainty) == ("same", certainty)
    assert found.is_changed() == (certainty != "same")


LINE = np.array([[0.0, 0.0], [0.0, 1.0]])


@pytest.mark.parametrize(
    ("east", "north", "change"),
    [(0, 0, "same"), (1300, 0, "same"), (1400, 0, "moved"), (0, 80, "same"), (0, 100, "moved")],
)
def test_a_point_along_a_line(east: int, north: int, change: str, tmp_path: Path) -> None:
    """A road that begins farther on takes the point halfway to its end half as far with it: 72.4 m, and 77.9 m."""
    shifted = road((east, north), (10_000 + east, north))
    old, new = changed(tmp_path, road(*STRAIGHT), shifted, "--radius", 200, text=HALFWAY)
    assert old["change"] == change
    assert metres(old, "moved_m") == pytest.approx([(east / 2 + north) * MICRODEGREE], abs=0.5)
    assert (old["alone_m"], new["alone_m"]) == ("", "")
    # Of both roads as much is in the other one; and 10 m around its end, unless it is farther away.
    shared = 0 if north == 100 else 1 if east == 0 else 1 - (east * MICRODEGREE - 10) / 1113.2
    assert metres(old, "agreement") == pytest.approx([shared], abs=0.001)


def test_a_location_that_is_nothing(tmp_path: Path) -> None:
    """Both offsets are at least 255 of 256 parts of the only leg, so that the location has no outer part, on whatever road."""
    data = base64.b64decode(ALONG)
    nothing = base64.b64encode(data[:-1] + bytes([data[-1] | 0x60, 255, 255])).decode()
    old, new = changed(tmp_path, road(*STRAIGHT), road((0, 100), (10_000, 100)), text=nothing)
    for row in (old, new):
        assert (row["change"], row["certainty"], row["lines"]) == ("same", "same", "")
        assert (row["moved_m"], row["alone_m"], row["outer_m"]) == ("", "0.0", "0.0")
        assert row["agreement"] == ""


def test_a_fault_of_one_map_alone(tmp_path: Path, capsys: pytest.CaptureFixture[str]) -> None:
    """More than 64 roads near both points of a reference on one map, and a text that is none."""
    crowded = road(*STRAIGHT)
    for north in range(20, 700, 10):
        crowded.line(at(0, north), at(10_000, north))
    one, other = road(*STRAIGHT).write(tmp_path / "one"), crowded.write(tmp_path / "other")
    for old, new, which in ((one, other, "new"), (other, one, "old"), (other, other, "both")):
        first, second = pairs(old, new, [ALONG, "CwVGnSN2zhvHCgDX"])
        shown = capsys.readouterr().out.splitlines()
        assert [first[0]["change"], second[0]["change"]] == ["refused", "refused"]
        assert [row["fault"] for row in second] == ["BadLength 12"] * 2
        faults = [row["fault"] for row in first]
        wanted = [which in (side, "both") for side in ("old", "new")]
        assert faults == ["TooManyCandidates 1" if it else "" for it in wanted]
        refusing = "both maps" if which == "both" else f"the {which} map alone"
        assert f"refused by {refusing}, TooManyCandidates: 1" in shown
        assert "refused by both maps, BadLength: 1" in shown
    assert [row["lines"] for row in pairs(one, other, [ALONG])[0]] == ["1", ""]


def test_no_reason_is_said(tmp_path: Path, monkeypatch: pytest.MonkeyPatch) -> None:
    """A reference that is lost stays lost where `why` is refused, as on a store that has too large a region for it."""
    answers = Map.answers

    def refusing(asked: Map, what: Any, texts: Iterable[str], **numbers: int) -> Any:
        if what == "why":
            return iter([Fault("RegionTooLarge") for _ in texts])
        return answers(asked, what, texts, **numbers)

    monkeypatch.setattr(Map, "answers", refusing)
    elsewhere = road((0, 10_000), (10_000, 10_000))
    old, new = changed(tmp_path, road(*STRAIGHT), elsewhere)
    assert (old["change"], old["fault"], old["lines"]) == ("lost", "", "1")
    assert (new["verdict"], new["reason"], new["fault"]) == ("none", "", "RegionTooLarge")


def moved_ids(road_map: RoadMap) -> RoadMap:
    """A map with other ids, in the same order."""
    nodes = [node._replace(id=3 * node.id + 7) for node in road_map.nodes]
    lines = [
        line._replace(id=3 * line.id + 7, start=3 * line.start + 7, end=3 * line.end + 7)
        for line in road_map.lines
    ]
    bans = [
        ban._replace(first=3 * ban.first + 7, second=3 * ban.second + 7) for ban in road_map.bans
    ]
    return RoadMap(nodes, lines, bans)


def assert_all_the_same(rows: Sequence[Pair], count: int) -> None:
    """That no place has changed, and so many references have one."""
    assert Counter(old["change"] for old, _ in rows)["same"] >= count
    for old, new in rows:
        assert old["change"] in ("same", "none", "refused")
        own = {name: value for name, value in old.items() if name not in ("side", "lines")}
        assert own == {name: new[name] for name in own}
        if old["change"] == "same":
            assert (old["certainty"], old["moved_m"], old["agreement"]) == ("same", "0.0", "1.0")
            assert old["alone_m"] in ("0.0", "")


def test_a_map_with_itself(tmp_path: Path) -> None:
    """The example's town, and a drawn map: each reference has the same place."""
    folder = tmp_path / "town"
    shutil.copytree(EXAMPLES, folder)
    rows = pairs(folder, folder, [REFERENCE, KIOSK, UNMATCHED, "CwVF+yN2yhpnBAFdAAsaFg==", "bad"])
    assert [old["change"] for old, _ in rows] == ["same", "same", "none", "same", "refused"]
    assert_all_the_same(rows, 3)
    drawn = draw_map(tmp_path / "drawn" / "map", 800, 1600)
    texts = draw_references(drawn, 300)
    assert_all_the_same(pairs(drawn, drawn, texts), 150)


def test_real_streets(tmp_path: Path) -> None:
    """References to known paths on the streets of Tempe: with other ids, and without the second street of some of the paths."""
    made = import_vector(STREETS, Options(Fields("5", "3", id="ID")), Counts())
    whole = made.road_map
    network = LineGraph(replace(whole, bans=()), turning_back=False)
    drawn = drawn_references(network, 120, random.Random(1), turning_back=False)
    texts = [text_of_points(points) for _, points in drawn]
    without = {id ^ pair for path, _ in drawn[:4] for id in path[1:2] for pair in (0, 1)}
    kept = [line for line in whole.lines if line.id not in without]
    bans = [ban for ban in whole.bans if not without.intersection(ban)]
    less = RoadMap(whole.nodes, kept, bans)
    for name, road_map in (("old", whole), ("ids", moved_ids(whole)), ("less", less)):
        write_map(road_map, tmp_path / name, made.about)
    assert_all_the_same(pairs(tmp_path / "old", tmp_path / "ids", texts), 110)
    rows = pairs(tmp_path / "old", tmp_path / "less", texts)
    for old, new in rows:
        lines = [int(line) for line in old["lines"].split(";") if line]
        # Of the first and the last line a place may have a few metres.
        whole_ones = without.intersection(lines[1:-1])
        longest = max([0.0, *(network.by_id[id].length / 10 for id in whole_ones)])
        if not without.intersection(lines):
            assert old["change"] in ("same", "none")
            assert old["agreement"] in ("1.0", "")
        elif longest > 100:
            assert old["change"] in ("lost", "moved")
            assert old["agreement"] != "1.0"
    changes = Counter(old["change"] for old, _ in rows)
    assert changes["same"] > 50 and changes["moved"] + changes["lost"] > 15
