"""Bans on turning back at dead ends."""

import json
import pytest
import random
from collections.abc import Sequence
from pathlib import Path
from typing import Any

from conftest import Import, Program, Tools
from drawing import Drawing
from olr.counts import Counts
from olr.importing.u_turns import BEYOND, BEYOND_AT_DEAD_ENDS, TOO_MANY, u_turn_bans
from olr.model.answers import ReferencePoint
from olr.model.map_folder import read_map
from olr.model.road_map import Ban, Line, Node, Position, RoadMap
from olr.osm.importing import Options
from olr.tools import run
from olr.trials.encoder import text_of
from test_u_turns import Bans, bans, copy_examples, one_way, two_way


def all_bans(*roads: list[Line], there: Bans = frozenset(), nodes: Sequence[Node] = ()) -> Bans:
    """The bans that are added where turning back is banned at dead ends too."""
    return bans("dead-ends", *roads, there=there, nodes=nodes, dead_ends="ban")


def test_both_ends_of_a_road() -> None:
    assert all_bans(two_way(10, 1, 2)) == {(10, 11), (11, 10)}


def test_a_road_through_a_plain_node() -> None:
    roads = two_way(10, 1, 2), two_way(20, 2, 3)
    usual = bans("dead-ends", *roads)
    ends = {(11, 10), (20, 21)}
    assert all_bans(*roads) == usual | ends
    assert all_bans(*roads, there=usual) == ends


def test_plain_and_allowed_leave_dead_ends_as_they_are() -> None:
    roads = two_way(10, 1, 2), two_way(20, 2, 3)
    assert bans("plain", *roads, dead_ends="ban") == {(10, 11), (21, 20)}
    assert bans("allowed", *roads, dead_ends="ban") == set()


def test_the_only_way_on_from_a_one_way_road_stays() -> None:
    """Line 20 ends at node 2, from which line 11 alone leads on: it doesn't lead back along line 20."""
    assert all_bans(two_way(10, 1, 2), [one_way(20, 3, 2)]) == {(10, 11), (11, 10)}


def test_nothing_leads_on_from_a_one_way_road() -> None:
    assert all_bans([one_way(10, 1, 2)], [one_way(20, 3, 1)]) == set()


def test_equal_roads_side_by_side() -> None:
    """Either of them leads back along the other one too."""
    pair = two_way(10, 1, 2), two_way(20, 1, 2)
    expected = {(a, b) for a in (10, 20) for b in (11, 21)}
    assert all_bans(*pair) == expected | {(b, a) for a, b in expected}


def test_where_turn_restrictions_leave_nothing_but_the_way_back() -> None:
    roads = two_way(10, 1, 2), two_way(20, 2, 3)
    assert (10, 11) not in bans("dead-ends", *roads, there={(10, 20)})
    assert (10, 11) in all_bans(*roads, there={(10, 20)})


def test_a_loop_at_a_dead_end_may_be_driven_around() -> None:
    """Both directions of a turning loop, in one line and cut in two, and one direction. No path turns around in it."""
    east, west = [Position(100, 150)], [Position(-100, 150)]
    nodes = [Node(1, Position(0, 0)), Node(2, Position(0, 300)), Node(9, Position(0, -500))]
    stem = two_way(30, 9, 1)
    around = two_way(10, 1, 1, [*east, Position(0, 300), *west])
    assert all_bans(stem, around, nodes=nodes) == {(30, 31), (31, 30), (10, 11), (11, 10)}
    halves = two_way(10, 1, 2, east), two_way(20, 2, 1, west)
    back = {(10, 11), (11, 10), (20, 21), (21, 20)}
    assert all_bans(stem, *halves, nodes=nodes) == {(30, 31), (31, 30)} | back
    ahead = [one_way(10, 1, 2, east)], [one_way(20, 2, 1, west)]
    assert all_bans(stem, *ahead, nodes=nodes) == {(30, 31), (31, 30)}


def test_directions_that_are_drawn_apart_up_to_a_dead_end() -> None:
    """To turn around the end of an island where the road ends is to turn back, though no line has the reversed shape."""
    nodes = [Node(id, Position(lon, 0)) for id, lon in ((3, -500), (1, 0), (2, 300))]
    island = [
        one_way(10, 1, 2, [Position(50, -15), Position(250, -15)]),
        one_way(20, 2, 1, [Position(250, 15), Position(50, 15)]),
    ]
    roads = two_way(30, 3, 1), island
    usual = bans("dead-ends", *roads, nodes=nodes)
    assert usual == {(20, 10), (30, 31)}
    assert all_bans(*roads, nodes=nodes) == usual | {(10, 20), (31, 30)}


def drawn_roads(draws: random.Random) -> list[Line]:
    """Roads between four nodes, of which some are repeated, by few shapes. None begins where it ends."""
    lines: list[Line] = []
    for number in range(draws.randint(1, 8)):
        start, end = draws.sample(range(1, 5), 2)
        shape = [Position(draws.choice((0, 7)), 500)] * draws.randint(0, 1)
        road = two_way(10 * number + 10, start, end, shape)
        lines += road if draws.random() < 0.7 else road[:1]
    return lines


def test_nothing_turns_back_on_drawn_maps() -> None:
    """Without nodes no angle is known, so lines of the reversed shape alone lead back: all turns into them are banned, and no others. In
    one step or after the usual bans they are the same ones."""
    draws = random.Random(1)
    for _ in range(300):
        lines = drawn_roads(draws)
        back = {
            (a.id, b.id)
            for a in lines
            for b in lines
            if (a.start, a.end, a.shape) == (b.end, b.start, b.shape[::-1])
        }
        turns = sorted((a.id, b.id) for a in lines for b in lines if a.end == b.start)
        there = set(draws.sample(turns, draws.randint(0, min(3, len(turns)))))
        assert all_bans(lines, there=there) == back - there
        usual = bans("dead-ends", lines, there=there)
        assert usual <= back - there
        assert all_bans(lines, there=there | usual) == back - there - usual


def test_dead_ends_come_last_where_there_is_no_room(monkeypatch: pytest.MonkeyPatch) -> None:
    """A main road of class 2 from node 1 over 2 to 3, whose ends are dead, and a side road of class 6 from node 2 over 4 to 5. It is the
    same in one step or two."""
    lines = [
        *two_way(10, 5, 4),
        *two_way(20, 4, 2),
        *two_way(30, 1, 2, road_class=2),
        *two_way(40, 2, 3, road_class=2),
    ]
    junctions = [Ban(10, 11), Ban(20, 21), Ban(21, 20), Ban(30, 31), Ban(41, 40)]
    by_room: list[tuple[int, list[Ban], dict[str, int]]] = [
        (8, [Ban(11, 10), Ban(31, 30), Ban(40, 41)], {}),
        (7, [Ban(31, 30), Ban(40, 41)], {BEYOND_AT_DEAD_ENDS: 1}),
        (5, [], {BEYOND_AT_DEAD_ENDS: 3}),
    ]
    for most, at_dead_ends, beyond in by_room:
        monkeypatch.setattr("olr.importing.u_turns.MOST_BANS", most)
        counts = Counts()
        added = u_turn_bans(RoadMap([], lines), "dead-ends", counts, "ban")
        assert added == sorted([*junctions, *at_dead_ends])
        assert counts.left_out == beyond
        usual = u_turn_bans(RoadMap([], lines), "dead-ends", Counts(), "allow")
        assert usual == junctions
        rest = u_turn_bans(RoadMap([], lines, usual), "dead-ends", Counts(), "ban")
        assert rest == at_dead_ends

    monkeypatch.setattr("olr.importing.u_turns.MOST_BANS", 3)
    counts = Counts()
    added = u_turn_bans(RoadMap([], lines), "dead-ends", counts, "ban")
    assert added == [Ban(20, 21), Ban(30, 31), Ban(41, 40)]
    assert counts.left_out == {BEYOND: 2, BEYOND_AT_DEAD_ENDS: 3}


def test_a_map_that_becomes_a_store_has_room_for_all(monkeypatch: pytest.MonkeyPatch) -> None:
    monkeypatch.setattr("olr.importing.u_turns.MOST_BANS", 1)
    monkeypatch.setattr("olr.model.road_map.MOST_LINES", 1)
    assert all_bans(two_way(10, 1, 2)) == {(10, 11), (11, 10)}


def test_a_road_that_is_repeated_too_often() -> None:
    """Nine records of a road with two dead ends: turning back stays allowed from each of their lines."""
    lines = [line for id in range(10, 100, 10) for line in two_way(id, 1, 2)]
    counts = Counts()
    assert u_turn_bans(RoadMap([], lines), "dead-ends", counts, "ban") == []
    assert counts.left_out == {TOO_MANY: 18}


def test_the_command_adds_the_rest(
    tools: Tools, program: Program, top: Path, tmp_path: Path
) -> None:
    """The program reads a map with lines that lead nowhere. No line of the result is followed by one that leads back along it."""
    copy_examples(top, tmp_path)
    assert run(["u-turns", str(tmp_path), "--dead-ends", "allow"]) == 0
    ended = tools.run("u-turns", tmp_path, "--dead-ends", "ban")
    assert (ended.returncode, ended.stdout) == (0, f"{tmp_path}: 4 bans added, 29 bans\n")
    assert program.fault(tmp_path) == ""
    road_map = read_map(tmp_path)
    missing = {
        (a.id, b.id)
        for a in road_map.lines
        for b in road_map.lines
        if (a.start, a.end, a.shape) == (b.end, b.start, b.shape[::-1])
    }.difference(map(tuple, road_map.bans))
    assert not missing
    again = tools.run("u-turns", tmp_path, "--dead-ends", "ban")
    assert again.stdout == f"{tmp_path}: 0 bans added, 29 bans\n"


@pytest.mark.parametrize("u_turns", ["plain", "allowed"])
@pytest.mark.parametrize("command", ["u-turns", "import osm", "import vector"])
def test_settings_that_contradict(
    command: str, u_turns: str, tmp_path: Path, capsys: pytest.CaptureFixture[str]
) -> None:
    """The order of the options doesn't matter, and to allow turning back at dead ends contradicts nothing."""
    words = [*command.split(), str(tmp_path / "none"), "--dead-ends", "ban", "--u-turns", u_turns]
    if command != "u-turns":
        words += ["--out", str(tmp_path / "map")]
    if command == "import vector":
        words += ["--class", "5", "--form", "3"]
    assert run(words) == 2
    said = f"--dead-ends ban is for --u-turns dead-ends, not for {u_turns}"
    assert capsys.readouterr().err == f"olr-tools: {said} (see olr-tools {command} --help)\n"
    assert run(["allow" if word == "ban" else word for word in words]) == 1
    assert f"{tmp_path}/none" in capsys.readouterr().err


def test_the_command_names_a_store(tmp_path: Path, capsys: pytest.CaptureFixture[str]) -> None:
    (tmp_path / "map.gpkg").touch()
    assert run(["u-turns", str(tmp_path), "--dead-ends", "ban"]) == 1
    assert "import its file again with --u-turns dead-ends --dead-ends ban, or" in (
        capsys.readouterr().err
    )


def stub() -> Drawing:
    """A street from node 1 over 2 to 3, and a stub of 220 m from node 2 to the north, up to node 4."""
    drawing = Drawing({1: (-9000, 0), 2: (0, 0), 3: (9000, 0), 4: (0, 2000)})
    drawing.way(1, [1, 2, 3])
    drawing.way(2, [2, 4])
    return drawing


def about(folder: Path) -> dict[str, Any]:
    """What `import.json` says."""
    result: dict[str, Any] = json.loads((folder / "import.json").read_text(encoding="utf-8"))
    return result


def settings(folder: Path) -> tuple[str, str, int]:
    """What `import.json` says of turning back: both settings, and the number of bans."""
    said = about(folder)
    return said["u_turns"], said["dead_ends"], said["bans"]["u_turns"]


def test_what_import_json_says(tmp_path: Path, monkeypatch: pytest.MonkeyPatch) -> None:
    """Of two settings those that ban more. Maps of older versions don't say what became of dead ends: turning back was allowed."""
    file, folder = str(stub().write(tmp_path / "drawn.osm")), tmp_path / "map"

    def after(*words: str) -> tuple[str, str, int]:
        assert run(["u-turns", str(folder), *words]) == 0
        return settings(folder)

    importing = ["import", "osm", file, "--out", str(folder), "--force"]
    assert run([*importing, "--dead-ends", "ban"]) == 0
    assert settings(folder) == ("dead-ends", "ban", 6)
    bans = read_map(folder).bans
    assert after("--dead-ends", "allow") == ("dead-ends", "ban", 6)
    assert after("--u-turns", "plain") == ("dead-ends", "ban", 6)

    assert run([*importing, "--u-turns", "allowed"]) == 0
    assert settings(folder) == ("allowed", "allow", 0)
    assert after("--dead-ends", "allow") == ("dead-ends", "allow", 3)
    older = {name: value for name, value in about(folder).items() if name != "dead_ends"}
    (folder / "import.json").write_text(json.dumps(older))
    assert after("--dead-ends", "allow") == ("dead-ends", "allow", 3)
    monkeypatch.setattr("olr.importing.u_turns.MOST_BANS", 4)
    assert after("--dead-ends", "ban") == ("dead-ends", "ban", 4)
    assert about(folder)["left_out"] == {BEYOND_AT_DEAD_ENDS: 2}
    assert after("--dead-ends", "allow") == ("dead-ends", "ban", 4)
    assert about(folder)["left_out"] == {BEYOND_AT_DEAD_ENDS: 2}
    monkeypatch.undo()
    assert after("--dead-ends", "ban") == ("dead-ends", "ban", 6)
    assert about(folder)["left_out"] == {}
    assert sorted(read_map(folder).bans) == bans


def test_another_default(tmp_path: Path, monkeypatch: pytest.MonkeyPatch) -> None:
    """Whatever the default is, it counts where turning back is banned at all junctions."""
    file, folder = str(stub().write(tmp_path / "drawn.osm")), tmp_path / "map"
    importing = ["import", "osm", file, "--out", str(folder), "--force"]
    for default, many in (("allow", 3), ("ban", 6)):
        monkeypatch.setattr("olr.commands.u_turns.DEAD_ENDS", default)
        assert run([*importing]) == 0
        assert settings(folder) == ("dead-ends", default, many)
        assert run([*importing, "--u-turns", "plain"]) == 0
        assert settings(folder) == ("plain", "allow", 0)


def test_a_vector_file(tmp_path: Path) -> None:
    file = tmp_path / "roads.geojson"
    ends = {"type": "LineString", "coordinates": [[0.0, 0.0], [0.01, 0.0]]}
    feature = {"type": "Feature", "properties": {}, "geometry": ends}
    file.write_text(json.dumps({"type": "FeatureCollection", "features": [feature]}))
    words = ["import", "vector", str(file), "--class", "5", "--form", "3"]
    folder = tmp_path / "map"
    assert run([*words, "--dead-ends", "ban", "--out", str(folder)]) == 0
    assert settings(folder) == ("dead-ends", "ban", 2)
    assert sorted(read_map(folder).bans) == [Ban(10000, 10001), Ban(10001, 10000)]


def test_a_restriction_whose_only_road_is_missing(imported: Import) -> None:
    """From way 1 a driver has to go on to the service road, which the map lacks. He can't turn back either."""
    drawing = Drawing({1: (-9000, 0), 2: (0, 0), 3: (9000, 0), 5: (0, 2000)})
    drawing.way(1, [1, 2])
    drawing.way(2, [2, 3])
    drawing.way(3, [2, 5], "service")
    drawing.turn("only_left_turn", 1, 2, 3)
    usual = {(10000, 20000), (20001, 20000)}
    assert imported(drawing, Options(dead_ends="allow")).bans() == usual
    every = {(10000, 10001), (10001, 10000), (20000, 20001)}
    assert imported(drawing, Options(dead_ends="ban")).bans() == usual | every


def outer_of_first(program: Program, folder: Path, text: str) -> list[int]:
    """The lines of the first place of a reference; none if there is no place."""
    ended = program.run("places", text, "--map", folder, "--format", "json")
    places = json.loads(ended.stdout)["places"]
    return [piece[0] for piece in places[0]["matching"]["outer"]] if places else []


def test_the_best_place_doesnt_run_down_a_stub_and_back(program: Program, tmp_path: Path) -> None:
    """A road of the sender begins at node 2 between north and east, and its way to node 3 is 440 m longer than the street. Down the stub and back
    fits best by direction and length. Where the sender's road begins to the north, nothing else fits.
    """
    file = str(stub().write(tmp_path / "drawn.osm"))
    for setting in ("allow", "ban"):
        words = ["import", "osm", file, "--out", str(tmp_path / setting), "--dead-ends", setting]
        assert run(words) == 0
    last = ReferencePoint(6, 3, 0, 9000, 24)
    for sector, expected in ((4, [10002]), (0, [])):
        text = text_of([ReferencePoint(6, 3, 0, 0, sector, interval=25, lowest=6), last])
        assert outer_of_first(program, tmp_path / "allow", text) == [20000, 20001, 10002]
        assert outer_of_first(program, tmp_path / "ban", text) == expected


def test_a_reference_may_end_and_begin_at_a_dead_end(program: Program, tmp_path: Path) -> None:
    """The lines there lead nowhere, and nothing leads to them, but both may be the last or the first one of a path."""
    words = ["import", "osm", str(stub().write(tmp_path / "drawn.osm")), "--dead-ends", "ban"]
    assert run([*words, "--out", str(tmp_path / "map")]) == 0
    for first, last, lines in (
        (
            ReferencePoint(6, 3, 0, -9000, 8, 20, 6),
            ReferencePoint(6, 3, 2000, 0, 16),
            [10000, 20000],
        ),
        (
            ReferencePoint(6, 3, 2000, 0, 16, 20, 6),
            ReferencePoint(6, 3, 0, -9000, 8),
            [20001, 10001],
        ),
    ):
        text = text_of([first, last])
        assert outer_of_first(program, tmp_path / "map", text) == lines
