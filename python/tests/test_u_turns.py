"""Bans on turning back."""

import json
import pytest
import shutil
import subprocess
from collections.abc import Sequence
from collections.abc import Set as AbstractSet
from dataclasses import replace
from pathlib import Path

from conftest import Program, Tools
from drawing import Drawing
from olr.counts import Counts
from olr.importing.u_turns import DeadEnds, UTurns, u_turn_bans
from olr.model.map_folder import read_map
from olr.model.road_map import Ban, Line, Node, Position, RoadMap
from olr.osm.importing import Options, import_osm
from olr.tools import run

Bans = AbstractSet[tuple[int, int]]
BOTH: list[UTurns] = ["dead-ends", "plain"]
"""The settings that ban something."""


def one_way(
    id: int, start: int, end: int, shape: Sequence[Position] = (), road_class: int = 6
) -> Line:
    """A line."""
    return Line(id, start, end, road_class, 3, 100, tuple(shape))


def two_way(
    id: int, start: int, end: int, shape: Sequence[Position] = (), road_class: int = 6
) -> list[Line]:
    """The lines of a two-way road, with the ids `id` and `id + 1`."""
    return [
        one_way(id, start, end, shape, road_class),
        one_way(id + 1, end, start, shape[::-1], road_class),
    ]


def bans(
    u_turns: UTurns,
    *roads: list[Line],
    there: Bans = frozenset(),
    nodes: Sequence[Node] = (),
    dead_ends: DeadEnds = "allow",
) -> Bans:
    """The bans that are added to those of the roads' map."""
    lines = [line for road in roads for line in road]
    road_map = RoadMap(nodes, lines, [Ban(*ban) for ban in there])
    counts = Counts()
    added = u_turn_bans(road_map, u_turns, counts, dead_ends)
    assert not counts.left_out
    assert len(set(added)) == len(added)
    return {(ban.first, ban.second) for ban in added}


@pytest.mark.parametrize("u_turns", BOTH)
def test_a_plain_node(u_turns: UTurns) -> None:
    assert bans(u_turns, two_way(10, 1, 2), two_way(20, 2, 3)) == {(10, 11), (21, 20)}


@pytest.mark.parametrize("u_turns", BOTH)
def test_a_dead_end_is_spared(u_turns: UTurns) -> None:
    assert bans(u_turns, two_way(10, 1, 2)) == set()


def test_a_junction() -> None:
    """Each of the three roads leads on to two others. Their far ends are dead."""
    roads = two_way(10, 1, 2), two_way(20, 2, 3), two_way(30, 4, 2)
    assert bans("dead-ends", *roads) == {(10, 11), (21, 20), (30, 31)}
    assert bans("plain", *roads) == set()


def test_nothing_is_banned_where_it_is_allowed() -> None:
    assert bans("allowed", two_way(10, 1, 2), two_way(20, 2, 3)) == set()


@pytest.mark.parametrize("u_turns", BOTH)
def test_where_a_one_way_road_begins(u_turns: UTurns) -> None:
    assert bans(u_turns, two_way(10, 1, 2), [one_way(20, 2, 3)]) == {(10, 11)}


@pytest.mark.parametrize("u_turns", BOTH)
def test_where_a_one_way_road_ends_nothing_leads_on(u_turns: UTurns) -> None:
    assert bans(u_turns, two_way(10, 1, 2), [one_way(20, 3, 2)]) == set()


@pytest.mark.parametrize("u_turns", BOTH)
def test_where_a_one_way_road_joins(u_turns: UTurns) -> None:
    """Two lines lead on from node 2, but nothing leads back along line 20."""
    roads = two_way(10, 1, 2), [one_way(20, 3, 2)], two_way(30, 2, 4)
    assert bans(u_turns, *roads) == {(10, 11), (31, 30)}


@pytest.mark.parametrize("u_turns", BOTH)
def test_a_line_keeps_its_only_way_on(u_turns: UTurns) -> None:
    """A ban of the map shuts line 20 to line 10, so line 11 stays open to it. Line 21 goes on to line 11, unless that is banned."""
    roads = two_way(10, 1, 2), two_way(20, 2, 3)
    assert bans(u_turns, *roads, there={(10, 20)}) == {(21, 20)}
    assert bans(u_turns, *roads, there={(10, 20), (21, 11)}) == set()


def test_a_line_keeps_its_only_way_on_at_a_junction() -> None:
    roads = two_way(10, 1, 2), two_way(20, 2, 3), two_way(30, 2, 4)
    there = {(10, 20), (10, 30), (21, 11)}
    assert bans("dead-ends", *roads, there=there) == {(21, 20), (31, 30)}


@pytest.mark.parametrize("u_turns", BOTH)
def test_a_ban_that_is_there_isnt_added(u_turns: UTurns) -> None:
    roads = two_way(10, 1, 2), two_way(20, 2, 3)
    assert bans(u_turns, *roads, there={(10, 11)}) == {(21, 20)}


def test_a_loop_cut_in_two() -> None:
    """Both lines from node 2 lead to node 1: the one with the same shape leads back."""
    east, west = [Position(10, 5)], [Position(-10, 5)]
    loop = two_way(10, 1, 2, east), two_way(20, 2, 1, west), two_way(30, 9, 1)
    assert bans("plain", *loop) == {(10, 11), (21, 20)}
    at_the_stem = {(11, 10), (20, 21), (30, 31)}
    assert bans("dead-ends", *loop) == {(10, 11), (21, 20)} | at_the_stem


def test_equal_roads_side_by_side() -> None:
    """Either of them leads back along the other one too. Where nothing else leads on, both ways stay."""
    pair = two_way(10, 1, 2), two_way(20, 1, 2)
    assert bans("dead-ends", *pair) == bans("plain", *pair) == set()
    further = {(10, 11), (10, 21), (20, 11), (20, 21), (31, 30)}
    assert bans("dead-ends", *pair, two_way(30, 2, 3)) == further


@pytest.mark.parametrize("many", [8, 9, 300])
def test_a_road_that_is_repeated(many: int) -> None:
    """Up to eight equal roads ban turning back into each of them. Of more none does: bans on some of the turns would be of no use.
    Where nothing else leads on, at node 1, no ban is missing."""
    ids = range(10, 10 * many + 10, 10)
    lines = [line for id in ids for line in two_way(id, 1, 2)]
    counts = Counts()
    road_map = RoadMap([], [*lines, *two_way(10_000, 2, 3)])
    added = u_turn_bans(road_map, "dead-ends", counts)
    if many == 8:
        assert set(added) == {Ban(10_001, 10_000), *(Ban(a, b + 1) for a in ids for b in ids)}
        assert not counts.left_out
    else:
        assert added == [Ban(10_001, 10_000)]
        assert counts.left_out == {
            "bans on turning back from a line that more than 8 others may lead back along": many
        }


def test_a_road_that_is_repeated_with_its_directions_drawn_apart() -> None:
    """Nine records of a road to a dead end at node 2, each drawn in its own way: at node 1 a further road leads on."""
    nodes = [Node(id, Position(lon, 0)) for id, lon in ((1, 0), (2, 300), (3, -500))]
    lines = [*two_way(10_000, 1, 3)]
    for number in range(9):
        lines.append(one_way(10 + number, 1, 2, [Position(150, -15 - number)]))
        lines.append(one_way(20 + number, 2, 1, [Position(150, 15 + number)]))
    counts = Counts()
    assert u_turn_bans(RoadMap(nodes, lines), "dead-ends", counts) == [Ban(10_001, 10_000)]
    assert list(counts.left_out.values()) == [9]


def test_a_one_way_loop_isnt_turning_back() -> None:
    """In one line, and cut in two: from line 30 line 20 leads around the loop again."""
    loop = [one_way(10, 1, 1, [Position(1, 0), Position(0, 1)])]
    assert bans("dead-ends", loop, two_way(20, 1, 2)) == {(21, 20)}
    nodes = [Node(1, Position(0, 0)), Node(2, Position(0, 200)), Node(3, Position(0, -300))]
    halves = [
        one_way(20, 1, 2, [Position(100, 100)]),
        one_way(30, 2, 1, [Position(-100, 100)]),
    ]
    stem = two_way(40, 3, 1)
    for u_turns in BOTH:
        assert bans(u_turns, halves, stem, nodes=nodes) == {(40, 41)}


def test_directions_that_are_drawn_apart() -> None:
    """A traffic island in a road from node 3 to node 4: to turn around its end is to turn back."""
    nodes = [Node(id, Position(lon, 0)) for id, lon in ((3, -500), (1, 0), (2, 300), (4, 900))]
    island = [
        one_way(10, 1, 2, [Position(50, -15), Position(250, -15)]),
        one_way(20, 2, 1, [Position(250, 15), Position(50, 15)]),
    ]
    roads = two_way(30, 3, 1), island, two_way(40, 2, 4)
    for u_turns in BOTH:
        assert bans(u_turns, *roads, nodes=nodes) == {(10, 20), (20, 10), (30, 31), (41, 40)}


def test_directions_that_are_drawn_apart_beside_another_road() -> None:
    """A second road joins the ends of the island, by a curve to the north. On into it isn't back."""
    nodes = [Node(1, Position(0, 0)), Node(2, Position(300, 0))]
    island = [
        one_way(10, 1, 2, [Position(50, -15), Position(250, -15)]),
        one_way(20, 2, 1, [Position(250, 15), Position(50, 15)]),
    ]
    curve = two_way(50, 1, 2, [Position(150, 400)])
    expected = {(10, 20), (20, 10), (50, 51), (51, 50)}
    assert bans("dead-ends", island, curve, nodes=nodes) == expected


def test_a_road_across_a_roundabout() -> None:
    """Neither on around the roundabout nor into the road across is back."""
    nodes = [Node(1, Position(0, 0)), Node(2, Position(0, 200))]
    halves = [
        one_way(20, 1, 2, [Position(150, 100)]),
        one_way(30, 2, 1, [Position(-150, 100)]),
    ]
    assert bans("dead-ends", halves, two_way(50, 1, 2), nodes=nodes) == {(50, 51), (51, 50)}


def test_the_least_important_junctions_have_no_room(monkeypatch: pytest.MonkeyPatch) -> None:
    """A main road of class 2 from node 1 over 2 to 3, a side road of class 6 from node 2 over 4 to 5, and a turn restriction."""
    monkeypatch.setattr("olr.importing.u_turns.MOST_BANS", 5)
    lines = [
        *two_way(10, 5, 4),
        *two_way(20, 4, 2),
        *two_way(30, 1, 2, road_class=2),
        *two_way(40, 2, 3, road_class=2),
    ]
    road_map = RoadMap([], lines, [Ban(30, 21)])
    counts = Counts()
    kept = u_turn_bans(road_map, "dead-ends", counts)
    # All three at node 2, and one of two at node 4.
    assert kept == [Ban(10, 11), Ban(20, 21), Ban(30, 31), Ban(41, 40)]
    assert list(counts.left_out.values()) == [1]

    monkeypatch.setattr("olr.importing.u_turns.MOST_BANS", 3)
    assert u_turn_bans(road_map, "dead-ends", Counts()) == [Ban(30, 31), Ban(41, 40)]


def test_a_map_that_becomes_a_store_has_room_for_all(monkeypatch: pytest.MonkeyPatch) -> None:
    monkeypatch.setattr("olr.importing.u_turns.MOST_BANS", 1)
    monkeypatch.setattr("olr.model.road_map.MOST_LINES", 3)
    assert bans("dead-ends", two_way(10, 1, 2), two_way(20, 2, 3)) == {(10, 11), (21, 20)}


def test_as_the_script_of_the_examples(top: Path) -> None:
    examples = top / "examples"
    for names in (["lines.csv"], ["bans.csv", "lines.csv"]):
        files = [str(examples / name) for name in names]
        command = ["awk", "-F,", "-f", str(examples / "u-turns.awk"), *files]
        printed = subprocess.run(command, capture_output=True, text=True, check=True).stdout
        road_map = read_map(examples)
        if "bans.csv" not in names:
            road_map = replace(road_map, bans=())
        expected = [*road_map.bans, *u_turn_bans(road_map, "dead-ends", Counts())]
        assert printed.splitlines() == ["from,to", *(f"{a},{b}" for a, b in expected)]


def copy_examples(top: Path, folder: Path) -> Path:
    """A copy of the map of the examples."""
    for name in ("nodes.csv", "lines.csv", "bans.csv"):
        shutil.copy(top / "examples" / name, folder / name)
    return folder


def test_the_command_adds_to_the_bans(
    tools: Tools, program: Program, top: Path, tmp_path: Path
) -> None:
    """Its default is dead-ends. It doesn't look at `ids.csv`, and a second run adds nothing."""
    copy_examples(top, tmp_path)
    (tmp_path / "ids.csv").write_text("of another program\n")
    ended = tools.run("u-turns", tmp_path)
    assert (ended.returncode, ended.stdout) == (0, f"{tmp_path}: 22 bans added, 25 bans\n")
    bans = read_map(tmp_path).bans
    assert [tuple(ban) for ban in bans[:4]] == [(109, 901), (501, 502), (603, 604), (101, 102)]
    assert program.fault(tmp_path) == ""
    again = tools.run("u-turns", tmp_path)
    assert again.stdout == f"{tmp_path}: 0 bans added, 25 bans\n"
    assert read_map(tmp_path).bans == bans


@pytest.mark.parametrize("u_turns, added", [("allowed", 0), ("plain", 9), ("dead-ends", 22)])
def test_the_command_by_settings(
    top: Path, tmp_path: Path, capsys: pytest.CaptureFixture[str], u_turns: str, added: int
) -> None:
    copy_examples(top, tmp_path)
    assert run(["u-turns", str(tmp_path), "--u-turns", u_turns]) == 0
    said = capsys.readouterr()
    assert said.out == f"{tmp_path}: {added} bans added, {3 + added} bans\n"
    assert said.err == ""


def test_the_command_says_what_it_left_out(
    top: Path,
    tmp_path: Path,
    capsys: pytest.CaptureFixture[str],
    monkeypatch: pytest.MonkeyPatch,
) -> None:
    copy_examples(top, tmp_path)
    monkeypatch.setattr("olr.importing.u_turns.MOST_BANS", 20)
    assert run(["u-turns", str(tmp_path)]) == 0
    said = capsys.readouterr()
    assert said.out == f"{tmp_path}: 17 bans added, 20 bans\n"
    assert said.err == (
        "left out: bans on turning back beyond 200,000 bans, at the least important junctions: 5\n"
    )


def test_the_command_without_a_map(tools: Tools, tmp_path: Path) -> None:
    ended = tools.run("u-turns", tmp_path)
    assert ended.returncode == 1
    assert ended.stderr == (
        f"olr-tools: {tmp_path}/nodes.csv can't be read: No such file or directory: name a folder with "
        "nodes.csv and lines.csv\n"
    )


def test_the_command_names_a_store(tmp_path: Path, capsys: pytest.CaptureFixture[str]) -> None:
    (tmp_path / "map.gpkg").touch()
    assert run(["u-turns", str(tmp_path)]) == 1
    assert capsys.readouterr().err == (
        f"olr-tools: {tmp_path}/map.gpkg is a store, whose bans are those of its import: "
        "import its file again with --u-turns dead-ends, or name the folder that it was made of, and make it again by olr-tools "
        "regions\n"
    )


def about_bans(folder: Path) -> tuple[str, int, int, int]:
    """What `import.json` says of the bans: where turning back is banned, all, those of turn restrictions, and the others."""
    about = json.loads((folder / "import.json").read_text(encoding="utf-8"))
    numbers = about["bans"]
    return about["u_turns"], numbers["all"], numbers["turn_restrictions"], numbers["u_turns"]


def test_the_command_says_so_in_import_json(tmp_path: Path) -> None:
    """Three roads in a row, and one more from node 2. Node 3 is plain, and a restriction bans a turn at node 2."""
    drawing = Drawing({1: (0, 0), 2: (1000, 0), 3: (2000, 0), 4: (3000, 0), 5: (1000, 900)})
    for id, nodes in enumerate(([1, 2], [2, 3], [3, 4], [2, 5]), 1):
        drawing.way(id, nodes)
    drawing.turn("no_left_turn", 1, 2, 4)
    file, folder = str(drawing.write(tmp_path / "drawn.osm")), tmp_path / "map"
    assert run(["import", "osm", file, "--out", str(folder), "--u-turns", "allowed"]) == 0
    assert about_bans(folder) == ("allowed", 1, 1, 0)
    before = (folder / "import.json").read_text(encoding="utf-8")

    def after(u_turns: str) -> tuple[str, int, int, int]:
        assert run(["u-turns", str(folder), "--u-turns", u_turns]) == 0
        return about_bans(folder)

    assert after("plain") == ("plain", 3, 1, 2)
    assert after("dead-ends") == ("dead-ends", 6, 1, 5)
    assert after("plain") == ("dead-ends", 6, 1, 5)
    assert json.loads(before).keys() == json.loads((folder / "import.json").read_text()).keys()
    # Bans that the import didn't write count as turn restrictions.
    (folder / "bans.csv").write_text("from,to\n10000,40000\n10000,10001\n")
    assert after("dead-ends") == ("dead-ends", 6, 2, 4)
    (folder / "import.json").write_text("of another program")
    assert run(["u-turns", str(folder)]) == 0
    assert (folder / "import.json").read_text() == "of another program"


def test_the_command_counts_in_import_json(tmp_path: Path, monkeypatch: pytest.MonkeyPatch) -> None:
    """What has no room is that of the last run."""
    monkeypatch.setattr("olr.importing.u_turns.MOST_BANS", 1)
    drawing = Drawing({1: (0, 0), 2: (1000, 0), 3: (2000, 0)})
    drawing.way(1, [1, 2])
    drawing.way(2, [2, 3])
    file, folder = str(drawing.write(tmp_path / "drawn.osm")), tmp_path / "map"
    assert run(["import", "osm", file, "--out", str(folder)]) == 0

    def left_out() -> list[int]:
        about = json.loads((folder / "import.json").read_text(encoding="utf-8"))
        return list(about["left_out"].values())

    assert left_out() == [1]
    monkeypatch.setattr("olr.importing.u_turns.MOST_BANS", 2)
    assert run(["u-turns", str(folder), "--u-turns", "allowed"]) == 0
    assert left_out() == [1]
    assert run(["u-turns", str(folder)]) == 0
    assert left_out() == []


def test_a_restriction_counts_once(tmp_path: Path, capsys: pytest.CaptureFixture[str]) -> None:
    """Turning back at node 2 is forbidden from way 1 by a relation, so only that from way 2 is a ban of its own."""
    drawing = Drawing({1: (0, 0), 2: (1000, 0), 3: (2000, 0)})
    drawing.way(1, [1, 2])
    drawing.way(2, [2, 3])
    drawing.turn("no_u_turn", 1, 2, 1)
    file = drawing.write(tmp_path / "drawn.osm")
    assert run(["import", "osm", str(file), "--out", str(tmp_path / "map")]) == 0
    assert capsys.readouterr().out == (
        f"{tmp_path}/map: 3 nodes, 4 lines, 2 bans (1 of turn restrictions, 1 of U-turns)\n"
    )
    about = json.loads((tmp_path / "map/import.json").read_text(encoding="utf-8"))
    assert about["bans"] == {"all": 2, "turn_restrictions": 1, "u_turns": 1}
    assert about["u_turns"] == "dead-ends"
    assert len(read_map(tmp_path / "map").bans) == 2


def test_imports_say_what_they_left_out(tmp_path: Path, monkeypatch: pytest.MonkeyPatch) -> None:
    """A restriction takes precedence over bans on turning back."""
    monkeypatch.setattr("olr.importing.u_turns.MOST_BANS", 1)
    drawing = Drawing({1: (0, 0), 2: (1000, 0), 3: (2000, 0)})
    drawing.way(1, [1, 2])
    drawing.way(2, [2, 3])
    drawing.turn("no_u_turn", 1, 2, 1)
    made = import_osm(drawing.write(tmp_path / "drawn.osm"), Options(), Counts())
    assert made.about["bans"] == {"all": 1, "turn_restrictions": 1, "u_turns": 0}
    assert [tuple(ban) for ban in made.road_map.bans] == [(10000, 10001)]
    assert sum(made.about["left_out"].values()) == 1
