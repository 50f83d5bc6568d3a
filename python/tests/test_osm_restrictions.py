"""Bans on turns from turn restrictions."""

import pytest
from pathlib import Path

from conftest import Import, Result
from drawing import Drawing
from olr.model.box import Box
from olr.osm.importing import Options

# A crossing of two-way streets: node 1 in the middle, 2 to the north, 3 east, 4 south, 5 west.
CROSSING = {1: (0, 0), 2: (0, 1000), 3: (1000, 0), 4: (0, -1000), 5: (-1000, 0)}
Members = list[tuple[str, str, int]]


def arms() -> Drawing:
    """The crossing with a way for each arm, from the middle outwards: way 2 leads to node 2, and so on."""
    drawing = Drawing(CROSSING)
    for node in (2, 3, 4, 5):
        drawing.way(node, [1, node])
    return drawing


def streets() -> Drawing:
    """The crossing with a way 10 from west to east, and ways 2 and 4 to the north and the south."""
    drawing = Drawing(CROSSING)
    drawing.way(10, [5, 1, 3])
    drawing.way(2, [1, 2])
    drawing.way(4, [1, 4])
    return drawing


def turns(result: Result) -> set[tuple[int, int, int]]:
    """The bans, by the nodes where they come from, turn, and go to."""
    lines = {line.id: line for line in result.road_map.lines}
    return {
        (lines[ban.first].start, lines[ban.first].end, lines[ban.second].end)
        for ban in result.road_map.bans
    }


@pytest.mark.parametrize(
    "kind, source, target, bans",
    [
        ("no_left_turn", 4, 5, {(4, 1, 5)}),
        ("no_right_turn", 4, 3, {(4, 1, 3)}),
        ("no_straight_on", 4, 2, {(4, 1, 2)}),
        ("no_u_turn", 4, 4, {(4, 1, 4)}),
        ("no_entry", 4, 2, {(4, 1, 2)}),
        ("no_exit", 4, 2, {(4, 1, 2)}),
        ("only_right_turn", 4, 3, {(4, 1, 2), (4, 1, 5), (4, 1, 4)}),
        ("only_left_turn", 4, 5, {(4, 1, 2), (4, 1, 3), (4, 1, 4)}),
        ("only_straight_on", 4, 2, {(4, 1, 3), (4, 1, 5), (4, 1, 4)}),
    ],
)
def test_kinds(
    imported: Import, kind: str, source: int, target: int, bans: set[tuple[int, int, int]]
) -> None:
    drawing = arms()
    drawing.turn(kind, source, 1, target)
    result = imported(drawing)
    assert turns(result) == bans
    assert not result.counts.left_out


@pytest.mark.parametrize(
    "kind, source, target, bans",
    [
        ("no_left_turn", 10, 2, {(5, 1, 2)}),
        ("no_right_turn", 10, 2, {(3, 1, 2)}),
        ("no_left_turn", 10, 4, {(3, 1, 4)}),
        ("no_left_turn", 2, 10, {(2, 1, 3)}),
        ("no_right_turn", 2, 10, {(2, 1, 5)}),
        ("only_left_turn", 10, 2, {(5, 1, 3), (5, 1, 4), (5, 1, 5)}),
        ("only_right_turn", 4, 10, {(4, 1, 2), (4, 1, 4), (4, 1, 5)}),
    ],
)
def test_arms_are_chosen_by_angle(
    imported: Import, kind: str, source: int, target: int, bans: set[tuple[int, int, int]]
) -> None:
    drawing = streets()
    drawing.turn(kind, source, 1, target)
    result = imported(drawing)
    assert turns(result) == bans
    assert not result.counts.left_out


@pytest.mark.parametrize(
    "kind, source, target",
    [
        ("no_straight_on", 10, 2),
        ("no_u_turn", 10, 10),
        ("no_entry", 10, 2),
        ("no_left_turn", 10, 11),
    ],
)
def test_arms_that_the_angle_doesnt_tell_are_counted(
    imported: Import, kind: str, source: int, target: int
) -> None:
    drawing = Drawing(CROSSING)
    drawing.way(10, [5, 1, 3])
    drawing.way(11, [4, 1, 2])
    drawing.way(2, [1, 2])
    drawing.turn(kind, source, 1, target)
    result = imported(drawing)
    assert not result.bans()
    assert result.counts.left_out == {
        "turn restrictions whose way passes through the node, and the angle doesn't decide": 1
    }


@pytest.mark.parametrize("kind", ["no_entry", "no_left_turn"])
def test_an_arm_that_traffic_cant_take_isnt_chosen(imported: Import, kind: str) -> None:
    drawing = Drawing(CROSSING)
    drawing.way(10, [5, 1, 3], oneway="yes")
    drawing.way(2, [1, 2])
    drawing.turn(kind, 10, 1, 2)
    assert turns(imported(drawing)) == {(5, 1, 2)}


@pytest.mark.parametrize("kind", ["no_right_turn", "only_right_turn", "no_u_turn"])
def test_a_turn_of_another_kind_isnt_meant(imported: Import, kind: str) -> None:
    """From the one-way street, which leads from west to east, the turn to the north is one to the left. From east to west it would be
    one to the right, but nothing goes that way."""
    drawing = Drawing(CROSSING)
    drawing.way(10, [5, 1, 3], oneway="yes")
    drawing.way(2, [1, 2])
    drawing.turn(kind, 10, 1, 2)
    result = imported(drawing)
    assert not result.bans()
    assert result.counts.left_out == {
        "turn restrictions whose way passes through the node, and the angle doesn't decide": 1
    }


def test_a_fork_is_a_turn_to_its_side(imported: Import) -> None:
    """The way forks off 6 degrees to the left of a one-way street."""
    drawing = Drawing(CROSSING | {6: (1000, 105)})
    drawing.way(10, [5, 1, 3], oneway="yes")
    drawing.way(6, [1, 6])
    drawing.turn("no_left_turn", 10, 1, 6)
    assert turns(imported(drawing)) == {(5, 1, 6)}


def test_an_arm_points_to_where_the_road_goes(imported: Import) -> None:
    """The first point of the northern arm is 5 m to the east: the arm's direction is that of the point behind."""
    drawing = Drawing(CROSSING | {6: (45, 1)})
    drawing.way(10, [5, 1, 3])
    drawing.way(2, [1, 6, 2])
    drawing.turn("no_right_turn", 10, 1, 2)
    assert turns(imported(drawing)) == {(3, 1, 2)}


def test_no_entry_from_several_ways(imported: Import) -> None:
    drawing = arms()
    members = [("from", "way", 4), ("from", "way", 5), ("via", "node", 1), ("to", "way", 2)]
    drawing.restriction(1, members, restriction="no_entry")
    assert turns(imported(drawing)) == {(4, 1, 2), (5, 1, 2)}


def test_entries_from_ways_that_arent_there(imported: Import) -> None:
    """A restriction is counted once, however many turns it lacks, and not as left out if it bans one."""
    drawing = arms()
    for sources in ((98, 99), (4, 99)):
        froms = [("from", "way", source) for source in sources]
        members = [*froms, ("via", "node", 1), ("to", "way", 2)]
        drawing.restriction(sources[0], members, restriction="no_entry")
    result = imported(drawing)
    assert turns(result) == {(4, 1, 2)}
    assert result.counts.left_out == {"turn restrictions whose turn isn't on the map": 1}
    assert result.counts.changed == {
        "turn restrictions of several turns, some of which aren't on the map": 1
    }


ELSEWHERE = (
    "turn restrictions only into a road that isn't on the map, which ban all other turns there"
)
UNUSABLE = "turn restrictions only into a way that motor vehicles may not use"
NOT_ON_MAP = "turn restrictions whose turn isn't on the map"
BACK_STAYS = "lines whose turns restrictions ban all: turning back stays allowed"
ALL_STAY = "lines whose turns restrictions ban all, and nothing leads back: all turns stay allowed"


@pytest.mark.parametrize("highway", ["service", None])
def test_only_into_a_road_that_the_map_lacks(imported: Import, highway: str | None) -> None:
    """Way 6 is a service road, or behind the edge of the file. A driver has to take it, so no other turn is allowed to him. He may
    turn back: no line is without a way on."""
    drawing = Drawing(CROSSING | {6: (700, 700)})
    for node in (2, 3, 4):
        drawing.way(node, [1, node])
    if highway is not None:
        drawing.way(6, [1, 6], highway)
    drawing.turn("only_right_turn", 4, 1, 6)
    result = imported(drawing)
    assert turns(result) == {(4, 1, 2), (4, 1, 3)}
    assert result.counts.changed == {ELSEWHERE: 1, BACK_STAYS: 1}
    assert "turn" not in "".join(result.counts.left_out)
    assert {turn for turn in turns(imported(drawing, Options())) if turn[0] == 4} == turns(result)


def test_only_into_a_road_that_the_map_lacks_from_a_one_way_road(imported: Import) -> None:
    """Nothing leads back along way 4: the bans on all of its turns would close it."""
    drawing = Drawing(CROSSING | {6: (700, 700)})
    for node in (2, 3):
        drawing.way(node, [1, node])
    drawing.way(4, [4, 1], oneway="yes")
    drawing.way(6, [1, 6], "service")
    drawing.turn("only_right_turn", 4, 1, 6)
    result = imported(drawing)
    assert not result.bans()
    assert result.counts.changed == {ELSEWHERE: 1, ALL_STAY: 1}


def test_bans_on_all_turns_leave_the_one_back(imported: Import) -> None:
    """Restrictions ban each turn from way 4, and all but one from way 2."""
    drawing = arms()
    for target, kind in {2: "straight_on", 3: "right_turn", 4: "u_turn", 5: "left_turn"}.items():
        drawing.turn(f"no_{kind}", 4, 1, target)
    for target, kind in {2: "u_turn", 3: "left_turn", 4: "straight_on"}.items():
        drawing.turn(f"no_{kind}", 2, 1, target)
    result = imported(drawing)
    assert turns(result) == {(4, 1, 2), (4, 1, 3), (4, 1, 5), (2, 1, 2), (2, 1, 3), (2, 1, 4)}
    assert result.counts.changed == {BACK_STAYS: 1}


@pytest.mark.parametrize(
    "highway, bans, reason",
    [("residential", {(4, 1, 7)}, ELSEWHERE), ("footway", set(), UNUSABLE)],
)
def test_only_into_a_way_outside_the_box(
    imported: Import, highway: str, bans: set[tuple[int, int, int]], reason: str
) -> None:
    """Nodes 4 and 7 are in the box. Way 6 goes on from node 1 to the north, outside."""
    drawing = Drawing({1: (0, 0), 4: (0, -1000), 7: (1000, -1000), 6: (0, 700)})
    drawing.way(4, [1, 4])
    drawing.way(7, [1, 7])
    drawing.way(6, [1, 6], highway)
    drawing.turn("only_straight_on", 4, 1, 6)
    result = imported(drawing, Options(box=Box(-100, -1100, 1100, -500), u_turns="allowed"))
    assert turns(result) == bans
    assert {*result.counts.changed, *result.counts.left_out} - {BACK_STAYS} == {reason}


@pytest.mark.parametrize(
    "highway, access, bans",
    [
        ("residential", "yes", {(4, 1, 2), (4, 1, 3)}),
        ("residential", "no", set()),
        ("path", "yes", set()),
    ],
)
def test_only_into_a_road_that_the_table_leaves_out(
    imported: Import,
    top: Path,
    tmp_path: Path,
    highway: str,
    access: str,
    bans: set[tuple[int, int, int]],
) -> None:
    """A table of main roads alone says of streets that they are left out, and not that they are closed."""
    table = (top / "python/olr/osm/tags.toml").read_text(encoding="utf-8")
    lines = [line for line in table.splitlines() if not line.startswith("residential")]
    (tmp_path / "main.toml").write_text("\n".join(lines), encoding="utf-8")
    drawing = Drawing(CROSSING | {6: (700, 700)})
    for node in (2, 3, 4):
        drawing.way(node, [1, node], "primary")
    drawing.way(6, [1, 6], highway, access=access)
    drawing.turn("only_right_turn", 4, 1, 6)
    result = imported(drawing, Options(tags=tmp_path / "main.toml", u_turns="allowed"))
    assert turns(result) == bans
    assert (ELSEWHERE in result.counts.changed) == bool(bans)
    assert (UNUSABLE in result.counts.left_out) != bool(bans)


def test_only_into_a_service_road_of_the_map(imported: Import) -> None:
    drawing = Drawing(CROSSING | {6: (700, 700)})
    for node in (2, 4):
        drawing.way(node, [1, node])
    drawing.way(6, [1, 6], "service")
    drawing.turn("only_right_turn", 4, 1, 6)
    result = imported(drawing, Options(service=True))
    assert {turn for turn in turns(result) if turn[0] == 4} == {(4, 1, 2), (4, 1, 4)}
    assert not result.counts.changed


@pytest.mark.parametrize(
    "source, target, reason",
    [
        (4, 6, UNUSABLE),
        (4, 7, UNUSABLE),
        (4, 8, NOT_ON_MAP),
        (4, 9, UNUSABLE),
        (4, 11, NOT_ON_MAP),
        (4, 12, NOT_ON_MAP),
        (99, 98, NOT_ON_MAP),
        (
            10,
            99,
            "turn restrictions whose way passes through the node, and the angle doesn't decide",
        ),
    ],
)
def test_only_into_a_way_that_isnt_for_drivers_or_elsewhere(
    imported: Import, source: int, target: int, reason: str
) -> None:
    """Way 6 is a footway, way 7 is closed, way 8 is a road that doesn't meet the node, way 9 a railway, way 11 a service road that
    doesn't meet the node, way 12 one that only leads there, and ways 98 and 99 aren't in the file.
    """
    drawing = Drawing(CROSSING | {6: (700, 700)})
    drawing.way(10, [5, 1, 3])
    drawing.way(2, [1, 2])
    drawing.way(4, [1, 4])
    drawing.way(6, [1, 6], "footway")
    drawing.way(7, [1, 6], access="no")
    drawing.way(8, [3, 6])
    drawing.way(9, [1, 6], None, railway="rail")
    drawing.way(11, [3, 6], "service")
    drawing.way(12, [6, 1], "service", oneway="yes")
    drawing.turn("only_right_turn", source, 1, target)
    result = imported(drawing)
    assert not result.bans()
    turn_reasons = {name for name in result.counts.left_out if name.startswith("turn")}
    assert turn_reasons == {reason}
    assert not result.counts.changed


def test_capitals_of_restrictions_dont_matter(imported: Import) -> None:
    drawing = arms()
    drawing.turn("No_Left_Turn ", 4, 1, 5)
    drawing.turn("no_straight_on", 4, 1, 2, **{"except": "PSV; Motorcar"})
    members = [("From", "way", 4), ("Via", "node", 1), ("to ", "way", 3)]
    drawing.restriction(9, members, type="Restriction", restriction="no_right_turn")
    result = imported(drawing)
    assert turns(result) == {(4, 1, 5), (4, 1, 3)}
    assert result.counts.left_out == {"turn restrictions that except motor vehicles": 1}


FROM_4_TO_2: Members = [("from", "way", 4), ("via", "node", 1), ("to", "way", 2)]


@pytest.mark.parametrize(
    "members, tags, reason",
    [
        (
            FROM_4_TO_2,
            {"restriction:conditional": "no_left_turn @ (Mo-Fr)"},
            "conditional turn restrictions",
        ),
        (
            FROM_4_TO_2,
            {"restriction": "no_left_turn", "hour_on": "7:00"},
            "conditional turn restrictions",
        ),
        (
            FROM_4_TO_2,
            {"restriction": "no_left_turn @ (Mo-Fr 07:00-09:00)"},
            "conditional turn restrictions",
        ),
        (
            FROM_4_TO_2,
            {"restriction:motorcar": "only_straight_on@wet", "restriction": "no_left_turn"},
            "conditional turn restrictions",
        ),
        (FROM_4_TO_2, {"restriction:hgv": "no_left_turn"}, "turn restrictions for other vehicles"),
        (FROM_4_TO_2, {}, "turn restrictions without a type"),
        (FROM_4_TO_2, {"restriction": "stop"}, "turn restrictions of an unknown kind"),
        (
            FROM_4_TO_2,
            {"restriction": "no_left_turn", "except": "psv; motorcar"},
            "turn restrictions that except motor vehicles",
        ),
        (
            [("from", "way", 4), ("via", "way", 3), ("to", "way", 2)],
            {"restriction": "no_u_turn"},
            "turn restrictions over a way",
        ),
        (
            [("from", "way", 4), ("to", "way", 2)],
            {"restriction": "no_u_turn"},
            "turn restrictions that lack a member or have two nodes",
        ),
        (
            [("via", "node", 1), ("to", "way", 2)],
            {"restriction": "no_u_turn"},
            "turn restrictions that lack a member or have two nodes",
        ),
        (
            [("from", "way", 4), ("via", "node", 1), ("to", "way", 2), ("to", "way", 3)],
            {"restriction": "only_straight_on"},
            "turn restrictions to one of several ways",
        ),
        (
            [("from", "way", 4), ("via", "node", 1), ("to", "way", 99)],
            {"restriction": "no_left_turn"},
            "turn restrictions whose turn isn't on the map",
        ),
        (
            [("from", "way", 4), ("via", "node", 2), ("to", "way", 3)],
            {"restriction": "no_left_turn"},
            "turn restrictions whose turn isn't on the map",
        ),
    ],
)
def test_restrictions_that_ban_nothing_are_counted(
    imported: Import, members: Members, tags: dict[str, str], reason: str
) -> None:
    drawing = arms()
    drawing.restriction(1, members, **{name.replace(":", "__"): tags[name] for name in tags})
    result = imported(drawing)
    assert not result.bans()
    assert result.counts.left_out == {reason: 1}


def test_exceptions_of_other_vehicles_dont_matter(imported: Import) -> None:
    drawing = arms()
    drawing.turn("no_left_turn", 4, 1, 5, **{"except": "psv;bicycle"})
    assert turns(imported(drawing)) == {(4, 1, 5)}


def test_other_relations_are_no_restrictions(imported: Import) -> None:
    drawing = arms()
    drawing.restriction(1, FROM_4_TO_2, type="route", restriction="no_left_turn")
    result = imported(drawing)
    assert not result.bans()
    assert not result.counts.left_out


def test_a_ban_twice_is_one(imported: Import) -> None:
    drawing = arms()
    drawing.turn("no_left_turn", 4, 1, 5)
    drawing.turn("no_left_turn", 4, 1, 5)
    drawing.turn("only_right_turn", 4, 1, 3)
    assert len(imported(drawing).road_map.bans) == 3


def test_turning_back_is_banned_by_default(imported: Import) -> None:
    """At the junction of three roads, but not at their other ends."""
    drawing = Drawing({1: (0, 0), 2: (1000, 0), 3: (2000, 0), 4: (1000, 1000)})
    drawing.way(1, [1, 2])
    drawing.way(2, [2, 3])
    drawing.way(3, [2, 4])
    assert turns(imported(drawing, Options())) == {(1, 2, 1), (3, 2, 3), (4, 2, 4)}
    assert not imported(drawing, Options(u_turns="plain")).bans()
    assert not imported(drawing, Options(u_turns="allowed")).bans()
