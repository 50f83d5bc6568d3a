"""Which ways are roads, of what class and form, and in which directions."""

import pytest
from pathlib import Path

from conftest import Import
from drawing import Drawing
from olr.osm.importing import Options

STREET = {1: (0, 0), 2: (1000, 0), 3: (2000, 0)}
FORWARD, BACKWARD, BOTH = {(1, 2)}, {(2, 1)}, {(1, 2), (2, 1)}


def street(highway: str = "residential", **tags: str) -> Drawing:
    """A way from node 1 to node 2, and a two-way street behind it, so that there is a map in any case."""
    drawing = Drawing(STREET)
    drawing.way(7, [1, 2], highway, **tags)
    drawing.way(8, [2, 3])
    return drawing


@pytest.mark.parametrize(
    "tags, directions",
    [
        ({}, BOTH),
        ({"oneway": "yes"}, FORWARD),
        ({"oneway": "1"}, FORWARD),
        ({"oneway": "-1"}, BACKWARD),
        ({"oneway": "reverse"}, BACKWARD),
        ({"oneway": "no"}, BOTH),
        ({"junction": "roundabout"}, FORWARD),
        ({"junction": "circular"}, FORWARD),
        ({"junction": "roundabout", "oneway": "-1"}, BACKWARD),
        ({"highway": "motorway"}, FORWARD),
        ({"highway": "motorway_link"}, FORWARD),
        ({"highway": "motorway", "oneway": "no"}, BOTH),
        ({"highway": "trunk"}, BOTH),
        ({"highway": "trunk_link"}, BOTH),
        ({"oneway": "yes", "oneway:bicycle": "no"}, FORWARD),
        ({"oneway": "yes", "oneway:motor_vehicle": "no"}, BOTH),
        ({"motor_vehicle:backward": "no"}, FORWARD),
        ({"vehicle:forward": "no"}, BACKWARD),
        ({"oneway": "yes", "access:backward": "no"}, FORWARD),
        ({"oneway": "yes", "vehicle:forward": "no"}, set()),
        ({"access": "no"}, set()),
        ({"access": "private"}, set()),
        ({"motor_vehicle": "no"}, set()),
        ({"motor_vehicle": "agricultural"}, set()),
        ({"access": "no", "motor_vehicle": "yes"}, BOTH),
        ({"access": "yes", "motor_vehicle": "no"}, set()),
        ({"motor_vehicle": "no", "motorcar": "yes"}, BOTH),
        ({"access": "destination"}, BOTH),
        ({"bicycle": "no"}, BOTH),
        ({"motor_vehicle": "destination;no"}, BOTH),
        ({"access": "yes;private"}, BOTH),
        ({"access": "private; no"}, set()),
        ({"motor_vehicle": "agricultural;forestry"}, set()),
        ({"motor_vehicle:backward": "no;bus", "access": "yes"}, FORWARD),
        ({"access": "no", "motor_vehicle": "no;destination"}, BOTH),
        ({"access": ""}, BOTH),
        ({"oneway": "Yes"}, FORWARD),
        ({"oneway": " yes "}, FORWARD),
        ({"highway": "motorway", "oneway": "No"}, BOTH),
        ({"highway": "Residential "}, BOTH),
        ({"junction": "Roundabout"}, FORWARD),
        ({"access": "Private"}, set()),
        ({"area": "Yes"}, set()),
        ({"area": "yes"}, set()),
        ({"highway": "footway"}, set()),
        ({"highway": "construction"}, set()),
        ({"highway": "service"}, set()),
    ],
)
def test_directions(
    imported: Import, tags: dict[str, str], directions: set[tuple[int, int]]
) -> None:
    result = imported(street(**{name.replace(":", "__"): value for name, value in tags.items()}))
    assert result.routes() == directions | {(2, 3), (3, 2)}
    assert sum(result.counts.left_out.values()) == (0 if directions else 1)


@pytest.mark.parametrize(
    "tags, road_class, form",
    [
        ({"highway": "motorway"}, 0, 1),
        ({"highway": "motorway_link"}, 0, 6),
        ({"highway": "trunk"}, 1, 3),
        ({"highway": "trunk", "oneway": "yes"}, 1, 2),
        ({"highway": "primary", "oneway": "-1"}, 2, 2),
        ({"highway": "primary_link", "oneway": "yes"}, 2, 6),
        ({"highway": "secondary"}, 3, 3),
        ({"highway": "secondary", "dual_carriageway": "yes"}, 3, 2),
        ({"highway": "tertiary", "oneway": "yes"}, 4, 3),
        ({"highway": "unclassified"}, 5, 3),
        ({"highway": "residential"}, 6, 3),
        ({"highway": "living_street"}, 7, 3),
        ({"highway": "road"}, 7, 0),
        ({"highway": "tertiary", "junction": "roundabout"}, 4, 4),
        ({"highway": "primary", "junction": "circular"}, 2, 5),
    ],
)
def test_class_and_form(imported: Import, tags: dict[str, str], road_class: int, form: int) -> None:
    result = imported(street(**tags))
    lines = [line for line in result.road_map.lines if {line.start, line.end} == {1, 2}]
    assert {(line.road_class, line.form) for line in lines} == {(road_class, form)}


def test_service_roads_are_taken_if_asked_for(imported: Import) -> None:
    result = imported(street("service"), Options(service=True, u_turns="allowed"))
    assert result.routes() == {(1, 2), (2, 1), (2, 3), (3, 2)}
    assert (result.line(70000).road_class, result.line(70000).form) == (7, 7)


def test_other_highways_are_counted_by_value(imported: Import) -> None:
    drawing = Drawing(STREET)
    drawing.way(1, [1, 2])
    for id, value in enumerate(("footway", "Track", "footway ", "x" * 60), 2):
        drawing.way(id, [1, 2], value)
    assert imported(drawing).counts.left_out == {
        "ways that are not roads: highway=footway": 2,
        "ways that are not roads: highway=track": 1,
        f"ways that are not roads: highway={'x' * 37}...": 1,
    }


def test_many_other_highways(imported: Import) -> None:
    """The twenty most frequent values are counted by their names, and all others together."""
    drawing = Drawing(STREET)
    drawing.way(1, [1, 2])
    for id in range(2, 27):
        drawing.way(id, [1, 2], f"value{id}")
    for id in range(27, 30):
        drawing.way(id, [1, 2], "footway")
    left_out = imported(drawing).counts.left_out
    reason = "ways that are not roads"
    assert len(left_out) == 21
    assert left_out[f"{reason}: highway=footway"] == 3
    assert left_out[f"{reason}: other values"] == 6


def test_service_roads_that_are_closed_stay_out_in_any_case(imported: Import) -> None:
    """They aren't counted among those that --service takes in."""
    drawing = Drawing(STREET)
    drawing.way(1, [1, 2])
    drawing.way(2, [2, 3], "service", access="private")
    drawing.way(3, [2, 3], "service")
    assert imported(drawing).counts.left_out == {
        "service roads (--service takes them in)": 1,
        "ways that are closed to motor vehicles": 1,
    }


def test_each_way_is_counted_once(imported: Import) -> None:
    """What is on the map and what was left out are all ways; what was changed is on the map."""
    drawing = Drawing(STREET)
    drawing.way(1, [1, 2], oneway="reversible")
    drawing.way(1, [1, 2])
    drawing.way(2, [3], oneway="reversible")
    drawing.way(3, [2, 3], "service", area="yes")
    drawing.way(4, [2, 3], "service", access="no")
    drawing.way(5, [2, 3], "steps", access="no")
    drawing.way(6, [2, 3], access="no", oneway="reversible")
    result = imported(drawing)
    assert {line.id // 10_000 for line in result.road_map.lines} == {1}
    assert sum(result.counts.left_out.values()) == 6
    assert sum(result.counts.changed.values()) == 1


@pytest.mark.parametrize(
    "value, reason",
    [
        ("reversible", "one-way roads whose direction changes, taken as two-way"),
        ("perhaps", "values of oneway that aren't known, taken as if they weren't there"),
    ],
)
def test_doubtful_directions_are_counted(imported: Import, value: str, reason: str) -> None:
    result = imported(street(oneway=value))
    assert result.routes() >= BOTH
    assert result.counts.changed == {reason: 1}


def test_ids_and_origins(imported: Import) -> None:
    drawing = Drawing(STREET | {4: (1000, 1000)})
    drawing.way(1234567890, [1, 2, 3])
    drawing.way(5, [2, 4], oneway="-1")
    road_map = imported(drawing).road_map
    assert [(line.id, line.start, line.end) for line in road_map.lines] == [
        (50001, 4, 2),
        (12345678900000, 1, 2),
        (12345678900001, 2, 1),
        (12345678900002, 2, 3),
        (12345678900003, 3, 2),
    ]
    assert [tuple(origin) for origin in road_map.origins][:2] == [
        (50001, "5", "backward", 0, "", ()),
        (12345678900000, "1234567890", "forward", 0, "", ()),
    ]


def test_another_table(imported: Import, tmp_path: Path, top: Path) -> None:
    table = (top / "python/olr/osm/tags.toml").read_text(encoding="utf-8")
    assert "residential = { class = 6, form = 3 }" in table
    other = table.replace(
        "residential = { class = 6, form = 3 }", "track = { class = 7, form = 7 }"
    )
    file = tmp_path / "other.toml"
    file.write_text(other, encoding="utf-8")
    drawing = Drawing(STREET)
    drawing.way(7, [1, 2], "track")
    drawing.way(8, [2, 3])
    assert imported(drawing, Options(tags=file, u_turns="allowed")).routes() == BOTH
