"""The region of a reference: its answers are those on the whole map, and a smaller region's aren't."""

import base64
import dataclasses
import math
import numpy as np
import pytest
import random
from collections.abc import Callable
from fractions import Fraction
from itertools import product
from pathlib import Path
from typing import NamedTuple

from asking import draw_map, draw_references
from conftest import Program
from exact_paths import LineGraph, drawn_path, encode
from olr.arrays import Floats
from olr.asking.once import decode
from olr.counts import Counts
from olr.model.fault import Fault
from olr.model.map_folder import read_map, write_map
from olr.model.questions import What
from olr.model.reference import points_of, read_points, read_reference
from olr.model.road_map import MICRODEGREE
from olr.osm.importing import Options as OsmOptions
from olr.osm.importing import import_osm
from olr.regions import region, shortness
from olr.regions.making import make_store_of_folder
from olr.regions.options import Options
from olr.regions.plane import Disc, Discs, scale_at, scales_at
from olr.regions.store import Store
from olr.vector.fields import Fields
from olr.vector.importing import import_vector
from olr.vector.options import Options as VectorOptions
from region_maps import (
    EAST,
    Asked,
    Drawing,
    Point,
    Spot,
    decimetres,
    first_position,
    hostile_map,
    hostile_text,
    known,
    open_store,
    text_of,
)
from test_extracts import EXTRACTS, FOLDER
from vector_files import STREETS

ANY_WAY = {"bearing": 16}
WHATS: list[What] = ["candidates", "match", "places", "why"]


class Case(NamedTuple):
    """A reference, and a map on which its answer needs the last metre of its region."""

    drawing: Drawing
    text: str
    what: What
    options: Options


def asked(program: Program, case: Case) -> Asked:
    """The question of a case."""
    return Asked(program, case.what, case.options, ANY_WAY)


def differs(program: Program, case: Case, store: Store, place: Path) -> bool:
    """Whether the answer on the region isn't that on the whole map."""
    whole = place / "whole"
    if not whole.exists():
        case.drawing.write(whole)
    question = asked(program, case)
    return bool(question.differences(whole, store, [case.text], place / "part"))


def tip(
    what: What,
    options: Options,
    *,
    interval: int = 9,
    longest: int | None = None,
    stretch: float = 1.0,
    displaced: bool = True,
    first: list[Spot] | None = None,
    drawing: Drawing | None = None,
    detour: bool = False,
) -> Case:
    """A leg to the east whose path goes as far to the west as its length admits, and comes back. With `displaced` both places lie
    as far to the west of their points as the radius admits. `stretch` is that of all lines; with `detour` two lines lead far
    beyond the tip in a few metres. `first` are points before the leg's first one, `drawing` has the roads between them.
    """
    drawing = drawing or Drawing()
    before = first or []
    lon, lat = before.pop() if before else (0, 0)
    top = before[0][1] if before else lat
    moved = int(options.radius / MICRODEGREE * 10_000 / scale_at(top)) - 1 if displaced else 0
    start, end = lon - moved, lon + 1000 - moved
    limit = longest or int(region._longest(np.array([interval]), options.percent, options.slack)[0])
    limit -= 100 if detour else 0
    step = limit // 600
    """In microdegrees, about 3 percent of half the path."""

    def walk(turn: int) -> list[list[Spot]]:
        first_part: list[list[Spot]] = [
            [(start, lat), (start - 30, lat)],
            [(start - 30, lat), (turn + step, lat)],
            [(turn + step, lat), (turn, lat)],
        ]
        return [
            *first_part,
            [(turn, lat), (end - 100, lat + 1)],
            [(end - 100, lat + 1), (end, lat)],
        ]

    def length(spots: list[Spot]) -> int:
        return max(1, -int(-decimetres(spots) // stretch))

    turn = start - 30 - step - 10
    while sum(map(length, walk(turn - 1))) <= limit:
        turn -= max(1, (limit - sum(map(length, walk(turn)))) // 4)
    lines = walk(turn)
    if detour:
        # The path is shorter than it may be, and two lines of 2 m lead 30 km away and back.
        away = turn - 300_000
        lines[2:3] = [[(turn + step, lat), (away, lat)], [(away, lat), (away - 20, lat)]]
        lines[4:4] = [[(away - 20, lat), (turn, lat)]]
    for spots in lines:
        far = detour and decimetres(spots) > 200_000
        drawing.line(*spots, length=20 if far else length(spots))
    points = [Point(*spot, EAST, 246) for spot in before]
    points += [Point(lon, lat, EAST, interval), Point(lon + 1000, lat)]
    return Case(drawing, text_of(points), what, options)


def climbing() -> tuple[Drawing, list[Spot]]:
    """Points along a road to the north, 14 km apart, from latitude 60 on."""
    spots = [first_position((0, 60_000_000))]
    drawing = Drawing()
    for _ in range(12):
        spots.append((0, spots[-1][1] + 130_000))
        drawing.line(*spots[-2:])
    return drawing, spots


def many_roads(count: int = 300) -> Drawing:
    """Roads far away."""
    drawing = Drawing()
    for number in range(count):
        drawing.line((number * 1000, -9_000_000), (number * 1000 + 900, -9_000_000))
    return drawing


def one_line(lat: int, what: What, options: Options) -> Case:
    """A line beside both points, to the north of them."""
    drawing = Drawing()
    drawing.line((0, lat), (1000, lat))
    drawing.line((0, 40_000), (1000, 40_000))
    return Case(drawing, text_of([Point(0, 0, EAST, 1), Point(1000, 0)]), what, options)


def with_radii(change: Callable[[Floats], Floats]) -> Callable[[pytest.MonkeyPatch, Store], None]:
    """Other radii of the discs of legs."""

    def mutate(patch: pytest.MonkeyPatch, _: Store) -> None:
        true = region._leg_radii
        patch.setattr(region, "_leg_radii", lambda *all: change(true(*all)))

    return mutate


def with_constant(name: str, value: object) -> Callable[[pytest.MonkeyPatch, Store], None]:
    """Another value of a name of `region`."""
    return lambda patch, _: patch.setattr(region, name, value)


def with_shortness(**values: float) -> Callable[[pytest.MonkeyPatch, Store], None]:
    """A store that knows less of its lines."""

    def mutate(patch: pytest.MonkeyPatch, store: Store) -> None:
        known = store.shortness
        excess = known.excess * values.pop("excess_times", 1.0)
        patch.setattr(store, "shortness", dataclasses.replace(known, excess=excess, **values))

    return mutate


SHORT = Options(radius=1, percent=0, slack=0)
Mistake = tuple[Callable[[], Case], Callable[[pytest.MonkeyPatch, Store], None]]
MISTAKES: dict[str, Mistake] = {
    "no margin about points": (
        lambda: one_line(9, "candidates", Options(radius=1)),
        with_constant("POINT_MARGIN", 0.0),
    ),
    "a leg's disc 5 percent less": (
        lambda: tip("match", Options()),
        with_radii(lambda radii: radii * 0.95),
    ),
    "a leg's disc without the radius": (
        lambda: tip("match", Options()),
        with_radii(lambda radii: radii - 100),
    ),
    "lines as long as their shapes": (
        lambda: tip("match", Options(), stretch=1.5),
        with_shortness(usual=1.0, greatest=1.0),
    ),
    "no line shorter than usual": (
        lambda: tip("match", Options(), drawing=many_roads(), detour=True),
        with_shortness(excess_times=0.0),
    ),
    "no growth to the north": (
        lambda: tip(
            "match",
            Options(radius=1),
            interval=255,
            displaced=False,
            drawing=climbing()[0],
            first=climbing()[1],
        ),
        with_constant("_growth", lambda discs: np.ones(len(discs.lon))),
    ),
    "why without greater radii": (
        lambda: one_line(8000, "why", Options(nearest=0)),
        with_constant("GREATEST_RADIUS", 100),
    ),
    "why without longer paths": (
        lambda: tip("why", Options(nearest=0), interval=100, longest=128_372),
        with_constant("_longest", lambda interval, *_: np.full(len(interval), 77_242)),
    ),
    "why without the nearest lines": (
        lambda: one_line(40_001, "why", Options(nearest=1)),
        with_constant("_nearest_radius", lambda *_: 0.0),
    ),
}


@pytest.mark.parametrize("mistake", MISTAKES)
def test_smaller_regions_change_an_answer(
    mistake: str, program: Program, tmp_path: Path, monkeypatch: pytest.MonkeyPatch
) -> None:
    make, mutate = MISTAKES[mistake]
    case = make()
    with open_store(case.drawing, tmp_path / "store.gpkg") as store:
        part = store.lines_meeting(
            region.discs_of(known(case.text), case.options, store, case.what)
        )
        assert not differs(program, case, store, tmp_path)
        mutate(monkeypatch, store)
        less = store.lines_meeting(
            region.discs_of(known(case.text), case.options, store, case.what)
        )
        assert set(less) < set(part)
        assert differs(program, case, store, tmp_path)


@pytest.mark.parametrize("seed", range(12))
def test_drawn_maps(seed: int, program: Program, tmp_path: Path) -> None:
    """Nets of roads whose lengths have little to do with their shapes, on both sides of the equator."""
    draw = random.Random(seed)
    drawing = hostile_map(draw, [0, 21_000_000, 50_000_000, -33_000_000, 68_000_000][seed % 5])
    whole = drawing.write(tmp_path / "whole")
    assert program.fault(whole) == ""
    with open_store(drawing, tmp_path / "store.gpkg") as store:
        for what in WHATS:
            texts = [hostile_text(draw, drawing) for _ in range(5)]
            options = Options(
                radius=draw.choice([10, 100, 400]),
                percent=draw.choice([0, 30, 100]),
                slack=draw.choice([0, 300]),
                nearest=draw.choice([0, 1, 8, 64]),
            )
            question = Asked(program, what, options, ANY_WAY)
            assert question.differences(whole, store, texts, tmp_path / "part") == []


def test_a_generated_map(program: Program, tmp_path: Path) -> None:
    """References along paths; every ninth is damaged."""
    whole = draw_map(tmp_path / "whole", 3000, 6000)
    texts = draw_references(whole, 30)
    make_store_of_folder(whole, tmp_path / "store.gpkg")
    with Store.open(tmp_path / "store.gpkg") as store:
        for what in WHATS:
            question = Asked(program, what, Options(), {})
            assert question.differences(whole, store, texts, tmp_path / "part") == []
        discs = region.discs_of(known(texts[1]), Options(), store, "match")
        assert len(store.lines_meeting(discs)) < 2000


def extracts(tmp_path: Path) -> list[Path]:
    """Maps of real roads, with bans on turning back: a part of West Oakland, and the streets of Tempe."""
    oakland = import_osm(FOLDER / EXTRACTS[0], OsmOptions(service=True), Counts())
    tempe = import_vector(STREETS, VectorOptions(Fields("5", "3", id="ID")), Counts())
    for name, made in (("oakland", oakland), ("tempe", tempe)):
        write_map(made.road_map, tmp_path / name, made.about)
    return [tmp_path / "oakland", tmp_path / "tempe"]


def test_real_roads(program: Program, tmp_path: Path) -> None:
    """References to paths, matched and not."""
    for whole in extracts(tmp_path):
        network, draws = LineGraph(read_map(whole)), random.Random(7)
        texts: list[str] = []
        while len(texts) < 12:
            path = drawn_path(network, draws)[:4]
            text = encode(network, path) if len(path) > 1 else None
            texts += [] if text is None else [text]
        make_store_of_folder(whole, tmp_path / "store.gpkg", force=True)
        with Store.open(tmp_path / "store.gpkg") as store:
            for what, options in product(WHATS, [Options(radius=30), Options(percent=0, slack=0)]):
                question = Asked(program, what, options, {})
                assert question.differences(whole, store, texts, tmp_path / "part") == []
            lines = store.lines_meeting(region.discs_of(known(texts[0]), Options(), store, "match"))
            assert 0 < store.sizes_of(lines).bans <= store.sizes.bans
    assert len(lines) < store.sizes.lines / 2


def distance(disc: Disc, west: float, south: float, east: float, north: float) -> float:
    """How far a box is from the middle of a disc, in metres."""
    lon, lat = min(max(disc.lon, west), east), min(max(disc.lat, south), north)
    return math.hypot((lon - disc.lon) * disc.scale / 10_000, lat - disc.lat) * MICRODEGREE


def exact_scale(lat: float) -> int:
    """The scale of a latitude, by fractions."""
    square = Fraction(min(math.ceil(abs(lat)), 80_000_000)) ** 2
    turn = Fraction(180_000_000) ** 2
    return math.floor(10_000 * (turn - 4 * square) / (turn + square))


def growth_of(disc: Disc) -> float:
    """The growth of a disc."""
    return max(1.0, disc.scale / exact_scale(abs(disc.lat) + disc.radius / MICRODEGREE))


def leg_radius(start: Disc, middle: Disc, radius: int, longest: int, store: Store) -> float:
    """The radius of a leg's disc, as docs/REGIONS.md has it: each line is looked at in each round."""
    known = store.shortness
    boxes = list(zip(known.west, known.south, known.east, known.north))
    near = start._replace(radius=radius + 1.0)
    meets = [distance(near, *box) <= near.radius for box in boxes]
    bounds = []
    for stretch, counted in ((known.usual, True), (known.greatest, False)):
        metres = (longest + 1) / 10 * stretch
        before, found = (0.0, 0.0), (metres, 1.0)
        rounds = 0
        while found != before and rounds < 20:
            reach = start._replace(radius=found[1] * found[0] + radius + 6)
            excess = sum(
                known.excess[i]
                for i, (lon, lat) in enumerate(zip(known.lon, known.lat))
                if counted and (meets[i] or distance(reach, lon, lat, lon, lat) <= reach.radius)
            )
            before, found = found, (metres + 2 * excess, growth_of(reach))
            rounds += 1
        if found != before:
            everything = float(known.excess.sum()) if counted else 0.0
            found = metres + 2 * everything, start.scale / scale_at(80_000_000)
        path, growth = found
        for _ in range(2):
            bound = growth * path / 2 + radius + 6
            growth = min(growth, growth_of(middle._replace(radius=bound)))
        bounds.append(bound)
    return min(bounds)


@pytest.mark.parametrize("seed", range(8))
def test_discs_of_many_references(
    seed: int, tmp_path: Path, monkeypatch: pytest.MonkeyPatch
) -> None:
    """Beside those computed one by one, as far north as 79.9 degrees, and with lengths far below those of shapes."""
    draw = random.Random(seed)
    south = [0, 52_000_000, -68_000_000, 79_700_000][seed % 4]
    drawing = hostile_map(draw, south) if seed < 4 else many_roads(1200)
    for number in range(12 * (seed // 4)):
        # Each leads on from where the one before ends, and has 0.1 to 10 m for some kilometres.
        starts = [(20_000 * at, south + 13_000 * at) for at in (number, number + 1)]
        drawing.line(*starts, length=draw.choice([1, 20, 100]))
        drawing.line((300_000, south + 200_000), starts[0], length=draw.choice([1, 20, 100]))
    near = Drawing()
    near.nodes = {
        spot: id for spot, id in drawing.nodes.items() if abs(spot[1] - south) < 2_000_000
    }
    references = [known(hostile_text(draw, near)) for _ in range(20)]
    for spot in draw.sample(list(near.nodes), 10):
        lon, lat = first_position(spot)
        references.append(known(text_of([Point(lon, lat, EAST, 0), Point(lon + 500, lat)])))
    options = Options(draw.choice([1, 100, 1000]), draw.choice([0, 100]), draw.choice([0, 9000]))
    with open_store(drawing, tmp_path / "store.gpkg") as store:
        together = region.discs_of_each(list(map(points_of, references)), options, store, "match")
        monkeypatch.setattr(shortness, "MOST_PAIRS", 3)
        assert [one.each() for one in together] == [
            region.discs_of(one, options, store, "match") for one in references
        ]
        for reference, discs in zip(references, together):
            scale = scale_at(reference.points[0].lat)
            about = [
                Disc(point.lon, point.lat, options.radius + 1.0, scale)
                for point in reference.points
            ]
            legs = discs.each()[1 - len(about) :]
            kept = set(about)
            for start, end, point, leg in zip(about, about[1:], reference.points, legs):
                assert point.interval is not None
                percent = 100 + options.percent
                longest = 586 * (point.interval + 1) * percent // 100 + options.slack
                middle = Disc((start.lon + end.lon) / 2, (start.lat + end.lat) / 2, 0.0, scale)
                radius = leg_radius(start, middle, options.radius, longest, store)
                assert leg == middle._replace(radius=leg.radius)
                assert leg.radius == pytest.approx(radius, rel=1e-12)
                for disc in (start, end):
                    place = disc.lon, disc.lat
                    if distance(leg, *place, *place) + disc.radius + 0.001 <= leg.radius:
                        kept.discard(disc)
            assert set(discs.each()[: 1 - len(about)]) == kept


@pytest.mark.parametrize("seed", range(5))
def test_the_excess_near_discs(seed: int, monkeypatch: pytest.MonkeyPatch) -> None:
    """Of lines that start in one or meet another one: each is looked at. Some lead far from where they start."""
    draw = np.random.default_rng(seed)
    count, spread = 60, 10.0 ** draw.integers(3, 7)
    lon, lat = draw.uniform(-spread, spread, (2, count))
    west, south, east, north = (
        draw.exponential(spread / 5, (4, count)) * draw.integers(0, 2, 4)[:, None]
    )
    boxes = (lon - west, lat - south, lon + east, lat + north)
    ids, excess = np.arange(count), draw.uniform(0, 9, count)
    some = shortness.Shortness(1.0, 2.0, ids, lon, lat, *boxes, excess)
    scale, radii = np.full(80, 6000.0), draw.exponential(spread / 30, (2, 80))
    first_lon, first_lat, second_lon, second_lat = draw.uniform(-spread, spread, (4, 80))
    starting = Discs(first_lon, first_lat, radii[0], scale)
    meeting = Discs(second_lon, second_lat, radii[1], scale)
    monkeypatch.setattr(shortness, "MOST_PAIRS", 500)
    found = some.excess_of(starting, meeting)
    for first, second, metres in zip(starting.each(), meeting.each(), found):
        wanted = sum(
            excess[i]
            for i in range(count)
            if distance(first, lon[i], lat[i], lon[i], lat[i]) <= first.radius
            or distance(second, *(edge[i] for edge in boxes)) <= second.radius
        )
        assert metres == pytest.approx(wanted)
    assert found.any()


def test_the_scale_of_each_latitude() -> None:
    """For drawn latitudes and those at the ends."""
    draw = random.Random(5)
    lats = [0, 1, 80_000_000, 79_999_999, *(draw.randrange(80_000_001) for _ in range(2000))]
    wanted = [exact_scale(lat) for lat in lats]
    assert scales_at(np.array(lats)).tolist() == scales_at(-np.array(lats)).tolist() == wanted
    assert scale_at(0.5) == wanted[1] and scale_at(1e12) == wanted[2]


def test_references_are_read_as_by_the_program(program: Program) -> None:
    """Whole, cut, changed, and of all kinds: what the program refuses is refused."""
    draw = random.Random(4)
    texts = ["", "   ", "*", "Ax==", " CwAAAAAAABtoAQBkAAAbGA==\t", "CwAAAAAAABtoAQBkAAAbGA"]
    texts += ["A" * 344, "A" * 345, "KwAAAAAAAFtoAQBkAABbGAAAAAA=", "CwAAAEAAABtoAQBkAAAbGA=="]
    texts += ["KwRbWyNG9VpsCQCb/jubVEQ=", "CwAAAAAAABtoAQBkAAAbGB==", "CwAAAAAAABtoAQBkAAAbGé=="]
    for _ in range(250):
        between, offsets = draw.choice([0, 0, 0, 1, 2, 30, 31]), draw.randint(0, 2)
        content = bytearray(draw.randbytes(16 + 7 * between + offsets + draw.choice([0, 0, 0, 4])))
        content[0] = draw.choice([0x0B, 0x0B, 0x2B, 0x8B, 0xAB, 0x0A, 0x4B, 0x03])
        content[4] = draw.choice([0, 1, 0x38, 0x39, 0xC7, 0xC8, 0xFF])
        last = 15 + 7 * between
        content[last] = content[last] & 0x9F | draw.choice([0, 0x40, 0x20, 0x60])
        texts.append(base64.b64encode(content).decode())
    read = [read_reference(text) for text in texts]
    assert sum(one is not None for one in read) > 20
    for text, one in zip(texts, read):
        assert read_points(text) == (None if one is None else points_of(one))
        try:
            assert one == decode(text, program.path)
        except Fault:
            assert one is None


def test_numbers_of_other_names_change_no_region() -> None:
    assert Options.of({"radius": 50, "bearing": 2, "page": 3}) == Options(radius=50)
