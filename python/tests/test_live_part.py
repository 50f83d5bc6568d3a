"""What pages that were made for references carry of a map: the regions of all questions with any numbers, and the names of roads."""

import json
import math
import pytest
import shutil
from pathlib import Path

import olr
from conftest import Program
from live_maps import Made, draw_made
from olr.model.map_folder import LINES, read_map
from olr.model.questions import NEAR_OF_PAGES, NUMBERS, TOLERANCES, OfReference
from olr.model.reference import read_points, read_reference
from olr.model.road_map import MICRODEGREE, Origin
from olr.model.sources import IDS, write_origins
from olr.pages.alone import part
from olr.pages.alone.sources import SOURCES
from olr.regions.making import make_store_of_folder
from olr.regions.options import Options
from olr.regions.plane import Disc
from olr.regions.region import discs_of
from olr.regions.store import Store
from region_maps import Drawing, Point, text_of

GREATEST = {name: number.greatest for name, number in TOLERANCES.items()}


@pytest.fixture(autouse=True)
def no_whole_map(monkeypatch: pytest.MonkeyPatch) -> None:
    """No map is so small that it is carried whole."""
    monkeypatch.setattr(part, "WHOLE", 0)


@pytest.fixture(scope="module")
def made(tmp_path_factory: pytest.TempPathFactory) -> Made:
    """A drawn map, and two references that need less than half of it."""
    return draw_made(tmp_path_factory.mktemp("live"))


@pytest.mark.parametrize("whole", [0, 3000])
def test_a_store(made: Made, program: Program, monkeypatch: pytest.MonkeyPatch, whole: int) -> None:
    """The part is that of the map of which the store was made."""
    monkeypatch.setattr(part, "WHOLE", whole)
    store = made.place / "town.gpkg"
    make_store_of_folder(made.folder, store, force=True)
    parts = []
    for path in (made.folder, store):
        with olr.Map(path, program=program.path) as it:
            it.candidates(made.references[0])
            parts.append(part.part_for(it, made.references))
    one, other = parts
    assert one._replace(files={}, version=other.version) == other._replace(files={})
    for name, content in one.files.items():
        assert sorted(content.splitlines()) == sorted(other.files[name].splitlines()), name


@pytest.mark.parametrize("whole", [0, 3000])
def test_names_of_roads(
    made: Made, program: Program, tmp_path: Path, monkeypatch: pytest.MonkeyPatch, whole: int
) -> None:
    """Lines have the sources that they have on the whole map."""
    monkeypatch.setattr(part, "WHOLE", whole)
    named = tmp_path / "named"
    shutil.copytree(made.folder, named)
    lines = read_map(named).lines
    origins = [Origin(one.id, f"w{one.id}", "forward", 0, f"Road {one.id}") for one in lines]
    write_origins(named / IDS, origins, ())
    with olr.Map(named, program=program.path) as it:
        files = part.part_for(it, made.references[:1]).files
    found = json.loads(files[SOURCES])
    ids = [row.split(b",")[0].decode() for row in files[LINES].splitlines()[1:]]
    assert ids and found == [[f"w{id}", f"Road {id}", [int(id)]] for id in ids]


def in_metres(one: Disc, other: Disc) -> float:
    """How far the middles of two discs of a reference are apart."""
    east = (one.lon - other.lon) * one.scale / 10_000
    return math.hypot(east, one.lat - other.lat) * MICRODEGREE


@pytest.mark.parametrize("what", [*NUMBERS, "legs"])
def test_the_part_has_the_regions_of_all_questions(made: Made, what: OfReference) -> None:
    """Of the greatest tolerances: and of other paths, which are a little longer than these admit."""
    options = Options.of(GREATEST | {"nearest": 64, "near": NEAR_OF_PAGES})
    store = made.place / "discs.gpkg"
    make_store_of_folder(made.folder, store, force=True)
    with Store.open(store) as opened:
        for text in made.references:
            reference = read_reference(text)
            assert reference is not None
            (region,) = part.regions_of([read_points(text)], opened)
            for disc in discs_of(reference, options, opened, what):
                assert any(
                    in_metres(disc, it) + disc.radius <= it.radius + 1e-6
                    for it in region.discs.each()
                )


def test_the_part_has_the_nearest_lines(program: Program, tmp_path: Path) -> None:
    """So many as `why` may list, where they lie far away."""
    drawing = Drawing()
    for at in range(100):
        drawing.line((at * 3000, 0), (at * 3000 + 2990, 0))
    reference = text_of([Point(0, 0, interval=5), Point(3000, 0)])
    with olr.Map(drawing.write(tmp_path / "sparse"), program=program.path) as sparse:
        assert 64 <= part.part_for(sparse, [reference]).lines < 70
