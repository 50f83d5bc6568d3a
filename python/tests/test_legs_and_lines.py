"""`Map.legs` and `Map.lines` answer what the program answers, on a map and on a store of it."""

import json
import pytest
from pathlib import Path
from typing import Any

import olr
from asking import as_json, draw_map, draw_references, said
from conftest import REFERENCE, TOP, Program, by_default
from olr.regions.making import make_store_of_folder

BOX = (7_410_000, 49_870_000, 7_420_000, 49_872_000)
UNMATCHED = "CwVGnSN2zhunAwEB/2IrAQ=="


@pytest.fixture(scope="module")
def drawn(tmp_path_factory: pytest.TempPathFactory) -> Path:
    """A drawn map, with a store of it."""
    folder = draw_map(tmp_path_factory.mktemp("drawn") / "map")
    make_store_of_folder(folder, folder / "store.gpkg")
    return folder


def legs_of(asked: olr.Map, text: str, **settings: Any) -> Any:
    """The legs as the program's JSON, or the text of a fault."""
    try:
        return as_json(asked.legs(text, **settings))
    except olr.Fault as fault:
        return fault.text


@pytest.mark.parametrize("near", [1, 100])
def test_legs(near: int, drawn: Path, program: Program) -> None:
    texts = draw_references(drawn, 60)
    with (
        olr.Map(drawn, program=program.path) as folder,
        olr.Map(drawn / "store.gpkg", program=program.path) as store,
    ):
        for text in texts:
            words = by_default("legs", "--map", drawn, "--near", near)
            expected = said(program, *words, "--", text)
            if isinstance(expected, dict) and expected["matching"] is not None:
                expected["matching"] = expected["matching"].split("@")[0]
            assert legs_of(folder, text, near=near) == legs_of(store, text, near=near) == expected


def test_legs_of_a_cursor(program: Program) -> None:
    with olr.Map(TOP / "examples", program=program.path) as town:
        page = town.match("CwVF+yN2yhpnBAFdAAsaFg==")
        assert len(page) == 6
        for matching in page:
            legs = town.legs("CwVF+yN2yhpnBAFdAAsaFg==", at=matching.cursor)
            assert legs.matching == matching.cursor
            assert [leg.length for leg in legs] == [leg.length for leg in matching.legs]
        with pytest.raises(olr.Fault, match="CursorNotHere"):
            town.legs(REFERENCE, at=page.matchings[1].cursor)
        with pytest.raises(olr.Fault, match="BadCursor"):
            town.legs(REFERENCE, at="x")
        with pytest.raises(TypeError, match="at is a cursor, such as the next of a page, not int"):
            town.legs(REFERENCE, at=1)  # type: ignore[arg-type]
        nothing = town.legs(UNMATCHED)
        assert not nothing and repr(nothing) == "<Legs: no matching>"


@pytest.mark.parametrize("shape", [False, True])
def test_lines(shape: bool, drawn: Path, program: Program) -> None:
    """Some of them, all of them and none of them."""
    with (
        olr.Map(drawn, program=program.path) as folder,
        olr.Map(drawn / "store.gpkg", program=program.path) as store,
    ):
        whole = folder.lines((-180_000_000, -80_000_000, 180_000_000, 80_000_000), shape=True)
        assert len(whole) == 3000 and not whole.more
        spots = [spot for line in whole for spot in line.shape or ()]
        middle = spots[len(spots) // 2]
        for size in (0, 100_000):
            lon, lat = middle
            box = (lon - size, lat - size, lon + size, lat + size)
            edges = ",".join(map(str, box))
            words = ["lines", "--map", drawn, "--box", edges, "--most", 7, *["--shape"][:shape]]
            expected = said(program, *words)
            for one in (folder, store):
                found = one.lines(box, most=7, shape=shape)
                assert as_json(found) == found.to_dict() == expected
                assert list(found) == list(found.lines) and len(found) == len(expected["lines"])
            assert bool(expected["lines"]) and expected["more"] == (size > 0)
        assert not folder.lines((0, 0, 0, 0))


def test_what_is_no_box(program: Program) -> None:
    with olr.Map(TOP / "examples", program=program.path) as town:
        for box in ((1, 2, 3), (1, 2, 3.5, 4), ("1", "2", "3", "4")):
            with pytest.raises(TypeError, match="a box is west, south, east and north"):
                town.lines(box)  # type: ignore[arg-type]
        for box in ((2, 0, 1, 0), (0, 2, 0, 1), (0, 0, 10**10, 0)):
            with pytest.raises(olr.Fault, match="BadNumber box"):
                town.lines(box)
        with pytest.raises(olr.Fault, match="BadNumber most"):
            town.lines(BOX, most=0)
        with pytest.raises(olr.Fault, match="BadNumber near"):
            town.legs(REFERENCE, near=101)


def test_how_they_are_shown(program: Program) -> None:
    with olr.Map(TOP / "examples", program=program.path) as town:
        legs, lines = town.legs(REFERENCE), town.lines(BOX, shape=True)
    for found in (legs, lines):
        assert json.loads(json.dumps(found.to_dict())) == as_json(found)
        assert "<table>" in found._repr_html_()
    assert lines.lines[0].shape and lines.lines[0].shape[0].lat > BOX[1] - 10_000
