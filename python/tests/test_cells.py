"""What is given in place of references, and of a map: cells of a table that have nothing, tables, and things of other types."""

import numpy
import os
import pandas
import pytest
from collections.abc import Callable, Iterator
from pathlib import Path
from typing import Any

import olr
from conftest import REFERENCE, TOP, Program
from olr.regions.making import make_store_of_folder

EXAMPLES = TOP / "examples"
NOTHING = [None, float("nan"), numpy.float64("nan"), pandas.NA, pandas.NaT]


@pytest.fixture(params=["folder", "store"])
def town(
    request: pytest.FixtureRequest,
    program: Program,
    tmp_path: Path,
    monkeypatch: pytest.MonkeyPatch,
) -> Iterator[olr.Map]:
    """The map of the examples."""
    monkeypatch.setenv("OLR_PROGRAM", os.fspath(program.path))
    path = EXAMPLES
    if request.param == "store":
        path = tmp_path / "town.gpkg"
        make_store_of_folder(EXAMPLES, path)
    with olr.Map(path) as asked:
        yield asked


def test_cells_that_have_nothing(town: olr.Map) -> None:
    """Each has its fault, and the others their answers, in their order."""
    cells: list[Any] = [REFERENCE, *NOTHING, "", REFERENCE]
    answered: list[list[Any]] = [list(town.matches(cells)), list(town.answers("why", cells))]
    for found in answered:
        assert found[1:-1] == [olr.Fault("Empty")] * (len(NOTHING) + 1)
        assert not isinstance(found[0], olr.Fault) and found[0] == found[-1]
    column = pandas.DataFrame({"ref": [REFERENCE, None, "bad"]})["ref"]
    answers = list(town.answers("places", column))
    assert [getattr(it, "verdict", None) for it in answers] == ["unique", None, None]
    assert answers[1:] == [olr.Fault("Empty"), olr.Fault("NotBase64")]


@pytest.mark.parametrize("cell", [7, 1.5, ["x"], object()])
def test_cells_of_other_types(cell: object, town: olr.Map) -> None:
    """One question and many say what takes such a column."""
    said = f"not {type(cell).__name__}: of a column with other cells olr.locate gives each a fault"
    asks: list[Callable[[], object]] = [
        lambda: town.match(cell),  # type: ignore[arg-type]
        lambda: list(town.matches([REFERENCE, cell])),  # type: ignore[list-item]
        lambda: pandas.Series([REFERENCE, cell]).apply(town.places),
    ]
    for ask in asks:
        with pytest.raises(TypeError) as raised:
            ask()
        assert str(raised.value) == f"a reference is a text, {said}"
    table = pandas.DataFrame({"ref": [REFERENCE, cell]})
    faults = olr.locate(table, "ref", town)["fault"].tolist()
    assert faults == [None, f"BadCell {type(cell).__name__}"]


def test_things_of_other_types(town: olr.Map) -> None:
    page, table = town.match(REFERENCE), pandas.DataFrame({"code": [REFERENCE], "speed": [50]})
    calls: list[tuple[Callable[[], Any], type[Exception], str]] = [
        (
            lambda: town.matches(table),
            TypeError,
            "matches takes many references, not a table: give one of its columns",
        ),
        (
            lambda: olr.to_geodataframe([page], "examples"),  # type: ignore[arg-type]
            TypeError,
            "to_geodataframe takes the map that was asked, not str",
        ),
        (
            lambda: olr.to_pieces([page], town),  # type: ignore[arg-type]
            TypeError,
            "to_pieces takes the network of a map, such as town.network(), not Map",
        ),
        (
            lambda: olr.locate(table, "ref", town),
            KeyError,
            "the table has no column 'ref': it has code, speed",
        ),
    ]
    for call, error, said in calls:
        with pytest.raises(error) as raised:
            call()
        assert raised.value.args == (said,)


def test_a_network_of_paths_as_texts() -> None:
    folder = str(EXAMPLES)
    read = olr.Network(f"{folder}/nodes.csv", f"{folder}/lines.csv")
    assert repr(read) == repr(olr.Network.read(folder))
