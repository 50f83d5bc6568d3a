"""How much memory making a store takes, by the lines of its map."""

import pytest
import tracemalloc
from pathlib import Path

from olr.model import columns
from olr.regions import index, making, packing
from olr.regions.making import make_store_of_folder
from stores import folder_of

MOST = 115
"""Bytes of a line, with its share of the nodes."""
PIECES = (
    (columns, "PIECE", 1 << 11),
    (packing, "AT_ONCE", 200),
    (making, "AT_ONCE", 200),
    (index, "NODES", 1),
)
"""So little is worked on at a time that each of the maps has many pieces."""


def street(folder: Path, nodes: int) -> Path:
    """A street along the equator with two lines between a node and the next one."""
    pairs = [(node, node + 1) for node in range(1, nodes)]
    spots = [f"{node},{node},0\n" for node in range(1, nodes + 1)]
    there = [f"{2 * first},{first},{second},3,3,1,\n" for first, second in pairs]
    back = [f"{2 * first + 1},{second},{first},3,3,1,\n" for first, second in pairs]
    lines = "".join(["id,from,to,class,form,length,shape\n", *there, *back])
    return folder_of(folder, "".join(["id,lon,lat\n", *spots]), lines, "from,to\n")


def peak(folder: Path) -> int:
    """The most bytes that making the store of a map took at once."""
    tracemalloc.start()
    try:
        make_store_of_folder(folder, folder / "store.gpkg")
        return tracemalloc.get_traced_memory()[1]
    finally:
        tracemalloc.stop()


def test_a_line_takes_a_bounded_number_of_bytes(
    tmp_path: Path, monkeypatch: pytest.MonkeyPatch
) -> None:
    """Beside what a map of any size takes, which two maps have in common."""
    for module, name, value in PIECES:
        monkeypatch.setattr(module, name, value)
    few, many = (street(tmp_path / str(nodes), nodes) for nodes in (2_000, 6_000))
    more_lines = 2 * 4_000
    assert (peak(many) - peak(few)) / more_lines < MOST
