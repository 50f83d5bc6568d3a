"""The map that a page carries, as a folder: that of a folder, a store that isn't too large, or what of either reaches into a box."""

from collections.abc import Iterator
from contextlib import ExitStack, contextmanager
from pathlib import Path
from typing import NamedTuple

from olr.arrays import Integers
from olr.errors import ToolError
from olr.model.box import Box
from olr.model.map_folder import STORE, store_of
from olr.model.road_map import (
    GREATEST_LAT,
    GREATEST_LON,
    MOST_BANS,
    MOST_LINES,
    MOST_NODES,
    require_within_limits,
)
from olr.model.sources import Sources
from olr.regions.making import make_store_of_folder
from olr.regions.scratch import scratch_folder, scratch_map
from olr.regions.store import Store

EARTH = Box(-GREATEST_LON, -GREATEST_LAT, GREATEST_LON, GREATEST_LAT)
"""All of it that a map may have."""
REMEDY = "cut a part out of it by --bbox W,S,E,N"
MOST = f"a page carries {MOST_NODES:,} nodes, {MOST_LINES:,} lines and {MOST_BANS:,} bans at most"


class CarriedMap(NamedTuple):
    """A map for a page."""

    folder: Path
    """Its files, which may be scratch files."""
    sources: Sources
    """Where its lines came from; none if the map doesn't say so."""


@contextmanager
def map_to_carry(path: Path, box: Box | None) -> Iterator[CarriedMap]:
    """Gives the map of a folder or a store, or only its lines that reach into a box. Raises `ToolError` if it can't be read or cut, there
    is no line in the box, or a store or what is cut out is beyond the limits of the program."""
    store = store_of(path)
    if store is None and box is None:
        yield CarriedMap(path, Sources.of_folder(path))
        return
    with ExitStack() as stack:
        if store is None:
            store = stack.enter_context(scratch_folder()) / STORE
            make_store_of_folder(path, store)
        opened = stack.enter_context(Store.open(store))
        lines = _whole(opened) if box is None else _within(opened, box, path)
        yield CarriedMap(stack.enter_context(scratch_map(opened, lines)), opened.sources())


def _whole(store: Store) -> Integers:
    """All lines of a store. Raises `ToolError` if they are too many."""
    require_within_limits(*store.sizes, REMEDY)
    return store.lines_meeting(EARTH)


def _within(store: Store, box: Box, path: Path) -> Integers:
    """The lines that reach into a box. Raises `ToolError` if there are none, or too many."""
    lines = store.lines_within_limits(box)
    if lines is None:
        raise ToolError(f"the box {box.text()} of {path} is too large: {MOST}: give a smaller one")
    if not len(lines):
        extent = store.extent()
        where = "it has none" if extent is None else f"its lines lie within {extent.text()}"
        raise ToolError(f"no line of {path} reaches into the box {box.text()}: {where}")
    return lines
