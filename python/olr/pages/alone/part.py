"""The part of a map that a page carries for some references: all that their answers depend on, whatever the tolerances."""

import numpy as np
from bisect import bisect_left
from collections.abc import Mapping, Sequence
from typing import NamedTuple

from olr.arrays import Integers
from olr.asking.files import Version
from olr.client.map_client import Map
from olr.errors import ToolError
from olr.geometry.store_network import StoreNetwork
from olr.model.map_folder import STORE
from olr.model.questions import NUMBERS, TOLERANCES
from olr.model.reference import Point, read_points
from olr.model.road_map import MOST_LINES
from olr.model.sources import Sources
from olr.pages.alone.cutting import EARTH, CarriedMap
from olr.pages.alone.making import files_of
from olr.regions.making import make_store_of_folder
from olr.regions.options import Options
from olr.regions.plane import Discs
from olr.regions.scratch import scratch_folder, scratch_map
from olr.regions.sharing import Located, located
from olr.regions.store import Store

WHOLE = 20_000
"""Lines of a map that is carried whole: a part would hardly be smaller as a file, and a page with all of it answers about any reference."""
LONGER_PERCENT, LONGER_SLACK = 3, 150
"""What is added to the greatest tolerances, for another path of a leg that the page draws: NEAR_OF_PAGES thousandths of 200 percent of an
interval, and of the greatest slack in decimetres."""
ANY = Options(
    radius=TOLERANCES["radius"].greatest,
    percent=TOLERANCES["percent"].greatest + LONGER_PERCENT,
    slack=TOLERANCES["slack"].greatest + LONGER_SLACK,
    nearest=NUMBERS["why"]["nearest"].greatest,
)
"""The greatest numbers: the region of `why` with them has those of all questions with any numbers, and other paths."""


class Part(NamedTuple):
    """What a page carries of a map."""

    files: Mapping[str, bytes]
    """With what says where its lines came from."""
    version: Version
    """Of the whole map, and so `all_lines`."""
    lines: int
    all_lines: int
    references: int
    """It has all that so many of the references need, the first ones."""
    points: list[str] | None
    """The points of each of them, as `points_text`: None if the whole map is carried, which is right for others too."""


def part_for(asked: Map, references: Sequence[str]) -> Part:
    """What a page carries for some references of the map that was asked about them: the whole map if it is small, or else as much of it as
    they need; of many, as the first ones need, for which there is room. Raises `ToolError` if there is no room for one, or the map can't be
    read, and `MapRefused` if it has changed.
    """
    network = asked.network()
    if isinstance(network, StoreNetwork):
        with network.reading() as store:
            return _of_store(store, references, Version(store.digest, store.digest))
    folder = asked.files.nodes.parent
    with asked.files.reading() as version:
        lines = len(network.length)
        if lines <= WHOLE:
            whole = CarriedMap(folder, Sources.of_folder(folder))
            files = files_of(whole, network.line_id.tolist())
            return Part(files, version, lines, lines, len(references), None)
        with scratch_folder() as scratch:
            make_store_of_folder(folder, scratch / STORE)
            with Store.open(scratch / STORE) as store:
                return _of_store(store, references, version)


def points_text(points: Sequence[Point]) -> str:
    """The points of a reference as a text: references with the same ones depend on the same part of a map. `part.js` has the same."""
    return ",".join(str(number) for point in points for number in point)


def regions_of(references: Sequence[Sequence[Point] | None], store: Store) -> list[Located]:
    """The regions of references by their points, whatever is asked about them: those of `why` with the greatest numbers. None stands for a
    text that is no reference: it is left out. Raises `ToolError` if the store can't be read."""
    return located(references, ANY, store, "why")


def _of_store(store: Store, references: Sequence[str], version: Version) -> Part:
    """The same, of a store."""
    all_lines = store.sizes.lines
    read = [read_points(text) for text in references]
    found = regions_of(read, store)
    if all_lines <= WHOLE:
        count, lines = len(found), store.lines_meeting(EARTH)
    else:
        count, lines = _fitting(found, store)
    if found and not count:
        raise ToolError(
            f"what the reference depends on with any tolerances has more than {MOST_LINES:,} lines, too many for a page: leave out --live"
        )
    with scratch_map(store, lines) as folder:
        files = files_of(CarriedMap(folder, store.sources()), lines.tolist())
    is_whole = len(lines) == all_lines
    points = sorted({points_text(read[one.number] or []) for one in found[:count]})
    room = len(references) if count == len(found) else found[count].number
    return Part(files, version, len(lines), all_lines, room, None if is_whole else points)


def _fitting(references: Sequence[Located], store: Store) -> tuple[int, Integers]:
    """As many of the first references as one map has room for, and the lines that they need."""

    def lines_of(count: int) -> Integers | None:
        return store.lines_within_limits(Discs.joined(one.discs for one in references[:count]))

    lines = lines_of(len(references)) if references else np.zeros(0, dtype=np.int64)
    if lines is not None:
        return len(references), lines
    counts = range(1, len(references))
    count = bisect_left(counts, True, key=lambda it: lines_of(it) is None)
    found = lines_of(count) if count else None
    return (0, np.zeros(0, dtype=np.int64)) if found is None else (count, found)
