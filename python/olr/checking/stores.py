"""What is wrong with a store: blocks that aren't what was written."""

import numpy as np
from collections.abc import Iterator

from olr.arrays import Integers
from olr.errors import ToolError
from olr.progress import watched
from olr.regions.geopackage import damaged
from olr.regions.store import Store


def size_lines(store: Store) -> Iterator[str]:
    """How large its map is."""
    for name, count in store.sizes._asdict().items():
        yield f"{name} {count:,}"
    yield f"digest {store.digest}"


def fault_lines(store: Store, most: int) -> Iterator[str]:
    """Its faults, one line each, at most `most` of them, and how many there are: blocks that aren't what was written. All blocks are
    read. Raises `ToolError` if it hasn't as many lines as it says."""
    faults, lines = 0, 0
    for number in watched(range(store.blocks()), "blocks read", store.blocks()):
        try:
            lines += len(store.lines_of_block(number))
        except ToolError as error:
            faults += 1
            if faults <= most:
                yield str(error)
    if faults > most:
        yield f"and {faults - most:,} more"
    if not faults and lines != store.sizes.lines:
        faults = 1
        yield str(damaged(store.file, f"it has {lines:,} lines"))
    yield f"faults {faults:,}"


def all_lines(store: Store) -> Integers:
    """The ids of all lines, sorted. Raises `ToolError` if a block isn't what was written."""
    blocks = [np.zeros(0, dtype=np.int64)]
    blocks += [store.lines_of_block(number) for number in range(store.blocks())]
    lines: Integers = np.concatenate(blocks)
    return np.unique(lines)
