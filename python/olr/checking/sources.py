"""Whether the sources of a map are those of its lines. Where they aren't that is no fault: `olr` doesn't read them."""

import numpy as np
from collections.abc import Iterator
from pathlib import Path

from olr.arrays import Integers
from olr.checking.remarks import Remark
from olr.checking.report import named
from olr.checking.stores import all_lines
from olr.errors import ToolError
from olr.model.sources import IDS, Sources
from olr.regions.store import Store


def lines_of_folder(folder: Path, lines: Integers, most: int) -> Iterator[str]:
    """What is said of the `ids.csv` of a map with some lines, if it has one. Of lines and records at most `most` are named."""
    if not (folder / IDS).exists():
        return
    try:
        sources = Sources.of_folder(folder)
    except ToolError as error:
        yield Remark(f"{IDS} can't be used: {error}", "ids", 1)
        return
    yield from _compared(IDS, sources, lines, most)


def lines_of_store(store: Store, most: int) -> Iterator[str]:
    """What is said of the sources of a store, if it has any. Raises `ToolError` if they aren't what was written."""
    sources = Sources.of_store(store)
    if sources:
        yield from _compared("sources", sources, all_lines(store), most)


def _compared(where: str, sources: Sources, lines: Integers, most: int) -> Iterator[str]:
    """How many lines have no source, and how many sources are of other lines."""
    known = np.fromiter(sources, dtype=np.int64, count=len(sources))
    for what, ids in (
        (f"lines without a record in {where}", np.setdiff1d(lines, known)),
        (f"records of {where} without a line", np.setdiff1d(known, lines)),
    ):
        text = f"{what} {len(ids):,}{named(ids, np.arange(len(ids)), most)}"
        yield Remark(text, "ids", len(ids))
