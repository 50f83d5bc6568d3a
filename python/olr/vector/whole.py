"""Whether all records of a file are read.

Where a file was cut short or is damaged, GDAL leaves records or their geometries out, and goes on. It says so in its log at most.
"""

import logging
import numpy as np
from collections.abc import Iterator
from contextlib import contextmanager
from pathlib import Path
from typing import Any

from olr.errors import ToolError, readable
from olr.progress import progress
from olr.vector.fiona_parts import LOG_OF_GDAL

SUFFIXES = (".shp", ".shx", ".dbf")
"""Of the files of a Shapefile. In an archive they aren't looked at."""
HEADER_OF_SHX = 100
HEADER_OF_DBF = 32
"""In bytes. At least: the fields follow."""
EXACT = "FlatGeobuf"
"""A format whose files say how many records they have. Others count deleted ones too, or may be out of date."""
NO_GEOMETRY = "Pointer 'hGeom' is NULL"
"""How an error begins that fiona makes of each record without a geometry."""


def whole_features(file: Path, collection: Any) -> Iterator[Any]:
    """The features of a collection, while it is shown how far they are read. Raises `ToolError` where one can't be read."""
    total = _total(collection)
    number = 0
    with progress(f"records of {file.name}", total) as advance:
        for number, feature in enumerate(without_errors(file, collection), 1):
            yield feature
            advance(1)
    if collection.driver == EXACT and total is not None and number < total:
        raise ToolError(_lacking(file, number, total))


def without_errors(file: Path, collection: Any) -> Iterator[Any]:
    """The features of a collection. Raises `ToolError` where GDAL reports an error."""
    total = _total(collection)
    of_total = "" if total is None else f" of {total:,}"
    number = 0
    with _errors_of_gdal() as errors:
        for number, feature in enumerate(collection, 1):
            if errors:
                raise ToolError(f"{file} can't be read: record {number:,}{of_total}: {errors[0]}")
            yield feature
    if errors:
        raise ToolError(f"{file} can't be read: record {number + 1:,}{of_total}: {errors[0]}")


def _total(collection: Any) -> int | None:
    """How many records a collection says that it has; None if its format doesn't say."""
    try:
        return len(collection)
    except TypeError:
        return None


@contextmanager
def _errors_of_gdal() -> Iterator[list[str]]:
    """What GDAL reports as errors meanwhile."""
    errors: list[str] = []

    class Collecting(logging.Handler):
        """Keeps the texts of errors."""

        def emit(self, record: logging.LogRecord) -> None:
            text = " ".join(record.getMessage().split())
            if not text.startswith(NO_GEOMETRY):
                errors.append(text)

    log = logging.getLogger(LOG_OF_GDAL)
    handler = Collecting(logging.ERROR)
    before = log.level, log.propagate
    log.setLevel(logging.ERROR)
    log.propagate = False
    log.addHandler(handler)
    try:
        yield errors
    finally:
        log.removeHandler(handler)
        log.setLevel(before[0])
        log.propagate = before[1]


def require_whole_shapefile(file: Path, layer: str) -> None:
    """Raises `ToolError` if the .shp or the .dbf of a Shapefile, or of one in a folder, has fewer records than the .shx counts.
    GDAL itself sees whether the .shx is whole."""
    base = file / f"{layer}.shp" if file.is_dir() else file
    if base.suffix.lower() not in SUFFIXES:
        return
    shapes, index, table = (beside(base, suffix) for suffix in SUFFIXES)
    if shapes is None or index is None:
        return
    with readable(file):
        total = _whole_shapes(shapes, index)
        if table is not None:
            _require_whole_table(table, shapes, total)


def _whole_shapes(shapes: Path, index: Path) -> int:
    """How many records a .shx counts. Raises `ToolError` if they aren't all in the .shp."""
    with index.open("rb") as stream:
        head = stream.read(HEADER_OF_SHX)
        total = (2 * int.from_bytes(head[24:28], "big") - HEADER_OF_SHX) // 8
        words = np.frombuffer(stream.read(8 * total), dtype=">i4").astype(np.int64)
    # Of each record its place, and its size without its head of 8 bytes, which some writers count: in words of two bytes.
    ends = 2 * words.reshape(-1, 2).sum(axis=1)
    held = int(np.count_nonzero(ends <= shapes.stat().st_size))
    if held < total:
        raise ToolError(_lacking(shapes, held, total))
    return total


def _require_whole_table(table: Path, shapes: Path, total: int) -> None:
    """Raises `ToolError` if a .dbf hasn't as many records as the .shp."""
    with table.open("rb") as stream:
        head = stream.read(HEADER_OF_DBF)
    if len(head) < HEADER_OF_DBF:
        raise ToolError(_lacking(table, 0, total))
    counted, first, size = (
        int.from_bytes(head[place:behind], "little")
        for place, behind in ((4, 8), (8, 10), (10, 12))
    )
    held = max(table.stat().st_size - first, 0) // size if size else counted
    if held < counted:
        raise ToolError(_lacking(table, held, counted))
    if counted != total:
        raise ToolError(
            f"{table} has {counted:,} records, and {shapes.name} {total:,}: copy both files again"
        )


def _lacking(file: Path, held: int, total: int) -> str:
    """The error of a file that was cut short."""
    return f"{file} was cut short: it has {held:,} of its {total:,} records: copy the file again"


def beside(file: Path, suffix: str) -> Path | None:
    """The file of the same name with another suffix, in small or in capital letters, if it is there."""
    named = (file.with_suffix(suffix), file.with_suffix(suffix.upper()))
    return next((path for path in named if path.is_file()), None)
