"""The records of a map's files as columns of numbers, thousands at once: what the fields spell is what `values` says.

Most files have only records as `olr-tools` writes them: numbers without leading zeros. One expression knows these, and their numbers are
read at once. Where there are others the fields are read one by one.
"""

import numpy as np
import re
from collections.abc import Callable, Iterable, Iterator, Sequence
from itertools import chain, islice
from pathlib import Path
from typing import Literal, NamedTuple

from olr.arrays import Booleans, Integers
from olr.errors import ToolError, readable
from olr.model.map_folder import (
    BANS_HEADER,
    LINES_HEADER,
    NODES_HEADER,
    ROWS,
    WANTED,
    read_batches,
)
from olr.model.road_map import (
    GREATEST_ID,
    GREATEST_LAT,
    GREATEST_LENGTH,
    GREATEST_LON,
    MOST_SHAPE_POINTS,
)
from olr.model.values import id_of, kind_of, lat_of, length_of, lon_of, shape_of
from olr.progress import Advance

What = Literal["nodes", "lines", "bans"]
"""A file of a map."""
Record = Sequence[object]
"""The fields of a record, as texts or as numbers."""

PIECE = 1 << 18
"""So many bytes of a file are read at a time, and a line."""
_NUMBER = "(?:0|[1-9][0-9]{0,15})"
_SIGNED = "(?:0|-?[1-9][0-9]{0,15})"
_POINT = f"{_SIGNED} {_SIGNED}"
_SHAPE = f"(?:{_POINT}(?:;{_POINT})*)?"
_NONE = np.zeros(0, dtype=np.int64)
_BLANKS = bytes.maketrans(b",;\n", b"   ")


class _File(NamedTuple):
    """What the records of a file are."""

    header: Sequence[str]
    usual: "re.Pattern[bytes]"
    """Any number of them, as most files have them, each with a line feed."""
    limits: tuple[tuple[int, int], ...]
    """The least and the greatest value of each number before the shape."""
    fields: tuple[Callable[[str], int | list[int] | None], ...]
    """What reads each field."""


def _file(
    header: Sequence[str], pattern: str, *fields: tuple[int, int, Callable[[str], int | None]]
) -> _File:
    """A file whose records have these numbers first."""
    readers: list[Callable[[str], int | list[int] | None]] = [field[2] for field in fields]
    readers += [shape_of] if pattern.endswith(_SHAPE) else []
    limits = tuple(field[:2] for field in fields)
    usual = re.compile(f"(?:{pattern}\n)*".encode())
    return _File(header, usual, limits, tuple(readers))


_ID = (1, GREATEST_ID, id_of)
_FILES: dict[What, _File] = {
    "nodes": _file(
        NODES_HEADER,
        f"{_NUMBER},{_SIGNED},{_SIGNED}",
        _ID,
        (-GREATEST_LON, GREATEST_LON, lon_of),
        (-GREATEST_LAT, GREATEST_LAT, lat_of),
    ),
    "lines": _file(
        LINES_HEADER,
        f"{','.join([_NUMBER] * 6)},{_SHAPE}",
        *(_ID, _ID, _ID, (0, 7, kind_of), (0, 7, kind_of)),
        (1, GREATEST_LENGTH, length_of),
    ),
    "bans": _file(BANS_HEADER, f"{_NUMBER},{_NUMBER}", _ID, _ID),
}


class Columns(NamedTuple):
    """Some records of a file."""

    numbers: Integers
    """A row for each column of numbers."""
    sizes: Integers
    """How many points the shape of each record has."""
    points: Integers
    """Longitude and latitude, in microdegrees, of all points of all shapes: a row each."""
    text: bytes
    """The records with numbers as `olr-tools` writes them, each with a line feed."""


def read_columns(what: What, file: Path, advance: Advance = lambda _: None) -> Iterator[Columns]:
    """The columns of the records of a file behind its header, some thousands at a time. `advance` is called with the number of bytes that
    were read. Raises `ToolError` if they can't be read, or for the first one that isn't one of a map.
    """
    number = 0
    with readable(file, WANTED), file.open("rb") as stream:
        is_usual = stream.readline().rstrip(b"\r\n") == ",".join(_FILES[what].header).encode()
        while is_usual and (text := stream.read(PIECE) + stream.readline()):
            columns = _usual_columns(what, text.replace(b"\r\n", b"\n"), number)
            if columns is None:
                break
            yield columns
            number += columns.numbers.shape[1]
            advance(len(text))
        else:
            if is_usual:
                return
    others = chain.from_iterable(read_batches(file, _FILES[what].header, advance))
    yield from batched_columns(what, islice(others, number, None), number)


def batched_columns(what: What, records: Iterable[Record], number: int = 0) -> Iterator[Columns]:
    """The columns of records, before which so many others are in their file, some thousands at a time. Raises `ToolError` for the first
    one that isn't one of a map."""
    left = iter(records)
    while batch := list(islice(left, ROWS)):
        yield _columns(what, batch, number)
        number += len(batch)


def joined_columns(parts: Iterable[Columns], what: What) -> Columns:
    """All columns of some, one behind the other."""
    all_parts = [_columns(what, [], 0), *parts]
    numbers, sizes, points, texts = zip(*all_parts)
    return Columns(
        np.concatenate(numbers, axis=1),
        np.concatenate(sizes),
        np.concatenate(points),
        b"".join(texts),
    )


def _columns(what: What, records: Sequence[Record], number: int) -> Columns:
    """The columns of records."""
    rows = [record if isinstance(record[0], str) else list(map(str, record)) for record in records]
    text = "\n".join([",".join(row) for row in rows] + [""])  # type: ignore[arg-type]
    if text.count("\n") == len(rows):
        columns = _usual_columns(what, text.encode(), number)
        if columns is not None:
            return columns
    texts = [_usual_text(what, row, number + index) for index, row in enumerate(rows)]
    usual = _usual_columns(what, "\n".join([*texts, ""]).encode(), number)
    assert usual is not None
    return usual


def _usual_columns(what: What, text: bytes, number: int) -> Columns | None:
    """The columns of records in a text; None if they aren't as most files have them."""
    file = _FILES[what]
    text = text if text.endswith(b"\n") or not text else text + b"\n"
    if file.usual.fullmatch(text) is None:
        return None
    found = np.fromstring(text.translate(_BLANKS), dtype=np.int64, sep=" ") if text else _NONE
    sizes = _sizes(text)
    count = len(file.limits)
    if what != "lines":
        numbers, points = found.reshape(-1, count), found[:0]
    else:
        begins = np.cumsum(2 * sizes + count) - 2 * sizes - count
        places = begins[:, None] + np.arange(count)
        numbers = found[places]
        of_shapes = np.ones(len(found), dtype=np.bool_)
        of_shapes[places] = False
        points = found[of_shapes]
    columns = Columns(numbers.T.copy(), sizes, points.reshape(-1, 2), text)
    require(_within(columns, file), what, number)
    return columns


def require(right: Booleans, what: str, number: int) -> None:
    """Raises `ToolError` for the first record that isn't right, where so many others are before them in their file."""
    if not right.all():
        raise _refused(what, number + int(np.argmin(right)))


def _refused(what: str, number: int) -> ToolError:
    """The error for a record, counted from 0."""
    return ToolError(f"record {number + 1} of the {what} isn't one of a map: run olr-tools check")


def _usual_text(what: What, row: Record, number: int) -> str:
    """A record as most files have it. Raises `ToolError` if it isn't one of a map."""
    file = _FILES[what]
    if len(row) != len(file.fields):
        raise _refused(what, number)
    texts = []
    for read, field in zip(file.fields, row):
        value = read(str(field))
        if value is None:
            raise _refused(what, number)
        if isinstance(value, list):
            pairs = zip(value[::2], value[1::2])
            texts.append(";".join([f"{lon} {lat}" for lon, lat in pairs]))
        else:
            texts.append(str(value))
    return ",".join(texts)


def _sizes(data: bytes) -> Integers:
    """How many blanks each line of a text has."""
    characters = np.frombuffer(data, np.uint8)
    ends = np.flatnonzero(characters == ord("\n"))
    blanks = np.flatnonzero(characters == ord(" "))
    result: Integers = np.diff(np.searchsorted(blanks, ends), prepend=0)
    return result


def _within(columns: Columns, file: _File) -> Booleans:
    """Which records have all numbers within their limits."""
    right = columns.sizes <= MOST_SHAPE_POINTS
    for column, (least, greatest) in zip(columns.numbers, file.limits):
        right &= (column >= least) & (column <= greatest)
    if len(columns.points):
        outside = (np.abs(columns.points) > (GREATEST_LON, GREATEST_LAT)).any(axis=1)
        owner = np.repeat(np.arange(len(right)), columns.sizes)
        right[owner[outside]] = False
    return right
