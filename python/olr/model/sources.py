"""Where the lines of a map came from: the file `ids.csv` of a map's folder, or the table `sources` of a store.

    sources = Sources.of_folder(folder)
    origin = sources.get(235791130003)
    if origin is not None:
        print(origin.source, origin.direction, origin.part, origin.name, origin.kept)

The columns are `line`, `source`, `direction`, `part` and `name`, and behind them the fields that the import kept, by their own names.
All but the line and the part are texts. A file without the column `name`, as older imports wrote it, has empty names.

It needs Python alone.
"""

import csv
import io
from collections.abc import Iterable, Iterator, Mapping, Sequence
from contextlib import contextmanager
from pathlib import Path
from typing import NamedTuple, Protocol

from olr.counts import short
from olr.errors import ToolError, readable
from olr.model.records import allow_long_fields
from olr.model.road_map import Direction, Origin
from olr.model.values import MOST_DIGITS, id_of, number_of

IDS = "ids.csv"
NAME = "name"
COLUMNS = ("line", "source", "direction", "part", NAME)
"""The columns of each `ids.csv` that an import writes, before those of fields that are kept."""
NEEDED = COLUMNS[:4]
"""Those that each one has."""
RENAME = f"if it isn't of an import, rename it, such as to other-{IDS}: a map needs none"
"""What to do about a file of another content under this name."""
DIRECTIONS: Mapping[str, Direction] = {"forward": "forward", "backward": "backward"}


class Sources(Mapping[int, Origin]):
    """Where the lines of a map came from, by their ids. It may be empty, and need not have each line of the map."""

    kept: tuple[str, ...]
    """The names of the fields whose values each `Origin.kept` has, in their order."""

    def __init__(self, kept: Sequence[str], origins: Mapping[int, Origin]) -> None:
        """The sources of some lines. Use `of_folder` and `of_store`."""
        self.kept = tuple(kept)
        self._origins = origins

    def __getitem__(self, line: int) -> Origin:
        return self._origins[line]

    def __iter__(self) -> Iterator[int]:
        return iter(self._origins)

    def __len__(self) -> int:
        return len(self._origins)

    def __bool__(self) -> bool:
        # Those of a store aren't counted.
        return bool(self._origins)

    @classmethod
    def of_folder(cls, folder: str | Path) -> "Sources":
        """The sources of a folder's map, all in memory; none if it has no `ids.csv`. Raises `ToolError` if the file can't be read, or
        for the first record that isn't understood."""
        file = Path(folder) / IDS
        if not file.exists():
            return cls((), {})
        texts: dict[str, str] = {}
        values: dict[tuple[str, ...], tuple[str, ...]] = {}
        found: dict[int, Origin] = {}
        with reading(file) as (kept, origins):
            for number, origin in enumerate(origins, 1):
                line, source, direction, part, name, fields = origin
                if line in found:
                    raise ToolError(f"{_place(file, number)} repeats line {line}")
                # Both directions of all parts of a road share their texts.
                source = texts.setdefault(source, source)
                name = texts.setdefault(name, name)
                fields = values.setdefault(fields, fields)
                found[line] = Origin(line, source, direction, part, name, fields)
        return cls(kept, found)

    @classmethod
    def of_store(cls, store: "HasSources") -> "Sources":
        """The sources of a store's map, which are looked up while the store is open; none if it was made of a map without them. Raises
        `ToolError` if they can't be read, and so does looking one up. One thread at a time may use the store.
        """
        return store.sources()


class HasSources(Protocol):
    """What knows where its lines came from: a store."""

    def sources(self) -> Sources:
        """Those of its lines."""


class Reading(NamedTuple):
    """What is read of an `ids.csv`."""

    kept: tuple[str, ...]
    """The names of the fields that are kept."""
    origins: Iterator[Origin]
    """One after the other, in the order of the file. Whether a line is there twice isn't looked at."""


@contextmanager
def reading(file: Path) -> Iterator[Reading]:
    """Reads an `ids.csv`, of any size. Raises `ToolError` if it can't be read, or isn't one, and, while it is read, for the first record
    that isn't understood."""
    allow_long_fields()
    with readable(file):
        # What isn't UTF-8 is seen record by record.
        stream = file.open(encoding="utf-8-sig", errors="surrogateescape", newline="")
    with stream:
        records = _records(file, stream)
        kept, named = _fields_of(file, next(records, []))
        yield Reading(kept, _origins(file, records, len(kept), named))


@contextmanager
def read_if_there(file: Path) -> Iterator[Reading | None]:
    """Reads an `ids.csv` as `reading` does; None if it isn't there."""
    if file.exists():
        with reading(file) as read:
            yield read
    else:
        yield None


def _records(file: Path, stream: Iterable[str]) -> Iterator[list[str]]:
    """The records of a file, with its header. Empty lines are skipped. Raises `ToolError`."""
    number = 0
    try:
        with readable(file):
            for record in csv.reader(stream, strict=True):
                if record:
                    joined = "".join(record)
                    if not joined.isascii():
                        joined.encode()
                    yield record
                    number += 1
    except UnicodeEncodeError as error:
        raise ToolError(f"{_place(file, number)} isn't UTF-8") from error
    except csv.Error as error:
        raise ToolError(f"{_place(file, number)} isn't CSV: {error}") from error


def _fields_of(file: Path, header: Sequence[str]) -> tuple[tuple[str, ...], bool]:
    """The names of the fields that a file keeps, and whether it has names of roads."""
    if tuple(header[: len(NEEDED)]) != NEEDED:
        raise ToolError(f"{file} doesn't begin with the header {','.join(NEEDED)}: {RENAME}")
    named = tuple(header[: len(COLUMNS)]) == COLUMNS
    kept = tuple(header[len(COLUMNS) if named else len(NEEDED) :])
    require_columns(kept, f"{file}: column")
    return kept, named


def _origins(file: Path, records: Iterator[list[str]], kept: int, named: bool) -> Iterator[Origin]:
    """The records behind the header. Raises `ToolError` for one that isn't understood."""
    width = len(NEEDED) + named + kept
    for number, record in enumerate(records, 1):
        if len(record) != width:
            raise ToolError(
                f"{_place(file, number)} has {len(record)} fields, not {width}: {RENAME}"
            )
        line, part = id_of(record[0]), number_of(record[3], 0, 10**MOST_DIGITS)
        direction = DIRECTIONS.get(record[2])
        if line is None or direction is None or part is None:
            raise ToolError(
                f"{_place(file, number)} isn't understood: it needs the id of a line, a source, forward or backward, and a part: {RENAME}"
            )
        name = record[4] if named else ""
        yield Origin(line, record[1], direction, part, name, tuple(record[width - kept :]))


def _place(file: Path, number: int) -> str:
    """Which record it is, from 1, or the header."""
    return f"{file}: record {number}" if number else f"{file}: the header"


def write_origins(file: Path, origins: Iterable[Origin], kept: Sequence[str]) -> None:
    """Writes an `ids.csv`. `kept` are the names of the fields that each origin has. Raises `OSError`."""
    with file.open("w", encoding="utf-8", newline="") as stream:
        writer = csv.writer(_LineEnds(stream), lineterminator="\r\n")
        writer.writerow((*COLUMNS, *kept))
        writer.writerows((*origin[:5], *origin.kept) for origin in origins)


class _LineEnds:
    """Ends records by LF. The module csv ends them by both, so that it puts quotes around a field that has either."""

    def __init__(self, stream: io.TextIOBase) -> None:
        self._stream = stream

    def write(self, record: str) -> int:
        """Writes a record."""
        return self._stream.write(record[:-2] + "\n")


def require_columns(kept: Sequence[str], whose: str) -> None:
    """Raises `ToolError` if fields can't be columns of `ids.csv` with their names: one is empty, is that of another column, or is there
    twice. Capitals don't matter, since they don't in a store. `whose` begins the message."""
    there = set(COLUMNS)
    for name in kept:
        column = name.casefold()
        if not column:
            raise ToolError(f'{whose} "": a field needs a name')
        if column in COLUMNS:
            raise ToolError(f'{whose} "{name}": {IDS} has a column {column} of its own')
        if column in there:
            raise ToolError(f'{whose} "{short(name)}": it is there twice')
        there.add(column)
