"""The tables and blobs of a GeoPackage 1.3 (OGC 12-128r17), as far as a store and files of rows need them."""

import errno
import numpy as np
import os
import sqlite3
import struct
from collections.abc import Iterator, Sequence
from contextlib import contextmanager
from functools import cache
from pathlib import Path

from olr.arrays import Floats, Integers, Integers32
from olr.errors import ToolError

APPLICATION = 0x47504B47
"""`GPKG`, as the number of an application in a file of SQLite."""
EDITION = 10300
"""GeoPackage 1.3."""
WGS_84 = 4326
_OF_SYSTEM = {sqlite3.SQLITE_FULL: errno.ENOSPC, sqlite3.SQLITE_IOERR: errno.EIO}
"""Errors of SQLite as the system's."""
ROWS = 250
"""So many rows are added by a statement."""
MOST_VALUES = 32_766
"""No more values may be in a statement of SQLite, unless it is built otherwise."""
COMMON, SCHEMA = (Path(__file__).with_name(name) for name in ("geopackage.sql", "schema.sql"))


def make_tables(connection: sqlite3.Connection) -> None:
    """Makes the tables of a store in an empty file. Raises `sqlite3.Error`."""
    make_common_tables(connection)
    connection.executescript(SCHEMA.read_text(encoding="utf-8"))


def make_common_tables(connection: sqlite3.Connection) -> None:
    """Makes the tables that every GeoPackage has in an empty file. Raises `sqlite3.Error`."""
    connection.execute(f"PRAGMA application_id = {APPLICATION}")
    connection.execute(f"PRAGMA user_version = {EDITION}")
    connection.executescript(COMMON.read_text(encoding="utf-8"))


def insert(
    connection: sqlite3.Connection,
    table: str,
    *columns: Sequence[object] | Integers | Integers32 | Floats,
) -> None:
    """Adds rows to a table, of which all columns are given. A statement adds many of them: one by one they would take thrice the time.
    Raises `sqlite3.Error`."""
    count = len(columns)
    row_marks = f"({', '.join('?' * count)})"
    rows = min(ROWS, MOST_VALUES // count)
    for first in range(0, len(columns[0]), rows):
        parts = [column[first : first + rows] for column in columns]
        values: list[object] = [None] * (count * len(parts[0]))
        for number, part in enumerate(parts):
            values[number::count] = part.tolist() if isinstance(part, np.ndarray) else part
        marks = ", ".join([row_marks] * len(parts[0]))
        connection.execute(f"INSERT INTO {table} VALUES {marks}", values)


def quoted(name: str) -> str:
    """A name of a table or a column, whatever is in it, as SQL has it."""
    return '"' + name.replace('"', '""') + '"'


def blobs(points: Floats, first: Integers, sizes: Integers) -> list[bytes]:
    """The geometry of polylines. Their points are in degrees, a row each, those of a polyline from the row `first` on."""
    data = points.astype("<f8").tobytes()
    behind = first + sizes
    return [
        _head(size) + data[16 * start : 16 * end]
        for start, end, size in zip(first.tolist(), behind.tolist(), sizes.tolist())
    ]


@cache
def _head(size: int) -> bytes:
    """What stands before the points of a polyline of this many points: no envelope, little endian."""
    return struct.pack("<2sBBiBII", b"GP", 0, 1, WGS_84, 1, 2, size)


@contextmanager
def reading(file: Path) -> Iterator[None]:
    """Raises `ToolError` where a file can't be read."""
    try:
        yield
    except sqlite3.Error as error:
        raise ToolError(f"{file} can't be read: {error}") from error


def damaged(file: Path, what: str) -> ToolError:
    """The error of a store that doesn't have what was written. `what` says where."""
    return ToolError(f"{file} is damaged, {what}: make it again by olr-tools regions")


def os_error(error: sqlite3.Error) -> OSError:
    """An error of SQLite in the words that the system has for it. Which error SQLite had of the system it doesn't tell."""
    code = getattr(error, "sqlite_errorcode", sqlite3.SQLITE_ERROR)
    # The lowest byte is the kind of error.
    number = _OF_SYSTEM.get(code & 0xFF)
    return OSError(str(error)) if number is None else OSError(number, os.strerror(number))
