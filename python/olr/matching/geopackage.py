"""Rows into a layer of a GeoPackage, many at a time.

The file is as GDAL makes it, which would take ten times the time to add the rows. The triggers that keep GDAL's index of places and its count
of rows need functions that SQLite lacks; so they are left out meanwhile, and both are written here.
"""

import numpy as np
import sqlite3
from collections.abc import Iterator, Mapping, Sequence
from contextlib import closing, contextmanager
from pathlib import Path
from typing import Any

from olr.arrays import Floats, Integers
from olr.curve import places_on_curve
from olr.errors import ToolError
from olr.geometry.parts import Polylines
from olr.matching.shapes import blobs, boxes
from olr.matching.tables import Columns, Kind
from olr.regions.geopackage import insert, make_common_tables, os_error, quoted
from olr.regions.index import fill_index, outwards

LAYER = Path(__file__).with_name("layer.sql")
"""The tables of a layer, of which the name and the columns are left open."""
TYPES: Mapping[Kind, str] = {
    "int64": "INTEGER",
    "float": "REAL",
    "str": "TEXT",
    "bool": "BOOLEAN",
    "json": "TEXT",
}
"""The types of columns, as GDAL writes them."""
PAGE_BYTES = 16_384
"""A row has 2,000 bytes and more, which fill a page of the usual 4,096 badly."""
MOST_HELD = 1_000_000
"""So many boxes are held before the index is made: 40 MB."""
OPEN = ("-wal", "-journal")
"""Behind the name of a file that stand beside it while another program writes it."""


def make(file: Path, layer: str, columns: Columns[Any]) -> None:
    """Makes a GeoPackage with a layer without rows. A row may have a line, a point or nothing. Raises `OSError`."""
    names = ", ".join(f"{quoted(name)} {TYPES[one.kind]}" for name, one in columns.items())
    tables = LAYER.read_text(encoding="utf-8").format(layer=layer, columns=names)
    # In memory, since SQLite doesn't tell why it couldn't write.
    with closing(sqlite3.connect(":memory:")) as connection:
        connection.execute(f"PRAGMA page_size = {PAGE_BYTES}")
        make_common_tables(connection)
        connection.executescript(tables)
        file.write_bytes(connection.serialize())


def require_closed(file: Path) -> None:
    """Raises `ToolError` if another program has a file open, and what it wrote may not be there yet."""
    if any(Path(f"{file}{end}").exists() for end in OPEN):
        raise ToolError(f"{file} is open in another program: close it there, then append")


class Layer:
    """A layer of a GeoPackage that rows are added to."""

    def __init__(self, connection: sqlite3.Connection, name: str) -> None:
        """A layer with its columns; see `opened`."""
        self._connection, self._name = connection, name
        self._next = _value(connection, f'SELECT coalesce(max(fid), 0) + 1 FROM "{name}"')
        self._index = _Index(connection, f"rtree_{name}_geom")
        self._box = np.array([np.inf, -np.inf, np.inf, -np.inf])

    def add(self, values: Mapping[str, Sequence[Any]], shapes: Polylines) -> None:
        """Adds rows. Raises `sqlite3.Error`."""
        count = len(shapes.sizes)
        if not count:
            return
        ids = range(self._next, self._next + count)
        self._next += count
        columns = {"fid": ids, "geom": blobs(shapes), **values}
        # A None takes sqlite3 more time than any other value, and half of the columns often have nothing else.
        given = {name: some for name, some in columns.items() if some.count(None) < count}
        table = f'"{self._name}" ({", ".join(map(quoted, given))})'
        insert(self._connection, table, *given.values())
        found = boxes(shapes)
        if not len(found):
            return
        least, greatest = found.min(axis=0), found.max(axis=0)
        self._box[::2] = np.minimum(self._box[::2], least[::2])
        self._box[1::2] = np.maximum(self._box[1::2], greatest[1::2])
        self._index.add(np.array(ids)[shapes.sizes > 0], found)

    def finish(self) -> None:
        """Writes how many rows there are, and where. Raises `sqlite3.Error`."""
        self._index.fill()
        self._connection.execute(
            f'UPDATE gpkg_ogr_contents SET feature_count = (SELECT count(*) FROM "{self._name}") WHERE table_name = ?',
            (self._name,),
        )
        if np.isfinite(self._box).all():
            west, east, south, north = self._box.tolist()
            self._connection.execute(
                "UPDATE gpkg_contents SET min_x = min(coalesce(min_x, ?1), ?1), max_x = max(coalesce(max_x, ?2), ?2), "
                "min_y = min(coalesce(min_y, ?3), ?3), max_y = max(coalesce(max_y, ?4), ?4) WHERE table_name = ?5",
                (west, east, south, north, self._name),
            )
        self._connection.execute(
            "UPDATE gpkg_contents SET last_change = strftime('%Y-%m-%dT%H:%M:%fZ', 'now') WHERE table_name = ?",
            (self._name,),
        )


class _Index:
    """The index of a layer, if it has one. A new one is made at once, of so many rows as are held at most; to others they are added one by
    one, which takes many times as long."""

    def __init__(self, connection: sqlite3.Connection, table: str) -> None:
        self._connection, self._table = connection, table
        there = "SELECT count(*) FROM sqlite_master WHERE name = ?"
        empty = f'SELECT NOT EXISTS (SELECT 1 FROM "{table}_rowid")'
        self._is_there = _value(connection, there, table) > 0
        self._is_new = self._is_there and _value(connection, empty) > 0
        self._held: list[tuple[Integers, Floats]] = []
        self._count = 0

    def add(self, ids: Integers, found: Floats) -> None:
        """Adds rows with their boxes. Raises `sqlite3.Error`."""
        if self._is_new:
            self._held.append((ids, found))
            self._count += len(ids)
            if self._count >= MOST_HELD:
                self.fill()
        elif self._is_there:
            insert(self._connection, f'"{self._table}"', ids, *found.T)

    def fill(self) -> None:
        """Makes a new one of the rows that are held. Raises `sqlite3.Error`."""
        if self._held:
            ids, found = (np.concatenate(arrays) for arrays in zip(*self._held))
            middles = ((found[:, ::2] + found[:, 1::2]) / 2 * 1e6).astype(np.int64)
            order = np.argsort(places_on_curve(middles[:, 0], middles[:, 1]), kind="stable")
            columns = zip(found[order].T, (-1, 1, -1, 1))
            edges = np.stack([outwards(column, side) for column, side in columns])
            fill_index(self._connection, self._table, ids[order], edges)
        self._held, self._is_new = [], False


def _value(connection: sqlite3.Connection, query: str, *parameters: str) -> int:
    """The number that a query gives. Raises `sqlite3.Error`."""
    ((value,),) = connection.execute(query, parameters)
    return int(value)


@contextmanager
def opened(file: Path, layer: str, columns: Columns[Any], name: Path) -> Iterator[Layer]:
    """A layer of a file, which nobody else reads, to add rows to. All of them are in the file at the end.

    Raises `ToolError`, with the `name` that the file will have, if it hasn't a layer with these columns, and `OSError` if it can't be
    written.
    """
    try:
        with closing(sqlite3.connect(file, isolation_level=None)) as connection:
            _require_schema(connection, layer, columns, name)
            connection.execute("PRAGMA journal_mode = OFF")
            connection.execute("PRAGMA synchronous = OFF")
            connection.execute("BEGIN")
            triggers = connection.execute(
                "SELECT name, sql FROM sqlite_master WHERE type = 'trigger' AND tbl_name = ?",
                (layer,),
            ).fetchall()
            for trigger, _ in triggers:
                connection.execute(f'DROP TRIGGER "{trigger}"')
            found = Layer(connection, layer)
            yield found
            found.finish()
            for _, text in triggers:
                connection.execute(text)
            connection.execute("COMMIT")
    except sqlite3.Error as error:
        raise os_error(error) from error


def _require_schema(
    connection: sqlite3.Connection, layer: str, columns: Columns[Any], file: Path
) -> None:
    """Raises `ToolError` if a file hasn't a layer with these columns and no others."""
    try:
        layers = [name for (name,) in connection.execute("SELECT table_name FROM gpkg_contents")]
    except sqlite3.DatabaseError as error:
        raise ToolError(f"{file} isn't a GeoPackage: name another file") from error
    if layer not in layers:
        has = ", ".join(layers) or "none"
        raise ToolError(f"{file} has no layer {layer}, but {has}: name another file")
    wanted = {"fid": "INTEGER", "geom": "GEOMETRY"}
    wanted |= {name: TYPES[one.kind] for name, one in columns.items()}
    table = connection.execute("SELECT name, type FROM pragma_table_info(?)", (layer,))
    found = dict(table.fetchall())
    is_same = list(found.items()) == list(wanted.items())
    there = connection.execute(
        "SELECT srs_id FROM gpkg_geometry_columns WHERE table_name = ?", (layer,)
    )
    if is_same and there.fetchall() != [(4326,)]:
        raise ToolError(
            f"{file} isn't in WGS 84 (EPSG:4326), so rows can't be added: name another file"
        )
    if is_same:
        return
    wrong = [f"lacks {name}" for name in wanted if name not in found]
    wrong += [f"has {name}" for name in found if name not in wanted]
    wrong += [
        f"has {name} as {found[name]} and not {kind}"
        for name, kind in wanted.items()
        if found.get(name, kind) != kind
    ]
    differs = ", ".join(wrong) or "has the same in another order"
    raise ToolError(
        f"{file} has other columns, so rows can't be added: its layer {layer} {differs}: name another file"
    )
