"""Where the lines of a store came from: its table `sources`, with the columns of `ids.csv`.

A store that was made of a map without sources has no such table. They aren't a part of the map, so no digest has them.
"""

import sqlite3
from collections.abc import Iterator, Mapping, Sequence
from pathlib import Path
from typing import Any

from olr.errors import ToolError
from olr.model.road_map import GREATEST_ID, Origin
from olr.model.sources import COLUMNS, DIRECTIONS, IDS, Reading, Sources
from olr.regions.geopackage import damaged, quoted, reading

TYPES = ("INTEGER PRIMARY KEY", "TEXT NOT NULL", "TEXT NOT NULL", "INTEGER NOT NULL")
"""Of the line, the source, the direction and the part. All other columns are texts."""
KEPT = "TEXT NOT NULL"
WRONG = "its table of sources isn't what was written"


def add_sources(connection: sqlite3.Connection, read: Reading) -> None:
    """Makes the table of a store's sources. Raises `ToolError` if a line is there twice, and `sqlite3.Error`."""
    names = [*COLUMNS, *read.kept]
    types = [*TYPES, *[KEPT] * (len(names) - len(TYPES))]
    columns = ", ".join(f"{quoted(name)} {kind}" for name, kind in zip(names, types))
    connection.execute(f"CREATE TABLE sources ({columns})")
    connection.execute(
        "INSERT INTO gpkg_contents (table_name, data_type, identifier, description, last_change) "
        "VALUES ('sources', 'attributes', 'sources', 'where lines came from', '2000-01-01T00:00:00.000Z')"
    )
    marks = ", ".join("?" * len(names))
    rows = ((*origin[:5], *origin.kept) for origin in read.origins)
    try:
        connection.executemany(f"INSERT INTO sources VALUES ({marks})", rows)
    except sqlite3.IntegrityError as error:
        raise ToolError(f"two records of {IDS} have one line: run olr-tools check") from error


def sources_in(file: Path, connection: sqlite3.Connection) -> Sources:
    """The sources of an open store. Raises `ToolError` if they can't be read."""
    stored = _Stored(file, connection)
    rows = stored.rows("SELECT name FROM pragma_table_info('sources') ORDER BY cid")
    names = [name for (name,) in rows]
    if not names:
        return Sources((), {})
    if tuple(names[: len(COLUMNS)]) != COLUMNS:
        raise damaged(file, WRONG)
    return Sources(names[len(COLUMNS) :], stored)


class _Stored(Mapping[int, Origin]):
    """The table of a store's sources, by lines."""

    def __init__(self, file: Path, connection: sqlite3.Connection) -> None:
        self._file, self._connection = file, connection

    def __getitem__(self, line: int) -> Origin:
        id = int(line)
        if not 1 <= id <= GREATEST_ID:
            raise KeyError(line)
        rows = self.rows("SELECT * FROM sources WHERE line = ?", (id,))
        if not rows:
            raise KeyError(line)
        return self._origin(rows[0])

    def __iter__(self) -> Iterator[int]:
        with reading(self._file):
            for (line,) in self._connection.execute("SELECT line FROM sources ORDER BY line"):
                yield line

    def __len__(self) -> int:
        ((count,),) = self.rows("SELECT count(*) FROM sources")
        return int(count)

    def __bool__(self) -> bool:
        # Counting them takes a look at each.
        ((is_there,),) = self.rows("SELECT EXISTS (SELECT 1 FROM sources)")
        return bool(is_there)

    def rows(self, query: str, values: Sequence[object] = ()) -> list[Any]:
        """The rows of a query. Raises `ToolError` if the file can't be read."""
        with reading(self._file):
            return self._connection.execute(query, values).fetchall()

    def _origin(self, row: Sequence[Any]) -> Origin:
        """What a row says. Raises `ToolError` if it isn't what was written."""
        line, source, direction, part, name, *kept = row
        are_texts = all(isinstance(text, str) for text in (source, name, *kept))
        if direction not in DIRECTIONS or not isinstance(part, int) or not are_texts:
            raise damaged(self._file, WRONG)
        return Origin(line, source, DIRECTIONS[direction], part, name, tuple(kept))
