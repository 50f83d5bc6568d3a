"""How a store is made: of the files of a map, or of a map in memory.

Records are read one after the other, and kept as arrays where all of them are needed at once: a map of ten million lines takes
about one and a half gigabytes of memory. The file is written beside where it shall be, and moved there when it is whole.
"""

import numpy as np
import sqlite3
import tempfile
from collections.abc import Iterable, Iterator, Sequence
from contextlib import closing
from pathlib import Path
from typing import IO

from olr.arrays import Floats, Integers, Integers32, with_ends
from olr.errors import ToolError
from olr.model.columns import Columns, What, batched_columns, read_columns, require
from olr.model.map_folder import STORE, files_read, line_row
from olr.model.road_map import MICRODEGREE, RoadMap
from olr.model.sources import IDS, Reading, read_if_there
from olr.outputs import require_free_file, whole_file
from olr.progress import progress, watched
from olr.regions import geopackage
from olr.regions.blocks import Directory, digest_of_parts
from olr.regions.geopackage import insert, os_error
from olr.regions.index import fill_index, outwards
from olr.regions.packing import (
    AT_ONCE,
    BAN,
    LINE,
    NODE,
    Bans,
    Lines,
    Nodes,
    Rows,
    blocks_of,
    columns_by_id,
    joined_rows,
    write_blocks,
)
from olr.regions.plane import scales_at
from olr.regions.shortness import Shortness
from olr.regions.store import VERSION, Facts, Sizes
from olr.regions.table_of_sources import add_sources

CACHE_KILOBYTES = 200_000
"""Of the file while it is made: ids and places come in any order."""
UNUSUAL = 0.01
"""The share of lines that may be beyond the usual stretch."""
STEPS = 1000
"""The usual stretch is a whole number of such parts, so that the same map has the same one."""
AllColumns = tuple[Iterator[Columns], Iterator[Columns], Iterator[Columns]]
"""Of the nodes, the lines and the bans."""


def make_store_of_folder(folder: Path, file: Path, force: bool = False) -> Sizes:
    """Makes a store of the map of a folder, of any size, and tells its size. `bans.csv` may be missing, and `ids.csv`. Shows how far it
    is.

    Raises `ToolError` if the files can't be read or aren't a map's, or the store can't be written. Then there is none, or the one
    that was there.
    """
    files = [*files_read(folder), folder / IDS]
    require_free_file(file, force, files)
    nodes, lines, bans, ids = files
    with whole_file(file, force, files) as made, read_if_there(ids) as sources:
        columns = _shown("nodes", nodes), _shown("lines", lines), _shown("bans", bans)
        return _write(made, columns, sources)


def _shown(what: What, file: Path) -> Iterator[Columns]:
    """The records of a file, with a bar that shows how far they are. None if it is a file of bans that isn't there."""
    if what == "bans" and not file.exists():
        return
    size = file.stat().st_size if file.exists() else 0
    with progress(f"bytes of {file.name}", size) as advance:
        yield from read_columns(what, file, advance)


def make_store_of_map(
    road_map: RoadMap, file: Path, force: bool = False, inputs: Iterable[Path] = ()
) -> Sizes:
    """Makes a store of a map, and tells its size. Raises `ToolError` as `make_store_of_folder`."""
    with whole_file(file, force, inputs) as made:
        return _write(made, _columns_of(road_map), _sources_of(road_map))


def write_store(road_map: RoadMap, folder: Path) -> None:
    """Writes the store of a map into a folder, under the name that it has there. Raises `OSError`, and `ToolError` for what isn't a
    record of a map."""
    _write(folder / STORE, _columns_of(road_map), _sources_of(road_map))


def _columns_of(road_map: RoadMap) -> AllColumns:
    """The columns of a map, with a bar that shows how far they are."""
    nodes = ((node.id, *node.position) for node in road_map.nodes)
    lines = watched(road_map.lines, "lines written", len(road_map.lines))
    bans = watched(road_map.bans, "bans written", len(road_map.bans))
    return (
        batched_columns("nodes", nodes),
        batched_columns("lines", map(line_row, lines)),
        batched_columns("bans", bans),
    )


def _sources_of(road_map: RoadMap) -> Reading | None:
    """Where the lines of a map came from, if it says so."""
    return Reading(tuple(road_map.kept), iter(road_map.origins)) if road_map.origins else None


def _write(file: Path, columns: AllColumns, sources: Reading | None = None) -> Sizes:
    """Writes a store to a new file. Raises `OSError` and `ToolError`."""
    try:
        with closing(sqlite3.connect(file, isolation_level=None)) as connection:
            with tempfile.TemporaryFile(dir=file.parent) as spool:
                return _Making(connection, spool).make(*columns, sources)
    except sqlite3.Error as error:
        raise os_error(error) from error


class _Making:
    """A store that is being made."""

    def __init__(self, connection: sqlite3.Connection, spool: IO[bytes]) -> None:
        """`spool` is an empty file for the records of lines."""
        self._connection = connection
        self._spool = spool

    def make(
        self,
        node_columns: Iterator[Columns],
        line_columns: Iterator[Columns],
        ban_columns: Iterator[Columns],
        sources: Reading | None,
    ) -> Sizes:
        """Writes everything."""
        # Nobody sees the file before it is whole.
        self._connection.execute("PRAGMA journal_mode = OFF")
        self._connection.execute("PRAGMA synchronous = OFF")
        self._connection.execute(f"PRAGMA cache_size = {-CACHE_KILOBYTES}")
        geopackage.make_tables(self._connection)
        self._connection.execute("BEGIN")
        nodes = self._add_nodes(node_columns)
        lines = self._add_lines(line_columns, nodes)
        bans = self._add_bans(ban_columns, lines)
        if sources is not None:
            origins = watched(sources.origins, "sources of lines written", len(lines.id))
            add_sources(self._connection, Reading(sources.kept, origins))
        with progress("last steps of the store", 4) as advance:
            order = lines.along_curve()
            blocks = blocks_of(nodes, lines, bans, order, self._spool)
            directory = write_blocks(self._connection, blocks, lines, order)
            advance(1)
            self._add_index(lines, order)
            advance(1)
            sizes = Sizes(len(nodes.id), len(lines.id), len(bans.first))
            self._add_facts(sizes, nodes, lines, directory)
            advance(1)
            self._connection.execute("COMMIT")
            advance(1)
        return sizes

    def _add_nodes(self, parts: Iterator[Columns]) -> Nodes:
        """Adds the nodes."""
        # Their ids are looked up for each line: that takes two thirds of the time where they stand together.
        return Nodes(*[one.copy() for one in columns_by_id(self._rows("nodes", NODE, parts))])

    def _add_lines(self, parts: Iterator[Columns], nodes: Nodes) -> Lines:
        """Adds the lines, and writes their records to the spool."""
        return Lines(*columns_by_id(joined_rows(self._batches(parts, nodes), LINE)))

    def _batches(self, parts: Iterator[Columns], nodes: Nodes) -> Iterator[Rows]:
        """Adds the lines of each part, and answers their numbers."""
        number = 0
        for columns in parts:
            yield self._add_batch(columns, nodes, number)
            number += len(columns.sizes)

    def _add_batch(self, columns: Columns, nodes: Nodes, number: int) -> Rows:
        """Adds lines, of which the first is that many records behind the first of all."""
        ends, there = nodes.index_of(columns.numbers[1:3])
        require(there.all(axis=0), "lines", number)
        sizes = columns.sizes + 2
        first = np.cumsum(sizes) - sizes
        index = ends.T.ravel()
        spots = np.stack([nodes.lon[index], nodes.lat[index]], axis=1)
        points = with_ends(columns.points, columns.sizes, spots)
        equal = np.zeros(len(points), dtype=np.bool_)
        equal[1:] = (points[1:] == points[:-1]).all(axis=1)
        equal[first] = False
        require(~np.logical_or.reduceat(equal, first), "lines", number)
        blobs = geopackage.blobs(points / 1e6, first, sizes)
        self._insert("lines", *columns.numbers, blobs)
        record_ends = np.flatnonzero(np.frombuffer(columns.text, np.uint8) == ord("\n")) + 1
        rows = np.empty(len(sizes), LINE)
        rows["id"], rows["length"] = columns.numbers[0], columns.numbers[5]
        rows["ends"] = ends.T
        rows["boxes"][:, :2] = np.minimum.reduceat(points, first)
        rows["boxes"][:, 2:] = np.maximum.reduceat(points, first)
        rows["measured"] = measured_lengths(points, first)
        rows["bytes"] = np.diff(record_ends, prepend=0)
        rows["begin"] = self._spool.tell() + record_ends - rows["bytes"]
        self._spool.write(columns.text)
        return rows

    def _add_bans(self, parts: Iterator[Columns], lines: Lines) -> Bans:
        """Adds the bans. Raises `ToolError` if not all of them have both lines, the second one from where the first one ends."""
        rows = self._rows("bans", BAN, parts)
        ids = np.stack([rows["first"], rows["second"]])
        index, there = lines.index_of(ids)
        first, second = index
        right = there.all(axis=0)
        right[right] = lines.ends[1, first[right]] == lines.ends[0, second[right]]
        wrong = len(right) - int(right.sum())
        if wrong:
            about = f"{wrong:,} bans aren't between two lines that meet"
            raise ToolError(f"{about}: run olr-tools check")
        return Bans(first, ids[1])

    def _rows(self, what: What, kind: "np.dtype[np.void]", parts: Iterator[Columns]) -> Rows:
        """Adds all parts of nodes or bans, and answers their numbers."""

        def add(columns: Columns) -> Rows:
            self._insert(what, *columns.numbers)
            return np.rec.fromarrays(columns.numbers, kind)

        return joined_rows(map(add, parts), kind)

    def _insert(self, what: What, *columns: Sequence[object] | Integers) -> None:
        """Adds rows to the table of the nodes, lines or bans. Raises `ToolError` for an id that is there."""
        try:
            insert(self._connection, what, *columns)
        except sqlite3.IntegrityError as error:
            about = f"two records of the {what} have one id"
            raise ToolError(f"{about}: run olr-tools check") from error

    def _add_index(self, lines: Lines, order: Integers32) -> None:
        """Adds the index of the lines, which it has in an order."""
        edges = np.empty((4, len(order)), dtype=np.float32)
        for first in range(0, len(order), AT_ONCE):
            some = slice(first, first + AT_ONCE)
            for row, (edge, side) in enumerate(((0, -1), (2, 1), (1, -1), (3, 1))):
                edges[row, some] = outwards(lines.boxes[edge, order[some]] / 1e6, side)
        fill_index(self._connection, "rtree_lines_geom", lines.id[order], edges)
        if len(order):
            box = [*lines.boxes[:2].min(axis=1).tolist(), *lines.boxes[2:].max(axis=1).tolist()]
            self._connection.execute(
                "UPDATE gpkg_contents SET min_x = ?, min_y = ?, max_x = ?, max_y = ? WHERE table_name = 'lines'",
                [edge / 1e6 for edge in box],
            )

    def _add_facts(self, sizes: Sizes, nodes: Nodes, lines: Lines, directory: Directory) -> None:
        """Adds the facts, and the lines beyond the usual stretch."""
        shortness = shortness_of(nodes, lines)
        rows = zip(shortness.lines.tolist(), *(column.tolist() for column in shortness.columns()))
        self._connection.executemany(
            "INSERT INTO olr_shorter VALUES (?, ?, ?, ?, ?, ?, ?, ?)", rows
        )
        known = digest_of_parts([np.asarray(column, "<i8").tobytes() for column in nodes])
        facts = Facts(*sizes, shortness.usual, shortness.greatest, known)
        row = (VERSION, facts.digest(shortness, directory), *facts)
        self._connection.execute("INSERT INTO olr_store VALUES (?, ?, ?, ?, ?, ?, ?, ?)", row)


def shortness_of(nodes: Nodes, lines: Lines) -> Shortness:
    """How much shorter lines are than their shapes."""
    metres = lines.length / 10.0
    stretch = lines.measured / metres * (1 + 1e-9)
    greatest = max(float(stretch.max(initial=1.0)), 1.0)
    most = float(np.quantile(stretch, 1 - UNUSUAL, method="higher")) if len(stretch) else 1.0
    usual = min(max(float(np.ceil(most * STEPS)) / STEPS, 1.0), greatest)
    beyond = np.flatnonzero(stretch > usual)
    excess = np.maximum(lines.measured[beyond] * (1 + 1e-9) - metres[beyond] * usual, 0.0)
    start = lines.ends[0, beyond]
    west, south, east, north = lines.boxes[:, beyond].astype(np.float64)
    lon, lat = (column[start].astype(np.float64) for column in (nodes.lon, nodes.lat))
    ids = lines.id[beyond]
    return Shortness(usual, greatest, ids, lon, lat, west, south, east, north, excess)


def measured_lengths(points: Integers, first: Integers) -> Floats:
    """The measured lengths of polylines (see `shortness`), in metres. `points` are in microdegrees, a row each, those of a polyline
    from the row `first` on."""
    lat = points[:, 1]
    low, high = np.minimum.reduceat(lat, first), np.maximum.reduceat(lat, first)
    least = np.where(low > 0, low, np.where(high < 0, -high, 0))
    counts = np.diff(np.append(first, len(points)))
    scale = np.repeat(scales_at(least) / 10_000, counts)
    steps = np.zeros(len(points))
    moves = np.diff(points, axis=0)
    steps[:-1] = np.hypot(moves[:, 0] * scale[:-1], moves[:, 1]) * MICRODEGREE
    steps[first + counts - 1] = 0.0
    result: Floats = np.add.reduceat(steps, first)
    return result
