"""The columns of a map while its store is made, and the blocks that are made of them."""

import mmap
import numpy as np
import sqlite3
from collections.abc import Iterable, Iterator
from numpy.typing import NDArray
from typing import IO, Any, NamedTuple

from olr.arrays import Booleans, Floats, Integers, Integers32
from olr.curve import places_on_curve
from olr.regions.blocks import LINES, Block, Directory, digest_of_block
from olr.regions.geopackage import insert
from olr.regions.records import Records

AT_ONCE = 100_000
"""So many lines are put along the curve, or their boxes are rounded, at a time."""
NODE = np.dtype([("id", np.int64), ("lon", np.int32), ("lat", np.int32)])
"""The numbers of a node, by the columns of `Nodes`."""
LINE = np.dtype(
    [
        ("id", np.int64),
        ("ends", np.int32, 2),
        ("boxes", np.int32, 4),
        ("length", np.int32),
        ("bytes", np.int32),
        ("measured", np.float64),
        ("begin", np.int64),
    ]
)
"""The numbers of a line, by the columns of `Lines`."""
BAN = np.dtype([("first", np.int64), ("second", np.int64)])
"""The ids of the lines of a ban."""
Rows = NDArray[np.void]
"""Of one of these kinds."""
There = tuple[Integers, Booleans]
"""Indices of ids, and which of the ids are there."""


def joined_rows(parts: Iterable[Rows], kind: "np.dtype[np.void]") -> Rows:
    """The rows of all parts, one part behind the other, in memory that grows in its place. Thousands of parts that are kept until all are
    there would take as much again, and leave holes between them."""
    data = bytearray()
    for part in parts:
        data += part.tobytes()
    return np.frombuffer(data, kind)


def columns_by_id(rows: Rows) -> list[NDArray[Any]]:
    """The columns of rows, whose ids are sorted. The rows themselves are, one column after the other, since a copy would be as large."""
    names = rows.dtype.names or ()
    order = np.argsort(rows["id"])
    for name in names:
        for column in np.atleast_2d(rows[name].T):
            column[:] = column[order]
    return [rows[name].T for name in names]


class Nodes(NamedTuple):
    """The nodes of a map, by rising ids."""

    id: Integers
    lon: Integers32
    """In microdegrees, as `lat`."""
    lat: Integers32

    def index_of(self, ids: Integers) -> There:
        """Where nodes are here."""
        return _index_of(ids, self.id)


class Lines(NamedTuple):
    """The lines of a map, by rising ids."""

    id: Integers
    ends: Integers32
    """A row with the indices of the nodes where they start, and one with those where they end."""
    boxes: Integers32
    """As those of a block."""
    length: Integers32
    """In decimetres."""
    bytes: Integers32
    """Of their records."""
    measured: Floats
    """Their measured lengths (see `shortness`), in metres."""
    begin: Integers
    """Where their records begin in the spool."""

    def index_of(self, ids: Integers) -> There:
        """Where lines are here."""
        return _index_of(ids, self.id)

    def along_curve(self) -> Integers32:
        """Their indices in the order in which a curve passes the middles of their boxes, those in one place by their ids."""
        places = np.empty(len(self.id), dtype=np.int64)
        for first in range(0, len(places), AT_ONCE):
            west, south, east, north = self.boxes[:, first : first + AT_ONCE].astype(np.int64)
            middles = (west + east) // 2, (south + north) // 2
            places[first : first + AT_ONCE] = places_on_curve(*middles)
        return np.argsort(places, kind="stable").astype(np.int32)


class Bans(NamedTuple):
    """The bans of a map."""

    first: Integers
    """The index of the first line."""
    second: Integers
    """The id of the second line."""


def write_blocks(
    connection: sqlite3.Connection, blocks: Iterator[Block], lines: Lines, order: Integers32
) -> Directory:
    """Writes the blocks of a store, and where each line is. `order` is that of the lines. Raises `sqlite3.Error`."""
    boxes, digests = [], []
    for number, block in enumerate(blocks):
        content = block.content()
        digests.append(digest_of_block(content))
        boxes.append([*block.boxes[:2].min(axis=1).tolist(), *block.boxes[2:].max(axis=1).tolist()])
        connection.execute("INSERT INTO olr_contents VALUES (?, ?)", (number, content))
        row = (number, *boxes[-1], digests[-1])
        connection.execute("INSERT INTO olr_blocks VALUES (?, ?, ?, ?, ?, ?)", row)
    insert(connection, "olr_places", lines.id, _blocks_of_lines(order))
    return Directory(np.array(boxes, dtype=np.int32).reshape(-1, 4).T, digests)


def blocks_of(
    nodes: Nodes, lines: Lines, bans: Bans, order: Integers32, records: IO[bytes]
) -> Iterator[Block]:
    """The blocks of a map. `records` has those of the lines. Raises `OSError`."""
    if not len(order):
        return
    block_of = _blocks_of_lines(order)
    first, second = lines.id[bans.first], bans.second
    block_of_ban = block_of[bans.first].astype(np.int64)
    by_block = np.lexsort((second, first, block_of_ban))
    both = np.stack([first, second])[:, by_block]
    begins = np.searchsorted(block_of_ban[by_block], np.arange(-(-len(order) // LINES) + 1))
    records.flush()
    with mmap.mmap(records.fileno(), 0, access=mmap.ACCESS_READ) as data:
        for number, at in enumerate(range(0, len(order), LINES)):
            here = np.sort(order[at : at + LINES])
            spans = zip(lines.begin[here].tolist(), lines.bytes[here].tolist())
            used = np.unique(lines.ends[:, here])
            rows = np.stack([nodes.id[used], nodes.lon[used], nodes.lat[used]], axis=1)
            yield Block(
                lines.id[here],
                lines.boxes[:, here],
                np.searchsorted(used, lines.ends[:, here]),
                nodes.id[used],
                both[:, begins[number] : begins[number + 1]],
                Records.of(b"%d,%d,%d\n" % tuple(row) for row in rows.tolist()),
                Records.of(data[begin : begin + size] for begin, size in spans),
            )


def _blocks_of_lines(order: Integers32) -> Integers32:
    """The number of each line's block, by the order of the lines."""
    block_of = np.empty_like(order)
    for number, at in enumerate(range(0, len(order), LINES)):
        block_of[order[at : at + LINES]] = number
    return block_of


def _index_of(ids: Integers, known: Integers) -> There:
    """The indices of known ids, which are sorted, and which ids are known."""
    if not len(known):
        return np.zeros(ids.shape, dtype=np.int64), np.zeros(ids.shape, dtype=np.bool_)
    places = np.minimum(np.searchsorted(known, ids), len(known) - 1)
    return places, known[places] == ids
