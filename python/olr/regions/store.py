"""A store: a map of any size as one GeoPackage, and maps of some of its lines.

What others build on is `Store.open`, `Store.lines_meeting`, `Store.sizes_of` and `Store.write_map`, with `region.discs_of`:

    with Store.open(file) as store:
        lines = store.lines_meeting(discs_of(reference, Options(radius=100), store, "match"))
        if store.sizes_of(lines).within_limits():
            store.write_map(lines, folder)

`Store.lines_within_limits` does the first two steps, and stops where there are too many lines. Both take a `Box` too, for what reaches into it.
Lines are named by their ids, in sorted arrays without repeats: `numpy.union1d` joins those of two references. On a map of these
lines, or of more lines of the store, the reference has the answer that it has on the whole map. For many references hand over the discs
of all of them at once, as `region.discs_of_each` has them: places that they share are looked up once. `olr.model.reference.read_reference` reads
a reference without the program.

All that is read of the map comes from the store's blocks (see `blocks`) and its table of facts. The layers for other programs, and their
index, aren't looked at. `Store.sources` says where lines came from.
"""

import numpy as np
import sqlite3
from collections.abc import Iterable, Iterator
from contextlib import contextmanager
from pathlib import Path
from typing import NamedTuple

from olr.arrays import Floats, Integers, Integers32
from olr.errors import ToolError
from olr.model.box import Box
from olr.model.map_folder import BANS, BANS_HEADER, LINES, LINES_HEADER, NODES, NODES_HEADER, STORE
from olr.model.road_map import GREATEST_LON, within_limits
from olr.model.sources import Sources
from olr.regions.blocks import Block, Blocks, Damaged, Directory, digest_of_parts
from olr.regions.geopackage import damaged, reading
from olr.regions.plane import Disc, Discs
from olr.regions.records import RecordFile
from olr.regions.shortness import Shortness
from olr.regions.table_of_sources import sources_in

VERSION = 3
"""Of what a store holds. A store of another version has to be made again."""

NONSENSE = (TypeError, ValueError, LookupError, ArithmeticError)
"""What reading a damaged file may raise besides an error of SQLite: a number in place of a text, a place beyond the end."""
AT_ONCE = 64
"""The records of so many blocks are put into a map's files at a time."""
_NONE = np.zeros(0, dtype=np.int64)
Boxes = tuple[Floats, Floats, Floats, Floats]
"""The boxes around some lines: west, south, east and north, in microdegrees."""
_Met = tuple[int, Block, Integers]
"""Lines of a block: its number, the block, and their places there."""


class Sizes(NamedTuple):
    """How many nodes, lines and bans a map has."""

    nodes: int
    lines: int
    bans: int

    def within_limits(self) -> bool:
        """Whether the program reads a map of this size."""
        return within_limits(*self)


class Facts(NamedTuple):
    """The row of a store's table of facts, without its version and digest."""

    nodes: int
    lines: int
    bans: int
    usual: float
    """See `shortness`, as `greatest`."""
    greatest: float
    nodes_digest: bytes
    """Of the nodes' ids, longitudes and latitudes by rising ids: numbers of 8 bytes, the least byte first. Nodes without lines are in
    no block."""

    def digest(self, shortness: Shortness, directory: Directory) -> str:
        """The digest of a store with these facts, in hexadecimal digits."""
        text = f"{VERSION},{self.nodes},{self.lines},{self.bans},{self.usual!r},{self.greatest!r}"
        parts = [text.encode(), self.nodes_digest, shortness.content(), directory.digest()]
        return digest_of_parts(parts).hex()


class _Piece(NamedTuple):
    """Some lines of a block."""

    block: int
    """Its number."""
    lines: Integers
    """Their places there."""
    nodes: Integers
    """The places of their ends."""


class _Sorted(NamedTuple):
    """The lines or nodes of all pieces."""

    ids: Integers
    """Sorted, each once."""
    order: Integers
    """Where each is among those of all pieces, one piece behind the other."""
    sizes: Integers
    """Of the records of all pieces, in bytes."""

    @classmethod
    def of(cls, ids: Integers, sizes: Integers) -> "_Sorted":
        """Those of all pieces, with the sizes of their records."""
        return cls(*np.unique(ids, return_index=True), sizes)


class _Part(NamedTuple):
    """Some lines of a store, with what a map of them has."""

    pieces: list[_Piece]
    lines: _Sorted
    nodes: _Sorted
    bans: Integers
    """As those of a block."""

    def sizes(self) -> Sizes:
        """Of its map."""
        return Sizes(len(self.nodes.ids), len(self.lines.ids), self.bans.shape[1])


class _TooMany(Exception):
    """There are more lines than a map for the program may have."""


class Store:
    """An open store, only read. A context manager; one thread at a time may use it, and several processes may open one file."""

    digest: str
    """Of all that a store says of its map, in 64 hexadecimal digits: stores of one map have the same one, however the map's files were
    ordered, and stores of two maps never. It is the SHA-256 digest of four parts, by `digest_of_parts` of `blocks`: the facts, the nodes,
    the lines that are far shorter than their shapes, and the blocks in their order, each by its box and the digest of its content."""

    def __init__(self, file: Path, connection: sqlite3.Connection) -> None:
        """A store that is open. Use `open`."""
        self.file = file
        self._connection = connection
        columns = ", ".join(Facts._fields)
        (self.digest,) = connection.execute("SELECT digest FROM olr_store").fetchone()
        facts = Facts(*connection.execute(f"SELECT {columns} FROM olr_store").fetchone())
        self.sizes = Sizes(*facts[:3])
        self.shortness = Shortness.of_tables(connection)
        """How much shorter its lines are than their shapes."""
        directory = Directory.of_tables(connection)
        if facts.digest(self.shortness, directory) != self.digest:
            raise Damaged("its table of facts isn't what was written")
        self._blocks = Blocks(connection, directory)
        self._last = self._part([])
        """The lines that were looked up last: they are asked for again soon."""

    @classmethod
    def open(cls, file: Path) -> "Store":
        """Opens a store, or that of a folder to which an import wrote one. Raises `ToolError` if it isn't one, or can't be read."""
        file = file / STORE if file.is_dir() else file
        if not file.is_file():
            raise ToolError(f"there is no store {file}: make it by olr-tools regions")
        try:
            uri = f"{file.resolve().as_uri()}?mode=ro&immutable=1"
            connection = sqlite3.connect(uri, uri=True, check_same_thread=False)
            (version,) = connection.execute("SELECT version FROM olr_store").fetchone()
        except (sqlite3.Error, *NONSENSE) as error:
            about = f"{file} isn't a store of olr-tools regions: {error}"
            raise ToolError(f"{about}: name one, or the folder of a map") from error
        if version != VERSION:
            raise ToolError(
                f"{file} is a store of version {version}, not {VERSION}: make it again by olr-tools regions"
            )
        with _reading(file):
            return cls(file, connection)

    def __enter__(self) -> "Store":
        return self

    def __exit__(self, *_: object) -> None:
        self.close()

    def close(self) -> None:
        """Closes the file."""
        self._connection.close()

    def blocks(self) -> int:
        """How many blocks it has."""
        return self._blocks.count()

    def extent(self) -> Box | None:
        """The box around all lines, if there are any."""
        return self._blocks.extent()

    def lines_of_block(self, number: int) -> Integers:
        """The ids of the lines of a block, from 0, sorted. Raises `ToolError` if it isn't what was written there."""
        with _reading(self.file):
            return self._blocks.read(number).lines.copy()

    def lines_round_the_earth(self) -> Integers:
        """The ids, sorted, of lines that go more than half round the earth: those whose box is wider than 180 degrees. Only blocks as wide
        are read. Raises `ToolError` as `lines_of_block`."""
        found = [_NONE]
        with _reading(self.file):
            for number in self._blocks.wider_than(GREATEST_LON):
                block = self._blocks.read(number)
                found.append(block.lines[block.boxes[2] - block.boxes[0] > GREATEST_LON])
        result: Integers = np.unique(np.concatenate(found))
        return result

    def sources(self) -> Sources:
        """Where its lines came from; none if it was made of a map that doesn't say so. Each is looked up when it is asked for, while the
        store is open. The digest leaves them out. Raises `ToolError` if they can't be read, and so does looking one up.
        """
        return sources_in(self.file, self._connection)

    def lines_meeting(self, place: Discs | Iterable[Disc] | Box) -> Integers:
        """The ids, sorted, of all lines that meet one of the discs, which may be those of many references, or that reach into a box. Some
        lines that only come near may be among them, none is left out: what counts are boxes around lines and discs. Raises `ToolError` if
        the file can't be read, or doesn't have what was written there."""
        with _reading(self.file):
            self._last = self._part(self._meeting(place))
        return self._last.lines.ids

    def lines_within_limits(self, place: Discs | Box) -> Integers | None:
        """The same if the program reads the map of these lines, and else None. No more blocks are read than it takes to know that there
        are too many lines. Raises `ToolError` as `lines_meeting`."""
        try:
            with _reading(self.file):
                self._last = self._part(_not_too_many(self._meeting(place)))
        except _TooMany:
            return None
        return self._last.lines.ids if self._last.sizes().within_limits() else None

    def boxes_near(self, disc: Disc) -> tuple[Integers, Boxes]:
        """The ids of lines whose box meets that of a disc, and their boxes. All lines that meet the disc are among them. Raises
        `ToolError` as `lines_meeting`."""
        ids, boxes = [_NONE], [np.zeros((4, 0))]
        with _reading(self.file):
            for number, met in self._blocks.meeting(_whole(Discs.of([disc]).boxes())):
                block = self._blocks.read(number)
                near = block.meeting(met)
                ids.append(block.lines[near])
                boxes.append(block.boxes[:, near].astype(np.float64))
        west, south, east, north = np.concatenate(boxes, axis=1)
        return np.concatenate(ids), (west, south, east, north)

    def sizes_of(self, lines: Integers) -> Sizes:
        """How many nodes, lines and bans the map of some lines has, as `write_map` writes it. Raises `ToolError` as `lines_meeting`."""
        with _reading(self.file):
            return self._part_of(lines).sizes()

    def files_of(self, lines: Integers) -> list[tuple[str, bytes | bytearray]]:
        """The names and contents of the files that `write_map` writes: the nodes come last. Raises `ToolError` as `lines_meeting`."""
        with _reading(self.file):
            return self._files(self._part_of(lines))

    def write_map(self, lines: Integers, folder: Path) -> None:
        """Writes the map of some lines into a folder, which is made if it isn't there: `nodes.csv`, `lines.csv` and `bans.csv`, by
        rising ids, with the ends of these lines and all bans between them. The same lines give the same bytes. A map that is in the
        folder is replaced.

        Raises `ToolError` as `lines_meeting`, or if the folder can't be written; then what is in the folder is no map.
        """
        files = self.files_of(lines)
        try:
            folder.mkdir(parents=True, exist_ok=True)
            (folder / NODES).unlink(missing_ok=True)
            for name, content in files:
                (folder / name).write_bytes(content)
        except OSError as error:
            raise ToolError(f"{folder} can't be written: {error.strerror}") from error

    def _meeting(self, place: Discs | Iterable[Disc] | Box) -> Iterator[_Met]:
        """The lines that meet one of some discs, or a box."""
        for number, boxes in self._blocks.meeting(_boxes_of(place)):
            block = self._blocks.read(number)
            yield number, block, block.meeting(boxes)

    def _part(self, met: Iterable[_Met]) -> _Part:
        """The lines at some places of blocks. Blocks themselves aren't kept: there may be more of them than memory is for."""
        pieces, bans = list[_Piece](), [np.stack([_NONE, _NONE])]
        columns = [(_NONE, _NONE, _NONE, _NONE)]
        for number, block, places in met:
            ends = block.nodes_of(places)
            pieces.append(_Piece(number, places, ends))
            bans.append(block.bans.copy())  # A view would keep the block.
            of_lines = block.lines[places], block.line_records.sizes[places]
            columns.append((*of_lines, block.nodes[ends], block.node_records.sizes[ends]))
        joined: list[Integers] = [np.concatenate(one) for one in zip(*columns)]
        ids, sizes, node_ids, node_sizes = joined
        lines = _Sorted.of(ids, sizes)
        between = _between(lines.ids, np.concatenate(bans, axis=1))
        return _Part(pieces, lines, _Sorted.of(node_ids, node_sizes), between)

    def _part_of(self, lines: Integers) -> _Part:
        """Lines by their ids: those that were looked up last, or others. Raises `ToolError` if the store hasn't them."""
        if not np.array_equal(self._last.lines.ids, lines):
            query = "SELECT block, line FROM json_each(?) JOIN olr_places ON line = value ORDER BY block, line"
            rows = self._connection.execute(query, (str(lines.tolist()),)).fetchall()
            if len(rows) != len(lines):
                missing = len(lines) - len(rows)
                raise ToolError(f"{self.file} hasn't {missing:,} of {len(lines):,} lines")
            number, ids = np.array(rows, dtype=np.int64).reshape(-1, 2).T
            numbers, first = np.unique(number, return_index=True)
            blocks = ((one, self._blocks.read(one)) for one in numbers.tolist())
            self._last = self._part(
                (one, block, np.searchsorted(block.lines, those))
                for (one, block), those in zip(blocks, np.split(ids, first)[1:])
            )
            if not np.array_equal(self._last.lines.ids, lines):
                raise Damaged("its table of places isn't what was written")
        return self._last

    def _files(self, part: _Part) -> list[tuple[str, bytes | bytearray]]:
        """The names and contents of the files of a map of some lines: the nodes come last."""
        lines = RecordFile(LINES_HEADER, part.lines.sizes, part.lines.order)
        nodes = RecordFile(NODES_HEADER, part.nodes.sizes, part.nodes.order)
        for first in range(0, len(part.pieces), AT_ONCE):
            pieces = part.pieces[first : first + AT_ONCE]
            blocks = [self._blocks.read(piece.block) for piece in pieces]
            lines.add([one.line_records for one in blocks], [piece.lines for piece in pieces])
            nodes.add([one.node_records for one in blocks], [piece.nodes for piece in pieces])
        count = part.bans.shape[1]
        bans = b"%s\n" % ",".join(BANS_HEADER).encode()
        bans += b"%d,%d\n" * count % tuple(part.bans.T.ravel().tolist())
        return [(BANS, bans), (LINES, lines.content), (NODES, nodes.content)]


def _not_too_many(met: Iterable[_Met]) -> Iterator[_Met]:
    """Passes lines on, as long as one map may have all of them. Raises `_TooMany`."""
    count = 0
    for one in met:
        count += len(one[2])
        if not within_limits(0, count, 0):
            raise _TooMany
        yield one


def _between(lines: Integers, bans: Integers) -> Integers:
    """Those bans both of whose lines are some lines, sorted."""
    places = np.searchsorted(lines, bans)
    kept = bans[:, (np.append(lines, -1)[places] == bans).all(axis=0)]
    result: Integers = kept[:, np.lexsort(kept[::-1])]
    return result


def _boxes_of(place: Discs | Iterable[Disc] | Box) -> Integers32:
    """The boxes around discs, or a box, as those of a block."""
    if isinstance(place, Box):
        return np.array([place], dtype=np.int32).T
    given = place if isinstance(place, Discs) else Discs.of(place)
    return _whole(given.boxes())


def _whole(boxes: Boxes) -> Integers32:
    """Boxes as those of a block: positions in whole microdegrees are within the same ones."""
    west, south, east, north = boxes
    edges = np.stack([np.ceil(west), np.ceil(south), np.floor(east), np.floor(north)])
    result: Integers32 = np.clip(edges, -(2**31), 2**31 - 1).astype(np.int32)
    return result


@contextmanager
def _reading(file: Path) -> Iterator[None]:
    """Raises `ToolError` where the file can't be read, or doesn't have what was written there."""
    try:
        with reading(file):
            yield
    except (Damaged, *NONSENSE) as error:
        what = str(error) if isinstance(error, Damaged) else "a table isn't what was written"
        raise damaged(file, what) from error
