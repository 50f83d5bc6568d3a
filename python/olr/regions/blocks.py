"""The blocks of a store: what a reader needs of a few hundred lines that are neighbours, with its digest.

The lines of a store are put in the order in which a space-filling curve passes their middles, and cut into blocks. A block has all that
maps of its lines need, so a reader takes a region from a store in few pieces. What is read is compared with the block's digest: another
content than what was written is never used. What a block hands out are views of its content, so whoever keeps one keeps the whole block.
"""

import hashlib
import numpy as np
import sqlite3
from collections import OrderedDict
from collections.abc import Iterator, Sequence
from typing import NamedTuple

from olr.arrays import Booleans, Integers, Integers32
from olr.model.box import Box
from olr.regions.records import Records

LINES = 256
"""Of a block, at most."""
FAN = 32
"""So many neighbouring blocks, or groups of them, have one box around them in the next level."""
CACHE_BYTES = 64 << 20
"""Of the blocks that were read last so many bytes are kept, as the store has them: regions one after the other have mostly the same ones."""
COLUMNS = (("<i8", 1), ("<i8", 1), ("<i8", 2), ("<i4", 4), ("<u2", 2), ("<u2", 1), ("<u2", 1))
"""Of numbers: their size, the least byte first, and their rows. They are the lines, nodes, bans, boxes and ends of a block, and the sizes of
its records of lines and of nodes."""
HEAD = 4
"""Numbers of 8 bytes before them: how many lines, nodes and bans there are, and how many bytes the records of the lines have."""


class Damaged(Exception):
    """What was read isn't what was written. The text says what."""


class Block(NamedTuple):
    """What is known of some lines that are neighbours."""

    lines: Integers
    """Their ids, sorted."""
    boxes: Integers32
    """The box around each: a row with the western edges, in microdegrees, and one each with the southern, eastern and northern ones."""
    ends: Integers
    """A row with the node where each line starts, and one with the node where it ends, as indices into `nodes`."""
    nodes: Integers
    """Ids, sorted."""
    bans: Integers
    """A row with the first line of each ban, one of the block, and a row with the second line: ids, sorted by both."""
    node_records: Records
    """The records of the nodes in `nodes.csv`, in their order."""
    line_records: Records
    """The records of the lines in `lines.csv`, likewise."""

    def content(self) -> bytes:
        """How a store has it: the numbers of the head, the columns, and the records of its lines and of its nodes."""
        records = self.line_records, self.node_records
        numbers: list[Integers | Integers32]
        numbers = [self.lines, self.nodes, self.bans, self.boxes, self.ends]
        numbers += [one.sizes for one in records]
        head = [len(self.lines), len(self.nodes), self.bans.shape[1], len(self.line_records.text)]
        columns = [one.astype(kind).tobytes() for one, (kind, _) in zip(numbers, COLUMNS)]
        texts = [one.text for one in records]
        return b"".join([np.array(head, "<i8").tobytes(), *columns, *texts])

    @classmethod
    def of_content(cls, content: bytes) -> "Block":
        """What a store has."""
        lines, nodes, bans, size = np.frombuffer(content, "<i8", HEAD).tolist()
        columns, begin = [], 8 * HEAD
        for (kind, rows), count in zip(COLUMNS, (lines, nodes, bans, lines, lines, lines, nodes)):
            columns.append(np.frombuffer(content, kind, rows * count, begin))
            begin += columns[-1].nbytes
        ids, node_ids, both, boxes, ends, sizes, node_sizes = columns
        text = memoryview(content)[begin:]
        return cls(
            ids,
            boxes.reshape(4, lines),
            ends.reshape(2, lines),
            node_ids,
            both.reshape(2, bans),
            Records(text[size:], node_sizes),
            Records(text[:size], sizes),
        )

    def meeting(self, boxes: Integers32) -> Integers:
        """The places of its lines whose box meets one of some boxes."""
        return _places(_meet(boxes, self.boxes).any(axis=0))

    def nodes_of(self, places: Integers) -> Integers:
        """The places of the nodes of lines at some places."""
        if len(places) == len(self.lines):
            return np.arange(len(self.nodes))
        used = np.zeros(len(self.nodes), dtype=np.bool_)
        used[self.ends[:, places]] = True
        return _places(used)


def digest_of_block(content: bytes) -> bytes:
    """The SHA-256 digest of what a store has of a block."""
    return hashlib.sha256(content).digest()


def digest_of_parts(parts: Sequence[bytes]) -> bytes:
    """The SHA-256 digest of some bytes, one part behind the other, each with its size before it."""
    digest = hashlib.sha256()
    for part in parts:
        digest.update(b"%d:" % len(part))
        digest.update(part)
    return digest.digest()


class Directory(NamedTuple):
    """Which blocks there are."""

    boxes: Integers32
    """The box around the lines of each, as the boxes of a block."""
    digests: Sequence[bytes]
    """Of their contents."""

    @classmethod
    def of_tables(cls, connection: sqlite3.Connection) -> "Directory":
        """That of an open store. Raises `sqlite3.Error`."""
        query = "SELECT west, south, east, north, digest FROM olr_blocks ORDER BY block"
        rows = connection.execute(query).fetchall()
        boxes = np.array([row[:4] for row in rows], dtype=np.int32).reshape(-1, 4).T
        return cls(np.ascontiguousarray(boxes), [row[4] for row in rows])

    def digest(self) -> bytes:
        """Of all blocks."""
        return digest_of_parts([self.boxes.astype("<i4").tobytes(), *self.digests])


class Blocks:
    """The blocks of an open store, of which those that were read last are kept."""

    def __init__(self, connection: sqlite3.Connection, directory: Directory) -> None:
        self._connection = connection
        self._digests = directory.digests
        self._levels: list[Integers32] = [directory.boxes]
        """The boxes of blocks, then those around `FAN` of them, and so on."""
        while self._levels[-1].shape[1] > FAN:
            self._levels.append(_around(self._levels[-1]))
        self._kept: OrderedDict[int, tuple[Block, int]] = OrderedDict()
        """With the sizes of their contents, in bytes."""
        self._bytes = 0

    def count(self) -> int:
        """How many there are."""
        return len(self._digests)

    def extent(self) -> Box | None:
        """The box around all lines, if there are any."""
        west, south, east, north = self._levels[0]
        if not self.count():
            return None
        return Box(int(west.min()), int(south.min()), int(east.max()), int(north.max()))

    def wider_than(self, width: int) -> list[int]:
        """The numbers of blocks whose box is wider than so many microdegrees of longitude."""
        west, _, east, _ = self._levels[0]
        numbers: list[int] = _places(east - west > width).tolist()
        return numbers

    def read(self, number: int) -> Block:
        """A block by its number, from 0. Raises `sqlite3.Error`, and `Damaged`."""
        if number in self._kept:
            self._kept.move_to_end(number)
            return self._kept[number][0]
        query = "SELECT content FROM olr_contents WHERE block = ?"
        found = self._connection.execute(query, (number,)).fetchone()
        if found is None or digest_of_block(found[0]) != self._digests[number]:
            raise Damaged(f"block {number} isn't what was written")
        self._kept[number] = Block.of_content(found[0]), len(found[0])
        self._bytes += self._kept[number][1]
        while self._bytes > CACHE_BYTES and len(self._kept) > 1:
            self._bytes -= self._kept.popitem(last=False)[1][1]
        return self._kept[number][0]

    def meeting(self, boxes: Integers32) -> Iterator[tuple[int, Integers32]]:
        """The numbers of blocks that meet some boxes, each with those of the boxes that it meets. Boxes are as those of a block."""
        top = len(self._levels) - 1
        return self._below(top, 0, self._levels[top].shape[1], boxes)

    def _below(
        self, level: int, first: int, behind: int, boxes: Integers32
    ) -> Iterator[tuple[int, Integers32]]:
        """The same for blocks in a part of a level, from one place to another one."""
        found = _meet(self._levels[level][:, first:behind], boxes)
        for place in _places(found.any(axis=1)).tolist():
            met = boxes[:, found[place]]
            if level:
                begin = FAN * (first + place)
                yield from self._below(level - 1, begin, begin + FAN, met)
            else:
                yield first + place, met


def _places(found: Booleans) -> Integers:
    """Where there is true. It takes a third of the time of `numpy.flatnonzero`, which counts where arrays are small."""
    return found.nonzero()[0]


def _meet(some: Integers32, others: Integers32) -> Booleans:
    """Which boxes meet which others: a row for each box. Edges belong to boxes."""
    west, south, east, north = some[:, :, None]
    found: Booleans = west <= others[2]
    found &= east >= others[0]
    found &= south <= others[3]
    found &= north >= others[1]
    return found


def _around(boxes: Integers32) -> Integers32:
    """The boxes around each `FAN` boxes."""
    firsts = np.arange(0, boxes.shape[1], FAN)
    low = np.minimum.reduceat(boxes[:2], firsts, axis=1)
    high = np.maximum.reduceat(boxes[2:], firsts, axis=1)
    result: Integers32 = np.concatenate([low, high])
    return result
