"""References put into groups of neighbours: a file of records in another order, where each group begins in it, and its digest.

What is held in memory are some 60 bytes for a record. The records themselves are written twice: to a file in the order of MESSAGES
without what is empty or too long, which is then deleted, and from there to the file of groups.
"""

import hashlib
import mmap
import numpy as np
import tempfile
from array import array
from collections.abc import Iterable, Iterator
from pathlib import Path
from typing import IO, NamedTuple

from olr.arrays import Integers
from olr.asking.records import Record
from olr.curve import places_on_curve
from olr.errors import ToolError, readable
from olr.model.reference import first_position
from olr.outputs import sync
from olr.progress import progress
from olr.running.records import END, reference_of

RECORDS, NUMBERS, GROUPS, DIGESTS = "records.txt", "numbers.bin", "groups.bin", "digests.bin"
FILES = (RECORDS, NUMBERS, GROUPS, DIGESTS)
DIGEST_BYTES = hashlib.sha256().digest_size
"""Of each group in DIGESTS."""
LEAST_PER_GROUP, MOST_PER_GROUP = 50, 4000
GROUPS_AIMED_AT = 32
STEPS = 1000
"""Records between two movements of the bar."""
NOWHERE = -1
"""Where records stand on the curve that are no references: before all others."""


class Grouped(NamedTuple):
    """How much there is."""

    records: int
    """That aren't empty."""
    groups: int
    sha256: str
    """The digest of the file DIGESTS, and so of all records."""


class Group(NamedTuple):
    """The records of a group, in the order of their numbers."""

    sha256: str
    """The digest of their numbers and bytes."""
    numbers: list[int]
    data: bytes
    """All records, END behind each."""

    def records(self) -> list[Record]:
        """The records one by one."""
        pieces = self.data.split(END[-1:])[:-1]
        return [
            Record(number, piece[:-1]) for number, piece in zip(self.numbers, pieces, strict=True)
        ]


class _Found(NamedTuple):
    """The records of a file: their numbers, where each begins, and where it is on the curve."""

    numbers: Integers
    begins: Integers
    """In the file of their bytes, with the end of that file at last."""
    on_curve: Integers


def usual_size(records: int) -> int:
    """How many records a group has if nothing else is asked for. A few get several groups too, for several workers."""
    return min(max(-(-records // GROUPS_AIMED_AT), LEAST_PER_GROUP), MOST_PER_GROUP)


def write_groups(
    records: Iterable[Record], folder: Path, most: int | None = None, along_curve: bool = True
) -> Grouped:
    """Writes groups of records to a folder, along the curve, or in the order of the records. A group has `most` records at most. Raises
    `OSError`."""
    with tempfile.TemporaryFile(dir=folder) as copy:
        found = _read(records, copy, along_curve)
        copy.flush()
        count = len(found.numbers)
        size = usual_size(count) if most is None else most
        groups = -(-count // size)
        order = np.argsort(found.on_curve, kind="stable")
        cuts = np.linspace(0, count, groups + 1).astype(np.int64)
        for first, behind in zip(cuts, cuts[1:]):
            order[first:behind].sort()
        sizes = np.diff(found.begins)[order]
        begins = np.concatenate([[0], np.cumsum(sizes)])[cuts]
        with (folder / RECORDS).open("wb") as stream:
            stream.writelines(_pieces(copy, found.begins, order))
    found.numbers[order].tofile(folder / NUMBERS)
    np.stack([cuts, begins], axis=1).tofile(folder / GROUPS)
    digests = b"".join(bytes.fromhex(_read_group(folder, group).sha256) for group in range(groups))
    (folder / DIGESTS).write_bytes(digests)
    for name in FILES:
        sync(folder / name)
    return Grouped(count, groups, hashlib.sha256(digests).hexdigest())


def digests_of(folder: Path, sha256: str) -> bytes:
    """The digests of all groups, whose own digest is this one. Raises `ToolError` if they can't be read, or are others."""
    with readable(folder):
        digests = (folder / DIGESTS).read_bytes()
    if hashlib.sha256(digests).hexdigest() != sha256:
        raise _damaged(folder)
    return digests


def read_group(folder: Path, group: int, digests: bytes) -> Group:
    """The records of a group. Groups are counted from 0. Raises `ToolError` if a file can't be read, or doesn't have the records of
    these digests."""
    try:
        with readable(folder):
            found = _read_group(folder, group)
    except ValueError as error:
        raise _damaged(folder) from error
    if found.sha256 != digests[group * DIGEST_BYTES :][:DIGEST_BYTES].hex():
        raise _damaged(folder)
    return found


def _damaged(folder: Path) -> ToolError:
    """The error of groups that aren't those which were written."""
    return ToolError(
        f"{folder} isn't as the run wrote it: go on by --resume, which writes it again"
    )


def _read_group(folder: Path, group: int) -> Group:
    """The records of a group as the files have them. Raises `OSError`, and `ValueError` for files that don't have it."""
    limits = np.fromfile(folder / GROUPS, np.int64, 4, offset=16 * group).tolist()
    first, begin, behind, end = limits
    is_there = 8 * behind <= (folder / NUMBERS).stat().st_size
    is_there &= end <= (folder / RECORDS).stat().st_size
    if not (is_there and 0 <= first <= behind and 0 <= begin <= end):
        raise ValueError(f"no records {limits}")
    numbers = np.fromfile(folder / NUMBERS, np.int64, behind - first, offset=8 * first)
    with (folder / RECORDS).open("rb") as stream:
        stream.seek(begin)
        data = stream.read(end - begin)
    digest = hashlib.sha256(numbers.tobytes())
    digest.update(data)
    return Group(digest.hexdigest(), numbers.tolist(), data)


def _read(records: Iterable[Record], copy: IO[bytes], along_curve: bool) -> _Found:
    """Takes records one after the other, and copies them. Without a curve they are all in one place."""
    numbers, begins, lons, lats, placed = (array("q") for _ in range(5))
    begin = 0
    with progress("reading messages") as advance:
        for number, data in records:
            position = first_position(reference_of(data)) if along_curve else None
            numbers.append(number)
            begins.append(begin)
            placed.append(position is not None)
            lons.append(position.lon if position else 0)
            lats.append(position.lat if position else 0)
            begin += copy.write(data + END)
            if not len(numbers) % STEPS:
                advance(STEPS)
    begins.append(begin)
    on_curve = places_on_curve(_integers(lons), _integers(lats))
    on_curve[_integers(placed) == 0] = NOWHERE
    return _Found(_integers(numbers), _integers(begins), on_curve)


def _pieces(copy: IO[bytes], begins: Integers, order: Integers) -> Iterator[bytes]:
    """The bytes of records, in an order."""
    if not len(order):
        return
    with mmap.mmap(copy.fileno(), 0, access=mmap.ACCESS_READ) as data:
        for number in order:
            yield data[begins[number] : begins[number + 1]]


def _integers(numbers: "array[int]") -> Integers:
    return np.frombuffer(numbers, dtype=np.int64).copy() if numbers else np.zeros(0, np.int64)
