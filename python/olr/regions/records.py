"""Records of a map's files, many behind one another in a text, and put from such texts into a file.

A map for the program has a hundred thousand of them: none becomes an object of Python by itself.
"""

import numpy as np
from collections.abc import Iterable, Sequence
from itertools import accumulate
from typing import NamedTuple

from olr.arrays import Integers

ELSEWHERE = -1
"""The place of a record that a file has from another text."""


class Records(NamedTuple):
    """Records one behind the other, each with its line feed."""

    text: bytes | memoryview
    sizes: Integers
    """Of each, in bytes."""

    @classmethod
    def of(cls, records: Iterable[bytes]) -> "Records":
        """Those given one by one."""
        each = list(records)
        return cls(b"".join(each), np.array([len(one) for one in each], dtype=np.int64))


class RecordFile:
    """A file of records by rising ids, which are put there from several texts in turn."""

    def __init__(self, header: Sequence[str], sizes: Integers, order: Integers) -> None:
        """`sizes` are those of all records in the order in which they are going to be added, and `order` which of these the file has one
        behind the other."""
        head = ",".join(header).encode() + b"\n"
        taken = sizes[order]
        behind = len(head) + np.cumsum(taken)
        self._places = np.full(len(sizes), ELSEWHERE)
        self._places[order] = behind - taken
        self._added = 0
        self.content = bytearray(int(behind[-1]) if len(behind) else len(head))
        """All bytes, once all records were added."""
        self.content[: len(head)] = head

    def add(self, records: Sequence[Records], which: Sequence[Integers]) -> None:
        """Adds the next ones: for each of some texts those at some places of it."""
        counts = [len(one.sizes) for one in records]
        sizes = np.concatenate([one.sizes for one in records], dtype=np.int64)
        begins = np.cumsum(sizes) - sizes
        shifted = [one + first for one, first in zip(which, accumulate(counts, initial=0))]
        taken: Integers = np.concatenate(shifted)
        places = self._places[self._added : self._added + len(taken)]
        self._added += len(taken)
        kept = (places != ELSEWHERE).nonzero()[0]
        taken, places = taken[kept], places[kept]
        text = b"".join(one.text for one in records)
        copy_pieces(text, begins[taken], sizes[taken], self.content, places)


def copy_pieces(
    source: bytes, begins: Integers, sizes: Integers, target: bytearray, places: Integers
) -> None:
    """Copies pieces of some bytes, which begin there and have these sizes, at least 1, to places in others.

    A piece of 9 to 15 bytes is copied as its first 8 bytes and its last 8 bytes, and so on by powers of two: so pieces of all sizes take
    two steps of numpy for each power. Raises `IndexError` if one isn't within the source or the target.
    """
    powers = np.frexp(sizes)[1] - 1
    for power in range(int(powers.max(initial=-1)) + 1):
        some = (powers == power).nonzero()[0]
        if not len(some):
            continue
        width = 1 << power
        found, made = _every(source, width), _every(target, width)
        begin, place, last = begins[some], places[some], sizes[some] - width
        made[place] = found[begin]
        made[place + last] = found[begin + last]


def _every(data: bytes | bytearray, width: int) -> "np.ndarray[tuple[int], np.dtype[np.void]]":
    """All pieces of some bytes that have this width, one for each byte where one begins."""
    return np.ndarray((len(data) - width + 1,), f"V{width}", data, 0, (1,))
