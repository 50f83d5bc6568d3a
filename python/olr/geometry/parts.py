"""Parts of lines, and polylines, of many matchings as arrays, one behind the other: the texts of the program are read all at once."""

import json
import numpy as np
from collections.abc import Iterator, Mapping, Sequence
from numpy.typing import NDArray
from typing import Any, NamedTuple

from olr.arrays import Floats, Integers, ranges, sums_of
from olr.model.display import text_of
from olr.model.pieces import Pieces, Spots

MOST_END = 500
"""Decimetres that a point lies from the proper end of its line at most, as it is counted: farther away is no worse."""
_NO_NUMBERS = bytes(set(range(256)) - set(b"0123456789-.,"))


class Parts(NamedTuple):
    """Parts of lines, one behind the other."""

    pieces: Integers
    """A line's id, and two positions in decimetres, of each piece."""
    counts: Integers
    """How many pieces each part has."""


class Polylines(NamedTuple):
    """Polylines. One of a point alone is that point."""

    points: Floats
    """All their points: longitude and latitude in degrees."""
    sizes: Integers
    """How many points each has, or 0 for none."""
    shared: Integers | None = None
    """The number of the first point of each; None where they are one behind the other."""

    def first(self) -> Integers:
        """The number of the first point of each."""
        behind: Integers = np.cumsum(self.sizes)
        return behind - self.sizes if self.shared is None else self.shared

    def each(self) -> list[Floats]:
        """The points of each."""
        found = zip(self.first().tolist(), self.sizes.tolist())
        return [self.points[first : first + size] for first, size in found]


class Members(NamedTuple):
    """Members of objects in lists, one list behind the other."""

    numbers: Integers
    """A row for each of their names."""
    counts: Integers
    """How many objects each list has."""


def parts_of(parts: Sequence[Pieces | None]) -> Parts:
    """Parts as arrays. None has no pieces."""
    read = _read_once([b"" if one is None else one.text() for one in parts])
    return Parts(read.numbers.reshape(-1, 3)[ranges(read.first, read.counts)], read.counts)


def polylines_of(shapes: Sequence[Spots | bytes | None]) -> Polylines:
    """Polylines as arrays, in degrees. None has no points. Where they are texts, all of them are, and in degrees already."""
    read = _read_once([one.text() if isinstance(one, Spots) else one or b"" for one in shapes])
    points = np.asarray(read.numbers.reshape(-1, 2), dtype=np.float64)
    if any(isinstance(one, Spots) for one in shapes):
        points /= 1e6
    return Polylines(points, read.counts, read.first)


class _Read(NamedTuple):
    """The items of lists, each of some numbers."""

    numbers: NDArray[Any]
    """Those of all lists, of which equal ones are there once."""
    first: Integers
    """The number of the first item of each list."""
    counts: Integers
    """How many items each has."""


def _read_once(texts: Sequence[bytes]) -> _Read:
    """The numbers of lists in JSON. Many matchings of one reference have the same lists, and each is read once."""
    which = {text: number for number, text in enumerate(dict.fromkeys(texts))}
    counts = np.array([max(0, text.count(b"]") - 1) for text in which], dtype=np.int64)
    numbers = _numbers_in(b",".join([text for text, count in zip(which, counts) if count]))
    of_lists = np.array([which[text] for text in texts], dtype=np.int64)
    return _Read(numbers, (np.cumsum(counts) - counts)[of_lists], counts[of_lists])


def members_of(lists: Sequence[Sequence[Any]], names: Sequence[str]) -> Members:
    """Members of the objects in lists, such as the points of matchings, by their names. One within another object has the name of that and a point
    before its own."""
    texts = list(map(text_of, lists))
    braces = np.array([text.count(b"{") for text in texts], dtype=np.int64)
    first = next(filter(b"[]".__ne__, texts), None)
    if first is None:
        return Members(np.zeros((len(names), 0), dtype=np.int64), braces)
    kinds = {(text.count(b",") + 1) / some for text, some in zip(texts, braces.tolist()) if some}
    if len(kinds) > 1:
        # They were asked for with other members: as a text of its own each list has one kind.
        each = [members_of([one], names) for one in lists]
        return Members(*(np.concatenate(some, axis=-1) for some in zip(*each)))
    items = json.loads(first)
    known = list(_names_of(items[0]))
    numbers = _numbers_in(b",".join(filter(b"[]".__ne__, texts))).reshape(-1, len(known))
    counts = braces * len(items) // first.count(b"{")
    return Members(numbers[:, list(map(known.index, names))].T, counts)


def ends_of(lists: Sequence[Sequence[Any]]) -> list[float]:
    """How far the points of matchings in detail lie from the proper ends of their lines together, in metres, `MOST_END` at most of each."""
    (ends,), counts = members_of(lists, ["end"])
    result: list[float] = (sums_of(np.minimum(ends, MOST_END), counts) / 10).tolist()
    return result


def _names_of(members: Mapping[str, Any], before: str = "") -> Iterator[str]:
    """The names of the numbers of an object, in their order."""
    for name, value in members.items():
        if isinstance(value, dict):
            yield from _names_of(value, f"{before}{name}.")
        else:
            yield from [before + name] * (len(value) if isinstance(value, list) else 1)


def _numbers_in(text: bytes) -> NDArray[Any]:
    """The numbers of a text of JSON, which has commas between them, and numbers in no name."""
    numbers = text.translate(None, _NO_NUMBERS)
    kind = np.float64 if b"." in numbers else np.int64
    return np.fromstring(numbers, dtype=kind, sep=",") if numbers else np.zeros(0, np.int64)
