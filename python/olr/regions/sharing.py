"""References that share a region: as many of them at a time as one map for the program has room for.

On a map with the lines of all their regions each of them has the answer that it has on the whole map, so one run of the program answers
them all.
"""

import numpy as np
from collections.abc import Iterator, Sequence
from typing import NamedTuple

from olr.arrays import Integers
from olr.curve import places_on_curve
from olr.errors import ToolError
from olr.model.questions import OfReference
from olr.model.reference import Point
from olr.model.road_map import Position
from olr.regions.options import Options
from olr.regions.plane import Discs
from olr.regions.region import discs_of_each
from olr.regions.store import Store

NO_LINES: Integers = np.zeros(0, dtype=np.int64)


class Located(NamedTuple):
    """A reference and its region."""

    number: int
    """Its index among those that were asked for."""
    first: Position
    """Its first point."""
    discs: Discs
    """Of its region."""


class Shared(NamedTuple):
    """The region of some references."""

    references: Sequence[Located]
    lines: Integers | None
    """None for a single reference whose own region is too large for the program."""


def located(
    references: Sequence[Sequence[Point] | None], options: Options, store: Store, what: OfReference
) -> list[Located]:
    """The regions of references by their points, for a question asked with these numbers. None stands for a text that is no reference:
    it needs no line, and is left out. Raises `ToolError` if the store can't be read."""
    numbers = [number for number, points in enumerate(references) if points is not None]
    read = [points for points in references if points is not None]
    found = discs_of_each(read, options, store, what) if read else []
    firsts = [Position(*points[0][:2]) for points in read]
    return [Located(*one) for one in zip(numbers, firsts, found, strict=True)]


def shared_regions(references: Sequence[Located], store: Store) -> Iterator[Shared]:
    """The regions of references: of all at once, if they are a map for the program together, and else by halves of neighbours. Raises
    `ToolError` if the store can't be read."""
    if not references:
        return
    lines = store.lines_within_limits(Discs.joined(one.discs for one in references))
    if lines is not None:
        yield Shared(references, lines)
    elif len(references) == 1:
        yield Shared(references, None)
    else:
        neighbours, middle = _along_curve(references), len(references) // 2
        yield from shared_regions(neighbours[:middle], store)
        yield from shared_regions(neighbours[middle:], store)


class Group(NamedTuple):
    """References by their indices, and the lines of a map that has their regions: None for a single one whose own region is too large for
    the program."""

    numbers: list[int]
    lines: Integers | None


def groups_of(
    references: Sequence[Sequence[Point] | None], options: Options, store: Store, what: OfReference
) -> Iterator[Group]:
    """References by their points in groups that one map has room for, for a question asked with these numbers. None stands for a text that
    is no reference: it needs no line, and goes with the first group that has some. Raises `ToolError` if the store can't be read.
    """
    others = [number for number, points in enumerate(references) if points is None]
    for shared in shared_regions(located(references, options, store, what), store):
        numbers = [one.number for one in shared.references]
        if shared.lines is not None:
            numbers, others = numbers + others, []
        yield Group(numbers, shared.lines)
    if others:
        yield Group(others, NO_LINES)


def unread(which: str) -> ToolError:
    """The error of a text that was taken for none of a reference, and that the program answers."""
    return ToolError(f"{which} is a reference that olr-tools can't read")


def _along_curve(references: Sequence[Located]) -> list[Located]:
    """References in an order in which neighbours stand together."""
    lon, lat = (
        np.array([one.first[axis] for one in references], dtype=np.int64) for axis in (0, 1)
    )
    order = np.argsort(places_on_curve(lon, lat), kind="stable")
    return [references[number] for number in order.tolist()]
