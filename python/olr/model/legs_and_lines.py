"""The answers to `legs` and `lines`, in the way of `answers`."""

from collections.abc import Iterator, Mapping, Sequence
from dataclasses import dataclass

from olr.model.answers import AboutReference
from olr.model.display import Displayed, asked_for, counted, plain
from olr.model.pieces import Pieces, Spots


@dataclass(frozen=True)
class OtherPath:
    """Another path of a leg that is as short or nearly so, and by how much it is longer, in decimetres."""

    longer: int
    pieces: Pieces


@dataclass(frozen=True)
class ShorterPath:
    """That a leg has a shorter path with roads that its class limit leaves out: the worst class that it needs, and by how much it is shorter,
    in decimetres."""

    by: int
    class_: int


@dataclass(frozen=True)
class LegPaths:
    """The path of a leg of a matching, and others of the same leg. Lengths are in decimetres."""

    cut: bool
    """Whether looking for another path ended before it was done."""
    greatest: int
    """The greatest length that the reference tells, without tolerances; and so the `least` one."""
    least: int
    length: int
    limit: int
    """The greatest class that its lines may have."""
    pieces: Pieces
    other: OtherPath | None = None
    shorter: ShorterPath | None = None


@dataclass(frozen=True, repr=False)
class Legs(AboutReference):
    """The legs of a matching: the answer of `Map.legs`. It has the length of its legs, can be gone through, and is false without any.

    >>> import olr
    >>> with olr.Map("examples") as town:
    ...     town.legs("CwVF/yN2yRpnBAFUAAgbpwYBAf9kK0Fa")
    ...
    <Legs: 2 legs of 12:1.1.1, 246.4 m, 401.7 m>
    """

    legs: tuple[LegPaths, ...]
    matching: str | None = None
    """The cursor of the matching; None without a matching."""

    def __len__(self) -> int:
        return len(self.legs)

    def __iter__(self) -> Iterator[LegPaths]:
        return iter(self.legs)

    def _summary(self) -> str:
        if self.matching is None:
            return "no matching"
        metres = (f"{leg.length / 10} m" for leg in self.legs)
        return ", ".join([f"{counted(len(self.legs), 'leg')} of {self.matching}", *metres])

    def _rows(self) -> Sequence[Mapping[str, object]]:
        return [
            {
                "leg": number,
                "metres": leg.length / 10,
                "least": leg.least / 10,
                "greatest": leg.greatest / 10,
                "limit": leg.limit,
                "other is longer by": leg.other and leg.other.longer / 10,
                "shorter by": leg.shorter and leg.shorter.by / 10,
                "with class": leg.shorter and leg.shorter.class_,
            }
            for number, leg in enumerate(self.legs, 1)
        ]


@dataclass(frozen=True)
class LineOfMap:
    """A line of the map, with its nodes. The length is in decimetres."""

    class_: int
    form: int
    from_: int
    id: int
    length: int
    to: int
    shape: Spots | None = asked_for()
    """Its points. None but with `shape`."""


@dataclass(frozen=True, repr=False)
class Lines(Displayed):
    """The lines of a map in a box, by their ids: the answer of `Map.lines`. It has the length of its lines, can be gone through, and is false
    without any.

    >>> import olr
    >>> with olr.Map("examples") as town:
    ...     found = town.lines((7415000, 49871000, 7416000, 49872000), most=1, shape=True)
    ...
    >>> found.lines[0].id, found.lines[0].shape[0], found.more
    (103, Spot(lon=7412640, lat=49871350), True)
    """

    lines: tuple[LineOfMap, ...]
    more: bool
    """Whether there are others."""

    def __len__(self) -> int:
        return len(self.lines)

    def __iter__(self) -> Iterator[LineOfMap]:
        return iter(self.lines)

    def _summary(self) -> str:
        return counted(len(self.lines), "line") + (" and more" if self.more else "")

    def _rows(self) -> Sequence[Mapping[str, object]]:
        return [{**plain(line), "shape": None} for line in self.lines]
