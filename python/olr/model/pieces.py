"""Places on lines and pieces of lines, and where on the earth they lie."""

import json
from typing import NamedTuple, cast

from olr.model.late import Item, Late


class Place(NamedTuple):
    """A position on a line of the map, in decimetres from its start.

    >>> import olr
    >>> with olr.Map("examples") as town:
    ...     kiosk = town.match("KwVGnCN20HPDBwFCATFjT5Y=").matchings[0]
    ...
    >>> kiosk.earliest
    Place(line=701, at=2697)
    """

    line: int
    at: int


class Piece(NamedTuple):
    """The part of a line between two positions, in decimetres from its start.

    >>> import olr
    >>> piece = olr.Piece(104, 879, 2435)
    >>> piece.line, (piece.to - piece.from_) / 10
    (104, 155.6)
    """

    line: int
    from_: int
    to: int


class _Numbers(Late[Item]):
    """Items that are some numbers each."""

    __slots__ = ()

    def text(self) -> bytes:
        """The items as the program's JSON has them."""
        if (text := self.unread()) is not None:
            return text
        return json.dumps([list(map(int, cast(tuple[int, ...], item))) for item in self]).encode()


class Pieces(_Numbers[Piece]):
    """Pieces of lines, one behind the other."""

    __slots__ = ()

    def _read(self, text: bytes) -> tuple[Piece, ...]:
        return tuple(map(Piece._make, json.loads(text)))

    def length(self) -> int:
        """The length of all pieces together, in decimetres."""
        return sum(piece.to - piece.from_ for piece in self)


class Spot(NamedTuple):
    """A longitude and a latitude, in microdegrees."""

    lon: int
    lat: int


class Spots(_Numbers[Spot]):
    """The points of a polyline, two at least; or one point."""

    __slots__ = ()

    def _read(self, text: bytes) -> tuple[Spot, ...]:
        return tuple(map(Spot._make, json.loads(text)))


def between(route: Pieces, earliest: Place, latest: Place) -> list[Piece]:
    """The pieces of a route from one place on it to another one, the first of which doesn't lie behind the second. Where they are one
    place that is a piece without a length."""
    found: list[Piece] = []
    for line, start, end in route:
        if not found:
            if line != earliest.line or not start <= earliest.at <= end:
                continue
            start = earliest.at
        if line == latest.line and start <= latest.at <= end:
            return [*found, Piece(line, start, latest.at)]
        found.append(Piece(line, start, end))
    return found
