"""The fields of a reference in physical units.

A number is an `int`, a `Decimal` or a decimal text, so that none is rounded on its way. None stands for a field that isn't there.
"""

from collections.abc import Sequence
from decimal import Decimal
from typing import Literal, NamedTuple

Number = int | str | Decimal | None


class PhysicalPoint(NamedTuple):
    """A point of a reference."""

    longitude: Number
    """Degrees, as the latitude."""
    latitude: Number
    class_: Number
    """Functional road class: 0, the most important, to 7."""
    form: Number
    """Form of way, 0 to 7, as docs/specification/reference.md numbers them."""
    bearing: Number
    """Degrees clockwise from north, 0 to 360."""
    lowest: Number = None
    """The lowest class on the path to the next point, 0 to 7. It isn't looked at in the last point, as the distance."""
    distance: Number = None
    """Metres to the next point along the path."""


class PhysicalReference(NamedTuple):
    """A reference. What isn't there of the last four is 0: no offset, and nothing known."""

    kind: Literal["line", "point-along-line"]
    points: Sequence[PhysicalPoint]
    positive: Number = None
    """Metres from the first point to where the location begins."""
    negative: Number = None
    """Metres from where a line ends to the last point."""
    side: Number = None
    """Side of the road of a point along a line, 0 to 3, as docs/specification/reference.md numbers them."""
    orientation: Number = None
    """Orientation of a point along a line, 0 to 3, in the same way."""


NAMES = {name: name.removesuffix("_") for name in PhysicalPoint._fields + PhysicalReference._fields}
"""What faults call the fields if the source has no names of its own."""
