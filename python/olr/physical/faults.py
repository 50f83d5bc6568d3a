"""Why a reference in physical units has no binary form, by name. docs/FAULTS.md says what to do about each.

Points are counted from 1, as in the faults of the program.
"""

from olr.model.fault import Fault

AREA, GEO_COORDINATE, POI_WITH_ACCESS = "OtherKind Area", "OtherKind GeoCoordinate", "PoiWithAccess"
"""Other kinds of location have the fault that the program gives their binary form."""
OTHER_KINDS = frozenset((AREA, GEO_COORDINATE, POI_WITH_ACCESS))


def bad_element(name: str) -> Fault:
    """The field that the source calls so is missing, or has no value of its kind."""
    return Fault(f"BadElement {name}")


def too_many_points(count: int) -> Fault:
    """A line has more points than the binary form."""
    return Fault(f"TooManyPoints {count}")


def out_of_range(point: int) -> Fault:
    """A point is beyond the latitudes or longitudes of the binary form."""
    return Fault(f"OutOfRange {point}")


def too_far(point: int) -> Fault:
    """A point is too many degrees from the one before it for 16 bits."""
    return Fault(f"TooFar {point}")


def leg_too_long(point: int) -> Fault:
    """The path from a point to the next one has 15 km or more."""
    return Fault(f"LegTooLong {point}")


def offset_too_long(name: str) -> Fault:
    """The offset that the source calls so isn't shorter than its leg."""
    return Fault(f"OffsetTooLong {name}")
