"""Names and words of OpenLR in XML: those of DATEX II, versions 2 and 3, and those of OpenLR's own schema."""

import re
from collections.abc import Mapping
from functools import lru_cache
from typing import Literal, Union

from olr.physical import faults


class Field(dict[str, "Known"]):
    """An element with the text of a field. It has no elements within it."""

    def __init__(self, name: str) -> None:
        super().__init__()
        self.name = name


Known = Union[Field, "Parts"]
Parts = dict[str, Known]
"""What elements within an element are, by their names."""


def _fields(names: Mapping[str, str]) -> Parts:
    return {name: Field(field) for name, field in names.items()}


_LINE_ATTRIBUTES = {
    "openlrFunctionalRoadClass": "class_",
    "openlrFormOfWay": "form",
    "openlrBearing": "bearing",
    "FRC": "class_",
    "FOW": "form",
    "BEAR": "bearing",
}
_PATH_ATTRIBUTES = {
    "openlrLowestFRCToNextLRPoint": "lowest",
    "openlrDistanceToNextLRPoint": "distance",
    "LFRCNP": "lowest",
    "DNP": "distance",
}
_COORDINATES = {
    "longitude": "longitude",
    "latitude": "latitude",
    "Longitude": "longitude",
    "Latitude": "latitude",
}
_OFFSETS = {
    "openlrPositiveOffset": "positive",
    "openlrNegativeOffset": "negative",
    "PosOff": "positive",
    "NegOff": "negative",
}
_OF_REFERENCE = {
    "openlrSideOfRoad": "side",
    "openlrOrientation": "orientation",
    "SideOfRoad": "side",
    "Orientation": "orientation",
}
_POINTS = {
    "openlrLocationReferencePoint": "points",
    "openlrLastLocationReferencePoint": "last",
    "LocationReferencePoint": "points",
    "LastLocationReferencePoint": "last",
}
LAST: Parts = {
    "openlrCoordinate": _fields(_COORDINATES),
    "openlrCoordinates": _fields(_COORDINATES),
    "Coordinates": _fields(_COORDINATES),
    "openlrLineAttributes": _fields(_LINE_ATTRIBUTES),
    "LineAttributes": _fields(_LINE_ATTRIBUTES),
}
"""Elements of the last point."""
POINT: Parts = LAST | {
    "openlrPathAttributes": _fields(_PATH_ATTRIBUTES),
    "PathAttributes": _fields(_PATH_ATTRIBUTES),
}
"""Elements of each other point."""
BINARY, BINARY_TEXT = "openlrBinary", Field("binary")
REFERENCE: Parts = {
    "openlrLocationReferencePoint": POINT,
    "LocationReferencePoint": POINT,
    "openlrLastLocationReferencePoint": LAST,
    "LastLocationReferencePoint": LAST,
    "openlrOffsets": _fields(_OFFSETS),
    "Offsets": _fields(_OFFSETS),
    **_fields(_OF_REFERENCE),
    BINARY: BINARY_TEXT,
}
"""Elements of a reference."""

_ALL = _LINE_ATTRIBUTES | _PATH_ATTRIBUTES | _COORDINATES | _OFFSETS | _OF_REFERENCE | _POINTS
_OF_DATEX = re.compile("openlr|latitude|longitude")
DATEX = {field: name for name, field in _ALL.items() if _OF_DATEX.match(name)}
OWN = {field: name for name, field in _ALL.items() if not _OF_DATEX.match(name)}
"""What the fields of references are called, in DATEX II and in OpenLR's own schema."""


def _words(*words: str) -> dict[str, int]:
    """The numbers of words, as DATEX II has them, and in capital letters with underscores."""
    snakes = [re.sub("(?=[A-Z])", "_", word).upper() for word in words]
    return {word: number for both in (words, snakes) for number, word in enumerate(both)}


CLASSES = {f"FRC{number}": number for number in range(8)}
WORDS: Mapping[str, Mapping[str, int]] = {
    "class_": CLASSES,
    "lowest": CLASSES,
    "form": _words(
        "undefined",
        "motorway",
        "multipleCarriageway",
        "singleCarriageway",
        "roundabout",
        "trafficSquare",
        "slipRoad",
        "other",
    )
    | {"TRAFFICSQUARE": 5, "SLIPROAD": 6},
    "side": _words("onRoadOrUnknown", "right", "left", "both"),
    "orientation": _words(
        "noOrientationOrUnknown", "withLineDirection", "againstLineDirection", "both"
    ),
}
"""The numbers of the words of fields that have words."""

LINE: Literal["line"] = "line"
ALONG_LINE: Literal["point-along-line"] = "point-along-line"
KINDS: Mapping[str, str] = {
    "linelocationreference": LINE,
    "pointlocationreference": ALONG_LINE,
    "pointalongline": ALONG_LINE,
    "extendedpoint": ALONG_LINE,
    "poiwithaccesspoint": faults.POI_WITH_ACCESS,
    "geocoordinate": faults.GEO_COORDINATE,
    **{
        f"{area}{more}": faults.AREA
        for area in ("circle", "rectangle", "grid", "polygon", "closedline")
        for more in ("", "locationreference")
    },
}
"""Kinds of location, and the faults of those that aren't read, by the names of their elements or types, in small letters and without
`openlr` before them."""


@lru_cache(maxsize=1000)
def kind_of(name: str) -> str | None:
    """The kind of an element or a type, or the fault of the kind. None where the name says none."""
    return KINDS.get(name.rpartition(":")[2].lower().removeprefix("openlr"))


BINARIES = "BinaryLocationReferences"
STARTS = frozenset(
    "XMLLocationReference LineLocationReference PointLocationReference AreaLocationReference".split()
) | {BINARIES}
"""Elements of OpenLR's own schema that have references within them."""
RECORD, KEY = "OpenLR", "LocationID"
"""The record of OpenLR's own schema, and the element with its key."""
SITUATION = "situationRecord"
DATEX_ROOTS = frozenset("d2LogicalModel messageContainer payload payloadPublication".split())
"""Elements that DATEX II has, also where it says nothing of a place."""


@lru_cache(maxsize=1000)
def begins_reference(name: str) -> bool:
    """Whether an element has references within it, or is a part of one."""
    return name.startswith("openlr") or name in STARTS or name in _POINTS
