"""What `olr show` prints of a reference in the element forms of XML: each number in the middle of what the binary form takes for one."""

import re
from decimal import Decimal
from typing import Any

Shown = dict[str, Any]
"""The JSON of `olr show`."""
DATEX = {
    "first": "openlrLocationReferencePoint",
    "last": "openlrLastLocationReferencePoint",
    "place": "openlrCoordinates",
    "lon": "longitude",
    "lat": "latitude",
    "road": "openlrLineAttributes",
    "class": "openlrFunctionalRoadClass",
    "form": "openlrFormOfWay",
    "sector": "openlrBearing",
    "path": "openlrPathAttributes",
    "lowest": "openlrLowestFRCToNextLRPoint",
    "interval": "openlrDistanceToNextLRPoint",
    "offsets": "openlrOffsets",
    "positive": "openlrPositiveOffset",
    "negative": "openlrNegativeOffset",
    "side": "openlrSideOfRoad",
    "orientation": "openlrOrientation",
    "line": "firstDirection",
    "point-along-line": "openlrPointAlongLine",
}
OWN = {
    "first": "LocationReferencePoint",
    "last": "LastLocationReferencePoint",
    "place": "Coordinates",
    "lon": "Longitude",
    "lat": "Latitude",
    "road": "LineAttributes",
    "class": "FRC",
    "form": "FOW",
    "sector": "BEAR",
    "path": "PathAttributes",
    "lowest": "LFRCNP",
    "interval": "DNP",
    "offsets": "Offsets",
    "positive": "PosOff",
    "negative": "NegOff",
    "side": "SideOfRoad",
    "orientation": "Orientation",
    "line": "LineLocationReference",
    "point-along-line": "PointAlongLine",
}
"""The names of elements, in DATEX II and in OpenLR's own schema."""
FORMS = "undefined motorway multipleCarriageway singleCarriageway roundabout trafficSquare slipRoad other"
SIDES = "onRoadOrUnknown right left both"
ORIENTATIONS = "noOrientationOrUnknown withLineDirection againstLineDirection both"
HALF = Decimal("0.5")


def datex(shown: Shown, key: str = "1") -> str:
    """A situation record of DATEX II."""
    inner = f"<openlrLinear>{_reference(shown, DATEX)}</openlrLinear>"
    return f'<situationRecord id="{key}">{inner}</situationRecord>'


def own(shown: Shown, key: str = "1") -> str:
    """A location of OpenLR's own schema."""
    inner = f"<XMLLocationReference>{_reference(shown, OWN)}</XMLLocationReference>"
    return f"<OpenLR><LocationID>{key}</LocationID>{inner}</OpenLR>"


def _reference(shown: Shown, names: dict[str, str]) -> str:
    """The element that has the fields of a reference."""

    def element(name: str, *inner: object) -> str:
        return f"<{names[name]}>{''.join(map(str, inner))}</{names[name]}>"

    def word(name: str, words: str, number: int) -> str:
        one = words.split()[number]
        return element(name, one if names is DATEX else re.sub("(?=[A-Z])", "_", one).upper())

    legs = [(it["interval"] + HALF) * Decimal("58.6") for it in shown["points"][:-1]]
    parts = []
    for point, leg in zip(shown["points"], [*legs, None]):
        place = [element(name, f"{Decimal(point[name]).scaleb(-6):f}") for name in ("lon", "lat")]
        bearing = (point["sector"] + HALF) * Decimal("11.25")
        road = [element("class", f"FRC{point['class']}"), word("form", FORMS, point["form"])]
        inner = element("place", *place), element("road", *road, element("sector", bearing))
        if leg is None:
            parts.append(element("last", *inner))
        else:
            path = element("lowest", f"FRC{point['lowest']}"), element("interval", leg)
            parts.append(element("first", *inner, element("path", *path)))
    for name, leg in (("positive", legs[0]), ("negative", legs[-1])):
        if shown.get(name) is not None:
            offset = element(name, (shown[name] + HALF) * leg / 256)
            parts.append(element("offsets", offset))
    if shown["kind"] == "point-along-line":
        parts.insert(0, word("side", SIDES, shown["side"]))
        parts.append(word("orientation", ORIENTATIONS, shown["orientation"]))
    return element(shown["kind"], *parts)
