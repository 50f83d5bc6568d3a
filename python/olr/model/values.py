"""What the fields of a map's files spell. Each function answers None for a text that `olr` doesn't accept."""

import re

from olr.model.road_map import (
    GREATEST_ID,
    GREATEST_LAT,
    GREATEST_LENGTH,
    GREATEST_LON,
    MOST_SHAPE_POINTS,
)

MOST_DIGITS = 16
GREATEST_KIND = 7
"""Of classes and forms."""

_POINT = "-?[0-9]{1,16} -?[0-9]{1,16}"
_SHAPE = re.compile(f"{_POINT}(?:;{_POINT})*")


def number_of(text: str, least: int, greatest: int) -> int | None:
    """A number: 1 to 16 decimal digits, within its limits."""
    if len(text) <= MOST_DIGITS and text.isdigit() and text.isascii():
        number = int(text)
        if least <= number <= greatest:
            return number
    return None


def signed_of(text: str, limit: int) -> int | None:
    """A signed number from -limit to limit: a number with one `-` before it, or none."""
    number = number_of(text[1:] if text.startswith("-") else text, 0, limit)
    return -number if number is not None and text.startswith("-") else number


def id_of(text: str) -> int | None:
    """The id of a node or a line."""
    return number_of(text, 1, GREATEST_ID)


def lon_of(text: str) -> int | None:
    """A longitude in microdegrees."""
    return signed_of(text, GREATEST_LON)


def lat_of(text: str) -> int | None:
    """A latitude in microdegrees."""
    return signed_of(text, GREATEST_LAT)


def kind_of(text: str) -> int | None:
    """A class or a form."""
    return number_of(text, 0, GREATEST_KIND)


def length_of(text: str) -> int | None:
    """A length in decimetres. 0 is a number here, and a fault of its own."""
    return number_of(text, 0, GREATEST_LENGTH)


def shape_of(text: str) -> list[int] | None:
    """The points between a line's ends: longitude, latitude, longitude and so on, in microdegrees."""
    if not text:
        return []
    if _SHAPE.fullmatch(text) is None:
        return None
    numbers = list(map(int, text.replace(";", " ").split(" ")))
    lons, lats = numbers[::2], numbers[1::2]
    if (
        len(lons) > MOST_SHAPE_POINTS
        or max(lons) > GREATEST_LON
        or min(lons) < -GREATEST_LON
        or max(lats) > GREATEST_LAT
        or min(lats) < -GREATEST_LAT
    ):
        return None
    return numbers
