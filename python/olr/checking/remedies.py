"""What to do about a fault, by what is seen of it. Each remedy is a sentence without its full stop."""

from olr.checking.faults import shown
from olr.model.road_map import GREATEST_LAT, MOST_SHAPE_POINTS
from olr.model.values import MOST_DIGITS

KINDS = {
    "id": "a whole number from 1 to 2^53",
    "lon": "whole microdegrees from -180000000 to 180000000",
    "lat": "whole microdegrees from -80000000 to 80000000",
    "class": "a number from 0 to 7",
    "form": "a number from 0 to 7",
    "length": "whole decimetres from 0 to 10000000",
    "shape": "empty, or 1 to 64 points such as 7418773 49871296;7418800 49871310",
}
"""What a field of each column must be."""


def column_kind(name: str) -> str:
    """What a field of a column must be. `from` and `to` are ids."""
    return KINDS[name] if name in KINDS else KINDS["id"]


def field_fault(name: str, text: str) -> str:
    """What is wrong with a field of the column of that name."""
    if not text:
        return f"{name} is empty, and isn't {column_kind(name)}"
    return f"{name} {shown(text)} isn't {column_kind(name)}"


def field_remedy(name: str, text: str) -> str:
    """What to do about a field that has no value of its kind."""
    if text != text.strip():
        return "Drop the blanks at its ends"
    if text.startswith("+"):
        return "Drop the plus sign"
    if name == "shape":
        return _shape_remedy(text)
    if name in ("lon", "lat"):
        return _coordinate_remedy(name, text)
    if name == "length":
        return "Lengths are whole decimetres: metres times 10, rounded"
    if name == "class":
        return "Map the road types of your data to the classes 0 (most important) to 7"
    if name == "form":
        return "Map the forms of your data to 0 to 7; 0 is unknown"
    if text.isdecimal() and len(text) > MOST_DIGITS:
        return f"Number the records anew: an id has {MOST_DIGITS} digits at most"
    return "Give each node, and each direction of a road, a whole number of its own"


def _coordinate_remedy(name: str, text: str) -> str:
    """What to do about a longitude or latitude that isn't one."""
    if "." in text:
        return "Degrees are written in microdegrees: times 1,000,000, rounded"
    digits = text.lstrip("-")
    if name == "lat" and digits.isdecimal() and int(digits[:20]) > GREATEST_LAT:
        return (
            "Exchange longitude and latitude if they are; beyond latitude 80 nothing is supported"
        )
    return "Coordinates are WGS 84 in whole microdegrees: degrees times 1,000,000, rounded"


def _shape_remedy(text: str) -> str:
    """What to do about a shape that isn't one."""
    if "." in text:
        return "Degrees are written in microdegrees: times 1,000,000, rounded"
    if text.count(";") >= MOST_SHAPE_POINTS:
        return f"Cut the line at a new node: a shape has {MOST_SHAPE_POINTS} points at most"
    return "One blank is between longitude and latitude, and a semicolon between two points"


def header_remedy(wanted: tuple[str, ...], seen: list[str]) -> str:
    """What to do about a header that isn't the wanted one."""
    text = ",".join(wanted)
    if not seen:
        return f"Begin the file with the header {text}"
    if any("\x00" in name for name in seen):
        return f"Save the file in UTF-8, not in UTF-16, with the header {text}"
    if len(seen) == 1 and ";" in seen[0]:
        return f"Save the file with commas, not semicolons, and the header {text}"
    if sorted(seen) == sorted(wanted):
        return f"Put the columns into the order {text}"
    if any(name.lstrip("-").isdecimal() for name in seen):
        return f"Put the header {text} before the first record"
    return f"Write the header {text}, in this spelling"


def shape_remedy(file: str, wanted: int, fields: list[str]) -> str:
    """What to do about a record with another number of fields."""
    if any("\n" in field or "\r" in field for field in fields):
        return "Close the double quote with which a field begins: it goes on over the ends of lines"
    if len(fields) == 1 and ";" in fields[0]:
        return "Separate fields by commas, not semicolons"
    if file == "lines" and len(fields) == wanted - 1:
        return "End a line that has no shape with a comma"
    if len(fields) > wanted:
        return "Take out commas within fields: decimal commas, or commas in a shape"
    return f"Give the record its {wanted} fields, with commas between them"
