"""Why there is no answer: the fault that `olr` names."""

import re
from collections.abc import Mapping
from functools import lru_cache

from olr.errors import MapRefused, ToolError
from olr.model.fault_table import ROWS

OF_THE_MAP = (
    "Header TooMany Shape Field Duplicate UnknownNode ZeroLength Degenerate UnknownLine NotAdjacent OpenFailed ReadFailed"
).split()
OF_CONFIDENCE = " confidence"
"""How a fault ends that is about the file of a confidence, and not about those of the map."""
TOO_LARGE = "RegionTooLarge"
"""The fault of a reference on a store whose own region is no map for the program."""


class Fault(ToolError):
    """A reference has no answer, or a number is out of its range. Two faults with the same text are equal.

    `text` is what the program prints, such as `BadLength 12`. `name` is its first word, and `number` its last one if that is a
    number. `meaning` and `remedy` are those of docs/FAULTS.md, unless another remedy is given. It is raised where one reference is asked
    about, and given in place of an answer where there are many.

    >>> import olr
    >>> fault = olr.Fault("BadLength 12")
    >>> fault.name, fault.number, fault.remedy
    ('BadLength', 12, 'compare with the message')
    >>> olr.decode("CwVGnSN2zhvHCgDX")
    Traceback (most recent call last):
    olr.Fault: BadLength 12: 12 bytes are no size of a reference; compare with the message
    """

    __module__ = "olr"

    def __init__(self, text: str, remedy: str | None = None) -> None:
        self.text = text
        self.name = text.split(" ")[0]
        self.number: int | None = _number(text)
        self.meaning, usual = _meaning(text)
        self.remedy = usual if remedy is None else remedy
        known = [part for part in (self.meaning, self.remedy) if part]
        super().__init__(": ".join([text, "; ".join(known)]) if known else text)

    def __reduce__(self) -> tuple[type["Fault"], tuple[str, str]]:
        return Fault, (self.text, self.remedy)

    def __eq__(self, other: object) -> bool:
        return isinstance(other, Fault) and other.text == self.text

    def __hash__(self) -> int:
        return hash(self.text)


def refusal_of(text: str) -> Fault | MapRefused:
    """What the program says before it ends, as an error: `MapRefused` if it is about the files of the map, else `Fault`."""
    fault = Fault(text)
    if fault.name in OF_THE_MAP and not text.endswith(OF_CONFIDENCE):
        return MapRefused(f"olr refuses the map: {fault}: olr-tools check lists all faults")
    return fault


def _number(text: str) -> int | None:
    last = text.split(" ")[-1]
    return int(last) if last.isdecimal() else None


@lru_cache(maxsize=1000)
def _meaning(text: str) -> tuple[str, str]:
    """What a fault means, and what to do: empty texts if it isn't known."""
    words = text.split(" ")
    for line, (meaning, remedy) in ROWS.items():
        places = line.split(" ")
        if len(places) != len(words):
            continue
        values = {place: word for place, word in zip(places, words) if place.isupper()}
        if all(place in values or place == word for place, word in zip(places, words)):
            return _filled(meaning, values), _filled(remedy, values)
    return "", ""


def _filled(text: str, values: Mapping[str, str]) -> str:
    """A text of the table with values in place of its capital letters, and without its marks for code."""
    plain = text.replace("`", "")
    for place, word in values.items():
        plain = re.sub(rf"\b{place}\b", word, plain)
    return plain
