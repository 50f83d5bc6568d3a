"""By which numbers and weights the program says how probable places are: `olr.Confidence`."""

import json
import os
import tempfile
from collections.abc import Mapping
from dataclasses import dataclass, field
from functools import cache
from pathlib import Path
from typing import Any, NamedTuple
from weakref import finalize

from olr.asking.program import SHIPPED
from olr.errors import ToolError, readable

THOUSANDTHS = 1000
"""In which a file says how different maps are, and the program too."""
SOME_REFERENCE = "C6hA790+RRtnAgCW//4bFw=="
"""A line in the South Pacific, where no land is: to ask whether the program reads a map and a confidence, and which numbers that is for."""
BAD_CONFIDENCE = "BadConfidence"
"""The fault of what is asked about places with a file that is none."""


class Range(NamedTuple):
    """A number, and the interval of 95 percent in which it lies."""

    value: float
    low: float
    high: float


@dataclass(frozen=True)
class Confidence(os.PathLike[str]):
    """How probable it is that each place of a line reference is the one that the sender meant, and that none is: by trials on a map. The
    program says it by the file of one, which is a path of it too.

    >>> import olr
    >>> text, sure = "CwVF/yN2yRpnBAFUAAgbpwYBAf9kK0Fa", olr.Confidence.default()
    >>> with olr.Map("examples", confidence=sure) as town:
    ...     found = town.places(text, order="likely")
    ...
    >>> found.places[0].probability > 900_000
    True
    """

    tolerances: Mapping[str, int]
    """All of them, by the names of the program's options."""
    apart: int
    """In decimetres."""
    weights: Mapping[str, int]
    """By their names, in parts of a binary order."""
    map_differs: Range | None
    """How different the sender's map is, 1 as that of another maker, with an interval of 95 percent. None if it is known otherwise."""
    about: Mapping[str, Any]
    """How it was made: with this it can be made again."""
    level: float = 0.0
    """How far the share of likeliest places that are right lies from what is told of them, over the trials that count: a standard
    deviation."""
    file: Path | None = field(default=None, init=False, repr=False, compare=False)
    """That of which it was read, or a scratch file in which it was needed; None as long as there is none."""

    @classmethod
    def of_file(cls, file: str | os.PathLike[str]) -> "Confidence":
        """What `olr-tools calibrate` wrote. Raises `ToolError` if the file can't be read, or is none. Numbers that it can't have are refused
        by the program.

        >>> import olr
        >>> olr.Confidence.of_file("examples/nodes.csv")
        Traceback (most recent call last):
        olr.errors.ToolError: ...
        """
        path = Path(file)
        with readable(path, "olr-tools calibrate makes one"):
            content = path.read_bytes()
        try:
            found = json.loads(content)
            differs = found["map_differs"]
            made = cls(
                tolerances=dict(found["tolerances"]),
                apart=found["apart"],
                weights=dict(found["weights"]),
                map_differs=differs
                and Range(*(differs[name] / THOUSANDTHS for name in Range._fields)),
                about=dict(found["about"]),
                level=float(found["level"]),
            )
        except (ValueError, TypeError, LookupError, RecursionError) as error:
            raise no_confidence(path, f"{type(error).__name__}: {error}") from error
        object.__setattr__(made, "file", path)
        return made

    @classmethod
    def default(cls) -> "Confidence":
        """The one that comes with the package: for the profile `feed`, and maps that differ somewhat.

        >>> import olr
        >>> olr.Confidence.default().tolerances["radius"]
        75
        """
        return _default()

    def __fspath__(self) -> str:
        if self.file is None:
            from olr.confidence.contents import text_of

            descriptor, name = tempfile.mkstemp(".json", "olr-confidence.")
            finalize(self, os.unlink, name)
            with open(descriptor, "w", encoding="utf-8") as stream:
                stream.write(text_of(self))
            object.__setattr__(self, "file", Path(name))
        return str(self.file)


def no_confidence(file: str | os.PathLike[str], why: object) -> ToolError:
    """The error of a file that is no confidence."""
    about = f"{os.fspath(file)} is no confidence file, as olr-tools calibrate writes it"
    return ToolError(f"{about}: {why}")


@cache
def _default() -> Confidence:
    """The one that comes with the package, read once."""
    return Confidence.of_file(SHIPPED)
