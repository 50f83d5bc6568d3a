"""What the server asks of a maker, as both know it: `makers.py` asks, and `maker.py` is the process.

The maker's standard input is a socket. Each message on it has a `MapVersion`, and comes with another socket, for which the maker forks a process.
That one makes answers, one after the other: a message is a file in which there is a task, and the answer takes its place. Then the
process sends None, or the error for which there is no answer. It ends once the server has closed the socket.
"""

from collections.abc import Mapping, Sequence
from pathlib import Path
from typing import Literal, NamedTuple

from olr.asking.files import Version
from olr.asking.exchange import Asked
from olr.asking.records import Answered
from olr.confidence.confidence import Confidence
from olr.model.fault import Fault
from olr.model.questions import What

Form = Literal["rows", "features"]
"""Rows of the page's list, or lines of GeoJSON."""
MOST_MESSAGE = 65_536
"""Bytes of a message."""


class MapVersion(NamedTuple):
    """A version of a map that is made of files."""

    files: tuple[Path, ...]
    """Those of nodes, lines and, if there are any, bans; or that of a store alone."""
    version: Version


class FeaturesTask(NamedTuple):
    """A collection of features, of an answer to `match` or `places`."""

    what: What
    answer: bytes
    candidates: bytes | Fault


class SceneTask(NamedTuple):
    """What the page draws of a reference: a line of JSON with the box around it and the cursor of its first entry, and then the scene."""

    numbers: Mapping[str, int]
    """All tolerances, and the numbers of `places`."""
    confidence: Confidence
    reference: str
    said: bytes
    """What the reference says."""
    candidates: bytes | Fault
    places: bytes | Fault
    page: bytes | Fault
    why: bytes | None
    """None where it fits somewhere."""
    map_name: str | None
    tiles: str | None


class AroundTask(NamedTuple):
    """The whole scene: with other paths of the first entry, and with what lies around it."""

    scene: bytes
    legs: bytes | Fault | None
    """GeoJSON of the legs of the first entry; None where there is none."""
    lines: bytes | Fault
    """The answer about its box."""
    lowest: int
    """The tolerance with which it was asked."""


class LinesTask(NamedTuple):
    """Lines about records, by what the program answered to them."""

    form: Form
    asked: Asked
    confidence: Confidence
    some: Sequence[Answered]


Task = FeaturesTask | SceneTask | AroundTask | LinesTask
