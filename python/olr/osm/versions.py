"""Whether a file has the objects of one time, each once: no change file, no history, and nothing that was deleted in JOSM."""

import osmium
import zlib
from collections import defaultdict
from collections.abc import Mapping, Set
from pathlib import Path
from typing import IO
from xml.parsers import expat

from olr.errors import ToolError
from olr.importing.packed import open_unpacked
from olr.osm.format import Format

ACTION = b"action="
"""JOSM writes it of each object that was changed since it was downloaded."""
PIECE = 1 << 20
"""So many bytes of a file are read at a time."""
Deleted = Mapping[str, Set[int]]
"""The ids of deleted objects, by what they are: `node`, `way` or `relation`."""


def require_one_time(file: Path, format: Format, header: osmium.io.Header) -> None:
    """Raises `ToolError` if a file is a change file, or says that it has the history of objects."""
    if format.has_changes:
        raise ToolError(
            f"{file} is a change file: apply it to an extract by osmium apply-changes, and import that"
        )
    if header.has_multiple_object_versions:
        raise ToolError(
            f"{file} has the history of objects: take those of one time by osmium time-filter, and import that"
        )


class Versions:
    """Sees to it that no object of one type comes with two versions. Those of all objects are compared with the one before, which finds
    them in a sorted file, and those that are `kept` with each other."""

    def __init__(self, type: str) -> None:
        self._type = type
        self._last = (0, 0)
        self._kept: dict[int, int] = {}

    def require_one(self, id: int, version: int) -> None:
        """Raises `ToolError` if the object before has this id and another version."""
        if self._last[0] == id:
            self._require_same(id, self._last[1], version)
        self._last = (id, version)

    def keep(self, id: int, version: int) -> bool:
        """Keeps an object, and answers whether it is the first one with its id. Raises `ToolError` if another one with this id had another
        version."""
        if id in self._kept:
            self._require_same(id, self._kept[id], version)
            return False
        self._kept[id] = version
        return True

    def _require_same(self, id: int, one: int, other: int) -> None:
        if one != other:
            raise ToolError(
                f"{self._type} {id} has versions {one} and {other}: take the objects of one time by osmium time-filter"
            )


def deleted_in_josm(file: Path, format: Format) -> Deleted:
    """What a file that JOSM saved has as deleted, which pyosmium doesn't tell. Nothing of a file that isn't XML, or that is damaged: pyosmium
    says so. Raises `OSError`."""
    found: dict[str, set[int]] = defaultdict(set)

    def start(name: str, attributes: dict[str, str]) -> None:
        if attributes.get("action") == "delete":
            found[name].add(int(attributes["id"]))

    if not format.is_xml:
        return found
    parser = expat.ParserCreate()
    parser.StartElementHandler = start
    try:
        with open_unpacked(file) as stream:
            if not _has(stream, ACTION):
                return found
        with open_unpacked(file) as stream:
            parser.ParseFile(stream)
    except (EOFError, zlib.error, expat.ExpatError, KeyError, ValueError):
        return {}
    return found


def _has(stream: IO[bytes], word: bytes) -> bool:
    """Whether a stream has a word in it."""
    before = b""
    while piece := stream.read(PIECE):
        if word in before + piece:
            return True
        before = piece[-len(word) :]
    return False
