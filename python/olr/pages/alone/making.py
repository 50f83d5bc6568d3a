"""Makes a page that answers by itself, of the map in a folder or a store, or of a part of it."""

from collections.abc import Mapping
from pathlib import Path
from typing import NamedTuple

from olr.asking.files import MapFiles, Version
from olr.asking.program import SHIPPED
from olr.client.map_client import Map
from olr.confidence.choosing import chosen_for
from olr.errors import MapRefused, ToolError, readable
from olr.geometry.network import Network
from olr.model.asked_with import name_for_program
from olr.model.box import Box
from olr.pages.alone.cutting import REMEDY, CarriedMap, map_to_carry
from olr.pages.alone.module import MODULE, find_module
from olr.pages.alone.page import Carried, html_of
from olr.pages.alone.sources import SOURCES, sources_text

CONFIDENCE = "confidence.json"
"""The name of the file of a confidence in a page."""
TOO_MANY = "TooMany"
"""The fault of a map that is beyond the limits of the program."""


class Made(NamedTuple):
    """A page, and how many lines its map has."""

    page: str
    lines: int


def made_of(path: Path, confidence: Path | None, tiles: str | None, box: Box | None = None) -> Made:
    """The page of a map, or of what of it reaches into a box, with probabilities by a file, or by the one that comes with the package.
    Raises `ToolError` if the map can't be read, is too large, or has nothing in the box, or there is no module of the program.
    """
    find_module()
    with map_to_carry(path, box) as found:
        _require_accepted(found.folder, confidence)
        lines = Network.read(found.folder).line_id
        files = files_of(found, lines.tolist())
        digest = MapFiles.of_folder(found.folder).found()
    carried = carried_of(path, digest, files, confidence)._replace(tiles=tiles, box=box)
    return Made(html_of(carried), len(lines))


def carried_of(
    path: Path, digest: Version, files: Mapping[str, bytes], confidence: Path | None
) -> Carried:
    """What a page carries for the map of a folder or a store, of which it has some files, with the module and what says how probable places
    are, by a file or by the one that comes with the package. Raises `ToolError` if there is no module.
    """
    weights = (confidence or SHIPPED).read_bytes()
    carried = {**files, MODULE: find_module().read_bytes(), CONFIDENCE: weights}
    name, folder = path.resolve().name, name_for_program(path)
    return Carried(name, digest._asdict(), carried, folder=folder)


def _require_accepted(folder: Path, confidence: Path | None) -> None:
    """Raises `ToolError` if the program refuses the map of a folder, or a confidence: it would refuse it in the page too."""
    try:
        with Map.of_folder(folder, confidence=confidence) as asked:
            chosen_for(asked, {})
    except MapRefused as error:
        if f" {TOO_MANY} " in str(error):
            raise ToolError(f"{folder} is too large for a page: {REMEDY}") from error
        raise


def files_of(found: CarriedMap, lines: list[int]) -> dict[str, bytes]:
    """The files of a map, and where its lines came from, if it says so: `lines` are their ids, in the order of their file. Raises `ToolError`
    if they can't be read."""
    with readable(found.folder):
        files = {path.name: path.read_bytes() for path in MapFiles.of_folder(found.folder).paths()}
    if found.sources:
        files[SOURCES] = sources_text(found.sources, lines).encode()
    return files
