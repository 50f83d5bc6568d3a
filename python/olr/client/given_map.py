"""A map as it is given to a call."""

from contextlib import AbstractContextManager, nullcontext

from olr.asking.program import PathLike
from olr.client.map_client import Map

MapOrPath = Map | PathLike
"""A map as it is given to a call: as `Map`, or as the path of a folder or a store, of which `Map` is asked."""


def opened(given: MapOrPath, confidence: PathLike | None = None) -> AbstractContextManager[Map]:
    """The map that was given, while it is asked, by its own confidence or another one. One that is made here is closed behind."""
    if not isinstance(given, Map):
        return Map.of_folder(given, confidence=confidence)
    if confidence is None:
        return nullcontext(given)
    return given._with_confidence(confidence)
