"""By which confidence a map is asked: that of a file, or the one that comes with the package."""

from collections.abc import Mapping
from typing import Any, NamedTuple

from olr.asking.program import SHIPPED
from olr.client.map_client import Map
from olr.confidence.confidence import BAD_CONFIDENCE, SOME_REFERENCE, Confidence, no_confidence
from olr.confidence.sentences import REMEDY, no_probabilities, others_text
from olr.errors import ToolError
from olr.model.answers import Places
from olr.model.fault import Fault


class Chosen(NamedTuple):
    """The confidence of a map."""

    confidence: Confidence
    note: str = ""
    """Why there are no probabilities, as other numbers are asked with than those that it is for; an empty text if there are."""


def confidence_of(asked: Map) -> Confidence:
    """The confidence with which a map is asked. Raises `ToolError` if it can't be read."""
    return Confidence.of_file(asked.confidence or SHIPPED)


def chosen_for(asked: Map, numbers: Mapping[str, int], is_named: bool = False) -> Chosen:
    """The confidence with which a map is asked about places by these numbers: those that were given. Raises `ToolError` if it can't be read, the
    program says that it is none, or it was named and is for others; `Fault` for a number that is out of its range; and as `Map.answers`.
    """
    confidence = confidence_of(asked)
    given: dict[str, Any] = {**numbers, "look": 1, "order": "likely"}
    (found,) = asked.answers("places", [SOME_REFERENCE], **given)
    if isinstance(found, Fault) and found.name == BAD_CONFIDENCE:
        raise no_confidence(confidence, found)
    differs = (found.differs if isinstance(found, Places) else None) or ()
    all_numbers = {**asked.tolerances, **numbers}
    if is_named and differs:
        others = others_text(differs, all_numbers, confidence)
        raise ToolError(f"{confidence.file} says nothing of such answers: {others}: {REMEDY}")
    return Chosen(confidence, no_probabilities(differs, all_numbers, confidence))


def cut_off_line(count: int) -> str | None:
    """The line of a summary on answers for which looking was cut off before a place that might be shown; None if there is none."""
    if not count:
        return None
    return f"cut off: {count:,} may have more places: give a greater --look"
