"""A file of messages, asked and counted."""

from collections.abc import Mapping
from typing import NamedTuple

from olr.client.map_client import Map
from olr.matching.asking import Asked
from olr.matching.lacking import Lacking, is_without_place
from olr.model.answers import Places
from olr.model.fault import Fault
from olr.model.questions import likely
from olr.pages.report.counting import PlaceCounts
from olr.pages.report.reasons import ReasonCounts
from olr.pages.report.sample import Drawn, Sample

CHUNK = 1024
"""So many references are kept, of which `why` is asked then."""


class Counted(NamedTuple):
    """What was counted of a file of messages."""

    places: PlaceCounts
    reasons: ReasonCounts
    sample: list[Drawn]
    lacking: Lacking
    """Those that fit nowhere."""


def count(
    messages: Asked,
    asked: Map,
    numbers: Mapping[str, int],
    rows: int,
    lacking: Lacking,
) -> Counted:
    """Asks where the references of messages are, and why some fit nothing, and counts the answers. `rows` is how many messages are in the
    sample at most. Those that fit nowhere are added to `lacking`. Raises `ToolError`."""
    places, reasons, sample = PlaceCounts(), ReasonCounts(), Sample(rows)
    kept: list[_Kept] = []
    for message, answer in messages.answered("places", likely(numbers)):
        assert isinstance(answer, (Places, Fault))
        places.add(answer)
        sample.add(message, answer)
        if is_without_place(answer):
            kept.append(_Kept(message.reference, isinstance(answer, Places)))
        if len(kept) == CHUNK:
            _count_reasons(kept, asked, reasons, lacking)
    _count_reasons(kept, asked, reasons, lacking)
    return Counted(places, reasons, sample.chosen(), lacking)


class _Kept(NamedTuple):
    """A reference of which `why` is asked."""

    text: str
    fits_nowhere: bool


def _count_reasons(kept: list[_Kept], asked: Map, reasons: ReasonCounts, lacking: Lacking) -> None:
    """Asks why references fit nothing, and forgets them."""
    answers = list(asked.answers("why", (one.text for one in kept)))
    for answer in answers:
        reasons.add(answer)
    nowhere = [(one.text, answer) for one, answer in zip(kept, answers) if one.fits_nowhere]
    lacking.add_answered([text for text, _ in nowhere], [answer for _, answer in nowhere])
    kept.clear()
