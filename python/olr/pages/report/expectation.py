"""What a report says first: how many likeliest places are right, and how different the two maps are."""

from collections.abc import Iterator
from pathlib import Path

from olr.confidence.choosing import Chosen, cut_off_line
from olr.confidence.confidence import Confidence
from olr.confidence.sentences import BY, is_from_feed, range_text, thousandths
from olr.model.answers import MapDiffers
from olr.pages.report.counting import PlaceCounts

SHIPPED = "the confidence that comes with olr-tools"
CALIBRATE = "olr-tools calibrate --map DIR --for FEED"


def name_of(file: Path | None) -> str:
    """What a page calls the file of a confidence: None is the one that comes with the package."""
    return SHIPPED if file is None else file.name


def expectations(counts: PlaceCounts, sure: Chosen, file: Path | None) -> list[str]:
    """The first lines of a summary: none if no place has a probability."""
    expected = counts.probabilities.expected
    if not expected.count:
        return []
    first = f"{expected.text(sure.confidence.level)}, by the trials of {name_of(file)}"
    return [first, *_differ(counts.map_differs, sure.confidence, name_of(file))]


def _differ(differs: MapDiffers | None, confidence: Confidence, name: str) -> Iterator[str]:
    """How different the two maps are. Nothing is said if the file doesn't say it."""
    if differs is None:
        return
    number = f"{range_text(*thousandths(differs))}, {BY}"
    if is_from_feed(confidence):
        yield f"the two maps seem to differ by {number}: {name} says so by the feed that it was made for"
    else:
        yield (
            f"how different the two maps are isn't known from this feed: {name} is for maps that differ by {number}; "
            f"make one for this feed by {CALIBRATE}"
        )


def remarks(counts: PlaceCounts) -> Iterator[str]:
    """Further lines of a summary, on places that are to be looked at."""
    if counts.turning_back:
        yield f"turn back: {counts.turning_back:,} likeliest places"
    cut_off = cut_off_line(counts.cut_off)
    if cut_off is not None:
        yield cut_off


def sentence(text: str) -> str:
    """A line of a summary as a sentence."""
    return f"{text[0].upper()}{text[1:]}."


def about_probabilities(sure: Chosen, file: Path | None) -> str:
    """What the page says of probabilities, or why there are none."""
    if sure.note:
        return sentence(sure.note)
    return (
        f"The probability of a place says how often such a place was the right one in the trials that {name_of(file)} was made from. It holds "
        "for your feed as far as the two maps differ as those of the trials did. The interval of how many are right is of chance, and of how far "
        "the share that was right lay from what is told in such trials. "
        "Points along a line have no probability."
    )
