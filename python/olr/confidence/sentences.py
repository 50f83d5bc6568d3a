"""What pages and summaries say of probabilities, and of how different two maps are."""

from collections.abc import Iterable, Mapping

from olr.confidence.confidence import THOUSANDTHS, Confidence, Range
from olr.model.answers import MapDiffers
from olr.model.questions import NUMBERS

MILLION = 1_000_000
BY = "1 as another vendor's"
REMEDY = "make a file with your options by olr-tools calibrate"


def probability_text(millionths: int) -> str:
    """A probability, such as `0.93`. It is 1 or 0 only if it is so: one that is rounded is said to be above or below."""
    if 995_000 <= millionths < MILLION:
        return "above 0.99"
    if 0 < millionths < 5_000:
        return "below 0.01"
    return f"{millionths / MILLION:.2f}"


def others_text(differs: Iterable[str], asked: Mapping[str, int], confidence: Confidence) -> str:
    """Which numbers are others than those of a confidence, by what the program says: `radius is 100, not 75`. An empty text if none is. All
    tolerances are given."""
    usual = {"apart": NUMBERS["places"]["apart"].default}
    made = {**confidence.tolerances, "apart": confidence.apart}
    return "; ".join(
        f"{name} is {(usual | dict(asked))[name]}, not {made[name]}" for name in differs
    )


def no_probabilities(
    differs: Iterable[str], asked: Mapping[str, int], confidence: Confidence
) -> str:
    """Why there are no probabilities; an empty text if there are."""
    others = others_text(differs, asked, confidence)
    return f"no probabilities: {others}: {REMEDY}" if others else ""


def is_from_feed(confidence: Confidence) -> bool:
    """Whether a feed told how different the maps are, when the confidence was made."""
    about = confidence.about
    feed = about.get("feed")
    is_told = isinstance(feed, Mapping) and feed.get("statistics") is not None
    return is_told and about.get("differ") is None


def differs_text(differs: MapDiffers | None, confidence: Confidence) -> str:
    """How different the two maps seem, or of how different ones the probabilities are; an empty text if that isn't said."""
    if differs is None:
        return ""
    number = f"{range_text(*thousandths(differs))}, {BY}"
    if is_from_feed(confidence):
        return f"The maps seem to differ by {number}."
    return f"The probabilities are those of maps that differ by {number}."


def thousandths(differs: MapDiffers) -> Range:
    """How different maps are, of which the program has thousandths."""
    return Range(*(getattr(differs, name) / THOUSANDTHS for name in Range._fields))


def range_text(value: float, low: float, high: float) -> str:
    """How different maps are, with its interval."""
    return f"{value:.1f} ({low:.1f} to {high:.1f})"
