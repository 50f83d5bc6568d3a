"""What the page says of counts, as sentences and tables."""

from collections import Counter
from collections.abc import Iterable, Mapping, Sequence
from typing import Any, NamedTuple

from olr.matching.lacking import option_text
from olr.model.fault import Fault
from olr.pages.report.asking import Counted
from olr.pages.report.counting import Histogram
from olr.pages.report.expectation import remarks, sentence
from olr.pages.report.reasons import CONDITIONS, ReasonCounts

MOST_FAULTS = 20
"""Rows of the table of faults."""
VERDICTS = {
    "unique": "one place, and no second one that costs nearly as little",
    "ambiguous": "several places that cost nearly the same",
    "open": "looking was cut off before a second place was found",
    "none": "nothing fits within the tolerances",
    "refused": "no answer: a fault",
}
WHY = {
    "point": "a point has no candidate: no line near it agrees",
    "leg": "from one point to the next one no path is long enough, short enough, or important enough",
    "chain": "each leg has a path, but not from the same candidates",
    "crowded": "a point has more than 64 candidates",
    "match": "there is a matching",
    "refused": "no answer: a fault",
}
NOT = {
    "radius": "it is further away than the radius",
    "bearing": "its direction is another one",
    "class": "its class is another one",
    "end": "no vehicle can go on from it, or come to it",
}

Row = tuple[str, str, int]
"""What is counted, what it means, and how often."""


class Table(NamedTuple):
    """A table of counts."""

    caption: str
    heading: str
    rows: Sequence[Row]
    whole: int
    """What shares are of."""

    def content(self) -> dict[str, Any]:
        """The table as data."""
        return self._asdict()


class Section(NamedTuple):
    """A part of the page."""

    title: str
    texts: Sequence[str]
    tables: Sequence[Table]

    def content(self) -> dict[str, Any]:
        """The part as data, without tables that have no row."""
        tables = [table.content() for table in self.tables if table.rows]
        return {"title": self.title, "texts": self.texts, "tables": tables}


def summary(counted: Counted, first: Iterable[str]) -> list[str]:
    """A sentence or two on all of it, behind those that come first."""
    places = counted.places
    verdicts, number = places.verdicts, places.references()
    parts = [f"{verdicts[word]:,} {name}" for word, name in _NAMES.items() if verdicts[word]]
    return [
        *first,
        f"{_many(number, 'reference')}: {', '.join(parts)}." if parts else "No references.",
        *map(sentence, remarks(places)),
        *_findings(counted.reasons),
        *counted.lacking.sentences(),
    ]


_NAMES = {
    "unique": "unique",
    "ambiguous": "ambiguous",
    "open": "open",
    "none": "fit nothing",
    "refused": "refused",
}


def _findings(reasons: ReasonCounts) -> Iterable[str]:
    """What stands out of why references have no place."""
    whole = reasons.references()
    if reasons.points:
        text = f"{_many(reasons.points, 'point')} of references without a place {_have(reasons.points)} no candidate."
        far = reasons.nearest["radius"]
        if far:
            text += f" At {far:,} of them even the nearest line is further away than the radius: the map may lack roads there."
        yield text
    if whole:
        options = [(option, count) for option, count in reasons.first.most_common() if option]
        best = f", most often {option_text(options[0][0])} ({options[0][1]:,})" if options else ""
        helped = sum(count for _, count in options)
        yield f"For {helped:,} of {_many(whole, 'reference')} without a place a change of one option helps{best}."


def sections(counted: Counted, note: str) -> list[Section]:
    """The parts of the page before the map and the table of references. `note` says what probabilities are of, or why there are none."""
    return [
        Section("Answers", [], [_verdicts(counted), _faults(counted.places.faults)]),
        *_why(counted.reasons),
        *_distributions(counted),
        *_probabilities(counted, note),
    ]


def _verdicts(counted: Counted) -> Table:
    """How many references have which verdict."""
    verdicts = counted.places.verdicts
    rows = [(word, meaning, verdicts[word]) for word, meaning in VERDICTS.items()]
    return Table("References by verdict", "verdict", rows, verdicts.total())


def _faults(faults: Counter[str]) -> Table:
    """How many are refused for which fault."""
    named = faults.most_common(MOST_FAULTS)
    rows = [(text, Fault(text).meaning, count) for text, count in named]
    rest = faults.total() - sum(count for _, count in named)
    if rest:
        rows.append(("others", f"{len(faults) - len(named)} more faults", rest))
    return Table("Refused references by fault", "fault", rows, faults.total())


def _why(reasons: ReasonCounts) -> Iterable[Section]:
    """Why references have no place."""
    whole = reasons.references()
    if not whole:
        return
    verdicts = [(word, WHY[word], count) for word, count in reasons.verdicts.most_common()]
    remedies = [
        (option_text(option), f"helps {reasons.named[option]:,} in all", count)
        for option, count in reasons.first.most_common()
        if option
    ]
    none = [("none", "no change of one option helps", reasons.first[""])]
    yield Section(
        "Why references have no place",
        [
            f"{_many(whole, 'reference')}: those with the verdict none, and those with too many candidates.",
            "A remedy is a change of one option with which there is a matching. The first one is the one to try first, but its matching isn't "
            "always the true place: look at some of them.",
        ],
        [
            Table("By the first thing in the way", "in the way", verdicts, whole),
            Table("By the first remedy", "remedy", remedies + none, whole),
            _conditions(
                "What the nearest line fails, at points without a candidate",
                reasons.nearest,
                reasons,
            ),
            _conditions(
                "What all lines nearby fail, at points without a candidate",
                reasons.all_near,
                reasons,
            ),
        ],
    )


def _conditions(caption: str, failed: Counter[str], reasons: ReasonCounts) -> Table:
    """How often which condition fails."""
    rows = [(name, NOT[name], failed[name]) for name in CONDITIONS if failed[name]]
    whole = f"{caption} ({_many(reasons.points, 'point')}; a line may fail several conditions)"
    return Table(whole, "condition", rows, reasons.points)


def _distributions(counted: Counted) -> Iterable[Section]:
    """How penalties, gaps and margins are distributed."""
    places = counted.places
    if not places.totals.total():
        return
    no_margin = [("none", "no second place was found", places.without_margin)]
    margins = _ranges("Margins, the gap of the second best place", places.margins)
    yield Section(
        "Penalties, gaps and margins",
        [
            "In penalty points. A total is what the likeliest place costs; 0 is a perfect fit. A gap is how much more another place that is shown "
            "costs than the one that costs least. A margin is the least gap, whether that place is shown or not: the greater, the surer."
        ],
        [
            _ranges("Totals of likeliest places", places.totals),
            _ranges("Gaps of the other places that are shown", places.gaps),
            margins._replace(
                rows=[*margins.rows, *no_margin], whole=margins.whole + places.without_margin
            ),
        ],
    )


def _ranges(caption: str, histogram: Histogram) -> Table:
    """A distribution."""
    rows = [(name, "", count) for name, count in histogram.rows()]
    return Table(caption, "penalty points", rows, histogram.total())


def _probabilities(counted: Counted, note: str) -> Iterable[Section]:
    """How many likeliest places have which probability."""
    found = counted.places.probabilities
    rows: list[Row] = []
    if found.expected.count:
        rows += [(name, "", count) for name, count in found.rows()]
        if found.without:
            rows.append(("none", "a point along a line", found.without))
    table = Table("Likeliest places by probability", "probability", rows, found.total())
    yield Section("Probabilities", [note], [table])


def _many(count: int, what: str) -> str:
    """So many of something."""
    return f"{count:,} {what}" if count == 1 else f"{count:,} {what}s"


def _have(count: int) -> str:
    return "has" if count == 1 else "have"


def left_out(verdicts: Mapping[str, int], shown: Mapping[str, int]) -> str:
    """Which references the table of them has, and which not."""
    rows, whole = sum(shown.values()), sum(verdicts.values())
    if rows == whole:
        return f"All {_many(whole, 'reference')}."
    parts = [
        f"{word} {shown.get(word, 0):,} of {verdicts[word]:,}"
        for word in VERDICTS
        if verdicts.get(word)
    ]
    return (
        f"{rows:,} of {_many(whole, 'reference')}, drawn at random, with an equal share of each verdict and each fault: {', '.join(parts)}. "
        "The others are counted above, and left out here: --rows makes room for more."
    )
