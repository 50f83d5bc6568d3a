"""How many references may change, and the file of a summary, for a job that shall fail where more do."""

import json
from collections.abc import Iterator, Mapping
from typing import NamedTuple

from olr.comparing.summary import Summary


class Limit(NamedTuple):
    """How many references may change in some way."""

    option: str
    allowed: int
    found: int
    what: str
    """What they are, behind their number."""

    def is_passed(self) -> bool:
        """Whether there are more."""
        return self.found > self.allowed

    def line(self) -> str:
        """What is said where it is passed."""
        return (
            f"{self.found:,} of them {self.what}, more than the {self.allowed:,} of {self.option}"
        )


class Allowed(NamedTuple):
    """How many references may be lost, and how many may move: any number for None."""

    lost: int | None = None
    moved: int | None = None

    def limits(self, summary: Summary) -> Iterator[Limit]:
        """The limits that there are, with what was counted."""
        if self.lost is not None:
            what = "have a place on the old map and none on the new one"
            yield Limit("--fail-lost", self.lost, summary.no_place_any_more, what)
        if self.moved is not None:
            yield Limit("--fail-moved", self.moved, summary.counts()["moved"], "moved")


def summary_text(
    summary: Summary,
    files: Mapping[str, str],
    asked_with: Mapping[str, int | str],
    allowed: Allowed,
) -> str:
    """A summary as JSON, with the names of what was compared. All members are always there, sorted by their names; how far places moved is in
    metres, and what was asked with in the units of the options."""
    agreeing, moved = summary.agreeing(), summary.moved()
    content = {
        **files,
        "agree": 0 if agreeing is None else agreeing.agree,
        "asked_with": asked_with,
        "certainty": summary.counts_of_certainty(),
        "changes": summary.counts(),
        "cut_off": summary.cut_off,
        "limits": [
            {
                "allowed": it.allowed,
                "found": it.found,
                "option": it.option,
                "passed": it.is_passed(),
            }
            for it in allowed.limits(summary)
        ],
        "moved_m": None if moved is None else moved._asdict(),
        "placed_by_both": 0 if agreeing is None else agreeing.placed,
        "references": summary.references,
        "refused_by": summary.refused(),
    }
    return json.dumps(content, indent=2, sort_keys=True, ensure_ascii=False) + "\n"
