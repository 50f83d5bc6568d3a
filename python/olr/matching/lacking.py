"""References that fit nowhere, and of how many of them another profile or a change of one option would give a place.

Nothing is asked where all fit somewhere.
"""

from collections import Counter
from collections.abc import Iterable, Iterator, Mapping, Sequence
from typing import Any

from olr.client.map_client import Map
from olr.errors import ToolError
from olr.model.answers import Page, Places, Why
from olr.model.fault import Fault

CHUNK = 1024
"""So many references are kept, of which is asked then."""
CROWDED = "TooManyCandidates"


def is_without_place(answer: Page | Places | Fault) -> bool:
    """Whether a reference has no place or matching, of which `why` says more."""
    if isinstance(answer, Fault):
        return answer.name == CROWDED
    return not (answer.matchings if isinstance(answer, Page) else answer.places)


class Lacking:
    """References that fit nowhere."""

    def __init__(self, asked: Map, other: tuple[str, Mapping[str, Any]] | None) -> None:
        """They were asked of a map. With `other`, a profile and all tolerances by their names as arguments, they are asked so too."""
        self._asked = asked
        self._profile = None if other is None else other[0]
        self._tolerances: Mapping[str, Any] = {} if other is None else other[1]
        self._kept: list[str] = []
        self._failure: ToolError | None = None
        self.count = 0
        self.by_profile = 0
        """So many of them have a matching with the other profile."""
        self.by_option: Counter[str] = Counter()
        """So many with a change of one option, by the first one of these."""

    def add(self, reference: str) -> None:
        """Adds a reference."""
        self._kept.append(reference)
        if len(self._kept) >= CHUNK:
            self._ask()

    def add_answered(self, references: Sequence[str], reasons: Iterable[Why | Fault]) -> None:
        """Adds references, with the answers why each of them fits nowhere."""
        self.count += len(references)
        if self._failure is not None:
            return
        try:
            self._count_reasons(reasons)
            self._count_others(references)
        except ToolError as error:
            self._failure = error

    def line(self) -> str | None:
        """The line of a summary: None if all fit somewhere. Where asking more failed it says how many there are, and why no more is known:
        what was asked in the first place is answered."""
        self._ask()
        if not self.count:
            return None
        found = f"fit nowhere: {self.count:,}"
        if self._failure is not None:
            return f"{found}; what would help isn't known: {self._failure}"
        parts = []
        if self._profile is not None:
            parts.append(f"{self.by_profile:,} with --profile {self._profile}")
        changed = f"{self.by_option.total():,} with one option changed"
        if self.by_option:
            (option, most), *_ = self.by_option.most_common(1)
            changed += f", most often {option_text(option)} ({most:,})"
        parts.append(changed)
        return f"{found}; of these {', '.join(parts)}"

    def sentences(self) -> Iterator[str]:
        """What a page says of the other profile."""
        if self.count and self._profile is not None and self._failure is None:
            yield f"With --profile {self._profile} {self.by_profile:,} of the {self.count:,} that fit nothing have a matching."

    def _ask(self) -> None:
        """Asks about the references that are kept, and forgets them."""
        kept, self._kept = self._kept, []
        if kept:
            self.add_answered(kept, self._asked.answers("why", kept, nearest=0))

    def _count_reasons(self, reasons: Iterable[Why | Fault]) -> None:
        for reason in reasons:
            helping = [] if isinstance(reason, Fault) else reason.remedies
            options = [it.option for it in helping if it.matching is not None]
            self.by_option.update(options[:1])

    def _count_others(self, references: Sequence[str]) -> None:
        if self._profile is not None:
            other = self._asked.asking(**self._tolerances)
            pages = other.matches(references, page=1)
            self.by_profile += sum(isinstance(it, Page) and bool(it.matchings) for it in pages)


def option_text(option: str) -> str:
    """What is changed, by the name of a remedy."""
    return "without bans" if option == "without-bans" else f"--{option}"
