"""How many references change in which way. It holds counts alone, however many references there are."""

from bisect import bisect_right
from collections import Counter
from collections.abc import Iterable, Iterator, Mapping
from itertools import accumulate
from typing import NamedTuple, get_args

from olr.comparing.changes import Certainty, Change, Compared, Refusing
from olr.geometry.agreement import AGREE


class Agreeing(NamedTuple):
    """On how many references both maps agree."""

    agree: int
    placed: int
    """So many have a place on both maps, of which one has a length at least."""

    def text(self) -> str:
        """As it is said."""
        return f"{self.agree:,} of {self.placed:,} that both maps place"


class Moved(NamedTuple):
    """How far places moved, in metres."""

    median: float
    greatest: float


class Summary:
    """What was counted of references."""

    def __init__(self) -> None:
        self.references = 0
        self._changes: Counter[str] = Counter()
        self._certainties: Counter[str] = Counter()
        self._kinds: Counter[str] = Counter()
        self._refused: Counter[tuple[Refusing, str]] = Counter()
        """Which map refuses how many references, with which faults."""
        self.no_place_any_more = 0
        """How many have a place on the old map and none on the new one."""
        self._moved: Counter[int] = Counter()
        """How many places moved by how many decimetres."""
        self._agreeing = Agreeing(0, 0)
        self.cut_off = 0
        """Of how many references a map may have more places: looking was cut off before one that might be shown."""

    def add(self, references: Iterable[Compared]) -> None:
        """Counts references."""
        for one in references:
            self.references += 1
            self.cut_off += one.is_cut_off()
            self.no_place_any_more += one.has_no_place_any_more()
            self._changes[_counted(one)] += 1
            self._kinds[one.change] += 1
            if one.change == "refused":
                self._refused[one.refusing(), " and ".join(one.faults())] += 1
            if one.certainty is not None:
                self._certainties[one.certainty] += 1
            if one.agreement is not None:
                agree, placed = self._agreeing
                self._agreeing = Agreeing(agree + (one.agreement >= AGREE), placed + 1)
            if one.change == "moved" and one.difference and one.difference.moved is not None:
                self._moved[round(one.difference.moved * 10)] += 1

    def changes(self) -> list[tuple[str, int]]:
        """Each change with its count, the most frequent first."""
        return _by_count(self._changes)

    def certainties(self) -> list[tuple[str, int]]:
        """Likewise how certain places are."""
        return _by_count(self._certainties)

    def counts(self) -> dict[str, int]:
        """How many references have each change, also where none has it."""
        return {change: self._kinds[change] for change in get_args(Change)}

    def counts_of_certainty(self) -> dict[str, int]:
        """Likewise how certain places are."""
        return {certainty: self._certainties[certainty] for certainty in get_args(Certainty)}

    def refused(self) -> Mapping[str, Mapping[str, int]]:
        """How many references are refused with which faults, by the map that does so."""
        found: dict[str, dict[str, int]] = {which: {} for which in get_args(Refusing)}
        for (which, faults), count in self._refused.items():
            found[which][faults] = count
        return found

    def agreeing(self) -> Agreeing | None:
        """On how many references both maps agree: None if they place none."""
        return self._agreeing if self._agreeing.placed else None

    def moved(self) -> Moved | None:
        """How far places moved: None if none did."""
        if not self._moved:
            return None
        return Moved(_median(self._moved) / 10, max(self._moved) / 10)

    def lines(self) -> Iterator[str]:
        """What is said."""
        for change, count in self.changes():
            yield f"{change}: {count:,}"
        for certainty, count in self.certainties():
            yield f"certainty {certainty}: {count:,}"
        agreeing = self.agreeing()
        if agreeing is not None:
            yield f"agree: {agreeing.text()}"
        moved = self.moved()
        if moved is not None:
            yield f"moved by: median {moved.median:,.1f} m, greatest {moved.greatest:,.1f} m"


def _counted(reference: Compared) -> str:
    """What a reference is counted as. Of one that is refused the faults are told apart."""
    return ", ".join(filter(None, [reference.words(), " and ".join(reference.faults())]))


def _by_count(counts: Counter[str]) -> list[tuple[str, int]]:
    """Counts, the greatest first."""
    return sorted(counts.items(), key=lambda pair: (-pair[1], pair[0]))


def _median(counts: Counter[int]) -> float:
    """The median of numbers, each of which is there so many times; the mean of the two in the middle if there are two."""
    numbers = sorted(counts)
    behind = list(accumulate(counts[number] for number in numbers))
    middle = (behind[-1] - 1) // 2, behind[-1] // 2
    return sum(numbers[bisect_right(behind, at)] for at in middle) / 2
