"""What an import left out or changed, counted by reason."""

import sys
from collections import Counter
from collections.abc import Callable

MOST_VALUES = 20
"""So many values are counted by their names."""


class Counts:
    """Numbers by reason. A reason is a plain text in the plural, such as "self-loops cut in two"."""

    def __init__(self) -> None:
        self.left_out: Counter[str] = Counter()
        self.changed: Counter[str] = Counter()
        self.hints: list[str] = []
        """What may be wrong with the options, and what to do: a line each."""

    def leave_out(self, reason: str, number: int = 1) -> None:
        """Counts what isn't on the map."""
        if number:
            self.left_out[reason] += number

    def change(self, reason: str, number: int = 1) -> None:
        """Counts what is on the map, but not as it was."""
        if number:
            self.changed[reason] += number

    def as_table(self) -> dict[str, dict[str, int]]:
        """The numbers for `import.json`, in the order of the reasons."""
        return {
            "changed": dict(sorted(self.changed.items())),
            "left_out": dict(sorted(self.left_out.items())),
        }

    def report(self) -> None:
        """Prints the numbers on standard error, a line for each reason, and then the hints."""
        for heading, numbers in (("left out", self.left_out), ("changed", self.changed)):
            for reason, number in sorted(numbers.items()):
                print(f"{heading}: {reason}: {number:,}", file=sys.stderr)
        for hint in self.hints:
            print(f"hint: {hint}", file=sys.stderr)


class ValueCounts:
    """Numbers by reason and by value, where no table knows the values."""

    def __init__(self) -> None:
        self._numbers: dict[str, Counter[str]] = {}

    def add(self, reason: str, value: str) -> None:
        """Counts a value."""
        self._numbers.setdefault(reason, Counter())[value] += 1

    def hand_on(self, count: Callable[[str, int], None]) -> None:
        """Counts the most frequent values of each reason by their names, and all others together."""
        for reason, numbers in self._numbers.items():
            named = numbers.most_common(MOST_VALUES)
            for value, number in named:
                count(f"{reason}: {value}", number)
            rest = numbers.total() - sum(number for _, number in named)
            count(f"{reason}: other values", rest)


def short(value: str) -> str:
    """A value of a file as a part of a line: of 40 characters at most."""
    line = " ".join(value.split())
    return line if len(line) <= 40 else f"{line[:37]}..."
