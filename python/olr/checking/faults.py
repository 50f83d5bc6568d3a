"""The faults of a map's files, by the names that `olr` gives them."""

from collections import Counter
from dataclasses import dataclass, field
from typing import NamedTuple


class Fault(NamedTuple):
    """What is wrong with a record, or with a whole file."""

    name: str
    """As `olr` names it, such as `Field`."""
    file: str
    """`nodes`, `lines` or `bans`."""
    what: str
    """What is wrong, as a part of a sentence."""
    remedy: str
    """What to do, as a sentence without its full stop."""
    record: int | None = None
    """The number of the record, from 1 behind the header; None for the whole file."""
    line: int | None = None
    """The line of the file on which the record begins, from 1."""
    column: int | None = None
    """The number of the column, from 1, if the fault is that of a field."""
    subject: str | None = None
    """What the record is: `id 104`, or the lines of a ban, `109,901`."""

    def program_text(self) -> str:
        """The fault as `olr` prints it behind `olr: `."""
        words: list[object] = [self.name]
        if self.name in ("UnknownNode", "ZeroLength", "Degenerate", "UnknownLine", "NotAdjacent"):
            words.append(self.record)
        elif self.name in ("Shape", "Field", "Duplicate"):
            words += [self.file, self.record]
            words += [] if self.column is None else [self.column]
        else:
            words.append(self.file)
        return " ".join(map(str, words))

    def text(self) -> str:
        """The fault in one line: as `olr` prints it, where it is, what is wrong, and what to do."""
        where = f"{self.file}.csv"
        if self.record is not None:
            where += f" record {self.record} (line {self.line})"
        if self.subject is not None:
            where += f" {self.subject}"
        return f"{self.program_text()}: {where}: {self.what}. {self.remedy}."

    def kind(self) -> tuple[str, str, int | None]:
        """Faults of one kind have the same remedy: the file, the name and the column."""
        return self.file, self.name, self.column


@dataclass
class Faults:
    """The faults that were found, in the order in which `olr` looks for them; of each kind at most `most` are kept."""

    most: int
    kept: list[Fault] = field(default_factory=list)
    counts: Counter[tuple[str, str, int | None]] = field(default_factory=Counter)

    def add(self, fault: Fault) -> None:
        """Counts a fault, and keeps it if there aren't as many of its kind."""
        kind = fault.kind()
        self.counts[kind] += 1
        if self.counts[kind] <= self.most:
            self.kept.append(fault)

    def total(self) -> int:
        """How many were found."""
        return self.counts.total()

    def left_out(self) -> dict[tuple[str, str, int | None], int]:
        """How many of each kind aren't kept, where there are any."""
        return {kind: count - self.most for kind, count in self.counts.items() if count > self.most}


def shown(text: str) -> str:
    """A field's text (each byte one character) in double quotes on one line, cut short if it is long."""
    readable = text.encode("latin-1").decode("utf-8", errors="backslashreplace")
    plain = "".join(c if c.isprintable() else ascii(c)[1:-1] for c in readable)
    return f'"{plain[:37]}..."' if len(plain) > 40 else f'"{plain}"'
