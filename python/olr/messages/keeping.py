"""What is kept of the records of XML beside their references: texts of elements, by their names, and attributes of the record's element.

Of several elements of a name the texts are joined, with a semicolon and a blank between them.
"""

from collections.abc import Callable, Mapping
from typing import NamedTuple

from olr.messages.message import NOTHING_KEPT, Reading
from olr.messages.texts import one_line

ALL = "all"
MOST_KEPT = 1 << 20
"""Letters that are kept of a record."""
MOST_WAITING = 10_000
"""References of a record of which something is kept: they wait for its end."""
TOO_MUCH_KEPT = f"more than {MOST_KEPT:,} letters to keep"


class Named:
    """What was named of the records of a file: what is kept of them, and perhaps their key."""

    def __init__(self, reading: Reading) -> None:
        self._key, self._keep = reading.key, frozenset(reading.keep)
        self.names = frozenset(reading.keep) | ({reading.key} if reading.key else set())

    def parted(
        self, key: str | None, texts: Mapping[str, str]
    ) -> tuple[str | None, Mapping[str, str]]:
        """The key of a record, which has one of its own, and what is kept beside it."""
        if self._key is None:
            return key, texts
        is_all = ALL in self._keep
        kept = {name: text for name, text in texts.items() if is_all or name in self._keep}
        return texts.get(self._key), kept or NOTHING_KEPT


class Kept:
    """What is kept of a record."""

    def __init__(self) -> None:
        self._texts: dict[str, list[str]] = {}
        self._letters = 0

    def add(self, name: str, text: str) -> None:
        """Adds a text, as long as there is room."""
        self._letters += len(name) + len(text)
        if not self.is_too_long():
            self._texts.setdefault(name, []).append(text)

    def add_all(self, other: "Kept") -> None:
        """Adds what is kept of an element within the record."""
        for name, texts in other._texts.items():
            if not name.startswith("@"):
                for text in texts:
                    self.add(name, text)
        self._letters += MOST_KEPT if other.is_too_long() else 0

    def is_too_long(self) -> bool:
        """Whether texts are missing, since there were too many."""
        return self._letters > MOST_KEPT

    def texts(self) -> Mapping[str, str]:
        """The texts by the names of their elements."""
        if not self._texts:
            return NOTHING_KEPT
        return {name: "; ".join(texts) for name, texts in self._texts.items()}


class _Taken(NamedTuple):
    """An element whose text is being taken."""

    depth: int
    name: str
    first: int
    """Where its texts begin among those of all of them."""


class Keeper:
    """Takes the texts of elements as they come: it is told of each element that isn't within a reference."""

    def __init__(
        self,
        names: frozenset[str],
        add: Callable[[str, str], None],
        listen: Callable[[list[str] | None], None],
    ) -> None:
        self._add, self._listen = add, listen
        """What takes a text, with its name; what makes texts be added to a list, or to none."""
        self._all = ALL in names
        self._names = frozenset(name for name in names if not name.startswith("@"))
        self._attributes = frozenset(name[1:] for name in names if name.startswith("@"))
        self._texts: list[str] = []
        self._open: list[_Taken] = []
        """The elements whose texts are being taken, each within the one before."""

    def start(self, depth: int, name: str) -> None:
        """An element begins."""
        if self._all:
            self._open.clear()
        elif self._open:
            self._texts.append(" ")
        if not self._takes(name):
            return
        if not self._open:
            self._texts.clear()
            self._listen(self._texts)
        self._open.append(_Taken(depth, name, len(self._texts)))

    def end(self, depth: int) -> None:
        """An element ends."""
        if not self._open:
            return
        opened, name, first = self._open[-1]
        if depth == opened:
            self._open.pop()
            self._take(name, "".join(self._texts[first:]))
        if self._open:
            self._texts.append(" ")
        else:
            self._listen(None)

    def _takes(self, name: str) -> bool:
        """Whether the text of an element is kept. One within another one of its name isn't taken twice."""
        return self._all or name in self._names and all(name != one.name for one in self._open)

    def take(self, name: str, text: str) -> None:
        """An element that was read for another purpose has this text, and those around it have it too."""
        if self._open:
            self._texts.append(f" {text} ")
        if self._all or name in self._names:
            self._take(name, text)

    def _take(self, name: str, text: str) -> None:
        if line := " ".join(text.split()):
            self._add(name, line)

    def is_taking(self) -> bool:
        """Whether texts that come are those of an element that is kept."""
        return bool(self._open)

    def pause(self) -> None:
        """A reference begins. An element around it is no leaf."""
        if self._all:
            self._open.clear()

    def go_on(self) -> None:
        """A reference has ended."""
        self._listen(self._texts if self._open else None)

    def of_element(self, attributes: Mapping[str, str]) -> Kept:
        """What is kept of the attributes of a record's element, which have names without a prefix."""
        kept = Kept()
        for name in sorted(self._attributes & attributes.keys()):
            kept.add(f"@{name}", one_line(attributes[name]))
        return kept
