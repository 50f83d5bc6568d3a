"""Messages of XML whose names are known: DATEX II, versions 2 and 3, and OpenLR's own schema."""

from dataclasses import dataclass, field

from olr.errors import ToolError
from olr.messages.keeping import MOST_WAITING, TOO_MUCH_KEPT, Keeper, Kept, Named
from olr.messages.message import Message, Reading
from olr.messages.openlr_forms import Form
from olr.messages.openlr_references import MOST_HELD
from olr.messages.openlr_shapes import ShapedReferences
from olr.messages.openlr_words import DATEX_ROOTS, KEY, RECORD, SITUATION, begins_reference
from olr.messages.texts import begins_like_a_reference, one_line

NAMED_RECORDS = frozenset((RECORD, SITUATION))
"""Elements that are records whatever they have: other ones have an id."""
_NOTHING = Kept()
_TO_COME = Message(0, None, "")
"""In place of a message whose reference is still to be written."""


@dataclass(slots=True)
class _Record:
    """An element with a key."""

    depth: int
    name: str
    key: str | None
    kept: Kept
    count: int = 0
    """Its references."""
    waiting: list[tuple[int | None, str, str | None]] = field(default_factory=list)
    """References that are messages at its end, each with its number, if that is known before, and with its fault."""


class KnownElements(ShapedReferences):
    """Reads the messages of a file: each with the key of its situation record or of its `OpenLR`, or with the nearest id."""

    def __init__(self, reading: Reading, name: str) -> None:
        super().__init__(name)
        self._records = [_Record(0, "", None, Kept())]
        """The document, and the records that are open."""
        self._named = Named(reading)
        self._keeps = bool(self._named.names)
        self._counts_at_once = reading.key is None
        """Whether references have the numbers that they would have if nothing were kept."""
        self._keeper = Keeper(self._named.names, self._keep, self.listen)
        self._number = self._situations = self._without = 0
        self._forms: list[tuple[int, int, str | None, Form]] = []
        """Messages whose references are still to be written: their places in `found`, numbers, keys and references. Many that are written
        one after the other take a tenth less time than each between elements."""
        self._is_known = False
        self._key_depth, self._key_texts = 0, list[str]()
        """Where the key of an `OpenLR` is being read."""

    def start(self, name: str, attributes: dict[str, str]) -> None:
        """An element begins that isn't within a reference."""
        self.depth += 1
        local = self.local[name]
        if self.inside is not None or begins_reference(local):
            self.start_reference(name, attributes)
            return
        if attributes or local in NAMED_RECORDS:
            self._start_record(local, attributes)
        if local == KEY and self._is_in_own() and not self._key_depth:
            self._key_depth = self.depth
            self._key_texts.clear()
            self.listen(self._key_texts)
        elif self._keeps and not self._key_depth:
            self._keeper.start(self.depth, local)

    def end(self, name: str) -> None:
        """An element ends that isn't within a reference."""
        depth = self.depth
        if self.inside is not None:
            self.end_reference()
        if depth == self._key_depth:
            self._records[-1].key = one_line("".join(self._key_texts))
            self._key_depth = 0
            self._keeper.go_on()
        elif self._keeps and not self._key_depth:
            self._keeper.end(depth)
        if self._records[-1].depth == depth:
            self._end_record(self._records[-1])
        self.depth = depth - 1

    def begin_references(self) -> None:
        """The outermost element that has references begins."""
        if self._keeps:
            self._keeper.pause()

    def end_references(self) -> None:
        """It has ended."""
        if self._keeps or self._key_depth:
            self._keeper.go_on()

    def hears_texts(self) -> bool:
        """Whether texts around references are read for another purpose."""
        return self._key_depth > 0 or self._keeper.is_taking()

    def take_references(self) -> None:
        """References were found: those of an `OpenLR` are given at its end."""
        if not self._is_in_own():
            self._give([*self.binaries, *self.forms[len(self.binaries) :]])
        elif len(self.forms) + len(self.binaries) >= MOST_HELD:
            raise self.error(f"has more than {MOST_HELD:,} references of one location")

    def finish(self) -> None:
        """The file has ended. Raises `ToolError` if nothing of it was known."""
        super().finish()
        if not self._number and not self._is_known:
            found = f"{self.name} has no element of DATEX II or OpenLR"
            raise ToolError(f"{found}: name the element or @attribute with references by --ref")
        if self._without:
            found = f"{self._without:,} of {self._situations:,} situation records have no OpenLR"
            self.hint(f"{found}, and so no row")

    def taken(self) -> list[Message]:
        """The messages that were found, with references in binary."""
        for at, number, key, form in self._forms:
            self.found[at] = Message(number, key, *form.written())
        self._forms.clear()
        return super().taken()

    def _is_in_own(self) -> bool:
        """Whether the innermost record is an `OpenLR`."""
        return self._records[-1].name == RECORD

    def _keep(self, name: str, text: str) -> None:
        """Keeps a text of the innermost record."""
        self._records[-1].kept.add(name, text)

    def _start_record(self, local: str, attributes: dict[str, str]) -> None:
        """An element begins that may be a record."""
        is_named = local in NAMED_RECORDS
        self._is_known |= is_named or local in DATEX_ROOTS
        around = self._records[-1]
        plain = self.without_prefixes(attributes)
        if not is_named and ("id" not in plain or around.name in NAMED_RECORDS):
            return
        key = plain.get("id", around.key)
        kept = self._keeper.of_element(plain) if self._keeps else _NOTHING
        self._records.append(_Record(self.depth, local, key, kept))
        self._situations += local == SITUATION

    def _end_record(self, record: _Record) -> None:
        """A record ends."""
        if record.name == RECORD:
            self._give(self._of_location() or [""])
        self._records.pop()
        if record.name == SITUATION:
            self._without += not record.count
        elif not record.count and self._keeps:
            self._records[-1].kept.add_all(record.kept)
        if record.waiting:
            if record.kept.is_too_long():
                raise self.error(f"ends a record with {TOO_MUCH_KEPT}")
            key, kept = self._named.parted(record.key, record.kept.texts())
            self.found += [
                Message(number or self._next_number(), key, reference, fault, kept)
                for number, reference, fault in record.waiting
            ]

    def _of_location(self) -> list[str | Form]:
        """The references of an `OpenLR`: of several binary ones, which have several versions, that of version 3."""
        binaries = [text for text in self.binaries if begins_like_a_reference(text)]
        chosen = (binaries or self.binaries)[:1]
        return [*chosen, *self.forms[len(chosen) :]]

    def _give(self, references: list[str | Form]) -> None:
        """References of the innermost record are messages, at once or at its end."""
        self.binaries.clear()
        self.forms.clear()
        record = self._records[-1]
        record.count += len(references)
        if self._keeps and record.depth:
            record.waiting += [
                (self._next_number() if self._counts_at_once else None, *_written(reference))
                for reference in references
            ]
            if len(record.waiting) > MOST_WAITING:
                raise self.error(f"has more than {MOST_WAITING:,} references of one record")
            return
        for reference in references:
            number = self._next_number()
            if isinstance(reference, Form):
                self._forms.append((len(self.found), number, record.key, reference))
                self.found.append(_TO_COME)
            else:
                self.found.append(Message(number, record.key, reference))

    def _next_number(self) -> int:
        """The number of the next message."""
        self._number += 1
        return self._number


def _written(reference: str | Form) -> tuple[str, str | None]:
    """A reference in binary, which takes little memory while it waits, and its fault."""
    return reference.written() if isinstance(reference, Form) else (reference, None)
