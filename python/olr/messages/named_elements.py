"""Messages of any XML, by the names of the elements or attributes with references and with keys."""

from dataclasses import dataclass

from olr.errors import ToolError
from olr.messages.keeping import MOST_WAITING, TOO_MUCH_KEPT, Keeper, Kept
from olr.messages.markup import Walk, without_blanks
from olr.messages.message import Message, Reading
from olr.messages.texts import one_line, shown

KEY = "@id"
"""Where the key is if nothing else was said."""
MOST_NOTED = 10_000
"""Elements that end before the first reference: some of them may be records."""


_NOTHING = Kept()


@dataclass
class _Reference:
    """A reference, and whether it is a message already."""

    text: str
    number: int | None = None
    """If it is known before its record ends."""
    is_given: bool = False


class _Open:
    """An element that is open, or that ended before the first reference's record was known."""

    __slots__ = ("name", "key", "references", "has_some", "is_record", "kept", "_keys", "_has_own")

    def __init__(self, name: str, key: str | None, kept: Kept) -> None:
        self.name, self.key, self.kept = name, key, kept
        self.references: list[_Reference] = []
        """Those within it that have no record yet."""
        self.has_some = self.is_record = False
        """Whether there are references within it; whether it is the record of one."""
        self._keys, self._has_own = 0, key is not None

    def take_key(self, key: str) -> None:
        """Takes the text of an element of its own."""
        if not self._has_own:
            self.key, self._has_own = key, True

    def take_inner_key(self, key: str | None) -> None:
        """Takes the key of an element within it, if that is the only one."""
        if key is not None and not self._has_own:
            self._keys += 1
            self.key = key if self._keys == 1 else None


class NamedElements(Walk):
    """Reads the messages of a file. The record of a reference is the nearest element around it that has the key; if there is none, the one
    that has the reference. All elements with the name of the first reference's record are records.
    """

    def __init__(self, reading: Reading, name: str) -> None:
        super().__init__(name)
        self._ref, self._key = reading.ref or "", reading.key or KEY
        self._key_attribute = self._key[1:] if self._key.startswith("@") else None
        self._ref_attribute = self._ref[1:] if self._ref.startswith("@") else None
        self._keeps = bool(reading.keep)
        self._keeper = Keeper(frozenset(reading.keep), self._keep, self.listen)
        self._open = [_Open("", None, _NOTHING if not reading.keep else Kept())]
        """The document, and the elements that are open."""
        self._text_depth, self._texts = 0, list[str]()
        """Where the text of a reference or a key is being read."""
        self._record: str | None = None
        """The name of records, when it is known."""
        self._noted: list[_Open] = []
        self._forgotten: set[str] = set()
        self._number = 0

    def start(self, name: str, attributes: dict[str, str]) -> None:
        """An element begins."""
        self.depth += 1
        local = self.local[name]
        plain = self.without_prefixes(attributes) if attributes else {}
        key = plain.get(self._key_attribute) if self._key_attribute else None
        kept = self._keeper.of_element(plain) if self._keeps else _NOTHING
        opened = _Open(local, key, kept)
        self._open.append(opened)
        if self._ref_attribute in plain:
            self._take_reference(opened, plain[self._ref_attribute])
        if self._text_depth:
            return
        if local in (self._ref, self._key):
            self._text_depth = self.depth
            self._texts.clear()
            self._keeper.pause()
            self.listen(self._texts)
        elif self._keeps:
            self._keeper.start(self.depth, local)

    def end(self, name: str) -> None:
        """An element ends."""
        ended = self._open.pop()
        around = self._open[-1]
        if self._text_depth == self.depth:
            self._end_text(ended.name, around)
        elif self._keeps and not self._text_depth:
            self._keeper.end(self.depth)
        is_outer = self.depth <= 2
        if is_outer and ended.key is None:
            ended.key = around.key
        if ended.references and (is_outer or ended.is_record or ended.key is not None):
            self._make_record(ended.name)
            self._give(ended)
        elif ended.name == self._record:
            self._give(ended)
        else:
            self._hand_on(ended, around)
        around.has_some |= ended.has_some
        self.depth -= 1

    def finish(self) -> None:
        """The file has ended. Raises `ToolError` if it has no reference."""
        if self._record is None:
            what = "attribute" if self._ref_attribute else "element"
            raise ToolError(f"{self.name} has no {what} {self._ref}: name another one by --ref")

    def _keep(self, name: str, text: str) -> None:
        """Keeps a text of the innermost element."""
        self._open[-1].kept.add(name, text)

    def _end_text(self, name: str, around: _Open) -> None:
        """The element of a reference or a key ends."""
        text = "".join(self._texts)
        self._text_depth = 0
        self._keeper.go_on()
        if name == self._key:
            around.take_key(one_line(text))
            if self._keeps:
                self._keeper.take(name, text)
        if name == self._ref:
            self._take_reference(around, text)

    def _take_reference(self, owner: _Open, text: str) -> None:
        """An element has a reference, as its attribute or in an element of its own."""
        reference = without_blanks(text)
        owner.has_some = True
        record = owner
        if self._key_attribute is not None:
            record = next((one for one in reversed(self._open) if one.key is not None), owner)
            record.is_record = record.has_some = True
            self._make_record(record.name)
        if self._key_attribute is None:
            record.references.append(_Reference(reference))
            self._require_room(record)
        elif self._keeps:
            # It has the number that it would have if nothing were kept.
            record.references.append(_Reference(reference, self._next_number()))
            self._require_room(record)
        else:
            self._message(record.key, reference, record.kept)

    def _hand_on(self, ended: _Open, around: _Open) -> None:
        """An element that is no record leaves what it has to the one around it."""
        if ended.references:
            around.references += ended.references
            self._require_room(around)
        if self._record is None:
            self._note(ended)
        if self._key_attribute is None and self.depth > 2:
            around.take_inner_key(ended.key)
        if self._keeps:
            around.kept.add_all(ended.kept)

    def _require_room(self, owner: _Open) -> None:
        """Raises `ToolError` for references that would be held without end."""
        if len(owner.references) > MOST_WAITING:
            name = shown([owner.name])
            raise self.error(f"has more than {MOST_WAITING:,} references in one element {name}")

    def _note(self, ended: _Open) -> None:
        """An element may be a record: that is seen later."""
        if len(self._noted) < MOST_NOTED:
            self._noted.append(ended)
        else:
            self._forgotten.add(ended.name)

    def _make_record(self, name: str) -> None:
        """The name of records is known, if it wasn't: those that came before have their messages."""
        if self._record is not None:
            return
        self._record = name
        if name in self._forgotten:
            raise self.error(f"is behind {MOST_NOTED:,} elements without a record")
        for one in self._noted:
            if one.name == name:
                self._give(one)
        self._noted.clear()

    def _give(self, record: _Open) -> None:
        """The messages of a record that has ended."""
        if not record.has_some:
            self._message(record.key, "", record.kept)
        for reference in record.references:
            if not reference.is_given:
                reference.is_given = True
                self._message(record.key, reference.text, record.kept, reference.number)

    def _message(
        self, key: str | None, reference: str, kept: Kept, number: int | None = None
    ) -> None:
        """A message was found. It has the next number, unless it has one already."""
        if kept.is_too_long():
            raise self.error(f"ends a record with {TOO_MUCH_KEPT}")
        number = number or self._next_number()
        self.found.append(Message(number, key, reference, None, kept.texts()))

    def _next_number(self) -> int:
        self._number += 1
        return self._number
