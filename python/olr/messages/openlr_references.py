"""References among the elements of XML, in binary and in element form. Whose they are is known above."""

from typing import NamedTuple

from olr.messages.markup import Walk, without_blanks
from olr.messages.openlr_forms import Form, GrowingForm, Texts
from olr.messages.openlr_words import (
    BINARIES,
    BINARY,
    BINARY_TEXT,
    DATEX,
    LAST,
    OWN,
    POINT,
    REFERENCE,
    Field,
    Known,
    Parts,
    kind_of,
)
from olr.messages.texts import shown
from olr.physical.faults import OTHER_KINDS

MOST_HELD = 1000
"""References of one element: of more the first ones go on."""
_ODD = "<"
"""In place of the text of a field that has an element within it, or is there twice: no value of any field."""


class _Whole(dict[str, Known]):
    """An element all of whose elements are like itself."""

    def get(self, name: str, default: object = None) -> Known:
        return self


_PASSED_OVER, _BINARIES = _Whole(), _Whole()


class _Wrapper(NamedTuple):
    """An element around references."""

    depth: int
    name: str
    kind: str | None
    seen: int
    """How many references there were before it."""


class References(Walk):
    """Goes through elements, and takes the references among them."""

    def __init__(self, name: str) -> None:
        super().__init__(name)
        self.binaries: list[str] = []
        self.forms: list[Form] = []
        self._seen = 0
        self.inside: int | None = None
        """The depth of the outermost element that has references."""
        self.begun_at = -1
        """The byte, of those that the parser was given, at which the last such element began that may have others around references."""
        self._wrappers: list[_Wrapper] = []
        self.contexts: list[Parts] = []
        """What elements may be in those that are open, in and below the one that has the fields of a reference."""
        self._form = GrowingForm(None, OWN)
        self._fields: Texts = {}
        self._texts: list[str] = []

    def open_elements(self) -> int:
        """How many elements are open, also within a reference."""
        return self.depth + len(self.contexts)

    def begin_references(self) -> None:
        """The outermost element that has references begins."""

    def end_references(self) -> None:
        """It has ended."""

    def take_references(self) -> None:
        """References were found in it, all of them or many: they are taken, and none is left."""
        raise NotImplementedError

    def start_reference(self, name: str, attributes: dict[str, str]) -> None:
        """An element begins that has references, or a part of one."""
        local = self.local[name]
        is_part = local in REFERENCE and local != BINARY
        if self.inside is None:
            self.inside = self.depth - is_part
            self.begin_references()
        if is_part:
            self.depth -= 1
            kind = self._wrappers[-1].kind if self._wrappers else None
            self._begin_form(GrowingForm(kind, DATEX if local.startswith("openlr") else OWN))
            self._start_within(name, attributes)
        elif local == BINARY:
            self._go_within(BINARY_TEXT)
        elif local == BINARIES:
            self._go_within(_BINARIES)
        else:
            self._start_wrapper(local, attributes)

    def end_reference(self) -> None:
        """An element ends that may have references, but isn't within one."""
        if self._wrappers and self._wrappers[-1].depth == self.depth:
            wrapper = self._wrappers.pop()
            if wrapper.seen == self._seen:
                self._unknown(wrapper.name)
        if self.inside == self.depth:
            self.inside = None
            self.take_references()
            self.end_references()

    def finish(self) -> None:
        """The file has ended, perhaps with a root that is a part of a reference."""
        if self.contexts:
            self._end_within()
            self.end_reference()

    def _start_wrapper(self, local: str, attributes: dict[str, str]) -> None:
        """An element around references begins."""
        kind = kind_of(local)
        for name, value in attributes.items():
            if self.local[name] == "type":
                kind = kind_of(value) or kind
        if kind in OTHER_KINDS:
            self.add(GrowingForm(kind, OWN))
            self._go_within(_PASSED_OVER)
            return
        if kind is None and self._wrappers:
            kind = self._wrappers[-1].kind
        if not self._wrappers:
            self.begun_at = self.parser.CurrentByteIndex
        self._wrappers.append(_Wrapper(self.depth, local, kind, self._seen))

    def _begin_form(self, form: GrowingForm) -> None:
        """The open element has the fields of a reference."""
        self.add(form)
        self._form, self._fields = form, form.own
        self._go_within(REFERENCE)

    def add(self, found: Form | str) -> None:
        """A reference was found, in element form or in binary."""
        self._seen += 1
        if len(self.binaries) + len(self.forms) >= MOST_HELD:
            self.take_references()
        if isinstance(found, Form):
            self.forms.append(found)
        else:
            self.binaries.append(without_blanks(found))

    def _go_within(self, context: Parts) -> None:
        """From now to the end of the open element, its elements are those of a reference."""
        self.contexts.append(context)
        self._texts.clear()
        self.listen(self._texts)
        parser = self.parser
        parser.StartElementHandler, parser.EndElementHandler = self._start_within, self._end_element

    def _start_within(self, name: str, attributes: dict[str, str]) -> None:
        """An element of a reference begins."""
        contexts = self.contexts
        known = contexts[-1].get(self.local[name])
        if known is POINT or known is LAST:
            self._fields = self._form.next_point(known is LAST)
        elif known is None:
            self._unknown(self.local[name])
            known = _PASSED_OVER
        contexts.append(known)
        self._texts.clear()

    def _end_element(self, name: str) -> None:
        """An element of a reference ends, or the one that has all of them."""
        context = self.contexts.pop()
        if type(context) is Field:
            texts, fields, field = self._texts, self._fields, context.name
            text = texts[0] if len(texts) == 1 else "".join(texts)
            if context is BINARY_TEXT:
                self.add(text)
            else:
                fields[field] = _ODD if field in fields else text
        elif context is POINT or context is LAST:
            self._fields = self._form.own
        elif context is _PASSED_OVER:
            self._texts[:] = [_ODD]
        elif context is _BINARIES and not "".join(self._texts).isspace() and self._texts:
            self.add("".join(self._texts))
            self._texts.clear()
        if not self.contexts:
            self._end_within()
            self.end(name)

    def _end_within(self) -> None:
        """The element that has all of a reference ends."""
        self.contexts.clear()
        self.listen(None)
        parser = self.parser
        parser.StartElementHandler, parser.EndElementHandler = self.start, self.end

    def _unknown(self, local: str) -> None:
        """An element isn't read."""
        self.hint(f"<{shown([local])}> in a reference isn't known, and isn't read")
