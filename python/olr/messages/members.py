"""Records of JSON as messages, with members by their paths."""

import json
from collections.abc import Iterator, Mapping, Sequence
from decimal import Decimal
from functools import partial
from typing import Any, NamedTuple

from olr.errors import ToolError
from olr.messages.first import with_one
from olr.messages.message import ALL, KEY, NOTHING_KEPT, Message, Reading
from olr.messages.paths import PROPERTIES, Path, is_feature, member_of, without
from olr.messages.texts import one_line


_LACKING = object()
"""In place of a member that a record hasn't."""


class Element(NamedTuple):
    """A value that is a record, and its number: of its line or of the element."""

    number: int
    value: Any


def messages_of_elements(
    elements: Iterator[Element], path: Path, reading: Reading, place: str
) -> Iterator[Message]:
    """Messages of elements, whose errors begin with `place`. Raises `ToolError` if none of the first ones has a reference, or another
    member that was asked for, and for an element that is no object."""
    members = _Members(path, reading)
    if path.member:
        elements = map(partial(_object, place), elements)
    for option, name in members.wanted():
        elements = _with_member(elements, name, option, place)
    more = 0
    for number, value in elements:
        try:
            references, key, kept = (
                members.references(value),
                members.key(value),
                members.kept(value),
            )
        except UnicodeEncodeError as error:
            raise ToolError(f"{place} {number} has half a character: {error.reason}") from error
        except RecursionError as error:
            raise ToolError(f"{place} {number} has too many values within each other") from error
        for at, reference in enumerate(references, number + more):
            yield Message(at, key, reference, None, kept)
        more += len(references) - 1


class _Members:
    """What is read of a record."""

    def __init__(self, path: Path, reading: Reading) -> None:
        self._reference = path.member
        self._is_key_named = reading.key is not None
        self._key = path.within(reading.key or KEY)
        self._kept = {name: path.within(name) for name in reading.keep}
        self._keeps_all = reading.keep == ALL

    def wanted(self) -> Iterator[tuple[str, str]]:
        """The members that have to be there, with the options that name them."""
        if self._reference:
            yield "ref", self._reference
        if self._is_key_named:
            yield "key", self._key

    def references(self, value: Any) -> list[str]:
        """The references of a record, an empty one where there is none. Raises as `_text` does."""
        found = member_of(value, self._reference)
        is_list = isinstance(found, list) and all(isinstance(one, str) for one in found)
        return [one_line(_text(one) or "") for one in (found if is_list else [found])] or [""]

    def key(self, value: Any) -> str | None:
        """The key of a record. A feature of GeoJSON may have it as `id`. Raises as `_text` does."""
        found = member_of(value, self._key)
        if found is None and not self._is_key_named and is_feature(value):
            found = value.get("id")
        return _text(found)

    def kept(self, value: Any) -> Mapping[str, Any]:
        """What is kept of a record, without the members that it hasn't. Raises as `_text` does."""
        if not self._kept:
            return NOTHING_KEPT
        found = {name: member_of(value, path, _LACKING) for name, path in self._kept.items()}
        if self._keeps_all:
            found = self._others(value)
        kept = {name: _plain(one) for name, one in found.items() if one is not _LACKING}
        json.dumps(kept, ensure_ascii=False).encode()
        return kept

    def _others(self, value: Any) -> dict[str, Any]:
        """The members of a record, or the properties of a feature, without the reference and the key."""
        found = value.get(PROPERTIES) if is_feature(value) else value
        members: dict[str, Any] = found if isinstance(found, dict) else {}
        inner = f"{PROPERTIES}." if is_feature(value) else ""
        for path in (self._reference, self._key):
            members = without(members, path.removeprefix(inner))
        return members


def _object(place: str, element: Element) -> Element:
    """An element, if it is an object. Raises `ToolError`."""
    if not isinstance(element.value, dict):
        members = '{"key":..,"ref":..}'
        raise ToolError(f"{place} {element.number} is no object with members, as {members}")
    return element


def _with_member(
    elements: Iterator[Element], path: str, option: str, place: str
) -> Iterator[Element]:
    """Elements, if one of the first ones has a member."""

    def refusal(held: Sequence[Element]) -> ToolError:
        return ToolError(f"{place} {held[0].number} has no member {path}: name it by --{option}")

    return with_one(elements, lambda one: member_of(one.value, path) is not None, refusal)


def _plain(value: Any) -> Any:
    """A value with numbers as `json` reads them."""
    if isinstance(value, Decimal):
        return float(value)
    if isinstance(value, list):
        return [_plain(one) for one in value]
    return {name: _plain(one) for name, one in value.items()} if isinstance(value, dict) else value


def _text(value: Any) -> str | None:
    """A value as a text: what is none has that of its JSON. Raises `UnicodeEncodeError` for half a surrogate pair, and `RecursionError`."""
    if value is None:
        return None
    text = value if isinstance(value, str) else json.dumps(_plain(value), ensure_ascii=False)
    text.encode()
    return text
