"""Paths to members of JSON: names with dots between them, and `[]` behind the name of an array, whose elements are meant."""

from collections.abc import Iterator, Mapping
from typing import Any, NamedTuple

EACH = "[]"
FEATURE, PROPERTIES = "Feature", "properties"


class Path(NamedTuple):
    """Where references are."""

    elements: str
    """The records: up to the last `[]`. Empty for each document, and for the elements of one that is an array."""
    member: str
    """The member of a record; empty for a record that is a reference, or a list of some."""

    @classmethod
    def of(cls, text: str) -> "Path":
        """What a text says. The `[]` of a list of references at its end needn't be there."""
        if text.endswith(EACH) and EACH in text[: -len(EACH)]:
            text = text[: -len(EACH)]
        before, each, behind = text.rpartition(EACH)
        return cls(before + each, behind.removeprefix("."))

    def within(self, path: str) -> str:
        """A path relative to a record, of one that may be relative to the document."""
        return path.removeprefix(f"{self.elements}.") if self.elements else path


def elements_in(document: Any, elements: str) -> Iterator[Any]:
    """The values of a document at the first part of a path."""
    name, each, behind = elements.partition(EACH)
    found = member_of(document, name.removeprefix(".")) if each else document
    if not each:
        yield found
    elif isinstance(found, list):
        for one in found:
            yield from elements_in(one, behind)


def member_of(value: Any, path: str, lacking: Any = None) -> Any:
    """The member of that name, or else the one at the end of a path of names with dots between them, of a GeoJSON feature also that of its
    properties; the value itself without a path. Where there is none it is what stands for it: None.
    """
    if not path:
        return value
    found = _member(value, path, lacking)
    if (found is None or found is lacking) and is_feature(value):
        return _member(value.get(PROPERTIES), path, lacking)
    return found


def is_feature(value: Any) -> bool:
    """Whether a value is a feature of GeoJSON."""
    return isinstance(value, dict) and value.get("type") == FEATURE


def without(members: Mapping[str, Any], path: str) -> dict[str, Any]:
    """Members without the one of a path."""
    name, dot, behind = path.partition(".")
    if path in members or not dot:
        return {other: value for other, value in members.items() if other != path}
    within = members.get(name)
    if not isinstance(within, dict):
        return dict(members)
    return {**members, name: without(within, behind)}


def _member(value: Any, path: str, lacking: Any) -> Any:
    if isinstance(value, dict) and path in value:
        return value[path]
    for name in path.split("."):
        value = value.get(name, lacking) if isinstance(value, dict) else lacking
    return value
