"""What members of records have that are kept: the kind of each, which is found before anything is written, and its values by that kind."""

import json
import math
from collections.abc import Mapping
from typing import Any, Literal

from olr.errors import ToolError
from olr.messages.message import ALL, Reading
from olr.messages.texts import shown

MemberKind = Literal["int64", "float", "str", "bool", "json"]
"""Whole numbers, numbers, texts, booleans, or lists and objects."""
MOST_NAMES = 500
"""Different members of a file."""
MOST_LETTERS = 1000
"""Of a name."""
MOST_DEPTH = 200
"""Lists and objects within each other."""
_EXACT, _WHOLE = 1 << 53, 1 << 63
"""Whole numbers up to the first one are exact as numbers; from the second one on they are kept as texts."""
_Type = Literal["whole", "long", "number", "text", "boolean", "nested"]


class Kinds:
    """Gathers the kinds of members, record by record. It holds their names, and none of their values."""

    def __init__(self, reading: Reading, name: str) -> None:
        """Of a file, whose `name` errors have."""
        self._name = name
        self._asked = () if reading.keep == ALL else reading.keep
        self._found: dict[str, set[_Type]] = {member: set() for member in self._asked}
        self._lacking = set(self._asked)

    def add(self, kept: Mapping[str, Any]) -> None:
        """Adds what is kept of a record. Raises `ToolError` for more names than a table takes, and for too many values within each
        other."""
        if self._lacking:
            self._lacking -= kept.keys()
        for member, value in kept.items():
            if member not in self._found:
                self._require_name(member)
                self._found[member] = set()
            found = _type_of(value)
            if found == "nested" and _depth_of(value) > MOST_DEPTH:
                many = f"more than {MOST_DEPTH} lists and objects within each other"
                raise ToolError(f"{self._name} has in {shown([member])} {many}")
            if found is not None:
                self._found[member].add(found)

    def require_all(self) -> None:
        """Raises `ToolError` if no record has a member that was asked for."""
        for member in self._asked:
            if member in self._lacking:
                raise ToolError(
                    f"{self._name} has no {shown([member])} in any record: name another by --keep"
                )

    def found(self) -> dict[str, MemberKind]:
        """The kind of each member: in the order in which they were asked for, or else were found."""
        return {member: _kind_of(types) for member, types in self._found.items()}

    def _require_name(self, member: str) -> None:
        """Raises `ToolError` if there is no room for another name."""
        if len(self._found) >= MOST_NAMES:
            many = f"{self._name} has more than {MOST_NAMES} members to keep"
            raise ToolError(f"{many}: name those that you need, each by --keep")
        if len(member) > MOST_LETTERS:
            raise ToolError(
                f"{self._name} has a member with a name of {len(member):,} letters, {shown([member])}: "
                "name those that you need, each by --keep"
            )


def value_as(value: Any, kind: MemberKind) -> Any:
    """A value as all those of its member are; None where it is nothing, or a number that isn't finite. Raises `ToolError` for one of
    another kind."""
    found = _type_of(value)
    if found is None or kind == "str" and isinstance(value, str):
        return value if found else None
    if found == "nested" and _depth_of(value) > MOST_DEPTH:
        raise _changed()
    if kind == "str":
        return json_text(value)
    if kind == "float" and found == "whole":
        return float(value)
    if _kind_of({found}) != kind:
        raise _changed()
    return _finite(value) if found == "nested" else value


def json_text(value: Any) -> str:
    """A value as the text of its JSON."""
    return json.dumps(_finite(value), ensure_ascii=False, separators=(",", ":"))


def _changed() -> ToolError:
    """The error of a value that wasn't there when the file was looked through."""
    return ToolError("a member that is kept is no more what it was: the file changed meanwhile")


def _kind_of(types: set[_Type]) -> MemberKind:
    """The kind of values of some types: those that differ are texts. Without any value they are too."""
    if not types:
        return "str"
    if types <= {"whole", "long"}:
        return "int64"
    if types <= {"whole", "number"}:
        return "float"
    return "bool" if types == {"boolean"} else "json" if types == {"nested"} else "str"


def _type_of(value: Any) -> _Type | None:
    """The type of a value; None where it is nothing, or no finite number."""
    if value is None or isinstance(value, str):
        return None if value is None else "text"
    if isinstance(value, bool):
        return "boolean"
    if isinstance(value, int):
        return "whole" if abs(value) <= _EXACT else "long" if -_WHOLE <= value < _WHOLE else "text"
    if isinstance(value, float):
        return "number" if math.isfinite(value) else None
    return "nested"


def _depth_of(value: Any) -> int:
    """How many lists and objects are within each other at most; one more than there may be where there are more."""
    depth, level = 0, [value]
    while depth <= MOST_DEPTH and (
        level := [one for one in level if isinstance(one, (list, dict))]
    ):
        depth += 1
        level = [it for one in level for it in (one.values() if isinstance(one, dict) else one)]
    return depth


def _finite(value: Any) -> Any:
    """A value with nothing in place of numbers that aren't finite, which JSON doesn't have."""
    if isinstance(value, dict):
        return {name: _finite(one) for name, one in value.items()}
    if isinstance(value, list):
        return [_finite(one) for one in value]
    return None if isinstance(value, float) and not math.isfinite(value) else value
