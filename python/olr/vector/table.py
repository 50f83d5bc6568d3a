"""What the values of fields mean: a road's class, its form, and the directions in which it may be used.

Without a table classes and forms are the numbers 0 to 7, and the usual words for one-way roads are known. A table is a TOML file
with any of the sections `class`, `form` and `oneway`.
"""

import tomllib

import json
from collections.abc import Mapping
from dataclasses import dataclass, field
from pathlib import Path
from typing import Any

from olr.errors import ToolError, readable

OTHERS = "*"
"""The key of a section that stands for all values it doesn't name."""
DIRECTIONS = ("forward", "backward", "both", "closed")
ONE_WAY = {
    "forward": ("f", "ft", "yes", "true", "1"),
    "backward": ("t", "tf", "-1", "reverse"),
    "both": ("", "b", "no", "false", "0"),
    "closed": (),
}
"""The values that are known without a table, in small letters."""

Kinds = Mapping[str, int | None]
"""For each value its class or form; None if roads of that value are left out."""
NUMBERS: Kinds = {str(kind): kind for kind in range(8)}


@dataclass(frozen=True)
class ValueTable:
    """What values mean."""

    classes: Kinds = field(default_factory=lambda: NUMBERS)
    forms: Kinds = field(default_factory=lambda: NUMBERS)
    one_way: Mapping[str, str] = field(
        default_factory=lambda: {value: name for name in DIRECTIONS for value in ONE_WAY[name]}
    )
    """For each value, in small letters, one of `DIRECTIONS`."""

    def direction_of(self, value: str) -> str | None:
        """The direction that a value means; None if the table doesn't say."""
        return self.one_way.get(value.casefold(), self.one_way.get(OTHERS))


def kind_among(kinds: Kinds, value: str) -> tuple[bool, int | None]:
    """Whether a value is known, and what it means."""
    if value in kinds:
        return True, kinds[value]
    return OTHERS in kinds, kinds.get(OTHERS)


def text_of(value: object) -> str:
    """A field's value as a text, as tables name it: no value is empty, and a whole number has no decimal point."""
    if value is None:
        return ""
    if isinstance(value, bool):
        return "true" if value else "false"
    if isinstance(value, float) and value.is_integer():
        return str(int(value))
    return str(value).strip()


def kept_text(value: object) -> str:
    """A field's value as a text that is kept: a text as it is, no value as an empty text, and a number as `text_of` has it, where it
    doesn't need more than 16 digits for that. Lists are JSON, and bytes hexadecimal digits."""
    if isinstance(value, str):
        return value
    if isinstance(value, float) and abs(value) > 2**53:
        return repr(value)
    if isinstance(value, (list, tuple, dict)):
        return json.dumps(value, ensure_ascii=False)
    if isinstance(value, (bytes, bytearray, memoryview)):
        return bytes(value).hex()
    return text_of(value)


def read_value_table(file: Path | None) -> ValueTable:
    """The table in a file, or the one that holds without a file. Raises `ToolError` if it isn't a table."""
    if file is None:
        return ValueTable()
    try:
        with readable(file), file.open("rb") as stream:
            sections = tomllib.load(stream)
    except (tomllib.TOMLDecodeError, UnicodeDecodeError) as error:
        raise ToolError(f"{file} isn't TOML: {error}") from error
    for name, section in sections.items():
        if name not in ("class", "form", "oneway"):
            raise ToolError(f"{file}: there is no section {name}: use class, form and oneway")
        if not isinstance(section, dict):
            raise ToolError(f"{file}: {name} isn't a section: write [{name}] on a line of its own")
    usual = ValueTable()
    return ValueTable(
        classes=_kinds(file, "class", sections) if "class" in sections else usual.classes,
        forms=_kinds(file, "form", sections) if "form" in sections else usual.forms,
        one_way=_one_way(file, sections["oneway"]) if "oneway" in sections else usual.one_way,
    )


def _kinds(file: Path, name: str, sections: Mapping[str, Any]) -> Kinds:
    """The classes or forms of a section. `false` leaves roads of that value out."""
    kinds: dict[str, int | None] = {}
    for value, kind in sections[name].items():
        if kind is False:
            kinds[value] = None
        elif type(kind) is int and 0 <= kind <= 7:
            kinds[value] = kind
        else:
            raise ToolError(
                f'{file}: the {name} of "{value}" is {kind!r}: use a number from 0 to 7, or false to leave such roads out'
            )
    return kinds


def _one_way(file: Path, section: Mapping[str, Any]) -> Mapping[str, str]:
    """The values of the section `oneway`, each with its direction."""
    meanings: dict[str, str] = {}
    for name, values in section.items():
        if name not in DIRECTIONS:
            raise ToolError(f"{file}: oneway has no {name}: use {', '.join(DIRECTIONS)}")
        if not isinstance(values, list):
            raise ToolError(f"{file}: {name} isn't a list of values")
        for value in values:
            key = text_of(value).casefold()
            if meanings.setdefault(key, name) != name:
                raise ToolError(f'{file}: oneway has "{key}" as {meanings[key]} and as {name}')
    return meanings
