"""What the fields of a record say of its road."""

from collections.abc import Mapping, Sequence, Set
from dataclasses import dataclass
from pathlib import Path
from typing import Any

from olr.counts import Counts, ValueCounts, short
from olr.errors import ToolError
from olr.importing.roads import Kind, Source
from olr.model.sources import NAME
from olr.vector.table import NUMBERS, Kinds, ValueTable, kept_text, kind_among, text_of

UNKNOWN_FORM = 0


@dataclass(frozen=True)
class Fields:
    """Which fields of the layer say what. A class or form that is a number from 0 to 7 is that of all roads."""

    road_class: str
    form: str
    one_way: str | None = None
    id: str | None = None
    name: str | None = None
    """By default the field that is called so, if there is one."""
    keep: tuple[str, ...] = ()
    """Those whose values are kept for each line."""


def require_fields(file: Path, properties: Sequence[str], fields: Fields) -> None:
    """Raises `ToolError` if a field isn't there."""
    kinds = [name for name in (fields.road_class, fields.form) if _constant(name) is None]
    for name in (*kinds, fields.one_way, fields.id, fields.name, *fields.keep):
        if name is not None and name not in properties:
            raise ToolError(f"{file} has no field {name}: its fields are {list_of(properties)}")


def list_of(names: Sequence[str]) -> str:
    """Names, joined by commas, cut short where they are many."""
    shown = ", ".join(names[:20])
    return f"{shown} and {len(names) - 20} more" if len(names) > 20 else shown or "none"


def _field_of_names(properties: Sequence[str]) -> str | None:
    """The field that is called `name`, in whatever capitals."""
    return next((name for name in properties if name.casefold() == NAME), None)


def _constant(name: str) -> int | None:
    """The class or form of all roads, if that is what was given in place of a field."""
    return int(name) if name in tuple("01234567") else None


class Meanings:
    """Says what records are, and counts the values that the table doesn't name."""

    def __init__(
        self, fields: Fields, properties: Sequence[str], table: ValueTable, counts: Counts
    ) -> None:
        self._fields, self._table, self._counts = fields, table, counts
        self._properties = set(properties)
        self.name_field = fields.name or _field_of_names(properties)
        """The field that has the names of roads, if one has."""
        self._left_out, self._changed = ValueCounts(), ValueCounts()
        self._classes: set[str] = set()
        """The values of the class that are numbers of one digit."""

    def source_of(self, properties: Mapping[str, Any]) -> Source:
        """What a road is in its file: its own id and its name, or empty texts if no field has them, and the fields that are kept."""
        fields = self._fields
        id = "" if fields.id is None else text_of(properties[fields.id])
        name = "" if self.name_field is None else kept_text(properties[self.name_field])
        return Source(id, name, tuple(kept_text(properties[field]) for field in fields.keep))

    def kind_of(self, properties: Mapping[str, Any]) -> Kind | None:
        """What a record says of its road; None if the road isn't on the map."""
        road_class = self._number(properties, self._fields.road_class, self._table.classes, "class")
        if road_class is None:
            return None
        value = ""
        direction: str | None = "both"
        if self._fields.one_way is not None:
            value = text_of(properties[self._fields.one_way])
            direction = self._table.direction_of(value)
        if direction == "closed":
            self._counts.leave_out("roads that are closed in both directions")
            return None
        form = self._number(properties, self._fields.form, self._table.forms, "form")
        if form is None:
            return None
        if direction is None:
            reason = "roads whose direction isn't known, taken as two-way"
            self._changed.add(reason, _quoted(value))
        return Kind(road_class, form, direction != "backward", direction != "forward")

    def _number(
        self, properties: Mapping[str, Any], name: str, kinds: Kinds, what: str
    ) -> int | None:
        """The class or form of a road; None if the road isn't on the map. A form that isn't known is 0."""
        if name not in self._properties:
            return _constant(name)
        value = text_of(properties[name])
        if what == "class" and len(value) == 1 and value.isdecimal():
            self._classes.add(value)
        known, kind = kind_among(kinds, value)
        if known and kind is None:
            self._counts.leave_out(f"roads that the table leaves out by their {what}")
        if known:
            return kind
        if what == "form":
            reason = f"forms that aren't known, taken as {UNKNOWN_FORM} (unknown)"
            self._changed.add(reason, _quoted(value))
            return UNKNOWN_FORM
        self._left_out.add("roads whose class isn't known", _quoted(value))
        return None

    def count_unnamed(self) -> None:
        """Hands the counted values on, with a hint if classes seem to be counted from 1."""
        self._left_out.hand_on(self._counts.leave_out)
        self._changed.hand_on(self._counts.change)
        if self._table.classes is NUMBERS and _seem_counted_from_1(self._classes):
            least, greatest = min(self._classes), max(self._classes)
            self._counts.hints.append(
                f"field {self._fields.road_class} has classes from {least} to {greatest}, and none is 0: if they are counted "
                "from 1, say so in [class] of a table by --mapping: 1 = 0, 2 = 1, and so on"
            )


def _seem_counted_from_1(classes: Set[str]) -> bool:
    """Whether numbers don't look like classes from 0 to 7: none is 0, and one is 8, or some are 1 and none are local roads."""
    if "0" in classes or len(classes) < 2:
        return False
    return "8" in classes or ("1" in classes and classes.isdisjoint("67"))


def _quoted(value: str) -> str:
    """A value in a reason."""
    return f'"{short(value)}"'
