"""What the tags of ways and turn restrictions mean, by a table in a TOML file."""

import tomllib

from collections.abc import Iterable, Mapping
from dataclasses import dataclass
from importlib.resources import files
from pathlib import Path
from typing import Any, NamedTuple

from olr.counts import short
from olr.errors import ToolError, readable
from olr.importing.roads import Kind
from olr.model.road_map import Direction

Tags = Mapping[str, str]
NOT_KNOWN = "values of oneway that aren't known, taken as if they weren't there"
FLAGS = ("one_way", "service")
"""Fields of a row that are true or false. The others are classes and forms."""


class OnMap(NamedTuple):
    """A way is a road of the map."""

    kind: Kind
    doubt: str
    """Something in its tags that was decided without knowing, as a reason for the counts, or an empty text."""


class NoRoad(NamedTuple):
    """A way isn't on a map, for a reason in the plural."""

    reason: str
    value: str = ""
    """The tag that says so, where a reason is counted by tags."""


@dataclass(frozen=True)
class Highway:
    """A value of `highway`."""

    road_class: int
    form: int
    one_way_form: int | None = None
    one_way: bool = False
    service: bool = False


@dataclass(frozen=True)
class Reshaped:
    """A value of another key that gives a way a form, and perhaps one direction."""

    form: int
    one_way: bool = False


@dataclass(frozen=True)
class TagTable:
    """The table of tags. The names are those of the file. Its values are in small letters, as those of `value_of`."""

    highways: Mapping[str, Highway]
    junctions: Mapping[str, Reshaped]
    dual_carriageways: Mapping[str, Reshaped]
    access_keys: tuple[str, ...]
    closed: frozenset[str]
    closed_highways: frozenset[str]
    one_way_keys: tuple[str, ...]
    one_way: Mapping[str, str]
    """Each known value, with `forward`, `backward`, `both` or `changing`."""
    restriction_keys: tuple[str, ...]
    excepted: frozenset[str]

    def meaning_of(self, tags: Tags, service: bool) -> OnMap | NoRoad:
        """What a way with these tags is. `service`: whether service roads are on the map."""
        value = value_of(tags, "highway")
        highway = self.highways.get(value)
        if highway is None:
            return NoRoad("ways that are not roads", f"highway={short(value)}")
        if value_of(tags, "area") == "yes":
            return NoRoad("areas")
        junction = self.junctions.get(value_of(tags, "junction"))
        forward, backward, doubt = self._open_directions(tags, highway, junction)
        if not forward and not backward:
            return NoRoad("ways that are closed to motor vehicles")
        if highway.service and not service:
            return NoRoad("service roads (--service takes them in)")
        form = self._form(tags, highway, junction, one_way=forward != backward)
        return OnMap(Kind(highway.road_class, form, forward, backward), doubt)

    def usable_directions(self, tags: Tags) -> tuple[bool, bool]:
        """Whether motor vehicles may use a way with these tags forward and backward, on the map or not."""
        value = value_of(tags, "highway")
        highway = self.highways.get(value)
        closed = highway is None and value in self.closed_highways
        if not value or closed or value_of(tags, "area") == "yes":
            return False, False
        junction = self.junctions.get(value_of(tags, "junction"))
        forward, backward, _ = self._open_directions(tags, highway, junction)
        return forward, backward

    def _open_directions(
        self, tags: Tags, highway: Highway | None, junction: Reshaped | None
    ) -> tuple[bool, bool, str]:
        """Whether a way may be used forward and backward, as all its tags say, and what is in doubt."""
        forward, backward, doubt = self._directions(tags, highway, junction)
        forward = forward and self._is_open(tags, "forward")
        backward = backward and self._is_open(tags, "backward")
        return forward, backward, doubt

    def _directions(
        self, tags: Tags, highway: Highway | None, junction: Reshaped | None
    ) -> tuple[bool, bool, str]:
        """Whether a way may be used forward and backward, as its tags for one-way roads say, and what is in doubt."""
        implied = any(kind is not None and kind.one_way for kind in (highway, junction))
        value = first_of(tags, self.one_way_keys)
        if value is None:
            return True, not implied, ""
        meaning = self.one_way.get(value)
        if meaning == "changing":
            return True, True, "one-way roads whose direction changes, taken as two-way"
        if meaning is None:
            return True, not implied, NOT_KNOWN
        return meaning != "backward", meaning != "forward", ""

    def _is_open(self, tags: Tags, direction: Direction) -> bool:
        """Whether motor vehicles may use a way in a direction. Of several values the most open one counts."""
        keys = (name for key in self.access_keys for name in (f"{key}:{direction}", key))
        values = several(first_of(tags, keys) or "")
        return not values or not self.closed.issuperset(values)

    def _form(self, tags: Tags, highway: Highway, junction: Reshaped | None, one_way: bool) -> int:
        """The form of a way."""
        if junction is not None:
            return junction.form
        dual = self.dual_carriageways.get(value_of(tags, "dual_carriageway"))
        if dual is not None and highway.one_way_form is not None:
            return dual.form
        if one_way and highway.one_way_form is not None:
            return highway.one_way_form
        return highway.form


def value_of(tags: Tags, key: str) -> str:
    """The value of a key, in small letters and without spaces around it; an empty text if the tags don't have it."""
    return folded(tags.get(key, ""))


def first_of(tags: Tags, keys: Iterable[str]) -> str | None:
    """The value of the first key that the tags have, as `value_of` gives it."""
    return next((value_of(tags, key) for key in keys if key in tags), None)


def several(value: str) -> list[str]:
    """The values of a list, such as destination;no."""
    return [part for part in map(str.strip, value.split(";")) if part]


def folded(text: str) -> str:
    """A value as it is compared: mappers also write Yes, or a space behind a value."""
    return text.strip().casefold()


def read_tag_table(file: Path | None = None) -> TagTable:
    """Reads a table of tags, by default the one of this package. Raises `ToolError` if the file isn't such a table."""
    source = files(__package__).joinpath("tags.toml") if file is None else file
    try:
        with readable(source):
            text = source.read_text(encoding="utf-8")
        return _table_of(tomllib.loads(text))
    except (ValueError, TypeError, KeyError) as error:
        words = f"it lacks {error}" if isinstance(error, KeyError) else str(error)
        raise ToolError(f"{source} is no table of tags: {words}") from error


def _table_of(table: Mapping[str, Any]) -> TagTable:
    """The table of tags in a TOML document. Raises `ValueError`, `TypeError` or `KeyError`."""
    known = {"highway", "junction", "dual_carriageway", "access", "one_way", "restriction"}
    for name in table:
        if name not in known:
            raise ValueError(f"[{name}] isn't known")
    one_way = {
        folded(value): meaning
        for meaning in ("forward", "backward", "both", "changing")
        for value in _texts(table, "one_way", meaning)
    }
    return TagTable(
        highways={folded(name): _highway(name, row) for name, row in table["highway"].items()},
        junctions={folded(name): _reshaped(name, row) for name, row in table["junction"].items()},
        dual_carriageways={
            folded(name): _reshaped(name, row) for name, row in table["dual_carriageway"].items()
        },
        access_keys=_texts(table, "access", "keys"),
        closed=frozenset(map(folded, _texts(table, "access", "closed"))),
        closed_highways=frozenset(map(folded, _texts(table, "access", "closed_highways"))),
        one_way_keys=_texts(table, "one_way", "keys"),
        one_way=one_way,
        restriction_keys=_texts(table, "restriction", "keys"),
        excepted=frozenset(map(folded, _texts(table, "restriction", "excepted"))),
    )


def _texts(table: Mapping[str, Any], section: str, key: str) -> tuple[str, ...]:
    """A list of texts of the table."""
    values = table[section][key]
    if not isinstance(values, list) or not all(isinstance(value, str) for value in values):
        raise ValueError(f"[{section}] {key} isn't a list of texts")
    return tuple(values)


def _highway(name: str, row: Mapping[str, Any]) -> Highway:
    """A row of [highway]."""
    _require_row(name, row, "class", "form", "one_way_form", *FLAGS)
    flags = (row.get(field, False) for field in FLAGS)
    return Highway(row["class"], row["form"], row.get("one_way_form"), *flags)


def _reshaped(name: str, row: Mapping[str, Any]) -> Reshaped:
    """A row of [junction] or [dual_carriageway]."""
    _require_row(name, row, "form", "one_way")
    return Reshaped(row["form"], row.get("one_way", False))


def _require_row(name: str, row: Mapping[str, Any], *known: str) -> None:
    """Raises `ValueError` if a row has a field that isn't known, lacks its class or form, or has another value than its fields may have."""
    if not isinstance(row, dict):
        raise ValueError(f"{name} isn't a row such as {{ class = 3, form = 3 }}")
    for field in sorted(set(row).difference(known)):
        raise ValueError(f"{name} has a field {field} that isn't known")
    for field in sorted({"class", "form"}.intersection(known).difference(row)):
        raise ValueError(f"{name} lacks the field {field}")
    for field in filter(row.__contains__, known):
        value = row[field]
        if field in FLAGS and not isinstance(value, bool):
            raise ValueError(f"{name} has {value!r} in place of true or false")
        if field not in FLAGS and (type(value) is not int or not 0 <= value <= 7):
            raise ValueError(f"{name} has {value!r} in place of a number from 0 to 7")
