"""Members of records that are kept, as columns behind those of a table."""

from collections.abc import Collection, Mapping, Sequence
from functools import partial
from typing import Any

from olr.matching.columns import IN_FRONT
from olr.matching.tables import Column, Columns
from olr.messages.kinds import MemberKind, json_text, value_as
from olr.messages.message import Message

OTHERS = ("fid", "geom", "geometry", "ogc_fid", "rowid", "oid", "_rowid_")
"""Names of columns that files of rows have beside ours."""
PREFIX = "kept_"
"""Stands before a name that a column of ours has."""


def kept_name(name: str, ours: Collection[str], taken: set[str]) -> str:
    """The name of a column that is kept: with `kept_` in front if it is one of ours, and with a number at its end as long as it is taken. Both
    are compared in whatever case, and have names in that of `str.casefold`. It is taken from then on.
    """
    first = PREFIX + name if name.casefold() in ours else name
    found, number = first, 1
    while found.casefold() in taken:
        number += 1
        found = f"{first}_{number}"
    taken.add(found.casefold())
    return found


def kept_columns(
    kinds: Mapping[str, MemberKind], columns: Columns[Any]
) -> dict[str, Column[Sequence[Message]]]:
    """A column for each member, behind these columns of a table. Letters that aren't printed are blanks in its name. A name that a column
    of ours has, in whatever case, or an empty one, gets `kept_` in front; of names that are the same then, the second one gets `_2` at its
    end, and so on."""
    ours = {name.casefold() for name in (*IN_FRONT, *columns, *OTHERS, "")}
    taken, found = set(ours), {}
    for member, kind in kinds.items():
        plain = "".join(letter if letter.isprintable() else " " for letter in member).strip()
        found[kept_name(plain, ours, taken)] = Column(kind, partial(_values, member, kind))
    return found


def as_texts(column: Column[Sequence[Message]]) -> Column[Sequence[Message]]:
    """The column with its values as texts of JSON."""
    return column._replace(values=lambda messages: list(map(_text, column.values(messages))))


def _values(member: str, kind: MemberKind, messages: Sequence[Message]) -> list[Any]:
    """The member of each message. Raises `ToolError` for one of another kind."""
    return [value_as(one.kept.get(member), kind) for one in messages]


def _text(value: Any) -> str | None:
    return None if value is None else json_text(value)
