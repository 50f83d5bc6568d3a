"""Rows of tables as messages: which of the columns has what."""

from collections.abc import Iterator, Mapping, Sequence
from typing import Any, NamedTuple

from olr.errors import ToolError
from olr.messages.message import ALL, KEY, REF, Message, Reading
from olr.messages.texts import one_line, shown


class Columns(NamedTuple):
    """Where rows have what is read of them."""

    reference: int
    key: int | None
    kept: Mapping[str, int]

    @classmethod
    def of(cls, columns: Sequence[str], reading: Reading, name: str) -> "Columns":
        """Those of a header, as it was said. Raises `ToolError`, with the `name` of the file, for what isn't there or is there twice."""
        reference = place_of(columns, reading.ref or REF, "ref", name)
        named = reading.key or KEY
        is_there = reading.key is not None or named in columns
        key = place_of(columns, named, "key", name) if is_there else None
        names = reading.keep
        if names == ALL:
            names = tuple(c for at, c in enumerate(columns) if c and at not in (reference, key))
        kept = {column: place_of(columns, column, "keep", name) for column in names}
        return cls(reference, key, kept)

    def message(self, number: int, row: Sequence[Any]) -> Message:
        """The message of a row."""
        key = None if self.key is None else row[self.key]
        reference = row[self.reference]
        return Message(
            number,
            None if key is None else str(key),
            "" if reference is None else one_line(str(reference)),
            None,
            {column: _value(row[at]) for column, at in self.kept.items()},
        )


def place_of(columns: Sequence[str], column: str, option: str, name: str) -> int:
    """Where a column is. Raises `ToolError` if there is none, or several."""
    count = columns.count(column)
    if count == 1:
        return columns.index(column)
    how = "no column" if count == 0 else f"{count} columns"
    raise ToolError(f"{name} has {how} {column}: name one by --{option}: {shown(columns)}")


def table_with(tables: Mapping[str, Sequence[str]], what: str, reading: Reading, name: str) -> str:
    """The only one of some tables with their columns that has the column of references. Raises `ToolError`; `what` the tables are."""
    ref = reading.ref or REF
    found = [table for table, columns in tables.items() if ref in columns]
    if len(found) == 1:
        return found[0]
    if found:
        raise ToolError(f"{name} has {len(found)} {what} with a column {ref}: {shown(found)}")
    columns = (f"{column} ({table})" for table in tables for column in tables[table])
    raise ToolError(f"{name} has no column {ref}: name it by --ref: {shown(columns)}")


def numbered(rows: Iterator[Sequence[Any]], columns: Columns) -> Iterator[Message]:
    """The messages of rows."""
    for number, row in enumerate(rows, 1):
        yield columns.message(number, row)


def _value(value: Any) -> Any:
    """A value of a cell, as JSON has some: a time as its text in ISO 8601, bytes as hexadecimal digits, and others as their texts."""
    if value is None or isinstance(value, (str, int, float, list, dict)):
        return value
    if hasattr(value, "isoformat"):
        return value.isoformat()
    return value.hex() if isinstance(value, bytes) else str(value)
