"""Messages in CSV, with the separator that the header shows."""

import csv
from collections.abc import Iterator
from itertools import chain

from olr.errors import ToolError
from olr.messages.columns import Columns
from olr.messages.message import REF, Message, Reading
from olr.messages.texts import shown

SEPARATORS = {",": "commas", ";": "semicolons", "\t": "tabs", "|": "pipes"}
MOST_CELL = 1 << 24
"""Letters of a cell: geometries in WKT have more than the 131,072 of Python's `csv`."""


def has_column(header: str, column: str) -> bool:
    """Whether a line is a header with such a column, by some separator."""
    return any(column in _cells(header, separator) for separator in SEPARATORS)


def columns_of(header: str) -> list[str]:
    """The columns of a header, by the separator that gives most."""
    return max((_cells(header, separator) for separator in SEPARATORS), key=len)


def messages_of_table(text: Iterator[str], reading: Reading, name: str) -> Iterator[Message]:
    """The messages of a table, rows without any cell left out. It holds one of them at a time.

    `text` has lines with their own ends. Raises `ToolError`, with the `name` of the file, if the columns aren't there
    or a row isn't one of the table.
    """
    blank, header = next(((n, line) for n, line in enumerate(text) if line.strip()), (0, ""))
    if not header:
        return
    csv.field_size_limit(max(csv.field_size_limit(), MOST_CELL))
    ref = reading.ref or REF
    separator = _separator(header, ref, name)
    columns = _cells(header, separator)
    places = Columns.of(columns, reading, name)
    rows = csv.reader(chain([header], text), delimiter=separator, strict=True)
    try:
        next(rows)
        for number, row in enumerate(filter(None, rows), 1):
            if any(row[len(columns) :]):
                place = f"{name}: line {blank + rows.line_num}"
                cells = f"{len(row)} cells, and the header {len(columns)}"
                raise ToolError(f"{place} has {cells}: quote a cell that has the separator in it")
            row += [""] * (len(columns) - len(row))
            yield places.message(number, row)
    except csv.Error as error:
        line = blank + rows.line_num
        found = f"{name}: line {line} isn't understood: {error}"
        raise ToolError(f"{found}: look at the quotes up to there") from error


def _cells(line: str, separator: str) -> list[str]:
    """The cells of a header, without blanks around them."""
    try:
        cells: list[str] = next(csv.reader([line.strip("\r\n")], delimiter=separator), [])
    except csv.Error:
        return []
    return [cell.strip() for cell in cells]


def _separator(header: str, ref: str, name: str) -> str:
    """The separator by which a header has a column. Of a header without any separator it is a comma."""
    found = {tuple(_cells(header, one)): one for one in reversed(SEPARATORS)}
    fit = [separator for cells, separator in found.items() if ref in cells]
    if not fit:
        raise ToolError(
            f"{name} has no column {ref}: name it by --ref: {shown(columns_of(header))}"
        )
    if len(fit) > 1:
        ways = " and by ".join(SEPARATORS[separator] for separator in reversed(fit))
        raise ToolError(f"{name} has a column {ref} by {ways}: name it otherwise, and by --ref")
    return fit[0]
