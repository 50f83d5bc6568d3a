"""What is kept of messages, as cells of tables of pages."""

from collections.abc import Sequence
from typing import Any

from olr.matching.kept_columns import as_texts
from olr.matching.tables import Columns
from olr.messages.message import Message

MOST_LETTERS = 500
"""Of a cell: of a longer text the first ones are shown."""


def cells_of(message: Message, kept: Columns[Sequence[Message]]) -> list[Any]:
    """A cell for each column, a number or a text; None where there is nothing."""
    cells = []
    for column in kept.values():
        are_texts = column.kind in ("bool", "json")
        (value,) = (as_texts(column) if are_texts else column).values([message])
        is_long = isinstance(value, str) and len(value) > MOST_LETTERS
        cells.append(f"{value[:MOST_LETTERS]}.." if is_long else value)
    return cells
