"""Tables as data. A class names the columns of a table in their order; a column has what it holds, and how it is worked out of the rows
of some hundred answers at once. What it is stands below it, as docs/COLUMNS.md says it too.

The columns of a table are the same whatever is in them. Lengths and positions are in metres, and their names end with `_m`; penalties are
in points.
"""

import ast
import inspect
from collections.abc import Callable, Mapping, Sequence
from types import MappingProxyType
from typing import Any, Generic, NamedTuple, TypeVar

from olr.messages.kinds import MemberKind

Rows = TypeVar("Rows", contravariant=True)
Kind = MemberKind
"""What is in a column: whole numbers, numbers or texts, by the names of fiona. Each row may lack it. Columns of members that are kept may
have booleans too, or lists and objects."""
TYPES: Mapping[Kind, str] = {"int64": "Int64", "float": "float64", "str": "object"}
"""The types of columns in a table of pandas, which has no members. A text that isn't there is None, a number that isn't there NaN."""


class Column(NamedTuple, Generic[Rows]):
    """A column of a table."""

    kind: Kind
    values: Callable[[Rows], Sequence[Any]]
    """Gives the value of each row; None where it has none."""


Columns = Mapping[str, Column[Rows]]
NO_COLUMNS: Columns[Any] = MappingProxyType({})


def columns_of(table: type) -> dict[str, Column[Any]]:
    """The columns that a class names."""
    return {name: it for name, it in vars(table).items() if isinstance(it, Column)}


def sentences_of(table: type) -> dict[str, str]:
    """What stands below each column in a class that names them."""
    (made,) = ast.parse(inspect.getsource(table)).body
    assert isinstance(made, ast.ClassDef)
    sentences = {}
    for column, below in zip(made.body, made.body[1:]):
        if isinstance(column, ast.Assign) and isinstance(below, ast.Expr):
            name, text = column.targets[0], ast.literal_eval(below.value)
            assert isinstance(name, ast.Name)
            sentences[name.id] = " ".join(text.split())
    return sentences


def values_of(columns: Columns[Rows], rows: Rows) -> dict[str, Sequence[Any]]:
    """The values of columns."""
    return {name: column.values(rows) for name, column in columns.items()}
