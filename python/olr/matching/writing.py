"""Tables of answers as files, written whole or not at all, some hundred rows at a time."""

import shutil
from collections.abc import Iterable, Iterator, Mapping, Sequence
from contextlib import contextmanager
from pathlib import Path
from typing import Any, Literal, NamedTuple, Protocol

from olr.content import Stamp
from olr.errors import ToolError
from olr.geometry.parts import Polylines
from olr.matching.columns import IN_FRONT
from olr.matching.geopackage import make, opened, require_closed
from olr.matching.kept_columns import as_texts, kept_columns
from olr.matching.rows import Rows
from olr.matching.tables import NO_COLUMNS, Columns, Kind, values_of
from olr.matching.texts import geojson, table
from olr.messages.kinds import MemberKind
from olr.messages.message import Message
from olr.outputs import require_free_file, whole_file

Suffix = Literal[".gpkg", ".geojson", ".csv"]
SUFFIXES: Mapping[str, Suffix] = {
    ".gpkg": ".gpkg",
    ".geojson": ".geojson",
    ".json": ".geojson",
    ".csv": ".csv",
}
AS_TEXTS: Mapping[Suffix, tuple[Kind, ...]] = {
    ".gpkg": ("json",),
    ".geojson": (),
    ".csv": ("json", "bool"),
}
"""What stands as a text of JSON in which files."""
Where = Literal["new", "force", "append"]
"""Where rows go: into a file that isn't there yet, in place of one that is, or behind its rows."""


class Output(NamedTuple):
    """A file of rows."""

    file: Path
    layer: str
    """What a GeoPackage and GeoJSON call the rows."""
    columns: Columns[Any]
    """Behind `record` and `key`."""
    kept: Columns[Sequence[Message]] = NO_COLUMNS
    """Members of records, behind these."""

    def keeping(self, kinds: Mapping[str, MemberKind]) -> "Output":
        """The same with a column for each of these members."""
        return self._replace(kept=kept_columns(kinds, self.columns))


class Table(Protocol):
    """A file that takes rows."""

    def add(self, values: Mapping[str, Sequence[Any]], shapes: Polylines) -> None:
        """Adds rows: their columns, and the geometry of each."""


class Sink:
    """What takes rows, and counts them."""

    def __init__(self, table: Table, kept: Columns[Sequence[Message]]) -> None:
        self._table, self._kept = table, kept
        self.rows = 0

    def add(self, messages: Sequence[Message], rows: Rows) -> None:
        """Adds rows of the answers to messages, with the record, the key and what is kept of each. Raises `OSError` and `sqlite3.Error`,
        and `ToolError` for what is of another kind than its column."""
        of_rows = [messages[number] for number in rows.answers]
        front, behind = values_of(IN_FRONT, of_rows), values_of(self._kept, of_rows)
        self._table.add({**front, **rows.values, **behind}, rows.shapes)
        self.rows += len(rows.answers)


def require_writable(file: Path, where: Where, inputs: Iterable[Path] = ()) -> Suffix:
    """The kind of a file to write. Raises `ToolError` if its suffix names none, the file isn't free, as `require_free_file` says, or rows
    can't be added to it."""
    suffix = SUFFIXES.get(file.suffix.lower())
    if suffix is None:
        raise ToolError(f"{file} has no suffix that is known: name a file .gpkg, .geojson or .csv")
    require_free_file(file, where != "new", inputs)
    if where == "append":
        if suffix == ".geojson":
            raise ToolError(
                f"{file} is GeoJSON, to which rows can't be added: name a file .gpkg or .csv"
            )
        require_closed(file)
    return suffix


def has_geometries(file: Path) -> bool:
    """Whether a file to write has room for geometries."""
    return file.suffix.lower() != ".csv"


@contextmanager
def writing_rows(output: Output, where: Where, inputs: Iterable[Path] = ()) -> Iterator[Sink]:
    """Gives what takes the rows of a file. At the end of the `with` statement the file is there with all of them; if that fails, it is as
    it was. With `append` the rows that are there come first; a file that isn't there is made.

    Raises `ToolError` if the file can't be written, or has other columns than the rows.
    """
    others = list(inputs)
    suffix = require_writable(output.file, where, others)
    columns = {**IN_FRONT, **output.columns, **output.kept}
    kept = {
        name: as_texts(column) if column.kind in AS_TEXTS[suffix] else column
        for name, column in output.kept.items()
    }
    is_new = where != "append" or not output.file.exists()
    before = None if is_new else Stamp.of(output.file)
    with whole_file(output.file, where != "new", others) as made:
        if not is_new:
            shutil.copyfile(output.file, made)
        if suffix == ".gpkg":
            if is_new:
                make(made, output.layer, columns)
            with opened(made, output.layer, columns, output.file) as layer:
                yield Sink(layer, kept)
        elif suffix == ".csv":
            with table(made, columns, is_new, output.file) as rows:
                yield Sink(rows, kept)
        else:
            with geojson(made, output.layer) as features:
                yield Sink(features, kept)
        if before is not None and Stamp.of(output.file) != before:
            raise ToolError(f"{output.file} was changed while rows were added to it: append again")
