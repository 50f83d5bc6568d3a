"""Messages in workbooks of spreadsheets (xlsx), by `openpyxl`."""

import warnings
import zipfile
from collections.abc import Iterator, Sequence
from pathlib import Path
from typing import Any

from olr.errors import ToolError
from olr.extras import needed_by
from olr.messages.columns import Columns, numbered, table_with
from olr.messages.message import Message, Reading
from olr.messages.packed import LEAST_REFUSED, MOST_TIMES


def messages_of_sheets(file: Path, reading: Reading, name: str) -> Iterator[Message]:
    """The messages of the sheet whose first row has the column of references, rows without any cell left out. It holds one of them at a
    time, and each different text of the workbook. Raises `OSError`, and `ToolError`, with the `name` of the file.
    """
    with needed_by(name, "feeds"):
        import openpyxl
    with file.open("rb") as stream:
        try:
            _require_size(stream, name)
            with warnings.catch_warnings():
                warnings.simplefilter("ignore")
                workbook = openpyxl.load_workbook(stream, read_only=True, data_only=True)
            sheets = {sheet.title: sheet for sheet in workbook.worksheets}
            headers = {title: _header(sheet) for title, sheet in sheets.items()}
        except ToolError:
            raise
        except Exception as error:
            raise _damaged(name, error) from error
        title = table_with(headers, "sheets", reading, name)
        columns = Columns.of(headers[title], reading, name)
        yield from numbered(_rows(sheets[title], len(headers[title]), name), columns)


def _require_size(stream: Any, name: str) -> None:
    """Raises `ToolError` for a workbook that is made to fill the memory."""
    with zipfile.ZipFile(stream) as archive:
        files = archive.infolist()
    unpacked = sum(one.file_size for one in files)
    if unpacked > max(LEAST_REFUSED, MOST_TIMES * sum(one.compress_size for one in files)):
        raise ToolError(
            f"{name} becomes {unpacked >> 20:,} MiB when it is unpacked: write it as CSV"
        )


def _header(sheet: Any) -> list[str]:
    """The first row of a sheet that isn't empty, as texts."""
    row = next(_cells(sheet), ())
    return ["" if cell is None else str(cell).strip() for cell in row]


def _rows(sheet: Any, width: int, name: str) -> Iterator[Sequence[Any]]:
    """The rows behind the header. Raises `ToolError` where the workbook is damaged."""
    rows = _cells(sheet)
    try:
        next(rows)
        for row in rows:
            yield [*row, *[None] * (width - len(row))]
    except Exception as error:
        raise _damaged(name, error) from error


def _cells(sheet: Any) -> Iterator[Sequence[Any]]:
    """The rows of a sheet with something in them. How large it says that it is doesn't count: some programs write that wrong."""
    sheet.reset_dimensions()
    return (row for row in sheet.iter_rows(values_only=True) if any(map(_is_there, row)))


def _is_there(cell: Any) -> bool:
    return cell is not None and bool(str(cell).strip())


def _damaged(name: str, error: Exception) -> ToolError:
    """The error of a workbook at which `openpyxl` fails, which it does by errors of any kind."""
    why = " ".join(str(error).split()) or type(error).__name__
    return ToolError(f"{name} isn't understood as a workbook: {why}: save it again, or as CSV")
