"""Files of messages that are no text: which one a file is, by its first bytes."""

import zipfile
from collections.abc import Callable, Iterator, Mapping
from contextlib import suppress
from pathlib import Path

from olr.errors import ToolError
from olr.importing.packed import ZIP
from olr.messages.layers import messages_of_layers
from olr.messages.message import Format, Message, Reading
from olr.messages.opening import STANDARD_INPUT, is_read_twice
from olr.messages.packed import DAMAGED, WORKBOOK
from olr.messages.sheets import messages_of_sheets

SQLITE, SHAPEFILE, PARQUET = b"SQLite format 3\0", b"\0\0\x27\x0a", b"PAR1"
GEOPACKAGES = (b"GPKG", b"GP10", b"GP11")
"""What SQLite has as the application's id where it is a GeoPackage."""
ID_AT = 68
HEAD = 72

BINARY: Mapping[Format, Callable[[Path, Reading, str], Iterator[Message]]] = {
    "gpkg": messages_of_layers,
    "shp": messages_of_layers,
    "xlsx": messages_of_sheets,
}


def binary_format_of(file: Path, reading: Reading, name: str) -> Format | None:
    """The format of a file that is no text, as it was said or as its first bytes have it; None for any other file. Raises `OSError`, and
    `ToolError` for one that can't be read."""
    if reading.format is not None:
        return reading.format if reading.format in BINARY and file != STANDARD_INPUT else None
    if not is_read_twice(file):
        return None
    with file.open("rb") as stream:
        head = stream.read(HEAD)
    if head.startswith(ZIP.first_bytes):
        return _in_zip(file)
    if head.startswith(SHAPEFILE):
        return "shp"
    if head.startswith(SQLITE):
        if head[ID_AT:] not in GEOPACKAGES:
            raise ToolError(f"{name} is a database of SQLite, but no GeoPackage: write it as CSV")
        return "gpkg"
    refuse_binary(head, name)
    return None


def refuse_binary(head: bytes, name: str) -> None:
    """Raises `ToolError` for what begins like a file that can't be read, or not as a stream."""
    if head.startswith(PARQUET):
        convert = f"duckdb -c \"COPY (FROM '{name}') TO 'messages.csv'\""
        raise ToolError(f"{name} is Parquet: convert it, such as by {convert}")
    if head.startswith((SQLITE, SHAPEFILE)):
        what = "Shapefile" if head.startswith(SHAPEFILE) else "GeoPackage"
        raise ToolError(f"{name} is a {what}: name the file itself, unpacked")


def _in_zip(file: Path) -> Format | None:
    """The format of an archive."""
    with suppress(*DAMAGED), zipfile.ZipFile(file) as archive:
        names = archive.namelist()
        if WORKBOOK in names:
            return "xlsx"
        if any(name.lower().endswith(".shp") for name in names):
            return "shp"
    return None
