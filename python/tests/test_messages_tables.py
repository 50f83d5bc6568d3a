"""GeoPackages, Shapefiles and workbooks of messages; files that are no text."""

import datetime
import fiona
import io
import openpyxl
import pytest
import sqlite3
import zipfile
from collections.abc import Sequence
from pathlib import Path
from typing import Any

from olr.errors import ToolError
from olr.messages import sheets
from olr.messages.message import Reading
from olr.messages.reading import format_in, messages_in, messages_of
from olr.running.records import read_records
from test_extras import run_without
from test_messages import ONE, TWO, give

FIELDS = {"ref": "str", "key": "str:20", "speed": "float", "lanes": "int"}
ROWS = [(ONE, "m1", 50.5, 2), (TWO, "0012", None, 3), (None, None, 1.0, None)]
MESSAGES = [(1, "m1", ONE), (2, "0012", TWO), (3, None, "")]


@pytest.fixture
def folder(tmp_path: Path) -> Path:
    return tmp_path


def refused(file: Path, *words: Any, **options: Any) -> str:
    """What is said of a file, on one line, behind its name."""
    with pytest.raises(ToolError) as raised:
        list(messages_of(file, Reading(*words, **options)))
    said = str(raised.value)
    assert "\n" not in said and said.startswith(f"{file} ")
    return said.removeprefix(f"{file} ")


def layer(
    file: Path,
    driver: str,
    layer: str = "messages",
    fields: dict[str, str] = FIELDS,
    rows: Sequence[Sequence[Any]] = ROWS,
) -> Path:
    """A layer of points."""
    schema = {"geometry": "Point", "properties": fields}
    point = {"type": "Point", "coordinates": (0, 0)}
    with fiona.open(file, "w", driver=driver, schema=schema, crs="EPSG:4326", layer=layer) as made:
        for row in rows:
            made.write({"geometry": point, "properties": dict(zip(fields, row))})
    return file


def workbook(file: Path, *tables: Sequence[Sequence[Any]]) -> Path:
    """A workbook with a sheet for each table."""
    book = openpyxl.Workbook()
    book.remove(book.active)
    for number, rows in enumerate(tables, 1):
        sheet = book.create_sheet(f"Sheet{number}")
        for row in rows:
            sheet.append(row)
    book.save(file.with_suffix(".xlsx"))
    return file.with_suffix(".xlsx").rename(file)


def zipped(file: Path, folder: Path) -> Path:
    """An archive of the files of a folder."""
    with zipfile.ZipFile(file, "w") as archive:
        for one in sorted(folder.iterdir()):
            archive.write(one, one.name)
    return file


def made(kind: str, folder: Path) -> Path:
    """A file with the messages."""
    if kind == "gpkg":
        return layer(folder / "messages.gpkg", "GPKG")
    if kind == "xlsx":
        return workbook(folder / "messages", [["", " "], list(FIELDS), *ROWS])
    shapes = folder / "shapes"
    shapes.mkdir(exist_ok=True)
    layer(shapes / "messages.shp", "ESRI Shapefile")
    return shapes / "messages.shp" if kind == "shp" else zipped(folder / "messages", shapes)


KINDS = ["gpkg", "shp", "zip", "xlsx"]


@pytest.mark.parametrize("kind", KINDS)
def test_tables(folder: Path, kind: str) -> None:
    file = made(kind, folder)
    assert format_in(file, Reading()) == ("shp" if kind == "zip" else kind)
    for reading in (Reading(), Reading(ref="ref", key="key")):
        assert [one[:3] for one in messages_of(file, reading)] == MESSAGES
    kept = [dict(one.kept) for one in messages_of(file, Reading(keep=("lanes", "speed")))]
    assert kept == [{"lanes": row[3], "speed": row[2]} for row in ROWS]
    assert [type(value) for value in kept[0].values()] == [int, float]
    every = [dict(one.kept) for one in messages_of(file, Reading(keep=("all",)))]
    assert [set(one) for one in every] == [{"speed", "lanes"}] * 3
    assert [one.number for one in read_records(file, Reading(), "x")] == [1, 2, 3]
    assert "has no column olr: name it by --ref: ref (" in refused(file, ref="olr")
    assert "has no column id: name one by --key: ref, key" in refused(file, key="id")
    assert "but '2'" in refused(file, ref="lanes")


def test_several_layers(folder: Path) -> None:
    file = layer(folder / "messages.gpkg", "GPKG", "roads", {"name": "str"}, [("A",)])
    layer(file, "GPKG", "messages")
    assert len(list(messages_of(file, Reading()))) == 3
    layer(file, "GPKG", "more")
    assert refused(file) == "has 2 layers with a column ref: messages, more"


def test_workbooks(folder: Path) -> None:
    """The sheet with the column; rows without a cell; times, numbers and texts; a size that is wrong."""
    day = datetime.datetime(2026, 1, 2, 3, 4)
    rows: list[list[Any]] = [["ref", "key", "at"], [f" {ONE}\n", 7, day], [None, None, None], [TWO]]
    file = workbook(folder / "book", [["notes"], ["x"]], rows)
    found = list(messages_of(file, Reading(keep=("at",))))
    assert [one[:3] for one in found] == [(1, "7", ONE), (2, None, TWO)]
    assert [one.kept["at"] for one in found] == ["2026-01-02T03:04:00", None]
    workbook(file, rows, rows)
    assert refused(file) == "has 2 sheets with a column ref: Sheet1, Sheet2"
    workbook(file, [])
    assert refused(file) == "has no column ref: name it by --ref: "
    narrow = io.BytesIO()
    workbook(file, rows)
    with zipfile.ZipFile(file) as archive, zipfile.ZipFile(narrow, "w") as other:
        for name in archive.namelist():
            other.writestr(name, archive.read(name).replace(b'ref="A1:C4"', b'ref="A1:A1"'))
    file.write_bytes(narrow.getvalue())
    assert len(list(messages_of(file, Reading()))) == 2


def test_a_workbook_that_would_fill_the_memory(
    folder: Path, monkeypatch: pytest.MonkeyPatch
) -> None:
    file = workbook(folder / "book", [["ref"], [ONE]])
    monkeypatch.setattr(sheets, "LEAST_REFUSED", 1000)
    monkeypatch.setattr(sheets, "MOST_TIMES", 1)
    assert refused(file) == "becomes 0 MiB when it is unpacked: write it as CSV"


def test_what_is_no_text(folder: Path) -> None:
    file = folder / "messages"
    file.write_bytes(b"PAR1" + bytes(100) + b"PAR1")
    assert refused(file).startswith("is Parquet: convert it, such as by duckdb -c ")
    database = sqlite3.connect(file.with_suffix(".db"))
    database.execute("create table messages (ref text)")
    database.commit()
    database.close()
    assert refused(file.with_suffix(".db")).startswith("is a database of SQLite, but no GeoPa")


@pytest.mark.parametrize("kind", ["gpkg", "shp", "xlsx"])
def test_streams_have_no_tables(folder: Path, kind: str, monkeypatch: pytest.MonkeyPatch) -> None:
    """They say to name the file."""
    content = made(kind, folder).read_bytes()
    with pytest.raises(ToolError, match="^x is a .*: name the file itself"):
        list(messages_in(io.BytesIO(content), Reading(), "x"))
    give(monkeypatch, content)
    with pytest.raises(ToolError, match="standard input .*: name the file itself"):
        list(messages_of(Path("-"), Reading(kind)))  # type: ignore[arg-type]


@pytest.mark.parametrize("kind", ["gpkg", "shp", "xlsx"])
def test_what_was_said_to_be_one(folder: Path, kind: str) -> None:
    file = folder / "messages"
    file.write_text(f"ref\n{ONE}\n")
    assert refused(file, kind)
    with pytest.raises(ToolError, match="can't be read: No such file"):
        list(messages_of(folder / "nothing", Reading()))


def test_workbooks_without_their_module(folder: Path) -> None:
    file = made("xlsx", folder)
    ended = run_without(
        "top == 'openpyxl'",
        """
import olr
try:
    list(olr.read_messages(sys.argv[2]))
except olr.ToolError as error:
    print(error)
""",
        file,
    )
    assert f"{file} needs the module openpyxl: " in ended.stdout
    assert "(python3-openpyxl), elsewhere install the extra olr[feeds]" in ended.stdout
