"""Rows into a CSV or GeoJSON file, many at a time."""

import csv
import io
import json
import numpy as np
from collections.abc import Iterable, Iterator, Mapping, Sequence
from contextlib import contextmanager
from pathlib import Path
from typing import Any, TextIO

from olr.errors import ToolError
from olr.geometry.parts import Polylines
from olr.matching.tables import Columns

CRS = {"type": "name", "properties": {"name": "urn:ogc:def:crs:OGC:1.3:CRS84"}}
DIGITS = 7
"""Of a degree: a centimetre."""


class Csv:
    """A CSV file, in UTF-8. It has no geometries. What a row lacks is an empty field."""

    def __init__(self, stream: TextIO) -> None:
        self._writer = csv.writer(stream, lineterminator="\n")
        self._quoting = csv.writer(stream, lineterminator="\n", quoting=csv.QUOTE_NONNUMERIC)
        """For rows with a carriage return, around which the other one writes no quotes."""

    def add(self, values: Mapping[str, Sequence[Any]], shapes: Polylines) -> None:
        """Adds rows. Raises `OSError`."""
        for row in zip(*values.values()):
            has_return = any(isinstance(value, str) and "\r" in value for value in row)
            (self._quoting if has_return else self._writer).writerow(row)


class GeoJson:
    """A GeoJSON file with a feature for each row. What a row lacks is null. Coordinates are in degrees, with seven decimals."""

    def __init__(self, stream: TextIO, layer: str) -> None:
        """Writes what stands in front of the rows. Raises `OSError`."""
        stream.write(
            f'{{"type":"FeatureCollection","name":"{layer}","crs":{json.dumps(CRS)},"features":[\n'
        )
        self._stream, self._before = stream, ""

    def add(self, values: Mapping[str, Sequence[Any]], shapes: Polylines) -> None:
        """Adds rows. Raises `OSError`."""
        for text in features_of(values, shapes):
            self._stream.write(f"{self._before}{text}")
            self._before = ",\n"

    def end(self) -> None:
        """Writes what stands behind the rows. Raises `OSError`."""
        self._stream.write("\n]}\n")


def features_of(values: Mapping[str, Sequence[Any]], shapes: Polylines) -> Iterator[str]:
    """The feature of each row, on one line."""
    points = np.round(shapes.points, DIGITS)
    firsts = shapes.first().tolist()
    for size, first, row in zip(shapes.sizes.tolist(), firsts, zip(*values.values())):
        # As lists they take ten times as much: those of one row at a time.
        geometry = _geometry(points[first : first + size].tolist())
        feature = {"type": "Feature", "properties": dict(zip(values, row)), "geometry": geometry}
        yield json.dumps(feature, ensure_ascii=False, separators=(",", ":"))


def _geometry(points: Sequence[Sequence[float]]) -> Mapping[str, Any] | None:
    """The geometry of a row."""
    if not points:
        return None
    if len(points) == 1:
        return {"type": "Point", "coordinates": points[0]}
    return {"type": "LineString", "coordinates": points}


def _line(cells: Iterable[str]) -> str:
    """Cells as a line of CSV, without its end."""
    with io.StringIO() as line:
        csv.writer(line, lineterminator="").writerow(cells)
        return line.getvalue()


@contextmanager
def geojson(file: Path, layer: str) -> Iterator[GeoJson]:
    """A new GeoJSON file. Raises `OSError` if it can't be written."""
    with file.open("w", encoding="utf-8") as stream:
        written = GeoJson(stream, layer)
        yield written
        written.end()


@contextmanager
def table(file: Path, columns: Columns[Any], is_new: bool, name: Path) -> Iterator[Csv]:
    """A CSV file, a new one or one to add rows to. Raises `ToolError`, with the `name` that the file will have, if one to add to has
    another header, and `OSError` if it can't be written."""
    header = _line(columns)
    if not is_new:
        with file.open("rb") as read:
            first = read.readline()
            read.seek(0, 2)
            read.seek(max(0, read.tell() - 1))
            is_whole = read.read() == b"\n"
        if first.rstrip(b"\r\n") != header.encode() or not is_whole:
            raise ToolError(
                f"{name} has other columns, so rows can't be added: its first line isn't {header}: name another file"
                if is_whole
                else f"{name} ends within a line, so rows can't be added: name another file"
            )
    with file.open("w" if is_new else "a", encoding="utf-8", newline="") as stream:
        if is_new:
            stream.write(f"{header}\n")
        yield Csv(stream)
