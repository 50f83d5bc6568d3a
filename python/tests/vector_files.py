"""Vector files made by hand, for tests, and what is asked of their imports."""

import csv
import fiona
import json
import pytest
from collections.abc import Sequence
from fiona.crs import CRS
from pathlib import Path
from typing import Any

from olr.counts import Counts
from olr.model.map_folder import write_map
from olr.tools import run
from olr.vector.fields import Fields
from olr.vector.importing import import_vector
from olr.vector.options import Options

_PLACES = (
    "/usr/lib/python3/dist-packages/libpysal/examples",
    "/usr/share/doc/python3-libpysal/examples",
)
"""Where Debian 12 and Debian 13 have the examples of python3-libpysal."""
STREETS = next(filter(Path.exists, (Path(one, "geodanet/streets.shp") for one in _PLACES)))
"""The streets of Tempe, of Debian's python3-libpysal."""
DRIVERS = {".gpkg": "GPKG", ".geojson": "GeoJSON", ".fgb": "FlatGeobuf", ".shp": "ESRI Shapefile"}
"""What GDAL calls the formats of files with these suffixes."""
FIELDS = {"kind": "str", "carriageways": "int", "dir": "str", "code": "int"}


def road(
    points: Any,
    kind: str | None = "main",
    carriageways: int | None = 1,
    dir: str | None = "B",
    code: int = 1,
    type: str = "LineString",
) -> dict[str, Any]:
    """A feature."""
    return {
        "geometry": None if points is None else {"type": type, "coordinates": points},
        "properties": dict(zip(FIELDS, (kind, carriageways, dir, code))),
    }


def write(
    file: Path,
    roads: Sequence[dict[str, Any]],
    driver: str = "GPKG",
    crs: int | None = 25832,
    layer: str | None = None,
    **more: str,
) -> Path:
    """Writes features as a layer of a file. Coordinates are in the units of the reference system. `more` are options of the format."""
    schema = {"geometry": "Unknown", "properties": FIELDS}
    if driver == "ESRI Shapefile":
        schema["geometry"] = "LineString"
    system = None if crs is None else CRS.from_epsg(crs)
    more |= {} if layer is None else {"layer": layer}
    with fiona.open(str(file), "w", driver=driver, schema=schema, crs=system, **more) as sink:
        sink.writerecords(roads)
    return file


def write_tempe(folder: Path) -> Path:
    """Writes the map of the streets of Tempe to a folder, with the bans on turning back that an import adds."""
    made = import_vector(STREETS, Options(Fields("5", "3", id="ID")), Counts())
    write_map(made.road_map, folder, made.about)
    return folder


def rows(folder: Path, name: str) -> list[list[str]]:
    """The records of a file of a map, behind the header."""
    with (folder / name).open(newline="") as stream:
        return list(csv.reader(stream))[1:]


def about(folder: Path) -> Any:
    """What `import.json` says."""
    return json.loads((folder / "import.json").read_text())


def assert_refused(
    file: Path,
    words: Sequence[str],
    error: str,
    tmp_path: Path,
    capfd: pytest.CaptureFixture[str],
) -> None:
    """That an import ends with status 1 and one line, and writes no file."""
    before = sorted(tmp_path.iterdir())
    usual = ["--class", "3", "--form", "3", "--out", str(tmp_path / "map")]
    assert run(["import", "vector", str(file), *usual, *words]) == 1
    shown = capfd.readouterr().err.splitlines()
    assert len(shown) == 1 and shown[0].startswith("olr-tools: ") and error in shown[0]
    assert sorted(tmp_path.iterdir()) == before
