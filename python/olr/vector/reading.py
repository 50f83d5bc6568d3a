"""The roads of a layer of a vector file, in degrees (WGS 84)."""

import fiona
import logging
import numpy as np
from collections.abc import Iterable, Iterator, Mapping, Sequence
from pathlib import Path
from typing import Any, NamedTuple

from olr.arrays import Floats
from olr.counts import Counts, ValueCounts
from olr.errors import ToolError
from olr.importing.antimeridian import CUT, leads_across, pieces
from olr.importing.roads import GREATEST_ROAD_ID, Kind, Source
from olr.model.box import Box
from olr.model.measure import position_of
from olr.vector.fields import Fields, Meanings, list_of, require_fields
from olr.vector.fiona_parts import READ_ERRORS
from olr.vector.options import Options
from olr.vector.packed import opened_by_gdal
from olr.vector.system import Area, Strays, System, why_not_on_map
from olr.vector.table import ValueTable
from olr.vector.whole import require_whole_shapefile, whole_features

OUTSIDE = "line strings outside the box"


class VectorRoad(NamedTuple):
    """A road of the layer, or a part of one: a line string with what its record says."""

    id: int
    source: Source
    kind: Kind
    points: Floats
    """Longitude and latitude in degrees, a row for each vertex, at least two."""


class Layer(NamedTuple):
    """What was read."""

    roads: Sequence[VectorRoad]
    name: str
    crs: str
    """The name of its coordinate reference system."""
    name_field: str | None
    """The field that has the names of roads, if one has."""
    doubt: str
    """Why this may not be the system of its coordinates, and what to do then; an empty text if there is no doubt."""


class _Record(NamedTuple):
    """A road before its coordinates are in degrees."""

    number: int
    source: Source
    """With an empty id where no field has it."""
    kind: Kind
    parts: Sequence[Sequence[Sequence[float]]]


def read_layer(file: Path, options: Options, table: ValueTable, counts: Counts) -> Layer:
    """The roads of the layer that the options name, in their box. Counts what is left out.

    Raises `ToolError` if the file, the layer, a field or the reference system isn't there, or if a record can't be read.
    """
    logging.getLogger("fiona").setLevel(logging.CRITICAL)
    if not file.exists():
        about = f"{file} can't be opened: there is no such file"
        raise ToolError(f"{about}: name a GeoPackage, a Shapefile or a file of GeoJSON")
    strays = Strays()
    try:
        with opened_by_gdal(file) as place:
            name = _layer_name(file, place, options.layer)
            with fiona.open(place, layer=name) as collection:
                if collection.driver == "ESRI Shapefile":
                    require_whole_shapefile(file, name)
                system = System.of(file, collection.crs_wkt, options.crs)
                properties = list(collection.schema["properties"])
                require_fields(file, properties, options.fields)
                area = None if options.box is None else system.area(options.box)
                meanings = Meanings(options.fields, properties, table, counts)
                features = whole_features(file, collection)
                records = list(_records(features, meanings, area, strays, counts))
                meanings.count_unnamed()
    except READ_ERRORS as error:
        why = " ".join(str(error).split()) or type(error).__name__
        raise ToolError(f"{file} can't be read: {why}") from error
    roads = list(_in_degrees(records, system, options.box, strays, counts))
    doubt = strays.doubt(system, bool(roads))
    with_ids = _with_ids(roads, records, options.fields, counts)
    return Layer(with_ids, name, system.name, meanings.name_field, doubt)


def _layer_name(file: Path, place: str, layer: str | None) -> str:
    """The name of the layer to read."""
    names = fiona.listlayers(place)
    if layer is None:
        if len(names) != 1:
            raise ToolError(
                f"{file} has {len(names)} layers: name one by --layer: {list_of(names)}"
            )
        return str(names[0])
    if layer not in names:
        raise ToolError(f"{file} has no layer {layer}: it has {list_of(names)}")
    return layer


def _meets(part: Sequence[Sequence[float]] | Floats, area: Area) -> bool:
    """Whether the bounds of a line string meet an area. Where they can't be compared they do."""
    x, y = [vertex[0] for vertex in part], [vertex[1] for vertex in part]
    west, south, east, north = area
    if not x:
        return True
    return not (max(x) < west or min(x) > east or max(y) < south or min(y) > north)


def _records(
    features: Iterable[Any], meanings: Meanings, area: Area | None, strays: Strays, counts: Counts
) -> Iterator[_Record]:
    """The features that are roads and reach into the area, with the numbers of their records from 1."""
    for number, feature in enumerate(features, 1):
        parts = _line_strings(feature["geometry"], counts)
        if area is not None:
            parts = list(_near(parts, area, strays, counts))
        kind = meanings.kind_of(feature["properties"]) if parts else None
        if kind is not None:
            yield _Record(number, meanings.source_of(feature["properties"]), kind, parts)


def _near(
    parts: Sequence[Any], area: Area, strays: Strays, counts: Counts
) -> Iterator[Sequence[Any]]:
    """The line strings that reach into the area. Others are counted."""
    for part in parts:
        if _meets(part, area):
            yield part
        else:
            counts.leave_out(OUTSIDE)
            strays.outside = strays.outside or part[0]


def _line_strings(geometry: Mapping[str, Any] | None, counts: Counts) -> Sequence[Any]:
    """The line strings of a geometry; none, and counted, if it isn't one of lines."""
    if geometry is None:
        counts.leave_out("records without a geometry")
        return []
    kind = str(geometry["type"]).removeprefix("3D ")
    if kind == "LineString":
        return [geometry["coordinates"]]
    if kind == "MultiLineString":
        return list(geometry["coordinates"])
    counts.leave_out(f"records that are not lines, but of type {kind}")
    return []


def _in_degrees(
    records: Sequence[_Record], system: System, box: Box | None, strays: Strays, counts: Counts
) -> Iterator[tuple[_Record, Floats]]:
    """The line strings of all records in degrees, cut at longitude 180. Those that can't be on a map are counted."""
    parts = [(record, part) for record in records for part in record.parts if len(part) >= 2]
    short = sum(len(record.parts) for record in records) - len(parts)
    counts.leave_out("line strings without two vertices", short)
    flat = np.array([vertex[:2] for _, part in parts for vertex in part], dtype=float)
    if not len(flat):
        return
    bounds = np.cumsum([len(part) for _, part in parts])[:-1]
    cuts = ValueCounts()
    for (record, part), rows in zip(parts, np.split(system.in_degrees(flat), bounds)):
        reason = why_not_on_map(rows)
        if reason:
            counts.leave_out(reason)
            strays.nowhere = strays.nowhere or part[0]
            continue
        in_two = _cut_at_180(rows)
        taken = [piece for piece in in_two if box is None or _meets(piece * 1e6, box)]
        if in_two and not taken:
            counts.leave_out(OUTSIDE)
        elif len(in_two) != 1:
            cuts.add(CUT, record.source.id or str(record.number))
        yield from ((record, piece) for piece in taken)
    cuts.hand_on(counts.change)


def _cut_at_180(points: Floats) -> Sequence[Floats]:
    """The pieces of a line string on either side of longitude 180; itself, where it doesn't lead across."""
    if np.ptp(points[:, 0]) <= 180.0:
        return [points]
    vertices = points.tolist()
    places = [position_of(*vertex) for vertex in vertices]
    if not leads_across(places):
        return [points]
    cut = pieces(vertices, places, lambda _near, _far, place: [place.lon / 1e6, place.lat / 1e6])
    return [np.array(piece) for piece in cut]


def _with_ids(
    roads: Sequence[tuple[_Record, Floats]],
    records: Sequence[_Record],
    fields: Fields,
    counts: Counts,
) -> Sequence[VectorRoad]:
    """The roads with ids: those of the field if all are whole numbers, else the numbers of the records."""
    usable = fields.id is not None and all(_is_road_id(record.source.id) for record in records)
    if fields.id is not None and not usable:
        reason = (
            f"roads numbered by their records, since not all of field {fields.id} are whole numbers"
        )
        counts.change(reason, len(records))
    result = []
    for record, points in roads:
        id = int(record.source.id) if usable else record.number
        source = record.source
        if fields.id is None:
            source = source._replace(id=str(record.number))
        result.append(VectorRoad(id, source, record.kind, points))
    return result


def _is_road_id(text: str) -> bool:
    """Whether a text is a whole number that a road may have as its id."""
    known = text.isascii() and text.isdigit() and len(text) <= 20
    return known and 1 <= int(text) <= GREATEST_ROAD_ID
