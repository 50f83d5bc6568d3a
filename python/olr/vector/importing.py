"""A map from a vector file."""

from pathlib import Path
from typing import Any

from olr.counts import Counts
from olr.errors import ToolError
from olr.importing.roads import cut_roads, map_of
from olr.importing.writing import Imported, with_bans
from olr.vector.joining import join_roads
from olr.vector.options import Options
from olr.vector.reading import read_layer
from olr.vector.table import read_value_table


def import_vector(file: Path, options: Options, counts: Counts) -> Imported:
    """Makes a map of a layer of a vector file, and counts what is left out or changed. The same file and options give the same map.

    Raises `ToolError` if the file or the table can't be read, or if no road is left.
    """
    table = read_value_table(options.mapping)
    layer = read_layer(file, options, table, counts)
    joined = join_roads(layer.roads, options.tolerance, options.join_vertices, counts)
    cut = cut_roads(joined.roads, joined.positions, counts)
    bare = map_of(cut.parts, joined.positions, options.fields.keep, counts)
    if not bare.lines:
        counts.report()
        doubt = f": {layer.doubt}" if layer.doubt else ""
        raise ToolError(f"{file} has no roads for the map: layer {layer.name}{doubt}")
    if layer.doubt:
        counts.hints.append(layer.doubt)
    road_map, size = with_bans(bare, [], options.u_turns, options.dead_ends, counts)
    fields = options.fields
    about: dict[str, Any] = {
        **size,
        "bbox": None if options.box is None else [edge / 1e6 for edge in options.box],
        "crs": layer.crs,
        "fields": {
            "class": fields.road_class,
            "form": fields.form,
            "id": fields.id,
            "name": layer.name_field,
            "oneway": fields.one_way,
        },
        "file": file.name,
        "importer": "vector",
        "join_vertices": options.join_vertices,
        "layer": layer.name,
        "mapping": None if options.mapping is None else options.mapping.name,
        "tolerance": options.tolerance,
        **counts.as_table(),
    }
    return Imported(road_map, about)
