"""Messages in GeoPackages and Shapefiles, by GDAL."""

import logging
from collections.abc import Iterator, Sequence
from pathlib import Path
from typing import Any

from olr.errors import ToolError
from olr.extras import needed_by
from olr.messages.columns import Columns, numbered, table_with
from olr.messages.message import Message, Reading


def messages_of_layers(file: Path, reading: Reading, name: str) -> Iterator[Message]:
    """The messages of the layer that has the column of references. It holds one of them at a time. Raises `ToolError`, with the `name` of
    the file."""
    with needed_by(name, "feeds"):
        import fiona

        from olr.vector.fiona_parts import READ_ERRORS
        from olr.vector.packed import opened_by_gdal
        from olr.vector.whole import require_whole_shapefile, without_errors
    logging.getLogger("fiona").setLevel(logging.CRITICAL)
    try:
        with opened_by_gdal(file) as place:
            layers = {layer: _columns(fiona, place, layer) for layer in fiona.listlayers(place)}
            layer = table_with(layers, "layers", reading, name)
            with fiona.open(place, layer=layer) as collection:
                if collection.driver == "ESRI Shapefile":
                    require_whole_shapefile(file, layer)
                columns = Columns.of(layers[layer], reading, name)
                features = without_errors(file, collection)
                rows = (list(feature["properties"].values()) for feature in features)
                yield from numbered(rows, columns)
    except READ_ERRORS as error:
        why = " ".join(str(error).split()) or type(error).__name__
        raise ToolError(f"{name} can't be read: {why}") from error


def _columns(fiona: Any, place: str, layer: str) -> Sequence[str]:
    with fiona.open(place, layer=layer) as collection:
        return list(collection.schema["properties"])
