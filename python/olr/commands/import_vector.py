"""The command `olr-tools import vector`."""

import click
from pathlib import Path
from typing import Any

from olr.commands import options
from olr.commands.import_options import import_options
from olr.counts import Counts
from olr.importing.roads import GREATEST_ROAD_ID
from olr.importing.writing import write_import
from olr.model.map_folder import require_free
from olr.vector.fields import Fields
from olr.vector.importing import import_vector
from olr.vector.options import TOLERANCE, Options


@click.command()
@click.argument("file", type=options.FILE)
@import_options
@click.option(
    "--layer",
    metavar="L",
    help="The name of the layer of roads. By default the only layer of the file.",
)
@click.option(
    "--class",
    "road_class",
    metavar="FIELD",
    required=True,
    help="The field with a road's functional road class, from 0, the most important, to 7; or a number from 0 to 7 for all roads. "
    "Other values need a table by --mapping.",
)
@click.option(
    "--form",
    metavar="FIELD",
    required=True,
    help="The field with a road's form of way, 0 to 7: 0 unknown, 1 motorway, 2 several carriageways, 3 single carriageway, "
    "4 roundabout, 5 traffic square, 6 slip road, 7 other; or a number from 0 to 7 for all roads. Other values need a table by "
    "--mapping.",
)
@click.option(
    "--oneway",
    metavar="FIELD",
    help="The field with the directions of travel: F, FT, yes, true or 1 along the drawing of a road, T, TF, -1 or reverse "
    "against it, B, no, false, 0 or no value both. Other values need a table by --mapping. By default all roads go both ways.",
)
@click.option(
    "--id",
    "id_field",
    metavar="FIELD",
    help=f"The field with a road's own id: whole numbers from 1 to {GREATEST_ROAD_ID:,} become a part of the ids of lines, and all "
    "values are kept in ids.csv. By default roads are numbered by their records, from 1.",
)
@click.option(
    "--name",
    "name_field",
    metavar="FIELD",
    help="The field with a road's name, which is kept in ids.csv. By default the one that is called name, in whatever capitals, if there "
    "is one.",
)
@options.file_option(
    "--mapping",
    "TABLE.toml",
    "A table of what the values of fields mean as classes, forms and directions: docs/IMPORT_VECTOR.md. By default classes and "
    "forms are the numbers 0 to 7, and directions words such as FT, TF, B, yes and no.",
)
@click.option(
    "--crs",
    metavar="CRS",
    help="The coordinate reference system of the file's coordinates, such as EPSG:25832. By default the one that the file says.",
)
@click.option(
    "--tolerance",
    metavar="METRES",
    type=click.FloatRange(0, 20),
    default=TOLERANCE,
    show_default=True,
    help="Ends of roads that lie so near to each other, or to another road, are joined: 0 to 20 metres.",
)
@options.flag_option(
    "--join-vertices",
    "Join roads also where they have a vertex in common between their ends, as files made of OpenStreetMap need it. By default "
    "they are joined at their ends alone.",
)
def command(
    file: Path,
    folder: Path,
    force: bool,
    road_class: str,
    form: str,
    oneway: str | None,
    id_field: str | None,
    name_field: str | None,
    keep: tuple[str, ...],
    **chosen: Any,
) -> None:
    """Make a map from a vector file of roads: FILE is a GeoPackage, a Shapefile, a GeoJSON, or another file that GDAL reads,
    also packed by zip or gzip.

    What was left out or changed is counted on standard error, and in the map's import.json."""
    wanted = Options(Fields(road_class, form, oneway, id_field, name_field, keep), **chosen)
    require_free(folder, force, [file] if wanted.mapping is None else [file, wanted.mapping])
    counts = Counts()
    write_import(import_vector(file, wanted, counts), folder, force, counts)
