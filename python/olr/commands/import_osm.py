"""The command `olr-tools import osm`."""

import click
from pathlib import Path
from typing import Any

from olr.commands import options
from olr.commands.import_options import import_options
from olr.counts import Counts
from olr.importing.writing import write_import
from olr.model.map_folder import require_free
from olr.osm.importing import Options, import_osm


@click.command()
@click.argument("file", type=options.FILE)
@import_options
@options.flag_option(
    "--service",
    "Take service roads in: drives, car parks, yards. By default they are left out.",
)
@options.file_option(
    "--tags",
    "TABLE.toml",
    "A table of which tags are roads, and of what class and form they are: docs/IMPORT.md. By default tags.toml of this package.",
)
def command(file: Path, folder: Path, force: bool, **chosen: Any) -> None:
    """Make a map from an OpenStreetMap file: FILE is XML, also packed by gzip or bzip2, or PBF, whatever its name.

    What was left out or changed is counted on standard error, and in the map's import.json."""
    wanted = Options(**chosen)
    require_free(folder, force, [file] if wanted.tags is None else [file, wanted.tags])
    counts = Counts()
    write_import(import_osm(file, wanted, counts), folder, force, counts)
