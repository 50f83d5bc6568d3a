"""The command `olr-tools regions`."""

import click
from pathlib import Path

from olr.commands import options
from olr.counts import Counts
from olr.errors import ToolError
from olr.model.map_folder import NODES, WANTED, files_read
from olr.outputs import require_free_file
from olr.regions.making import make_store_of_folder, make_store_of_map
from olr.regions.store import Sizes, Store

MOST_NAMED = 10
"""Of lines that a hint is about."""


@click.command()
@click.argument("source", metavar="DIR|FILE", type=options.FILE)
@options.out_option(
    "STORE",
    "The store to write: one file, such as country.gpkg. Folders above are made as needed.",
)
@options.force_option()
def command(source: Path, file: Path, force: bool) -> None:
    """Make a store of a map of any size: one GeoPackage, of which olr-tools run reads what a reference needs.

    DIR has nodes.csv, lines.csv and perhaps bans.csv. The limits of olr don't hold for it. FILE is an OpenStreetMap file, and the
    map is the one that olr-tools import osm makes of it without options."""
    require_free_file(file, force, [source, *files_read(source)])
    if source.is_file():
        sizes = _store_of_osm(source, file, force)
    elif (source / NODES).exists():
        sizes = make_store_of_folder(source, file, force)
        _hint_of_lines_round_the_earth(file)
    else:
        raise ToolError(f"there is no map in {source}: {WANTED}")
    click.echo(f"{file}: {sizes.nodes:,} nodes, {sizes.lines:,} lines, {sizes.bans:,} bans")


def _hint_of_lines_round_the_earth(file: Path) -> None:
    """Says on standard error which lines of a store go more than half round the earth, if there are any."""
    with Store.open(file) as store:
        lines = store.lines_round_the_earth()
    if len(lines):
        some = ", ".join(map(str, lines[:MOST_NAMED].tolist()))
        more = ", .." if len(lines) > MOST_NAMED else ""
        go = "line goes" if len(lines) == 1 else "lines go"
        about = f"{len(lines):,} {go} more than half round the earth: {some}{more}"
        click.echo(f"hint: {about}: cut roads at longitude 180", err=True)


def _store_of_osm(source: Path, file: Path, force: bool) -> Sizes:
    """Makes a store of an OpenStreetMap file, and tells its size. Raises `ToolError`."""
    # Its modules of Debian are needed for such files alone.
    from olr.osm.format import UNKNOWN, format_of
    from olr.osm.importing import Options, import_osm

    if format_of(source) == UNKNOWN:
        raise ToolError(
            f"{source} isn't an OpenStreetMap file: make a map of it first, by olr-tools import"
        )
    counts = Counts()
    imported = import_osm(source, Options(), counts)
    sizes = make_store_of_map(imported.road_map, file, force, [source])
    counts.report()
    return sizes
