"""The command `olr-tools page`."""

import click
from pathlib import Path

from olr.commands import options
from olr.model.box import Box
from olr.model.map_folder import inputs_of
from olr.model.sources import IDS
from olr.outputs import write_whole
from olr.pages.alone.making import made_of
from olr.pages.alone.page import cut_text
from olr.pages.html import require_page


@click.command()
@options.map_option("DIR|STORE", f"The map: {options.OR_STORE}.")
@options.box_option(
    "Carry only the lines that reach into a box", "the whole map is carried, if it isn't too large"
)
@options.out_option("PAGE.html", "The page to write. Folders above are made as needed.")
@options.force_option()
@options.tiles_option(" on the page")
@options.confidence_option
def command(
    folder: Path,
    box: Box | None,
    file: Path,
    force: bool,
    tiles: str | None,
    confidence: Path | None,
) -> None:
    """Write a page that answers by itself: one file of HTML with the program and a map. Who opens it in a browser asks about references as
    on the page of serve, without a server, an installation or a network. Nothing that is asked leaves the page.
    """
    inputs = [*inputs_of(folder), folder / IDS, *([] if confidence is None else [confidence])]
    require_page(file, force, inputs)
    made = made_of(folder, confidence, tiles, box)
    write_whole(file, made.page.encode(), force, inputs)
    size = len(made.page.encode()) / 1e6
    click.echo(f"{file}: {size:.1f} MB, with a map of {made.lines:,} lines{cut_text(box)}")
