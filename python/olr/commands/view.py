"""The command `olr-tools view`."""

import click
from pathlib import Path

from olr.client.map_client import Map
from olr.commands import options
from olr.confidence.choosing import chosen_for, cut_off_line
from olr.messages.finding import message_of_key, message_of_record
from olr.messages.message import Message, Reading
from olr.model.asked_with import name_for_program
from olr.model.fault import Fault
from olr.model.map_folder import inputs_of
from olr.outputs import write_whole
from olr.pages.alone.live import Making, page_for_reference
from olr.pages.alone.module import find_module
from olr.pages.html import require_page
from olr.pages.view.page import html_of
from olr.pages.view.scene import add_command, scene_of


@click.command()
@click.argument("reference", metavar="[REF]", required=False)
@options.map_options
@options.places_options
@options.confidence_option
@options.patience_option()
@options.file_option(
    "--messages",
    "FILE",
    "A file of messages, from which the reference is taken: REF is the key of one. By default REF is the reference.",
)
@options.count_option(
    "--record",
    "The number of a message in the file of --messages: 1 or more. By default the message is found by its key, REF.",
)
@options.reading_options
@options.live_option("the reference", "the page shows this answer alone")
@options.page_options
def command(
    reference: str | None,
    folder: Path,
    confidence: Path | None,
    patience: float,
    messages: Path | None,
    record: int | None,
    reading: Reading,
    live: bool,
    file: Path,
    force: bool,
    tiles: str | None,
    **chosen: int | str | None,
) -> None:
    """Show a reference on a map: its points and their directions, the candidates, where it fits, one place or matching at a time, the
    likeliest one first, or else why it doesn't. The page is one file of HTML that needs no network, written whole or not at all.

    REF is a reference, a text in base64, or with --messages the key of a message in a file as match reads it.
    """
    asking = options.of_question("places", chosen)
    text = _text(reference, messages, record, reading)
    if live:
        find_module()  # What is missing is said before anything is asked.
    inputs = [*inputs_of(folder), *(one for one in (messages, confidence) if one is not None)]
    require_page(file, force, inputs)
    tolerances = asking.tolerances
    with Map.of_folder(folder, patience=patience, confidence=confidence, **tolerances) as asked:
        sure = chosen_for(asked, asking.numbers, confidence is not None)
        scene = scene_of(text, asked, **asking.numbers)
        made = Making(folder, confidence, tiles)
        message = Message(record or 0, reference if messages else None, text)
        answering = page_for_reference(asked, made, asking, message) if live else None
    add_command(scene, name_for_program(folder), asking.all_numbers())
    page = answering.page if answering else html_of(scene, tiles)
    content = page.encode()
    write_whole(file, content, force, inputs)
    click.echo(f"{file}: {scene['verdict']['word']}")
    click.echo(asking.line())
    of_live = answering.line(len(content), 1) if answering else ""
    looking = cut_off_line(int(bool(scene["looking"])))
    for more in (of_live, looking, scene["entries"] and sure.note):
        if more:
            click.echo(more)


def _text(
    reference: str | None, messages: Path | None, record: int | None, reading: Reading
) -> str:
    """The reference that was asked for. Raises `UsageError`, and `ToolError` if the file hasn't it."""
    if messages is None:
        if record is not None or reading != Reading():
            raise click.UsageError(
                "--record, --format, --ref, --key and --base64 are for --messages"
            )
        if reference is None:
            raise click.UsageError("give a reference, or a file of them by --messages")
        return reference
    if reference is not None and record is None:
        found = message_of_key(messages, reading, reference)
    elif record is not None and reference is None:
        found = message_of_record(messages, reading, record)
    else:
        raise click.UsageError("with --messages give a key as REF, or a number by --record")
    if found.fault is not None:
        raise Fault(found.fault)
    return found.reference
