"""The command `olr-tools report`."""

import click
from contextlib import ExitStack
from pathlib import Path

from olr.client.map_client import Map
from olr.commands import options
from olr.commands.shifting import ADVICE
from olr.confidence.choosing import chosen_for
from olr.confidence.messages import LEAST_CHECKED
from olr.confidence.shift import shift_found
from olr.matching.asking import Asked
from olr.matching.columns import ANSWERS
from olr.matching.kept_columns import kept_columns
from olr.matching.lacking import Lacking
from olr.messages.message import Reading
from olr.messages.message_file import message_file
from olr.messages.opening import name_of
from olr.model.asked_with import name_for_program
from olr.model.map_folder import inputs_of
from olr.outputs import write_whole
from olr.pages.alone.live import Making, add_addresses, address_of, page_for_list, two_pages
from olr.pages.alone.module import find_module
from olr.pages.checked.page import MOST_CHECKED, Checking, page_to_check
from olr.pages.html import html_of, require_page
from olr.pages.kept import cells_of
from olr.pages.report.asking import count
from olr.pages.report.expectation import about_probabilities, expectations, remarks, sentence
from olr.pages.report.page import TEMPLATE, About, page_of
from olr.pages.report.rows import rows_of
from olr.pages.view.scene import add_command


@click.command()
@click.argument("messages", metavar="MESSAGES", type=options.FILE)
@options.map_options
@options.places_options
@options.patience_option()
@options.reading_options
@options.keep_option
@options.confidence_option
@options.rows_option("the table and the map have")
@options.live_option("its references", "the page shows these answers alone")
@options.count_option(
    "--check",
    "Pick so many messages, and write in place of the report a page on which somebody says of each whether its likeliest place is right: it "
    f"saves the file for --checked of olr-tools calibrate. From {LEAST_CHECKED} to {MOST_CHECKED:,}; 40 are a good number. By default the "
    "report is written.",
    least=LEAST_CHECKED,
    greatest=MOST_CHECKED,
)
@options.page_options
def command(
    messages: Path,
    folder: Path,
    patience: float,
    reading: Reading,
    confidence: Path | None,
    rows: int,
    live: bool,
    check: int | None,
    tiles: str | None,
    file: Path,
    force: bool,
    **chosen: int | str | None,
) -> None:
    """Say what is wrong with a feed, or with a map: where the references of MESSAGES fit and how well, how many of their places are
    expected to be right, and why others don't fit. The page is one file of HTML that needs no network, written whole or not at all.

    MESSAGES has a key, a tab and a reference on each line, or is CSV, JSON, XML or a table of a GIS; - is standard input. All are counted; the table of
    references and the map have at most --rows of them, with an equal share of each verdict and fault. A summary is printed.
    """
    asking = options.of_question("places", chosen)
    if check is not None and (live or rows != options.ROWS):
        raise click.UsageError("--check writes another page: leave out --live and --rows")
    inputs = [messages, *inputs_of(folder), *([] if confidence is None else [confidence])]
    require_page(file, force, inputs)
    html_of(TEMPLATE, "", {}, tiles)  # What is missing is said before anything is asked.
    if live:
        find_module()
    with ExitStack() as stack:
        tolerances, by = asking.tolerances, confidence
        opened = Map.of_folder(folder, patience=patience, confidence=by, **tolerances)
        asked = stack.enter_context(opened)
        sure = chosen_for(asked, asking.numbers, confidence is not None)
        given = stack.enter_context(message_file(messages, reading))
        if check is not None:
            checking = Checking(messages, folder, reading, asking, sure)
            made_page, lines = page_to_check(checking, asked, given, check, tiles)
            write_whole(file, made_page.encode(), force, inputs)
            click.echo("\n".join([f"{file}: {lines[0]}", *lines[1:]]))
            return
        lacking = Lacking(asked, asking.other())
        questions = Asked(asked, given)
        counted = count(questions, asked, asking.numbers, rows, lacking)
        found = rows_of(counted.sample, asked, asking.numbers, sure.confidence)
        drawn = [one.message for one in counted.sample]
        shift = shift_found(asked, [one.reference for one in drawn])
        made = Making(folder, confidence, tiles)
        answering = page_for_list(asked, made, drawn) if live else None
    kept = kept_columns(given.kept, ANSWERS)
    for row, message in zip(found.rows, drawn, strict=True):
        row["kept"] = cells_of(message, kept)
    if answering:
        add_addresses(found.rows, drawn, asking, answering)
    for scene in found.scenes:
        if scene is not None:
            add_command(scene, name_for_program(folder), asking.all_numbers())
    expected = expectations(counted.places, sure, confidence)
    seems = [] if shift is None else [f"{shift.sentence()}: {ADVICE}"]
    about = About(
        Path(name_of(messages)).name,
        folder.resolve().name,
        asking.text(),
        [sentence(text) for text in [*(expected or [sure.note]), *seems] if text],
        about_probabilities(sure, confidence),
        address_of(asking, None) if answering else "",
    )
    page = page_of(about, counted, found, tiles, list(kept))
    if answering:
        page = two_pages(about.title(), page, answering, tiles)
    content = page.encode()
    write_whole(file, content, force, inputs)
    click.echo(f"{file}: {len(found.rows):,} rows of {counted.places.references():,} references")
    of_live = answering.line(len(content), len(drawn)) if answering else ""
    more = (asking.line(), of_live, lacking.line(), *remarks(counted.places), sure.note)
    for line in (*expected, *seems, *questions.summary(), *more):
        if line:
            click.echo(line)
