"""The command `olr-tools compare`."""

import click
import os
from contextlib import ExitStack
from pathlib import Path

from olr.client.map_client import Map
from olr.commands import options
from olr.commands.limits import PASSED, end_by
from olr.comparing.asking import Comparison
from olr.comparing.columns import CHANGES
from olr.comparing.limits import Allowed, summary_text
from olr.comparing.places import Limits
from olr.comparing.rows import add_chunk
from olr.comparing.summary import Summary
from olr.confidence.choosing import chosen_for, cut_off_line
from olr.geometry.agreement import ACROSS
from olr.matching.writing import Output, Where, require_writable, writing_rows
from olr.messages.message import Reading
from olr.messages.message_file import message_file
from olr.messages.opening import name_of
from olr.model.asked_with import Asking
from olr.model.map_folder import inputs_of
from olr.outputs import require_free_file, whole_file
from olr.pages.compare.page import TEMPLATE, About, Changed, page_of
from olr.pages.html import html_of, require_page
from olr.progress import progress


@click.command()
@click.argument("file", metavar="MESSAGES", type=options.FILE)
@options.map_option("OLD", f"The old map: {options.OR_STORE}.", "old")
@options.map_option("NEW", "The new map, likewise. Its ids may be others.", "new", "--with")
@options.tolerance_options
@options.places_options
@click.option(
    "--across",
    type=click.IntRange(0, 1000),
    default=ACROSS,
    metavar="N",
    help="Take roads of both maps for one road if they lead the same way and lie no farther apart: 0 to 1000 metres, by default "
    f"{ACROSS}. How long the stretch of one place may be that the other one lacks, --apart says.",
)
@options.confidence_option
@options.patience_option()
@options.reading_options
@options.keep_option
@options.out_option(
    "OUT",
    "The file to write: .gpkg, .geojson, or .csv, which has no geometries. Folders above are made as needed.",
    "out",
)
@options.file_option(
    "--page",
    "PAGE.html",
    "A page to write of the references that change, with a table and a map. It needs no network. By default there is none.",
    "page_file",
)
@options.rows_option("the page shows")
@options.file_option(
    "--summary",
    "SUMMARY.json",
    "A file to write of the summary, as JSON for other programs. By default there is none.",
    "summary_file",
)
@options.count_option(
    "--fail-lost",
    f"End with status {PASSED}, once all is written, if more than N references have a place on the old map and none on the new one. By "
    "default any number may.",
    "lost",
    least=0,
)
@options.count_option(
    "--fail-moved",
    f"End with status {PASSED}, once all is written, if more than N references moved. By default any number may.",
    "moved",
    least=0,
)
@options.force_option("the files to write, if they are there")
def command(
    file: Path,
    old: Path,
    new: Path,
    across: int,
    confidence: Path | None,
    patience: float,
    reading: Reading,
    out: Path,
    page_file: Path | None,
    rows: int,
    summary_file: Path | None,
    lost: int | None,
    moved: int | None,
    force: bool,
    **chosen: int | str | None,
) -> None:
    """Say what changes for the references of MESSAGES with another map: where each one has its place on the map OLD and on the map
    NEW, whether that is the same stretch of road, how far both maps agree, and why it has no place any more.

    MESSAGES has a key, a tab and a reference on each line, or is CSV, JSON, XML or a table of a GIS; - is standard input. OUT has two
    rows for each reference, one for each map, of its likeliest place there. It is written whole or not at all, and so are PAGE and
    SUMMARY. A summary is printed. Places are compared by their geometry, whatever the ids of the maps. docs/COLUMNS.md says what is in
    each column.
    """
    asking = options.of_question("places", chosen)
    where: Where = "force" if force else "new"
    own = [] if confidence is None else [confidence]
    inputs = [file, *inputs_of(old), *inputs_of(new), *own]
    require_writable(out, where, inputs)
    if page_file is not None:
        _require_page(page_file, force, inputs)
    if summary_file is not None:
        _require_others(summary_file, [out, page_file])
        require_free_file(summary_file, force, inputs)
    allowed = Allowed(lost, moved)
    apart = asking.all_numbers()["apart"]
    more = f", across {across} m"
    summary = Summary()
    with ExitStack() as stack:
        given = stack.enter_context(message_file(file, reading))
        output = Output(out, "changes", CHANGES).keeping(given.kept)
        changed = Changed(0 if page_file is None else rows, output.kept)
        before, after = (
            stack.enter_context(
                Map.of_folder(one, **asking.tolerances, patience=patience, confidence=confidence)
            )
            for one in (old, new)
        )
        sure = chosen_for(after, asking.numbers, confidence is not None)
        limits = Limits(across, apart / 10)
        comparison = Comparison(before, after, asking.numbers, limits)
        made, summary_made = (
            one and stack.enter_context(whole_file(one, force, inputs))
            for one in (page_file, summary_file)
        )
        written = stack.enter_context(writing_rows(output, where, inputs))
        advance = stack.enter_context(progress("comparing", given.total))
        for chunk in comparison.chunks(given.messages()):
            add_chunk(written, chunk)
            summary.add(chunk.references)
            changed.add(chunk.references)
            advance(len(chunk.references))
        if made is not None:
            probable = sure.note or _probable_by(confidence)
            numbers = asking.text() + more
            about = About(name_of(file), old, new, numbers, asking.all_numbers(), probable)
            page = page_of(about, summary, changed, after)
            made.write_text(page, encoding="utf-8")
        if summary_made is not None:
            of_files = {"messages": name_of(file), "new": str(new), "old": str(old)}
            content = summary_text(summary, of_files, _asked_with(asking, across), allowed)
            summary_made.write_text(content, encoding="utf-8")
    click.echo(f"{out}: {written.rows:,} rows of {summary.references:,} references")
    if page_file is not None:
        click.echo(f"{page_file}: {len(changed.chosen()):,} of {changed.count:,} that change")
    for line in (*summary.lines(), asking.line(more), cut_off_line(summary.cut_off), sure.note):
        if line:
            click.echo(line)
    end_by([it.line() for it in allowed.limits(summary) if it.is_passed()])


def _asked_with(asking: Asking, across: int) -> dict[str, int | str]:
    """With what both maps were asked and compared: all numbers by the names of their options, in their units."""
    return {**asking.all_numbers(), "across": across, "profile": asking.profile}


def _require_others(summary: Path, others: list[Path | None]) -> None:
    """Raises `UsageError` if the summary would be written in place of another file."""
    if os.path.realpath(summary) in [os.path.realpath(one) for one in others if one is not None]:
        raise click.UsageError(f"--summary and another option name one file, {summary}: name two")


def _probable_by(file: Path | None) -> str:
    """What the page says of the file by which places have probabilities."""
    return "by the file that comes with olr-tools" if file is None else f"by {file}"


def _require_page(file: Path, force: bool, inputs: list[Path]) -> None:
    """Raises `ToolError` if a page can't be written there, or Leaflet isn't installed: before anything is asked."""
    require_page(file, force, inputs)
    html_of(TEMPLATE, "", {})
