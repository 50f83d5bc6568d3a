"""The command `olr-tools match`."""

import click
import os
from collections.abc import Mapping
from contextlib import ExitStack
from pathlib import Path
from typing import Any

from olr.client.map_client import Map
from olr.commands import options
from olr.commands.shifting import Wanted, line_of, shift_for, shift_option
from olr.confidence.choosing import chosen_for, cut_off_line
from olr.matching.asking import Asked
from olr.matching.columns import NO_PLACE, OF_QUESTION, PIECES
from olr.matching.lacking import Lacking
from olr.matching.reasons import ReasonsBeside
from olr.matching.writing import (
    Output,
    Where,
    has_geometries,
    require_writable,
    writing_rows,
)
from olr.messages.message import Reading
from olr.messages.message_file import message_file
from olr.model.map_folder import inputs_of
from olr.model.questions import NUMBERS, Setting, What, likely


@click.command()
@click.argument("file", type=options.FILE)
@options.map_options
@options.question_option("places", "written", "Write the places of each reference, with a verdict")
@options.number_options(NUMBERS["places"], "with --places, ")
@options.question_option(
    "why",
    "written",
    "Write why each reference has no matching, and what helps; with --places these are columns behind the places",
)
@options.number_options(NUMBERS["match"], "without --places and --why, ")
@click.option(
    "--part",
    type=click.Choice(["outer", "inner"]),
    default="outer",
    show_default=True,
    help="The part of a location to draw: what it covers at most, or what at least.",
)
@options.confidence_option
@options.patience_option()
@options.reading_options
@options.keep_option
@shift_option
@options.out_option(
    "OUT",
    "The file to write: .gpkg, .geojson, or .csv, which has no geometries. Folders above are made as needed.",
    "out",
)
@options.file_option(
    "--pieces",
    "PIECES",
    "A second file to write, with a row for each piece of a line that is covered: .csv, .gpkg or .geojson. By default there is none.",
)
@options.force_option("the files to write, if they are there")
@options.flag_option(
    "--append",
    "Add the rows to the files to write, if they are there: .gpkg or .csv, with the same columns. By default a file that is there is refused.",
)
def command(
    file: Path,
    folder: Path,
    places: bool,
    why: bool,
    part: Any,
    confidence: Path | None,
    patience: float,
    reading: Reading,
    shift: Wanted,
    out: Path,
    pieces: Path | None,
    force: bool,
    append: bool,
    **chosen: int | str | None,
) -> None:
    """Match the references of FILE on a map, and write what they fit as geometries.

    FILE has a key, a tab and a reference on each line, or is CSV, JSON, XML or a table of a GIS; - is standard input. A summary is printed. A reference
    that fits nothing has a row without a geometry. `record` is its number in FILE. OUT is written whole or not at all, and so is
    PIECES. docs/COLUMNS.md says what is in each column.
    """
    question: What = "places" if places else "why" if why else "match"
    asking = options.of_question(question, chosen)
    where = _where(force, append)
    outputs = _outputs(question, why, out, pieces)
    if confidence is not None and not places:
        raise click.UsageError("--confidence is for --places")
    inputs = [file, *inputs_of(folder), *([] if confidence is None else [confidence])]
    for output in outputs:
        require_writable(output.file, where, inputs)
    tolerances = asking.tolerances
    with Map.of_folder(folder, patience=patience, confidence=confidence, **tolerances) as asked:
        sure = chosen_for(asked, asking.numbers, confidence is not None) if places else None
        lacking = Lacking(asked, asking.other())
        found = shift_for(asked, file, reading, shift)
        reading = reading._replace(shift=found or (0.0, 0.0))
        with ExitStack() as stack:
            nowhere_to = None if why else lacking
            beside = ReasonsBeside(asked, lacking) if places and why else None
            given = stack.enter_context(message_file(file, reading))
            outputs[0] = outputs[0].keeping(given.kept)
            messages = Asked(asked, given, nowhere_to, beside)
            written = [stack.enter_context(writing_rows(one, where, inputs)) for one in outputs]
            if question == "why":
                messages.write_reasons(asking.numbers, written[0])
            else:
                second = written[1] if len(written) > 1 else None
                settings: Mapping[str, Setting] = asking.numbers
                settings = likely(settings) if places else settings
                network = asked.network() if pieces and has_geometries(pieces) else None
                messages.write_answers(
                    question,
                    settings,
                    part,
                    written[0],
                    second,
                    network,
                    with_geometries=has_geometries(out),
                )
        nowhere = lacking.line()
    references = sum(messages.outcomes.values())
    click.echo(f"{out}: {written[0].rows:,} rows of {references:,} references")
    for output, sink in zip(outputs[1:], written[1:]):
        click.echo(f"{output.file}: {sink.rows:,} rows")
    for line in messages.summary():
        click.echo(line)
    for more in (
        asking.line(),
        line_of(shift, found),
        nowhere,
        cut_off_line(messages.cut_off),
        sure and sure.note,
    ):
        if more:
            click.echo(more)


def _where(force: bool, append: bool) -> Where:
    """Where rows go. Raises `UsageError` for two answers."""
    if force and append:
        raise click.UsageError("--force replaces a file, and --append adds to it: give one of them")
    return "force" if force else "append" if append else "new"


def _outputs(question: What, with_reasons: bool, out: Path, pieces: Path | None) -> list[Output]:
    """The files to write. Raises `UsageError` for one file in place of two, and for pieces of what has none."""
    more = NO_PLACE if question == "places" and with_reasons else {}
    outputs = [Output(out, question, {**OF_QUESTION[question], **more})]
    if pieces is not None:
        if question == "why":
            raise click.UsageError("--pieces is for matchings and places, not for --why")
        if os.path.realpath(pieces) == os.path.realpath(out):
            raise click.UsageError("--pieces and --out name one file: name two")
        outputs.append(Output(pieces, "pieces", PIECES))
    return outputs
