"""The command `olr-tools calibrate`."""

import click
from collections.abc import Iterator
from pathlib import Path

from olr.commands import options
from olr.commands.shifting import ADVICE
from olr.confidence.calibrating import Wanted, calibrated
from olr.confidence.confidence import Confidence
from olr.confidence.contents import text_of
from olr.confidence.messages import Feed, read_checked, read_line_references
from olr.confidence.parts import GREATEST_DIFFERENCE, Asking, Drawing
from olr.confidence.shift import Shift
from olr.confidence.weights import ORDER, WEIGHTS
from olr.errors import ToolError
from olr.messages.message import Reading
from olr.model.map_folder import inputs_of
from olr.model.profiles import resolved
from olr.model.questions import NUMBERS
from olr.outputs import require_free_file, write_whole
from olr.trials.likeness import LikeMessages

MOST_REFERENCES = 1_000_000


@click.command()
@options.map_option("DIR", f"The map that is asked: {options.FOLDER}.")
@options.file_option(
    "--for",
    "MESSAGES",
    "A file of messages, as match reads it. Trial paths are like theirs, and their answers say how different the sender's map is: 80 line "
    "references or more. By default nothing is known of the messages, and trials of all differences count.",
    "messages",
)
@click.option(
    "--differ",
    type=click.FloatRange(0, GREATEST_DIFFERENCE),
    metavar="D",
    help=f"How different the sender's map is: from 0, the same one, to {GREATEST_DIFFERENCE:g}; 1 is that of another vendor. By default the "
    "messages of --for say so.",
)
@options.file_option(
    "--pair",
    "OTHER",
    "The sender's map, in a folder, if you have it: trials are drawn on it. By default it is made up of the map of --map.",
)
@options.file_option(
    "--checked",
    "FILE",
    "Answers that somebody checked: lines of a key of --for, a comma or a tab, and right or wrong, of the likeliest place: 20 or more. They "
    "shift all probabilities. By default none is known.",
    "checked_file",
)
@options.out_option(
    "FILE.json", "The file to write, for --confidence. Folders above are made as needed."
)
@options.force_option()
@options.count_option(
    "--references",
    "How many trial references are drawn and asked.",
    greatest=MOST_REFERENCES,
    default=Drawing().references,
)
@options.count_option(
    "--seed",
    "What is drawn: the same seed draws the same references, and makes the same file.",
    least=0,
    default=Drawing().seed,
)
@options.reading_options
@options.tolerance_options
@options.number_options({name: NUMBERS["places"][name] for name in ("apart", "look")})
@options.patience_option()
def command(
    folder: Path,
    messages: Path | None,
    differ: float | None,
    pair: Path | None,
    checked_file: Path | None,
    file: Path,
    force: bool,
    references: int,
    seed: int,
    reading: Reading,
    patience: float,
    **chosen: int | str | None,
) -> None:
    """Find by trials how probable it is that a place is the one that the sender meant, and write it for --confidence.

    References to paths that are known are drawn on the map in DIR, changed as they come from another map, and asked. Trials count that look
    like the messages of --for. docs/CONFIDENCE.md says what the probabilities mean, and where they fail.
    """
    asking = options.of_question("places", chosen)
    if messages is None and reading != Reading():
        raise click.UsageError("--format, --ref, --key and --base64 are for --for")
    if messages is None and checked_file is not None:
        raise click.UsageError("--checked is for --for: it names its messages by their keys")
    if differ is not None and pair is not None:
        raise click.UsageError(
            "--pair has the sender's map, and --differ makes one up: give one of them"
        )
    given = [one for one in (messages, checked_file) if one is not None]
    inputs = [*inputs_of(folder), *given, *([] if pair is None else inputs_of(pair))]
    require_free_file(file, force, inputs)
    keys = {} if checked_file is None else read_checked(checked_file)
    feed = None if messages is None else read_line_references(messages, reading, keys, seed)
    wanted = Wanted(
        feed=[] if feed is None else feed.texts(),
        messages=0 if feed is None else feed.total,
        differ=differ,
        checked=[] if feed is None else _with_texts(feed, keys, checked_file),
        pair=pair,
    )
    likeness = None if feed is None else LikeMessages(one.reference for one in feed.messages)
    numbers = asking.all_numbers()
    confidence = calibrated(
        folder,
        Drawing(references, seed, likeness),
        Asking(resolved(asking.profile, asking.given), numbers["apart"], numbers["look"], patience),
        wanted,
    )
    write_whole(file, text_of(confidence).encode(), force, inputs)
    drawn = confidence.about["drawn"]
    click.echo(f"{file}: {drawn:,} trial references")
    if drawn < references:
        click.echo(f"of {references:,} that were wanted: the map has few such paths")
    for line in (*_lines(confidence), asking.line()):
        click.echo(line)


def _with_texts(feed: Feed, keys: dict[str, bool], file: Path | None) -> list[tuple[str, bool]]:
    """Checked answers with the texts of their messages. Raises `ToolError` for a key that no message with a line reference has."""
    for key in keys:
        if key not in feed.by_key:
            raise ToolError(f"{file}: no message with a line reference has the key {key!r}")
    return [(feed.by_key[key].text, right) for key, right in keys.items()]


def _lines(confidence: Confidence) -> Iterator[str]:
    """What is said of a confidence: how different the maps are, what was checked, and the weights."""
    differs, checked = confidence.map_differs, confidence.about["checked"]
    if differs is not None:
        between = f"{differs.low:.1f} to {differs.high:.1f}"
        yield f"map differs: {differs.value:.1f} ({between}), 1 as that of another vendor"
    about = confidence.about
    yield f"parts that count: {about['counting']:.0f} of {len(about['parts']):,}"
    if outside := (about["feed"] or {}).get("outside"):
        yield f"unlike all trials, so that the level is less certain: {', '.join(outside)}"
    if about.get("shift"):
        so = "true paths are moved so before they are compared" if about["pair"] else ADVICE
        yield f"{Shift(**about['shift']).sentence()}: {so}"
    if checked is not None:
        yield (
            f"checked: {checked['right']:,} of {checked['answers']:,} right, which shifts \"none of these\" by "
            f"{checked['shift']:+.2f}"
        )
    for name, weight in WEIGHTS.items():
        yield f"weight {name}: {confidence.weights[name] / ORDER:.4g} for {weight.unit}"
