"""The command `olr-tools run`."""

import click
import os
from collections import Counter
from collections.abc import Iterator, Sequence
from contextlib import contextmanager
from pathlib import Path
from typing import TYPE_CHECKING

from olr.asking.program import SHIPPED, find_program
from olr.client.map_client import Map
from olr.commands import options
from olr.confidence.choosing import Chosen, chosen_for, cut_off_line
from olr.content import Stamp, sha256_of
from olr.errors import ToolError
from olr.extras import needed_by
from olr.messages.message import KEY, REF, Reading
from olr.messages.message_file import MessageFile
from olr.messages.opening import as_file, name_of
from olr.messages.reading import WANTED, format_in
from olr.model.asked_with import Asking
from olr.model.map_folder import LINES, LINES_HEADER, NODES, NODES_HEADER, write_rows
from olr.model.questions import NUMBERS, Setting, What, likely
from olr.outputs import require_free_file
from olr.regions.store import Store
from olr.running.answering import ANSWERED, Job
from olr.running.asked_map import AskedMap
from olr.running.grouping import Grouped
from olr.running.identity import Build
from olr.running.isolating import FAILURES
from olr.running.joining import join
from olr.running.question import Question, all_settings
from olr.running.records import content_of, of_one_edition, read_records
from olr.running.run_folder import FAILED, RUN, RunFolder
from olr.running.tasks import Outcome
from olr.running.workers import answer_here
from olr.temporary import temporary_folder

if TYPE_CHECKING:
    from olr.running.geometries import Geometries

ROWS = (".csv", ".geojson", ".gpkg", ".parquet")
"""Endings of files of rows."""


@click.command()
@click.argument("messages", type=options.FILE)
@options.reading_options
@options.keep_option
@options.file_option(
    "--map",
    "DIR|STORE",
    f"The map: {options.OR_STORE}. By default --store names it.",
    "map_path",
)
@options.file_option(
    "--store",
    "STORE",
    "A map that is a store, made by olr-tools regions, or the folder to which an import wrote one. By default --map names the map.",
)
@options.out_option("DIR", "The folder of the run: a new or an empty one.", "out")
@click.option(
    "--scheduler",
    metavar="ADDRESS",
    help="The address of a scheduler of Dask, such as tcp://host:8786. By default the run has processes of its own on this machine.",
)
@options.count_option(
    "--workers",
    "How many processes a run without a scheduler has on this machine: 1 or more. By default one for each processor.",
)
@options.flag_option(
    "--resume",
    "Go on with the run that the folder of --out holds, which has to be there. By default a folder that holds one is refused.",
)
@options.file_option(
    "--join",
    "FILE",
    "Write the lines of all parts to one file too, in the order of the records. By default there are the parts alone.",
    "joined",
)
@options.file_option(
    "--geometries",
    "FILE",
    "Write the rows of olr-tools match too, part by part: .gpkg, .geojson or .csv. By default no geometries are written.",
)
@options.file_option(
    "--pieces",
    "FILE",
    "Write a row for each piece of a line too, as olr-tools match --pieces. By default none are written.",
)
@options.force_option("the files of --join, --geometries and --pieces, if they are there")
@options.question_option(
    "places", "asked for", "Ask for the places of each reference, with a verdict"
)
@options.question_option(
    "why", "asked for", "Ask why each reference has no matching, and what helps"
)
@options.question_option(
    "candidates", "asked for", "Ask for the candidates of each point of a reference"
)
@options.number_options(NUMBERS["match"], "without --places, --why and --candidates, ")
@options.number_options(NUMBERS["places"], "with --places, ")
@options.number_options(NUMBERS["why"], "with --why, ")
@options.tolerance_options
@options.confidence_option
@options.patience_option("Then a record that stands alone gets the fault TimedOut.")
@options.count_option(
    "--per-group",
    "How many records a group, and so a part, has at most: 1 or more. By default 50 to 4,000, by how many records there are.",
)
def command(
    messages: Path,
    reading: Reading,
    map_path: Path | None,
    store: Path | None,
    out: Path,
    scheduler: str | None,
    workers: int | None,
    resume: bool,
    joined: Path | None,
    geometries: Path | None,
    pieces: Path | None,
    force: bool,
    places: bool,
    why: bool,
    candidates: bool,
    confidence: Path | None,
    patience: float,
    per_group: int | None,
    **chosen: int | str | None,
) -> None:
    """Match any number of references on a map of any size, on many processors or machines.

    MESSAGES has a key, a tab and a reference on each line, or is CSV, JSON, XML or a table of a GIS; - is standard input. DIR gets files with the lines of
    olr batch, parts/000000.jsonl and so on; with --places those of olr batch places --order likely --detail --confidence FILE. A part is
    complete or absent: whatever happens, --resume goes on after what is written.
    """
    question = options.one_question({"places": places, "why": why, "candidates": candidates})
    asking = options.of_question(question, chosen)
    numbers = asking.tolerances | asking.numbers
    given: dict[str, Setting] = {name.removesuffix("_"): one for name, one in numbers.items()}
    if scheduler is not None and workers is not None:
        raise click.UsageError("--workers is for a run without --scheduler")
    others = [one for one in (joined, geometries, pieces) if one is not None]
    if force and not others:
        raise click.UsageError("--force is for --join, --geometries and --pieces")
    if len({os.path.realpath(one) for one in others}) < len(others):
        raise click.UsageError("--join, --geometries and --pieces name one file: name several")
    asked_map = _map_of(map_path, store, scheduler)
    digest = asked_map.digest()
    inputs = [messages, *asked_map.inputs(), out / RUN]
    inputs += [] if confidence is None else [confidence]
    if joined is not None:
        require_free_file(joined, force, inputs)
        if joined.suffix.lower() in ROWS:
            raise click.UsageError("--join writes lines of JSON: --geometries writes rows")
    if reading.keep and geometries is None:
        raise click.UsageError("--keep is for --geometries: lines have no room for more")
    rows = _rows(question, geometries, pieces, force, inputs)
    run = RunFolder(out, along_curve=asked_map.is_store)
    is_drawn = geometries is not None and geometries.suffix.lower() != ".csv"
    if is_drawn or (resume and run.has_shapes()):
        given["shape"] = True
    if confidence is not None and question != "places":
        raise click.UsageError("--confidence is for --places")
    if question == "places":
        given = likely(given)
    sure = _require_numbers(asking, asked_map, patience, confidence)
    copy, name = click.get_current_context().with_resource(as_file(messages)), name_of(messages)
    stamp, kind = Stamp.of(copy, WANTED), format_in(copy, reading, name)
    if rows is not None and geometries is not None and (reading.keep or kind == "xml"):
        # What lines have no room for: members that are kept, and own faults, which messages of XML may have.
        file = MessageFile(copy, reading, name, stamp)
        if reading.keep:
            file.look_through()
        rows = rows._replace(messages=file)
    asked = Question(
        messages=content_of(copy),
        store=digest,
        program=Build.of(find_program()),
        what=question,
        options=all_settings(question, given),
        per_group=per_group,
        format=kind,
        ref=reading.ref or REF,
        key=reading.key or KEY,
        base64=reading.base64,
        confidence=sha256_of(confidence or SHIPPED) if question == "places" else None,
    )
    records = read_records(copy, reading._replace(keep=()), name)
    records = of_one_edition(records, copy, stamp, name)
    with run.begun(asked, records, resume) as grouped:
        by = None if confidence is None else confidence.absolute()
        job = Job(out.absolute(), asked_map, asked, grouped.sha256, patience, by)
        outcome = _answer(job, grouped, scheduler, workers)
        run.sync()
        _report(run, grouped, outcome, asking)
        if joined is not None:
            lines = [run.lines(asked, grouped, group) for group in range(grouped.groups)]
            parts = map(run.file_of, range(grouped.groups))
            join(lines, joined, grouped.records, force, [*inputs, *parts])
            click.echo(f"{joined}: {grouped.records:,} lines")
        if rows is not None:
            from olr.running.geometries import write_geometries

            numbered = range(grouped.groups)
            asked_lines = [run.asked_lines(asked, grouped, group) for group in numbered]
            written = write_geometries(rows, asked, asked_map, asked_lines)
            for made, count in written.files:
                click.echo(f"{made}: {count:,} rows")
            if more := cut_off_line(written.cut_off):
                click.echo(more)
        if sure and sure.note:
            click.echo(sure.note)
        _require_answers(run, outcome.counts)


def _map_of(path: Path | None, store: Path | None, scheduler: str | None) -> AskedMap:
    """The map. Raises `UsageError` if none is named, or two, or a folder for a scheduler, and `ToolError`."""
    if path is None and store is None:
        raise click.UsageError("name the map: --map DIR, or --store STORE for a store")
    if path is not None and store is not None:
        raise click.UsageError("--map and --store name two maps: name one")
    if path is None:
        with Store.open(store or Path()) as opened:
            return AskedMap(opened.file.absolute())
    named = AskedMap.of(path)
    if scheduler is not None and not named.is_store:
        raise click.UsageError(
            "--scheduler is for a store, of which each worker reads what it needs: make one by olr-tools regions"
        )
    named.require_there(path)
    return named


def _rows(
    question: What,
    geometries: Path | None,
    pieces: Path | None,
    force: bool,
    inputs: Sequence[Path],
) -> "Geometries | None":
    """The files of rows to write, if any are. Raises `UsageError` for a question whose answers aren't on lines, and `ToolError` if a file
    can't be written there, or a module is missing."""
    if geometries is None and pieces is None:
        return None
    if question not in ("match", "places"):
        raise click.UsageError("--geometries and --pieces are for matchings and places")
    with needed_by("olr-tools run --geometries", "geo"):
        from olr.running.geometries import Geometries
    rows = Geometries(geometries, pieces, "force" if force else "new", inputs)
    rows.require_writable()
    return rows


def _require_numbers(
    asking: Asking, asked_map: AskedMap, patience: float, confidence: Path | None
) -> Chosen | None:
    """The confidence of places. Raises `Fault` where the program refuses a number, `MapRefused` where it refuses the map of a folder,
    `ProgramNotFound`, `TimedOut` where it answers nothing for so many seconds, and as `chosen_for`: before anything is written.
    """
    with _scratch_files(), temporary_folder("olr-run.") as scratch:
        folder = scratch if asked_map.is_store else asked_map.path
        if asked_map.is_store:
            write_rows(folder / NODES, NODES_HEADER, [])
            write_rows(folder / LINES, LINES_HEADER, [])
        tolerances = asking.tolerances
        with Map.of_folder(folder, patience=patience, confidence=confidence, **tolerances) as asked:
            list(asked.answers(asking.question, [""], **asking.numbers))
            if asking.question != "places":
                return None
            return chosen_for(asked, asking.numbers, confidence is not None)


def _answer(job: Job, grouped: Grouped, scheduler: str | None, workers: int | None) -> Outcome:
    """Answers all groups, by a scheduler or on this machine. Raises `ToolError`."""
    if not grouped.groups:
        return Outcome(Counter(), {})
    if scheduler is None:
        with _scratch_files():
            return answer_here(workers, job, grouped)
    with needed_by("olr-tools run --scheduler", "scale"):
        from olr.running.cluster import answer_by
    return answer_by(scheduler, job, grouped)


@contextmanager
def _scratch_files() -> Iterator[None]:
    """Raises `ToolError` for each error of the system's files: scratch files of the command can't be written."""
    try:
        yield
    except OSError as error:
        if error.errno is None:
            raise
        about = f"scratch files can't be written: {error.strerror}"
        raise ToolError(f"{about}: name another folder by TMPDIR") from error


def _report(run: RunFolder, grouped: Grouped, outcome: Outcome, asking: Asking) -> None:
    """Prints what was answered. Raises `ToolError` if groups failed, or there isn't one line for each record."""
    counts, failed = outcome
    parts = grouped.groups - len(failed)
    run.note_failed(failed)
    click.echo(f"{run.path}: {counts.total():,} lines of {grouped.records:,} in {parts:,} parts")
    for name, number in sorted(counts.items(), key=lambda pair: (-pair[1], pair[0])):
        click.echo(f"{_kind(name)}: {number:,}")
    click.echo(asking.line())
    if failed:
        reasons = Counter(failed.values()).most_common()
        more = f", and {len(reasons) - 1} other reasons" if len(reasons) > 1 else ""
        raise ToolError(
            f"{len(failed):,} of {grouped.groups:,} groups failed, listed in {run.path / FAILED}: "
            f"{reasons[0][0]}{more}: go on by --resume"
        )
    if counts.total() != grouped.records:
        raise ToolError(f"{run.path} hasn't one line for each record: go on by --resume")


def _kind(name: str) -> str:
    """What lines are called that have an answer, or a fault of that name."""
    if name == ANSWERED:
        return name
    return f"{'failed' if name in FAILURES else 'refused'}, {name}"


def _require_answers(run: RunFolder, counts: Counter[str]) -> None:
    """Raises `ToolError` if the program failed at records: their lines say so, in place of an answer or a fault of the program."""
    failed = {name: counts[name] for name in FAILURES if counts[name]}
    if failed:
        names = ", ".join(f"{name}: {number:,}" for name, number in failed.items())
        raise ToolError(
            f"the program failed at {sum(failed.values()):,} of {counts.total():,} records, and their lines in {run.path} say so ({names}): "
            "to ask them again, delete their parts, and go on by --resume"
        )
