"""The command `olr-tools check`."""

import click
from collections.abc import Iterator
from pathlib import Path
from typing import cast

from olr.checking import report, sources, stores
from olr.checking.files import check_files
from olr.checking.lengths import lines_round_the_earth, look_at_lengths
from olr.checking.map_arrays import MapArrays, arrays_of
from olr.checking.network import look_at_network
from olr.checking.remarks import NAMES, Limits
from olr.client.map_client import Map
from olr.commands import options
from olr.commands.limits import PASSED, end_by
from olr.commands.shifting import ADVICE
from olr.confidence.messages import read_line_references
from olr.confidence.shift import shift_found
from olr.messages.message import Reading
from olr.model.map_folder import store_of
from olr.regions.scratch import scratch_map
from olr.regions.store import Store


class Allowed(click.ParamType):
    """A name of what a map is looked at for, and perhaps how many of it there may be: `NAME` or `NAME=N`."""

    name = "allowed"

    def convert(
        self, value: object, param: click.Parameter | None, ctx: click.Context | None
    ) -> tuple[str, int]:
        """The name and the number. Ends with a usage error if it is none."""
        if isinstance(value, tuple):
            return cast(tuple[str, int], value)
        name, equals, number = str(value).partition("=")
        if name not in NAMES:
            self.fail(f"{name!r} isn't looked at: give one of {', '.join(NAMES)}", param, ctx)
        if equals and not (number.isascii() and number.isdecimal()):
            self.fail(f"{number!r} is no number of {name}: give 0 or more", param, ctx)
        return name, int(number) if equals else NAMES[name].usual


@click.command()
@click.argument("folder", metavar="DIR|STORE", type=options.FILE)
@options.count_option(
    "--most",
    "How many faults of each kind, and examples of each remark, are shown at most: 0 or more.",
    least=0,
    default=10,
)
@click.option(
    "--fail",
    "allowed",
    type=Allowed(),
    multiple=True,
    metavar="WHAT[=N]",
    help=f"End with status {PASSED} if there are more than N of WHAT, by default more than none, or than one of networks and parts: "
    f"{', '.join(NAMES)}. May be given several times. By default any number of them may be.",
)
@options.file_option(
    "--with",
    "MESSAGES",
    "A file of messages, as match reads it: it is said whether the map is shifted against their points, by the likeliest places of up to "
    "2,000 line references. By default nothing is asked.",
    "messages",
)
@options.reading_options
def command(
    folder: Path,
    most: int,
    allowed: tuple[tuple[str, int], ...],
    messages: Path | None,
    reading: Reading,
) -> None:
    """Find what is wrong with a map: the nodes.csv, lines.csv and bans.csv of the folder DIR, or a STORE of olr-tools regions.

    Each fault is a line that begins as olr reports it, and the first one is that which olr stops at. The status is 0 if there is no
    fault, and olr reads the map, 1 if there is one, and 3 if there is none, but more of something than --fail allows. A map without a
    fault is described: what its network, its lengths and its classes should be looked at for, and whether its ids.csv has the same
    lines. The records of a store were checked when it was made: it is seen whether they are as they were written, and its map is
    described if it isn't beyond the limits of olr.
    """
    if messages is None and reading != Reading():
        raise click.UsageError("--format, --ref, --key and --base64 are for --with")
    feed = None if messages is None else read_line_references(messages, reading, {}, 1)
    store = store_of(folder)
    limits = Limits(dict(allowed))
    lines = _of_folder(folder, most) if store is None else _of_store(store, most, limits)
    last = ""
    for line in lines:
        click.echo(line)
        limits.count(line)
        last = last or (line if line.startswith("faults ") else "")
    if last != "faults 0":
        raise SystemExit(1)
    if feed is not None:
        click.echo(_shift_line(folder, feed.texts()))
    end_by(limits.passed())


def _shift_line(folder: Path, texts: list[str]) -> str:
    """What is said of a shift of a map against references. Raises `ToolError`."""
    with Map.of_folder(folder) as asked:
        shift = shift_found(asked, texts)
    return "no shift is certain" if shift is None else f"{shift.sentence()}: {ADVICE}"


def _of_folder(folder: Path, most: int) -> Iterator[str]:
    """What is said of a folder's map."""
    faults, tables = check_files(folder, max(most, 1))
    yield from report.count_lines(tables)
    yield from report.fault_lines(faults)
    if not faults.total():
        road_map = arrays_of(tables)
        yield from _described(road_map, most)
        yield from sources.lines_of_folder(folder, road_map.line_id, most)


def _of_store(file: Path, most: int, limits: Limits) -> Iterator[str]:
    """What is said of a store. Raises `ToolError` for a limit of what isn't looked at."""
    with Store.open(file) as store:
        if not store.sizes.within_limits():
            limits.require_looked_at(file)
        yield from stores.size_lines(store)
        faults = list(stores.fault_lines(store, max(most, 1)))
        yield from faults
        if faults[-1] != "faults 0":
            return
        if store.sizes.within_limits():
            # But for nodes without a line, which are in no block.
            with scratch_map(store, stores.all_lines(store)) as folder:
                _, tables = check_files(folder, max(most, 1))
                yield from _described(arrays_of(tables), most)
        else:
            yield from report.round_lines(store.lines_round_the_earth(), most)
            yield "    the network and the lengths of a map of this size aren't looked at"
        yield from sources.lines_of_store(store, most)


def _described(road_map: MapArrays, most: int) -> Iterator[str]:
    """What a map without a fault should be looked at for."""
    yield from report.box_lines(road_map)
    yield from report.round_lines(lines_round_the_earth(road_map), most)
    yield from report.kind_lines(road_map)
    yield from report.length_lines(road_map, look_at_lengths(road_map), most)
    yield from report.network_lines(road_map, look_at_network(road_map), most)
