"""The command `olr-tools u-turns`, and the options that it shares with imports."""

import click
from collections.abc import Mapping
from pathlib import Path
from typing import Any, get_args

from olr.commands import options
from olr.counts import Counts
from olr.errors import ToolError
from olr.importing.u_turns import (
    DEAD_ENDS,
    REASONS,
    DeadEnds,
    UTurns,
    effective_dead_ends,
    u_turn_bans,
)
from olr.model.map_folder import STORE_SUFFIX, WANTED, read_about, read_map, store_of, write_bans
from olr.model.road_map import require_within_limits


def _dead_ends(ctx: click.Context, _option: click.Parameter, given: DeadEnds | None) -> DeadEnds:
    """What becomes of turning back at dead ends. Raises `UsageError` if it is to be banned there, but not at all junctions."""
    u_turns = ctx.params["u_turns"]
    if given == "ban" and u_turns != "dead-ends":
        raise click.UsageError(f"--dead-ends ban is for --u-turns dead-ends, not for {u_turns}")
    return effective_dead_ends(u_turns, given or DEAD_ENDS)


u_turns_option = click.option(
    "--u-turns",
    type=click.Choice(get_args(UTurns)),
    default="dead-ends",
    show_default=True,
    is_eager=True,
    help="Ban turning back but at dead ends, at plain nodes alone, or nowhere.",
)
"""It is read before `--dead-ends`."""
dead_ends_option = click.option(
    "--dead-ends",
    type=click.Choice(get_args(DeadEnds)),
    callback=_dead_ends,
    help=f"With --u-turns dead-ends: allow turning back at dead ends, or ban it there too. By default {DEAD_ENDS}.",
)


@click.command()
@click.argument("folder", metavar="DIR", type=options.FILE)
@u_turns_option
@dead_ends_option
def command(folder: Path, u_turns: UTurns, dead_ends: DeadEnds) -> None:
    """Add bans on turning back to the map in DIR, in its bans.csv, and say so in its import.json.

    Turning back is banned wherever another line leads on, or at plain nodes alone: just two lines start there, of which one
    leads back and the other one on. With --dead-ends ban it is banned at dead ends too. Bans that are there stay.
    """
    counts = Counts()
    store = store_of(folder)
    if store == folder and folder.suffix.lower() != STORE_SUFFIX:
        raise ToolError(f"{folder} isn't the folder of a map: {WANTED}")
    if store is not None:
        too = " --dead-ends ban" if dead_ends == "ban" else ""
        raise ToolError(
            f"{store} is a store, whose bans are those of its import: import its file again with --u-turns {u_turns}{too}, or name the "
            "folder that it was made of, and make it again by olr-tools regions"
        )
    road_map = read_map(folder)
    about = read_about(folder)
    added = u_turn_bans(road_map, u_turns, counts, dead_ends)
    bans = [*road_map.bans, *added]
    require_within_limits(len(road_map.nodes), len(road_map.lines), len(bans), "cut the map")
    if about is not None:
        about = _with_added(about, (u_turns, dead_ends), len(road_map.bans), len(added), counts)
    write_bans(bans, folder, about)
    counts.report()
    click.echo(f"{folder}: {len(added):,} bans added, {len(bans):,} bans")


def _with_added(
    about: Mapping[str, Any],
    now: tuple[UTurns, DeadEnds],
    there: int,
    added: int,
    counts: Counts,
) -> dict[str, Any]:
    """What the `import.json` of a map says after bans were added to some that were there, by the settings `now`. Of these and the ones
    before those hold that ban more. Older versions didn't write `dead_ends`, and allowed turning back there. If the bans weren't those
    of the import any more, all that were there count as turn restrictions.
    """
    by_import = about["bans"]["u_turns"] if about["bans"]["all"] == there else 0
    settings = min(now, (about["u_turns"], about.get("dead_ends", "allow")), key=_leniency)
    left_out = about["left_out"]
    if settings == now:
        others = {reason: left_out[reason] for reason in left_out if reason not in REASONS}
        left_out = {**others, **counts.left_out}
    bans = {
        "all": there + added,
        "turn_restrictions": there - by_import,
        "u_turns": by_import + added,
    }
    u_turns, dead_ends = settings
    return {**about, "bans": bans, "dead_ends": dead_ends, "left_out": left_out, "u_turns": u_turns}


def _leniency(settings: tuple[UTurns, DeadEnds]) -> tuple[int, int]:
    """Orders settings by what they allow, the ones that ban most first."""
    u_turns, dead_ends = settings
    return get_args(UTurns).index(u_turns), int(dead_ends != "ban")
