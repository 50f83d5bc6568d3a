"""What all imports have in common: bans on a map, and how a map is written."""

import shlex
import sys
from collections.abc import Mapping, Sequence
from dataclasses import replace
from pathlib import Path
from typing import Any, NamedTuple

from olr.counts import Counts, short
from olr.importing.roads import LINE_IDS
from olr.importing.u_turns import DeadEnds, UTurns, effective_dead_ends, u_turn_bans
from olr.model.map_folder import STORE, write_csv, write_map
from olr.model.road_map import Ban, RoadMap, within_limits
from olr.regions.making import write_store

NEXT = ("olr-tools", "match", "MESSAGES")
"""The command that asks a store about a file of references."""


class Imported(NamedTuple):
    """A map, and what `import.json` says about it."""

    road_map: RoadMap
    about: Mapping[str, Any]


def with_bans(
    bare: RoadMap,
    turn_restrictions: Sequence[Ban],
    u_turns: UTurns,
    dead_ends: DeadEnds,
    counts: Counts,
) -> tuple[RoadMap, dict[str, Any]]:
    """A map with the bans of turn restrictions, which come without repeats, and those on turning back besides; and what
    `import.json` says about them and the map's size. Bans on turning back for which there is no room are counted.
    """
    added = u_turn_bans(replace(bare, bans=turn_restrictions), u_turns, counts, dead_ends)
    bans = sorted([*turn_restrictions, *added])
    about = {
        "bans": {
            "all": len(bans),
            "turn_restrictions": len(turn_restrictions),
            "u_turns": len(added),
        },
        "dead_ends": effective_dead_ends(u_turns, dead_ends),
        "kept": _roads_by_field(bare),
        "lines": len(bare.lines),
        "nodes": len(bare.nodes),
        "u_turns": u_turns,
    }
    return replace(bare, bans=bans), about


def _roads_by_field(road_map: RoadMap) -> dict[str, int]:
    """For each field that is kept how many roads have a value there."""
    return {
        name: len({origin.line // LINE_IDS for origin in road_map.origins if origin.kept[place]})
        for place, name in enumerate(road_map.kept)
    }


def write_import(imported: Imported, folder: Path, force: bool, counts: Counts) -> None:
    """Writes a map, and then prints what was counted, and how large the map is. One that is too large for `olr` becomes a store: then the
    last line is the command to ask it."""
    about = imported.about
    bans = about["bans"]
    small = within_limits(about["nodes"], about["lines"], bans["all"])
    write_map(imported.road_map, folder, about, force, write_csv if small else write_store)
    counts.report()
    for name, roads in about["kept"].items():
        print(f"kept: roads with {short(name)}: {roads:,}", file=sys.stderr)
    print(
        f"{folder if small else folder / STORE}: {about['nodes']:,} nodes, {about['lines']:,} lines, {bans['all']:,} bans "
        f"({bans['turn_restrictions']:,} of turn restrictions, {bans['u_turns']:,} of U-turns)"
    )
    if not small:
        print("the map is too large for olr, so it became a store: docs/SCALE.md has its uses")
        print(shlex.join([*NEXT, "--map", str(folder), "--out", "answers.gpkg"]))
