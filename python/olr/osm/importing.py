"""A map from an OpenStreetMap file."""

from dataclasses import dataclass
from pathlib import Path
from typing import Any

from olr.counts import Counts, ValueCounts
from olr.errors import ToolError
from olr.importing.antimeridian import cut_roads_across
from olr.importing.roads import cut_roads, map_of
from olr.importing.u_turns import DEAD_ENDS, DeadEnds, UTurns
from olr.importing.writing import Imported, with_bans
from olr.model.box import Box
from olr.osm.reading import Wanted, read_osm
from olr.osm.restrictions import bans_of
from olr.osm.tags import read_tag_table


@dataclass(frozen=True)
class Options:
    """What a user may choose."""

    box: Box | None = None
    """The part of the file to take, or all of it."""
    service: bool = False
    """Whether service roads are taken."""
    tags: Path | None = None
    """The table of tags, or the one of this package."""
    u_turns: UTurns = "dead-ends"
    """Where turning back is banned."""
    keep: tuple[str, ...] = ()
    """The keys of tags that are kept for each line."""
    dead_ends: DeadEnds = DEAD_ENDS
    """What becomes of turning back at dead ends, where `u_turns` is dead-ends."""


def import_osm(file: Path, options: Options, counts: Counts) -> Imported:
    """Makes a map of an OpenStreetMap file, and counts what is left out or changed. The same file and options give the same
    map. Raises `ToolError` if the file or the table of tags can't be read, or if the file has no roads.
    """
    table = read_tag_table(options.tags)
    wanted = Wanted(table, options.service, options.box, options.keep)
    read = read_osm(file, wanted, counts)
    across = ValueCounts()
    roads = cut_roads_across(read.roads, read.positions, across)
    across.hand_on(counts.change)
    cut = cut_roads(roads, read.positions, counts)
    bare = map_of(cut.parts, read.positions, options.keep, counts)
    if not bare.lines:
        counts.report()
        raise ToolError(f"{file} has no roads{'' if options.box is None else ' in the box'}")
    restricted = bans_of(read.restrictions, bare, cut.merged, read.targets, counts)
    road_map, size = with_bans(bare, restricted, options.u_turns, options.dead_ends, counts)
    about: dict[str, Any] = {
        **size,
        "bbox": None if options.box is None else [edge / 1e6 for edge in options.box],
        "file": file.name,
        "importer": "osm",
        "service": options.service,
        "tags": None if options.tags is None else options.tags.name,
        **counts.as_table(),
    }
    return Imported(road_map, about)
