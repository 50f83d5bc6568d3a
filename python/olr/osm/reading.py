"""The roads and turn restrictions of an OpenStreetMap file."""

import osmium
from collections import defaultdict
from collections.abc import Callable, Iterable, Iterator, Mapping, Sequence, Set
from itertools import groupby, pairwise
from pathlib import Path
from typing import NamedTuple

from olr.counts import Counts, ValueCounts
from olr.errors import ToolError
from olr.importing.roads import GREATEST_ROAD_ID, Road, Source
from olr.model.box import Box
from olr.model.road_map import GREATEST_ID, GREATEST_LAT, Position
from olr.model.sources import NAME
from olr.osm.format import PBF, UNKNOWN, format_of, named_for_osmium
from olr.osm.tags import NoRoad, Tags, TagTable, first_of, folded, several, value_of
from olr.osm.versions import Deleted, Versions, deleted_in_josm, require_one_time
from olr.progress import progress

UNREADABLE = (RuntimeError, ValueError, osmium.InvalidLocationError)
"""What pyosmium raises for a malformed file."""
STEP = 10_000
"""Ways between two moves of the progress bar."""
UNDEFINED = 2**31 - 1
"""The coordinates of a node that the file lacks."""
OFF_EARTH = "nodes of ways that aren't on the earth: beyond latitude 90 or longitude 180"
NO_RELATION = (
    "the file has no relation, and so no turn restriction: if it should have some, it may have been cut short, which can't be seen "
    "where that is between two blocks: compare its size with that of its source"
)
ONLY = "only_"
"""Kinds of restrictions that allow one turn alone begin so."""


class Wanted(NamedTuple):
    """What of a file becomes roads."""

    table: TagTable
    service: bool
    """Whether service roads do."""
    box: Box | None
    """The part of the file, or None for all of it."""
    keep: tuple[str, ...]
    """The keys of tags that are kept for each road."""


class Restriction(NamedTuple):
    """A turn restriction. Its members are ids of ways and nodes."""

    kind: str
    """Such as no_left_turn."""
    sources: tuple[int, ...]
    """The ways with the role `from`."""
    via_nodes: tuple[int, ...]
    via_ways: tuple[int, ...]
    targets: tuple[int, ...]
    """The ways with the role `to`."""


class Target(NamedTuple):
    """A way of the file that is the only one into which a restriction allows a turn, whether it is on the map or not."""

    usable: bool
    """Whether motor vehicles may use it."""
    entrances: Set[int]
    """The nodes of such restrictions from which they may go along it."""


class OsmRoads(NamedTuple):
    """What a file holds. The vertices of roads are ids of nodes."""

    roads: list[Road]
    positions: dict[int, Position]
    restrictions: list[Restriction]
    targets: Mapping[int, Target]
    """By the ids of the ways. One that lacks isn't in the file."""


def read_osm(file: Path, wanted: Wanted, counts: Counts) -> OsmRoads:
    """Reads the roads and turn restrictions of a file, or of a box in it, and counts what is left out.

    With a box each step from node to node stays that has an end in the box. The file is read twice: of the many ways that aren't on
    the map only those are kept which restrictions name. Raises `ToolError` if the file can't be read, if it hasn't the objects of one
    time, or if its ids aren't those of OpenStreetMap's own data.
    """
    if not file.is_file():
        raise ToolError(f"{file} isn't a file: name one of OpenStreetMap, such as town.osm.pbf")
    format = format_of(file)
    deleted = deleted_in_josm(file, format)
    try:
        with named_for_osmium(file, format) as name:
            with progress(f"turn restrictions of {file.name}") as advance:
                named = _Restrictions(wanted.table, deleted, counts, advance)
                reader = osmium.io.Reader(name, osmium.osm.osm_entity_bits.RELATION)
                require_one_time(file, format, reader.header())
                osmium.apply(reader, named)
                reader.close()
                if format == PBF and not named.relations:
                    counts.hints.append(NO_RELATION)
            with progress(f"ways of {file.name}") as advance:
                nodes_by_target = _nodes_by_target(named.found)
                ways = _Ways(wanted, nodes_by_target, deleted, counts, advance)
                ways.apply_file(name, locations=True)
    except UNREADABLE as error:
        words = " ".join(str(error).split())
        about = f"{file} can't be read as OpenStreetMap data: {words.removesuffix('.')}"
        if format == UNKNOWN:
            about += ": of other files olr-tools import vector makes a map"
        raise ToolError(about) from error
    ways.values.hand_on(counts.leave_out)
    return OsmRoads(ways.roads, ways.positions, named.found, ways.targets)


def _nodes_by_target(restrictions: Iterable[Restriction]) -> dict[int, set[int]]:
    """The ways that are the only ones into which restrictions allow a turn, with the nodes of these restrictions."""
    nodes: dict[int, set[int]] = defaultdict(set)
    for restriction in restrictions:
        if restriction.kind.startswith(ONLY):
            for target in restriction.targets:
                nodes[target].update(restriction.via_nodes)
    return dict(nodes)


class _Ways(osmium.SimpleHandler):
    """Collects roads as pyosmium comes upon them, and what is to be known of the targets of restrictions."""

    def __init__(
        self,
        wanted: Wanted,
        nodes_by_target: Mapping[int, Set[int]],
        deleted: Deleted,
        counts: Counts,
        advance: Callable[[int], None],
    ) -> None:
        super().__init__()
        self.wanted = wanted
        self.nodes_by_target = nodes_by_target
        self.deleted = deleted.get("way", set())
        self.counts = counts
        self.advance = advance
        self.roads: list[Road] = []
        self.positions: dict[int, Position] = {}
        self.targets: dict[int, Target] = {}
        self.values = ValueCounts()
        """The ways that are left out, by a tag."""
        self._ways = 0
        self._versions = Versions("way")

    def way(self, way: osmium.osm.Way) -> None:
        """A way of the file."""
        self._ways += 1
        if self._ways % STEP == 0:
            self.advance(STEP)
        self._versions.require_one(way.id, way.version)
        if way.id in self.nodes_by_target:
            self._note_target(way)
        if "highway" not in way.tags or not way.visible:
            return
        stretches: Sequence[Sequence[int]] | None = None
        if self.wanted.box is not None:
            stretches = self._stretches(way)
            if not stretches:
                return
        if way.id in self.deleted:
            self.counts.leave_out("ways that were deleted in JOSM")
            return
        tags = {tag.k: tag.v for tag in way.tags}
        found = self.wanted.table.meaning_of(tags, self.wanted.service)
        if isinstance(found, NoRoad):
            self._leave_out(found)
            return
        if not self._versions.keep(way.id, way.version):
            self.counts.leave_out("ways with the id of an earlier way")
            return
        _require_id("way", way.id, GREATEST_ROAD_ID)
        if stretches is None:
            stretches = self._stretches(way)
        if found.doubt and stretches:
            self.counts.change(found.doubt)
        kept = tuple(tags.get(key, "") for key in self.wanted.keep)
        source = Source(str(way.id), tags.get(NAME, ""), kept)
        self.roads += [Road(way.id, source, found.kind, vertices) for vertices in stretches]

    def _note_target(self, way: osmium.osm.Way) -> None:
        """Notes a way that is the only one into which a restriction allows a turn."""
        tags = {tag.k: tag.v for tag in way.tags}
        forward, backward = self.wanted.table.usable_directions(tags)
        nodes = [node.ref for node in way.nodes]
        left = {*(nodes[:-1] if forward else ()), *(nodes[1:] if backward else ())}
        entrances = left.intersection(self.nodes_by_target[way.id])
        is_there = way.visible and way.id not in self.deleted
        self.targets.setdefault(way.id, Target(is_there and (forward or backward), entrances))

    def _leave_out(self, found: NoRoad) -> None:
        """Counts a way that isn't on the map."""
        if found.value:
            self.values.add(found.reason, found.value)
        else:
            self.counts.leave_out(found.reason)

    def _stretches(self, way: osmium.osm.Way) -> list[Sequence[int]]:
        """The stretches of a way over nodes that the file has, and in the box. Each has two nodes or more."""
        nodes = [(node.ref, _position(node.location)) for node in way.nodes]
        for node, _ in nodes:
            _require_id("node", node, GREATEST_ID)
        without = sum(position is None for _, position in nodes)
        if without and self.wanted.box is None:
            invalid = sum(not node.location.valid() for node in way.nodes)
            lacking = sum(node.location.x == UNDEFINED for node in way.nodes)
            self.counts.leave_out("nodes of ways that the file lacks", lacking)
            self.counts.leave_out(OFF_EARTH, invalid - lacking)
            self.counts.leave_out("nodes of ways beyond latitude 80", without - invalid)
        stretches = [stretch for stretch in _known(nodes) if len(stretch) > 1]
        if self.wanted.box is not None:
            box = self.wanted.box
            stretches = [part for stretch in stretches for part in _within(stretch, box)]
        elif not stretches:
            self.counts.leave_out("ways without two nodes")
        for stretch in stretches:
            for node, position in stretch:
                self.positions[node] = position
        return [tuple(node for node, _ in stretch) for stretch in stretches]


class _Restrictions(osmium.SimpleHandler):
    """Collects turn restrictions as pyosmium comes upon them."""

    def __init__(
        self, table: TagTable, deleted: Deleted, counts: Counts, advance: Callable[[int], None]
    ) -> None:
        super().__init__()
        self.table = table
        self.deleted = deleted.get("relation", set())
        self.counts = counts
        self.advance = advance
        self.found: list[Restriction] = []
        self.relations = 0
        """How many there are, of all types."""
        self._versions = Versions("relation")

    def relation(self, relation: osmium.osm.Relation) -> None:
        """A relation of the file."""
        self.relations += 1
        self._versions.require_one(relation.id, relation.version)
        if folded(relation.tags.get("type") or "") != "restriction" or not relation.visible:
            return
        if relation.id in self.deleted:
            self.counts.leave_out("turn restrictions that were deleted in JOSM")
            return
        if not self._versions.keep(relation.id, relation.version):
            self.counts.leave_out("turn restrictions with the id of an earlier one")
            return
        tags = {tag.k: tag.v for tag in relation.tags}
        kind = restriction_kind(tags, self.table, self.counts)
        if kind is None:
            return
        members = [(folded(member.role), member.type, member.ref) for member in relation.members]

        def named(role: str, type: str) -> tuple[int, ...]:
            return tuple(ref for *member, ref in members if member == [role, type])

        self.advance(1)
        self.found.append(
            Restriction(
                kind,
                sources=named("from", "w"),
                via_nodes=named("via", "n"),
                via_ways=named("via", "w"),
                targets=named("to", "w"),
            )
        )


def restriction_kind(tags: Tags, table: TagTable, counts: Counts) -> str | None:
    """The kind of a turn restriction, such as no_left_turn, or None if it doesn't hold for all motor vehicles at all times:
    that is counted."""
    kind = first_of(tags, table.restriction_keys)
    has_hours = any(key in tags for key in ("day_on", "day_off", "hour_on", "hour_off"))
    if has_hours or "@" in (kind or ""):
        counts.leave_out("conditional turn restrictions")
    elif kind is not None and table.excepted.intersection(several(value_of(tags, "except"))):
        counts.leave_out("turn restrictions that except motor vehicles")
    elif kind is not None:
        return kind
    elif any(key.startswith("restriction") and key.endswith(":conditional") for key in tags):
        counts.leave_out("conditional turn restrictions")
    elif any(key.startswith("restriction:") for key in tags):
        counts.leave_out("turn restrictions for other vehicles")
    else:
        counts.leave_out("turn restrictions without a type")
    return None


def _position(location: osmium.osm.Location) -> Position | None:
    """A location, given in steps of 1/10 microdegree, or None if the file doesn't have it, or it isn't on the earth up to latitude 80."""
    if not location.valid():
        return None
    position = Position((location.x + 5) // 10, (location.y + 5) // 10)
    return position if abs(position.lat) <= GREATEST_LAT else None


Vertex = tuple[int, Position]
"""A node of a way, by its id, and where it is."""


def _known(nodes: Sequence[tuple[int, Position | None]]) -> Iterator[list[Vertex]]:
    """The stretches of a way between nodes without a position."""
    for is_there, group in groupby(nodes, lambda vertex: vertex[1] is not None):
        if is_there:
            yield [(node, position) for node, position in group if position is not None]


def _within(vertices: Sequence[Vertex], box: Box) -> Iterator[list[Vertex]]:
    """The stretches of a way whose steps have an end in a box."""
    are_in = [box.holds(position) for _, position in vertices]
    steps = zip(pairwise(vertices), map(any, pairwise(are_in)))
    for is_in, group in groupby(steps, lambda step: step[1]):
        if is_in:
            (first, second), *others = (step for step, _ in group)
            yield [first, second, *(after for _, after in others)]


def _require_id(what: str, id: int, greatest: int) -> None:
    """Raises `ToolError` if an id isn't from 1 to the greatest that a map can hold."""
    if id < 1:
        raise ToolError(
            f"{what} {id}: an id below 1 is of an object that isn't uploaded: give the file ids by osmium renumber"
        )
    if id > greatest:
        raise ToolError(f"{what} {id}: the greatest id that a map can hold is {greatest:,}")
