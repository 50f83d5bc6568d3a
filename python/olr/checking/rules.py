"""The rules for the records of a map's files.

The program stops at the first faulty record. Here each record is looked at, and all that is wrong with it is reported. What only
follows from another fault isn't one: a line whose node has a faulty latitude isn't said to lack that node.
"""

from collections.abc import Iterator, Sequence
from operator import eq
from typing import NamedTuple

from olr.checking import remedies
from olr.checking.faults import Fault, Faults
from olr.checking.tables import Ends, Lines, Nodes, Point, Tables
from olr.model.map_folder import BANS_HEADER, LINES_HEADER, NODES_HEADER
from olr.model.values import id_of, kind_of, lat_of, length_of, lon_of, shape_of

HEADERS = {"nodes": NODES_HEADER, "lines": LINES_HEADER, "bans": BANS_HEADER}

Record = tuple[int, int, list[str]]
"""The number of a record, the line of the file on which it begins, and its fields."""


class _Checked(NamedTuple):
    """A record that is checked."""

    faults: Faults
    """Where its faults go."""
    file: str
    record: Record
    subject: str | None = None
    """What the record is, as in `Fault`."""

    def add(self, name: str, what: str, remedy: str, column: int | None = None) -> None:
        """Adds a fault of the record."""
        number, line, _ = self.record
        self.faults.add(Fault(name, self.file, what, remedy, number, line, column, self.subject))

    def add_fields(self, values: Sequence[object]) -> bool:
        """Adds a fault for each field that has no value, and says whether there is one."""
        if None not in values:
            return False
        for column, (name, value) in enumerate(zip(HEADERS[self.file], values), 1):
            if value is None:
                text = self.record[2][column - 1]
                what, remedy = remedies.field_fault(name, text), remedies.field_remedy(name, text)
                self.add("Field", what, remedy, column)
        return True

    def add_duplicate(self, earlier: int, remedy: str) -> None:
        """Adds the fault that an earlier record says the same."""
        self.add("Duplicate", f"record {earlier} has it already", remedy)


def check_nodes(records: Iterator[Record], faults: Faults, tables: Tables) -> None:
    """The rules for a node."""
    nodes = tables.nodes = Nodes()
    for record in records:
        number, _, fields = record
        id = id_of(fields[0])
        earlier = nodes.records.setdefault(id, number) if id is not None else number
        if len(fields) != len(NODES_HEADER):
            continue
        lon, lat = lon_of(fields[1]), lat_of(fields[2])
        checked = _Checked(faults, "nodes", record, f"id {id}" if id is not None else None)
        faulty = checked.add_fields((id, lon, lat))
        if earlier != number:
            remedy = "Give each node an id of its own, or drop the repeated record"
            checked.add_duplicate(earlier, remedy)
        elif not faulty:
            assert id is not None and lon is not None and lat is not None
            nodes.points[id] = lon, lat


def check_lines(records: Iterator[Record], faults: Faults, tables: Tables) -> None:
    """The rules for a line. Where the nodes aren't known those on its ends are left out."""
    lines = tables.lines = Lines()
    for record in records:
        number, _, fields = record
        id = id_of(fields[0])
        earlier = lines.records.setdefault(id, number) if id is not None else number
        if len(fields) != len(LINES_HEADER):
            continue
        start, end = id_of(fields[1]), id_of(fields[2])
        kinds = kind_of(fields[3]), kind_of(fields[4])
        length, shape = length_of(fields[5]), shape_of(fields[6])
        checked = _Checked(faults, "lines", record, f"id {id}" if id is not None else None)
        values = (id, start, end, *kinds, length, shape)
        faulty = checked.add_fields(values)
        if earlier != number:
            remedy = "Give each direction of a road an id of its own, or drop the repeated record"
            checked.add_duplicate(earlier, remedy)
        elif id is not None:
            lines.ends[id] = start, end
        _add_ends(checked, (start, end), tables.nodes)
        if length == 0:
            remedy = "Lengths are decimetres: metres times 10, rounded, and at least 1"
            checked.add("ZeroLength", "length is 0", remedy)
        if shape is not None:
            _add_repeated(checked, (start, end), shape, tables.nodes)
        if not faulty:
            lines.add((v for v in values[:6] if v is not None), shape or [])


def _add_ends(checked: _Checked, ends: Ends, nodes: Nodes | None) -> None:
    """Adds the fault of a line whose nodes aren't in the file of nodes."""
    if nodes is None or all(end is None or end in nodes.records for end in ends):
        return
    unknown = [
        f"{end} ({name})"
        for name, end in zip(("from", "to"), ends)
        if end is not None and end not in nodes.records
    ]
    what = f"nodes.csv has no node {' and no node '.join(unknown)}"
    remedy = "Add the node, or drop the line: both files are to be cut at the same border"
    checked.add("UnknownNode", what, remedy)


def _add_repeated(checked: _Checked, ends: Ends, shape: list[int], nodes: Nodes | None) -> None:
    """Adds the fault of a line that has equal neighbours among its points."""
    known = nodes.points if nodes is not None else {}
    first, last = (known.get(end) if end is not None else None for end in ends)
    twice = _repeated(shape, first, last, ends)
    if twice is not None:
        remedy = "Leave repeated points and the line's own ends out of its shape"
        if not shape:
            remedy = "Join nodes in one microdegree to one, or give the line a shape"
        checked.add("Degenerate", twice, remedy)


def _repeated(shape: list[int], first: Point | None, last: Point | None, ends: Ends) -> str | None:
    """Which neighbours among the points of a line are equal, in words; None if none are. An end that isn't known is None."""
    if not shape:
        if ends[0] is not None and ends[0] == ends[1]:
            return "the line has no shape, and goes from a node to itself"
        if first is not None and first == last:
            return f"the line has no shape, and both its nodes lie at {first[0]} {first[1]}"
        return None
    if (shape[0], shape[1]) == first:
        return "the shape begins at the line's first node"
    if (shape[-2], shape[-1]) == last:
        return "the shape ends at the line's last node"
    lons = shape[::2]
    if any(map(eq, lons, lons[1:])):
        points = list(zip(lons, shape[1::2]))
        for number, (one, next_one) in enumerate(zip(points, points[1:]), 1):
            if one == next_one:
                return f"points {number} and {number + 1} of the shape are equal"
    return None


def check_bans(records: Iterator[Record], faults: Faults, tables: Tables) -> None:
    """The rules for a ban. Where the lines aren't known those on its lines are left out."""
    lines = tables.lines
    bans = tables.bans = {}
    for record in records:
        number, _, fields = record
        if len(fields) != len(BANS_HEADER):
            continue
        first, second = id_of(fields[0]), id_of(fields[1])
        if _Checked(faults, "bans", record).add_fields((first, second)):
            continue
        assert first is not None and second is not None
        checked = _Checked(faults, "bans", record, f"{first},{second}")
        earlier = bans.setdefault((first, second), number)
        if earlier != number:
            checked.add_duplicate(earlier, "Drop the repeated record")
        if lines is None:
            continue
        unknown = [str(id) for id in dict.fromkeys((first, second)) if id not in lines.records]
        if unknown:
            what = f"lines.csv has no line {' and no line '.join(unknown)}"
            remedy = "Name two lines by their ids, one direction each, or drop the ban"
            checked.add("UnknownLine", what, remedy)
            continue
        end = lines.ends.get(first, (None, None))[1]
        start = lines.ends.get(second, (None, None))[0]
        if end is not None and start is not None and end != start:
            what = f"line {first} ends at node {end}, and line {second} starts at node {start}"
            remedy = "A ban is about one node: the end of its first line is the start of its second"
            checked.add("NotAdjacent", what, remedy)
