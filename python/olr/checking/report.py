"""What `olr-tools check` prints: faults, and then what a map should be looked at for."""

import numpy as np
from collections.abc import Iterator, Sequence

from olr.arrays import Integers
from olr.checking.faults import Faults
from olr.checking.files import LIMITS
from olr.checking.lengths import FAR_DECIMETRES, FAR_SHARE, Lengths, Shorter, likely_unit
from olr.checking.map_arrays import MapArrays
from olr.checking.network import NEAR_METRES, Component, Connectivity
from olr.checking.remarks import Remark
from olr.checking.tables import Tables

ROLES = {
    "trap": "can be entered but not left",
    "source": "can be left but not entered",
    "passage": "can be passed once, in one direction",
    "island": "can neither be entered nor left",
}


def fault_lines(faults: Faults) -> Iterator[str]:
    """The faults, one line each, and how many aren't shown."""
    for fault in faults.kept:
        yield fault.text()
    for (file, name, column), count in faults.left_out().items():
        of_column = "" if column is None else f" in column {column}"
        yield f"and {count:,} more of {name} {file}{of_column}: --most {count + faults.most} shows them"
    yield f"faults {faults.total():,}"


def count_lines(tables: Tables) -> Iterator[str]:
    """How much of each limit is used."""
    for file, count in tables.counts.items():
        use = _use(count, LIMITS[file])
        text = f"{file} {count:,} of at most {LIMITS[file]:,}{use}"
        yield Remark(text, "close-to-the-limit", int(bool(use)))


def _use(count: int, limit: int) -> str:
    """A remark where a file comes close to its limit, or is beyond it."""
    if count > limit:
        return ": too many"
    return ": close to the limit" if count > 0.9 * limit else ""


def box_lines(road_map: MapArrays) -> Iterator[str]:
    """The bounding box of nodes and shapes, in degrees: west, south, east, north."""
    if not len(road_map.node_id):
        return
    lon = np.concatenate([road_map.lon, road_map.shape_lon]) / 1e6
    lat = np.concatenate([road_map.lat, road_map.shape_lat]) / 1e6
    box = f"{lon.min():.6f},{lat.min():.6f},{lon.max():.6f},{lat.max():.6f}"
    yield f"box {box} (west, south, east, north in degrees)"


def round_lines(ids: Integers, most: int) -> Iterator[str]:
    """How many lines go more than half round the earth, by the ids of all of them, of which some are named."""
    text = f"lines that go more than half round the earth {len(ids):,}{named(ids, np.arange(len(ids)), most)}"
    yield Remark(text, "round-the-earth", len(ids))


def kind_lines(road_map: MapArrays) -> Iterator[str]:
    """Lines and kilometres of each class and each form."""
    whole = max(int(road_map.length.sum()), 1)
    for name, kinds in (("class", road_map.road_class), ("form", road_map.form)):
        for kind in np.unique(kinds).tolist():
            length = int(road_map.length[kinds == kind].sum())
            lines = int(np.count_nonzero(kinds == kind))
            yield f"{name} {kind}: {_lines(lines)}, {_km(length)}, {100 * length / whole:.1f} %"


def length_lines(road_map: MapArrays, lengths: Lengths, most: int) -> Iterator[str]:
    """Lines whose length is far from that of their shape, and the greatest share by which one is shorter."""
    if lengths.ratio is None:
        return
    limits = f"{100 * FAR_SHARE:.0f} % and {FAR_DECIMETRES / 10:.0f} m"
    text = f"lengths far from the shape: {_lines(len(lengths.far))} differ by more than {limits}"
    yield Remark(text, "lengths", len(lengths.far))
    for line in lengths.far[:most].tolist():
        length, measured = road_map.length[line], lengths.measured[line]
        yield f"    line {road_map.line_id[line]}: length {length}, shape {measured:.0f} dm"
    yield from _more(len(lengths.far) - most)
    yield f"length by shape: median {lengths.ratio:.4f}"
    unit = likely_unit(lengths.ratio, float(np.median(road_map.lat)) / 1e6)
    if unit is not None:
        yield Remark(f"    are the lengths {unit}? They have to be decimetres", "unit", 1)
    yield from _shorter_lines(road_map, lengths, lengths.shorter, "")
    yield from _shorter_lines(road_map, lengths, lengths.shorter_long, " of 10 m or more")


def _shorter_lines(
    road_map: MapArrays, lengths: Lengths, shorter: Shorter | None, which: str
) -> Iterator[str]:
    """The greatest share by which a line is shorter than its shape."""
    name = f"greatest share by which a line{which} is shorter than its shape"
    if shorter is None:
        yield f"{name}: none"
        return
    length, measured = road_map.length[shorter.line], lengths.measured[shorter.line]
    at = f"line {road_map.line_id[shorter.line]}: length {length}, shape {measured:.1f} dm"
    yield f"{name}: {100 * shorter.share:.2f} % ({at})"


def network_lines(road_map: MapArrays, network: Connectivity, most: int) -> Iterator[str]:
    """Networks, strongly connected parts by what they are to the others, dead ends, and nodes without a line."""
    lines = len(road_map.line_id)
    if network.networks:
        share = 100 * network.largest_network / lines
        text = f"networks {network.networks:,}: the largest has {share:.1f} % of the lines"
        yield Remark(text, "networks", network.networks)
    if network.parts:
        yield from _part_lines(road_map, network, most)
    if not network.bans_counted:
        yield "    bans aren't looked at here: too many turns are at nodes with bans"
    dead_ends, near = len(network.dead_ends), len(network.near)
    yield Remark(f"dead ends {dead_ends:,}", "dead-ends", dead_ends)
    text = f"dead ends within {NEAR_METRES:.0f} m of a node that they aren't joined to: {near:,}"
    yield Remark(text, "near-dead-ends", near)
    for node, other, metres in network.near[:most]:
        ids = road_map.node_id
        yield f"    node {ids[node]}: {metres:.1f} m to node {ids[other]}"
    yield from _more(len(network.near) - most)
    unused = network.unused_nodes
    text = f"nodes without a line {len(unused):,}{named(road_map.node_id, unused, most)}"
    yield Remark(text, "nodes-without-a-line", len(unused))


def _part_lines(road_map: MapArrays, network: Connectivity, most: int) -> Iterator[str]:
    """The strongly connected parts."""
    whole = max(int(road_map.length.sum()), 1)
    largest, others = network.parts[0], network.parts[1:]
    share = f"{100 * largest.length / whole:.1f} % of the length"
    text = f"strongly connected parts {len(network.parts):,}: the largest has {share}"
    yield Remark(text, "parts", len(network.parts))
    for role, meaning in ROLES.items():
        of_role = [part for part in others if part.role == role]
        if not of_role:
            continue
        length = sum(part.length for part in of_role)
        count = _lines(sum(len(part.lines) for part in of_role))
        text = f"{role}s {len(of_role):,} ({meaning}): {count}, {_km(length)}"
        yield Remark(text, f"{role}s", len(of_role))
        for part in of_role[:most]:
            yield f"    {_part(road_map, part)}"
        yield from _more(len(of_role) - most)


def _part(road_map: MapArrays, part: Component) -> str:
    """A part by its size and the first of its lines."""
    ids = ", ".join(str(id) for id in road_map.line_id[part.lines[:3]].tolist())
    rest = ", .." if len(part.lines) > 3 else ""
    name = "line" if len(part.lines) == 1 else "lines"
    return f"{_km(part.length)}: {name} {ids}{rest}"


def named(ids: Integers, indices: Integers, most: int) -> str:
    """Some ids behind a colon, if there are any."""
    if not len(indices) or not most:
        return ""
    names: Sequence[int] = ids[indices[:most]].tolist()
    return ": " + ", ".join(map(str, names)) + (", .." if len(indices) > most else "")


def _more(count: int) -> Iterator[str]:
    """A line for what isn't shown, if there is any."""
    if count > 0:
        yield f"    and {count:,} more"


def _lines(count: int) -> str:
    """A number of lines in words."""
    return f"{count:,} line" if count == 1 else f"{count:,} lines"


def _km(decimetres: int) -> str:
    """A length in kilometres."""
    return f"{decimetres / 10_000:,.3f} km"
