"""How the lines of a map hang together: its networks, its strongly connected parts, its traps and its dead ends.

A vehicle goes on from the end of a line to each line that starts there, unless a ban says no. Bans count here: a road from
which every turn is banned is a trap.
"""

import numpy as np
from dataclasses import dataclass
from scipy.sparse.csgraph import connected_components
from scipy.spatial import cKDTree

from olr.arrays import Integers
from olr.checking.map_arrays import MapArrays
from olr.geometry.turns import matrix, turns_from
from olr.model.road_map import GREATEST_LON
from olr.sphere import on_sphere

MOST_TURNS = 5_000_000
"""So many turns are written out one by one at nodes with bans; beyond it bans are left out."""
NEAR_METRES = 5.0
"""A dead end that lies so near to a node of another road may have to be joined to it."""


@dataclass(frozen=True)
class Component:
    """Lines that all lead to one another."""

    lines: Integers
    """Their indices, by rising id."""
    length: int
    """Of all its lines, in decimetres."""
    entered: bool
    """Whether a line of another part leads into it."""
    left: bool
    """Whether one of its lines leads into another part."""

    @property
    def role(self) -> str:
        """What the part is to the others."""
        if self.entered:
            return "passage" if self.left else "trap"
        return "source" if self.left else "island"


@dataclass(frozen=True)
class Connectivity:
    """What is seen of a map's network."""

    networks: int
    """How many pieces of the map have no node in common, leaving directions and bans out."""
    largest_network: int
    """How many lines the largest one has."""
    parts: list[Component]
    """The strongly connected parts, the longest first."""
    bans_counted: bool
    """Whether bans were looked at."""
    dead_ends: Integers
    """The indices of nodes from which roads lead to one other node alone."""
    unused_nodes: Integers
    """The indices of nodes without a line."""
    near: list[tuple[int, int, float]]
    """Dead ends with a node on the same side of longitude 180 that lies within `NEAR_METRES`, to which no line leads from it: two indices
    and the metres."""


def look_at_network(road_map: MapArrays) -> Connectivity:
    """Looks at the network of a map that has no fault."""
    nodes = len(road_map.node_id)
    joined = matrix(road_map.start, road_map.end, (nodes, nodes))
    _, piece = connected_components(joined, directed=False)
    pieces = np.bincount(piece[road_map.start], minlength=1)
    used = np.concatenate([road_map.start, road_map.end])
    dead_ends = _dead_ends(road_map)
    parts, bans_counted = _parts(road_map)
    return Connectivity(
        networks=int(np.count_nonzero(pieces)),
        largest_network=int(pieces.max()),
        parts=parts,
        bans_counted=bans_counted,
        dead_ends=dead_ends,
        unused_nodes=np.setdiff1d(np.arange(nodes), used),
        near=_near(road_map, dead_ends),
    )


def _turns(road_map: MapArrays) -> tuple[Integers, Integers, bool]:
    """The edges of the graph of turns, and whether bans are in it.

    Its vertices are the lines and then the nodes. A line without bans leads to its node, and a node to the lines that start
    there; a line with bans leads straight to the lines that it may go on to.
    """
    start, end = road_map.start, road_map.end
    every = np.arange(len(start))
    with_bans = np.unique(road_map.ban_first)
    starting = np.bincount(start, minlength=len(road_map.node_id))
    bans_counted = int(starting[end[with_bans]].sum()) <= MOST_TURNS
    counted = with_bans if bans_counted else with_bans[:0]
    sources, targets = turns_from(counted, start, end, (road_map.ban_first, road_map.ban_second))
    free = np.setdiff1d(every, counted)
    source = np.concatenate([free, start + len(every), sources])
    target = np.concatenate([end[free] + len(every), every, targets])
    return source, target, bans_counted


def _parts(road_map: MapArrays) -> tuple[list[Component], bool]:
    """The strongly connected parts of the lines, and whether bans were looked at."""
    lines = len(road_map.line_id)
    if not lines:
        return [], True
    source, target, bans_counted = _turns(road_map)
    size = lines + len(road_map.node_id)
    graph = matrix(source, target, (size, size))
    count, part = connected_components(graph, connection="strong")
    # A node at which no line starts is no way out, and one at which no line ends is no way in.
    leads_out = np.bincount(source, minlength=size) > 0
    leads_in = np.bincount(target, minlength=size) > 0
    leads_out[:lines] = leads_in[:lines] = True
    across = part[source] != part[target]
    left, entered = np.zeros(count, dtype=bool), np.zeros(count, dtype=bool)
    left[part[source[across & leads_out[target]]]] = True
    entered[part[target[across & leads_in[source]]]] = True
    of_line = part[:lines]
    order = np.argsort(of_line, kind="stable")
    numbers, firsts = np.unique(of_line[order], return_index=True)
    parts = [
        Component(indices, int(road_map.length[indices].sum()), bool(entered[n]), bool(left[n]))
        for n, indices in zip(numbers.tolist(), np.split(order, firsts[1:]))
    ]
    parts.sort(key=lambda p: (-p.length, int(road_map.line_id[p.lines[0]])))
    return parts, bans_counted


def _dead_ends(road_map: MapArrays) -> Integers:
    """The indices of nodes from and to which roads go to one other node alone."""
    nodes = len(road_map.node_id)
    ends = np.concatenate([road_map.start, road_map.end])
    others = np.concatenate([road_map.end, road_map.start])
    pairs = np.stack([ends, others])[:, ends != others]
    neighbours = np.bincount(np.unique(pairs, axis=1)[0], minlength=nodes)
    return np.flatnonzero(neighbours == 1)


def _near(road_map: MapArrays, dead_ends: Integers) -> list[tuple[int, int, float]]:
    """Dead ends with the nearest node within `NEAR_METRES` that isn't the one to which their road leads."""
    if not len(dead_ends) or len(road_map.node_id) < 2:
        return []
    spots = on_sphere(road_map.lon / 1e6, road_map.lat / 1e6)
    ends = np.concatenate([road_map.start, road_map.end])
    used = np.unique(ends)
    nearest = min(3, len(used))
    tree = cKDTree(spots[used])
    metres, found = tree.query(spots[dead_ends], nearest, distance_upper_bound=NEAR_METRES)
    joined = set(zip(road_map.start.tolist(), road_map.end.tolist()))
    near = []
    lon = road_map.lon.tolist()
    for node, distances, places in zip(dead_ends.tolist(), metres, found):
        for distance, place in zip(distances, places):
            if place == len(used) or used[place] == node:
                continue
            other = int(used[place])
            # No node is on both sides of longitude 180.
            if abs(lon[node] - lon[other]) > GREATEST_LON:
                continue
            if (node, other) not in joined and (other, node) not in joined:
                near.append((node, other, float(distance)))
                break
    return sorted(near, key=lambda n: (n[2], n[0]))
