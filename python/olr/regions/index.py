"""The index of a layer of a GeoPackage: an R-tree of SQLite, made at once.

SQLite puts boxes into an R-tree one by one, which takes 2.7 s for 119,000 boxes, in place of 0.3 s. Here they come in the order of a curve, so
that neighbours stand together, and the nodes of the tree are filled one after the other, from its leaves up. Their format is that of
https://www.sqlite.org/rtree.html, and `rtreecheck()` of SQLite says whether a tree is right.
"""

import numpy as np
import sqlite3
import struct
from collections.abc import Iterator

from olr.arrays import Floats, Floats32, Integers
from olr.regions.geopackage import insert

ROOT = 1
"""The number of the root."""
HEAD = 4
"""Bytes before the cells of a node: the levels below it, if it is the root, and how many cells it has."""
NODES = 250
"""So many nodes are made at a time."""
CELL = np.dtype([("member", ">i8"), ("edges", ">f4", 4)])
"""Of a node: a row, or a node of the level below, and its western, eastern, southern and northern edge."""


def fill_index(connection: sqlite3.Connection, table: str, ids: Integers, edges: Floats32) -> None:
    """Fills an empty R-tree of two dimensions. `edges` has a row with the western edge of each box, and one each with the eastern,
    southern and northern one, as `outwards` rounds them. Raises `sqlite3.Error`."""
    (size,) = connection.execute(f"SELECT length(data) FROM {table}_node").fetchone()
    connection.execute(f"DELETE FROM {table}_node")
    fan = (size - HEAD) // CELL.itemsize
    members, behind, levels = ids, ROOT + 1, 0
    while True:
        firsts = np.arange(0, max(len(members), 1), fan)
        is_root = len(firsts) == 1
        nodes = np.array([ROOT]) if is_root else np.arange(behind, behind + len(firsts))
        behind += len(firsts)
        order = np.argsort(members)
        known = "parent" if levels else "rowid"
        for first in range(0, len(order), NODES * fan):
            one = order[first : first + NODES * fan]
            insert(connection, f"{table}_{known}", members[one], nodes[one // fan])
        for first in range(0, len(nodes), NODES):
            some = slice(fan * first, fan * (first + NODES))
            blobs = _nodes(members[some], edges[:, some], fan, size, levels if is_root else 0)
            insert(connection, f"{table}_node", nodes[first : first + NODES], list(blobs))
        if is_root:
            return
        low = np.minimum.reduceat(edges[0::2], firsts, axis=1)
        high = np.maximum.reduceat(edges[1::2], firsts, axis=1)
        members, edges, levels = nodes, np.stack([low[0], high[0], low[1], high[1]]), levels + 1


def _nodes(members: Integers, edges: Floats32, fan: int, size: int, levels: int) -> Iterator[bytes]:
    """The nodes that have some members, each with `fan` of them."""
    cells = np.zeros(len(members), CELL)
    cells["member"], cells["edges"] = members, edges.T
    data = cells.tobytes()
    for first in range(0, max(len(cells), 1), fan):
        part = data[CELL.itemsize * first : CELL.itemsize * (first + fan)]
        head = struct.pack(">HH", levels, len(part) // CELL.itemsize)
        yield (head + part).ljust(size, b"\0")


def outwards(edges: Floats, side: int) -> Floats32:
    """Edges in 32 bits, not less than the given ones, or with the side -1 not greater."""
    result: Floats32 = edges.astype(np.float32)
    inside = (result - edges) * side < 0
    result[inside] = np.nextafter(result[inside], np.float32(side * np.inf))
    return result
