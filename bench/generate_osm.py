#!/usr/bin/python3
"""Writes an invented town as an OpenStreetMap file, to measure and test `./olr-tools import osm`.

    bench/generate_osm.py --out /tmp/town.osm.pbf

The default size gives a map of almost 200,000 lines. The same options give the same file. It needs Debian's python3-pyosmium.

The town is a jittered grid of streets with bends. Every eighth street is a through road, some streets are one-way, some ways
end in the middle of a block, and some turns are restricted. As in real extracts, most ways are no roads: paths and houses.
"""

import argparse
import os
import random
from collections.abc import Iterator, Sequence

import osmium
from osmium.osm.mutable import Node, Relation, Way

WEST, SOUTH = 6.0, 49.5
BLOCK = 0.0011
"""Degrees of latitude between two streets, about 120 m; longitudes have 1.5 times as many."""
KINDS = ("no_left_turn", "no_right_turn", "no_u_turn", "only_straight_on")


class Town:
    """Nodes, ways and turn restrictions as they are drawn."""

    def __init__(self, blocks: int, houses: int, seed: int) -> None:
        self.blocks = blocks
        self.houses = houses
        self.draws = random.Random(seed)
        self.nodes: list[tuple[float, float]] = []
        self.ways: list[tuple[Sequence[int], dict[str, str]]] = []
        self.restrictions: list[tuple[str, int, int, int]] = []
        self.at_node: dict[int, list[int]] = {}

    def node(self, column: float, row: float, jitter: float) -> int:
        """A node near a place of the grid. Ids count from 1."""
        east = column + self.draws.uniform(-jitter, jitter)
        north = row + self.draws.uniform(-jitter, jitter)
        self.nodes.append((WEST + east * BLOCK * 1.5, SOUTH + north * BLOCK))
        return len(self.nodes)

    def way(self, nodes: Sequence[int], tags: dict[str, str]) -> None:
        """A way. Ids count from 1."""
        self.ways.append((nodes, tags))
        for node in (nodes[0], nodes[-1]):
            self.at_node.setdefault(node, []).append(len(self.ways))

    def draw(self) -> None:
        """Draws the town."""
        size = range(self.blocks)
        crossings = [[self.node(column, row, 0.2) for column in size] for row in size]
        for row in size:
            self.street(crossings[row], row, [(column, row) for column in size])
        for column in size:
            self.street(
                [line[column] for line in crossings], column, [(column, row) for row in size]
            )
        self.restrict([node for line in crossings for node in line])
        for row in size:
            for column in size:
                for _ in range(self.houses):
                    self.house(column + 0.5, row + 0.5)
                if self.draws.random() < 0.2:
                    self.way(
                        [self.node(column + 0.5, row + 0.5, 0.2), crossings[row][column]],
                        {"highway": "footway"},
                    )

    def street(
        self, crossings: Sequence[int], number: int, places: Sequence[tuple[int, int]]
    ) -> None:
        """A street through crossings, as ways of one to five blocks. Some end in the middle of a block."""
        nodes = [crossings[0]]
        tags = self.tags(number)
        for (column, row), (next_column, next_row), crossing in zip(
            places, places[1:], crossings[1:]
        ):
            bends = self.draws.randrange(7)
            for bend in range(1, bends + 1):
                share = bend / (bends + 1)
                place = (column + share * (next_column - column), row + share * (next_row - row))
                nodes.append(self.node(*place, 0.03))
                if bend == 3 and self.draws.random() < 0.75:
                    self.way(nodes, tags)
                    nodes = nodes[-1:]
            nodes.append(crossing)
            if self.draws.random() < 0.3:
                self.way(nodes, tags)
                nodes, tags = [crossing], self.tags(number)
        if len(nodes) > 1:
            self.way(nodes, tags)

    def tags(self, number: int) -> dict[str, str]:
        """The tags of a way of a street."""
        if number % 32 == 0:
            return {"highway": "primary", "ref": f"N {number}"}
        if number % 8 == 0:
            return {"highway": "tertiary", "name": f"Street {number}"}
        tags = {"highway": "residential", "name": f"Street {number}", "surface": "asphalt"}
        return tags | {"oneway": "yes"} if self.draws.random() < 0.15 else tags

    def house(self, column: float, row: float) -> None:
        """A house of four corners."""
        corners = [self.node(column, row, 0.3) for _ in range(4)]
        self.way(
            [*corners, corners[0]],
            {"building": "yes", "addr:housenumber": str(self.draws.randrange(99))},
        )

    def restrict(self, crossings: Sequence[int]) -> None:
        """Turn restrictions at some crossings where ways end."""
        for node in crossings:
            ways = self.at_node.get(node, [])
            if len(ways) > 1 and self.draws.random() < 0.1:
                source, target = self.draws.sample(ways, 2)
                self.restrictions.append((self.draws.choice(KINDS), source, node, target))

    def objects(self) -> Iterator[Node | Way | Relation]:
        """Nodes, ways and relations, as osmium writes them."""
        for id, location in enumerate(self.nodes, 1):
            yield Node(id=id, version=1, location=location)
        for id, (nodes, tags) in enumerate(self.ways, 1):
            yield Way(id=id, version=1, nodes=nodes, tags=tags)
        for id, (kind, source, node, target) in enumerate(self.restrictions, 1):
            members = [("w", source, "from"), ("n", node, "via"), ("w", target, "to")]
            tags = {"type": "restriction", "restriction": kind}
            yield Relation(id=id, version=1, members=members, tags=tags)


def main() -> None:
    """Draws a town and writes it."""
    parser = argparse.ArgumentParser(description=__doc__.splitlines()[0])
    parser.add_argument("--out", required=True, help="the file, as .osm, .osm.bz2 or .osm.pbf")
    parser.add_argument("--blocks", type=int, default=193, help="streets in each direction")
    parser.add_argument("--houses", type=int, default=8, help="houses in a block")
    parser.add_argument("--seed", type=int, default=1)
    words = parser.parse_args()
    town = Town(words.blocks, words.houses, words.seed)
    town.draw()
    if os.path.exists(words.out):
        os.remove(words.out)
    writer = osmium.SimpleWriter(words.out)
    add = {Node: writer.add_node, Way: writer.add_way, Relation: writer.add_relation}
    for item in town.objects():
        add[type(item)](item)
    writer.close()


if __name__ == "__main__":
    main()
