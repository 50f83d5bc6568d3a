#!/usr/bin/env python3
"""Writes a map of one large grid of roads: the files `nodes.csv` and `lines.csv`. Next to them `reference.txt`
has a reference along the middle row of the grid.

Its habits are those of a map that is cut out of a much larger one, and differ from those of `generate_map.py`:
ids are drawn from all that a map may have, so most have 16 digits. Records lie in the order of their places,
row by row from the south-west, and the two lines of a two-way road one behind the other. Three quarters of the
lines belong to two-way roads, and nine roads in ten have shape points. The grid lies on both sides of
Greenwich, so half of the longitudes are negative, and they have 1 to 6 digits.

The same arguments give the same bytes, on every machine.
"""

import argparse
import math
import os

from generate_map import lines_along, node_records, road_records, write
from network import ALL_BITS, Draws, Network, between
from reference import line_reference

GREATEST_ID = 2**53
MIDDLE = (0, 51_478_000)  # of the grid: Greenwich
STEP = (6_000, 4_000)  # from one node to the next, eastwards and northwards: some 416 m and 445 m
LEG = 16  # roads of a leg of the reference


def grid_places(columns, nodes, draws):
    """The places of the nodes, row by row, each moved by at most a quarter of a step."""
    size = columns, -(-nodes // columns)
    corner = [middle - (count - 1) * step // 2 for middle, count, step in zip(MIDDLE, size, STEP)]
    places = []
    for node in range(nodes):
        spot = node % columns, node // columns
        place = [start + steps * step for start, steps, step in zip(corner, spot, STEP)]
        places.append(draws.near(place, [step // 4 for step in STEP]))
    return places


def grid_network(nodes, lines, draws):
    """A grid with exactly so many nodes and lines. Each row is joined from end to end, the middle row both ways.
    Raises ValueError where the grid can't have so many lines."""
    network = Network()
    columns = math.isqrt(nodes)
    network.places = grid_places(columns, nodes, draws)
    middle = nodes // columns // 2 * columns
    network.middle_street = list(range(middle, middle + columns))
    eastwards = [(node, node + 1) for node in range(nodes - 1) if (node + 1) % columns]
    street = [ends for ends in eastwards if middle <= ends[0] < middle + columns]
    others = [ends for ends in eastwards if not middle <= ends[0] < middle + columns]
    across = [(node, node + columns) for node in range(nodes - columns)]
    draws.shuffle(others)
    draws.shuffle(across)
    chosen = street + others + across
    pairs = lines * 3 // 8
    roads = pairs + lines - 2 * pairs
    if not len(eastwards) <= roads <= len(chosen) or pairs < len(street):
        raise ValueError(f"{nodes} nodes can't have {lines} lines here: 1.6 to 3 lines a node")
    for number, ends in enumerate(chosen[:roads]):
        road_class = 2 if number < len(street) else 3 + draws.below(5)
        road = network.add_street(ends, road_class, 3, 2 if number < pairs else 1)[0]
        if road.ways == 1 and draws.below(2):
            road.start, road.end = road.end, road.start
    network.roads.sort(key=lambda road: (min(road.start, road.end), max(road.start, road.end)))
    return network


def line_records(network, node_ids, shape_points, draws):
    """The records of lines, one for each direction of each road, road by road. One road in ten has no shape
    points, the others have so many (the least and the most)."""
    ids = iter(draws.distinct(network.line_count(), GREATEST_ID))
    least, most = shape_points
    records = []
    for road in network.roads:
        start, end = network.places[road.start], network.places[road.end]
        count = least + draws.below(most - least + 1) if draws.below(10) else 0
        shape = between(start, end, count, draws)
        records += road_records(road, [start, *shape, end], node_ids, ids, draws)
    return records


def reference(network, node_ids, records):
    """The text of a reference of three points along the middle row, eastwards, in the eastern half."""
    columns = len(network.middle_street)
    first = columns * 5 // 8
    leg = min(LEG, (columns - 1 - first) // 2)
    street = network.middle_street[first : first + 2 * leg + 1]
    ids, places = [node_ids[node] for node in street], [network.places[node] for node in street]
    lines = lines_along(ids, places, records)
    return line_reference([lines[:leg], lines[leg:]])


def arguments():
    """The parser of the command line, and its words."""
    parser = argparse.ArgumentParser(description="Writes a grid of roads as nodes.csv and lines.csv.")
    add = parser.add_argument
    add("--nodes", type=int, default=100_000, help="how many nodes, 200 to 1000000 (default 100000)")
    add("--lines", type=int, default=200_000, help="how many lines (default 200000)")
    add("--seed", type=int, default=1, help="where the draws begin, 0 to 2^64 - 1 (default 1)")
    bounds = {"nargs": 2, "default": (1, 12), "metavar": ("LEAST", "MOST")}
    add("--shape-points", type=int, help="of the roads that have any, 1 to 64 (default 1 12)", **bounds)
    add("--out", required=True, metavar="FOLDER", help="where to write; made if it doesn't exist")
    words = parser.parse_args()
    for name, least, most in (("nodes", 200, 10**6), ("seed", 0, ALL_BITS)):
        if not least <= getattr(words, name) <= most:
            parser.error(f"--{name} is {least} to {most}")
    if not 1 <= words.shape_points[0] <= words.shape_points[1] <= 64:
        parser.error("--shape-points are 1 to 64, the least first")
    return parser, words


def main():
    parser, words = arguments()
    draws = Draws(words.seed)
    try:
        network = grid_network(words.nodes, words.lines, draws)
    except ValueError as fault:
        parser.error(str(fault))
    node_ids = draws.distinct(words.nodes, GREATEST_ID)
    nodes = node_records(network, node_ids)
    lines = line_records(network, node_ids, words.shape_points, draws)
    os.makedirs(words.out, exist_ok=True)
    write(words.out, "nodes.csv", "id,lon,lat", nodes)
    write(words.out, "lines.csv", "id,from,to,class,form,length,shape", lines)
    text = reference(network, node_ids, lines)
    with open(os.path.join(words.out, "reference.txt"), "w", encoding="ascii", newline="\n") as file:
        file.write(text + "\n")
    print(f"{words.out}: {len(nodes)} nodes, {len(lines)} lines, reference {text}")


if __name__ == "__main__":
    main()
