#!/usr/bin/env python3
"""Writes a large invented road network as a map: the files `nodes.csv` and `lines.csv`. Next to them
`reference.txt` has a reference along the middle street of the greatest town.

The same arguments give the same bytes, on every machine: all draws come from the seed, and all sums are of
whole numbers. The order of records changes nothing else. `network.py` describes the network.
"""

import argparse
import math
import os
from typing import NamedTuple

from network import ALL_BITS, Draws, between, build_network
from reference import Line, line_reference

GREATEST_ID = 10**10
MICRODEGREE = 11_132  # of latitude, in thousandths of a centimetre
ONE_WAY_FORMS = (3,) * 14 + (4, 6)  # single carriageways, with some roundabouts and slip roads


class Record(NamedTuple):
    """A record of a map file: its id, and its text."""

    id: int
    text: str


def length(points, stretch):
    """The length in decimetres, rounded up, of a road drawn through points (microdegrees), made longer by
    `stretch` thousandths. How short a degree of longitude is comes from Bhaskara's rule for the cosine, which
    is within 2 thousandths of it; a stretch of 5 or more makes up for that."""
    square = points[0][1] ** 2
    share = 10_000 * (32_400 * 10**12 - 4 * square) // (32_400 * 10**12 + square)
    total = 0
    for (lon, lat), (next_lon, next_lat) in zip(points, points[1:]):
        east = (next_lon - lon) * MICRODEGREE * share // 10_000
        north = (next_lat - lat) * MICRODEGREE
        total += math.isqrt(east * east + north * north) + 1
    return -(-total * (1_000 + stretch) // 10_000_000)


def node_records(network, ids):
    """The records of nodes, by their ids in the order of their numbers."""
    return [Record(id, f"{id},{lon},{lat}") for id, (lon, lat) in zip(ids, network.places)]


def road_records(road, points, node_ids, ids, draws):
    """The records of the lines of a road: one for each direction, of one length. `points` are its ends and those between
    them, `ids` gives the ids of lines."""
    form = road.form if road.ways == 2 else ONE_WAY_FORMS[draws.below(len(ONE_WAY_FORMS))]
    decimetres = length(points, 5 + draws.below(26))
    items = [f"{lon} {lat}" for lon, lat in points[1:-1]]
    nodes = [node_ids[road.start], node_ids[road.end]]
    records = []
    for _ in range(road.ways):
        fields = [next(ids), *nodes, road.road_class, form, decimetres, ";".join(items)]
        records.append(Record(fields[0], ",".join(map(str, fields))))
        items.reverse()
        nodes.reverse()
    return records


def line_records(network, node_ids, most_shape_points, draws):
    """The records of lines, one for each direction of each road. A road has 0 to `most_shape_points` points
    between its ends, and one length."""
    ids = iter(draws.distinct(network.line_count(), GREATEST_ID))
    records = []
    for road in (road for road in network.roads if road.ways > 0):
        start, end = network.places[road.start], network.places[road.end]
        shape = between(start, end, draws.below(most_shape_points + 1), draws)
        records += road_records(road, [start, *shape, end], node_ids, ids, draws)
    return records


def lines_along(street, places, records):
    """The lines that join the nodes of a street, each to the next one. `street` holds their ids, `places`
    where they are."""
    place_of, found = dict(zip(street, places)), {}
    for record in records:
        _, start, end, road_class, form, decimetres, shape = record.text.split(",")
        ends = int(start), int(end)
        if ends[0] in place_of and ends[1] in place_of:
            items = [tuple(map(int, item.split())) for item in shape.split(";") if item]
            course = [place_of[ends[0]], *items, place_of[ends[1]]]
            found[ends] = Line(int(road_class), int(form), int(decimetres), course)
    return [found[ends] for ends in zip(street, street[1:])]


def reference(network, node_ids, records):
    """The text of a reference of three points along the middle street, from its western end through its
    middle to its eastern end."""
    street = [node_ids[number] for number in network.middle_street]
    places = [network.places[number] for number in network.middle_street]
    lines = lines_along(street, places, records)
    middle = len(lines) // 2
    return line_reference([lines[:middle], lines[middle:]])


def write(folder, name, header, records):
    """Writes a map file, each line ended by a line feed."""
    with open(os.path.join(folder, name), "w", encoding="ascii", newline="\n") as file:
        file.write(header + "\n")
        file.writelines(record.text + "\n" for record in records)


def arguments():
    """The parser of the command line, and its words."""
    parser = argparse.ArgumentParser(description="Writes an invented road network as nodes.csv and lines.csv.")
    add = parser.add_argument
    add("--nodes", type=int, default=100_000, help="how many nodes, 200 to 1000000 (default 100000)")
    add("--lines", type=int, default=200_000, help="how many lines (default 200000)")
    add("--seed", type=int, default=1, help="where the draws begin, 0 to 2^64 - 1 (default 1)")
    add("--most-shape-points", type=int, default=10, help="most points of a shape, 0 to 64 (default 10)")
    add("--order", choices=["sorted", "shuffled"], default="shuffled", help="of records (default shuffled)")
    add("--out", required=True, metavar="FOLDER", help="where to write; made if it doesn't exist")
    words = parser.parse_args()
    for name, least, most in (("nodes", 200, 10**6), ("seed", 0, ALL_BITS), ("most_shape_points", 0, 64)):
        if not least <= getattr(words, name) <= most:
            parser.error(f"--{name.replace('_', '-')} is {least} to {most}")
    return parser, words


def main():
    parser, words = arguments()
    draws = Draws(words.seed)
    try:
        network, towns = build_network(words.nodes, words.lines, draws)
    except ValueError as fault:
        parser.error(str(fault))
    node_ids = draws.distinct(words.nodes, GREATEST_ID)
    nodes = node_records(network, node_ids)
    lines = line_records(network, node_ids, words.most_shape_points, draws)
    for records in (nodes, lines):
        if words.order == "sorted":
            records.sort()
        else:
            draws.shuffle(records)
    os.makedirs(words.out, exist_ok=True)
    write(words.out, "nodes.csv", "id,lon,lat", nodes)
    write(words.out, "lines.csv", "id,from,to,class,form,length,shape", lines)
    text = reference(network, node_ids, lines)
    with open(os.path.join(words.out, "reference.txt"), "w", encoding="ascii", newline="\n") as file:
        file.write(text + "\n")
    print(f"{words.out}: {len(nodes)} nodes, {len(lines)} lines, {towns} towns, reference {text}")


if __name__ == "__main__":
    main()
