#!/usr/bin/env python3
"""Prints a reference of many points on a map, as text.

    bench/generate_reference.py --map FOLDER [--points 10] [--lines-per-leg 20] [--lower 0] [--seed 1]

The points lie along a shortest path from a drawn node to another one: its first lines, from one point to the next as
many as wanted. Another start is drawn where no shortest path has so many lines. With --lower 1 each leg states a lowest class
that is 1 too low, so that the reference has no matching, unless by other roads. The same arguments give the same text
on every machine: all draws come from the seed, and all sums are of whole numbers.
"""

import argparse
import csv
import heapq
import pathlib

from network import Draws
from reference import Line, line_reference


def read_map(folder):
    """The places of nodes by id, and the records of lines by the node that they start at."""
    with open(folder / "nodes.csv", newline="") as file:
        places = {row["id"]: (int(row["lon"]), int(row["lat"])) for row in csv.DictReader(file)}
    starting = {}
    with open(folder / "lines.csv", newline="") as file:
        for row in csv.DictReader(file):
            starting.setdefault(row["from"], []).append(row)
    return places, starting


def shortest_paths(starting, start):
    """The line that reaches each node on a shortest path from a node, and how many lines that path has."""
    reached, queue = {start: (0, None)}, []

    def push_from(node, length):
        for record in starting.get(node, ()):
            if record["to"] not in reached:
                heapq.heappush(queue, (length + int(record["length"]), int(record["id"]), record))

    push_from(start, 0)
    while queue:
        length, _, record = heapq.heappop(queue)
        node = record["to"]
        if node not in reached:
            reached[node] = reached[record["from"]][0] + 1, record
            push_from(node, length)
    return reached


def path_to(reached, node):
    """The records of the lines of the shortest path to a node, in order."""
    path = []
    while reached[node][1]:
        path.append(reached[node][1])
        node = path[-1]["from"]
    return path[::-1]


def drawn_path(starting, count, draws):
    """The first lines of a drawn shortest path, as many as wanted."""
    nodes = sorted(starting)
    for _ in range(100):
        reached = shortest_paths(starting, nodes[draws.below(len(nodes))])
        far = sorted(node for node, (lines, _) in reached.items() if lines >= count)
        if far:
            return path_to(reached, far[draws.below(len(far))])[:count]
    raise SystemExit(f"no shortest path of {count} lines was found")


def line_of(record, places):
    """A line as references need it."""
    items = [tuple(map(int, item.split())) for item in record["shape"].split(";") if item]
    polyline = [places[record["from"]], *items, places[record["to"]]]
    return Line(int(record["class"]), int(record["form"]), int(record["length"]), polyline)


def main():
    parser = argparse.ArgumentParser(description=__doc__, formatter_class=argparse.RawDescriptionHelpFormatter)
    parser.add_argument("--map", type=pathlib.Path, required=True)
    parser.add_argument("--points", type=int, default=10)
    parser.add_argument("--lines-per-leg", type=int, default=20)
    parser.add_argument("--lower", type=int, default=0, help="how much too low the lowest class of each leg is (default 0)")
    parser.add_argument("--seed", type=int, default=1)
    chosen = parser.parse_args()
    places, starting = read_map(chosen.map)
    each = chosen.lines_per_leg
    path = drawn_path(starting, (chosen.points - 1) * each, Draws(chosen.seed))
    lines = [line_of(record, places) for record in path]
    print(line_reference([lines[first : first + each] for first in range(0, len(lines), each)], chosen.lower))


if __name__ == "__main__":
    main()
