#!/usr/bin/env python3
"""Makes a small map with many matchings: bundles of parallel lines, and a reference along them.

    bench/generate_dense.py --out FOLDER [--points 4] [--parallel 63] [--seed 1]

writes nodes.csv, lines.csv and reference.txt: a row of nodes, one for each point, and from each node to the next one as
many lines as wanted, of drawn forms and shapes. Every line of a bundle is a candidate of the point where it
starts, and at the last point one where it ends. So a matching takes any line of each bundle, and there are
parallel ^ (points - 1) of them.
"""

import argparse
import pathlib

from generate_map import GREATEST_ID, length, write, Record
from network import Draws
from reference import Line, line_reference

FIRST = (6_131_000, 49_611_000)  # the first node, in microdegrees
STEP = 10_000  # from one node to the next one, eastwards: some 720 m
SWAY = 400  # how far the middle of a line may be to the north or south: some 45 m


def drawn_line(start, end, draws):
    """A line between two places over a drawn one between them."""
    middle = draws.near([(first + last) // 2 for first, last in zip(start, end)], (SWAY, SWAY))
    places = [start, middle, end]
    return Line(3, 2 + draws.below(2), length(places, 5 + draws.below(26)), places)


def main():
    parser = argparse.ArgumentParser(description=__doc__, formatter_class=argparse.RawDescriptionHelpFormatter)
    parser.add_argument("--points", type=int, default=4)
    parser.add_argument("--parallel", type=int, default=63)
    parser.add_argument("--seed", type=int, default=1)
    parser.add_argument("--out", type=pathlib.Path, required=True)
    chosen = parser.parse_args()
    draws = Draws(chosen.seed)
    places = [(FIRST[0] + STEP * step, FIRST[1]) for step in range(chosen.points)]
    bundles = [
        [drawn_line(start, end, draws) for _ in range(chosen.parallel)] for start, end in zip(places, places[1:])
    ]
    ids = iter(draws.distinct(len(bundles) * chosen.parallel, GREATEST_ID))
    nodes = [Record(number, f"{number},{lon},{lat}") for number, (lon, lat) in enumerate(places, 1)]
    lines = []
    for start, bundle in enumerate(bundles, 1):
        for line in bundle:
            lon, lat = line.places[1]
            fields = [next(ids), start, start + 1, line.road_class, line.form, line.length, f"{lon} {lat}"]
            lines.append(Record(fields[0], ",".join(map(str, fields))))
    chosen.out.mkdir(parents=True, exist_ok=True)
    write(chosen.out, "nodes.csv", "id,lon,lat", nodes)
    write(chosen.out, "lines.csv", "id,from,to,class,form,length,shape", lines)
    text = line_reference([bundle[:1] for bundle in bundles])
    (chosen.out / "reference.txt").write_bytes(f"{text}\n".encode())


if __name__ == "__main__":
    main()
