#!/usr/bin/python3
"""Writes a map as a GeoPackage of roads, to measure `olr-tools import vector` on it: a record for each pair of nodes that
lines join, with the fields `id`, `class`, `form` and `dir` (F along its drawing, B both ways).

    bench/generate_map.py --out big --most-shape-points 20
    bench/generate_vector.py big big.gpkg
    ./olr-tools import vector big.gpkg --class class --form form --oneway dir --id id --out again

It needs Debian's python3-fiona, and so Debian's interpreter.
"""

import argparse
import csv
import os

import fiona
from fiona.crs import CRS

FIELDS = {"id": "int", "class": "int", "form": "int", "dir": "str"}


def records(file):
    """The records of a CSV file, each as a dict by its header."""
    with open(file, newline="", encoding="utf-8") as stream:
        yield from csv.DictReader(stream)


def degrees(lon, lat):
    """A position in degrees, of one in microdegrees."""
    return int(lon) / 1e6, int(lat) / 1e6


def roads(folder):
    """The features: of the lines between two nodes the first one, which is two-way if there are others."""
    nodes = {row["id"]: degrees(row["lon"], row["lat"]) for row in records(os.path.join(folder, "nodes.csv"))}
    firsts, two_way = {}, set()
    for line in records(os.path.join(folder, "lines.csv")):
        ends = frozenset((line["from"], line["to"]))
        if firsts.setdefault(ends, line) is not line:
            two_way.add(ends)
    for ends, line in firsts.items():
        shape = [degrees(*point.split(" ")) for point in line["shape"].split(";") if point]
        points = [nodes[line["from"]], *shape, nodes[line["to"]]]
        properties = {name: int(line[name]) for name in ("id", "class", "form")}
        properties["dir"] = "B" if ends in two_way else "F"
        yield {"geometry": {"type": "LineString", "coordinates": points}, "properties": properties}


def main():
    parser = argparse.ArgumentParser(description="Writes a map as a GeoPackage of roads.")
    parser.add_argument("map", help="the folder of the map")
    parser.add_argument("out", help="the GeoPackage to write")
    words = parser.parse_args()
    schema = {"geometry": "LineString", "properties": FIELDS}
    with fiona.open(words.out, "w", driver="GPKG", crs=CRS.from_epsg(4326), schema=schema) as layer:
        layer.writerecords(roads(words.map))


if __name__ == "__main__":
    main()
