#!/usr/bin/env python3
"""Makes a map of any size of copies of another one, side by side from west to east, and references on all copies.

    bench/generate_copies.py --map FOLDER --copies N --out FOLDER [--messages FILE]

Writes `nodes.csv`, `lines.csv` and, if the map has bans, `bans.csv`. A copy has ids of its own. It is moved to the east by a whole number of
0.703125 degrees, which is 2^15 steps of a reference's coordinates: so a reference moves with it exactly, and has the same answer there, but for
the ids. With --messages the records of FILE are written for each copy to `messages.txt`, one copy after the other: the number of the copy, a slash
and the key, a tab, and the reference. The map has to lie east of Greenwich. The same arguments give the same bytes.
"""

import argparse
import base64
import csv
import pathlib

STEP, STEP_UNITS = 703_125, 2**15  # in microdegrees, and in steps of a reference
EAST_END = 180_000_000
LON, LON_END = 1, 4  # the bytes of a reference with the longitude of its first point


def records_of(file):
    """The records of a file of a map, without the header; none if there is no file."""
    if not file.exists():
        return []
    with open(file, newline="", encoding="ascii") as stream:
        return list(csv.reader(stream))[1:]


def lons_of(nodes, lines):
    """All longitudes of a map."""
    yield from (int(lon) for _, lon, _ in nodes)
    for line in lines:
        yield from (int(point.split(" ")[0]) for point in line[6].split(";") if point)


def shape_of(shape, east):
    """A shape, moved to the east."""
    points = (point.split(" ") for point in shape.split(";") if point)
    return ";".join(f"{int(lon) + east} {lat}" for lon, lat in points)


def moved(text, steps):
    """A reference, moved to the east."""
    data = base64.b64decode(text)
    lon = int.from_bytes(data[LON:LON_END], "big", signed=True) + steps * STEP_UNITS
    return base64.b64encode(data[:LON] + lon.to_bytes(3, "big", signed=True) + data[LON_END:]).decode("ascii")


def write(file, header, rows):
    """Writes a file of a map."""
    with open(file, "w", encoding="ascii", newline="") as stream:
        writer = csv.writer(stream, lineterminator="\n")
        writer.writerow(header.split(","))
        writer.writerows(rows)


def main():
    parser = argparse.ArgumentParser(description=__doc__, formatter_class=argparse.RawDescriptionHelpFormatter)
    parser.add_argument("--map", type=pathlib.Path, required=True)
    parser.add_argument("--copies", type=int, required=True)
    parser.add_argument("--out", type=pathlib.Path, required=True)
    parser.add_argument("--messages", type=pathlib.Path)
    chosen = parser.parse_args()
    nodes, lines, bans = (records_of(chosen.map / f"{name}.csv") for name in ("nodes", "lines", "bans"))
    west, east = min(lons_of(nodes, lines)), max(lons_of(nodes, lines))
    steps = (east - west) // STEP + 1  # from one copy to the next
    most = (EAST_END - east) // (steps * STEP) + 1
    if west <= 0 or not 1 <= chosen.copies <= most:
        parser.error(f"the map has to lie east of Greenwich, and 1 to {most} copies have room up to longitude 180")
    ids = max(int(record[0]) for record in nodes + lines) + 1  # from one copy to the next
    copies = [(number, number * steps * STEP, number * ids) for number in range(chosen.copies)]
    chosen.out.mkdir(parents=True, exist_ok=True)
    rows = ((int(id) + first, int(lon) + by, lat) for _, by, first in copies for id, lon, lat in nodes)
    write(chosen.out / "nodes.csv", "id,lon,lat", rows)
    rows = (
        (int(id) + first, int(start) + first, int(end) + first, *kind, shape_of(shape, by))
        for _, by, first in copies
        for id, start, end, *kind, shape in lines
    )
    write(chosen.out / "lines.csv", "id,from,to,class,form,length,shape", rows)
    if bans:
        rows = ((int(one) + first, int(other) + first) for _, _, first in copies for one, other in bans)
        write(chosen.out / "bans.csv", "from,to", rows)
    if chosen.messages:
        records = [line.split("\t") for line in chosen.messages.read_text().splitlines()]
        texts = (f"{number}/{key}\t{moved(text, number * steps)}\n" for number, _, _ in copies for key, text in records)
        with open(chosen.out / "messages.txt", "w", encoding="ascii", newline="") as stream:
            stream.writelines(texts)
    count = len(copies)
    print(f"{chosen.out}: {count * len(nodes)} nodes, {count * len(lines)} lines, {count * len(bans)} bans, {steps * STEP / 1e6} degrees apart")


if __name__ == "__main__":
    main()
