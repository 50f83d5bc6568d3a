#!/usr/bin/env python3
"""Writes a map again with lengths that have little to do with the shapes of its lines.

    bench/generate_lengths.py --map FOLDER --out FOLDER

Most lines get 60 to 100 percent of their length, one in 125 gets 2 to 100 percent, and one in 5,000 gets 1 decimetre. `bans.csv` isn't copied. The same map
gives the same bytes.
"""

import argparse
import csv
import pathlib
import random
import shutil


def share(draw):
    """The share of its length that a line gets."""
    kind = draw.random()
    if kind > 0.008:
        return draw.uniform(0.6, 1)
    return draw.uniform(0.02, 1) if kind > 0.0002 else 0


def main():
    parser = argparse.ArgumentParser(description=__doc__, formatter_class=argparse.RawDescriptionHelpFormatter)
    parser.add_argument("--map", type=pathlib.Path, required=True)
    parser.add_argument("--out", type=pathlib.Path, required=True)
    chosen = parser.parse_args()
    draw = random.Random(3)
    chosen.out.mkdir(parents=True, exist_ok=True)
    shutil.copy(chosen.map / "nodes.csv", chosen.out)
    with open(chosen.map / "lines.csv", newline="") as read, open(chosen.out / "lines.csv", "w", newline="") as written:
        rows = csv.reader(read)
        writer = csv.writer(written, lineterminator="\n")
        writer.writerow(next(rows))
        for row in rows:
            row[5] = max(1, int(int(row[5]) * share(draw)))
            writer.writerow(row)


if __name__ == "__main__":
    main()
