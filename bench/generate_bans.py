#!/usr/bin/env python3
"""Writes bans on turns for a map: the file `bans.csv` next to its `nodes.csv` and `lines.csv`.

    bench/generate_bans.py --map FOLDER [--bans N] [--seed S]

draws N different pairs of a line and a line that starts where it ends. The same arguments give the same bytes, on
every machine: all draws come from the seed.
"""

import argparse
import csv
import pathlib

from network import Draws


def lines_of(folder):
    """The lines of a map: the id and the two nodes of each."""
    with open(folder / "lines.csv", newline="") as file:
        return [(int(row["id"]), int(row["from"]), int(row["to"])) for row in csv.DictReader(file)]


def drawn_bans(lines, count, draws):
    """That many different pairs of ids of a line and of a line that starts at its end, in a drawn order."""
    starting = {}
    for id, start, _ in lines:
        starting.setdefault(start, []).append(id)
    leading = [(id, starting[end]) for id, _, end in lines if end in starting]
    possible = sum(len(ahead) for _, ahead in leading)
    if count > possible:
        raise SystemExit(f"the map has {possible} turns, not {count}")
    bans = {}
    while len(bans) < count:
        id, ahead = leading[draws.below(len(leading))]
        bans[id, ahead[draws.below(len(ahead))]] = None
    return list(bans)


def main():
    parser = argparse.ArgumentParser(description=__doc__, formatter_class=argparse.RawDescriptionHelpFormatter)
    parser.add_argument("--map", type=pathlib.Path, required=True)
    parser.add_argument("--bans", type=int, default=20_000)
    parser.add_argument("--seed", type=int, default=1)
    chosen = parser.parse_args()
    bans = drawn_bans(lines_of(chosen.map), chosen.bans, Draws(chosen.seed))
    records = "".join(f"{first},{second}\n" for first, second in bans)
    (chosen.map / "bans.csv").write_bytes(f"from,to\n{records}".encode())


if __name__ == "__main__":
    main()
