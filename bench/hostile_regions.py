#!/usr/bin/env python3
"""Compares the answers to references on their regions with those on the whole map, on small maps that are drawn to hurt regions: lengths
that have little to do with shapes, near latitude 80, near longitude 180 on both sides, and around 0/0.

    bench/hostile_regions.py [--maps 1000] [--seed 1] [--jobs 1]

Each map has 20 references, five for each question. Status 1 where an answer differs. The generators are those of the tests. It needs what
./olr-tools setup --tests installs, and the program that the variable OLR_PROGRAM names, else the built one.
"""

import argparse
import os
import random
import sys
import tempfile
from concurrent.futures import ProcessPoolExecutor
from functools import partial
from pathlib import Path

TOP = Path(__file__).resolve().parents[1]
sys.path[:0] = [str(TOP / "python"), str(TOP / "python/tests")]

from conftest import Program  # noqa: E402
from olr.regions.options import Options  # noqa: E402
from region_maps import Asked, hostile_map, hostile_text, open_store  # noqa: E402

PROGRAM = Program(Path(os.environ.get("OLR_PROGRAM", TOP / "crates/olr/out/olr")))
CORNERS = [
    (0, 79_780_000), (0, -79_980_000), (179_700_000, 50_000_000), (-179_980_000, 33_000_000), (179_700_000, 79_780_000),
    (-90_000, -90_000), (-60_000, 48_000_000), (8_000_000, -60_000), (11_000_000, 68_000_000),
]
"""Longitudes and latitudes, in microdegrees, from which maps go to the east and to the north."""
WHATS = ("candidates", "match", "places", "why")
OF_QUESTION = 5


def differing(seed, number):
    """The questions and references of a map whose answers differ."""
    draw = random.Random(f"{seed} {number}")
    lon, lat = CORNERS[number % len(CORNERS)]
    drawing, found = hostile_map(draw, lat, lon), []
    with tempfile.TemporaryDirectory() as name:
        folder = Path(name)
        whole = drawing.write(folder / "whole")
        if fault := PROGRAM.fault(whole):
            return [f"map {number}: {fault}"]
        with open_store(drawing, folder / "store.gpkg") as store:
            for what in WHATS:
                texts = [hostile_text(draw, drawing) for _ in range(OF_QUESTION)]
                options = Options(
                    radius=draw.choice([10, 100, 400]),
                    percent=draw.choice([0, 30, 100]),
                    slack=draw.choice([0, 300]),
                    nearest=draw.choice([0, 1, 8, 64]),
                )
                asked = Asked(PROGRAM, what, options, {"bearing": 16})
                differences = asked.differences(whole, store, texts, folder / "part")
                found += [f"map {number}, {what}, {options}: {text}" for text in differences]
    return found


def main():
    parser = argparse.ArgumentParser(description=__doc__, formatter_class=argparse.RawDescriptionHelpFormatter)
    parser.add_argument("--maps", type=int, default=1000)
    parser.add_argument("--seed", type=int, default=1)
    parser.add_argument("--jobs", type=int, default=1)
    chosen = parser.parse_args()
    lost = 0
    with ProcessPoolExecutor(chosen.jobs) as pool:
        for number, found in enumerate(pool.map(partial(differing, chosen.seed), range(chosen.maps)), 1):
            lost += len(found)
            for line in found:
                print(line)
            if not number % 100:
                print(f"{number:,} of {chosen.maps:,} maps", file=sys.stderr)
    print(f"{chosen.maps * len(WHATS) * OF_QUESTION:,} answers on {chosen.maps:,} maps, {lost} differ")
    return 1 if lost else 0


if __name__ == "__main__":
    sys.exit(main())
