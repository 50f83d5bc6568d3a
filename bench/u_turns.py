#!/usr/bin/python3
"""Tries what bans on turning back do to answers, by references whose true path is known, and prints a table.

    bench/u_turns.py --program PATH [--references 250] [--seed 1]

Two maps are imported with each setting of `--u-turns`: the streets of Tempe, which Debian's python3-libpysal ships, and a town of generate_osm.py. On each
of them it draws shortest paths of traffic that turns back nowhere, and references to them: exact ones, and the same ones slightly and strongly
changed. `olr batch places` answers them. A place is right if it covers 90 percent of the true path. It needs what ./olr-tools setup --tests installs.
"""

import argparse
import json
import math
import random
import subprocess
import sys
import tempfile
from dataclasses import replace
from pathlib import Path
from typing import NamedTuple, get_args

HERE = Path(__file__).resolve().parent
sys.path[:0] = [str(HERE.parent / "python"), str(HERE.parent / "python/tests")]

from olr.counts import Counts  # noqa: E402
from olr.model.map_folder import write_map  # noqa: E402
from olr.osm.importing import Options as OsmOptions  # noqa: E402
from olr.osm.importing import import_osm  # noqa: E402
from olr.model.road_map import MICRODEGREE  # noqa: E402
from olr.trials.encoder import text_of  # noqa: E402
from exact_paths import COVERED, LineGraph, drawn_references, share_covered  # noqa: E402
from olr.importing.u_turns import UTurns  # noqa: E402
from olr.vector.fields import Fields  # noqa: E402
from olr.vector.importing import import_vector  # noqa: E402
from olr.vector.options import Options as VectorOptions  # noqa: E402
from vector_files import STREETS  # noqa: E402


class Change(NamedTuple):
    """By how much the sender's map differs at most: drawn for each point, evenly."""

    metres: float
    """To the east or the west, and as many to the north or the south."""
    percent: float
    """Of the lengths of legs."""
    sectors: int
    classes: int


CHANGES = {
    "exact": Change(0, 0, 0, 0),
    "slightly changed": Change(8, 5, 1, 0),
    "strongly changed": Change(25, 15, 2, 1),
}


def tempe(u_turns, _):
    """The streets of Tempe."""
    return import_vector(STREETS, VectorOptions(Fields("5", "3", id="ID"), u_turns=u_turns), Counts())


def town(u_turns, scratch):
    """A drawn town."""
    file = scratch / "town.osm.pbf"
    if not file.exists():
        words = ["--blocks", "24", "--houses", "1", "--out", str(file)]
        subprocess.run([sys.executable, str(HERE / "generate_osm.py"), *words], check=True)
    return import_osm(file, OsmOptions(u_turns=u_turns), Counts())


MAPS = {"Tempe": tempe, "drawn town": town}


def changed(points, change, draws):
    """The points of a reference as another map would have them."""

    def moved(point):
        north, east = (draws.uniform(-change.metres, change.metres) / MICRODEGREE for _ in range(2))
        lon = point.lon + round(east / math.cos(math.radians(point.lat / 1e6)))
        road_class = point.class_ + draws.randint(-change.classes, change.classes)
        factor = 1 + draws.uniform(-change.percent, change.percent) / 100
        return replace(
            point,
            lon=lon,
            lat=point.lat + round(north),
            class_=min(max(road_class, 0), 7),
            sector=(point.sector + draws.randint(-change.sectors, change.sectors)) % 32,
            interval=None if point.interval is None else min(round(point.interval * factor), 255),
        )

    return [moved(point) for point in points]


def answers(program, folder, texts):
    """What `batch places` answers about references on a map: None for a fault."""
    command = [program, "batch", "places", "--map", folder]
    records = "".join(f"{text}\n" for text in texts)
    ended = subprocess.run(command, input=records, capture_output=True, check=True, text=True)
    return [json.loads(line)["answer"] for line in ended.stdout.splitlines()]


def is_right(network, path, answer):
    """Whether the first place is the true path."""
    outer = answer["places"][0]["matching"]["outer"]
    return share_covered(network, path, outer) >= COVERED


def row_of(network, references, found):
    """How many first places are right, how many are wrong although they are the only one, and how many references have none."""
    placed = [
        (is_right(network, path, answer), answer["verdict"] == "unique")
        for (path, _), answer in zip(references, found, strict=True)
        if answer is not None and answer["places"]
    ]
    right = sum(right for right, _ in placed)
    wrong = sum(unique and not right for right, unique in placed)
    return f"{right} | {wrong} | {len(references) - len(placed)}"


def main():
    parser = argparse.ArgumentParser(description=__doc__, formatter_class=argparse.RawDescriptionHelpFormatter)
    parser.add_argument("--program", type=Path, required=True)
    parser.add_argument("--references", type=int, default=250)
    parser.add_argument("--seed", type=int, default=1)
    chosen = parser.parse_args()
    print(f"| map | {chosen.references} references | `--u-turns` | bans | lines | first place right | unique but wrong | no place |")
    print("|---|---|---|---|---|---|---|---|", flush=True)
    with tempfile.TemporaryDirectory() as place:
        for name, make in MAPS.items():
            made = {u_turns: make(u_turns, Path(place)) for u_turns in get_args(UTurns)}
            for u_turns, one in made.items():
                write_map(one.road_map, Path(place, u_turns), one.about, force=True)
            network = LineGraph(made["allowed"].road_map, turning_back=False)
            references = drawn_references(network, chosen.references, random.Random(chosen.seed), turning_back=False)
            for what, change in CHANGES.items():
                draws = random.Random(chosen.seed)
                texts = [text_of(changed(points, change, draws)) for _, points in references]
                for u_turns, one in made.items():
                    row = row_of(network, references, answers(chosen.program, Path(place, u_turns), texts))
                    sizes = f"{one.about['bans']['all']:,} | {one.about['lines']:,}"
                    print(f"| {name} | {what} | `{u_turns}` | {sizes} | {row} |", flush=True)


if __name__ == "__main__":
    main()
