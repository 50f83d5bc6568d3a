#!/usr/bin/python3
"""Measures what is found of shifts between maps, and prints the tables of docs/CONFIDENCE.md about them.

    bench/shift.py --program PATH [--draws 10] [--references 300] [--trials 2000] [--pairs 2] [--seed 21] [--jobs 2] [--maps tempe town]
        [--kinds KIND ..]

Maps, senders and kinds are those of confidence.py and kinds.py; other shifts are in other directions. For each kind it draws feeds, and says
by how many metres what was found is off, and how many first places are right as references are, and moved by what was found. For the first
`--pairs` feeds of some kinds it says what `calibrate --pair` tells, and with `without` as if it looked for no shift. It needs what
./olr-tools setup --tests installs.
"""

import argparse
import math
import os
import random
import tempfile
from concurrent.futures import ProcessPoolExecutor
from functools import partial
from itertools import islice
from pathlib import Path
from unittest.mock import patch

import confidence  # noqa: F401 - it finds the package olr.
import numpy as np
from confidence import MAPS, SENDERS, written
from kinds import KINDS, MICRODEGREE, Kind, Pair, shifted
from olr.confidence.calibrating import Wanted, calibrated
from olr.confidence.parts import Asking, Drawing, answered_by, is_right_by_geometry, points_of
from olr.confidence.shift import Shift, shift_found
from olr.confidence.weights import WEIGHTS, differences_of, probabilities
from olr.geometry.network import Network
from olr.model.map_folder import read_map
from olr.model.profiles import tolerances_of
from olr.model.reference import moved, read_reference
from olr.trials.changing import changed_points
from olr.trials.encoder import text_of
from olr.trials.graph import Graph
from olr.trials.likeness import LikeMessages
from olr.trials.paths import Paths
from olr.trials.rightness import is_right
from olr.trials.roads import Roads

METRES = (5, 10, 20, 40, 60, 100)
WITHOUT = ("own", "vendor", "older", "habits", "merged", "segments", "added", "missing")
OF_PAIR = ("own", "vendor", "shifted by 20 m")


def by(metres, road_map, draws):
    """A map, and the same one shifted."""
    return Pair(road_map, shifted(road_map, metres, draws))


CASES = {f"shifted by {metres} m": Kind("", partial(by, metres)) for metres in METRES}
CASES |= {"together": KINDS["together"]} | {name: KINDS[name] for name in WITHOUT}


def true_shift(pair):
    """By how many metres nodes that both maps have lie farther to the east and to the north on the receiver's: the median, since new nodes may
    have the ids of others."""
    there = {node.id: node.position for node in pair.receiver.nodes}
    both = [(node.position, there[node.id]) for node in pair.sender.nodes if node.id in there]
    scale = [math.cos(math.radians(one.lat / 1e6)) for one, _ in both]
    east = np.median([(other.lon - one.lon) * it for (one, other), it in zip(both, scale)])
    north = np.median([other.lat - one.lat for one, other in both])
    return Shift(float(east) * MICRODEGREE, float(north) * MICRODEGREE)


def tried(case):
    """What was found of one feed."""
    name, kind, draw, asked, scratch = case
    made, asking = CASES[kind], Asking(tolerances_of("feed"))
    draws = random.Random(f"{asked.seed} {name} {kind} {draw}")
    sender, receiver = pair = made.maps(read_map(scratch / name), draws)
    folders = [written(it, scratch / f"{name}-{kind}-{draw}-{side}") for side, it in enumerate(pair)]
    drawn = list(islice(Paths(sender).drawn(Graph(sender, Roads(sender)), draws), asked.references))
    senders = [SENDERS[list(SENDERS)[number % len(SENDERS)]] for number in range(len(drawn))]
    texts = [
        text_of(made.habits(changed_points(it.points, how, draws), draws))
        for it, how in zip(drawn, senders)
    ]
    true = true_shift(pair)
    lengths = {line.id: line.length for line in (*sender.lines, *receiver.lines)}
    geometry = Network.read(folders[0])
    paths = [true.applied(points_of(it.path, geometry)) for it in drawn]

    def first_of(found, network):
        """Whether the likeliest place of each answer that has one is right."""
        owners, first = found.terms.owners(), found.terms.first()
        for at in first.tolist():
            owner, outer = owners[at], found.matchings[at].outer or ()
            if made.has_same_lines:
                yield is_right(lengths, drawn[owner].path, outer)
            else:
                yield is_right_by_geometry(paths[owner], network.path(outer))

    with asking.map_of(folders[1]) as there:
        found = shift_found(there, texts)
        again = [moved(text, *(found or (0, 0))) for text in texts]
        answers = [answered_by(there, some, asking) for some in (texts, again)]
        rights = [np.array(list(first_of(it, there.network()))) for it in answers]
    row = {"map": name, "kind": kind, "true": true, "found": found, "references": len(texts)}
    row["right"] = [int(right.sum()) for right in rights]
    if kind in OF_PAIR and draw < asked.pairs:
        drawing = Drawing(asked.trials, asked.seed + draw, LikeMessages(map(read_reference, texts)))
        wanted = Wanted(feed=texts, messages=len(texts), pair=folders[0])
        with patch("olr.confidence.parts.shift_found", lambda *_: None):
            without = calibrated(folders[1], drawing, asking, wanted)
        files = (without, *[calibrated(folders[1], drawing, asking, wanted)] * 2)
        row["pair"] = [
            (told_of(file, answers[number].terms), rights[number].mean())
            for file, number in zip(files, (0, 0, 1))
        ]
    return row


def told_of(file, terms):
    """The mean of the probabilities of likeliest places."""
    weights = np.array([file.weights[name] for name in WEIGHTS])
    return probabilities(weights, differences_of(terms)).of_place[terms.first()].mean()


def off_of(row):
    """How many metres what was found lies from what is true."""
    return math.dist(row["found"], row["true"])


def print_found(rows):
    """The table of shifts."""
    print("| kind | feeds | a shift is said | off in the mean | at most | right first | moved |")
    print("|---|---|---|---|---|---|---|")
    for kind in CASES:
        if some := [row for row in rows if row["kind"] == kind]:
            off = [off_of(row) for row in some if row["found"]]
            told = f"{np.mean(off):.1f} m | {max(off):.1f} m" if off else "|"
            count = sum(row["references"] for row in some)
            right = [f"{100 * sum(row['right'][at] for row in some) / count:.1f}" for at in (0, 1)]
            print(f"| `{kind}` | {len(some)} | {len(off)} | {told} | {' | '.join(right)} |")


def print_pairs(rows):
    """The table of `calibrate --pair`."""
    print("\n| kind | feeds | told without | told | seen | told, moved | seen, moved |")
    print("|---|---|---|---|---|---|---|")
    for kind in OF_PAIR:
        if some := [row["pair"] for row in rows if row["kind"] == kind and "pair" in row]:
            (without, _), (told, seen), (later, seen_later) = np.mean(some, axis=0)
            print(
                f"| `{kind}` | {len(some)} | {without:.3f} | {told:.3f} | {seen:.3f} | {later:.3f} | {seen_later:.3f} |"
            )


def main():
    parser = argparse.ArgumentParser(description=__doc__.splitlines()[0])
    parser.add_argument("--program", required=True)
    parser.add_argument("--draws", type=int, default=10)
    parser.add_argument("--references", type=int, default=300)
    parser.add_argument("--trials", type=int, default=2000)
    parser.add_argument("--pairs", type=int, default=2)
    parser.add_argument("--seed", type=int, default=21)
    parser.add_argument("--jobs", type=int, default=2)
    parser.add_argument("--maps", nargs="+", default=["tempe", "town"])
    parser.add_argument("--kinds", nargs="+", default=list(CASES), help="such as: own 'shifted by 20 m'")
    asked = parser.parse_args()
    os.environ["OLR_PROGRAM"] = os.path.abspath(asked.program)
    with tempfile.TemporaryDirectory(prefix="olr-shift-") as place:
        scratch = Path(place)
        for name in asked.maps:
            MAPS[name](scratch / name)
        cases = [
            (name, kind, draw, asked, scratch)
            for name in asked.maps
            for kind in asked.kinds
            for draw in range(asked.draws)
        ]
        with ProcessPoolExecutor(asked.jobs) as pool:
            rows = list(pool.map(tried, cases))
    print_found(rows)
    print_pairs(rows)


if __name__ == "__main__":
    main()
