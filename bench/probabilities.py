#!/usr/bin/python3
"""Compares the probabilities of the program with a model of them in real numbers, by the definitions of docs/CONFIDENCE.md alone.

    bench/probabilities.py --program PATH [--confidence FILE] [--answers 2000] [--maps MAP ..]

The four maps of confidence.py: references to drawn paths of them are changed mildly and strongly, and asked about the map without 5 percent of
its roads. All places that are looked at are listed in detail, and the model makes their terms, worths and shares of these. The largest
difference of a place may be 1e-4, and that of none of these 1e-4 and a millionth for each place: else it ends with status 1. It needs what
./olr-tools setup --tests installs.
"""

import argparse
import json
import math
import random
import subprocess
import sys
import tempfile
from itertools import islice
from pathlib import Path

from confidence import MAPS, SENDERS, written
from olr.asking.program import SHIPPED
from olr.model.map_folder import read_map
from olr.trials.changing import changed_points
from olr.trials.differing import Difference, differing
from olr.trials.encoder import text_of
from olr.trials.graph import Graph
from olr.trials.paths import Paths
from olr.trials.roads import Roads

ORDER = 1 << 24
"""A worth that is so much greater is twice as probable."""
ALLOWED, OF_PLACE = 1e-4, 1e-6
"""How far a probability may be off; that of none has what was rounded away of each place too."""
ALL = ["--profile", "feed", "--within", "14620", "--most", "100", "--order", "likely", "--detail"]


def root(number):
    """The root of a whole number, rounded down."""
    return math.isqrt(number)


def missed(leg):
    """By how many thousandths of the greatest length that a reference says a leg is longer than that, or shorter than the least one."""
    off = max(leg["length"] - leg["greatest"], 0) + max(leg["least"] - leg["length"], 0)
    return min(1000 * off // (leg["greatest"] + 1), 1000)


def length_of(matching):
    """The length of a route, in decimetres."""
    return sum(leg["length"] for leg in matching["legs"])


def loss_of(weights, place, least):
    """What a place loses, where this is the least likely cost of all."""
    matching = place["matching"]
    length, points = length_of(matching), matching["points"]
    terms = {
        "distance": min(100 * max(it["distance"] for it in points) // length, 1000) if length else 0,
        "direction": max(it["sectors"] for it in points),
        "leg": max(map(missed, matching["legs"])),
        "behind": place["cost"] - least,
        "turning_back": int(matching["turns_back"]),
    }
    return sum(weights[name] * value for name, value in terms.items())


def worth_of_none(weights, likeliest):
    """What none of these is worth, by the likeliest place."""
    terms = {
        "none": 1,
        "none_points": min(len(likeliest["points"]), 100) - 2,
        "none_lines": root(16 * min(len(likeliest["route"]), 100_000)),
        "none_length": root(min(length_of(likeliest), 1_000_000)),
    }
    return sum(weights[name] * value for name, value in terms.items())


def probabilities(weights, places):
    """The probability of each place, and that of none, of all places in the order in which they opened."""
    if not places:
        return [], 1.0
    least = min(place["cost"] for place in places)
    likeliest = next(place for place in places if place["cost"] == least)["matching"]
    worths = [-loss_of(weights, place, least) for place in places]
    worths.append(worth_of_none(weights, likeliest))
    greatest = max(worths)
    shares = [2 ** ((worth - greatest) / ORDER) for worth in worths]
    *of_places, of_none = (share / sum(shares) for share in shares)
    return of_places, of_none


def texts_of(road_map, count, draws):
    """References to drawn paths, changed mildly and strongly in turn."""
    kinds = [SENDERS["mild"], SENDERS["hard"]]
    drawn = islice(Paths(road_map).drawn(Graph(road_map, Roads(road_map)), draws), count)
    return [text_of(changed_points(it.points, kinds[at % 2], draws)) for at, it in enumerate(drawn)]


def answers_of(name, asked, scratch):
    """The program's answers about a map."""
    draws = random.Random(f"probabilities {name}")
    MAPS[name](scratch / name)
    sender = read_map(scratch / name)
    receiver = differing(sender, Roads(sender), Difference(missing=5), draws)
    folder = written(receiver, scratch / f"{name} asked")
    texts = texts_of(sender, asked.answers // len(asked.maps), draws)
    words = [asked.program, "batch", "places", "--map", folder, *ALL, "--confidence", asked.confidence]
    given = "".join(f"{text}\n" for text in texts)
    ended = subprocess.run(list(map(str, words)), input=given, capture_output=True, text=True, check=True)
    return [line["answer"] for line in map(json.loads, ended.stdout.splitlines()) if line["fault"] is None]


def main():
    """Prints the largest differences on each map."""
    parser = argparse.ArgumentParser(description=__doc__.splitlines()[0])
    parser.add_argument("--program", required=True, type=Path)
    parser.add_argument("--confidence", default=SHIPPED, type=Path)
    parser.add_argument("--answers", default=2000, type=int)
    parser.add_argument("--maps", default=list(MAPS), nargs="+", choices=MAPS)
    asked = parser.parse_args()
    weights = json.loads(asked.confidence.read_text())["weights"]
    is_well = True
    with tempfile.TemporaryDirectory() as scratch:
        for name in asked.maps:
            of_place = of_none = excess = 0.0
            places = 0
            answers = answers_of(name, asked, Path(scratch))
            for answer in answers:
                found = sorted(answer["places"], key=lambda place: place["rank"])
                told, none = probabilities(weights, found)
                for place, expected in zip(found, told):
                    of_place = max(of_place, abs(place["probability"] / 1e6 - expected))
                off = abs(answer["none_of_these"] / 1e6 - none)
                of_none, excess = max(of_none, off), max(excess, off - OF_PLACE * len(found))
                places += len(found)
            is_well &= of_place <= ALLOWED and excess <= ALLOWED
            print(f"{name}: {len(answers):,} answers, {places:,} places: a place off by {of_place:.2e}, none by {of_none:.2e}")
    sys.exit(0 if is_well else 1)


if __name__ == "__main__":
    main()
