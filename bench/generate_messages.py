#!/usr/bin/env python3
"""Prints many references on a map, one a line: a number, a tab, and the text of the reference.

    bench/generate_messages.py --map FOLDER [--count 2000] [--legs short] [--lower 0] [--seed 1]

A reference has 2 to 5 points along a shortest path from a drawn node to another one, with 2 to 12 lines from one point to
the next, or with --legs long some 5 to 10 km. One tree of shortest paths serves for 50 references. With --lower 1 each leg states
a lowest class that is 1 too low, so that most references have no matching. The same arguments give the same text on every machine.
"""

import argparse
import bisect
import itertools
import pathlib

from generate_reference import line_of, path_to, read_map, shortest_paths
from network import Draws
from reference import INTERVAL, line_reference

FROM_ONE_TREE = 50
GREATEST = 255 * INTERVAL  # the greatest length of a leg, in decimetres
MOST_IN_VAIN = 100  # trees without a reference, one after the other
LEAST_LONG, MOST_LONG = 50_000, 100_000  # between which the length of a long leg is drawn, in decimetres


def short_cuts(lengths, draws):
    """Between which of the lines of a path, with these lengths, drawn legs of 2 to 12 lines begin and end: how many lines are before each
    point. None where the path is too short."""
    sizes = [2 + draws.below(11) for _ in range(1 + draws.below(4))]
    spare = len(lengths) - sum(sizes)
    return list(itertools.accumulate([draws.below(spare + 1), *sizes])) if spare >= 0 else None


def long_cuts(lengths, draws):
    """The same for legs of about a drawn length each."""
    wanted = [LEAST_LONG + draws.below(MOST_LONG - LEAST_LONG + 1) for _ in range(1 + draws.below(4))]
    driven = list(itertools.accumulate(lengths))  # up to the end of each line
    spare = sum(lengths) - sum(wanted)
    if spare < 0:
        return None
    return [bisect.bisect(driven, length) for length in itertools.accumulate([draws.below(spare + 1), *wanted])]


CUTS = {"short": short_cuts, "long": long_cuts}


def drawn_legs(path, places, drawn_cuts, draws):
    """The legs of a drawn part of a path, each a list of lines, or None where the path is too short, or a leg too long or without a line."""
    cuts = drawn_cuts([int(record["length"]) for record in path], draws)
    if cuts is None:
        return None
    legs = [[line_of(record, places) for record in path[first:end]] for first, end in zip(cuts, cuts[1:])]
    return legs if all(leg and sum(line.length for line in leg) < GREATEST for leg in legs) else None


def messages(places, starting, count, drawn_cuts, lower, draws):
    """The texts of as many references."""
    nodes, in_vain = sorted(starting), 0
    while count > 0:
        reached = shortest_paths(starting, nodes[draws.below(len(nodes))])
        ends, left = sorted(reached), count
        for _ in range(min(count, FROM_ONE_TREE)):
            legs = drawn_legs(path_to(reached, ends[draws.below(len(ends))]), places, drawn_cuts, draws)
            if legs:
                count -= 1
                yield line_reference(legs, lower)
        in_vain = in_vain + 1 if count == left else 0
        if in_vain == MOST_IN_VAIN:
            raise SystemExit("no shortest path was found that is long enough for the legs")


def main():
    parser = argparse.ArgumentParser(description=__doc__, formatter_class=argparse.RawDescriptionHelpFormatter)
    parser.add_argument("--map", type=pathlib.Path, required=True)
    parser.add_argument("--count", type=int, default=2000)
    parser.add_argument("--legs", choices=CUTS, default="short", help="of 2 to 12 lines, or long: of some 5 to 10 km (default short)")
    parser.add_argument("--lower", type=int, default=0, help="how much too low the lowest class of each leg is (default 0)")
    parser.add_argument("--seed", type=int, default=1)
    chosen = parser.parse_args()
    places, starting = read_map(chosen.map)
    for number, text in enumerate(messages(places, starting, chosen.count, CUTS[chosen.legs], chosen.lower, Draws(chosen.seed)), 1):
        print(f"{number}\t{text}")


if __name__ == "__main__":
    main()
