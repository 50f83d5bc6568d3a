#!/usr/bin/python3
"""Measures what it is worth that two maps agree on a reference, by references whose true path is known, and prints a table.

    bench/agreement.py --program PATH [--references 1000] [--pairs 4] [--seed 1]

Of the streets of Tempe, which Debian's python3-libpysal ships, and of a town of generate_osm.py it makes so many pairs of maps, as two other makers
have the region: each lacks roads and has other classes, forms, lengths and nodes of its own. And it makes another edition of the first map of each
pair, which differs from that a fifth as much. References are drawn on the map from which they were made, and are off as those of a sender are. Maps
are asked with the profile `feed`, as `./olr-tools compare` does. The rows are about the likeliest place on the first map, the one that a user has:
it is right if it and the true path cover 90 percent of each other, line by line. Both maps agree if their likeliest places cover as much of each
other, by their geometry. Behind each share is its interval of 95 percent (Wilson). It needs what ./olr-tools setup --tests installs, and takes some
minutes.
"""

import argparse
import random
import subprocess
import sys
import tempfile
from collections import Counter
from itertools import islice
from pathlib import Path

from scipy.stats import binomtest

HERE = Path(__file__).resolve().parent
sys.path[:0] = [str(HERE.parent / "python"), str(HERE.parent / "python/tests")]

from olr.client.map_client import Map  # noqa: E402
from olr.model.questions import NUMBERS  # noqa: E402
from olr.geometry.agreement import ACROSS, AGREE  # noqa: E402
from olr.comparing.asking import Comparison  # noqa: E402
from olr.comparing.places import Limits  # noqa: E402
from olr.counts import Counts  # noqa: E402
from olr.model.map_folder import read_map, write_map  # noqa: E402
from olr.messages.message import Message  # noqa: E402
from olr.osm.importing import Options, import_osm  # noqa: E402
from olr.model.profiles import FEED, as_arguments, tolerances_of  # noqa: E402
from olr.trials.changing import Spreads, changed_points  # noqa: E402
from olr.trials.differing import Difference, differing  # noqa: E402
from olr.trials.encoder import text_of  # noqa: E402
from olr.trials.graph import Graph  # noqa: E402
from olr.trials.paths import Paths  # noqa: E402
from olr.trials.rightness import is_right  # noqa: E402
from olr.trials.roads import Roads  # noqa: E402
from vector_files import write_tempe  # noqa: E402

ANOTHER = Difference(missing=5, classes=15, lengths=4, positions=4, forms=5, one_way=1)
"""How a map of another maker differs."""
EDITION = 0.2
"""How different another edition of the same map is, beside one of another maker."""
MAKER, OF_THE_SAME = "another maker's", "another edition"
APART = NUMBERS["places"]["apart"].default / 10
"""Metres."""
SURE = 0.95
"""A probability."""
ALL = "all that the first map places"
ROWS = (
    ALL,
    f"both maps agree (at least {AGREE:g})",
    f"they don't (below {AGREE:g})",
    "the second map has no place",
    f"probability at least {SURE:g}",
    f"probability at least {SURE:g}, and they agree",
    f"probability at least {SURE:g}, and they don't",
    f"probability below {SURE:g}, and they agree",
)


def maps(scratch):
    """The maps by their names."""
    town = scratch / "town.osm.pbf"
    words = ["--blocks", "24", "--houses", "1", "--out", str(town)]
    subprocess.run([sys.executable, str(HERE / "generate_osm.py"), *words], check=True, stdout=subprocess.DEVNULL)
    yield "Tempe", read_map(write_tempe(scratch / "tempe"))
    yield "drawn town", import_osm(town, Options(), Counts()).road_map


def compared(program, old, new, texts):
    """References on two maps, with their likeliest places there."""
    tolerances = tolerances_of(FEED)
    options = {"program": program, **as_arguments(tolerances)}
    messages = (Message(number, None, text) for number, text in enumerate(texts, 1))
    with Map.of_folder(old, **options) as before, Map.of_folder(new, **options) as after:
        for chunk in Comparison(before, after, {}, Limits(ACROSS, APART)).chunks(messages):
            yield from chunk.references


def rows_of(reference):
    """The rows that a reference counts in: it has a place on the first map."""
    place = reference.old.place()
    assert place is not None and place.probability is not None
    is_sure = place.probability >= SURE * 1e6
    yield ROWS[0]
    if reference.agreement is None:
        yield ROWS[3]
    elif reference.agreement >= AGREE:
        yield from (ROWS[1], ROWS[5] if is_sure else ROWS[7])
    else:
        yield from (ROWS[2], *([ROWS[6]] if is_sure else []))
    if is_sure:
        yield ROWS[4]


def counted(name, road_map, chosen, scratch):
    """How many places each row has, and how many of them are right, by the kind of the second map and the row."""
    roads = Roads(road_map)
    paths, graph = Paths(road_map), Graph(road_map, roads)
    placed, right = Counter(), Counter()
    for pair in range(chosen.pairs):
        draws = random.Random(f"{chosen.seed} {name} {pair}")
        first = differing(road_map, roads, ANOTHER, draws)
        drawn = list(islice(paths.drawn(graph, draws), chosen.references))
        texts = [text_of(changed_points(one.points, Spreads(), draws)) for one in drawn]
        seconds = {
            MAKER: differing(road_map, roads, ANOTHER, draws),
            OF_THE_SAME: differing(first, roads, ANOTHER.times(EDITION), draws),
        }
        write_map(first, scratch / "first", {}, force=True)
        lengths = {line.id: line.length for one in (road_map, first) for line in one.lines}
        for kind, second in seconds.items():
            write_map(second, scratch / "second", {}, force=True)
            found = compared(chosen.program, scratch / "first", scratch / "second", texts)
            for one, reference in zip(drawn, found, strict=True):
                place = reference.old.place()
                if place is not None:
                    is_true = is_right(lengths, one.path, place.matching.outer)
                    for row in rows_of(reference):
                        placed[kind, row] += 1
                        right[kind, row] += is_true
    return placed, right


def interval(right, count):
    """The interval of 95 percent of a share, by Wilson's score."""
    return binomtest(right, count).proportion_ci(method="wilson")


def main():
    parser = argparse.ArgumentParser(description=__doc__, formatter_class=argparse.RawDescriptionHelpFormatter)
    parser.add_argument("--program", type=Path, required=True)
    parser.add_argument("--references", type=int, default=1000, help="on each pair of maps")
    parser.add_argument("--pairs", type=int, default=4, help="pairs of maps")
    parser.add_argument("--seed", type=int, default=1)
    chosen = parser.parse_args()
    print("| map | second map | of the likeliest places on the first map | places | right | share | interval of 95 percent |")
    print("|---|---|---|---|---|---|---|", flush=True)
    with tempfile.TemporaryDirectory() as place:
        for name, road_map in maps(Path(place)):
            placed, right = counted(name, road_map, chosen, Path(place))
            for kind, row in ((kind, row) for kind in (MAKER, OF_THE_SAME) for row in ROWS):
                count, of_them = placed[kind, row], right[kind, row]
                if count:
                    low, high = interval(of_them, count)
                    shares = f"{of_them / count:.1%} | {low:.1%} to {high:.1%}"
                    print(f"| {name} | {kind} | {row} | {count:,} | {of_them:,} | {shares} |", flush=True)


if __name__ == "__main__":
    main()
