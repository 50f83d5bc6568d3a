#!/usr/bin/python3
"""Measures how honest probabilities are, on maps, recipes and references that nothing was fitted on, and prints the tables of
docs/CONFIDENCE.md.

    bench/confidence.py --program PATH [--draws 1] [--references 300] [--trials 10000] [--seeds 3] [--jobs 2] [--only MAP:KIND ..] [--keep FILE]

Four maps: the streets of Tempe, a drawn town, and maps of generate_map.py and generate_grid.py. Of each of them kinds.py makes the sender's
and the receiver's map by stated recipes, drawn several times. References to known paths of the sender's map are drawn, exact, mildly and
strongly changed, and asked of the receiver's. As a user would, `calibrate` gets the receiver's map and the references as a feed, whose true
paths it doesn't know, with several seeds. Answers are kept in a file, so that tables can be printed again. It needs what ./olr-tools setup
--tests installs.
"""

import argparse
import json
import os
import random
import re
import subprocess
import sys
import tempfile
from concurrent.futures import ProcessPoolExecutor
from itertools import islice
from pathlib import Path
from unittest.mock import patch

HERE = Path(__file__).resolve().parent
sys.path[:0] = [str(HERE.parent / "python"), str(HERE.parent / "python/tests")]

import numpy as np  # noqa: E402

from kinds import KINDS  # noqa: E402
from olr.confidence.calibrating import Wanted, calibrated  # noqa: E402
from olr.confidence.fitting import Checked, shift_of, shifted  # noqa: E402
from olr.confidence.parts import (  # noqa: E402
    ALIKE,
    Asking,
    Drawing,
    answered_by,
    is_right_by_geometry,
    points_of,
)
from olr.confidence.weights import WEIGHTS, differences_of, probabilities  # noqa: E402
from olr.geometry.network import Network  # noqa: E402
from olr.model.map_folder import read_map, write_records  # noqa: E402
from olr.model.profiles import tolerances_of  # noqa: E402
from olr.model.reference import read_reference  # noqa: E402
from olr.trials.changing import Spreads, changed_points  # noqa: E402
from olr.trials.encoder import text_of  # noqa: E402
from olr.trials.graph import Graph  # noqa: E402
from olr.trials.likeness import LikeMessages  # noqa: E402
from olr.trials.paths import Paths  # noqa: E402
from olr.trials.rightness import is_right  # noqa: E402
from olr.trials.roads import Roads  # noqa: E402

SEED = 14
"""Of maps and of references."""
SENDERS = {
    "exact": Spreads().times(0),
    "mild": Spreads(8, 1, 5, 10, 5),
    "hard": Spreads(25, 2, 15, 20, 10),
}
"""By how much references are changed: as those of bench/u_turns.py, with classes and forms."""
CHECKED = 40


def tempe(folder):
    """The streets of Tempe."""
    from vector_files import write_tempe

    write_tempe(folder)


def town(folder):
    """A drawn town."""
    from olr.counts import Counts
    from olr.model.map_folder import write_map
    from olr.osm.importing import Options, import_osm

    file = folder.with_suffix(".osm.pbf")
    words = ["--blocks", "24", "--houses", "1", "--seed", str(SEED), "--out", str(file)]
    subprocess.run([sys.executable, str(HERE / "generate_osm.py"), *words], check=True)
    made = import_osm(file, Options(), Counts())
    write_map(made.road_map, folder, made.about)


def generated(script, nodes, lines):
    """Makes a map by another script, with bans on turning back."""

    def make(folder):
        words = ["--nodes", str(nodes), "--lines", str(lines), "--seed", str(SEED), "--out", str(folder)]
        quiet = {"check": True, "stdout": subprocess.DEVNULL}
        subprocess.run([sys.executable, str(HERE / script), *words], **quiet)
        subprocess.run([str(HERE.parent / "olr-tools"), "u-turns", str(folder)], **quiet)

    return make


MAPS = {
    "tempe": tempe,
    "town": town,
    "towns": generated("generate_map.py", 2000, 4500),
    "grid": generated("generate_grid.py", 1500, 3500),
}


def written(road_map, folder):
    """The folder in which a map is written."""
    folder.mkdir(parents=True)
    write_records(road_map.nodes, road_map.lines, road_map.bans, folder)
    return folder


def tried(case):
    """The answers of a case: one row for each reference."""
    name, kind, draw, asked, scratch = case
    made = KINDS[kind]
    draws = random.Random(f"{SEED} {name} {kind} {draw}")
    sender, receiver = pair = made.maps(read_map(scratch / name), draws)
    folders = [written(it, scratch / f"{name}-{kind}-{draw}-{side}") for side, it in enumerate(pair)]
    graph = Graph(sender, Roads(sender))
    drawn = list(islice(Paths(sender).drawn(graph, draws), asked.references))
    senders = [list(SENDERS)[number % len(SENDERS)] for number in range(len(drawn))]
    texts = [
        text_of(made.habits(changed_points(it.points, SENDERS[how], draws), draws))
        for it, how in zip(drawn, senders)
    ]
    rows = [{"map": name, "kind": kind, "draw": draw, "sender": how} for how in senders]
    lengths = {line.id: line.length for line in (*sender.lines, *receiver.lines)}

    def are_right(found, network):
        """Whether each place is right: by its lines, or by its geometry where the maps have other lines."""
        owners = found.terms.owners().tolist()
        outers = [matching.outer or () for matching in found.matchings]
        if made.has_same_lines:
            return [is_right(lengths, drawn[it].path, outer) for it, outer in zip(owners, outers)]
        geometry = Network.read(folders[0])
        true = [points_of(it.path, geometry) for it in drawn]
        places = (network.path(outer) for outer in outers)
        return [is_right_by_geometry(true[it], place) for it, place in zip(owners, places)]

    for profile in ("program", "feed"):
        asking = Asking(tolerances_of(profile))
        with asking.map_of(folders[1]) as there:
            found = answered_by(there, texts, asking)
            right = np.array(are_right(found, there.network()), dtype=bool)
        terms = found.terms
        with_places = np.flatnonzero(terms.sizes)
        for row, first in zip(with_places, terms.first()):
            places = range(first, first + terms.sizes[row])
            rows[row][f"{profile} by total"] = bool(right[min(places, key=lambda at: key_of(found.matchings[at]))])
            rows[row][f"{profile} likely"] = bool(right[first])
            rows[row][f"{profile} listed"] = bool(right[places].any())
    references = [read_reference(text) for text in texts]
    wanted = Wanted(feed=texts, messages=len(texts))
    differences, first = differences_of(terms), terms.first()
    is_first = np.zeros(len(terms.costs), dtype=bool)
    is_first[first] = True
    checked = random.Random(draw).sample(range(len(first)), min(CHECKED, len(first)))
    some = only(differences, is_first, right[first], sorted(checked))
    for seed in range(asked.seeds):
        drawing = Drawing(asked.trials, SEED + draw + 100 * seed, LikeMessages(references))
        with patch.multiple("olr.confidence.parts", ALIKE=ALIKE, **made.without):
            confidence = calibrated(folders[1], drawing, asking, wanted)
        weights = np.array([float(confidence.weights[name]) for name in WEIGHTS])
        again = shifted(weights, shift_of(weights, some))
        told, later = (probabilities(it, differences).of_place[first] for it in (weights, again))
        for number, row in enumerate(with_places):
            rows[row].setdefault("told", []).append(float(told[number]))
            rows[row].setdefault("told, checked", []).append(float(later[number]))
            rows[row]["was checked"] = number in checked
    return rows


def key_of(matching):
    """The total of a matching and its ranks, by which the order of totals goes."""
    return [int(number) for number in re.split("[:.]", matching.cursor)]


def only(differences, is_first, right, numbers):
    """Some answers, checked."""
    wanted = np.isin(np.arange(len(differences.sizes)), numbers)
    places = np.repeat(wanted, differences.sizes)
    some = differences._replace(
        sizes=differences.sizes[wanted],
        of_place=differences.of_place[places],
        of_none=differences.of_none[wanted],
    )
    return Checked(some, is_first[places], right[wanted])


def error_of(told, right, bins=10):
    """The expected calibration error: how far what is told and what is seen lie apart in bins of as many answers each."""
    order = np.array_split(np.argsort(told, kind="stable"), bins)
    gaps = [abs(told[some].mean() - right[some].mean()) * len(some) for some in order if len(some)]
    return sum(gaps) / len(told)


def area_of(told, right):
    """The probability that a right answer is told more of than a wrong one: AUC."""
    from scipy.stats import rankdata

    ranks, good = rankdata(told), int(right.sum())
    wrong = len(right) - good
    if not good or not wrong:
        return float("nan")
    return (ranks[right].sum() - good * (good + 1) / 2) / (good * wrong)


def orders(rows):
    """The table of first places, in percent."""
    columns = ("program by total", "feed by total", "feed likely", "feed listed")
    print("| kind | references | right first, program by total | feed by total | feed, likely order | in its list |")
    print("|---|---|---|---|---|---|")
    for kind, some in kinds_of(rows):
        found = [f"{100 * np.mean([bool(row.get(name)) for row in some]):.1f}" for name in columns]
        print(f"| `{kind}` | {len(some):,} | {' | '.join(found)} |")


def kinds_of(rows):
    """The rows of each kind that has some, by their kinds."""
    return [(kind, some) for kind in KINDS if (some := [row for row in rows if row["kind"] == kind])]


def honesty(rows, name):
    """The table of what is told beside what is seen. Each feed counts alike in `off` and `apart`."""
    print(f"\nBy `{name}`:\n")
    print("| kind | answers | told | seen | off | apart | ECE | AUC | told 0.9 or more: answers | seen |")
    print("|---|---|---|---|---|---|---|---|---|---|")
    offs, sure, kept = [], [], []
    for kind, some in kinds_of([row for row in rows if name in row]):
        some = [row for row in some if name == "told" or not row["was checked"]]
        told = np.array([row[name] for row in some])
        right = np.array([row["feed likely"] for row in some])
        of_feed = [(row["map"], row["draw"]) for row in some]
        feeds = [np.array([it == feed for it in of_feed]) for feed in sorted(set(of_feed))]
        off = [told[feed].mean(axis=0) - right[feed].mean() for feed in feeds]
        errors = [error_of(it, right) for it in told.T]
        areas = [area_of(it, right) for it in told.T]
        is_sure = told >= 0.9
        seen = (right[:, None] & is_sure).sum() / max(is_sure.sum(), 1)
        print(
            f"| `{kind}` | {len(some):,} | {told.mean():.3f} | {right.mean():.3f} | {np.abs(off).mean():.3f} | "
            f"{np.mean(np.ptp(off, axis=1)):.3f} | {np.mean(errors):.3f} | {np.mean(areas):.3f} | "
            f"{is_sure.mean(axis=1).sum():,.0f} | {seen:.3f} |"
        )
        offs.append(off)
        kept.append(told.mean() - right.mean())
        sure += [(is_sure.mean(axis=1).sum(), seen)]
    apart = np.concatenate([np.ptp(off, axis=1) for off in offs])
    by_feed = np.abs(np.concatenate(offs))
    answers, seen = np.array(sure).T
    print(
        f"\nOver kinds told and seen differ by {np.abs(kept).mean():.3f}, {np.abs(kept).max():.3f} at most; over feeds by "
        f"{by_feed.mean():.3f}, {by_feed.max():.3f} at most. Seeds differ by {apart.mean():.3f}, {apart.max():.3f} at most. "
        f"Of {answers.sum():,.0f} that are told 0.9 or more {answers @ seen / answers.sum():.3f} are right."
    )


def main():
    parser = argparse.ArgumentParser(description=__doc__.splitlines()[0])
    parser.add_argument("--program", required=True)
    parser.add_argument("--draws", type=int, default=1)
    parser.add_argument("--references", type=int, default=300)
    parser.add_argument("--trials", type=int, default=Drawing().references)
    parser.add_argument("--seeds", type=int, default=3, help="of calibrate, for each feed")
    parser.add_argument("--jobs", type=int, default=2)
    parser.add_argument("--only", nargs="*", help="cases, such as tempe:vendor")
    parser.add_argument("--keep", type=Path, help="a file for the answers; those of cases that it has aren't asked again")
    asked = parser.parse_args()
    os.environ["OLR_PROGRAM"] = os.path.abspath(asked.program)
    cases = asked.only or [f"{name}:{kind}" for kind in KINDS for name in MAPS]
    rows = []
    if asked.keep is not None and asked.keep.exists():
        rows = [json.loads(line) for line in asked.keep.read_text().splitlines()]
    done = {(row["map"], row["kind"], row["draw"]) for row in rows}
    with tempfile.TemporaryDirectory(prefix="olr-confidence-") as place:
        scratch = Path(place)
        wanted = [(*case.split(":"), draw) for draw in range(asked.draws) for case in cases]
        tasks = [(*case, asked, scratch) for case in wanted if case not in done]
        for name in sorted({name for name, *_ in tasks}):
            MAPS[name](scratch / name)
        with ProcessPoolExecutor(asked.jobs) as pool:
            for number, found in enumerate(pool.map(tried, tasks), 1):
                rows += found
                print(f"{number} of {len(tasks)} done", file=sys.stderr)
                if asked.keep is not None:
                    asked.keep.write_text("".join(json.dumps(row) + "\n" for row in rows))
    orders(rows)
    honesty(rows, "told")
    honesty(rows, "told, checked")


if __name__ == "__main__":
    main()
