#!/usr/bin/env python3
"""Compares the likely order of places, and all that goes with it, with what plain arithmetic makes of the program's other answers and the map's files.

    attacks/likely_order.py [PROGRAM] [--references 5000] [--seed 1]

The program is the first argument, or those of --program, or that of OLR_PROGRAM, or else those that the gate builds. References are drawn on four maps
of two generators, which have no bans, so that routes turn back; they are as far off as those of another map, and some are of points along lines. For
each the likely cost of every place is made of its candidates (`candidates`), the penalties of its legs and its route (`match`), and the files of nodes
and lines, all without detail; gaps and ranks are those of `places` in the order of totals. Then `places --order likely --detail` has to have the same
costs in the same order, and with drawn numbers the same places, verdict, and whether it is cut. The first difference of a reference is printed with both
orders, and the status is 1. It needs numpy, by which the references are drawn.
"""

import csv
import itertools
import json
import os
import pathlib
import random
import subprocess
import sys

from drawn_words import along_a_line
from trials import TOP, main

sys.path.insert(0, str(TOP / "python"))
GENERATORS = {"map-1": ["map", "1500", "3000", "1"], "map-2": ["map", "6000", "15000", "2"], "grid-1": ["grid", "1500", "4500", "1"], "grid-2": ["grid", "5000", "12500", "2"]}
"""The maps: by which script of bench/ each is written, how many nodes and lines it has, and the seed."""
ALL = ["--within", "14620", "--most", "100"]
LOOK = 100
"""So many matchings are looked at for places, and listed."""
OF_CASE = 50
"""So many references are asked at once."""
MOST_END = 500
"""Decimetres from the proper end of its line that a point counts at most."""


class Map:
    """A map by its files."""

    def __init__(self, folder):
        with open(folder / "nodes.csv", newline="") as nodes, open(folder / "lines.csv", newline="") as lines:
            places = {row["id"]: (int(row["lon"]), int(row["lat"])) for row in csv.DictReader(nodes)}
            self.lines = {int(row["id"]): Line(row, places) for row in csv.DictReader(lines)}

    def cost(self, penalties, points, route):
        """The likely cost of a matching, with the penalties of its points and of its legs. A point is a line and a position."""
        last = len(points) - 1
        ends = [self.lines[line].length - at if number == last else at for number, (line, at) in enumerate(points)]
        of_points, of_legs = map(sum, penalties)
        return 30 * of_points + 6 * of_legs + sum(min(end, MOST_END) for end in ends) + 3600 * self.turns_back(route)

    def turns_back(self, route):
        """Whether a route goes from the end of a line into one that leads back beside it."""
        return any(self.leads_back(one, other) for one, other in zip(route, route[1:]))

    def leads_back(self, piece, following):
        """Whether of two neighbouring pieces the second one leads back."""
        one, other = self.lines[piece[0]], self.lines[following[0]]
        if one is other or piece[2] != one.length or following[1] != 0 or (one.start, one.end) != (other.end, other.start):
            return False
        (ax, ay), (bx, by) = (spot(place, one.places[-1]) for place in (one.places[-2], other.places[1]))
        return ax * bx + ay * by > abs(ax * by - ay * bx)


class Line:
    """A line of a map: its length in decimetres, its nodes, and its places from the first to the last one."""

    def __init__(self, row, places):
        self.start, self.end, self.length = row["from"], row["to"], int(row["length"])
        shape = [tuple(map(int, place.split(" "))) for place in row["shape"].split(";")] if row["shape"] else []
        self.places = [places[self.start], *shape, places[self.end]]


def spot(place, origin):
    """Where a place is in the plane of an origin, in centimetres."""
    square = origin[1] * origin[1]
    scale = 10_000 * (32_400 * 10**12 - 4 * square) // (32_400 * 10**12 + square)
    return (place[0] - origin[0]) * 11_132 * scale // 10_000_000, (place[1] - origin[1]) * 11_132 // 1_000


def ordered(road_map, candidates, matchings, places):
    """The places of an answer in the likely order, as pairs of the cost and the rank, each with its cursor, gap, and whether it turns back."""
    by_cursor = {one["cursor"]: one for one in matchings}
    found = []
    for rank, place in enumerate(places, 1):
        cursor = place["matching"]["cursor"]
        total, _, ranks = cursor.partition(":")
        points = [point[int(one) - 1] for point, one in zip(candidates, ranks.split("."))]
        matching = by_cursor[cursor]
        penalties = [point["penalty"] for point in points], [leg["penalty"] for leg in matching["legs"]]
        assert sum(map(sum, penalties)) == int(total), cursor
        cost = road_map.cost(penalties, [(point["line"], point["at"]) for point in points], matching["route"])
        found.append((cost, rank, cursor, place["gap"], road_map.turns_back(matching["route"])))
    return sorted(found)


def those_shown(found, within, most):
    """Which of ordered places are shown."""
    least = found[0][0] if found else 0
    return [one for one in found if one[3] <= within or one[0] <= least + 30 * within][:most]


def verdict_of(found, within, following):
    """The verdict on all places that were looked at, behind which there is a cursor or nothing."""
    listed = sum(one[3] <= within for one in found)
    if listed > 1:
        return "ambiguous"
    return "none" if not found else "unique" if listed < len(found) or following is None else "open"


def is_cut(found, within, following):
    """Whether a place may be missing."""
    return bool(found) and following is not None and 6 * int(following.partition(":")[0]) <= found[0][0] + 30 * within


def said(answer):
    """What `places --order likely --detail` says, in the same form."""
    return [(one["cost"], one["rank"], one["matching"]["cursor"], one["gap"], one["matching"]["turns_back"]) for one in answer["places"]]


def compared(road_map, text, answers, numbers):
    """The flaws of answers about a reference: of `candidates`, `match`, `places`, and of `places` in the likely order, all and with numbers; each with
    the orders that differ."""
    candidates, page, places, all_places, some = answers
    found = ordered(road_map, candidates["points"], page["matchings"], places["places"])
    following = places["next"]
    for name, answer, within, most in (("all", all_places, 14_620, 100), ("some", some, *numbers)):
        wanted = those_shown(found, within, most), verdict_of(found, within, following), is_cut(found, within, following)
        if (said(answer), answer["verdict"], answer["cut"]) != wanted:
            yield f"{text}, {name}, within {within}, most {most}: {said(answer)}, {answer['verdict']}, cut {answer['cut']}; but {wanted}"
        if (answer["looked"], answer["margin"], answer["next"]) != (places["looked"], places["margin"], following):
            yield f"{text}, {name}: what was looked at differs from that in the order of totals"


# The maps, and the references that are drawn on them.


def make_cases(folder, references, seed):
    """Writes the maps and references."""
    of_map = -(-references // len(GENERATORS))
    cases = []
    for name, (script, nodes, lines, own) in GENERATORS.items():
        out = pathlib.Path(folder) / name
        words = [TOP / f"bench/generate_{script}.py", "--nodes", nodes, "--lines", lines, "--seed", own, "--out", out]
        subprocess.run([sys.executable, *words], check=True, stdout=subprocess.DEVNULL)
        texts = drawn(out, min(of_map, references), random.Random(f"{seed} {name}"))
        references -= len(texts)
        starts = range(0, len(texts), OF_CASE)
        cases += [(name, number, texts[start : start + OF_CASE], seed) for number, start in enumerate(starts)]
    return cases


def drawn(folder, count, draws):
    """So many references to shortest paths of a map, which are off; some of those of two points are of a point along a line."""
    from olr.model.map_folder import read_map
    from olr.trials.changing import Spreads, changed_points
    from olr.trials.encoder import text_of
    from olr.trials.graph import Graph
    from olr.trials.paths import Paths
    from olr.trials.roads import Roads

    road_map = read_map(folder)
    paths = Paths(road_map).drawn(Graph(road_map, Roads(road_map)), draws)
    spreads = [Spreads().times(times) for times in (0, 1, 2)]
    texts = [text_of(changed_points(one.points, draws.choice(spreads), draws)) for one in itertools.islice(paths, count)]
    return [along_a_line(text) if len(text) == 24 and draws.random() < 0.2 else text for text in texts]


def try_case(trial, name, number, texts, seed):
    """Tries some references on a map."""
    draws = random.Random(f"{seed} {name} {number}")
    folder = trial.folder / name
    within, most = draws.choice([0, 5, 30, 100, 500]), draws.choice([1, 2, 5, 10])
    tolerances = draws.choice([[], ["--profile", "feed"], ["--radius", "200", "--lowest", "7"]])
    given = folder / f"{trial.program.name}-{number}.txt"
    given.write_text("".join(f"{text}\n" for text in texts))
    trial.given = given
    likely, look = ["--order", "likely", "--detail"], ["--look", str(LOOK)]
    asked = [["candidates"], ["match", "--page", str(LOOK)], ["places", *ALL, *look], ["places", *ALL, *look, *likely]]
    asked.append(["places", "--within", str(within), "--most", str(most), *look, *likely])
    lines = []
    for words in asked:
        found = trial.run(["batch", *words, "--map", folder, *tolerances])
        trial.need(found[0] == 0 and found[1].count(b"\n") == len(texts), f"{words}", found)
        lines.append(list(map(json.loads, found[1].splitlines())))
    road_map = Map(folder)
    matched = several = back = 0
    for text, *records in zip(texts, *lines):
        if len({record["fault"] for record in records}) > 1:
            trial.fail(f"{text}: the faults {[record['fault'] for record in records]}")
            continue
        if records[0]["fault"] is not None:
            continue
        answers = [record["answer"] for record in records]
        flaws = list(compared(road_map, text, answers, (within, most)))
        for flaw in flaws:
            trial.fail(flaw)
        trial.passed += not flaws
        places = said(answers[3])
        matched, several, back = matched + bool(places), several + (len(places) > 1), back + any(one[4] for one in places)
    trial.summary = f"{name}, {number + 1}: {len(texts)} references, {matched} with places, {several} with several, {back} with one that turns back"


def with_program(words):
    """Words with the program as `main` reads it."""
    if words and not words[0].startswith("-"):
        return ["--program", *words]
    if "OLR_PROGRAM" in os.environ and "--program" not in words:
        return ["--program", os.environ["OLR_PROGRAM"], *words]
    return words


if __name__ == "__main__":
    sys.argv[1:] = with_program(sys.argv[1:])
    main(__doc__, "olr", try_case, make_cases, references=5_000, seed=1)
