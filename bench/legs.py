#!/usr/bin/env python3
"""Compares the legs that `olr` tells with what trying all walks finds, on small maps that are drawn.

    bench/legs.py --program PATH [--maps 3000] [--seed 1]

A map has 5 to 9 nodes and 6 to 16 lines, whose lengths are drawn so that many sums are equal or nearly so, and some turns are banned. References are
drawn along walks on it, and of each one that has matchings the legs of some are compared, with several values of `--near`. Walks are tried one by one
and left out for their lengths alone, so nothing is shared with the search of the program. What differs is printed with its map, and the status is 1
then. It needs Python 3.10 or later.
"""

from __future__ import annotations

import argparse
import json
import random
import subprocess
import sys
import tempfile
from collections import Counter
from dataclasses import dataclass, replace
from functools import cached_property
from itertools import pairwise
from pathlib import Path
from typing import Any, Iterator, NamedTuple

from reference import INTERVAL, Line, line_reference

REFERENCES, MATCHINGS = 8, 4
"""Of a map, and at most of a reference: the best one, and others that are drawn."""
NEARS = {"": 1, " --near 0": 0, " --near 15": 15, " --near 50": 50, " --near 100": 100}
"""Options, and their values in thousandths."""
LENGTHS, CHANGES, SCALES = (100, 150, 200, 200, 250, 300, 400), (0, 0, 0, 0, 0, -1, 1, -10, 10, 10, 11), (1, 1, 1, 10)
"""Decimetres: lengths that have few different sums, and what is added to them, so that other sums are nearly equal. On some maps all are tenfold."""
ALWAYS_NEAR, LEAST_MISSED, LEAST_SHORTER, GREATEST_CLASS = 10, 200, 100, 7

Place = NamedTuple("Place", [("line", int), ("at", int)])


class Road(NamedTuple):
    """A line of a map, in the order of its columns."""

    id: int
    start: int
    end: int
    road_class: int
    form: int
    length: int
    shape: tuple[tuple[int, int], ...]


class Walk(NamedTuple):
    """Walks compare by their lengths, and then by the ids of their lines. Its greatest class is that of the lines that are driven."""

    length: int
    lines: tuple[int, ...]
    pieces: list[list[int]]
    greatest_class: int


class Asked(NamedTuple):
    """A leg that is asked about: its places, what its point says, and the length that `match` tells."""

    start: Place
    end: Place
    limit: int
    interval: int
    length: int


@dataclass(frozen=True)
class Map:
    nodes: dict[int, tuple[int, int]]
    roads: dict[int, Road]
    bans: frozenset[tuple[int, int]]

    def files(self) -> dict[str, str]:
        nodes = [f"{id},{lon},{lat}" for id, (lon, lat) in self.nodes.items()]
        lines = [",".join(map(str, [*values, ";".join(f"{lon} {lat}" for lon, lat in shape)])) for *values, shape in self.roads.values()]
        bans = [f"{before},{after}" for before, after in sorted(self.bans)]
        rows = {"nodes": ["id,lon,lat", *nodes], "lines": ["id,from,to,class,form,length,shape", *lines], "bans": ["from,to", *bans]}
        return {f"{name}.csv": "\n".join([*texts, ""]) for name, texts in rows.items()}

    @cached_property
    def onwards(self) -> dict[int, list[Road]]:
        """The roads that one may drive on to from the end of a line."""
        turns = [(a.id, b) for a in self.roads.values() for b in self.roads.values() if a.end == b.start and (a.id, b.id) not in self.bans]
        return {line: [road for before, road in turns if before == line] for line in self.roads}

    def walk(self, lines: tuple[int, ...], start: Place, end: Place) -> Walk:
        """The walk along lines from one place to another one."""
        starts, ends = [start.at] + [0] * (len(lines) - 1), [self.roads[line].length for line in lines[:-1]] + [end.at]
        pieces = [list(piece) for piece in zip(lines, starts, ends)]
        return Walk(sum(ends) - sum(starts), lines, pieces, max(self.roads[line].road_class for line, first, last in pieces if first < last))

    def walks(self, start: Place, end: Place, most: int) -> Iterator[Walk]:
        """All walks from one place to another one that aren't longer than so much."""
        left = dict.fromkeys(self.roads, most + 1)  # from the end of a line to the place at least, where it isn't too much
        for line, road in [(line, road) for _ in self.roads for line, onwards in self.onwards.items() for road in onwards]:
            left[line] = min(left[line], end.at if road.id == end.line else road.length + left[road.id])
        if start.line == end.line and start.at < end.at <= start.at + most:
            yield self.walk((start.line,), start, end)
        begun: list[tuple[tuple[int, ...], int]] = [((start.line,), self.roads[start.line].length - start.at)]
        while begun:
            lines, length = begun.pop()
            for road in self.onwards[lines[-1]]:
                if road.id == end.line and length + end.at <= most:
                    yield self.walk((*lines, road.id), start, end)
                if length + road.length + left[road.id] <= most:
                    begun.append(((*lines, road.id), length + road.length))


def missed(drawn: Map, route: Walk, walk: Walk) -> int:
    """The longest run of neighbouring decimetres of a route none of which a walk drives."""
    driven = {line: bytearray(drawn.roads[line].length) for line in [*route.lines, *walk.lines]}
    for line, first, last in walk.pieces:
        driven[line][first:last] = b"x" * (last - first)
    along = b"".join(driven[line][first:last] for line, first, last in route.pieces)
    return max(map(len, along.split(b"x")))


def found(drawn: Map, leg: Asked) -> dict[str, Any] | None:
    """What holds of a leg, with its other path also where that isn't near. None where no walk under its class limit is about so short."""
    most = leg.length + max(ALWAYS_NEAR, leg.length * max(NEARS.values()) // 1000)
    walks = sorted(drawn.walks(leg.start, leg.end, most))
    allowed = [walk for walk in walks if walk.greatest_class <= leg.limit]
    if not allowed:
        return None
    route, shorter = allowed[0], None
    others = ({"longer": walk.length - route.length, "pieces": walk.pieces} for walk in allowed if missed(drawn, route, walk) >= LEAST_MISSED)
    for road_class in range(GREATEST_CLASS, leg.limit, -1):
        by = route.length - min(walk.length for walk in walks if walk.greatest_class <= road_class)
        if by >= LEAST_SHORTER and 100 * by >= route.length:
            shorter = {"by": by, "class": road_class}
    bounds = {"least": INTERVAL * leg.interval, "greatest": INTERVAL * (leg.interval + 1) - 1, "limit": leg.limit}
    return {**bounds, "cut": False, "length": route.length, "other": next(others, None), "pieces": route.pieces, "shorter": shorter}


def told_of(leg: dict[str, Any] | None, near: int) -> dict[str, Any] | None:
    """What the program should tell of a leg: its other path only where that is near."""
    if not leg or not leg["other"]:
        return leg
    longer = leg["other"]["longer"]
    return leg if 1000 * longer <= near * leg["length"] or longer <= ALWAYS_NEAR else {**leg, "other": None}


def drawn_map(draw: random.Random) -> Map:
    """A ring of good roads, worse ones between its nodes, and loops. Some lines have one that goes back."""
    lon, lat = draw.randrange(-170_000_000, 170_000_000), draw.randrange(-70_000_000, 70_000_000)
    ids, count, scale = draw.sample(range(1, 200), 16), draw.randint(6, 16), draw.choice(SCALES)
    spots = draw.sample([(lon + 1000 * (n % 7), lat + 1000 * (n // 7)) for n in range(49)], 9)
    nodes = dict(zip(ids[: draw.randint(5, 9)], spots))
    ring = [*pairwise([*nodes, ids[0]])]
    roads: dict[int, Road] = {}
    for id in ids[:count]:
        if (before := [*roads.values()][-1:]) and draw.random() < 0.3:
            back = before[0]
            roads[id] = back._replace(id=id, start=back.end, end=back.start, shape=back.shape[::-1])
            continue
        road_class = draw.choice((2, 3, 3, 4) if ring else (3, 3, 4, 5, 6, 7))
        start, end = ring.pop() if ring else draw.choices([*nodes], k=2)
        east, north = nodes[start]
        shape = ((east + 300, north), (east, north + 300)) if start == end else ()
        roads[id] = Road(id, start, end, road_class, draw.randrange(8), scale * (draw.choice(LENGTHS) + draw.choice(CHANGES)), shape)
    share, turns = draw.choice((0, 0.1, 0.3)), [(a.id, b.id) for a in roads.values() for b in roads.values() if a.end == b.start]
    return Map(nodes, roads, frozenset(turn for turn in turns if draw.random() < share))


def drawn_reference(draw: random.Random, drawn: Map) -> str | None:
    """A reference along a drawn walk, from node to node or from within lines to within lines. None where the walk comes to a dead end."""
    within, roads = draw.choice((0, 0, 1)), [*drawn.roads.values()]
    legs: list[list[Line]] = []
    for size in draw.choices(range(1, 5), k=draw.randint(1, 3)):
        legs.append([])
        for _ in range(size):
            if not roads:
                return None
            road = draw.choice(roads)
            roads = drawn.onwards[road.id]
            start, end, share = drawn.nodes[road.start], drawn.nodes[road.end], within * draw.uniform(0, 0.45)
            east, north = (round(share * (last - first)) for first, last in zip(start, end))
            places = [(start[0] + east, start[1] + north), *road.shape, (end[0] - east, end[1] - north)]
            legs[-1].append(Line(road.road_class, road.form, road.length, places))
    return str(line_reference(legs, draw.choice((0, 0, 1, 2))))


def answers(program: Path, folder: Path, records: list[str]) -> list[Any]:
    """What the program answers to records about a map."""
    command, given = [str(program), "answer", "--map", str(folder)], "".join(f"{record}\n" for record in records)
    done = subprocess.run(command, input=given, stdout=subprocess.PIPE, check=True, text=True)
    told = [json.loads(line) for line in done.stdout.splitlines()]
    if faults := [one["fault"] for one in told if one["fault"]]:
        raise SystemExit(f"a record was refused: {faults[0]}")
    return [one["answer"] for one in told]


def wanted(drawn: Map, asked: list[Asked], counts: Counter[str]) -> list[Any]:
    """What the program should tell of the legs of a matching, for each of NEARS."""
    legs = [found(drawn, leg) for leg in asked]
    without_bans = replace(drawn, bans=frozenset())
    bans_matter = sum(found(without_bans, one) != leg for one, leg in zip(asked, legs))
    shorter = sum(bool(leg and leg["shorter"]) for leg in legs)
    counts.update({"legs": len(legs), "legs with bans that matter": bans_matter, "legs with `shorter`": shorter})
    rows = {option: [told_of(leg, near) for leg in legs] for option, near in NEARS.items()}
    for option, row in rows.items():
        counts[f"legs with `other`{option}"] += sum(bool(leg and leg["other"]) for leg in row)
    return [*rows.values()]


def compare(program: Path, draw: random.Random, counts: Counter[str]) -> None:
    """Draws a map and references on it, and prints what differs."""
    drawn, records, truths = drawn_map(draw), [], []
    with tempfile.TemporaryDirectory() as name:
        for file, content in drawn.files().items():
            Path(name, file).write_text(content)
        for text in filter(None, (drawn_reference(draw, drawn) for _ in range(REFERENCES))):
            lowest, bearing, radius, percent = draw.choice((0, 0, 1, 2)), draw.choice((1, 4, 16)), draw.choice((30, 100, 300)), draw.choice((30, 100))
            options = f"--lowest {lowest} --bearing {bearing} --radius {radius} --percent {percent}"
            shown, page = answers(program, Path(name), [f"show -- {text}", f"match {options} --page 50 -- {text}"])
            best, others = page["matchings"][:1], page["matchings"][1:]
            counts.update({"references": 1, "references with matchings": len(best)})
            for matching in best + draw.sample(others, min(len(others), MATCHINGS - 1)):
                at = "" if matching in best else f" --at {matching['cursor']}"
                records += [f"legs {options}{at}{near} -- {text}" for near in NEARS]
                places = pairwise(Place(point["line"], point["at"]) for point in matching["points"])
                points = [(min(point["lowest"] + lowest, GREATEST_CLASS), point["interval"]) for point in shown["points"][:-1]]
                asked = [Asked(*ends, *point, leg["length"]) for ends, point, leg in zip(places, points, matching["legs"])]
                truths += [{"legs": legs, "matching": matching["cursor"]} for legs in wanted(drawn, asked, counts)]
        for record, truth, told in zip(records, truths, answers(program, Path(name), records)):
            counts.update({"answers": 1, "answers that differ": told != truth})
            if told != truth:
                print(record, *drawn.files().values(), f"told {told}\nwant {truth}\n", sep="\n")


def main() -> int:
    parser = argparse.ArgumentParser(description=__doc__, formatter_class=argparse.RawDescriptionHelpFormatter)
    parser.add_argument("--program", type=Path, required=True)
    parser.add_argument("--maps", type=int, default=3000)
    parser.add_argument("--seed", type=int, default=1)
    chosen = parser.parse_args()
    counts = Counter({"maps": chosen.maps, "answers that differ": 0})
    for number in range(chosen.maps):
        compare(chosen.program, random.Random(f"{chosen.seed} {number}"), counts)
    print(*(f"{what}: {count:,}" for what, count in counts.items()), sep="\n")
    return 1 if counts["answers that differ"] else 0


if __name__ == "__main__":
    sys.exit(main())
