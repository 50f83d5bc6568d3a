#!/usr/bin/env python3
"""Makes a full-size map that is chosen to hurt, with a reference on it.

    bench/generate_worst.py --kind KIND --out FOLDER [--seed 1] [--lines 200000] [--shape 0]

writes nodes.csv, lines.csv and reference.txt, and for the kinds `turns` and `shut` bans.csv:

spot      all lines lie at one spot, where all 32 points of the reference are too; all but one head north, and the points look east
latitude  all lines lie along one latitude, so that each meets the band of each of 32 points
ids       ids are 1, 2, 3 and so on but for the greatest, which is 2^53: nearly all lie in one bucket of an index by foremost bits
star      half of the lines start at one node and the others end there; the legs of 32 points go over it
wide      32 points, each with 64 candidates at the largest radius, and every leg goes by a tangle of nearly all lines of the map; the
          candidates of a point end at one node, after one length
fan       the same, but each candidate ends at a node of its own
shut      the same as `fan`, but the turns up to each bundle are banned: each search reaches all lines, and no leg admits a pair
ring      a one-way ring of all nodes on which 32 points lie backwards, so that each leg goes once around
grid      a square grid of equal lengths: very many shortest paths between each two of 4 points
turns     a node with 447 lines in and 446 out, and 199,362 bans on the turns between them, on the way of each of 31 legs
junction  a node with a third of all lines in, each a decimetre shorter than the one before, and the others out, on the way of each of 31 legs
blank     a map of one line whose files are 100 MB of empty lines
"""

import argparse
import pathlib

from network import Draws
from reference import Line, line_reference

FIRST = (6_000_000, 1_000_000)  # the first place of each map, in microdegrees: near the equator, where degrees of both kinds are as long
NODES = 100_000
BLANKS = 100_000_000


class Plan:
    """A map in the making: places of nodes and lines between them, by the numbers of the nodes, counted from 0."""

    def __init__(self, seed):
        self.draws = Draws(seed)
        self.places, self.lines, self.bans = [], [], []
        self.ids_rise = False
        self.tail = ""

    def node(self, east, north):
        """A node so many microdegrees to the east and north of the first place."""
        self.places.append((FIRST[0] + east, FIRST[1] + north))
        return len(self.places) - 1

    def line(self, start, end, length, shape=(), form=3):
        """A line, and its number."""
        self.lines.append((start, end, length, list(shape), form))
        return len(self.lines) - 1

    def as_line(self, number):
        """A line as references need it."""
        start, end, length, shape, form = self.lines[number]
        return Line(3, form, length, [self.places[start], *shape, self.places[end]])

    def ids(self, count):
        if self.ids_rise:
            return [*range(1, count), 2**53]
        return self.draws.distinct(count, 2**53)

    def write(self, folder, legs):
        """The files of the map, and the reference along legs, each a list of numbers of lines or of lines."""
        node_ids, line_ids = self.ids(len(self.places)), self.ids(len(self.lines))
        with open(folder / "nodes.csv", "w", encoding="ascii") as file:
            file.write("id,lon,lat\n" + self.tail)
            file.writelines(f"{number},{lon},{lat}\n" for number, (lon, lat) in zip(node_ids, self.places))
        with open(folder / "lines.csv", "w", encoding="ascii") as file:
            file.write("id,from,to,class,form,length,shape\n" + self.tail)
            for number, (start, end, length, shape, form) in zip(line_ids, self.lines):
                items = ";".join(f"{lon} {lat}" for lon, lat in shape)
                file.write(f"{number},{node_ids[start]},{node_ids[end]},3,{form},{length},{items}\n")
        if self.bans:
            with open(folder / "bans.csv", "w", encoding="ascii") as file:
                file.write("from,to\n")
                file.writelines(f"{line_ids[first]},{line_ids[second]}\n" for first, second in self.bans)
        legs = [[self.as_line(line) if isinstance(line, int) else line for line in leg] for leg in legs]
        (folder / "reference.txt").write_text(line_reference(legs) + "\n", encoding="ascii")


def eastward(place, length=500):
    """A line for references alone: some 50 m to the east of a place."""
    return Line(3, 3, length, [place, (place[0] + 450, place[1])])


def zigzag(start, end, count):
    """The places of a shape: to and fro beside the straight line between two places, never twice the same place in a row."""
    steps = count + 1
    return [
        tuple(first + (last - first) * step // steps + (3 * (step % 2) if axis == 0 else 0) for axis, first, last in zip((0, 1), start, end))
        for step in range(1, steps)
    ]


def spot(plan, chosen):
    """All lines at one spot."""
    ends = [(plan.node(index, 0), plan.node(index, 400)) for index in range(100)]
    plan.line(plan.node(0, 30), plan.node(400, 30), 500)
    while len(plan.lines) < chosen.lines:
        start, end = ends[plan.draws.below(len(ends))]
        plan.line(start, end, 500, zigzag(plan.places[start], plan.places[end], chosen.shape))
    return [[eastward((FIRST[0] + 10 * (step % 2), FIRST[1]))] for step in range(chosen.points - 1)]


def latitude(plan, chosen):
    """All lines along one latitude. The lines of the shape go eastwards, for 11 km at most."""
    nodes = [plan.node(1000 * step, 0) for step in range(NODES)]
    chain = [plan.line(start, end, 1200, zigzag(plan.places[start], plan.places[end], chosen.shape)) for start, end in zip(nodes, nodes[1:])]
    while len(plan.lines) < chosen.lines:
        start = plan.draws.below(NODES - 100)
        end = start + 2 + plan.draws.below(98)
        plan.line(start, end, 200_000, zigzag(plan.places[start], plan.places[end], chosen.shape))
    return [chain[10 * step : 10 * step + 10] for step in range(chosen.points - 1)]


def ids(plan, chosen):
    """Ids in one bucket; the lines lead between neighbours in a square."""
    plan.ids_rise = True
    side = 316
    nodes = [plan.node(1000 * (step % side), 1000 * (step // side)) for step in range(side * side)]
    row = [plan.line(nodes[step], nodes[step + 1], 1200) for step in range(side - 1)]
    while len(plan.lines) < chosen.lines:
        start = plan.draws.below(side * side - side - 1)
        plan.line(start, start + (1, side)[plan.draws.below(2)], 1200)
    return [row[10 * step : 10 * step + 10] for step in range(30)]


def star(plan, chosen):
    """Lines out of one node, and back to it. The points lie at starts of lines to it, 3 km apart."""
    hub = plan.node(0, -100_000)
    ends = [plan.node(20 * step, 1000 * (step % 2)) for step in range(NODES - 1)]
    into = [plan.line(end, hub, 1000, [(plan.places[end][0] + 500, plan.places[end][1])]) for end in ends]
    out_of = [plan.line(hub, end, 1000) for end in ends]
    while len(plan.lines) < chosen.lines:
        plan.line(hub, ends[plan.draws.below(len(ends))], 1000)
    stops = [1400 * step for step in range(chosen.points)]
    return [[into[first], out_of[second]] for first, second in zip(stops, stops[1:])]


def bundles(plan, chosen):
    """For each point a bundle of 64 parallel lines, 6 km from the next one. Answers the nodes where each begins and ends, and its first line."""
    found = []
    for point in range(chosen.points):
        start, end = plan.node(54_000 * point, 0), plan.node(54_000 * point + 900, 0)
        lines = [plan.line(start, end, 1000, form=2 + plan.draws.below(3)) for _ in range(64)]
        found.append((start, end, lines[0]))
    return found


def connect(plan, ends, enter, leave):
    """Lines from each bundle down to a node, and from another one up to each bundle. Near the points they go south and north."""
    down, up = [], []
    for start, end, _ in ends:
        (west, south), (east, _) = plan.places[start], plan.places[end]
        down.append(plan.line(end, enter, 1, [(east, south - 90_000)]))
        up.append(plan.line(leave, start, 1, [(west, south - 90_000)]))
    return down, up


def legs_over(ends, down, through, up):
    """The legs from bundle to bundle, over the lines between."""
    legs = [[ends[point][2], down[point], *through, up[point + 1]] for point in range(len(ends) - 1)]
    return [*legs[:-1], [*legs[-1], ends[-1][2]]]


def add_tangle(plan, chosen, enter, leave):
    """A tangle of lines of 1 dm that all nodes and lines that are left go into. Answers the line over it, which is longer than all ways in it."""
    through = plan.line(enter, leave, 100)
    tangle = [enter] + [plan.node(plan.draws.below(1_000_000), -200_000 - plan.draws.below(1_000_000)) for _ in range(NODES - len(plan.places))]
    for place, node in enumerate(tangle[1:], 1):
        plan.line(tangle[plan.draws.below(place)], node, 1)
    while len(plan.lines) < chosen.lines:
        plan.line(tangle[plan.draws.below(len(tangle))], tangle[1 + plan.draws.below(len(tangle) - 1)], 1)
    return through


def wide(plan, chosen):
    """Bundles of 64 lines, and a tangle between them: behind a bundle all of it is reached before the next one."""
    ends = bundles(plan, chosen)
    enter, leave = plan.node(0, -100_000), plan.node(1000, -100_000)
    down, up = connect(plan, ends, enter, leave)
    return legs_over(ends, down, [add_tangle(plan, chosen, enter, leave)], up)


def fan(plan, chosen):
    """Fans of 64 lines of different lengths in place of bundles."""
    enter, leave = plan.node(0, -100_000), plan.node(1000, -100_000)
    ends, down, up = [], [], []
    for point in range(chosen.points):
        west = 54_000 * point
        start = plan.node(west, 0)
        for number in range(64):
            end = plan.node(west + 900 + number, number % 8)
            line = plan.line(start, end, 1000 + number)
            out = plan.line(end, enter, 1 + 3 * number, [(FIRST[0] + west + 900 + number, FIRST[1] - 90_000)])
            if number == 0:
                ends.append((start, end, line))
                down.append(out)
        up.append(plan.line(leave, start, 1, [(FIRST[0] + west, FIRST[1] - 90_000)]))
    return legs_over(ends, down, [add_tangle(plan, chosen, enter, leave)], up)


def shut(plan, chosen):
    """Fans of which only the first can be left: the turns from the line over the tangle to the lines up to the others are banned."""
    legs = fan(plan, chosen)
    plan.bans = [(through, up) for _, _, through, up, *_ in legs]
    return legs


def ring(plan, chosen):
    """A ring, on which each point lies one node before the last one."""
    nodes = [plan.node(100 * step, 0) for step in range(NODES)]
    last = 1000 - chosen.points
    around = [plan.line(start, end, 100 if start == last else 1) for start, end in zip(nodes, nodes[1:] + nodes[:1])]
    legs = []
    for step in range(chosen.points - 1):
        first = 1000 - step
        legs.append(around[first:] + around[: first - 1])
    return legs


def grid(plan, chosen):
    """A square grid, 110 m a side, of lines eastwards and northwards, and some southwards. Each leg goes 105 lines east and 105 north."""
    side, stride = 316, 105
    for step in range(side * side):
        plan.node(1000 * (step % side), 1000 * (step // side))
    east, north = {}, {}
    for step in range(side * side):
        if step % side < side - 1:
            east[step] = plan.line(step, step + 1, 100)
        if step // side < side - 1:
            north[step] = plan.line(step, step + side, 100)
    while len(plan.lines) < chosen.lines:
        start = plan.draws.below(side * side - side - 1)
        plan.line(start + side, start, 100)
    legs = []
    for corner in range(0, side - 1, stride):
        start = corner * (side + 1)
        legs.append([east[start + step] for step in range(stride)] + [north[start + stride + side * step] for step in range(stride)])
    return legs


def turns(plan, chosen):
    """A junction in which all turns but one from the last line in are banned, and which each of the legs goes over."""
    ends = bundles(plan, chosen)
    enter, middle, leave = plan.node(0, -100_000), plan.node(1000, -100_000), plan.node(2000, -100_000)
    into = [plan.line(enter, middle, 10) for _ in range(447)]
    out_of = [plan.line(middle, leave, 10) for _ in range(447)]
    plan.bans = [(first, second) for first in into for second in out_of[:-1]]
    down, up = connect(plan, ends, enter, leave)
    return legs_over(ends, down, [into[-1], out_of[-1]], up)


def junction(plan, chosen):
    """A junction that a third of all lines lead into, each a decimetre shorter than the one before, and that the others lead out of."""
    ends = bundles(plan, chosen)
    enter, middle, leave = plan.node(0, -100_000), plan.node(1000, -100_000), plan.node(2000, -100_000)
    down, up = connect(plan, ends, enter, leave)
    count = (chosen.lines - len(plan.lines)) // 3
    into = [plan.line(enter, middle, 10 + step) for step in reversed(range(count))]
    while len(plan.lines) < chosen.lines:
        last = plan.line(middle, leave, 10)
    return legs_over(ends, down, [into[-1], last], up)


def blank(plan, chosen):
    """One line, behind very many empty ones."""
    plan.tail = "\n" * BLANKS
    return [[plan.line(plan.node(0, 0), plan.node(1000, 0), 1113)]]


KINDS = {make.__name__: make for make in (spot, latitude, ids, star, wide, fan, shut, ring, grid, turns, junction, blank)}


def main():
    parser = argparse.ArgumentParser(description=__doc__, formatter_class=argparse.RawDescriptionHelpFormatter)
    parser.add_argument("--kind", choices=KINDS, required=True)
    parser.add_argument("--out", type=pathlib.Path, required=True)
    parser.add_argument("--seed", type=int, default=1)
    parser.add_argument("--lines", type=int, default=200_000)
    parser.add_argument("--points", type=int, default=32, help="points of the reference (spot, latitude, star, wide, fan, shut, ring, turns and junction)")
    parser.add_argument("--shape", type=int, default=0, help="points in the shape of each line (spot and latitude)")
    chosen = parser.parse_args()
    chosen.out.mkdir(parents=True, exist_ok=True)
    plan = Plan(chosen.seed)
    plan.write(chosen.out, KINDS[chosen.kind](plan, chosen))


if __name__ == "__main__":
    main()
