"""An invented road network: towns around Luxembourg, and the roads in and between them.

In a town, main streets go both ways and enclose blocks. Side streets cross a block from one main street to
the other; some are missing. A few cross streets join them. Trunk roads join the middles of neighbouring
towns. Every node can be reached from every other one.

Places are pairs of longitude and latitude in microdegrees. A node's number is its index in the list of
places.
"""

import math

CAPITAL = (6_131_000, 49_611_000)  # the middle of the first town: Luxembourg
STEP = (1_200, 800)  # from one street corner to the next, eastwards and northwards: some 87 m and 89 m
BLOCK = 8  # steps from a main street to the next one
ALL_BITS = 2**64 - 1


class Draws:
    """Whole numbers drawn from a seed by the generator SplitMix64, the same ones in every Python."""

    def __init__(self, seed):
        self.state = seed & ALL_BITS

    def below(self, bound):
        """A number from 0 to bound - 1; bound is at most 2^64."""
        self.state = (self.state + 0x9E3779B97F4A7C15) & ALL_BITS
        mixed = ((self.state ^ (self.state >> 30)) * 0xBF58476D1CE4E5B9) & ALL_BITS
        mixed = ((mixed ^ (mixed >> 27)) * 0x94D049BB133111EB) & ALL_BITS
        return ((mixed ^ (mixed >> 31)) * bound) >> 64

    def near(self, place, sway):
        """A place at most `sway` (a pair, microdegrees) away from a place, on either axis."""
        east = place[0] - sway[0] + self.below(2 * sway[0] + 1)
        north = place[1] - sway[1] + self.below(2 * sway[1] + 1)
        return east, north

    def shuffle(self, items):
        """Puts a list in a drawn order."""
        for last in range(len(items) - 1, 0, -1):
            other = self.below(last + 1)
            items[last], items[other] = items[other], items[last]

    def distinct(self, count, greatest):
        """That many distinct numbers from 1 to the greatest one, in a drawn order."""
        found = {}
        while len(found) < count:
            found[1 + self.below(greatest)] = None
        return list(found)


class Road:
    """A road between two nodes (numbers) with `ways` directions of travel: 0 where it isn't built, 1 for
    from start to end alone, 2 for both."""

    __slots__ = ("start", "end", "road_class", "form", "ways")

    def __init__(self, start, end, road_class, form, ways):
        self.start, self.end = start, end
        self.road_class, self.form, self.ways = road_class, form, ways


class Network:
    """The places of the nodes, and the roads. Of the roads, `side_streets` (lists of roads, one way each) and
    `cross_streets` (roads, none built) may get more directions. `middle_street` is the one through the first
    town from west to east, by its nodes (numbers)."""

    def __init__(self):
        self.places, self.roads = [], []
        self.side_streets, self.cross_streets = [], []
        self.middle_street = []

    def line_count(self):
        """How many directions of travel the roads have."""
        return sum(road.ways for road in self.roads)

    def add_street(self, nodes, road_class, form, ways):
        """Joins nodes (numbers), each to the next one, by roads, and answers the roads."""
        street = [Road(start, end, road_class, form, ways) for start, end in zip(nodes, nodes[1:])]
        self.roads += street
        return street


class Town:
    """A jittered grid of street corners, each named by its steps eastwards and northwards from the
    south-western one. A corner becomes a node when a street first needs it."""

    def __init__(self, network, middle, blocks):
        self.network = network
        self.last = [BLOCK * count for count in blocks]
        self.centre = [BLOCK * (count // 2) for count in blocks]
        self.origin = [place - steps * step // 2 for place, steps, step in zip(middle, self.last, STEP)]
        self.nodes = {}

    def corner(self, spot, draws):
        """The node at a corner, by its steps."""
        if spot not in self.nodes:
            place = [start + steps * step for start, steps, step in zip(self.origin, spot, STEP)]
            self.nodes[spot] = len(self.network.places)
            self.network.places.append(draws.near(place, [step // 4 for step in STEP]))
        return self.nodes[spot]

    def add_street(self, spots, road_class, ways, draws):
        """Joins corners, each to the next one, and answers the roads."""
        return self.network.add_street([self.corner(spot, draws) for spot in spots], road_class, 3, ways)

    def middle_street(self):
        """The nodes of the middle street that goes eastwards, from west to east."""
        return [self.nodes[steps, self.centre[1]] for steps in range(self.last[0] + 1)]

    def gate(self, axis, far):
        """The node where a trunk road begins: the near or the far end of the middle street that goes
        eastwards (axis 0) or northwards (axis 1)."""
        spot = list(self.centre)
        spot[axis] = self.last[axis] if far else 0
        return self.nodes[tuple(spot)]


def add_main_streets(town, draws):
    """The streets around the blocks, each from end to end of the town. The middle ones are of class 2, as the
    trunk roads that they carry on."""
    for axis in (0, 1):
        for across in range(0, town.last[1 - axis] + 1, BLOCK):
            road_class = 2 if across == town.centre[1 - axis] else 3 + draws.below(2)
            along = range(town.last[axis] + 1)
            spots = [(steps, across) if axis == 0 else (across, steps) for steps in along]
            town.add_street(spots, road_class, 2, draws)


def add_block(town, corner, draws):
    """Side streets through the block at a corner (its south-western one), all of them along one drawn axis.
    They go one way, neighbours against each other, and one in eight is missing. Between neighbours there are
    cross streets that may be built."""
    eastwards = draws.below(2)

    def spot(across, along):
        east, north = (along, across) if eastwards else (across, along)
        return corner[0] + east, corner[1] + north

    streets = [0] + [across for across in range(1, BLOCK) if draws.below(8)] + [BLOCK]
    for across in streets[1:-1]:
        spots = [spot(across, along) for along in range(BLOCK + 1)]
        if across % 2:
            spots.reverse()
        town.network.side_streets.append(town.add_street(spots, 5 + draws.below(3), 1, draws))
    for across, neighbour in zip(streets, streets[1:]):
        for along in range(1, BLOCK) if neighbour == across + 1 else ():
            ends = [spot(across, along), spot(neighbour, along)]
            town.network.cross_streets += town.add_street(ends, 6 + draws.below(2), 0, draws)


def add_towns(network, nodes, draws):
    """Builds towns with at most 97 of 100 nodes, of which the capital has some 7. Answers them by cells: it
    has the cell (0, 0), and the others are around it, the nearest first."""
    capital = max(1, math.isqrt(nodes * 7 // 100) // BLOCK)
    pitch = [(capital + 6) * BLOCK * step for step in STEP]
    reach = math.isqrt(nodes // 32) + 1
    cells = [(east, north) for east in range(-reach, reach + 1) for north in range(-reach, reach + 1)]
    towns = {}
    for cell in sorted(cells, key=lambda cell: (cell[0] ** 2 + cell[1] ** 2, cell)):
        blocks, middle = [capital, capital], CAPITAL
        if towns:
            blocks = [1 + draws.below(max(1, capital * 6 // 10)) for _ in STEP]
            middle = [start + count * size for start, count, size in zip(CAPITAL, cell, pitch)]
            middle = draws.near(middle, [3 * BLOCK * step // 2 for step in STEP])
        corners = (BLOCK * blocks[0] + 1) * (BLOCK * blocks[1] + 1)
        if len(network.places) + corners > nodes * 97 // 100:
            break
        towns[cell] = town = Town(network, middle, blocks)
        add_main_streets(town, draws)
        for east in range(blocks[0]):
            for north in range(blocks[1]):
                add_block(town, (BLOCK * east, BLOCK * north), draws)
    return towns


def between(start, end, count, draws):
    """That many places between two others, which are further apart than `count` microdegrees
    on one axis. No two neighbours are equal, the ends included."""
    steps = [last - first for first, last in zip(start, end)]
    step = max(map(abs, steps)) // (count + 1)
    assert step >= 1, "more places than fit between these"
    places = []
    for part in range(1, count + 1):
        place = [first + size * part // (count + 1) for first, size in zip(start, steps)]
        places.append(draws.near(place, [step // 4, step // 4]))
    return places


def add_trunk_roads(network, towns, count, draws):
    """Joins neighbouring towns both ways, with that many nodes on all these roads together."""
    links = []
    for (east, north), town in towns.items():
        for axis, neighbour in enumerate([(east + 1, north), (east, north + 1)]):
            if neighbour in towns:
                links.append((town.gate(axis, True), towns[neighbour].gate(axis, False)))
    for index, (start, end) in enumerate(links):
        share = (index + 1) * count // len(links) - index * count // len(links)
        first = len(network.places)
        network.places += between(network.places[start], network.places[end], share, draws)
        kind = 1 + draws.below(2)  # a motorway of class 1, or several carriageways of class 2
        network.add_street([start, *range(first, first + share), end], kind, kind, 2)


def open_ways(network, wanted, draws):
    """Opens more directions, until the network has as many lines as wanted: cross streets for a third of
    them, then side streets the other way, street by street, then more cross streets. Raises ValueError where
    the network can't have so many lines."""
    built = network.line_count()
    early = max(0, wanted - built) // 6
    draws.shuffle(network.side_streets)
    draws.shuffle(network.cross_streets)
    turns = [road for road in network.cross_streets[:early] for _ in range(2)]
    turns += [road for street in network.side_streets for road in street]
    turns += [road for road in network.cross_streets[early:] for _ in range(2)]
    most = built + len(turns)
    if not built <= wanted <= most:
        nodes = len(network.places)
        raise ValueError(f"{nodes} nodes with this seed can have {built} to {most} lines, not {wanted}")
    for road in turns[: wanted - built]:
        road.ways += 1


def build_network(nodes, lines, draws):
    """A network of exactly so many nodes and lines, and how many towns it has. Raises ValueError where it
    can't have so many lines."""
    network = Network()
    towns = add_towns(network, nodes, draws)
    network.middle_street = towns[0, 0].middle_street()
    add_trunk_roads(network, towns, nodes - len(network.places), draws)
    open_ways(network, lines, draws)
    return network, len(towns)
