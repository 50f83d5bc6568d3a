"""Small maps drawn at random, each with a reference along some of its lines."""

import pathlib
import sys

sys.path.insert(0, str(pathlib.Path(__file__).resolve().parent.parent / "bench"))

from generate_map import length  # noqa: E402
from reference import Line, line_reference  # noqa: E402


GREATEST_LENGTH = 10_000_000
EASTERNMOST, NORTHERNMOST = 180_000_000, 80_000_000


def drawn_length(places, lengths, draws):
    """The length of a line in decimetres: that of its polyline or a little more, or far less, of all lines or of single ones."""
    known = length(places, draws.randrange(32))
    if lengths == "short":
        known = known * draws.randrange(100) // 100
    if lengths == "one short" and draws.random() < 0.2:
        known = 1
    return min(max(1, known), GREATEST_LENGTH)


def drawn_places(draws):
    """Some places close to each other: anywhere, across longitude 180, or near the northernmost latitude."""
    reach = draws.choice([300, 1000, 3000, 30_000, 100_000])
    where = draws.choice(["anywhere", "anywhere", "across", "north"])
    lon = EASTERNMOST if where == "across" else draws.randrange(1_000_000, 170_000_000)
    lat = NORTHERNMOST - reach if where == "north" else draws.randrange(1_000_000, 79_000_000)
    places = set()
    for _ in range(draws.randrange(3, 10)):
        east, north = (middle + draws.randrange(-reach, reach) for middle in (lon, lat))
        places.add((east - 2 * EASTERNMOST if east > EASTERNMOST else east, north))
    return sorted(places)


def drawn_line(start, end, lengths, draws):
    """A line between two places, over 0 to 3 points."""
    places = [start]
    for _ in range(draws.choice([0, 0, 1, 3])):
        places.append(tuple((first + last) // 2 + draws.randrange(-200, 200) for first, last in zip(places[-1], end)))
    places.append(end)
    places = [place for index, place in enumerate(places) if index == 0 or place != places[index - 1]]
    return Line(draws.randrange(8), draws.randrange(8), drawn_length(places, lengths, draws), places)


def drawn_lines(places, draws):
    """Lines between nodes, as (from, to, line): a tour of the nodes, and some more, many of them in both directions."""
    lengths = draws.choice(["true", "true", "short", "one short"])
    order = list(range(len(places)))
    draws.shuffle(order)
    ends = list(zip(order, order[1:] + order[:1]))
    ends += [tuple(draws.sample(order, 2)) for _ in range(draws.randrange(2 * len(order)))]
    lines = []
    for start, end in ends:
        line = drawn_line(places[start], places[end], lengths, draws)
        lines.append((start, end, line))
        if draws.random() < 0.5:
            lines.append((end, start, line._replace(places=line.places[::-1])))
    return lines


def drawn_legs(lines, draws):
    """Legs along a walk, each of 1 to 3 lines."""
    at = draws.choice(lines)
    legs = []
    for _ in range(draws.choice([1, 1, 2, 3, 5, 12])):
        leg = []
        for _ in range(draws.choice([1, 1, 2, 3])):
            leg.append(at[2])
            at = draws.choice([line for line in lines if line[0] == at[1]])
        legs.append(leg)
    return legs


def drawn_reference(lines, draws):
    """A reference along a walk. Where the legs of a walk are too long for one, or its points too far apart, another walk is drawn; at last it is
    a reference of another place."""
    for _ in range(50):
        try:
            return line_reference(drawn_legs(lines, draws))
        except (OverflowError, ValueError):
            pass
    return "CwAAAAAAABtoAQBkAAAbGA=="


def drawn_case(draws):
    """The words of a match and the files of its map."""
    places = drawn_places(draws)
    ids = draws.sample(range(1, draws.choice([50, 2**53])), len(places))
    lines = drawn_lines(places, draws)
    line_ids = draws.sample(range(1, draws.choice([200, 2**53])), len(lines))
    nodes = [f"{number},{lon},{lat}" for number, (lon, lat) in zip(ids, places)]
    rows = []
    for number, (start, end, line) in zip(line_ids, lines):
        shape = ";".join(f"{lon} {lat}" for lon, lat in line.places[1:-1])
        rows.append(f"{number},{ids[start]},{ids[end]},{line.road_class},{line.form},{line.length},{shape}")
    draws.shuffle(nodes)
    draws.shuffle(rows)
    files = {
        "nodes": "\n".join(["id,lon,lat", *nodes, ""]).encode(),
        "lines": "\n".join(["id,from,to,class,form,length,shape", *rows, ""]).encode(),
    }
    words = ["match", drawn_reference(lines, draws), "--nodes", "nodes", "--lines", "lines"]
    words += draws.choice([[], ["--bearing", "8"], ["--lowest", "7"], ["--radius", "300"], ["--page", "1"], ["--slack", "2000", "--bearing", "16"]])
    return words, files
