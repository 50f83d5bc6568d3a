"""Maps and references that are drawn or worked out to hurt regions, and answers on a region beside those on the whole map."""

import base64
import json
import math
import random
import subprocess
import tempfile
from collections.abc import Sequence
from pathlib import Path
from typing import NamedTuple

from conftest import Program
from olr.model.answers import Reference
from olr.model.questions import What
from olr.model.reference import read_reference
from olr.model.road_map import MICRODEGREE
from olr.regions import region
from olr.regions.making import make_store_of_folder
from olr.regions.options import Options
from olr.regions.plane import scale_at
from olr.regions.store import Store

Spot = tuple[int, int]
"""Microdegrees: longitude, latitude."""
EAST, WEST = 8, 24
"""Sectors."""


class Point(NamedTuple):
    """A point of a reference to be written. The first one has to be where a reference can have it."""

    lon: int
    lat: int
    sector: int = EAST
    interval: int = 0
    lowest: int = 7
    road_class: int = 3
    form: int = 3


def text_of(points: Sequence[Point]) -> str:
    """A line reference of these points. Steps from one point to the next are of 10 microdegrees."""
    content = bytearray([0x0B])
    for number, point in enumerate(points):
        if number == 0:
            for value in (point.lon, point.lat):
                content += _absolute(value).to_bytes(3, "big", signed=True)
        else:
            before = points[number - 1]
            for step in (point.lon - before.lon, point.lat - before.lat):
                assert step % 10 == 0
                content += (step // 10).to_bytes(2, "big", signed=True)
        content.append(point.road_class << 3 | point.form)
        if number < len(points) - 1:
            content += bytes([point.lowest << 5 | point.sector, point.interval])
    content.append(points[-1].sector)
    text = base64.b64encode(content).decode()
    read = read_reference(text)
    assert read is not None
    assert [(point.lon, point.lat) for point in read.points] == [point[:2] for point in points]
    return text


class Drawing:
    """A map that is drawn line by line."""

    def __init__(self) -> None:
        self.nodes: dict[Spot, int] = {}
        self.lines: list[tuple[object, ...]] = []
        self.bans: list[tuple[int, int]] = []

    def node(self, spot: Spot) -> int:
        """The id of the node of a spot."""
        return self.nodes.setdefault(spot, len(self.nodes) + 1)

    def line(self, *spots: Spot, length: int | None = None, road_class: int = 3) -> int:
        """Adds a line through spots, of the length in decimetres that its shape has, rounded up, or of another one. Answers its id."""
        shape = ";".join(f"{lon} {lat}" for lon, lat in spots[1:-1])
        ends = self.node(spots[0]), self.node(spots[-1])
        id = len(self.lines) + 1
        long = decimetres(spots) if length is None else length
        self.lines.append((id, *ends, road_class, 3, long, shape))
        return id

    def write(self, folder: Path) -> Path:
        """The files of the map."""
        folder.mkdir(parents=True)
        write(folder / "nodes.csv", "id,lon,lat", [(id, *spot) for spot, id in self.nodes.items()])
        write(folder / "lines.csv", "id,from,to,class,form,length,shape", self.lines)
        write(folder / "bans.csv", "from,to", self.bans)
        return folder


def write(file: Path, header: str, rows: Sequence[Sequence[object]]) -> None:
    """Writes a file of CSV."""
    file.write_text("\n".join([header, *(",".join(map(str, row)) for row in rows)]) + "\n")


def decimetres(spots: Sequence[Spot]) -> int:
    """How long a polyline is, in the plane of its first latitude, rounded up."""
    scale = scale_at(spots[0][1]) / 10_000
    metres = sum(
        math.hypot((b[0] - a[0]) * scale, b[1] - a[1]) * MICRODEGREE
        for a, b in zip(spots, spots[1:])
    )
    return max(1, math.ceil(metres * 10))


def numbers(options: Options, **others: int) -> list[str]:
    """Options as words of the program."""
    values = {
        "radius": options.radius,
        "percent": options.percent,
        "slack": options.slack,
        **others,
    }
    return [word for name, value in values.items() for word in (f"--{name}", str(value))]


class Asked(NamedTuple):
    """A question about references on a map."""

    program: Program
    what: What
    options: Options
    others: dict[str, int]

    def answer(self, folder: Path, texts: Sequence[str]) -> list[bytes]:
        """The lines of the answers."""
        words = numbers(self.options, **self.others)
        if self.what == "why":
            words += ["--nearest", str(self.options.nearest)]
        ended = subprocess.run(
            [str(self.program.path), "batch", self.what, "--map", str(folder), *words],
            input="".join(f"{text}\n" for text in texts).encode(),
            capture_output=True,
            check=True,
        )
        return ended.stdout.splitlines()

    def differences(
        self, whole: Path, store: Store, texts: Sequence[str], scratch: Path
    ) -> list[str]:
        """The references whose answers on their regions aren't those on the whole map."""
        different = []
        for text, wanted in zip(texts, self.answer(whole, texts), strict=True):
            read = read_reference(text)
            discs = [] if read is None else region.discs_of(read, self.options, store, self.what)
            store.write_map(store.lines_meeting(discs), scratch)
            (found,) = self.answer(scratch, [text])
            record = json.loads(wanted)["record"]
            if found.replace(b'"record":1}', b'"record":%d}' % record) != wanted:
                different.append(text)
        return different


def open_store(drawing: Drawing, file: Path) -> Store:
    """A store of a drawing."""
    with tempfile.TemporaryDirectory() as folder:
        make_store_of_folder(drawing.write(Path(folder, "map")), file)
    return Store.open(file)


def known(text: str) -> Reference:
    """What a reference says."""
    read = read_reference(text)
    assert read is not None
    return read


def hostile_map(draw: random.Random, lat: int, lon: int = 0) -> Drawing:
    """A net of roads whose lengths have little to do with their shapes, from a latitude and a longitude on."""
    drawing = Drawing()
    side, step = draw.randint(5, 12), draw.choice([300, 1500, 5000, 15000])
    worth, odd = draw.choice([0.3, 0.7, 0.95, 1.0, 1.0, 1.3]), draw.choice([0.0, 0.005, 0.1])
    spots = {
        (x, y): (
            lon + x * step + draw.randint(-step // 3, step // 3),
            lat + y * step + draw.randint(-step // 3, step // 3),
        )
        for x in range(side)
        for y in range(side)
    }
    for (x, y), spot in spots.items():
        for neighbour in ((x + 1, y), (x, y + 1), (x + 1, y + 1)):
            if neighbour not in spots or draw.random() < 0.25:
                continue
            between = [
                (spot[0] + draw.randint(-step, step), spot[1] + draw.randint(-step, step))
                for _ in range(draw.choice([0, 0, 1, 3]))
            ]
            polyline = [spot, *between, spots[neighbour]]
            if any(a == b for a, b in zip(polyline, polyline[1:])):
                continue
            share = worth * draw.uniform(0.95, 1)
            if draw.random() < odd:
                share = draw.uniform(0.01, 2)
            length = max(1, int(decimetres(polyline) * share))
            for way in (polyline, polyline[::-1])[: draw.choice([1, 2, 2])]:
                drawing.line(*way, length=length, road_class=draw.choice([2, 3, 3, 5]))
    turns = [
        (int(str(a[0])), int(str(b[0])))
        for a in drawing.lines
        for b in drawing.lines
        if a[2] == b[1]
    ]
    drawing.bans = sorted(draw.sample(turns, draw.choice([0, len(turns) // 5])))
    return drawing


def hostile_text(draw: random.Random, drawing: Drawing) -> str:
    """A reference of 2 to 4 points near nodes of a map, with intervals that may or may not fit."""
    spots = list(drawing.nodes)
    wanted = [draw.choice(spots)]
    for _ in range(draw.randint(1, 3)):
        nearer = sorted(spots, key=lambda spot: math.dist(spot, wanted[-1]))
        wanted.append(draw.choice(nearer[1 : draw.choice([5, 20])] or nearer))
    positions: list[Spot] = []
    for lon, lat in wanted:
        if not positions:
            positions.append(first_position((lon, lat)))
        else:
            before = positions[-1]
            positions.append(
                (before[0] + (lon - before[0]) // 10 * 10, before[1] + (lat - before[1]) // 10 * 10)
            )
    points = []
    for number, spot in enumerate(positions):
        following = positions[min(number + 1, len(positions) - 1)]
        interval = int(decimetres([spot, following]) * draw.uniform(0.5, 2.5)) // 586
        points.append(
            Point(*spot, draw.randrange(32), min(interval, 255), draw.choice([3, 5, 7, 7]))
        )
    return text_of(points)


def _absolute(value: int) -> int:
    """The number by which a reference has a coordinate of its first point."""
    number = abs(value) * 2**24 // 360_000_000 + (value != 0)
    return -number if value < 0 else number


def first_position(spot: Spot) -> Spot:
    """The position that a reference can have for its first point near a spot."""
    lon, lat = (
        ((2 * number - (number > 0) + (number < 0)) * 90_000_000 + (1 << 22)) >> 23
        for number in map(_absolute, spot)
    )
    return lon, lat
