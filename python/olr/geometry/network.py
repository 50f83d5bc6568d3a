"""A map as arrays, to measure what is on it: the polylines of pieces of lines, and points on them.

Coordinates are in degrees (WGS 84), longitude first. Positions on lines are in decimetres.
"""

from collections.abc import Iterable, Sequence
from pathlib import Path
from typing import TYPE_CHECKING, Protocol

from olr.asking.program import PathLike
from olr.content import digest_of
from olr.errors import MapRefused, ToolError
from olr.extras import needed_by
from olr.model.map_folder import LINES, NODES, store_of
from olr.model.pieces import Pieces, Place
from olr.model.sources import Sources

with needed_by("olr.Network", "geo"):
    import numpy as np

    from olr.arrays import Booleans, Floats, Integers
    from olr.geometry.parts import Polylines
    from olr.model.columns import joined_columns, read_columns

if TYPE_CHECKING:
    import geopandas


class OnLine(Protocol):
    """What has a line and a position on it, such as a place or a candidate."""

    @property
    def line(self) -> int:
        """The id of the line."""

    @property
    def at(self) -> int:
        """In decimetres from its start."""


class Network:
    """The nodes of a map in the order of their ids, and its lines in that of their file, as arrays: coordinates in degrees, lengths in
    decimetres.

    >>> import olr
    >>> with olr.Map("examples") as town:
    ...     town.network()
    ...
    <Network of examples: 20 nodes, 41 lines>
    """

    def __init__(self, nodes: PathLike, lines: PathLike | None = None) -> None:
        """Reads the files of nodes and of lines; or, of one path alone, those of a folder. Raises `ToolError` if they can't be read, or are
        changed meanwhile."""
        if lines is None:
            nodes, lines = Path(nodes, NODES), Path(nodes, LINES)
        nodes_file, lines_file = Path(nodes), Path(lines)
        self.folder = lines_file.parent
        self.digest = digest_of(nodes_file, lines_file)
        """Of both files: None if they can't be read twice."""
        of_nodes = joined_columns(read_columns("nodes", nodes_file), "nodes")
        of_lines = joined_columns(read_columns("lines", lines_file), "lines")
        if digest_of(nodes_file, lines_file) != self.digest:
            raise ToolError(
                f"the map in {self.folder} was changed while it was read: read it again"
            )
        node_id, lon, lat = of_nodes.numbers
        by_id = np.argsort(node_id)
        self.node_id: Integers = node_id[by_id]
        self.node_points: Floats = np.stack([lon[by_id], lat[by_id]], axis=1) / 1e6
        (
            self.line_id,
            self.start,
            self.end,
            self.road_class,
            self.form,
            self.length,
        ) = of_lines.numbers
        self.sizes: Integers = of_lines.sizes + 2
        """How many points each line has."""
        self.first: Integers = np.cumsum(self.sizes) - self.sizes
        """Where the points of each line begin in `points`."""
        self.points: Floats = np.zeros((int(self.sizes.sum()), 2))
        ends = np.zeros(len(self.points), dtype=bool)
        ends[self.first] = ends[self.first + self.sizes - 1] = True
        self.points[~ends] = of_lines.points / 1e6
        self.points[self.first] = self._points_of_nodes(self.start)
        self.points[self.first + self.sizes - 1] = self._points_of_nodes(self.end)
        self.arcs = _arcs(self.points, self.first, self.sizes)
        """How far each point is along its line, as a share of the line's polyline: from 0 to 1."""
        self._by_id: Integers = np.argsort(self.line_id, kind="stable")
        self._ids: Integers = self.line_id[self._by_id]
        self._sources: Sources | None = None

    @classmethod
    def read(cls, folder: str | Path) -> "Network":
        """The nodes and lines of a map's folder, or of a store, whose lines are read when they are asked for. Raises `ToolError` if they
        can't be read. `Map.network` reads those of a map that is asked.

        >>> import olr
        >>> olr.Network.read("examples")
        <Network of examples: 20 nodes, 41 lines>
        """
        if store_of(Path(folder)) is not None:
            from olr.geometry.store_network import StoreNetwork

            return StoreNetwork(Path(folder))
        return cls(folder)

    def __repr__(self) -> str:
        sizes = f"{len(self.node_id):,} nodes, {len(self.line_id):,} lines"
        return f"<Network of {self.folder}: {sizes}>"

    def having(self, lines: Integers | Iterable[int]) -> "Network":
        """A network with arrays that has these lines, by their ids, and perhaps others: this one, but for the network of a store.

        >>> import olr
        >>> network = olr.Network.read("examples")
        >>> network.having([104]) is network
        True
        """
        return self

    def _points_of_nodes(self, ids: Integers) -> Floats:
        """The points of nodes. Raises `ToolError` if one isn't on the map."""
        places = np.searchsorted(self.node_id, ids)
        places = np.minimum(places, len(self.node_id) - 1)
        if len(ids) and not (len(self.node_id) and (self.node_id[places] == ids).all()):
            raise ToolError(f"the map in {self.folder} lacks nodes: run olr-tools check")
        result: Floats = self.node_points[places].reshape(-1, 2)
        return result

    def sources(self) -> Sources:
        """Where the lines came from: the `ids.csv` of the map's folder, which is read once; none if there is no such file. Raises
        `ToolError` if it can't be read.

        >>> import olr
        >>> network = olr.Network.read("examples")
        >>> print(network.sources().get(104))
        None
        """
        if self._sources is None:
            self._sources = Sources.of_folder(self.folder)
        return self._sources

    def path(self, pieces: Pieces | Iterable[Sequence[int]]) -> Floats:
        """The points of the line of pieces, one behind the other, in degrees; none for no pieces. A piece is a line's id and two positions.

        A position is a share of the line's length, and the same share of its polyline, as the program counts. Raises `MapRefused`
        if the pieces are of another version of the map, and `ToolError` if it hasn't such a line, it ends before, or a piece runs backwards.

        >>> import olr
        >>> network = olr.Network.read("examples")
        >>> network.path([(104, 0, 2435)])[0].tolist()
        [7.41572, 49.871269]
        """
        if isinstance(pieces, Pieces):
            self.require_version_of(pieces)
        rows = np.array([tuple(piece) for piece in pieces], dtype=np.int64).reshape(-1, 3)
        return self.polylines(rows, np.array([len(rows)])).points

    def polylines(self, pieces: Integers, counts: Integers) -> Polylines:
        """The lines of many rows of pieces: `pieces` has a line's id and two positions of each, and `counts` says how many of them each
        polyline has. It is what `path` makes of each row of them, hundreds of times as fast. Raises `ToolError` as `path`.

        >>> import numpy, olr
        >>> pieces = numpy.array([[104, 0, 2435], [107, 0, 45]])
        >>> olr.Network.read("examples").polylines(pieces, numpy.array([1, 1])).sizes.tolist()
        [3, 2]
        """
        index = self.indices_of(pieces[:, 0])
        self._require_on(index, pieces[:, 1])
        self._require_on(index, pieces[:, 2])
        _require_forward(pieces)
        low, high = (pieces[:, column] / self.length[index] for column in (1, 2))
        starts, ends = self._at(index, low), self._at(index, high)
        doubled = np.zeros(len(index), dtype=np.bool_)
        doubled[1:] = (starts[1:] == ends[:-1]).all(axis=1)
        doubled[(np.cumsum(counts) - counts)[counts > 0]] = False
        first, between = self._between(index, low, high)
        sizes = between + 2 - doubled
        behind = np.cumsum(sizes)
        places = np.arange(int(sizes.sum())) + np.repeat(
            first - 1 + doubled - behind + sizes, sizes
        )
        points = self.points[np.minimum(places, len(self.points) - 1)]
        points[(behind - sizes)[~doubled]] = starts[~doubled]
        points[behind - 1] = ends
        return Polylines(points, _sums(sizes, counts))

    def _between(self, index: Integers, low: Floats, high: Floats) -> tuple[Integers, Integers]:
        """Of the points of lines between two shares of their polylines: which is the first one, and how many there are."""
        first, counts = self.first[index] + 1, self.sizes[index] - 2
        cut = (low > 0) | (high < 1)
        if cut.any():
            sizes = self.sizes[index[cut]]
            arcs = self.arcs[self._points_of(index[cut])]
            first[cut] += _sums(arcs <= np.repeat(low[cut], sizes), sizes) - 1
            behind = self.first[index[cut]] + _sums(arcs < np.repeat(high[cut], sizes), sizes)
            counts[cut] = np.maximum(behind - first[cut], 0)
        return first, counts

    def require_version_of(self, pieces: Pieces) -> None:
        """Raises `MapRefused` if the pieces of an answer are of another version of the map's files.

        >>> import olr
        >>> with olr.Map("examples") as town:
        ...     best = town.match("CwVF/yN2yRpnBAFUAAgbpwYBAf9kK0Fa").matchings[0]
        ...     town.network().require_version_of(best.route)
        ...
        """
        if None not in (pieces.digest, self.digest) and pieces.digest != self.digest:
            raise MapRefused(
                f"the map in {self.folder} is another version than the answer is of: take the network of the Map that was asked, by network()"
            )

    def to_geodataframe(self, lines: Iterable[int] | None = None) -> "geopandas.GeoDataFrame":
        """The lines of the map in the order of their file, or some of them by their ids in the order of these, with geometries in degrees
        (EPSG:4326): `line` is the id, as in `to_pieces`, `start` and `end` are nodes, `class` and `form` as in the map, and `length_m` is
        in metres.

        >>> import olr
        >>> roads = olr.Network.read("examples").to_geodataframe()
        >>> next(roads.drop(columns="geometry").itertuples(index=False, name=None))
        (101, 2, 1, 3, 3, 314.4)

        Raises `ToolError` if the map hasn't a line. That of a store has to be told which lines.
        """
        with needed_by("olr.Network.to_geodataframe", "geo"):
            import geopandas
            from shapely.geometry import LineString
        all_lines = self.line_id if lines is None else np.fromiter(lines, dtype=np.int64)
        index = self.indices_of(all_lines)
        found = zip(self.first[index].tolist(), self.sizes[index].tolist())
        columns = {
            "line": self.line_id,
            "start": self.start,
            "end": self.end,
            "class": self.road_class,
            "form": self.form,
            "length_m": self.length / 10,
        }
        return geopandas.GeoDataFrame(
            {name: values[index] for name, values in columns.items()},
            geometry=[LineString(self.points[first : first + size]) for first, size in found],
            crs="EPSG:4326",
        )

    def points_at(self, places: Integers) -> Floats:
        """The points of places, of which each row has a line's id and a position. Raises `ToolError` if the map hasn't this line, or it ends
        before.

        >>> import numpy, olr
        >>> olr.Network.read("examples").points_at(numpy.array([[104, 0]])).tolist()
        [[7.41572, 49.871269]]
        """
        index = self.indices_of(places[:, 0])
        self._require_on(index, places[:, 1])
        return self._at(index, places[:, 1] / self.length[index])

    def indices_of(self, ids: Integers) -> Integers:
        """The indices of lines by their ids, for the arrays of this network. Raises `ToolError` for the first one that isn't there.

        >>> import numpy, olr
        >>> network = olr.Network.read("examples")
        >>> network.length[network.indices_of(numpy.array([104]))].tolist()
        [2435]
        """
        places = np.minimum(np.searchsorted(self._ids, ids), len(self._ids) - 1)
        lacking = self._ids[places] != ids if len(self._ids) else np.ones(len(ids), dtype=np.bool_)
        if lacking.any():
            raise ToolError(
                f"the map in {self.folder} has no line {ids[np.argmax(lacking)]}: read the map that the answer is of"
            )
        result: Integers = self._by_id[places]
        return result

    def _require_on(self, index: Integers, positions: Integers) -> None:
        """Raises `ToolError` for the first position that isn't on its line."""
        outside = (positions < 0) | (positions > self.length[index])
        if outside.any():
            wrong = np.argmax(outside)
            line, length = self.line_id[index[wrong]], self.length[index[wrong]]
            raise ToolError(
                f"position {positions[wrong]} isn't on line {line} of the map in {self.folder}, which is {length} dm long: read the map that the answer is of"
            )

    def _points_of(self, index: Integers) -> Integers:
        """The indices of all points of lines, one line behind the other."""
        sizes = self.sizes[index]
        behind = np.cumsum(sizes)
        shifts = np.repeat(self.first[index] - behind + sizes, sizes)
        result: Integers = np.arange(len(shifts)) + shifts
        return result

    def _at(self, index: Integers, shares: Floats) -> Floats:
        """The coordinates at shares of lines' polylines. At 0 and at 1 they are those of the ends, to the last bit."""
        first = self.first[index]
        result: Floats = self.points[np.where(shares <= 0, first, first + self.sizes[index] - 1)]
        within = (shares > 0) & (shares < 1)
        if within.any():
            result[within] = self._within(index[within], shares[within])
        return result

    def _within(self, index: Integers, shares: Floats) -> Floats:
        """The coordinates at shares that are neither 0 nor 1."""
        sizes = self.sizes[index]
        reached = self.arcs[self._points_of(index)] <= np.repeat(shares, sizes)
        segment = self.first[index] + _sums(reached, sizes)
        before, after = self.arcs[segment - 1], self.arcs[segment]
        part = (shares - before) / (after - before)
        start, end = self.points[segment - 1], self.points[segment]
        result: Floats = start + (end - start) * part[:, None]
        return result


def _require_forward(pieces: Integers) -> None:
    """Raises `ToolError` for the first piece that runs backwards."""
    backwards = pieces[:, 1] > pieces[:, 2]
    if backwards.any():
        line, start, end = pieces[np.argmax(backwards)]
        raise ToolError(
            f"the piece of line {line} from {start} to {end} runs backwards: give the line of the other direction, or the lesser position first"
        )


def middle(route: Pieces, earliest: Place, latest: Place) -> Place:
    """The place halfway between two places on a route, of which the first doesn't lie behind the second."""
    behind = 0
    distances: dict[str, int] = {}
    for line, start, end in route:
        for name, place in (("earliest", earliest), ("latest", latest)):
            if name not in distances and place.line == line and start <= place.at <= end:
                distances[name] = behind + place.at - start
        behind += end - start
    wanted = sum(distances.values()) // 2
    for line, start, end in route:
        if wanted <= end - start:
            return Place(line, start + wanted)
        wanted -= end - start
    return latest


def _sums(values: Integers | Booleans, sizes: Integers) -> Integers:
    """The sums of values, in rows of these sizes, which may be 0."""
    sums = np.insert(np.cumsum(values, dtype=np.int64), 0, 0)
    behind = np.cumsum(sizes)
    result: Integers = sums[behind] - sums[behind - sizes]
    return result


def _arcs(points: Floats, first: Integers, sizes: Integers) -> Floats:
    """How far each point of each polyline is along it, as a share. Distances are those of the plane in which the program
    measures, with its scale at the polyline's start: its own scale is that at the first point of the reference.
    """
    if not len(points):
        return np.zeros(0)
    scale = np.repeat(np.cos(np.radians(points[first, 1])), sizes)
    steps = np.zeros(len(points))
    east = (points[1:, 0] - points[:-1, 0]) * scale[1:]
    steps[1:] = np.hypot(east, points[1:, 1] - points[:-1, 1])
    steps[first] = 0.0
    sums = np.cumsum(steps)
    arcs = sums - np.repeat(sums[first], sizes)
    whole = np.repeat(arcs[first + sizes - 1], sizes)
    arcs[first] = 0.0
    result: Floats = np.divide(arcs, whole, out=np.zeros_like(arcs), where=whole > 0)
    result[first + sizes - 1] = 1.0
    return result
