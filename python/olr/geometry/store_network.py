"""A map behind a store, to draw what is on it: its lines are read when they are asked for."""

import numpy as np
import threading
from collections.abc import Iterable, Iterator
from contextlib import contextmanager
from pathlib import Path
from typing import TYPE_CHECKING

from olr.arrays import Floats, Integers
from olr.errors import ToolError, map_changed
from olr.geometry.network import Network
from olr.geometry.parts import Polylines
from olr.model.map_folder import store_of
from olr.model.sources import Sources
from olr.regions.current import CurrentStore
from olr.regions.scratch import scratch_files
from olr.regions.store import Store

if TYPE_CHECKING:
    import geopandas


class PartOfNetwork(Network):
    """Some lines of a store, as arrays. Its `digest` is that of the store, as those of the answers of a `Map` of it."""

    def __init__(self, store: Store, lines: Integers) -> None:
        """Reads lines by their ids. Raises `ToolError` if the store can't be read, or scratch files can't be written."""
        with scratch_files(store, lines) as files:
            super().__init__(files.nodes, files.lines)
        self.folder, self.digest = store.file, store.digest

    def has(self, lines: Integers) -> bool:
        """Whether it has all of some lines."""
        return bool(np.isin(lines, self.line_id).all())


class StoreNetwork(Network):
    """The lines of a store, as a `Network`: `path` and `polylines` are those of any. It has no arrays of the whole map: `having` gives a
    `Network` of the lines that are asked for. Threads wait for one another."""

    def __init__(self, path: Path) -> None:
        """Opens a store. Raises `ToolError` if it isn't one, or can't be read."""
        self._store = CurrentStore(store_of(path) or path)
        self.folder, self.digest = self._store.file, self._store.digest
        self._asking = threading.Lock()
        self._last: PartOfNetwork | None = None

    def __repr__(self) -> str:
        sizes = self._store.sizes
        return f"<Network of {self.folder}: {sizes.nodes:,} nodes, {sizes.lines:,} lines>"

    def require_digest(self, digest: str) -> None:
        """Raises `MapRefused` if the store isn't the one of this digest."""
        if self.digest != digest:
            raise map_changed(f"the store {self.folder} has changed since it was opened")

    @contextmanager
    def reading(self) -> Iterator[Store]:
        """The open store, while no other thread uses it. Raises `MapRefused` if it changed."""
        with self._asking, self._store.reading() as store:
            yield store

    def having(self, lines: Integers | Iterable[int]) -> Network:
        """A network that has these lines, by their ids, and perhaps others. Raises `ToolError` if the map hasn't one of them, and
        `MapRefused` if the store changed."""
        wanted: Integers = np.unique(np.fromiter(lines, dtype=np.int64))
        with self._asking:
            if self._last is None or not self._last.has(wanted):
                with self._store.reading() as store:
                    self._last = PartOfNetwork(store, wanted)
            return self._last

    def to_geodataframe(self, lines: Iterable[int] | None = None) -> "geopandas.GeoDataFrame":
        """As `Network.to_geodataframe`, of the lines that are named. Raises `ToolError` if none are."""
        if lines is None:
            raise ToolError(f"the store {self.folder} may be too large for a table: name its lines")
        ids = list(lines)
        return self.having(ids).to_geodataframe(ids)

    def polylines(self, pieces: Integers, counts: Integers) -> Polylines:
        """As `Network.polylines`."""
        return self.having(pieces[:, 0]).polylines(pieces, counts)

    def points_at(self, places: Integers) -> Floats:
        """As `Network.points_at`."""
        return self.having(places[:, 0]).points_at(places)

    def sources(self) -> Sources:
        """Where the lines came from, which is looked up when it is asked for; none if the store doesn't say so. Ask anew for each lot of
        lines: the file may be opened again. Raises as `having`."""
        with self._asking, self._store.reading() as store:
            return Sources.of_store(store)
