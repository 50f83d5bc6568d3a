"""What GeoJSON has of a map besides the program's answers: where its lines came from."""

from functools import cached_property

from olr.asking.files import MapFiles
from olr.errors import ToolError
from olr.geometry.store_network import StoreNetwork
from olr.matching.rows import Ground
from olr.model.sources import Sources
from olr.serving.tasks import MapVersion


class FolderGround(Ground):
    """That of a version of a folder's map, which is read at once: processes that are forked then share it."""

    def __init__(self, map: MapVersion) -> None:
        """Reads it. Raises `ToolError`, and `MapRefused` if the files of the map are of another version: then it is too."""
        files = MapFiles(map.files[0], map.files[1], map.files[2] if map.files[2:] else None)
        files.keep(map.version)
        with files.reading():
            self._sources = Sources.of_folder(files.nodes.parent)

    def sources(self) -> Sources:
        """See `Ground`."""
        return self._sources


class NoGround(Ground):
    """That of a map of which nobody knows it."""

    def __init__(self, error: ToolError) -> None:
        """The error of whoever asks."""
        self._error = error

    def sources(self) -> Sources:
        """See `Ground`. Raises the error."""
        raise self._error


class StoreGround(Ground):
    """That of a version of a store, which is opened when it is first asked: each process has to do that by itself."""

    def __init__(self, map: MapVersion) -> None:
        self._map = map

    @cached_property
    def _network(self) -> StoreNetwork:
        network = StoreNetwork(self._map.files[0])
        network.require_digest(self._map.version.network or "")
        return network

    def sources(self) -> Sources:
        """See `Ground`. Raises `ToolError`: `MapRefused` if the store is of another version."""
        return self._network.sources()


class Grounds:
    """The maps that a maker was asked about, each in the version that was asked for last."""

    def __init__(self) -> None:
        self._there: dict[tuple[object, ...], tuple[MapVersion, Ground]] = {}

    def of(self, map: MapVersion) -> Ground:
        """That of a version of a map, which is read if it isn't there."""
        there = self._there.get(map.files)
        if there is not None and there[0] == map:
            return there[1]
        # Both at once would take twice as much.
        self._there.pop(map.files, None)
        del there
        try:
            ground = StoreGround(map) if len(map.files) == 1 else FolderGround(map)
        except ToolError as error:
            return NoGround(error)
        self._there[map.files] = map, ground
        return ground
