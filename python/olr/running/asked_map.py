"""The map of a run: a store, or a folder with a map that the program reads whole."""

from dataclasses import dataclass
from pathlib import Path
from typing import TYPE_CHECKING

from olr.asking.files import MapFiles
from olr.content import require_digest_of
from olr.errors import map_changed, readable
from olr.model.map_folder import WANTED, store_of
from olr.regions.store import Store

if TYPE_CHECKING:
    from olr.geometry.network import Network


@dataclass(frozen=True)
class AskedMap:
    """The map of a run, under the same path on each machine."""

    path: Path
    """The file of a store, or a folder."""
    is_store: bool = True

    @classmethod
    def of(cls, path: Path) -> "AskedMap":
        """The map of a folder, or a store. Raises `ToolError` if it can't be looked for."""
        store = store_of(path)
        return cls((path if store is None else store).absolute(), store is not None)

    def require_there(self, named: Path) -> None:
        """Raises `ToolError` if a file of a folder isn't there, by the path as it was `named`."""
        if not self.is_store:
            for file in MapFiles.of_folder(named).paths():
                with readable(file, WANTED):
                    file.stat()

    def files(self) -> MapFiles:
        """The files of a folder."""
        return MapFiles.of_folder(self.path)

    def inputs(self) -> list[Path]:
        """The files that are read."""
        return [self.path] if self.is_store else self.files().paths()

    def digest(self) -> str:
        """The digest of a store, or of the files of a folder. Raises `ToolError` if it can't be read."""
        if self.is_store:
            with Store.open(self.path) as opened:
                return opened.digest
        return require_digest_of(*self.files().paths())

    def network(self, digest: str) -> "Network":
        """Its nodes and lines. Raises `MapRefused` if the map hasn't this digest any more, and `ToolError` if it can't be read."""
        if self.is_store:
            from olr.geometry.store_network import StoreNetwork

            network = StoreNetwork(self.path)
            network.require_digest(digest)
            return network
        from olr.geometry.network import Network

        if self.digest() != digest:
            raise map_changed(f"the map in {self.path} has changed since it was asked")
        files = self.files()
        return Network(files.nodes, files.lines)
