"""A store that is read for a long time: that it stays the same map is seen by the stamp of its file."""

from collections.abc import Iterator
from contextlib import contextmanager
from pathlib import Path

from olr.content import Stamp
from olr.errors import MapRefused, ToolError, map_changed
from olr.regions.store import Store


class CurrentStore:
    """A store by its path. What is read of it is of one map: the one that was there at first. A file of the same map may take its
    place. One thread at a time may use it."""

    def __init__(self, file: Path) -> None:
        """Opens it. Raises `ToolError` as `Store.open`, and if it changes meanwhile."""
        self._stamp = Stamp.of(file) if file.is_file() else None
        self._store = Store.open(file)
        self.file = self._store.file
        self.digest = self._store.digest
        """Of its map."""
        self.sizes = self._store.sizes
        self._require_stamp()

    @contextmanager
    def reading(self) -> Iterator[Store]:
        """The open store. Raises `MapRefused` if its file isn't of the same map any more, or changes while it is read: that is the
        reason for whatever else went wrong."""
        if self._stamp_now() != self._stamp:
            self._open_again()
        try:
            yield self._store
        finally:
            self._require_stamp()

    def close(self) -> None:
        """Closes the file."""
        self._store.close()

    def _open_again(self) -> None:
        """Opens the file that is there now. Raises `MapRefused` if it isn't of the same map."""
        stamp = self._stamp_now()
        try:
            store = Store.open(self.file)
        except ToolError as error:
            raise self._changed() from error
        if store.digest != self.digest:
            store.close()
            raise self._changed()
        self._store.close()
        self._store, self._stamp = store, stamp

    def _require_stamp(self) -> None:
        if self._stamp_now() != self._stamp:
            raise self._changed()

    def _stamp_now(self) -> Stamp | None:
        """The stamp of the file, or None where it can't be read."""
        try:
            return Stamp.of(self.file)
        except ToolError:
            return None

    def _changed(self) -> MapRefused:
        return map_changed(f"the store {self.file} has changed since it was opened")
