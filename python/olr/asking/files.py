"""The files of a map, and the version of them that its answers are of."""

import errno
import os
import threading
from collections.abc import Iterator, Sequence
from contextlib import contextmanager
from pathlib import Path
from typing import NamedTuple

from olr.asking.program import PathLike
from olr.content import digest_of
from olr.errors import MapRefused, ToolError, map_changed, readable
from olr.model.map_folder import BANS, LINES, NODES, WANTED

FLAGS = ("--nodes", "--lines", "--bans")
"""The words before the files of a map."""


class Version(NamedTuple):
    """Which version of the files there is, by digests: None for what can't be read, or can't be read twice."""

    network: str | None
    """Of nodes and lines."""
    bans: str | None


class MapFiles:
    """The files of a map. When they were read once they have to stay as they are: all answers are of one version."""

    def __init__(
        self,
        nodes: PathLike,
        lines: PathLike,
        bans: PathLike | None,
        descriptors: Sequence[int] = (),
    ) -> None:
        self.nodes, self.lines = Path(nodes), Path(lines)
        self.bans = None if bans is None else Path(bans)
        self.descriptors = descriptors
        """Those of open files by which a process of the program reads them too: none of files that have names."""
        self.version: Version | None = None
        """The one that was read: None until then."""
        self._lock = threading.Lock()

    @classmethod
    def of_folder(cls, folder: Path) -> "MapFiles":
        """The files of a folder: that of the bans if it is there."""
        there = (folder / BANS).exists()
        return cls(folder / NODES, folder / LINES, folder / BANS if there else None)

    def paths(self) -> list[Path]:
        """The files: those of nodes, lines and, if there are any, bans."""
        return [self.nodes, self.lines, *([] if self.bans is None else [self.bans])]

    def words(self) -> list[str]:
        """The words that name them to the program. Raises `MapRefused`, with its path, for the first one that the program couldn't open."""
        pairs = list(zip(FLAGS, self.paths()))
        for flag, path in pairs:
            _require_opened(flag.removeprefix("--"), path)
        return [word for flag, path in pairs for word in (flag, str(path))]

    def found(self) -> Version:
        """The version that is there. Raises `MapRefused` if another one was read before."""
        network = digest_of(self.nodes, self.lines)
        version = Version(network, None if self.bans is None else digest_of(self.bans))
        if self.version not in (None, version):
            raise self._changed()
        return version

    def keep(self, version: Version) -> None:
        """Notes that the version which was found was read since. Raises `MapRefused` if the files were changed meanwhile."""
        with self._lock:
            if self.found() != version:
                raise self._changed()
            self.version = version

    @contextmanager
    def reading(self) -> Iterator[Version]:
        """The version that is read within. Raises `MapRefused` if it isn't the one that was read before, or is changed meanwhile."""
        version = self.found()
        yield version
        self.keep(version)

    def _changed(self) -> MapRefused:
        return map_changed(
            f"the files of the map {self.lines.parent} have changed since they were read"
        )


def _require_opened(name: str, path: Path) -> None:
    """Raises `MapRefused` for a file of nodes, lines or bans that can't be opened: it has the fault of the program, and the path."""
    fault = "OpenFailed"
    try:
        with readable(path, WANTED):
            if path.is_dir():
                fault = "ReadFailed"
                raise IsADirectoryError(errno.EISDIR, os.strerror(errno.EISDIR))
            path.stat()
            if not os.access(path, os.R_OK):
                raise PermissionError(errno.EACCES, os.strerror(errno.EACCES))
    except ToolError as error:
        raise MapRefused(f"olr refuses the map: {fault} {name}: {error}") from error
