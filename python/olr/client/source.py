"""The map of some files. Like the map of a store (`store_source`) it is asked by `about`."""

from collections.abc import Generator, Iterable
from contextlib import closing
from typing import TYPE_CHECKING

from olr.asking.exchange import Asked
from olr.asking.processes import AHEAD, Line, Processes
from olr.model.box import Box
from olr.model.questions import record_text
from olr.model.sources import Sources

if TYPE_CHECKING:
    from olr.geometry.network import Network


class FilesSource(Processes):
    """The map of some files, of which all answers are of one version."""

    _sources: Sources | None = None

    def about(self, asked: Asked, refs: Iterable[str], *more: str) -> Generator[Line, None, None]:
        """The lines about references, in their order, or `TimedOut` in the place of one. They are asked with more words, such as those of a
        cursor. Raises `ToolError`."""
        texts = (asked.about(record_text(ref), *more) for ref in refs)
        return self.lines(texts, asked.at_once(AHEAD))

    def within(self, box: Box, text: bytes) -> Line:
        """The line of a record that asks about the lines in a box; or `TimedOut`. Raises `ToolError`."""
        with closing(self.lines([text])) as lines:
            return next(lines)

    def digest(self) -> str | None:
        """That of the nodes and lines that its answers are of; None where it isn't known."""
        version = self.files.version
        return None if version is None else version.network

    def network(self) -> "Network":
        """Its nodes and lines, of the version that its answers are of. Raises `MapRefused` if the files have changed, and `ToolError` if they
        can't be read."""
        from olr.geometry.network import Network

        with self.files.reading():
            return Network(self.files.nodes, self.files.lines)

    def sources(self) -> Sources:
        """Where its lines came from: the `ids.csv` beside them, which is read once. Raises `ToolError` if that can't be read."""
        if self._sources is None:
            self._sources = Sources.of_folder(self.files.lines.parent)
        return self._sources
