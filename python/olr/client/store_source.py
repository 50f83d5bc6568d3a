"""The map of a store: each question is asked on a part of it that has the regions of its references, in scratch files."""

import numpy as np
import os
import threading
from collections.abc import Callable, Generator, Iterable, Iterator, Sequence
from contextlib import ExitStack, closing
from itertools import islice
from pathlib import Path

from olr.arrays import Integers
from olr.asking.exchange import Asked
from olr.asking.files import MapFiles
from olr.asking.processes import Line
from olr.client.source import FilesSource
from olr.errors import TimedOut, ToolError, closed_error, forked_error, map_changed
from olr.extras import needed_by
from olr.geometry.network import Network
from olr.model.box import Box
from olr.model.fault import TOO_LARGE
from olr.model.objects import RawLine
from olr.model.questions import record_text
from olr.model.reference import read_points
from olr.model.sources import Sources
from olr.regions.current import CurrentStore
from olr.regions.options import Options
from olr.regions.scratch import scratch_files
from olr.regions.sharing import groups_of, unread
from olr.regions.store import Store

CHUNK = 1024
"""So many references at most are taken before the first of their answers is given."""
TOO_LARGE_LINE = RawLine(b"null", TOO_LARGE, None, 0)
Made = Callable[[MapFiles], FilesSource]
"""Makes what is asked about the map of some files."""


class StoreSource:
    """As `FilesSource`, of a store. What is asked about a reference is asked on a map of the lines that its answer depends on, or on the last
    such map if that has these lines too.

    Threads that ask wait for one another. All answers are of one map: where another one takes its place in the store's file, that raises
    `MapRefused`. A reference that needs more than the program's limits has the fault `RegionTooLarge`.
    """

    def __init__(self, file: Path, made: Made) -> None:
        """The map of a store. Raises `ToolError` if it isn't one, or can't be read."""
        self.files: MapFiles = _StoreFile(file, file, None)
        self._store = CurrentStore(file)
        self._made = made
        self._there: _Region | None = None
        self._with_sources: CurrentStore | None = None
        """Once more, for threads that look sources up."""
        self._asking = threading.RLock()
        self._owner = os.getpid()
        self._closed = False

    def close(self) -> None:
        """Ends the processes, and lets go of the scratch files."""
        self._closed = True
        if (there := self._there) is not None:
            there.source.close()
        with self._asking:
            self._leave_region()
            self._store.close()

    def network(self) -> Network:
        """As `FilesSource.network`: lines are read when they are asked for."""
        with needed_by("olr.Network", "geo"):
            from olr.geometry.store_network import StoreNetwork
        network = StoreNetwork(self._store.file)
        network.require_digest(self._store.digest)
        return network

    def sources(self) -> Sources:
        """As `FilesSource.sources`: they are looked up when they are asked for. Ask anew for each lot of lines: the file may be opened again. Raises
        `MapRefused` too if the store has changed."""
        with self._asking:
            if self._with_sources is None:
                self._with_sources = CurrentStore(self._store.file)
            if self._with_sources.digest != self._store.digest:
                raise map_changed(f"the store {self._store.file} has changed since it was opened")
            with self._with_sources.reading() as store:
                return Sources.of_store(store)

    def digest(self) -> str:
        """As `FilesSource.digest`: that of the store."""
        return self._store.digest

    def about(self, asked: Asked, refs: Iterable[str], *more: str) -> Generator[Line, None, None]:
        """As `FilesSource.about`: some at a time, so that those that are neighbours share a part of the map."""
        left, size = iter(refs), asked.at_once(CHUNK)
        while texts := [record_text(ref).decode() for ref in islice(left, size)]:
            chunk = _Chunk(texts)
            self._ask(asked, chunk, more)
            yield from chunk.lines()

    def within(self, box: Box, text: bytes) -> Line:
        """As `FilesSource.within`."""
        self._require_owner()
        with self._asking, self._store.reading() as store:
            lines = store.lines_within_limits(box)
            return TOO_LARGE_LINE if lines is None else self._region(lines, store).within(box, text)

    def _ask(self, asked: Asked, chunk: "_Chunk", more: Sequence[str]) -> None:
        """Asks about references, at least about all of those before the first one that has an error. Raises `ToolError`."""
        self._require_owner()
        with self._asking, self._store.reading() as store:
            for group in groups_of(chunk.points, Options.of(asked.numbers()), store, asked.what):
                numbers = chunk.wanted(group.numbers)
                if group.lines is None:
                    chunk.found.update((number, TOO_LARGE_LINE) for number in numbers)
                elif numbers:
                    region = self._region(group.lines, store)
                    texts = [chunk.texts[at] for at in numbers]
                    with closing(region.about(asked, texts, *more)) as lines:
                        chunk.take(numbers, lines)

    def _require_owner(self) -> None:
        """Raises `ToolError` in a process that was forked from the one that made this."""
        if os.getpid() != self._owner:
            raise forked_error()

    def _region(self, lines: Integers, store: Store) -> FilesSource:
        """What answers on a map that has these lines: what is there, or another one in its place. Raises `ToolError`."""
        if self._there is None or not self._there.has(lines):
            self._leave_region()
            self._there = _Region(lines, store, self._made)
        if self._closed:
            raise closed_error()
        return self._there.source

    def _leave_region(self) -> None:
        """Ends what is there."""
        there, self._there = self._there, None
        if there is not None:
            there.close()


class _StoreFile(MapFiles):
    """The file of a store, in place of the files of a map."""

    def paths(self) -> list[Path]:
        """The file."""
        return [self.nodes]


class _Chunk:
    """References that are asked together, with their lines, or an error where there is none, by their indices."""

    def __init__(self, texts: Sequence[str]) -> None:
        self.texts = texts
        self.points = [read_points(text) for text in texts]
        """None for a text that isn't a reference, as far as it is read here."""
        self.found: dict[int, Line] = {}

    def wanted(self, numbers: Sequence[int]) -> list[int]:
        """Those that come before the first error."""
        errors = (at for at, line in self.found.items() if isinstance(line, ToolError))
        behind = min(errors, default=len(self.texts))
        return sorted(number for number in numbers if number < behind)

    def take(self, numbers: Sequence[int], lines: Iterator[Line]) -> None:
        """Notes the lines about some references, in their order, and at the first one without a line the error."""
        for number in numbers:
            try:
                line = next(lines)
            except ToolError as error:
                line = error
            if self.points[number] is None and isinstance(line, RawLine) and line.fault is None:
                line = unread(repr(self.texts[number]))
            self.found[number] = line
            if isinstance(line, ToolError):
                return

    def lines(self) -> Iterator[Line]:
        """The lines. Raises the first error, unless it is `TimedOut`."""
        for number in range(len(self.texts)):
            line = self.found.pop(number)
            if isinstance(line, ToolError) and not isinstance(line, TimedOut):
                raise line
            yield line


class _Region:
    """Some lines of a store as a map in scratch files, which is asked."""

    def __init__(self, lines: Integers, store: Store, made: Made) -> None:
        """Writes the map. Raises `ToolError` if the store can't be read, or scratch files can't be written."""
        self._lines, self._files = lines, ExitStack()
        self.source = made(self._files.enter_context(scratch_files(store, lines)))

    def has(self, lines: Integers) -> bool:
        """Whether it has all of these lines."""
        return bool(np.isin(lines, self._lines, assume_unique=True).all())

    def close(self) -> None:
        """Ends the processes, and lets go of the files."""
        self.source.close()
        self._files.close()
