"""A map that is served from a store: a map of any size. One question is asked at a time, in a thread."""

import asyncio
from asyncio import Future
from collections import Counter
from collections.abc import Callable, Sequence
from concurrent.futures import ThreadPoolExecutor
from contextlib import closing
from functools import partial
from pathlib import Path

from olr.asking.exchange import Asked
from olr.asking.files import Version
from olr.asking.processes import Line
from olr.asking.program import SHIPPED, PathLike, find_program
from olr.client.source import FilesSource
from olr.client.store_source import StoreSource
from olr.errors import ToolError
from olr.model.box import Box
from olr.model.map_folder import store_of
from olr.regions.store import Store
from olr.serving.wanted import text_within
from olr.serving.limits import Limits
from olr.serving.process import Answer
from olr.serving.rooms import Room
from olr.serving.runs import printed_by, version_of
from olr.serving.served import Made, Served

MOST_SHOWN = 4
"""So many references are shown at once, each by a process of its own."""


class StoreMap(Served):
    """The map of a store."""

    ahead = 1

    def __init__(self, path: Path, limits: Limits, confidence: PathLike = SHIPPED) -> None:
        super().__init__(path)
        self._path, self._program = path, find_program()
        self._seconds, self._confidence = limits.time, confidence
        self._source: StoreSource | None = None
        self._asking, self._showing = Room(limits.time, 1), Room(limits.time, MOST_SHOWN)
        self._thread = ThreadPoolExecutor(1, "olr store")

    async def open(self) -> None:
        """See `Served`."""
        self.program_version = await version_of(self._program)
        await self.read_anew()

    async def close(self) -> None:
        """See `Served`. What is being asked then has an error."""
        if self._source is not None:
            await asyncio.to_thread(self._source.close)
        self._thread.shutdown(wait=True)

    async def read_anew(self) -> None:
        """See `Served`."""
        await self._in_thread(self._open)

    def _open(self) -> None:
        """Opens the store that is there now, in place of the one before. Raises `ToolError`."""
        by = {"patience": self._seconds, "confidence": self._confidence}
        made = partial(FilesSource, program=self._program, **by)
        before, self._source = self._source, StoreSource(store_of(self._path) or self._path, made)
        if before is not None:
            before.close()

    async def state(self) -> tuple[bool, bool]:
        """See `Served`. The store is looked at."""
        is_same = await asyncio.to_thread(self._is_same)
        return is_same, not is_same

    def _is_same(self) -> bool:
        """Whether the store that is there is the one that is asked."""
        try:
            with Store.open(self._path) as there:
                return Version(there.digest, None) == self.version()
        except ToolError:
            return False

    def digests(self) -> dict[str, str | None]:
        """See `Served`. That of a store is of its bans too."""
        return {} if self._source is None else {"network": self._source.digest()}

    def ask(
        self, asked: Asked, text: bytes, *more: str, is_in_stream: bool = False
    ) -> Future[Answer]:
        """See `Served`."""
        return asyncio.ensure_future(
            self._answer(lambda source: _line_about(source, asked, text.decode(), more))
        )

    def within(self, box: Box) -> Future[Answer]:
        """See `Served`."""
        return asyncio.ensure_future(
            self._answer(lambda source: source.within(box, text_within(box)))
        )

    async def _answer(self, line_of: Callable[[StoreSource], Line]) -> Answer:
        """The answer of a line, which is asked for once it is its turn: they come in order."""
        async with self._asking.place():
            return await self._in_thread(lambda: self._asked(line_of))

    def _asked(self, line_of: Callable[[StoreSource], Line]) -> Answer:
        """As `_answer`. Raises `ToolError`."""
        assert self._source is not None
        line = line_of(self._source)
        if isinstance(line, ToolError):
            raise line
        return Answer(line.answer, line.fault, Version(self._source.digest(), None))

    async def _in_thread(self, call: Callable[[], Made]) -> Made:
        return await asyncio.get_running_loop().run_in_executor(self._thread, call)

    async def show(self, text: bytes) -> bytes:
        """See `Served`."""
        words = ["show", "--format", "json", "--", text.decode()]
        async with self._showing.place():
            return await printed_by(self._program, words, self._seconds)

    def version(self) -> Version | None:
        """See `Served`."""
        return None if self._source is None else Version(self._source.digest(), None)

    def files(self) -> tuple[Path, ...]:
        """See `Served`."""
        return (self._path,)

    def figures(self) -> Counter[str]:
        """See `Served`. One process works while a question is asked, and is started by whatever asks it."""
        return Counter(working=int(self._asking.is_full()), waiting=self._asking.waiting)


def _line_about(source: StoreSource, asked: Asked, text: str, more: Sequence[str]) -> Line:
    """The line about a reference. Raises `ToolError`."""
    with closing(source.about(asked, [text], *more)) as lines:
        return next(lines)
