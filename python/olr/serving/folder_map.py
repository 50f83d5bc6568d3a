"""A map that is served from the files of a folder, by the processes of a pool."""

import asyncio
from asyncio import Future
from collections import Counter
from functools import partial
from pathlib import Path

from olr.asking.exchange import Asked, record_about
from olr.asking.files import Version
from olr.asking.program import SHIPPED, PathLike
from olr.model.box import Box
from olr.serving.edition import Edition
from olr.serving.wanted import text_within
from olr.serving.limits import RECORDS_AHEAD, Limits
from olr.serving.pool import Pool
from olr.serving.process import Answer
from olr.serving.runs import version_of
from olr.serving.served import Served


class FolderMap(Served):
    """The map of a folder."""

    ahead = RECORDS_AHEAD

    def __init__(
        self, folder: Path, workers: int, limits: Limits, confidence: PathLike = SHIPPED
    ) -> None:
        super().__init__(folder)
        self.map_name = self._name
        self._edition = partial(Edition, folder, confidence=confidence)
        self.pool = Pool(self._edition(), workers, limits)
        self._watching: "asyncio.Task[None] | None" = None

    async def open(self) -> None:
        """See `Served`."""
        self.program_version = await version_of(self.pool.edition.program)
        await self.pool.open()
        self._watching = asyncio.create_task(self.pool.watch())

    async def close(self) -> None:
        """See `Served`."""
        if self._watching is not None:
            self._watching.cancel()
        await self.pool.close()

    async def read_anew(self) -> None:
        """See `Served`."""
        await self.pool.renew(self._edition())

    async def state(self) -> tuple[bool, bool]:
        """See `Served`. Files aren't looked at: that may take long."""
        return self.pool.is_able(), self.pool.is_changed()

    def digests(self) -> dict[str, str | None]:
        """See `Served`."""
        version = self.version()
        return {} if version is None else version._asdict()

    def ask(
        self, asked: Asked, text: bytes, *more: str, is_in_stream: bool = False
    ) -> Future[Answer]:
        """See `Served`."""
        return self.pool.ask(asked.about(text, *more), is_in_stream)

    def within(self, box: Box) -> Future[Answer]:
        """See `Served`."""
        return self.pool.ask(text_within(box))

    async def show(self, text: bytes) -> bytes:
        """See `Served`."""
        return (await self.pool.ask(record_about(["show"], text))).or_fault().json

    def version(self) -> Version | None:
        """See `Served`."""
        return self.pool.edition.files.version

    def unchanged(self) -> Version | None:
        """The version that the processes have read: None once the files have changed, which is seen within a second."""
        return None if self.pool.trouble is not None else self.version()

    def files(self) -> tuple[Path, ...]:
        """See `Served`."""
        return tuple(self.pool.edition.files.paths())

    def figures(self) -> Counter[str]:
        """See `Served`."""
        return self.pool.figures()
