"""A pool of `olr-tools serve` whose processes and whose time are made up: what it does with requests, without a program."""

import asyncio
import pytest
from collections.abc import Coroutine
from typing import Any, TypeVar, cast

from olr.errors import MapRefused, ProgramEnded, ToolError
from olr.serving.edition import Edition
from olr.serving.limits import Limits
from olr.serving.pool import Pool
from olr.serving.process import Answer, Process
from olr.serving.waiting import CLIENT

Made = TypeVar("Made")


class FakeClock:
    """Seconds that pass when a test says so."""

    def __init__(self) -> None:
        self.now = 1000.0

    def __call__(self) -> float:
        return self.now


class FakeProcess(Process):
    """A process that reads the map, answers and ends when a test says so."""

    def __init__(self, edition: Edition, owner: Pool) -> None:
        super().__init__(edition, owner)
        self.texts: list[bytes] = []
        """Of all requests that it was asked."""

    async def _start(self) -> None:
        await self._map_is_read

    def _write(self, text: bytes) -> None:
        self.texts.append(text)

    async def read(self) -> None:
        """Lets it have read the map."""
        self._map_is_read.set_result(None)
        await turns()

    def answer(self, count: int = 1) -> None:
        """Lets it answer so many requests, each with its text."""
        for _ in range(count):
            request = self.requests.popleft()
            request.give(Answer(request.text, None, self._version))
            self.working_since = self._owner.clock()
            self._owner.became_free(self)

    def fail(self, error: ToolError) -> None:
        """Lets it end for an error."""
        self.is_retiring = True
        self._finish(error)


class FakeEdition:
    """The files of a map, which are refused while there is a reason."""

    program = None

    def __init__(self) -> None:
        self.refused: MapRefused | None = None

    async def found(self) -> None:
        """Looks at them."""
        if self.refused is not None:
            raise self.refused


class FakePool:
    """A pool, its clock, its files, and all processes that it started."""

    def __init__(self, monkeypatch: pytest.MonkeyPatch, workers: int, seconds: float = 30) -> None:
        self.clock, self.edition = FakeClock(), FakeEdition()
        self.started: list[FakeProcess] = []

        def made(edition: Edition, owner: Pool) -> FakeProcess:
            self.started.append(FakeProcess(edition, owner))
            return self.started[-1]

        monkeypatch.setattr("olr.serving.pool.Process", made)
        limits = Limits(time=seconds)
        self.pool = Pool(cast(Edition, self.edition), workers, limits, self.clock)

    def there(self) -> list[FakeProcess]:
        """The processes that haven't ended."""
        return [one for one in self.started if one in self.pool._there]

    async def ready(self, count: int = 1) -> list[FakeProcess]:
        """So many processes, which have read the map."""
        opening = asyncio.create_task(self.pool.open())
        await turns()
        await self.started[0].read()
        await opening
        while len(self.started) < count:
            starting = asyncio.create_task(self.pool._start(self.pool._new()))
            await turns()
            await self.started[-1].read()
            await starting
        return self.started

    def asked(self, text: str, client: str = "", **options: bool) -> "asyncio.Task[bytes]":
        """What the pool answers to a text, once it does."""

        async def ask() -> bytes:
            CLIENT.set(client)
            return (await self.pool.ask(text.encode(), **options)).json

        return asyncio.create_task(ask())

    async def after(self, seconds: float) -> None:
        """Lets seconds pass, and the pool look."""
        self.clock.now += seconds
        self.pool.look()
        await turns()

    async def close(self, *asked: "asyncio.Task[bytes]") -> None:
        """Closes the pool, and hears what is left of what was asked."""
        await self.pool.close()
        await asyncio.gather(*asked, return_exceptions=True)


async def turns(count: int = 8) -> None:
    """Lets all tasks go on that can."""
    for _ in range(count):
        await asyncio.sleep(0)


def run_within(work: Coroutine[Any, Any, Made], seconds: float = 600) -> Made:
    """Runs something that may take so long at most: what never comes fails, and doesn't hang."""
    return asyncio.run(asyncio.wait_for(work, seconds))


def ends_of(pool: Pool) -> dict[str, int]:
    """How many processes ended that weren't told to, by the reason."""
    figures = pool.figures()
    return {reason: figures[reason] for reason in ("ended", "map", "time") if figures[reason]}


def ended(text: str = "it ended") -> ProgramEnded:
    """The error of a process that ended."""
    return ProgramEnded(text)
