"""Room for what is made, so many at once."""

import asyncio
from collections.abc import AsyncIterator
from contextlib import asynccontextmanager

from olr.serving.problems import busy

ABREAST = 4
"""Scenes, GeoJSON and lots of rows that are made at once, each by a process."""


class Room:
    """Room for some at once. The others wait."""

    def __init__(self, seconds: float, most: int = ABREAST) -> None:
        """`seconds` is how long one may wait, and `most` how many there are at once."""
        self._seconds = seconds
        self._places = asyncio.Semaphore(most)
        self.waiting = 0
        """How many wait."""

    def is_full(self) -> bool:
        """Whether another one would have to wait."""
        return self._places.locked()

    @asynccontextmanager
    async def place(self) -> AsyncIterator[None]:
        """A place, while one is made. Raises `Problem` where none is free for too long."""
        self.waiting += 1
        try:
            async with asyncio.timeout(self._seconds):
                await self._places.acquire()
        except TimeoutError as error:
            text = f"{self._seconds:g} seconds were over before it was the turn of this request"
            raise busy(text) from error
        finally:
            self.waiting -= 1
        try:
            yield
        finally:
            self._places.release()
