"""The body of a stream: its records as they come, and what is answered about them in their order."""

import asyncio
from asyncio import Future
from collections import deque
from collections.abc import AsyncGenerator, AsyncIterator, Callable, Sequence
from contextlib import suppress
from starlette.types import Receive
from typing import TypeVar

from olr.asking.records import Record, Splitter
from olr.serving.problems import Problem

Made = TypeVar("Made")
Records = AsyncIterator[Sequence[Record]]
"""The records of a body, some at a time."""


class Gone(Exception):
    """The client is gone."""


class Body:
    """The body of a stream, which is read no faster than its records are taken."""

    def __init__(self, receive: Receive, most: int, moved: Callable[[], None]) -> None:
        """It has so many bytes at most. `moved` is called for each piece."""
        self._receive, self._most, self._moved = receive, most, moved
        self._splitter = Splitter()

    def is_between_records(self) -> bool:
        """Whether all that came are whole records: then the client may wait for their lines before it goes on."""
        return not self._splitter.is_within_record()

    async def records(self) -> Records:
        """The records, some at a time, as they come. Raises `Problem` for a body that is too long, and `Gone`."""
        left, is_over = self._most, False
        while not is_over:
            message = await self._receive()
            if message["type"] != "http.request":
                raise Gone
            piece, is_over = message.get("body", b""), not message.get("more_body", False)
            left -= len(piece)
            if left < 0:
                raise too_large(self._most)
            if piece:
                self._moved()
            if records := self._splitter.receive(piece) + (self._splitter.end() if is_over else []):
                yield records


def too_large(most: int) -> Problem:
    """Why a body is refused that has more bytes."""
    return Problem(413, "BodyTooLarge", f"a body has {most:,} bytes at most: --body-limit")


async def in_order(
    body: Records, ask: Callable[[Record], Future[Made]], ahead: int
) -> AsyncGenerator[list[tuple[Record, Made]], None]:
    """Records of a body with what is answered about them, in their order: at a time those that have an answer. So many are asked at once, and
    the body is read meanwhile. Raises as the answers do, and behind the last one as the body does.
    """
    room, came = asyncio.Semaphore(ahead), asyncio.Event()
    asked: deque[tuple[Record, Future[Made]]] = deque()

    async def feed() -> None:
        async for records in body:
            for record in records:
                await room.acquire()
                asked.append((record, ask(record)))
                came.set()

    feeding = asyncio.create_task(feed())
    feeding.add_done_callback(lambda _: came.set())
    try:
        while asked or not feeding.done():
            if not asked:
                came.clear()
                await came.wait()
                continue
            await asked[0][1]
            there = list[tuple[Record, Made]]()
            while asked and asked[0][1].done() and asked[0][1].exception() is None:
                record, answer = asked.popleft()
                there.append((record, answer.result()))
                room.release()
            yield there
        await feeding
    finally:
        feeding.cancel()
        for _, answer in asked:
            if not answer.cancel():
                # It would be logged that nobody has heard of its error.
                answer.exception()
        with suppress(asyncio.CancelledError, Exception):
            await feeding
