"""The processes that answer, and who is answered next."""

import asyncio
import logging
import time
from collections import Counter
from collections.abc import Coroutine, Iterable
from contextlib import suppress
from itertools import count
from typing import Any

from olr.errors import MapRefused, ProgramEnded, TimedOut, ToolError
from olr.progress import Clock
from olr.serving.edition import Edition
from olr.serving.limits import Limits
from olr.serving.problems import busy
from olr.serving.process import SECONDS_LONG, Answer, Process, Request
from olr.serving.waiting import CLIENT, Waiting

log = logging.getLogger("olr.serving")
TICK = 0.1
"""Seconds between two looks at what takes too long, and at who waits."""
TICKS_OF_FILES = 10
"""At every so many of them it looks at the files of the map."""
SECONDS_LEFT = 0.5
"""A process that has worked for so long at a request of a client that left is ended: one that answers at once isn't."""
SECONDS_OF_FAILURE = 1.0
"""So long none is started after one that didn't read the map."""


class Pool:
    """Equal processes of one edition of a map, and for a while those of the one before, which answer what they were asked.

    A request goes to the process that has the fewest. Else it waits, and a process is started, one at a time, while there are fewer than
    there may be. The next one is of the client that has the fewest requests at work, of those the one that has waited for longest. A client
    has all processes but one at most: so others are answered while it asks what takes long.
    """

    def __init__(
        self, edition: Edition, workers: int, limits: Limits, clock: Clock = time.monotonic
    ) -> None:
        self.edition, self.limits, self.clock = edition, limits, clock
        self.trouble: ToolError | None = None
        """Why the last process that was started didn't read the map, or why none can be: None if all is well."""
        self._counts: Counter[str] = Counter()
        """The starts of processes, and how many ended that weren't told to, by the reason."""
        self._workers, self._share = workers, max(1, workers - 1)
        self._there: list[Process] = []
        self._waiting = Waiting()
        self._tasks: set[asyncio.Task[None]] = set()
        self._starts_from = clock()
        self._is_looking = self._is_open = self._is_closed = False

    def figures(self) -> Counter[str]:
        """See `Served.figures`."""
        working = sum(1 for one in self._there if one.requests)
        idle, waiting = len(self._there) - working, len(self._waiting)
        return self._counts + Counter(working=working, idle=idle, waiting=waiting)

    def is_able(self) -> bool:
        """Whether a process can be expected to answer."""
        return self.trouble is None or any(one.is_ready for one in self._there)

    def is_changed(self) -> bool:
        """Whether the files weren't those of the edition any more when they were last looked at."""
        return isinstance(self.trouble, MapRefused)

    def ask(self, text: bytes, is_in_stream: bool = False) -> "asyncio.Future[Answer]":
        """What the program is to answer to the text of a record, for the client that is being answered: cancelled, it isn't asked any more. It
        has `MapRefused`, `ProgramEnded`, `ProgramNotFound` or `TimedOut`, and `Problem` where no process is free for too long; but that is a
        matter of the stream where it is in one, in which each waits for those before. Raises `Problem`.
        """
        if self._is_closed:
            raise busy("the server ends")
        request = Request(text, CLIENT.get(), self.clock(), is_in_stream)
        self._waiting.add(request)
        self._schedule()
        return request.answer

    async def watch(self) -> None:
        """Ends what takes too long, and looks whether the files are still those of the edition, until it is cancelled."""
        for tick in count(1):
            await asyncio.sleep(TICK)
            self.look()
            if tick % TICKS_OF_FILES == 0 and not self._is_looking:
                self._task(self.look_at_files())

    def look(self) -> None:
        """Ends what takes too long or is for nobody, refuses what has waited for too long, and hands over what waits."""
        limit = self.limits.time
        for process in list(self._there):
            if process.works_for(limit):
                log.warning("a process was ended: olr answered nothing for %g seconds", limit)
                self._counts["time"] += 1
                error = TimedOut(f"olr answered nothing for {limit:g} seconds", None)
                process.requests[0].refuse(error)
                self._give_up(process)
            elif process.works_for(SECONDS_LEFT) and process.requests[0].answer.done():
                self._give_up(process)
            elif process.works_for(SECONDS_LONG):
                client = process.requests[0].client
                self._put_back(one for one in process.own() if one.client != client)
        # Reading the map has a limit of its own.
        begin = self.clock() - limit if any(one.is_ready for one in self._there) else 0
        for request in self._waiting.take_those(lambda it: it.is_late(begin)):
            request.refuse(busy(f"no process was free for {limit:g} seconds"))
        self._schedule()

    async def open(self) -> None:
        """Starts the first process, and waits until it has read the map. Raises `ToolError` if it doesn't."""
        await self._new().start()
        self._is_open = True

    async def renew(self, edition: Edition) -> None:
        """Goes over to another edition, once a process has read it. Then those of the one before answer what they were asked, and end.
        Raises `ToolError`: then all is as it was."""
        process = self._made(edition)
        await process.start()
        self.edition, self.trouble = edition, None
        for one in list(self._there):
            one.is_retiring = True
            if one.is_ready and not one.requests:
                self._end(one)
        self._there.append(process)
        self._schedule()

    async def close(self) -> None:
        """Ends all processes, and waits until they have ended. What waits is refused."""
        self._is_closed = True
        processes, self._there = self._there, []
        for process in processes:
            self._put_back(process.own())
            process.end()
        self._refuse(busy("the server ends"))
        await asyncio.gather(*(process.ended() for process in processes))

    # ---- who is answered

    def _schedule(self) -> None:
        """Hands over what waits, and starts a process where some is left."""
        if self._is_closed:
            return
        while self._waiting and self._hand_over():
            pass
        if self._waiting and self._may_start():
            self._task(self._start(self._new()))
        if self.trouble is not None and not self._there:
            # One that was ended is started again.
            if not isinstance(self.trouble, ProgramEnded):
                self._refuse(self.trouble)

    def _hand_over(self) -> bool:
        """Hands over the next request, if there is one that a process takes. Answers whether there was."""
        takers = [one for one in self._there if one.takes_more()]
        if not takers:
            return False
        there = [one for one in self._there if not one.is_retiring]
        work = [(one, request.client) for one in there for request in one.own()]
        pairs = set(work)
        holds = Counter(client for _, client in pairs)

        def takers_of(client: str) -> list[Process]:
            if holds[client] < self._share:
                return takers
            return [one for one in takers if (one, client) in pairs]

        at_work = Counter(client for _, client in work)
        request = self._waiting.next(at_work, lambda client: bool(takers_of(client)))
        if request is not None and not request.answer.done():
            min(takers_of(request.client), key=lambda one: len(one.requests)).ask(request)
        return request is not None

    def _put_back(self, requests: Iterable[Request]) -> None:
        """Lets requests wait for another process, in front of others."""
        self._waiting.put_back(requests, self.clock())

    def _refuse(self, error: Exception) -> None:
        """Refuses all that waits."""
        for request in self._waiting.take_those(lambda _: True):
            request.refuse(error)

    # ---- processes

    def _may_start(self) -> bool:
        """Whether a process may be started, and would read the map."""
        if self.is_changed() or len(self._there) >= self._workers:
            return False
        return all(one.is_ready for one in self._there) and self._starts_from <= self.clock()

    def _made(self, edition: Edition) -> Process:
        """A process, which is to be started."""
        self._counts["starts"] += 1
        return Process(edition, self)

    def _new(self) -> Process:
        """One more of those that are asked."""
        process = self._made(self.edition)
        self._there.append(process)
        return process

    async def _start(self, process: Process) -> None:
        """Starts a process. What fails comes to `has_ended`."""
        with suppress(ToolError):
            await process.start()
            self.trouble = None
            self.became_free(process)

    def _task(self, work: Coroutine[Any, Any, None]) -> None:
        """Does something besides."""
        task = asyncio.create_task(work)
        self._tasks.add(task)
        task.add_done_callback(self._tasks.discard)

    def _end(self, process: Process) -> None:
        """Ends a process that isn't needed."""
        self._there.remove(process)
        process.end()

    def _give_up(self, process: Process) -> None:
        """Ends a process whose first request has heard of it, or is for nobody. The others wait for another one."""
        self._put_back(process.own())
        self._end(process)

    def became_free(self, process: Process) -> None:
        """A process has read the map, or has given an answer."""
        if process.is_retiring and not process.requests and process in self._there:
            self._end(process)
        self._schedule()

    def has_ended(self, process: Process, error: ToolError) -> None:
        """A process has ended. What it left is asked again: it worked at the first request alone."""
        if process not in self._there:
            return
        self._there.remove(process)
        self._counts[_reason(error)] += 1
        if self._is_open and not isinstance(error, MapRefused):
            log.warning("a process ended: %s", error)
        if process.requests:
            process.requests[0].failed(error)
            self._put_back(process.own())
        elif not process.is_ready and process.edition is self.edition:
            self._note_trouble(error)
            self._starts_from = self.clock() + SECONDS_OF_FAILURE
        self._schedule()

    # ---- files

    async def look_at_files(self) -> None:
        """Notes whether a process could be started that reads what the others have read. It may take long, where files don't answer."""
        edition = self.edition
        self._is_looking = True
        try:
            await edition.found()
        except MapRefused as error:
            if edition is self.edition:
                self._note_trouble(error)
            return
        finally:
            self._is_looking = False
        if self.is_changed() and edition is self.edition:
            self.trouble = None

    def _note_trouble(self, error: ToolError) -> None:
        """Notes why a process didn't read the map. That the files aren't the right ones is told once; before any process has read them it is
        the error of whoever opens the pool."""
        if isinstance(error, MapRefused) and self._is_open and not self.is_changed():
            log.warning("%s: SIGHUP reads them anew", error)
        self.trouble = error


def _reason(error: ToolError) -> str:
    """Why a process ended, as a label."""
    if isinstance(error, MapRefused):
        return "map"
    return "time" if isinstance(error, TimedOut) else "ended"
