"""A process `olr answer` that is asked without threads.

`asking/threaded.py` has one for threads: it writes in a thread, and whoever waits reads. Here an event loop does both.
"""

import asyncio
from asyncio.subprocess import PIPE
from collections import deque
from typing import TYPE_CHECKING, NamedTuple, cast

from olr.asking.exchange import AnswerTooLarge, Exchange, UnknownWords, record_about
from olr.asking.files import Version
from olr.asking.starting import command_of, kill_group_of, not_started
from olr.errors import ProgramEnded, TimedOut, ToolError
from olr.model.fault import Fault
from olr.model.objects import RawLine
from olr.serving.edition import Edition
from olr.serving.limits import ABREAST, MOST_ANSWER, MOST_SAID, SECONDS_TO_READ

if TYPE_CHECKING:
    from olr.serving.pool import Pool

STDOUT, STDERR = 1, 2
PROBE = record_about(["show"], b"probe")
"""The text of the first record, which has no reference: its line says that the map was read."""
SECONDS_LONG = 1.0
"""A request takes long if a process has worked at it for so many seconds."""
MOST_TRIES = 2
"""A request that a process ended at is asked once more."""
SECONDS_SILENT = 2.0
"""A process that has closed its input or output ends within that."""


class Answer(NamedTuple):
    """What the program answers."""

    json: bytes
    """The answer, `null` where there is a fault."""
    fault: str | None
    version: Version
    """That of the map."""

    def or_fault(self) -> "Answer":
        """It, if there is one. Raises `Fault`."""
        if self.fault is not None:
            raise Fault(self.fault)
        return self


class Request:
    """The text of a record that waits for its answer, which is cancelled where nobody waits for it any more."""

    __slots__ = ("text", "client", "since", "is_in_stream", "answer", "tries", "process")

    def __init__(self, text: bytes, client: str, since: float, is_in_stream: bool = False) -> None:
        """`client` is the address of whoever waits, and `since` the moment since when. In a stream it waits for those before too."""
        self.text, self.client, self.since, self.is_in_stream = text, client, since, is_in_stream
        self.answer: asyncio.Future[Answer] = asyncio.get_running_loop().create_future()
        self.tries = 0
        """How many processes ended while they worked at it."""
        self.process: Process | None = None
        """The one that is to answer it: None while it waits for one."""

    def is_late(self, begin: float) -> bool:
        """Whether it has waited since before a moment, or nobody waits any more."""
        return self.answer.done() or self.since < begin and not self.is_in_stream

    def give(self, answer: Answer) -> None:
        """Gives the answer to whoever waits for it."""
        if not self.answer.done():
            self.answer.set_result(answer)

    def refuse(self, error: Exception) -> None:
        """Gives an error in place of an answer."""
        if not self.answer.done():
            self.answer.set_exception(error)

    def failed(self, error: Exception) -> None:
        """A process ended while it worked at it: at the second one the error is the answer."""
        self.tries += 1
        if self.tries == MOST_TRIES:
            self.refuse(error)


class Process(asyncio.SubprocessProtocol):
    """A process. Its records are answered in their order; each has its number as its key, and its line has to have the same one."""

    def __init__(self, edition: Edition, owner: "Pool") -> None:
        """It is started by `start`. The owner hears when it has given an answer, and when it has ended or couldn't be started: what it left
        is in its `requests`."""
        self.edition = edition
        self.requests: deque[Request] = deque()
        """Those without an answer. The process works at the first one, and may have some that another process is to answer by now."""
        self.is_ready = False
        """Whether it has read the map."""
        self.is_retiring = False
        """Whether it is asked no more: it ends when it has answered, or is ending."""
        self.working_since = 0.0
        """Since when it works at the first request."""
        self._owner = owner
        self._loop = asyncio.get_running_loop()
        self._version = Version(None, None)
        self._map_is_read: asyncio.Future[None] = self._loop.create_future()
        self._ended: asyncio.Future[None] = self._loop.create_future()
        self._transport: asyncio.SubprocessTransport | None = None
        self._input: asyncio.WriteTransport | None = None
        self._exchange = Exchange(edition.program, MOST_ANSWER)
        self._said = b""
        self._error: ToolError | None = None

    async def start(self) -> None:
        """Starts it, and waits until it has read the map. Raises `MapRefused` if the files aren't those of the edition or `olr` refuses
        them, `ProgramNotFound`, `ProgramEnded`, and `TimedOut`; the owner hears of it too."""
        try:
            await self._start()
        except ToolError as error:
            self.fail(error)
            if self._transport is None:
                self._finish(error)
            await self.ended()
            raise
        self.is_ready = True

    async def _start(self) -> None:
        self._version = await self.edition.found()
        program = self.edition.program
        command = command_of(program, self.edition.words())
        try:
            await self._loop.subprocess_exec(
                lambda: self, *command, stdin=PIPE, stdout=PIPE, stderr=PIPE, start_new_session=True
            )
        except OSError as error:
            raise not_started(program, error.strerror) from error
        if self._error is not None:
            raise self._error
        self._write(PROBE)
        try:
            async with asyncio.timeout(SECONDS_TO_READ):
                await asyncio.shield(self._map_is_read)
        except TimeoutError as error:
            raise TimedOut(f"olr didn't read the map in {SECONDS_TO_READ:g} seconds") from error
        await self.edition.keep(self._version)
        if self._error is not None:
            raise self._error

    def own(self) -> list[Request]:
        """Those of its requests that no other process is to answer."""
        return [one for one in self.requests if one.process is self]

    def takes_more(self) -> bool:
        """Whether it is to be asked more: nothing waits behind what takes long."""
        if not self.is_ready or self.is_retiring or len(self.requests) >= ABREAST:
            return False
        return not self.works_for(SECONDS_LONG)

    def works_for(self, seconds: float) -> bool:
        """Whether it has worked at its first request for so long."""
        return bool(self.requests) and self.working_since < self._owner.clock() - seconds

    def ask(self, request: Request) -> None:
        """Hands over a request, which it may have already. It doesn't wait."""
        request.process = self
        if request not in self.requests:
            if not self.requests:
                self.working_since = self._owner.clock()
            self.requests.append(request)
            self._write(request.text)

    def _write(self, text: bytes) -> None:
        """Writes the text of a record."""
        record = self._exchange.ask([text])
        if self._input is not None and not self._input.is_closing():
            self._input.write(record)

    def fail(self, error: ToolError) -> None:
        """Ends the process for an error, which is that of whatever it leaves."""
        if self._error is None:
            self._error = error
        self.is_retiring = True
        self._kill()

    def end(self) -> None:
        """Ends the process, which is no longer needed."""
        self.fail(ProgramEnded("the process is no longer needed"))

    def _kill(self) -> None:
        """Kills it, if it runs."""
        if self._transport is not None and self._transport.get_returncode() is None:
            kill_group_of(self._transport.get_pid())

    async def ended(self) -> None:
        """Waits until it has ended."""
        await asyncio.shield(self._ended)

    def connection_made(self, transport: asyncio.BaseTransport) -> None:
        """The process runs."""
        self._transport = cast(asyncio.SubprocessTransport, transport)
        self._input = cast(asyncio.WriteTransport, self._transport.get_pipe_transport(0))
        if self._error is not None:
            self._kill()

    def pipe_data_received(self, fd: int, data: bytes) -> None:
        """It wrote something: lines of answers, or on standard error."""
        if fd != STDOUT:
            self._said = (self._said + data)[:MOST_SAID]
            return
        if self._error is not None:
            return
        try:
            for line in self._exchange.receive(data):
                if self._error is None:
                    self._take(line)
        except ProgramEnded as error:
            if isinstance(error, (AnswerTooLarge, UnknownWords)) and self.requests:
                self.requests[0].refuse(error)
            self.fail(error)

    def _take(self, line: RawLine) -> None:
        """Gives a line to the request that is its turn."""
        if line.record == 1:
            self._map_is_read.set_result(None)
            return
        self.requests.popleft().give(Answer(line.answer, line.fault, self._version))
        self.working_since = self._owner.clock()
        self._owner.became_free(self)

    def pipe_connection_lost(self, fd: int, exc: Exception | None) -> None:
        """It closed a pipe: soon it has ended. What it is still asked is left."""
        if fd != STDERR:
            self.is_retiring = True
            self._loop.call_later(SECONDS_SILENT, self._kill)

    def connection_lost(self, exc: Exception | None) -> None:
        """It has ended, and all that it wrote was read."""
        assert self._transport is not None
        status = self._transport.get_returncode()
        self._finish(self._error or self._exchange.why_ended(status or 0, self._said))

    def _finish(self, error: ToolError) -> None:
        """Tells whoever waits for it that it has ended."""
        self._error = error
        if not self._map_is_read.done():
            self._map_is_read.set_exception(error)
            self._map_is_read.exception()
        if not self._ended.done():
            self._ended.set_result(None)
            self._owner.has_ended(self, error)
