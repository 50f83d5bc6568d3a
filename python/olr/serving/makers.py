"""Asks a maker, a process of the server's own, for what is made of answers: GeoJSON, scenes and rows. So the server waits for none of that, and
its memory has none of it. `tasks.py` says how it is asked.
"""

import asyncio
import errno
import logging
import os
import pickle
import socket
from asyncio.subprocess import DEVNULL, Process
from contextlib import ExitStack, suppress
from tempfile import TemporaryFile
from typing import IO, NamedTuple

from olr.asking.starting import kill_group_of
from olr.confidence.confidence import Confidence
from olr.errors import ProgramEnded
from olr.serving.files import not_kept
from olr.serving.limits import MIB, MOST_MADE, Limits
from olr.serving.problems import Problem
from olr.serving.rooms import Room
from olr.serving.runs import python_command
from olr.serving.tasks import MOST_MESSAGE, MapVersion, Task

log = logging.getLogger("olr.serving")
SECONDS_WAITING = 2.0
"""A process that the maker forked waits for so long for something else to make."""
MOST_KEPT = MIB
"""Bytes of an answer behind which it doesn't wait: the memory that it took goes back."""


class Makers:
    """The maker, which is started when it is first needed, and those of its processes that wait for something to make."""

    def __init__(self, limits: Limits, confidence: Confidence | None = None) -> None:
        """`confidence` is that of all maps: None for that of the package."""
        self.confidence = confidence or Confidence.default()
        self._room = Room(limits.time)
        self._maker: "_Maker | None" = None
        self._starting = asyncio.Lock()
        self._idle: "list[_Forked]" = []

    async def made(self, map: MapVersion, task: Task) -> IO[bytes]:
        """A file with the answer to a task. Where this is cancelled its process ends. Raises `ToolError`: `MapRefused` if the files of the map
        are of another version, and `ProgramEnded` if the process ended before; and `Problem`: as `Room.place`, and where an answer is too
        large, or can't be kept."""
        async with self._room.place():
            try:
                with ExitStack() as files:
                    file = files.enter_context(TemporaryFile())
                    pickle.dump(task, file)
                    file.flush()
                    await self._make(map, file)
                    file.seek(0)
                    files.pop_all()
                return file
            except MemoryError as error:
                text = "making the answer takes too much memory: ask for fewer matchings or places"
                raise Problem(422, "AnswerTooLarge", text) from error
            except OSError as error:
                if error.errno == errno.EFBIG:
                    text = f"the answer has more than {MOST_MADE:,} bytes: ask for fewer matchings or places"
                    raise Problem(422, "AnswerTooLarge", text) from error
                raise not_kept(error) from error

    async def close(self) -> None:
        """Ends all processes."""
        for one in self._idle:
            one.waiting.cancel()
            one.close()
        if self._maker is not None:
            self._maker.kill()
            await self._maker.ended()

    async def _make(self, map: MapVersion, file: IO[bytes]) -> None:
        """Puts the answer to the task of a file in its place. Raises as `made`, and `OSError` and `MemoryError`."""
        forked = self._idle_of(map)
        if forked is None or not forked.ask(file):
            forked = await self._new(map)
            if not forked.ask(file):
                raise _ended()
        try:
            await forked.ended()
        except BaseException:
            forked.close()
            raise
        if os.fstat(file.fileno()).st_size > MOST_KEPT:
            forked.close()
        else:
            self._keep(forked)

    def _keep(self, forked: "_Forked") -> None:
        """Lets a process wait for something else to make."""

        def end() -> None:
            self._idle.remove(forked)
            forked.close()

        self._idle.append(forked)
        forked.waiting = asyncio.get_running_loop().call_later(SECONDS_WAITING, end)

    def _idle_of(self, map: MapVersion) -> "_Forked | None":
        """A process of a version of a map that waits. Those of other versions of it end."""
        for one in [one for one in self._idle if one.map.files == map.files]:
            self._idle.remove(one)
            one.waiting.cancel()
            if one.map == map:
                return one
            one.close()
        return None

    async def _new(self, map: MapVersion) -> "_Forked":
        """A new process for a version of a map. Raises `OSError`."""
        ours, theirs = _sockets()
        try:
            with theirs:
                await self._send(pickle.dumps(map), theirs)
        except BaseException:
            ours.close()
            raise
        return _Forked(map, ours)

    async def _send(self, message: bytes, theirs: socket.socket) -> None:
        """Sends a message to the maker, which is started if it isn't there. Raises `OSError`."""
        async with self._starting:
            if self._maker is not None:
                try:
                    return self._maker.send(message, theirs)
                except ConnectionError:
                    # Who waits for its end may leave.
                    ended, self._maker = self._maker, None
                    text = "what makes GeoJSON and scenes ended with the status %d, and is started anew"
                    log.warning(text, await ended.ended())
            self._maker = await _Maker.started()
            self._maker.send(message, theirs)


class _Maker(NamedTuple):
    """The process."""

    process: Process
    control: socket.socket

    @classmethod
    async def started(cls) -> "_Maker":
        """A new one. Raises `OSError`."""
        ours, theirs = _sockets()
        with theirs:
            process = await asyncio.create_subprocess_exec(
                *python_command("olr.serving.maker"),
                stdin=theirs.fileno(),
                stdout=DEVNULL,
                start_new_session=True,
            )
        return cls(process, ours)

    def send(self, message: bytes, theirs: socket.socket) -> None:
        """Sends a message with a socket. Raises `OSError`."""
        socket.send_fds(self.control, [message], [theirs.fileno()])

    def kill(self) -> None:
        """Kills it, if it runs."""
        if self.process.returncode is None:
            kill_group_of(self.process.pid)

    async def ended(self) -> int:
        """Its status, once it has ended."""
        self.control.close()
        return await self.process.wait()


class _Forked:
    """A process that the maker forked."""

    waiting: asyncio.TimerHandle
    """When it ends, if nothing comes."""

    def __init__(self, map: MapVersion, asked: socket.socket) -> None:
        self.map, self._asked = map, asked

    def ask(self, file: IO[bytes]) -> bool:
        """Asks for the answer to the task of a file. Answers whether the process is still there."""
        try:
            socket.send_fds(self._asked, [b"."], [file.fileno()])
        except ConnectionError:
            self.close()
            return False
        return True

    async def ended(self) -> None:
        """Waits for the answer. Raises the error for which there is none, and `ProgramEnded`."""
        said = b""
        with suppress(ConnectionError):
            said = await asyncio.get_running_loop().sock_recv(self._asked, MOST_MESSAGE)
        if not said:
            raise _ended()
        error = pickle.loads(said)
        if error is not None:
            raise error

    def close(self) -> None:
        """Ends it."""
        self._asked.close()


def _ended() -> ProgramEnded:
    """The error of an answer whose process has ended."""
    return ProgramEnded("a process that makes GeoJSON and scenes ended")


def _sockets() -> tuple[socket.socket, socket.socket]:
    """Two ends, of which the first one is the server's."""
    ours, theirs = socket.socketpair(socket.AF_UNIX, socket.SOCK_SEQPACKET)
    ours.setblocking(False)
    return ours, theirs
