"""`POST /messages`: what a list of messages has in it, read as `olr-tools match` reads a file."""

import asyncio
import json
import logging
from asyncio.subprocess import PIPE
from collections.abc import AsyncIterator
from contextlib import asynccontextmanager
from starlette.requests import ClientDisconnect, Request
from starlette.responses import Response
from tempfile import SpooledTemporaryFile
from typing import IO

from olr.asking.exchange import AnswerTooLarge
from olr.asking.starting import kill_group_of
from olr.messages.message import BASE64, FORMATS, TABLES, Reading
from olr.serving.limits import MIB, MOST_ANSWER, MOST_SAID, Limits
from olr.serving.peers import Shares, client_of
from olr.serving.problems import Problem, bad_request, busy
from olr.serving.queries import Options, options_of
from olr.serving.rooms import Room
from olr.serving.runs import python_command

MEDIA_TYPE = "application/x-ndjson"
MOST_BYTES = 16 * MIB
"""Of a list."""
MOST_COMING = 32
"""Lists that are there or come, half a GiB in files."""
IN_MEMORY = 65_536
"""Bytes of a list that needs no file while it comes."""
ABREAST = 2
"""Lists that are read at once."""
LARGE = MIB
"""Of longer ones one is read at a time."""
FORMATS_OF_LISTS = [name for name in FORMATS if name not in TABLES]
OPTIONS = ("format", "ref", "key", "base64")
"""Of the address."""
log = logging.getLogger("olr.serving")


def most_bytes(limits: Limits) -> int:
    """The most that a list may have."""
    return min(MOST_BYTES, limits.body)


class Lists:
    """Reads lists, each in a process of its own, once all of it is there: one that comes slowly keeps nobody waiting."""

    def __init__(self, limits: Limits) -> None:
        self._limits = limits
        self._coming = Shares(MOST_COMING, "lists that come")
        self._room, self._alone = Room(limits.time, ABREAST), Room(limits.time, 1)

    async def answer(self, request: Request) -> Response:
        """The messages of the body as lines of JSON. Raises `Problem` for a list that is too long, or isn't understood."""
        reading = reading_of(options_of(request.scope["query_string"]))
        late = busy(f"the list wasn't read within {self._limits.time:g} seconds")
        client = client_of(request.scope)
        self._coming.take(client)
        try:
            async with self._received(request) as (file, size):
                room = self._alone if size > LARGE else self._room
                async with room.place():
                    status, text, said = await _read(file, reading, self._limits.time)
        except TimeoutError as error:
            raise late from error
        except OSError as error:
            log.warning("a list can't be kept: %s", error)
            raise busy("the list can't be kept") from error
        except ClientDisconnect:
            return Response(status_code=400)
        finally:
            self._coming.give_back(client)
        if status == 1 and said:
            raise Problem(422, "UnreadableList", said.decode("utf-8", errors="replace"))
        if status != 0:
            raise Problem(503, "ProgramFailed", "the list couldn't be read: ask again")
        return Response(text, media_type=MEDIA_TYPE)

    @asynccontextmanager
    async def _received(self, request: Request) -> AsyncIterator[tuple[IO[bytes], int]]:
        """A file with the body, and its size. Raises `Problem` for one that is too long. How slowly it may come is a matter of its connection."""
        most = most_bytes(self._limits)
        size = 0
        with SpooledTemporaryFile(IN_MEMORY) as file:
            async for piece in request.stream():
                size += len(piece)
                if size > most:
                    text = f"a list has {most:,} bytes at most here: olr-tools match reads any file"
                    raise Problem(413, "BodyTooLarge", text, {"Connection": "close"})
                file.write(piece)
            file.rollover()
            file.seek(0)
            yield file, size


async def _read(file: IO[bytes], reading: Reading, seconds: float) -> tuple[int, bytes, bytes]:
    """The status, the lines and the error of a process that reads a list. It is killed after so many seconds, and where this is cancelled.
    Raises `TimeoutError`, `ProgramNotFound` and `AnswerTooLarge`."""
    process = await asyncio.create_subprocess_exec(
        *python_command("olr.serving.listing", json.dumps(reading)),
        stdin=file.fileno(),
        stdout=PIPE,
        stderr=PIPE,
        start_new_session=True,
    )
    try:
        async with asyncio.timeout(seconds):
            lines = await _all_of(process.stdout, MOST_ANSWER)
            said = await _all_of(process.stderr, MOST_SAID)
            return await process.wait(), lines, said
    finally:
        if process.returncode is None:
            kill_group_of(process.pid)
            await process.wait()


async def _all_of(stream: asyncio.StreamReader | None, most: int) -> bytes:
    """All that comes until the end. Raises `AnswerTooLarge` for more."""
    assert stream is not None
    try:
        await stream.readexactly(most + 1)
    except asyncio.IncompleteReadError as whole:
        return bytes(whole.partial)
    raise AnswerTooLarge(f"the answer has more than {most:,} bytes")


def reading_of(options: Options) -> Reading:
    """What the options of the address say of a list. Raises `Problem`."""
    for name in options:
        if name not in OPTIONS:
            known = ", ".join(OPTIONS)
            raise bad_request(f"{name!r} is no option of this address: it has {known}")
    given = options.get("format")
    format = next((known for known in FORMATS_OF_LISTS if known == given), None)
    if format != given:
        raise bad_request(f"format is one of {', '.join(FORMATS_OF_LISTS)}")
    given = options.get("base64", BASE64[0])
    base64 = next((known for known in BASE64 if known == given), None)
    if base64 is None:
        raise bad_request(f"base64 is one of {', '.join(BASE64)}")
    return Reading(format, options.get("ref"), options.get("key"), base64=base64)
