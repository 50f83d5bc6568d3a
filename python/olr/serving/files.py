"""Answers that are in files: a client takes them in pieces, however slowly, and nothing else is held for it."""

import asyncio
import logging
import os
from collections.abc import Sequence
from contextlib import ExitStack
from starlette.responses import Response
from starlette.types import ASGIApp, Receive, Scope, Send
from tempfile import TemporaryFile
from typing import IO

from olr.serving.accepting import Field
from olr.serving.limits import MIB
from olr.serving.peers import Shares, client_of
from olr.serving.problems import Problem, busy

LENGTH = b"content-length"
PIECE = 65_536
"""Bytes that are sent at once."""
LARGE = MIB
"""Bytes above which an answer is put into a file: in memory those that clients don't take would add up."""
log = logging.getLogger("olr.serving")


def answer_of(response: Response, taken: Shares) -> ASGIApp:
    """An answer, whose body is put into a file if it is large. Raises `Problem` if it can't be."""
    if len(response.body) <= LARGE:
        return response
    try:
        with ExitStack() as files:
            file = files.enter_context(TemporaryFile())
            file.write(response.body)
            file.flush()
            files.pop_all()
    except OSError as error:
        raise not_kept(error) from error
    return FileAnswer(file, [one for one in response.raw_headers if one[0] != LENGTH], taken)


def typed(media_type: str) -> Field:
    """The field that says of which type an answer is."""
    return b"content-type", media_type.encode()


def not_kept(error: OSError) -> Problem:
    """The problem of an answer that can't be put into a file."""
    log.warning("an answer can't be made or kept: %s", error)
    return busy("the answer can't be kept")


class FileAnswer:
    """An answer that is all of a file, which is closed then."""

    def __init__(self, file: IO[bytes], fields: Sequence[Field], taken: Shares) -> None:
        """`fields` are those of its head without its length, and `taken` counts those of several pieces that clients take."""
        self._file, self._fields, self._taken = file, fields, taken

    async def __call__(self, scope: Scope, receive: Receive, send: Send) -> None:
        """Answers a request. Raises `Problem` where too many are taken."""
        client = client_of(scope)
        with self._file:
            size = os.fstat(self._file.fileno()).st_size
            if size <= PIECE:
                return await self._answer(send, size)
            self._taken.take(client)
            try:
                await self._answer(send, size)
            finally:
                self._taken.give_back(client)

    async def _answer(self, send: Send, size: int) -> None:
        fields = [(LENGTH, b"%d" % size), *self._fields]
        await send({"type": "http.response.start", "status": 200, "headers": fields})
        for begin in range(0, size, PIECE):
            body, has_more = os.pread(self._file.fileno(), PIECE, begin), begin + PIECE < size
            await send({"type": "http.response.body", "body": body, "more_body": has_more})
            # A client that takes all at once leaves nothing to wait for.
            await asyncio.sleep(0)
