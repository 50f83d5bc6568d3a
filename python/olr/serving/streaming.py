"""`POST /batch/{command}` and `POST /rows`: lines about the records of a body, while it comes.

What the client doesn't take isn't asked for: the server then reads no more of the body, and holds the answers to the records that were asked
at once.
"""

import asyncio
import logging
from collections.abc import AsyncGenerator, AsyncIterator, Callable, Mapping, Sequence
from contextlib import aclosing
from functools import partial
from starlette.requests import Request
from starlette.types import ASGIApp, Receive, Scope, Send

from olr.asking.exchange import Asked
from olr.asking.records import Record
from olr.errors import ToolError
from olr.model.questions import What
from olr.serving.bodies import Body, Gone, Records, too_large
from olr.serving.limits import Limits
from olr.serving.peers import client_of
from olr.serving.problems import Problem, of_error
from olr.serving.queries import asked_of, options_of

log = logging.getLogger("olr.serving")
TAKEN = (
    "text/plain",
    "text/tab-separated-values",
    "application/x-ndjson",
    "application/octet-stream",
)
"""Types of bodies. A form of a page can send the first of them too: `front.py` refuses what other sites' pages send."""
MEDIA_TYPE = "application/x-ndjson"
HEADERS = {"Content-Type": MEDIA_TYPE}
Lines = Callable[[Asked, Records], AsyncGenerator[bytes, None]]
"""Makes lines about the records of a body, in pieces."""


class Streaming:
    """An address whose answer is lines."""

    def __init__(
        self,
        limits: Limits,
        what: What,
        lines: Lines,
        headers: Mapping[str, str] = HEADERS,
        numbers_alone: bool = False,
    ) -> None:
        """Its options are those of the question `what`, or those of them that are numbers."""
        self._limits, self._what, self._lines, self._headers = limits, what, lines, headers
        self._numbers_alone = numbers_alone

    async def __call__(self, scope: Scope, receive: Receive, send: Send) -> None:
        """Answers a request. Raises `ToolError` and `Problem` before it has begun to; later it closes the connection."""
        request = Request(scope)
        options = options_of(scope["query_string"])
        asked = asked_of(self._what, options, self._limits.look, self._numbers_alone)
        _require_type(request)
        self._require_length(request)
        await self._answer(asked, None, scope, receive, send)

    def about(self, asked: Asked, records: Sequence[Record]) -> ASGIApp:
        """What answers a request about known records, whose options are known."""
        return partial(self._answer, asked, records)

    async def _answer(
        self,
        asked: Asked,
        known: Sequence[Record] | None,
        scope: Scope,
        receive: Receive,
        send: Send,
    ) -> None:
        """Answers a request about known records, or about those of its body. Raises as a call does."""
        sent = _Sent(send, self._headers)
        try:
            async with asyncio.timeout(self._limits.time) as deadline:

                def moved() -> None:
                    deadline.reschedule(asyncio.get_running_loop().time() + self._limits.time)

                body = Body(receive, self._limits.body, moved)
                if known is None:
                    scope["pace"].is_paused = body.is_between_records
                records = body.records() if known is None else _those(known)
                async with aclosing(self._lines(asked, records)) as lines:
                    async for piece in lines:
                        await sent.put(piece)
                        moved()
                await sent.end()
        except Gone:
            return
        except TimeoutError:
            text = f"nothing moved for {self._limits.time:g} seconds"
            await sent.stop(Problem(504, "TimedOut", text), scope, receive)
        except ToolError as error:
            await sent.stop(of_error(error), scope, receive)
        except Problem as problem:
            await sent.stop(problem, scope, receive)

    def _require_length(self, request: Request) -> None:
        """Raises `Problem` for a body that says that it is too long."""
        length = request.headers.get("content-length", "0")
        if length.isdecimal() and int(length) > self._limits.body:
            raise too_large(self._limits.body)


async def _those(records: Sequence[Record]) -> AsyncIterator[Sequence[Record]]:
    """Records that are known, as a body has them."""
    yield records


class _Sent:
    """An answer that is sent in pieces."""

    def __init__(self, send: Send, headers: Mapping[str, str]) -> None:
        self._send, self._headers = send, headers
        self._has_begun = False

    async def put(self, piece: bytes) -> None:
        """Sends a piece, and waits while the client doesn't take it."""
        await self._begin()
        await self._send({"type": "http.response.body", "body": piece, "more_body": True})

    async def end(self) -> None:
        """Sends the end."""
        await self._begin()
        await self._send({"type": "http.response.body", "body": b""})

    async def _begin(self) -> None:
        if not self._has_begun:
            self._has_begun = True
            headers = [(name.lower().encode(), it.encode()) for name, it in self._headers.items()]
            await self._send({"type": "http.response.start", "status": 200, "headers": headers})

    async def stop(self, problem: Problem, scope: Scope, receive: Receive) -> None:
        """Says why there is no answer; or, where it has begun, closes the connection without an end, by which the client sees it."""
        if self._has_begun:
            client = client_of(scope)
            cause = "stream", client, problem.title
            text = "%s: a stream was cut off: %s: %s"
            log.warning(text, client, problem.title, problem.detail, extra={"cause": cause})
            scope["abort"]()
            await receive()
            return
        self._has_begun = True
        problem.headers["Connection"] = "close"
        await problem.response(scope)(scope, receive, self._send)


def _require_type(request: Request) -> None:
    """Raises `Problem` for a body of another type."""
    given = request.headers.get("content-type", "").partition(";")[0].strip().lower()
    if given not in TAKEN:
        text = f"the type of the body is one of {', '.join(TAKEN)}"
        raise Problem(415, "UnsupportedMediaType", text)
