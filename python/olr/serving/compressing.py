"""Answers as gzip, where a client asks for that.

Starlette's middleware holds back lines of a stream until there are many, and packs an answer of 60 MB while nobody else is answered.
"""

import asyncio
import zlib
from functools import lru_cache
from starlette.datastructures import MutableHeaders
from starlette.types import ASGIApp, Message, Receive, Scope, Send

from olr.serving.accepting import MOST_REMEMBERED, depending_on, field_of, weights_of

LEVEL = 1
"""The quickest: answers are numbers and repeated names, which need no more."""
GZIP = 31
"""The format, as zlib calls it."""
LEAST = 1000
"""Bytes of the shortest answer that is packed. A packet of the network has about as many."""
MOST_AT_ONCE = 65_536
"""Bytes that are packed while others wait: it takes a quarter of a millisecond. More are packed in a thread."""
WITHOUT_BODY = (204, 304)


@lru_cache(maxsize=MOST_REMEMBERED)
def is_wanted(accept: str) -> bool:
    """Whether a field Accept-Encoding asks for gzip, and likes it no less than nothing."""
    weights = weights_of(accept)
    gzip = weights.get("gzip", weights.get("*", 0.0))
    return gzip > 0 and gzip >= weights.get("identity", 0.0)


class Compressing:
    """An application whose answers are packed."""

    def __init__(self, app: ASGIApp) -> None:
        self._app = app

    async def __call__(self, scope: Scope, receive: Receive, send: Send) -> None:
        """Answers a request."""
        accept = field_of(scope["headers"], b"accept-encoding")
        await self._app(scope, receive, _Answer(send, is_wanted(accept)).send)


class _Answer:
    """An answer on its way."""

    def __init__(self, send: Send, is_wanted: bool) -> None:
        self._send, self._is_wanted = send, is_wanted
        self._start: Message | None = None
        self._packing: "zlib._Compress | None" = None

    async def send(self, message: Message) -> None:
        """Passes on a message. Where packing is wanted the head waits for the beginning of the body."""
        if message["type"] == "http.response.start":
            message["headers"] = depending_on(message["headers"], b"Accept-Encoding")
            if self._is_wanted:
                self._start = message
                return
        if not self._is_wanted:
            await self._send(message)
            return
        body, has_more = message.get("body", b""), message.get("more_body", False)
        start, self._start = self._start, None
        if start is not None:
            is_long = has_more or len(body) >= LEAST
            if is_long and start["status"] not in WITHOUT_BODY:
                self._packing = zlib.compressobj(LEVEL, zlib.DEFLATED, GZIP)
                body = await _packed(self._packing, body, has_more)
                _note(start, None if has_more else len(body))
            await self._send(start)
        elif self._packing is not None:
            body = await _packed(self._packing, body, has_more)
        await self._send({"type": message["type"], "body": body, "more_body": has_more})


async def _packed(packing: "zlib._Compress", body: bytes, has_more: bool) -> bytes:
    """A piece, of which nothing is held back."""
    mode = zlib.Z_SYNC_FLUSH if has_more else zlib.Z_FINISH

    def pack() -> bytes:
        return packing.compress(body) + packing.flush(mode)

    return pack() if len(body) <= MOST_AT_ONCE else await asyncio.to_thread(pack)


def _note(start: Message, length: int | None) -> None:
    """Says in a head that the answer is packed, and how long it is if that is known. Its tag isn't that of the same bytes any more."""
    headers = MutableHeaders(scope=start)
    headers["Content-Encoding"] = "gzip"
    del headers["Content-Length"]
    if length is not None:
        headers["Content-Length"] = str(length)
    tag = headers.get("etag", "W/")
    if not tag.startswith("W/"):
        headers["ETag"] = f"W/{tag}"
