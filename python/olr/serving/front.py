"""What stands before the addresses: who may ask, how many at once, and what is counted and logged."""

import random
import re
import time
from asyncio import CancelledError, Future, Task, current_task
from collections.abc import Mapping, Sequence
from starlette.responses import Response
from starlette.types import ASGIApp, Message, Receive, Scope, Send
from typing import cast

from olr.serving.accepting import depending_on
from olr.serving.allowed import Allowed, fields_of, require_allowed
from olr.serving.loads import Loads
from olr.serving.logs import note_request
from olr.serving.meters import OTHER, Meters
from olr.serving.peers import client_of
from olr.serving.problems import Problem
from olr.serving.waiting import CLIENT

REQUEST_ID = re.compile(rb"[A-Za-z0-9._:+/=@-]{1,64}")
"""What names a request: a UUID and what else is usual. It goes into the log."""
PREFLIGHT = {
    "Access-Control-Allow-Methods": "GET, POST",
    "Access-Control-Allow-Headers": "Content-Type, If-None-Match, X-Request-Id",
    "Access-Control-Max-Age": "600",
}
"""What a browser may send that asks for a page of an allowed site, and how many seconds it may keep that."""
OF_BODIES = {b"content-length", b"transfer-encoding"}
"""Fields of a head before a body."""
ALWAYS = frozenset({"/health", "/metrics", "/ready"})
"""Addresses that answer however much is asked: by them it is seen how the server is."""
Fields = Mapping[bytes, bytes]
LEFT = 499
"""The status of a request whose client left before its answer began, as nginx counts it."""
EXPOSED = (b"access-control-expose-headers", b"ETag, Retry-After, X-Request-Id")
"""What such a page may read of an answer, besides what all may."""


class Front:
    """An application before another one."""

    def __init__(
        self, app: ASGIApp, addresses: Sequence[str], allowed: Allowed, meters: Meters
    ) -> None:
        """`addresses` are those of the other one: requests to them are counted by their names."""
        self._app, self._allowed, self._meters = app, allowed, meters
        self._addresses = frozenset(addresses)
        self._loads = Loads()

    async def __call__(self, scope: Scope, receive: Receive, send: Send) -> None:
        """Answers a request."""
        begin = time.perf_counter()
        scope["request_id"] = request_id = request_id_of(scope)
        scope["path"] = path_below(scope.get("root_path", ""), scope["path"])
        fields = fields_of(scope)
        origin = fields.get(b"origin")
        is_of_other = origin in self._allowed.others
        status = 0

        async def sending(message: Message) -> None:
            nonlocal status
            if message["type"] == "http.response.start":
                status = status or message["status"]
                headers = [*message.get("headers", ()), (b"x-request-id", request_id.encode())]
                if self._allowed.others:
                    headers = depending_on(headers, b"Origin")
                if is_of_other:
                    headers += [(b"access-control-allow-origin", origin), EXPOSED]
                message["headers"] = headers
            await send(message)

        CLIENT.set(client_of(scope))
        left, task, is_cancelled = scope["left"], cast(Task[None], current_task()), False

        def cancel(_: Future[None]) -> None:
            nonlocal is_cancelled
            is_cancelled = task.cancel()

        left.add_done_callback(cancel)
        try:
            await self._answer(scope, fields, receive, sending)
        except CancelledError:
            if not is_cancelled or task.uncancel() > 0:
                raise
        finally:
            left.remove_done_callback(cancel)
            status = status or scope.get("status", LEFT)
            self._note(scope, status, time.perf_counter() - begin)

    async def _answer(self, scope: Scope, fields: Fields, receive: Receive, send: Send) -> None:
        """Answers a request, if its client may ask, and hasn't asked for too much."""
        try:
            require_allowed(scope, fields, self._allowed)
            app, asked = self._app, b"access-control-request-method" in fields
            is_of_other = fields.get(b"origin") in self._allowed.others
            if is_of_other and asked and scope["method"] == "OPTIONS":
                app = Response(None, 204, PREFLIGHT)
            if scope["path"] in ALWAYS:
                await app(scope, receive, send)
                return
            has_body = scope["method"] == "POST" and not fields.keys().isdisjoint(OF_BODIES)
            load = self._loads.taken(CLIENT.get(), has_body)
            try:
                await app(scope, load.receiving(receive) if has_body else receive, send)
            finally:
                load.give_back()
        except Problem as problem:
            await problem.response(scope)(scope, receive, send)

    def _note(self, scope: Scope, status: int, seconds: float) -> None:
        """Counts a request, and logs it if that is asked for. What it asked for isn't logged."""
        address = scope["path"] if scope["path"] in self._addresses else OTHER
        self._meters.count(address, status, seconds)
        alike = CLIENT.get(), scope["method"], address, status
        note_request(alike, seconds, scope["request_id"])

    def refused(self, client: str, problem: Problem, seconds: float) -> None:
        """Counts and logs a request that was refused before its head was read."""
        self._meters.count(OTHER, problem.status, seconds)
        note_request((client, "-", OTHER, problem.status), seconds, "-")


def request_id_of(scope: Scope) -> str:
    """The name of a request: the one that its head gives it, if that is one short word, else a new one."""
    given = [value for name, value in scope["headers"] if name == b"x-request-id"]
    if len(given) == 1 and REQUEST_ID.fullmatch(given[0]):
        return str(given[0].decode())
    return f"{random.getrandbits(64):016x}"


def path_below(root_path: str, path: str) -> str:
    """The path of an address, below the one with which all of them begin, as a server in front may pass it on, or may not. Of slashes
    at a beginning one counts: the URL that is printed ends in one."""
    whole = _with_one_slash(path)
    is_within = root_path and whole.startswith(f"{root_path}/")
    return _with_one_slash(whole.removeprefix(root_path)) if is_within else whole


def _with_one_slash(path: str) -> str:
    """A path without the slashes before the last one of its beginning."""
    return f"/{path.lstrip('/')}" if path.startswith("//") else path
