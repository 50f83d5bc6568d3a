"""Which address of `olr-tools serve` answers, and what becomes of errors."""

import asyncio
import json
import pytest
from collections.abc import Sequence
from starlette.requests import Request
from starlette.responses import Response
from starlette.routing import Route
from starlette.types import Message, Receive, Scope, Send
from typing import cast

from fake_pool import run_within
from olr.errors import TimedOut, ToolError
from olr.serving.allowed import allowed_for
from olr.serving.front import Front
from olr.serving.meters import Meters
from olr.serving.problems import Problem, bad_request, of_error
from olr.serving.routing import Addresses


class Begun:
    """An address at which something goes wrong when the answer has begun."""

    async def __call__(self, _: Scope, __: Receive, send: Send) -> None:
        await send({"type": "http.response.start", "status": 200, "headers": []})
        raise KeyError


class Counts:
    """Counts requests."""

    def __init__(self) -> None:
        self.counted: list[tuple[str, int]] = []

    def count(self, address: str, status: int, _: float) -> None:
        """One more."""
        self.counted.append((address, status))


async def answer(request: Request) -> Response:
    """Answers, or raises what the query names."""
    errors = {
        b"problem": bad_request("x"),
        b"late": TimedOut("/secret", None),
        b"defect": KeyError(),
    }
    query = request.scope["query_string"]
    if query:
        raise errors[query]
    return Response(b"ok")


def problem_of(error: Problem | ToolError) -> Problem:
    """The problem of an error."""
    return error if isinstance(error, Problem) else of_error(error)


APP = Addresses([Route("/a", answer), Route("/b", answer, methods=["POST"])], problem_of)


def scope_of(method: str, path: str, query: bytes = b"") -> Scope:
    """A request."""
    return {"type": "http", "method": method, "path": path, "query_string": query, "headers": []}


def answered(scope: Scope, sent: list[Message]) -> None:
    """Answers a request, and keeps what is sent."""

    async def receive() -> Message:
        raise AssertionError

    async def send(message: Message) -> None:
        sent.append(message)

    run_within(APP(scope, receive, send))


def title_of(sent: Sequence[Message]) -> str:
    """The title of a problem document."""
    return str(json.loads(sent[1]["body"])["title"])


@pytest.mark.parametrize(
    "method, path, status",
    [
        ("GET", "/a", 200),
        ("HEAD", "/a", 200),
        ("POST", "/a", 405),
        ("POST", "/b", 200),
        ("GET", "/b", 405),
        ("GET", "/a/", 404),
        ("GET", "/a\n", 404),
        ("GET", "/c", 404),
    ],
)
def test_addresses(method: str, path: str, status: int) -> None:
    """Each has its methods, which an answer to another one names."""
    sent: list[Message] = []
    answered(scope_of(method, path), sent)
    assert sent[0]["status"] == status
    allowed = dict(sent[0]["headers"]).get(b"allow")
    assert allowed == ((b"GET, HEAD" if path == "/a" else b"POST") if status == 405 else None)


@pytest.mark.parametrize(
    "query, status, title", [(b"problem", 400, "BadRequest"), (b"late", 504, "TimedOut")]
)
def test_errors(query: bytes, status: int, title: str) -> None:
    sent: list[Message] = []
    answered(scope_of("GET", "/a", query), sent)
    assert (sent[0]["status"], title_of(sent)) == (status, title)


def test_defects() -> None:
    """They are answered, and raised for the log."""
    sent: list[Message] = []
    with pytest.raises(KeyError):
        answered(scope_of("GET", "/a", b"defect"), sent)
    assert (sent[0]["status"], title_of(sent)) == (500, "InternalServerError")


def test_defects_of_answers_that_have_begun() -> None:
    """The connection takes no second head, and the first one is counted."""
    counts, heads = Counts(), list[Message]()

    async def receive() -> Message:
        raise AssertionError

    async def send(message: Message) -> None:
        if heads:
            raise RuntimeError("an answer has begun")
        heads.append(message)

    async def run() -> None:
        allowed = allowed_for("127.0.0.1", 80, [], [])
        front = Front(
            Addresses([Route("/a", Begun())], problem_of), ["/a"], allowed, cast(Meters, counts)
        )
        scope = scope_of("GET", "/a") | {"headers": [(b"host", b"127.0.0.1")]}
        scope["left"] = asyncio.get_running_loop().create_future()
        with pytest.raises(RuntimeError):
            await front(scope, receive, send)

    run_within(run())
    assert counts.counted == [("/a", 200)]
