"""Parts of `olr-tools serve` without a server: queries, who may ask, how many at once, lists, problems and figures."""

import asyncio
import json
import pytest
from collections import Counter
from collections.abc import Awaitable, Callable, Sequence
from typing import Any, cast

from conftest import REFERENCE, TOP
from fake_pool import run_within
from olr.asking.exchange import AnswerTooLarge
from olr.errors import MapRefused, ProgramEnded, ProgramNotFound, TimedOut, ToolError
from olr.model.fault import Fault
from olr.serving.addresses import Service, Shared, application
from olr.serving.allowed import Allowed, allowed_for, fields_of, require_allowed
from olr.serving.edition import Edition
from olr.serving.folder_map import FolderMap
from olr.serving.front import Front
from olr.serving.limits import MOST_BODIES, MOST_REQUESTS, Limits
from olr.serving.makers import Makers
from olr.serving.meters import Meters
from olr.serving.problems import Problem, of_error, of_status
from olr.serving.queries import asked_of, options_of, question_of
from olr.serving.served import Served

ALLOWED = allowed_for("127.0.0.1", 8000, ["olr.example"], ["https://Maps.example"])


def refused(call: Callable[[], object]) -> tuple[int, str, str]:
    """The status, title and detail of the problem that a call raises."""
    with pytest.raises(Problem) as raised:
        call()
    return raised.value.status, raised.value.title, raised.value.detail


@pytest.mark.parametrize(
    "query, options",
    [
        (b"", {}),
        (b"ref=a+b/c=", {"ref": "a+b/c="}),
        (b"ref=%2B%2F&r%C3%A4dius=5", {"ref": "+/", "rädius": "5"}),
        (b"ref", {"ref": ""}),
    ],
)
def test_options_of_a_query(query: bytes, options: dict[str, str]) -> None:
    """A plus sign stands for itself."""
    assert options_of(query) == options


@pytest.mark.parametrize("query", [b"a=1&a=2", b"a=1&%61=2", b"a=%ff", b"%ff=1"])
def test_queries_that_arent_understood(query: bytes) -> None:
    assert refused(lambda: options_of(query))[:2] == (400, "BadRequest")


def test_how_far_is_looked() -> None:
    """By default no farther than the server allows, and no farther if that is asked for."""
    assert asked_of("places", {}, 500).numbers()["look"] == 500
    assert asked_of("places", {}, 5000).numbers()["look"] == 1000
    assert asked_of("places", {"look": "500"}, 500).numbers()["look"] == 500
    said = refused(lambda: asked_of("places", {"look": "501"}, 500))
    assert said[0] == 400 and said[2] == "look is 500 at most on this server"


@pytest.mark.parametrize("value", ["", "0", "1001", "+5", " 5", "5.0", "٣", "0x5", "00000005"])
def test_numbers_that_arent_in_their_range(value: str) -> None:
    """A number has seven digits at most."""
    said = refused(lambda: asked_of("match", {"radius": value}, 500))
    assert said == (400, "BadRequest", "radius is a whole number of metres from 1 to 1000")


def test_numbers_by_profile() -> None:
    """Those that are given win."""
    assert asked_of("match", {"profile": "feed"}, 500).numbers()["radius"] == 75
    assert asked_of("match", {"profile": "feed", "radius": "9"}, 500).numbers()["radius"] == 9
    assert asked_of("match", {"radius": "0000009"}, 500) == asked_of("match", {"radius": "9"}, 500)


def test_cursors() -> None:
    """Of `match` alone."""
    question = question_of("match", {"ref": f" {REFERENCE}\n", "after": "0:1"}, 500)
    assert (question.text, question.after) == (REFERENCE.encode(), "0:1")
    assert refused(lambda: question_of("match", {"ref": "x", "after": "x"}, 500))[1] == "BadCursor"
    assert refused(lambda: question_of("why", {"ref": "x", "after": "0:1"}, 500))[0] == 400
    assert refused(lambda: question_of("match", {}, 500))[2].startswith("ref is missing")


def ask(fields: Sequence[tuple[str, str]], allowed: Allowed = ALLOWED) -> None:
    """Sees whether a request with these fields is allowed."""
    pairs = [(name.lower().encode(), value.encode()) for name, value in fields]
    scope = {"type": "http", "headers": pairs}
    require_allowed(scope, fields_of(scope), allowed)


@pytest.mark.parametrize(
    "fields",
    [
        [("Host", "127.0.0.1:8000")],
        [("Host", "[::1]:8000")],
        [("Host", "LOCALHOST:8000"), ("Origin", "http://localhost:8000")],
        [("Host", "olr.example"), ("Origin", "https://olr.example")],
        [("Host", "olr.example:8000"), ("Origin", "https://maps.example")],
        [("Host", "olr.example"), ("Sec-Fetch-Site", "same-origin")],
        [("Host", "olr.example"), ("Sec-Fetch-Site", "cross-site"), ("Sec-Fetch-Mode", "navigate")],
    ],
)
def test_who_may_ask(fields: list[tuple[str, str]]) -> None:
    ask(fields)


@pytest.mark.parametrize(
    "fields, status",
    [
        ([], 400),
        ([("Host", "olr.example"), ("Host", "olr.example")], 400),
        ([("Host", "127.0.0.1")], 421),
        ([("Host", "127.0.0.1:8001")], 421),
        ([("Host", "evil.example:8000")], 421),
        ([("Host", "olr.example"), ("Origin", "https://evil.example")], 403),
        ([("Host", "olr.example"), ("Origin", "null"), ("Sec-Fetch-Mode", "navigate")], 403),
        ([("Host", "olr.example"), ("Sec-Fetch-Site", "same-site")], 403),
        (
            [("Host", "olr.example"), ("Sec-Fetch-Site", "cross-site"), ("Sec-Fetch-Mode", "cors")],
            403,
        ),
    ],
)
def test_who_may_not_ask(fields: list[tuple[str, str]], status: int) -> None:
    assert refused(lambda: ask(fields))[0] == status


def test_names_at_the_port_of_the_web() -> None:
    """A browser leaves it out."""
    ask([("Host", "localhost")], allowed_for("::", 80, [], []))
    assert refused(lambda: ask([("Host", "localhost")]))[0] == 421


def known() -> Counter[str]:
    """The figures of a map."""
    return Counter(working=1, idle=2, waiting=5, starts=7, time=3)


def figures(meters: Meters) -> dict[str, float]:
    """What a page of figures has."""
    lines = meters.text().decode().splitlines()
    pairs = [line.rpartition(" ") for line in lines if not line.startswith("#")]
    return {name: float(value) for name, _, value in pairs}


def test_figures() -> None:
    """Requests by address and status, faults, times, and processes."""
    meters = Meters(known)
    for status, seconds in ((200, 0.001), (200, 0.3), (422, 40.0)):
        meters.count("/match", status, seconds)
    meters.count_fault("BadLength")
    found = figures(meters)
    assert found['olr_requests_total{address="/match",status="200"}'] == 2
    assert found['olr_requests_total{address="/match",status="422"}'] == 1
    assert found['olr_faults_total{fault="BadLength"}'] == 1
    assert found['olr_request_seconds_bucket{address="/match",le="0.001"}'] == 1
    assert found['olr_request_seconds_bucket{address="/match",le="0.5"}'] == 2
    assert found['olr_request_seconds_bucket{address="/match",le="+Inf"}'] == 3
    assert found['olr_request_seconds_sum{address="/match"}'] == pytest.approx(40.301)
    assert (found["olr_waiting_requests"], found["olr_starts_total"]) == (5, 7)
    assert found['olr_processes{state="idle"}'] == 2 and 'state="waiting"' not in str(found)
    assert found['olr_restarts_total{reason="time"}'] == 3
    assert found['olr_restarts_total{reason="map"}'] == 0


Send = Callable[[Any], Awaitable[None]]


async def status_of(
    front: Front, method: str = "GET", client: str = "", path: str = "/x", **fields: str
) -> Any:
    """The first message of what is answered to a request, whose body never ends."""
    sent: list[Any] = []

    async def send(message: Any) -> None:
        sent.append(message)

    named = [(name.lower().replace("_", "-").encode(), it.encode()) for name, it in fields.items()]
    scope: Any = {"type": "http", "method": method, "path": path, "headers": named}
    scope["client"] = client, 0
    scope["left"] = asyncio.get_running_loop().create_future()

    async def receive() -> Any:
        return {"type": "http.request", "more_body": "Transfer_Encoding" in fields}

    await front(scope, receive, send)
    return sent[0]


def test_how_many_at_once() -> None:
    """A thousand; and as many again when they have ended, also where one fails."""

    async def run() -> None:
        waiting = asyncio.Event()
        answered = 0

        async def app(_: Any, __: Any, send: Send) -> None:
            nonlocal answered
            await waiting.wait()
            answered += 1
            if answered % 2:
                raise ToolError("it failed")
            await send({"type": "http.response.start", "status": 200, "headers": []})

        front = Front(app, ["/x"], ALLOWED, Meters(known))
        for _ in range(2):
            waiting.clear()
            there = [
                asyncio.create_task(status_of(front, client=f"{number % 7}", Host="olr.example"))
                for number in range(MOST_REQUESTS)
            ]
            await asyncio.sleep(0)
            assert (await status_of(front, Host="olr.example"))["status"] == 503
            waiting.set()
            found = await asyncio.gather(*there, return_exceptions=True)
            assert sum(isinstance(one, ToolError) for one in found) == MOST_REQUESTS / 2

    run_within(run())


async def read_whole(_: Any, receive: Any, send: Send) -> None:
    """An application that waits for a whole body, which may never come, and then for ever."""
    while (await receive()).get("more_body"):
        await asyncio.sleep(0)
    await asyncio.Event().wait()


@pytest.mark.parametrize(
    "method, fields",
    [("GET", {}), ("POST", {"Transfer_Encoding": "chunked"}), ("POST", {"Content_Length": "5"})],
)
def test_how_many_of_one_client(method: str, fields: dict[str, str]) -> None:
    """A quarter. Another client is answered, and so is each by the addresses that tell how the server is."""

    async def run() -> None:
        async def app(scope: Any, receive: Any, send: Send) -> None:
            if (scope["client"][0], scope["path"]) == ("slow", "/x"):
                await read_whole(scope, receive, send)
            await send({"type": "http.response.start", "status": 200, "headers": []})

        front = Front(app, ["/x"], ALLOWED, Meters(known))
        there = [
            asyncio.create_task(status_of(front, method, "slow", Host="olr.example", **fields))
            for _ in range(MOST_REQUESTS // 4)
        ]
        await asyncio.sleep(0)
        for client, path, status in (
            ("slow", "/x", 503),
            ("other", "/x", 200),
            ("slow", "/health", 200),
            ("slow", "/metrics", 200),
            ("slow", "/ready", 200),
        ):
            asked = status_of(front, method, client, path, Host="olr.example", **fields)
            assert (await asked)["status"] == status
        for one in there:
            one.cancel()

    run_within(run())


def test_bodies_that_are_waited_for() -> None:
    """They are counted apart until they are there: who has as many as there may be keeps nobody from asking."""

    async def run() -> None:
        is_there = asyncio.Event()

        async def app(scope: Any, receive: Any, send: Send) -> None:
            if scope["method"] == "POST":
                await receive()
                await is_there.wait()
            await send({"type": "http.response.start", "status": 200, "headers": []})

        front = Front(app, ["/x"], ALLOWED, Meters(known))
        body = {"Host": "olr.example", "Transfer_Encoding": "chunked"}
        there = [
            asyncio.create_task(status_of(front, "POST", str(number % 7), **body))
            for number in range(MOST_BODIES)
        ]
        await asyncio.sleep(0)
        assert (await status_of(front, "POST", **body))["status"] == 503
        assert (await status_of(front, Host="olr.example"))["status"] == 200
        is_there.set()
        await asyncio.gather(*there)
        assert (await status_of(front, "POST", **body))["status"] == 200
        is_there.clear()
        body = {"Host": "olr.example", "Content_Length": "5"}
        there = [
            asyncio.create_task(status_of(front, "POST", str(number % 7), **body))
            for number in range(MOST_REQUESTS)
        ]
        await asyncio.sleep(0)
        assert (await status_of(front, Host="olr.example"))["status"] == 503
        is_there.set()
        await asyncio.gather(*there)
        assert (await status_of(front, "POST", **body))["status"] == 200

    run_within(run())


def test_a_client_that_leaves() -> None:
    """What is done for it ends, wherever that is, and the request is counted."""

    async def run() -> None:
        ended: list[str] = []

        async def app(scope: Any, _: Any, __: Any) -> None:
            try:
                scope["left"].set_result(None)
                await asyncio.Event().wait()
            finally:
                ended.append("app")

        meters = Meters(known)
        front = Front(app, ["/x"], ALLOWED, meters)
        with pytest.raises(IndexError):
            await status_of(front, Host="olr.example")
        assert ended and figures(meters)['olr_requests_total{address="/x",status="499"}'] == 1
        await asyncio.sleep(0)

    run_within(run())


def test_pages_of_other_sites_that_may_ask() -> None:
    """The browser asks whether they may, and each answer says so; of own pages nothing is said."""

    async def app(_: Any, __: Any, send: Send) -> None:
        await send({"type": "http.response.start", "status": 200, "headers": []})

    async def run() -> None:
        meters = Meters(known)
        front = Front(app, ["/x"], ALLOWED, meters)
        site = {"Host": "olr.example", "Origin": "https://maps.example"}
        asked = await status_of(front, "OPTIONS", Access_Control_Request_Method="POST", **site)
        assert asked["status"] == 204
        assert (b"access-control-allow-methods", b"GET, POST") in asked["headers"]
        for fields in (site, {"Host": "olr.example", "Origin": "https://olr.example"}):
            named = dict((await status_of(front, **fields))["headers"])
            allowed = named.get(b"access-control-allow-origin")
            assert allowed == (b"https://maps.example" if fields is site else None)
            exposed = named.get(b"access-control-expose-headers", b"")
            assert (b"Retry-After" in exposed) == (fields is site)
            assert named[b"vary"] == b"Origin"
        evil = {"Host": "olr.example", "Origin": "https://evil.example"}
        refused = await status_of(front, **evil)
        assert refused["status"] == 403 and (b"vary", b"Origin") in refused["headers"]
        alone = Front(app, ["/x"], ALLOWED._replace(others=frozenset()), meters)
        assert b"vary" not in dict((await status_of(alone, Host="olr.example"))["headers"])
        assert (await status_of(front, "OPTIONS", **site))["status"] == 200

    run_within(run())


@pytest.mark.parametrize(
    "error, status, title, retries",
    [
        (Fault("BadLength 3"), 422, "BadLength", False),
        (AnswerTooLarge("x"), 422, "AnswerTooLarge", False),
        (MapRefused("/secret"), 503, "MapRefused", False),
        (TimedOut("/secret", None), 504, "TimedOut", False),
        (ProgramEnded("/secret"), 503, "ProgramFailed", True),
        (ProgramNotFound("/secret"), 503, "ProgramFailed", True),
        (ToolError("/secret"), 500, "InternalError", False),
    ],
)
def test_errors_as_problems(error: ToolError, status: int, title: str, retries: bool) -> None:
    """Their own texts are for the log alone."""
    found = of_error(error)
    assert (found.status, found.title) == (status, title)
    assert ("Retry-After" in found.headers) == retries and "secret" not in found.detail
    assert json.loads(found.document())["type"] == f"/docs#{title}"


def test_problems_of_a_status() -> None:
    assert (of_status(404).title, of_status(405, {"Allow": "GET"}).headers) == (
        "NotFound",
        {"Allow": "GET"},
    )


def test_health_while_files_dont_answer(monkeypatch: pytest.MonkeyPatch) -> None:
    """Files aren't looked at for it."""

    async def never(_: Edition) -> None:
        await asyncio.Event().wait()

    monkeypatch.setattr(Edition, "found", never)

    async def run() -> dict[str, Any]:
        served = FolderMap(TOP / "examples", 1, Limits())
        return (await served.health())[1]

    assert run_within(run())["changed"] is False


def test_a_server_that_ends_is_not_ready() -> None:
    """But it lives, also with a map that can't be asked."""

    class Map:
        """A map that says of itself what it is given."""

        def __init__(self, is_able: bool, changed: bool) -> None:
            self._about = is_able, changed

        async def health(self) -> tuple[bool, dict[str, Any]]:
            """Of which nothing else is known."""
            return self._about[0], {"changed": self._about[1], "program": "1"}

    async def run(is_able: bool, changed: bool, is_ending: bool) -> tuple[int, int]:
        served = cast(Served, Map(is_able, changed))
        shared = Shared.of(Limits(), Makers(Limits()))
        service = Service(served, Limits(), Meters(known), shared)
        app = application(service._replace(is_ending=lambda: is_ending))
        front = Front(app, [], ALLOWED, Meters(known))
        health, ready = [
            await status_of(front, path=path, Host="olr.example") for path in ("/health", "/ready")
        ]
        return health["status"], ready["status"]

    assert run_within(run(True, False, False)) == (200, 200)
    for about in ((True, False, True), (True, True, False), (False, False, False)):
        assert run_within(run(*about)) == (200, 503)
