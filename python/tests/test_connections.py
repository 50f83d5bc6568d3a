"""Connections of `olr-tools serve`, without a network: what is sent ahead, and by a clock that the tests set, what doesn't come."""

import ast
import asyncio
import pytest
import re
from collections.abc import Awaitable, Callable
from httptools import HttpParserUpgrade
from inspect import signature
from pathlib import Path
from typing import Any
from uvicorn.config import Config
from uvicorn.protocols.http.httptools_impl import HttpToolsProtocol
from uvicorn.server import ServerState

from fake_pool import FakeClock, run_within, turns
from olr.serving import connections
from olr.serving.connections import Connection, Connections
from olr.serving.peers import Peers
from olr.serving.problems import Problem
from olr.serving.uvicorn_parts import UvicornConnection

HEAD = b"GET /health HTTP/1.1\r\nHost: localhost\r\n"
POST = b"POST /x HTTP/1.1\r\nHost: localhost\r\nContent-Length: 100000\r\n\r\n"
PATIENCE = 20.0
BEGIN = HttpToolsProtocol.__init__
GIVEN: dict[str, Any] = {"app_state": {}} if "app_state" in signature(BEGIN).parameters else {}
"""What the version of uvicorn that is here gives to a connection besides."""


class FakeTransport:
    """A transport whose client takes all of an answer, or nothing."""

    def __init__(self, peer: str) -> None:
        self.peer = peer
        self.written = b""
        self.is_closed = self.is_aborted = False
        self.unread = 0
        self.state = b"\x01"
        """That of the socket: here no side has closed it."""

    def write(self, data: bytes) -> None:
        """Takes a part of an answer. Raises `RuntimeError` where the connection is closed."""
        if self.is_closed:
            raise RuntimeError("the handler is closed")
        self.written += data

    def close(self) -> None:
        """Closes the connection behind what was written."""
        self.is_closed = True

    def abort(self) -> None:
        """Closes the connection at once."""
        self.is_closed = self.is_aborted = True

    def is_closing(self) -> bool:
        """Whether the connection is being closed."""
        return self.is_closed

    def get_write_buffer_size(self) -> int:
        """How many bytes the client hasn't taken."""
        return self.unread

    def get_extra_info(self, name: str) -> Any:
        """Of the socket its state and its addresses are known."""
        return self if name == "socket" else None

    def getpeername(self) -> tuple[str, int]:
        """The address of the client."""
        return self.peer, 50_000

    def getsockname(self) -> tuple[str, int]:
        """That of the server."""
        return "127.0.0.1", 8000

    def getsockopt(self, *_: int) -> bytes:
        """Its state."""
        return self.state

    def setsockopt(self, *_: object) -> None:
        """What the system keeps isn't known."""

    def pause_reading(self) -> None:
        """Nothing is read by itself."""

    resume_reading = set_write_buffer_limits = pause_reading


class Clients:
    """Clients of a server that answers when a test lets it."""

    def __init__(self, most: int = 100, *proxies: str, root_path: str = "") -> None:
        self.clock = FakeClock()
        self.refused: list[tuple[str, int]] = []
        """Clients whose requests were refused here, with the statuses."""
        self.all = Connections(
            most,
            self.clock,
            Peers(proxies),
            PATIENCE,
            self._note,
        )
        self.answering = asyncio.Event()
        self.scopes: list[dict[str, Any]] = []
        """Of the requests that were begun."""
        self._state = ServerState()
        self._config = Config(
            self._app,
            interface="asgi3",
            lifespan="off",
            loop="none",
            log_config=None,
            proxy_headers=False,
            root_path=root_path,
        )
        self._config.load()

    def _note(self, client: str, problem: Problem, _: float) -> None:
        self.refused.append((client, problem.status))

    async def _app(
        self, scope: Any, _: Any, send: Callable[[dict[str, Any]], Awaitable[None]]
    ) -> None:
        self.scopes.append(scope)
        await self.answering.wait()
        headers = [(b"content-length", b"2")]
        await send({"type": "http.response.start", "status": 200, "headers": headers})
        await send({"type": "http.response.body", "body": b"ok"})

    def connect(self, peer: str = "127.0.0.1") -> tuple[Connection, FakeTransport]:
        """A new connection."""
        connection = Connection(self.all, config=self._config, server_state=self._state, **GIVEN)
        transport = FakeTransport(peer)
        connection.connection_made(transport)
        return connection, transport


def test_what_later_versions_give(monkeypatch: pytest.MonkeyPatch) -> None:
    """uvicorn 0.32 gives the state of the application too: its own class takes it."""
    own, state = dict(GIVEN), {"one": 1}

    def begin(
        self: HttpToolsProtocol, config: Config, server_state: ServerState, app_state: object
    ) -> None:
        BEGIN(self, config, server_state, **own)
        self.taken = app_state

    monkeypatch.setitem(GIVEN, "app_state", state)
    monkeypatch.setattr(HttpToolsProtocol, "__init__", begin)

    async def run() -> None:
        connection, _ = Clients().connect()
        assert connection.taken is state

    run_within(run())


def test_paths_are_those_of_the_request(monkeypatch: pytest.MonkeyPatch) -> None:
    """Later versions put what addresses begin with at the server in front before each of them."""
    complete = HttpToolsProtocol.on_headers_complete

    def complete_later(self: HttpToolsProtocol) -> None:
        complete(self)
        self.scope["path"] = self.root_path + self.scope["path"]

    monkeypatch.setattr(HttpToolsProtocol, "on_headers_complete", complete_later)

    async def run() -> None:
        clients = Clients(root_path="/olr")
        connection, _ = clients.connect()
        connection.data_received(HEAD + b"\r\n")
        await turns()
        (scope,) = clients.scopes
        assert (scope["root_path"], scope["path"]) == ("/olr", "/health")

    run_within(run())


@pytest.mark.parametrize("protocol, status", [("h2c", b"200 "), ("websocket", b"400 ")])
def test_other_protocols_in_later_versions(
    monkeypatch: pytest.MonkeyPatch, protocol: str, status: bytes
) -> None:
    """They ask whether a request is to be handled by the protocol that it offers, and call a method of another name then."""

    def receive(self: HttpToolsProtocol, data: bytes) -> None:
        try:
            self.parser.feed_data(data)
        except HttpParserUpgrade:
            if self._should_upgrade():
                self.handle_websocket_upgrade()

    monkeypatch.setattr(HttpToolsProtocol, "data_received", receive)

    async def run() -> None:
        clients = Clients()
        connection, transport = clients.connect()
        offer = f"Connection: Upgrade\r\nUpgrade: {protocol}\r\n\r\n"
        connection.data_received(HEAD + offer.encode())
        clients.answering.set()
        await turns(100)
        assert transport.written.startswith(b"HTTP/1.1 " + status) and transport.is_closed

    run_within(run())


def test_what_of_uvicorn_is_used() -> None:
    """`uvicorn_parts` names all of it: what a connection uses and doesn't have itself, and the only imports of what isn't public."""
    folder = Path(connections.__file__).parent.parent
    (of_connection,) = (
        part
        for part in ast.parse(Path(connections.__file__).read_text(encoding="utf-8")).body
        if isinstance(part, ast.ClassDef) and part.name == "Connection"
    )
    uses = [
        node
        for node in ast.walk(of_connection)
        if isinstance(node, ast.Attribute)
        and isinstance(node.value, ast.Name)
        and node.value.id == "self"
    ]
    own = {one.attr for one in uses if isinstance(one.ctx, ast.Store)} | vars(Connection).keys()
    named = UvicornConnection.__annotations__.keys() | vars(UvicornConnection).keys()
    assert {one.attr for one in uses} - own <= named
    private = re.compile(
        r"(?m)^\s*(?:from|import) (?:uvicorn[.\w]*\.\w+|fiona\._\w+)|\"(?:uvicorn|fiona)\."
    )
    found = {
        file.name
        for file in folder.rglob("*.py")
        if private.search(file.read_text(encoding="utf-8"))
    }
    assert found == {"uvicorn_parts.py", "fiona_parts.py"}


@pytest.mark.parametrize("ahead, answers", [(16, 17), (17, 1)])
def test_requests_that_are_sent_ahead(ahead: int, answers: int) -> None:
    """Sixteen may be sent while one is answered. With one more all but that one are left, and the connection is closed."""

    async def run() -> None:
        clients = Clients()
        connection, transport = clients.connect()
        connection.data_received((HEAD + b"\r\n") * (1 + ahead))
        clients.answering.set()
        await turns(100)
        assert transport.written.count(b"HTTP/1.1 200 OK") == answers
        assert transport.is_closed == (answers == 1)

    run_within(run())


def test_clients_that_leave(caplog: pytest.LogCaptureFixture) -> None:
    """Whatever they had asked: the request that is answered hears of it, those behind it aren't answered, and nothing is logged."""

    async def run() -> None:
        clients = Clients()
        connection, transport = clients.connect()
        connection.data_received((HEAD + b"\r\n") * 16)
        await turns()
        assert len(clients.scopes) == 1 and not clients.scopes[0]["left"].done()
        transport.is_closed = True
        connection.connection_lost(None)
        assert clients.scopes[0]["left"].done() and connection.is_idle()
        clients.answering.set()
        await turns(100)
        assert len(clients.scopes) == 1 and transport.written == b""

    run_within(run())
    assert not caplog.records


@pytest.mark.parametrize("state, is_left", [(b"\x01", False), (b"\x08", True), (b"\x07", True)])
def test_clients_that_leave_while_nothing_is_read(state: bytes, is_left: bool) -> None:
    """Then the socket is asked: it knows that the other side has closed it, or is gone."""

    async def run() -> None:
        clients = Clients()
        connection, transport = clients.connect()
        transport.state = state
        connection.data_received(HEAD + b"\r\n")
        await turns()
        clients.all.look()
        assert not transport.is_aborted
        connection.data_received(HEAD + b"\r\n")
        clients.all.look()
        assert (transport.is_aborted, clients.scopes[0]["left"].done()) == (is_left, is_left)
        clients.answering.set()
        await turns(20)

    run_within(run())


@pytest.mark.parametrize("sent", [b"", b"GET /", HEAD + b"X: "])
def test_heads_that_dont_come(sent: bytes) -> None:
    """Also those of which a byte comes now and then: each has ten seconds."""

    async def run() -> None:
        clients = Clients()
        connection, transport = clients.connect()
        connection.data_received(sent)
        for _ in range(10):
            clients.clock.now += 1
            if sent:
                connection.data_received(b"y")
            clients.all.look()
            assert not transport.is_closed
        clients.clock.now += 0.1
        clients.all.look()
        assert transport.is_aborted and len(clients.all) == 0

    run_within(run())


def test_connections_that_are_idle() -> None:
    """They are closed after a minute, from when the last request was answered on."""

    async def run() -> None:
        clients = Clients()
        connection, transport = clients.connect()
        connection.data_received(HEAD + b"\r\n")
        await turns(20)
        clients.clock.now += 1000
        clients.all.look()
        assert not transport.is_closed
        clients.answering.set()
        await turns(20)
        assert b"HTTP/1.1 200 OK" in transport.written
        clients.clock.now += 60
        clients.all.look()
        assert not transport.is_closed
        clients.clock.now += 0.1
        clients.all.look()
        assert transport.is_aborted

    run_within(run())


def test_too_many_connections() -> None:
    """The one that has been silent for longest is closed for a new one, and a new one if none is idle."""

    async def run() -> None:
        clients = Clients(most=2)
        (first, one), (_, two) = clients.connect(), clients.connect()
        first.data_received(b"GET /")
        _, three = clients.connect()
        assert (one.is_aborted, two.is_aborted, three.is_aborted) == (False, True, False)
        first.data_received(b"health HTTP/1.1\r\nHost: localhost\r\n\r\n")
        third, four = clients.connect()
        assert (one.is_aborted, three.is_aborted, four.is_aborted) == (False, True, False)
        third.data_received(HEAD + b"\r\n")
        _, five = clients.connect()
        assert (one.is_aborted, four.is_aborted, five.is_aborted) == (False, False, True)
        clients.answering.set()
        await turns(20)

    run_within(run())


def test_connections_of_one_client() -> None:
    """It has a quarter of them. Where it has more, one of its own is closed: one that is idle, or whose body is waited for. Others keep theirs,
    and a proxy, which speaks for many, has as many as there are."""

    async def run() -> None:
        clients = Clients(40, "10.0.0.9")
        _, other = clients.connect("10.0.0.1")
        there = [clients.connect("10.0.0.2") for _ in range(10)]
        there[0][0].data_received(POST)
        for connection, _ in there[1:]:
            connection.data_received(HEAD + b"\r\n")
        _, eleventh = clients.connect("10.0.0.2")
        assert [one.is_aborted for _, one in there] == [True] + 9 * [False]
        assert not eleventh.is_aborted and len(clients.all) == 11
        eleventh.is_closed = True
        clients.all.look()
        proxied = [clients.connect("10.0.0.9") for _ in range(29)]
        assert not other.is_aborted and not any(one.is_aborted for _, one in proxied)
        clients.answering.set()
        await turns(20)

    run_within(run())


@pytest.mark.parametrize(
    "peer, forwarded, client",
    [
        ("10.0.0.1", b"1.2.3.4", "10.0.0.1"),
        ("10.0.0.9", b"1.2.3.4", "1.2.3.4"),
        ("::ffff:10.0.0.9", b"6.6.6.6, 1.2.3.4", "1.2.3.4"),
        ("10.0.0.9", b"2001:db8:1:2:3::4", "2001:db8:1:2::/64"),
        ("10.0.0.9", b"unknown", "10.0.0.9"),
        ("10.0.0.9", b"1.2.3.4,", "10.0.0.9"),
        ("::ffff:10.0.0.1", b"", "10.0.0.1"),
        ("2001:db8:1:2:3::4", b"", "2001:db8:1:2::/64"),
        ("fe80::1%eth0", b"", "fe80::/64"),
        ("::1", b"", "::1"),
    ],
)
def test_who_asks(peer: str, forwarded: bytes, client: str) -> None:
    """The address of the socket; behind a proxy that is named the last one that it says. Of IPv6 it is the network."""

    async def run() -> None:
        clients = Clients(100, "10.0.0.9")
        connection, _ = clients.connect(peer)
        connection.data_received(HEAD + b"X-Forwarded-For: %b\r\n\r\n" % forwarded)
        await turns()
        assert clients.scopes[0]["client"][0] == client
        clients.answering.set()
        await turns(20)

    run_within(run())


@pytest.mark.parametrize("rate, is_late", [(0, True), (40, True), (90, True), (110, False)])
def test_bodies_that_come_slowly(rate: int, is_late: bool) -> None:
    """With less than a hundred bytes a second, whatever came before, they are refused when patience is over."""

    async def run() -> None:
        clients = Clients()
        connection, transport = clients.connect()
        connection.data_received(POST + b"x" * 5000)
        await turns()
        for _ in range(int(PATIENCE)):
            clients.clock.now += 1
            clients.all.look()
            if rate:
                connection.data_received(b"x" * rate)
        assert not transport.is_closed
        for _ in range(200):
            clients.clock.now += 1
            clients.all.look()
            if rate:
                connection.data_received(b"x" * rate)
        assert transport.is_closed == is_late
        assert transport.written.startswith(b"HTTP/1.1 408 ") == is_late
        if is_late:
            assert clients.scopes[0]["left"].done() and clients.scopes[0]["status"] == 408
        clients.answering.set()
        await turns(20)

    run_within(run())


def test_bodies_that_arent_waited_for() -> None:
    """It isn't the client's turn where its body isn't read, nor where it was told so, nor before it may begin to send."""

    async def run() -> None:
        clients = Clients()
        full, one = clients.connect()
        full.data_received(POST + b"x" * 70_000)
        paused, two = clients.connect()
        paused.data_received(POST)
        await turns()
        clients.scopes[1]["pace"].is_paused = lambda: True
        asking, three = clients.connect()
        asking.data_received(POST.replace(b"Host", b"Expect: 100-continue\r\nHost"))
        for _ in range(5):
            clients.clock.now += PATIENCE
            clients.all.look()
        assert not (one.is_closed or two.is_closed or three.is_closed)
        clients.scopes[1]["pace"].is_paused = lambda: False
        clients.clock.now += PATIENCE + 1
        clients.all.look()
        assert two.is_closed
        clients.answering.set()
        await turns(20)

    run_within(run())


@pytest.mark.parametrize("rate, is_late", [(0, True), (90, True), (110, False)])
def test_answers_that_are_taken_slowly(rate: int, is_late: bool) -> None:
    """Their connections are closed; those of which more is taken aren't."""

    async def run() -> None:
        clients = Clients()
        connection, transport = clients.connect()
        connection.data_received(HEAD + b"\r\n")
        clients.answering.set()
        await turns(20)
        transport.unread = 100_000
        for _ in range(500):
            clients.clock.now += 1
            transport.unread -= rate
            clients.all.look()
        assert transport.is_aborted == is_late

    run_within(run())


def test_answers_that_are_taken_in_the_end() -> None:
    """What was taken at once, between two looks, counts as well."""

    async def run() -> None:
        clients = Clients()
        connection, transport = clients.connect()
        connection.data_received(HEAD + b"\r\n")
        await turns()
        transport.unread = 100_000
        for _ in range(5):
            clients.clock.now += PATIENCE - 1
            clients.all.look()
            connection.pause_writing()
            connection.resume_writing()
        assert not transport.is_closed
        clients.answering.set()
        await turns(20)

    run_within(run())


@pytest.mark.parametrize(
    "sent, status", [(b"nonsense\r\n\r\n", 400), (HEAD + b"X: %b\r\n\r\n" % (b"x" * 20_000), 431)]
)
def test_what_is_refused_is_known(sent: bytes, status: int) -> None:
    """Also where no request could be read."""

    async def run() -> None:
        clients = Clients()
        connection, transport = clients.connect("10.0.0.7")
        connection.data_received(sent)
        assert clients.refused == [("10.0.0.7", status)] and transport.is_closed

    run_within(run())


def test_answers_that_arent_taken() -> None:
    """Beyond 64 MiB of all together the connections are closed that are silent for longest, as many as it takes."""

    async def run() -> None:
        clients = Clients()
        clients.answering.set()
        there = [clients.connect() for _ in range(3)]
        for connection, transport in there:
            connection.data_received(HEAD + b"\r\n")
            await turns(20)
            transport.unread = 25 << 20
        clients.all.look()
        assert [transport.is_aborted for _, transport in there] == [True, False, False]
        there[1][1].unread = 39 << 20
        clients.all.look()
        assert not there[1][1].is_aborted

    run_within(run())


@pytest.mark.parametrize("size, status", [(8192, b"200"), (8193, b"414")])
def test_the_longest_url(size: int, status: bytes) -> None:
    run_within(_ask(b"GET /".ljust(4 + size, b"x") + b" HTTP/1.1\r\nHost: x\r\n\r\n", status))


@pytest.mark.parametrize("more, status", [(0, b"200"), (1, b"431")])
def test_the_longest_head(more: int, status: bytes) -> None:
    """All names and values together have 16,384 bytes."""
    sizes = (8000, 16_384 - 8000 - len("HostxAB") + more)
    fields = [b"%c: %b\r\n" % pair for pair in zip(b"AB", (b"y" * size for size in sizes))]
    head = b"GET / HTTP/1.1\r\nHost: x\r\n" + b"".join(fields) + b"\r\n"
    run_within(_ask(head, status))


@pytest.mark.parametrize(
    "fields, status",
    [
        (b"Upgrade: h2c\r\n", b"200"),
        (b"Upgrade: H2C\r\n", b"200"),
        (b"Upgrade: websocket\r\n", b"400"),
        (b"Upgrade: h2c\r\nContent-Length: 1\r\n", b"400"),
        (b"Upgrade: h2c\r\nTransfer-Encoding: chunked\r\n", b"400"),
    ],
)
def test_offers_of_other_protocols(fields: bytes, status: bytes) -> None:
    """HTTP/2 may be offered, but not with a body, of which a part would be passed over."""
    run_within(_ask(HEAD + b"Connection: Upgrade\r\n" + fields + b"\r\n", status))


async def _ask(data: bytes, status: bytes) -> None:
    """Sees that some bytes are answered by a status."""
    clients = Clients()
    clients.answering.set()
    connection, transport = clients.connect()
    connection.data_received(data)
    await turns(20)
    assert transport.written.startswith(b"HTTP/1.1 %b " % status)
    assert transport.is_closed or status == b"200"
