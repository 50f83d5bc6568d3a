"""Connections: uvicorn's protocol with limits of a head's size and time, and of how many there are at once."""

import asyncio
import logging
import socket
import struct
import time
from collections import deque
from collections.abc import Callable
from httptools import HttpRequestParser
from typing import Any

from olr.progress import Clock
from olr.serving.limits import (
    LEAST_RATE,
    MOST_AHEAD,
    MOST_HEAD,
    MOST_UNREAD,
    MOST_URL,
    SECONDS_IDLE,
    SECONDS_OF_HEAD,
    Limits,
)
from olr.serving.peers import Peers, Shares, client_at, plain_address
from olr.serving.problems import MEDIA_TYPE, Problem, bad_request
from olr.serving.uvicorn_parts import Cycle, UvicornConnection

log = logging.getLogger("olr.serving")
OF_UPGRADES = {b"connection", b"http2-settings", b"upgrade"}
"""Fields of a head that offers another protocol."""
OF_BODIES = {b"content-length", b"transfer-encoding"}
"""Fields of a head before a body."""
TICK = 0.5
"""Seconds between two looks at what has to be closed."""
SLOW = Problem(408, "RequestTimeout", f"a body comes with {LEAST_RATE} bytes a second at least")
Refused = Callable[[str, Problem, float], None]
"""Hears of a client whose request was refused, and how many seconds behind its beginning."""
ESTABLISHED = b"\x01"
"""The state of a connection of which no side is closed, as Linux has it."""

RESET = struct.pack("ii", 1, 0)
"""A connection that is closed so waits no seconds for what is to be sent: it is reset."""


class Pace:
    """How a client sends a body, or takes an answer: one that falls behind LEAST_RATE by some seconds is too slow."""

    __slots__ = ("_seconds", "_left", "is_paused")

    def __init__(self, seconds: float) -> None:
        self._seconds = self._left = seconds
        self.is_paused: Callable[[], bool] = bool
        """Whether nothing is to come now."""

    def moved(self, size: int) -> None:
        """So many bytes have come."""
        self._left = min(self._seconds, self._left + size / LEAST_RATE)

    def is_too_slow(self, seconds: float) -> bool:
        """Whether it is, once so many seconds more have passed."""
        if not self.is_paused():
            self._left -= seconds
        return self._left < 0


class Connections:
    """All connections, the one that has been silent for longest first. One client has a part of them."""

    def __init__(
        self,
        most: int,
        clock: Clock = time.monotonic,
        peers: Peers = Peers(),
        patience: float = Limits().time,
        refused: Refused = lambda *_: None,
    ) -> None:
        """`patience` is for how many seconds a client may be slower than LEAST_RATE. `refused` hears of each request that is refused here."""
        self.clock, self.peers, self.patience, self.refused = clock, peers, patience, refused
        self._shares = Shares(most, "connections")
        self._there: "dict[Connection, None]" = {}

    def __len__(self) -> int:
        return len(self._there)

    def add(self, connection: "Connection") -> None:
        """A new one. Where there are too many, the one that has been idle for longest is closed; if none is idle, the new one. Where its client
        has too many, one of that client's: also one whose body is waited for."""
        own, closed = connection.peer, None
        if own is not None and self._shares.has_part(own):
            log.warning(
                "%s has its part of the connections, %d: if it is a proxy, --proxy names it",
                own,
                self._shares.part,
                extra={"cause": ("connections", own), "most": 1},
            )
            there = (one for one in self._there if one.peer == own)
            closed = next((one for one in there if one.is_idle() or one.is_in_body), connection)
        elif len(self._there) >= self._shares.most:
            closed = next((one for one in self._there if one.is_idle()), connection)
        if closed is not None:
            self._abort(closed)
        if closed is not connection:
            self._there[connection] = None
            self._shares.add(own or "")

    def heard(self, connection: "Connection") -> None:
        """One that sent something, or was answered."""
        if connection in self._there:
            del self._there[connection]
            self._there[connection] = None

    def discard(self, connection: "Connection") -> None:
        """One that is closed."""
        if connection in self._there:
            del self._there[connection]
            self._shares.give_back(connection.peer or "")

    def close(self) -> None:
        """Closes all of them."""
        for one in list(self._there):
            self._abort(one)

    async def watch(self) -> None:
        """Closes what has to be closed, until it is cancelled."""
        while True:
            await asyncio.sleep(TICK)
            self.look()

    def look(self) -> None:
        """Closes those that are silent or slow for too long or whose client has left, and those that don't take their answers where these are
        too much."""
        now = self.clock()
        for one in list(self._there):
            is_slow = one.is_slow(now)
            if one.is_late(now) or one.is_left():
                self._abort(one)
            elif is_slow:
                self.discard(one)
                one.give_up()
        unread = {one: one.unread() for one in self._there if one.is_idle()}
        too_much = sum(unread.values()) - MOST_UNREAD
        for one, size in unread.items():
            if too_much > 0 and size:
                self._abort(one)
                too_much -= size

    def _abort(self, connection: "Connection") -> None:
        """Closes one, whatever it has to send."""
        self.discard(connection)
        connection.drop()


class Connection(UvicornConnection):
    """A connection. A head that is too long, or isn't HTTP, is answered by a problem document.

    What a request's scope has besides: `client` is the name of the client, with a port; `left` a future that is done when the client has
    gone; `abort` closes the connection; `pace` is told when no body is to come; and `status` is there where the connection was closed with
    that one in place of an answer.
    """

    def __init__(self, connections: Connections, **given: Any) -> None:
        """`given` is what uvicorn's server gives: it differs with the version."""
        super().__init__(**given)
        self._all = connections
        self._root_path, self.root_path = self.root_path, ""
        self.peer: str | None = None
        """The client; None for a proxy, which speaks for many."""
        self.is_in_body = False
        """Whether a part of a body is still to come."""
        self._heard = self._looked = self._head_since = connections.clock()
        self._is_in_head = True
        self._bytes_of_head = self._unread = 0
        self._sending = self._taking = Pace(connections.patience)
        self._problem: Problem | None = None
        self._left: asyncio.Future[None] = self.loop.create_future()
        self._cycles: deque[Cycle] = deque()

    def is_idle(self) -> bool:
        """Whether no request is being answered."""
        return not self._cycles

    def unread(self) -> int:
        """How many bytes of answers its client hasn't taken."""
        return int(self.transport.get_write_buffer_size())

    def is_late(self, now: float) -> bool:
        """Whether its head is waited for too long, or it has been idle for too long: it asks nothing."""
        if self._is_in_head and now - self._head_since > SECONDS_OF_HEAD:
            return True
        return self.is_idle() and now - self._heard > SECONDS_IDLE

    def is_slow(self, now: float) -> bool:
        """Whether its body comes too slowly, or its answer is taken so. This is asked at each look."""
        seconds, self._looked = now - self._looked, now
        unread, before = self.unread(), self._unread
        self._unread = unread
        if unread < before:
            self._taking.moved(before - unread)
            self._heard = now
        if self._is_waiting_for_body() and self._sending.is_too_slow(seconds):
            return True
        return unread > 0 and self._taking.is_too_slow(seconds)

    def _is_waiting_for_body(self) -> bool:
        """Whether it is the client's turn to send of a body. It isn't where reading is paused, or it was to be told that it may begin."""
        return (
            self.is_in_body
            and not self.flow.read_paused
            and not self.cycle.waiting_for_100_continue
        )

    def is_left(self) -> bool:
        """Whether its client has closed it while nothing is read, where no other event tells."""
        if not self.flow.read_paused or self.transport.is_closing():
            return False
        state = self.transport.get_extra_info("socket").getsockopt(
            socket.IPPROTO_TCP, socket.TCP_INFO, 1
        )
        return bool(state != ESTABLISHED)

    def connection_made(self, transport: Any) -> None:
        """A client has connected."""
        super().connection_made(transport)
        host, port = self.client or ("", 0)
        self.client = client_at(host) or "", port
        self.peer = None if self._all.peers.is_proxy(host) else self.client[0]
        if self.server is not None:
            self.server = plain_address(self.server[0]), self.server[1]
        self._all.add(self)

    def resume_writing(self) -> None:
        """The client has taken most of what was to be sent."""
        super().resume_writing()
        self._taking = Pace(self._all.patience)

    def eof_received(self) -> None:
        """The client sends no more. Nothing tells whether it still reads, so it has left."""
        self._leave()

    def connection_lost(self, exc: Exception | None) -> None:
        """The connection is closed."""
        self._all.discard(self)
        self._leave()
        super().connection_lost(exc)

    def abort(self) -> None:
        """Closes the connection at once, whatever it has to send."""
        self._leave()
        self.transport.abort()

    def drop(self) -> None:
        """Closes the connection at once. The system keeps nothing for its client either, which it would as long as that is there."""
        if self.unread():
            self.transport.get_extra_info("socket").setsockopt(
                socket.SOL_SOCKET, socket.SO_LINGER, RESET
            )
        self.abort()

    def give_up(self) -> None:
        """Closes a connection that is too slow. It says so if nothing was answered yet."""
        self.scope["status"] = SLOW.status
        if self.is_in_body and len(self._cycles) == 1 and not self.cycle.response_started:
            self._leave()
            self._say(SLOW)
        else:
            self.drop()

    def _leave(self) -> None:
        """Lets all requests end that aren't answered. uvicorn tells it to the last one alone; the one before would write to a connection that
        is closed, or wait for ever for its body."""
        for cycle in self._cycles:
            cycle.disconnected = True
            cycle.message_event.set()
        self._cycles.clear()
        self.pipeline.clear()
        if not self._left.done():
            self._left.set_result(None)

    def data_received(self, data: bytes) -> None:
        """The client sent something."""
        if self._problem is not None or self._left.done():
            return
        self._heard = self._all.clock()
        self._all.heard(self)
        super().data_received(data)

    def on_message_begin(self) -> None:
        """A head begins."""
        super().on_message_begin()
        self.scope["root_path"] = self._root_path
        self._is_in_head, self._head_since = True, self._all.clock()
        self._bytes_of_head = 0

    def on_url(self, url: bytes) -> None:
        """A part of the URL."""
        super().on_url(url)
        if len(self.url) > MOST_URL:
            self._refuse(Problem(414, "URITooLong", f"a URL has {MOST_URL:,} bytes at most"))

    def on_header(self, name: bytes, value: bytes) -> None:
        """A field of the head."""
        self._bytes_of_head += len(name) + len(value)
        if self._bytes_of_head > MOST_HEAD:
            text = f"the fields of a head have {MOST_HEAD:,} bytes at most"
            self._refuse(Problem(431, "HeadTooLong", text))
        super().on_header(name, value)

    def on_headers_complete(self) -> None:
        """The whole head is there."""
        if self.peer is None:
            peers = self._all.peers
            self.scope["client"] = peers.client_behind(self.headers) or self.client[0], 0
            self.scope["root_path"] = peers.prefix_before(self.headers) or self._root_path
        if not self.url.startswith(b"/"):
            self._refuse(bad_request("a request names a path"))
        if len(self.pipeline) >= MOST_AHEAD:
            self._refuse(bad_request("too many requests are sent before they are answered"))
        self._is_in_head = False
        self.scope["left"] = self._left
        self.scope["abort"] = self.abort
        self._sending = self.scope["pace"] = Pace(self._all.patience)
        super().on_headers_complete()
        if not self.parser.should_upgrade():
            self._cycles.append(self.cycle)
            self.is_in_body = True

    def on_body(self, body: bytes) -> None:
        """A part of a body."""
        self._sending.moved(len(body))
        super().on_body(body)

    def on_message_complete(self) -> None:
        """The whole body is there."""
        self.is_in_body = False
        super().on_message_complete()

    def on_response_complete(self) -> None:
        """A request was answered."""
        if self._cycles:
            self._cycles.popleft()
        self._heard = self._all.clock()
        self._all.heard(self)
        if self._problem is not None:
            self.pipeline.clear()
            self.transport.close()
        super().on_response_complete()

    def _refuse(self, problem: Problem) -> None:
        """Refuses what comes. httptools stops at an exception, and uvicorn answers it by `send_400_response`."""
        self._problem = problem
        raise ValueError(problem.detail)

    def handle_upgrade(self) -> None:
        """Another protocol is asked for, and there is none. Java's client offers HTTP/2 so (`h2c`): it is answered as if it hadn't, and the
        connection is closed then. WebSockets are refused, and so are requests with a body, of which a part was passed over.
        """
        fields = dict(self.headers)
        if fields.get(b"upgrade", b"").lower() != b"h2c" or fields.keys() & OF_BODIES:
            self._problem = bad_request("there is no other protocol than HTTP/1.1 here")
            self.send_400_response(self._problem.detail)
            return
        kept = [field for field in self.headers if field[0] not in OF_UPGRADES]
        line = b"%b %b HTTP/1.1" % (self.scope["method"].encode(), self.url)
        lines = [line, *(b"%b: %b" % field for field in kept), b"connection: close", b"", b""]
        self.parser = HttpRequestParser(self)
        super().data_received(b"\r\n".join(lines))

    def send_400_response(self, msg: str) -> None:
        """Answers what isn't HTTP, or is refused, by a problem document, and closes the connection. While a request before it is being
        answered it is closed behind that; at once, if it is the body of that one."""
        problem = self._problem or bad_request("that isn't HTTP")
        self._problem = problem
        if not self._is_in_head and not self.is_idle():
            self.scope["status"] = problem.status
            self.abort()
            return
        client = self.scope["client"] if self.scope else self.client
        self._all.refused(client[0], problem, self._all.clock() - self._head_since)
        if self.is_idle():
            self._say(problem)

    def _say(self, problem: Problem) -> None:
        """Answers by a problem document, and closes the connection."""
        body = problem.document(self.scope["root_path"] if self.scope else self._root_path)
        fields = [*self.server_state.default_headers, (b"content-type", MEDIA_TYPE.encode())]
        fields += [(b"content-length", b"%d" % len(body)), (b"connection", b"close")]
        head = b"".join(b"%b: %b\r\n" % field for field in fields)
        status = f"HTTP/1.1 {problem.status} {problem.title}\r\n".encode()
        self.transport.write(status + head + b"\r\n" + body)
        self.transport.close()
