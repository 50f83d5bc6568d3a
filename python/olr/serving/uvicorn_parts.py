"""What isn't public in uvicorn and is used here all the same: all of it, and why. A later version may take it away.

It was tried with uvicorn 0.17 (Debian 12) and 0.32 (Debian 13). No setting of uvicorn bounds the head of a request, tells a slow client from a dead
one, or lets what nobody waits for any more end. So `olr.serving.connections` extends its class of connections.
"""

import asyncio
import click
import socket
import uvicorn
from collections import deque
from collections.abc import Iterator
from contextlib import contextmanager
from httptools import HttpRequestParser
from typing import Any, Protocol
from uvicorn.protocols.http.httptools_impl import HttpToolsProtocol

LOG = "uvicorn.error"
"""The log of what isn't HTTP."""


class Flow(Protocol):
    """Of the class `FlowControl`."""

    read_paused: bool
    """Whether a body is read no further until more of it is taken: a client isn't slow then."""


class Cycle(Protocol):
    """Of the class `RequestResponseCycle`: a request that is answered."""

    disconnected: bool
    """Is set where its client has left: uvicorn sets that of the last request alone."""
    message_event: asyncio.Event
    """Is set then too: what waits for a part of a body hears of it."""
    waiting_for_100_continue: bool
    """Whether the client waits until it is told that it may send its body: it isn't slow then."""
    response_started: bool
    """Whether it can no longer be refused."""


class UvicornConnection(HttpToolsProtocol):  # type: ignore[misc]
    """uvicorn's connection. Its other methods are those of `asyncio.Protocol` and of the callbacks of httptools."""

    loop: asyncio.AbstractEventLoop
    transport: Any
    parser: HttpRequestParser
    """Another one takes its place where a client offers a protocol that there isn't."""
    flow: Flow
    server_state: Any
    """Of this the `default_headers`, which refusals have too."""
    root_path: str
    """What addresses begin with at the server in front. Later versions put it before each path, whether the server in front took it away or not."""
    client: tuple[str, int]
    """Whom a proxy speaks for takes the place of the proxy."""
    server: tuple[str, int] | None
    scope: Any
    """Of the last request: what is known of it besides goes there."""
    headers: list[tuple[bytes, bytes]]
    url: bytes
    cycle: Cycle
    """The last request."""
    pipeline: deque[Any]
    """The requests behind the one that is answered: there is a limit of them."""

    def _should_upgrade(self) -> bool:
        """Whether a request that offers another protocol is to be handled by that. Later versions ask it, and would answer what asks for one
        that there isn't, without a sign of it."""
        return True

    def handle_websocket_upgrade(self) -> None:
        """What later versions call then."""
        self.handle_upgrade()

    def handle_upgrade(self) -> None:
        """What uvicorn 0.17 calls then."""
        raise NotImplementedError

    def send_400_response(self, msg: str) -> None:
        """Answers what isn't HTTP, or was refused by an exception within a callback."""
        raise NotImplementedError

    def on_response_complete(self) -> None:
        """A request was answered."""
        super().on_response_complete()


class UvicornServer(uvicorn.Server):  # type: ignore[misc]
    """uvicorn's server, which prints its URL, doesn't wait for ever for what runs, and leaves signals to its owner."""

    def __init__(self, config: uvicorn.Config, url: str, seconds_to_end: float) -> None:
        super().__init__(config)
        self._url, self._seconds_to_end = url, seconds_to_end

    async def startup(self, sockets: list[socket.socket] | None = None) -> None:
        """Listens, and prints where."""
        await super().startup(sockets)
        click.echo(self._url)

    def install_signal_handlers(self) -> None:
        """The owner installs them."""

    @contextmanager
    def capture_signals(self) -> Iterator[None]:
        """The same, by the name that it has since uvicorn 0.29."""
        yield

    async def shutdown(self, sockets: list[socket.socket] | None = None) -> None:
        """Takes no more requests, and waits until those that run are answered, or time is over."""

        def force() -> None:
            self.force_exit = True

        timer = asyncio.get_running_loop().call_later(self._seconds_to_end, force)
        await super().shutdown(sockets)
        timer.cancel()

    async def wait_for_left(self, seconds: float) -> None:
        """Waits so long at most for requests that nobody waits for any more, of which uvicorn keeps the tasks."""
        if self.server_state.tasks:
            await asyncio.wait(self.server_state.tasks, timeout=seconds)
