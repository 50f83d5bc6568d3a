"""The server: its settings, what it listens to, and how it ends."""

import asyncio
import signal
import socket
import time
import uvicorn
import uvloop
from collections.abc import Mapping, Sequence
from functools import partial
from pathlib import Path
from typing import Any, NamedTuple

from olr.asking.exchange import Asked
from olr.asking.program import SHIPPED
from olr.confidence.confidence import BAD_CONFIDENCE, SOME_REFERENCE, Confidence, no_confidence
from olr.model.fault import Fault
from olr.model.map_folder import store_of
from olr.serving import logs
from olr.serving.addresses import Service, Shared, application
from olr.serving.allowed import allowed_for
from olr.serving.compressing import Compressing
from olr.serving.connections import Connection, Connections
from olr.serving.folder_map import FolderMap
from olr.serving.front import Front
from olr.serving.limits import SECONDS_IDLE, SECONDS_TO_END, Limits
from olr.serving.listening import Sockets, listen, sockets_for, url_of
from olr.serving.makers import Makers
from olr.serving.maps import ALONE, ByName, Together
from olr.serving.meters import Meters
from olr.serving.pages import policy_of
from olr.serving.peers import Peers
from olr.serving.served import Served
from olr.serving.uvicorn_parts import UvicornServer


class Settings(NamedTuple):
    """What the options of the command say."""

    maps: Mapping[str, Path]
    """Folders and stores by their names: an empty one for a map alone."""
    host: str
    port: int
    """0 for any that is free."""
    workers: int
    """Processes of the program for each map."""
    limits: Limits
    names: Sequence[str] = ()
    """Other names that the server has."""
    origins: Sequence[str] = ()
    """Other sites whose pages may ask."""
    tiles: str | None = None
    """The URL of tiles for the page."""
    confidence: Path | None = None
    """The file of a confidence: by default the one that comes with the package."""
    proxies: Sequence[str] = ()
    """Addresses of proxies that say who asks."""
    root_path: str = ""
    """With which addresses begin at the server in front."""


def serve(settings: Settings) -> None:
    """Serves until SIGTERM or SIGINT comes. Raises `ToolError` if the map can't be read, or the address can't be listened to."""
    with asyncio.Runner(loop_factory=uvloop.new_event_loop) as runner:
        runner.run(_serve(settings))


async def _serve(settings: Settings) -> None:
    # Else it would end the server until the map is read, which is what it asks for.
    asyncio.get_running_loop().add_signal_handler(signal.SIGHUP, lambda: None)
    sockets = sockets_for(settings.workers * len(settings.maps))
    listening = listen(settings.host, settings.port, sockets.backlog)
    confidence = Confidence.of_file(settings.confidence or SHIPPED)
    served = {name: _served(map, settings, confidence) for name, map in settings.maps.items()}
    together = Together(served)
    try:
        await together.open()
        for one in served.values():
            await _require_confidence(one, confidence)
        await _answer(settings, together, listening, sockets, Makers(settings.limits, confidence))
    finally:
        listening.close()
        await together.close()


def _served(map: Path, settings: Settings, confidence: Confidence) -> Served:
    """A map."""
    if store_of(map) is not None:
        from olr.serving.store_map import StoreMap

        return StoreMap(map, settings.limits, confidence)
    return FolderMap(map, settings.workers, settings.limits, confidence)


async def _require_confidence(served: Served, confidence: Confidence) -> None:
    """Raises `ToolError` if the program says that a confidence is none."""
    answer = await served.ask(Asked("places"), SOME_REFERENCE.encode())
    if answer.fault == BAD_CONFIDENCE:
        raise no_confidence(confidence, Fault(answer.fault))


async def _answer(
    settings: Settings,
    together: Together,
    listening: socket.socket,
    sockets: Sockets,
    makers: Makers,
) -> None:
    """Answers what comes, until a signal ends it."""
    port = listening.getsockname()[1]
    maps, meters = together.maps, Meters(together.figures)
    service = Service(
        next(iter(maps.values())),
        settings.limits,
        meters,
        Shared.of(settings.limits, makers),
        settings.tiles,
        lambda: bool(server.should_exit),
        maps,
    )
    apps = {name: application(service._replace(served=one)) for name, one in maps.items()}
    app = apps.get(ALONE) or ByName(apps)
    addresses = next(iter(apps.values())).paths
    allowed = allowed_for(settings.host, port, settings.names, settings.origins)
    front = Front(Compressing(app), addresses, allowed, meters)
    connections = Connections(
        sockets.connections,
        time.monotonic,
        Peers(settings.proxies),
        settings.limits.time,
        front.refused,
    )
    config = _config(settings, front, connections, sockets.backlog)
    server = UvicornServer(config, url_of(settings.host, port), SECONDS_TO_END)
    renewing = _handle_signals(server, together)
    watching = [asyncio.create_task(work) for work in (connections.watch(), logs.watch())]
    try:
        await server.serve(sockets=[listening])
    finally:
        for task in (*watching, *renewing):
            task.cancel()
        # What isn't answered by now is left: its connection is closed, and its process ends.
        connections.close()
        await together.close()
        await makers.close()
        await server.wait_for_left(1)


def _handle_signals(server: UvicornServer, maps: Together) -> "set[asyncio.Task[None]]":
    """Lets SIGTERM and SIGINT end the server, a second one at once, and SIGHUP read the map anew. The answer has the tasks that do so."""
    loop = asyncio.get_running_loop()
    for ending in (signal.SIGINT, signal.SIGTERM):
        loop.add_signal_handler(ending, server.handle_exit, ending, None)
    renewing: "set[asyncio.Task[None]]" = set()

    def renew() -> None:
        task = loop.create_task(maps.renew())
        renewing.add(task)
        task.add_done_callback(renewing.discard)

    loop.add_signal_handler(signal.SIGHUP, renew)
    return renewing


def _config(settings: Settings, front: Front, connections: Connections, backlog: int) -> Any:
    return uvicorn.Config(
        front,
        backlog=backlog,
        http=partial(Connection, connections),
        ws="none",
        lifespan="off",
        loop="none",
        log_config=None,
        access_log=False,
        proxy_headers=False,
        root_path=settings.root_path,
        server_header=False,
        headers=list(_headers(settings).items()),
        timeout_keep_alive=int(SECONDS_IDLE),
    )


def _headers(settings: Settings) -> dict[str, str]:
    """The fields of all answers."""
    return {
        "Content-Security-Policy": policy_of(settings.tiles),
        "X-Content-Type-Options": "nosniff",
        "Referrer-Policy": "no-referrer",
        "Cross-Origin-Resource-Policy": "cross-origin" if settings.origins else "same-origin",
    }
