"""What the server listens to, and for how many connections it may open files."""

import logging
import resource
import socket
from typing import NamedTuple

from olr.errors import ToolError
from olr.serving.allowed import in_url
from olr.serving.limits import (
    FILES,
    FILES_OF_WORKER,
    LEAST_CONNECTIONS,
    MOST_BACKLOG,
    MOST_CONNECTIONS,
)

log = logging.getLogger("olr.serving")
ALL_OF_BOTH = "::"
"""The host of a server that listens to all addresses, of IPv6 and of IPv4."""
LOOPBACK_OF = {"0.0.0.0": "127.0.0.1", ALL_OF_BOTH: "::1"}
"""Hosts that stand for all addresses of the machine, by one of which it can be asked on itself."""


class Sockets(NamedTuple):
    """How many connections there are."""

    connections: int
    backlog: int
    """Those that the system keeps until they are taken. All of them are, before one that is too many is closed."""


def sockets_for(workers: int) -> Sockets:
    """Lets this process open as many files as the system admits, and says for how many connections these do. Raises `ToolError` where they are
    too few."""
    _, files = resource.getrlimit(resource.RLIMIT_NOFILE)
    resource.setrlimit(resource.RLIMIT_NOFILE, (files, files))
    spare = FILES + FILES_OF_WORKER * workers
    if files < spare + LEAST_CONNECTIONS:
        needed = spare + LEAST_CONNECTIONS
        raise ToolError(
            f"it may open {files} files (ulimit -n), and needs {needed} with {workers} processes"
        )
    left = files - spare
    backlog = min(MOST_BACKLOG, left // 3)
    connections = min(MOST_CONNECTIONS, left - backlog)
    if connections < MOST_CONNECTIONS:
        text = "there are %d connections at most, as it may open %d files (ulimit -n)"
        log.warning(text, connections, files)
    return Sockets(connections, backlog)


def listen(host: str, port: int, backlog: int) -> socket.socket:
    """A socket that has an address. Raises `ToolError`."""
    is_both = host == ALL_OF_BOTH
    try:
        family = socket.getaddrinfo(host, port, type=socket.SOCK_STREAM)[0][0]
        return socket.create_server(
            (host, port), family=family, backlog=backlog, dualstack_ipv6=is_both
        )
    except OSError as error:
        about = f"{host} port {port} can't be listened to: {error.strerror}"
        raise ToolError(f"{about}: give another --port, or a --host of this machine") from error


def url_of(host: str, port: int) -> str:
    """The URL of a server, as it can be opened on this machine."""
    return f"http://{in_url(LOOPBACK_OF.get(host, host))}:{port}/"
