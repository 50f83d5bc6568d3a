"""How much a request may take: what no option changes, with the reason, and what options set."""

from typing import NamedTuple

MIB = 1 << 20

MOST_URL = 8192
"""Bytes of a URL. A reference has 344 at most, and three times as many where each is escaped; the options take 200 more."""
MOST_HEAD = 16_384
"""Bytes of the names and values of a head's fields. Browsers send a thousand."""
SECONDS_OF_HEAD = 10.0
"""How long a client may take to send a head that it began, or its first one."""
SECONDS_IDLE = 60.0
"""How long a connection may be idle between requests, or within a body that nobody waits for."""
MOST_CONNECTIONS = 4096
"""Connections at once. Above it the one that has been idle for longest is closed; each takes some 10 KiB."""
MOST_BACKLOG = 2048
"""Connections that the system keeps until they are taken."""
LEAST_CONNECTIONS = 16
"""With fewer, those that are to be taken included, the server doesn't start: a browser has six."""
FILES = 128
"""Files that the server has open besides, or reads for a while: its own, those of the map and of the modules, lists that come, answers that are
taken, and sockets of those that make them."""
FILES_OF_WORKER = 4
"""And so many for each process, which has three pipes."""
MOST_AHEAD = 16
"""Requests on one connection that are sent before those in front of them are answered. Browsers and curl send none."""
MOST_REQUESTS = 1000
"""Requests at once, waiting ones included, but for those whose body is waited for. At a thousand answers a second the last one has waited for
a second."""
MOST_BODIES = 1000
"""Bodies that are waited for at once. Each takes up to 64 KiB."""
LEAST_RATE = 100
"""Bytes a second that a client sends of a body, and takes of an answer. A modem of 9,600 bits a second has ten times as many, and a client
that would hold a thousand bodies has to send 100 KB a second."""
RETRY_AFTER = 2
"""Seconds after which a client that was turned away may ask again."""
ABREAST = 4
"""Requests that one process has at once. It answers one at a time: with the next ones at hand it doesn't wait for the server between
two; but they wait for one that takes long."""
RECORDS_AHEAD = 16
"""Records of one stream that are asked at once, whose answers wait in memory for those before."""
PAGE_ALONE = 100
"""Pages of more matchings are made one at a time as GeoJSON, and asked for one at a time in a stream: one of 1,000 long ones has 18 MB as
JSON and three times as much as GeoJSON."""
MOST_ANSWER = 32 * MIB
"""Bytes of an answer of the program, which is held in memory. A page of 1,000 matchings of 24 points on the largest map has 18 MB."""
MOST_MADE = 128 * MIB
"""Bytes of GeoJSON, which is in a file. That of such a page has 63 MB."""
MOST_TAKEN = 32
"""Answers in files that clients take at once: 4 GiB at most."""
MOST_UNREAD = 64 * MIB
"""Bytes of answers that clients don't take, but for those in files. Above it, looked at each second, connections are closed, the ones that are silent for longest
first."""
SECONDS_TO_READ = 120.0
"""How long a process may take to read the map. The largest map takes a third of a second from memory."""
SECONDS_TO_END = 8.0
"""How long the server waits for what runs once it was told to end. Debian's systemd waits for 90."""
MOST_SAID = 4096
"""Bytes of what a process says on standard error that are kept."""


class Limits(NamedTuple):
    """What options set."""

    time: float = 30.0
    """Seconds that a process may work at one answer, that a request may wait for a process, and that nothing may move in a stream."""
    body: int = 64 * MIB
    """Bytes of a body."""
    look: int = 10_000
    """The greatest `look` that may be asked for."""
