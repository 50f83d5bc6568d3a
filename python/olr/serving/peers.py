"""Clients by their addresses, and how much of what there is one of them has at most."""

import re
from collections.abc import Iterable
from ipaddress import IPv6Address, ip_address, ip_network
from starlette.types import Scope

from olr.serving.accepting import Field
from olr.serving.problems import busy

BITS_OF_CLIENT = 64
"""A subscriber has a network of IPv6 with so many bits in common at least, and any number of addresses in it."""
PARTS = 4
"""One client has one of so many parts."""
LEAST_PART = 8
"""Or so many things, if that is more: a browser opens six connections."""
FORWARDED, PREFIXED = b"x-forwarded-for", b"x-forwarded-prefix"
PREFIX = re.compile(r"(/[A-Za-z0-9_~-][A-Za-z0-9._~-]*)*")
"""A path below which a server in front has this one, or none."""
MOST_PREFIX = 200
"""Letters of such a path that is said with a request."""


def plain_address(text: str) -> str:
    """An address of a socket as a user writes it: one of IPv4 isn't mapped into IPv6, and none has a zone."""
    try:
        address = ip_address(text.partition("%")[0])
    except ValueError:
        return text
    mapped = address.ipv4_mapped if isinstance(address, IPv6Address) else None
    return str(mapped or address)


def client_at(text: str) -> str | None:
    """The name of a client at an address: that of its network if it is one of IPv6. None if it isn't an address."""
    plain = plain_address(text)
    try:
        address = ip_address(plain)
    except ValueError:
        return None
    if address.version == 4 or address.is_loopback:
        return plain
    return str(ip_network((address, BITS_OF_CLIENT), strict=False))


def client_of(scope: Scope) -> str:
    """The name of the client that sent a request."""
    return str((scope.get("client") or ("",))[0])


class Peers:
    """Who is at the other side of a connection: a client, or a proxy that speaks for many."""

    def __init__(self, proxies: Iterable[str] = ()) -> None:
        """`proxies` are the addresses of proxies whose fields X-Forwarded-For and X-Forwarded-Prefix are believed."""
        self._proxies = frozenset(map(plain_address, proxies))

    def is_proxy(self, address: str) -> bool:
        """Whether an address is that of a proxy."""
        return plain_address(address) in self._proxies

    def client_behind(self, fields: Iterable[Field]) -> str | None:
        """The client that a proxy speaks for: the last address of X-Forwarded-For, which the proxy itself has put there. None if it says
        nothing that is one."""
        said = _last(fields, FORWARDED)
        return None if said is None else client_at(said.rpartition(",")[2].strip())

    def prefix_before(self, fields: Iterable[Field]) -> str | None:
        """The path below which a proxy has the server, by X-Forwarded-Prefix. None if it says nothing that is one."""
        said = _last(fields, PREFIXED)
        is_one = said and len(said) <= MOST_PREFIX and PREFIX.fullmatch(said)
        return said if is_one else None


def _last(fields: Iterable[Field], wanted: bytes) -> str | None:
    """The last field of that name."""
    values = [value for name, value in fields if name == wanted]
    return values[-1].decode("latin-1") if values else None


class Shares:
    """So many things at once, of which one client has a part at most."""

    def __init__(self, most: int, name: str) -> None:
        """`name` is what they are called, in the plural."""
        self.most, self.name = most, name
        self.part = min(most, max(LEAST_PART, most // PARTS))
        self._count = 0
        self._of: dict[str, int] = {}

    def has_part(self, client: str) -> bool:
        """Whether a client has its part."""
        return self._of.get(client, 0) >= self.part

    def take(self, client: str) -> None:
        """One more for a client. Raises as `require_room`."""
        self.require_room(client)
        self.add(client)

    def require_room(self, client: str) -> None:
        """Raises `Problem` where there are too many, or a client has its part."""
        if self._count >= self.most:
            raise busy(f"there are {self.most:,} {self.name} at once")
        if self.has_part(client):
            raise busy(f"one client has {self.part:,} {self.name} at once, and you have them")

    def add(self, client: str) -> None:
        """One more for a client, however many there are."""
        self._count += 1
        self._of[client] = self._of.get(client, 0) + 1

    def give_back(self, client: str) -> None:
        """One less."""
        self._count -= 1
        self._of[client] -= 1
        if not self._of[client]:
            del self._of[client]
